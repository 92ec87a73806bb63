/* The driver with one fault planted, which the runs must catch: tests/beyond/faults. FAULT names it; with NONE this is the driver.

   Every function of the C face that the driver calls is called here first, and what it did is spoilt; the driver itself holds nothing of this. */

#include "../../include/nuoskelma.h"

enum {
    NONE,
    SCRATCH_LEFT,       /* pick: the last word of the scratch is not zero afterwards */
    SCRATCH_AFTER_5,    /* chains: a word of the scratch is not zero after refusal 5 */
    SCRATCH_REFUSED,    /* bridge: a word of the scratch is altered by refusal 6 */
    OUTPUT_BEYOND,      /* ring: the word behind the result is altered */
    OUTPUT_REFUSED,     /* readings: the first word of an output is altered by a refusal */
    BEYOND_OUTPUT,      /* record: a word behind a list is altered */
    LAST_BYTE,          /* record: the place of refusal 17 is that of the last byte that is there */
    SENSE_LOST,         /* record: a coming-from ring is not turned about */
    SENSE_FIRST,        /* record: refusal 22 goes before 17 */
    BEHIND_RECORD,      /* write_record: the byte behind the record is altered */
    OTHER_END,          /* write_record: the last part's bytes are in the other order */
    SIGNS_ALONE,        /* write_record: a coming-from ring is stored from the corner from which it came */
    LENGTHS_FIRST,      /* write_record: refusal 1 goes before 22 */
    PLACE,              /* cover: the place of refusal 3 is one too small */
    OUTLINE,            /* cover: no stream on an edge of many is covered */
    WHOLE_LINE,         /* cover: two corners cover their whole line */
    LIST_PLACE,         /* round: the place of refusal 7 is one too great */
    LENT_INPUT,         /* join: the second ring is altered */
    BACK,               /* readings: the float of refusal 13 is not handed back */
    HAND_REFUSED,       /* hand_step: a refused step moves the hand */
    UNCALLED,           /* turn_about: the library is not called */
    MIDDLE,             /* every entry over lists: the answer is wrong for 256 to 65,535 items alone */
    MOST,               /* chains: the count is wrong for 65,536 samples alone */
    ONE_EAST,           /* ring: the count is wrong if all samples have one east */
    LIMIT_REFUSED,      /* part: 1,000,000 is refused */
    FIRST_RING,         /* join: the first ring is the answer */
    SECOND_RING,        /* sum: the second ring is the answer */
    SCRATCH_AFTER_19,   /* sum: a word of the scratch is altered by refusal 19 */
    SOUTH_BEYOND,       /* sum: a corner beyond the limit in the south alone is not refused */
    SHORT_FIRST,        /* sum: refusal 5 goes before 19 */
    NULL_READ,          /* cover: a word is read through the pointer of an empty list */
    DEEP                /* pick: 65,536 numbers take more than 64 KiB of stack */
};
#ifndef FAULT
#define FAULT NONE
#endif

static int middle(size_t items) { return FAULT == MIDDLE && items >= 256 && items < NUOSKELMA_MOST; }

static nuoskelma_picked faulty_pick(const int32_t *numbers, size_t numbers_len, size_t rank, uint32_t *scratch, size_t scratch_len) {
    nuoskelma_picked r = nuoskelma_pick(numbers, numbers_len, rank, scratch, scratch_len);
    if (FAULT == SCRATCH_LEFT && r.number == 0) scratch[scratch_len - 1] = 1;
    if (FAULT == DEEP && numbers_len == NUOSKELMA_MOST) {
        volatile uint8_t deep[70000];
        for (size_t i = sizeof deep; i > 0; i--) deep[i - 1] = 0;
    }
    if (middle(numbers_len) && r.number == 0) r.value ^= 1;
    return r;
}
#define nuoskelma_pick faulty_pick

static nuoskelma_round_said faulty_round(const int32_t *east, size_t east_len, const int32_t *north, size_t north_len, const uint32_t *list,
    size_t list_len, int32_t a, uint32_t *output, size_t output_len, uint32_t *scratch, size_t scratch_len) {
    nuoskelma_round_said r = nuoskelma_round(east, east_len, north, north_len, list, list_len, a, output, output_len, scratch, scratch_len);
    if (FAULT == LIST_PLACE && r.number == 7) r.place++;
    if (middle(list_len) && r.kind == 2) r.kept++;
    return r;
}
#define nuoskelma_round faulty_round

static nuoskelma_bridged faulty_bridge(const int32_t *east, size_t east_len, const int32_t *north, size_t north_len, int32_t a, uint32_t *scratch,
    size_t scratch_len) {
    nuoskelma_bridged r = nuoskelma_bridge(east, east_len, north, north_len, a, scratch, scratch_len);
    if (FAULT == SCRATCH_REFUSED && r.number == 6) scratch[scratch_len / 2] ^= 1;
    if (middle(east_len) && r.number == 0) r.right++;
    return r;
}
#define nuoskelma_bridge faulty_bridge

static nuoskelma_chained faulty_chains(const int32_t *east, size_t east_len, const int32_t *north, size_t north_len, uint32_t *upper,
    size_t upper_len, uint32_t *lower, size_t lower_len, uint32_t *scratch, size_t scratch_len) {
    nuoskelma_chained r = nuoskelma_chains(east, east_len, north, north_len, upper, upper_len, lower, lower_len, scratch, scratch_len);
    if (FAULT == SCRATCH_AFTER_5 && r.number == 5) scratch[scratch_len - 1] = 1;
    if (FAULT == MOST && r.number == 0 && east_len == NUOSKELMA_MOST) r.lower++;
    if (middle(east_len) && r.number == 0) r.upper++;
    return r;
}
#define nuoskelma_chains faulty_chains

static nuoskelma_counted faulty_ring(const int32_t *east, size_t east_len, const int32_t *north, size_t north_len, int32_t *out_east,
    size_t out_east_len, int32_t *out_north, size_t out_north_len, uint32_t *scratch, size_t scratch_len) {
    nuoskelma_counted r = nuoskelma_ring(east, east_len, north, north_len, out_east, out_east_len, out_north, out_north_len, scratch, scratch_len);
    if (FAULT == OUTPUT_BEYOND && r.number == 0 && r.count < out_north_len) out_north[r.count] ^= 1;
    if (FAULT == ONE_EAST && r.number == 0 && east_len > 1) {
        size_t k = 1;
        while (k < east_len && east[k] == east[0]) k++;
        if (k == east_len) r.count++;
    }
    if (middle(east_len) && r.number == 0) r.count++;
    return r;
}
#define nuoskelma_ring faulty_ring

static nuoskelma_hand_stepped faulty_hand_step(nuoskelma_hand hand) {
    nuoskelma_hand_stepped r = nuoskelma_hand_step(hand);
    if (FAULT == HAND_REFUSED && r.number != 0) r.hand.place++;
    return r;
}
#define nuoskelma_hand_step faulty_hand_step

static nuoskelma_strongest_set faulty_strongest(const int32_t *east, size_t east_len, const int32_t *north, size_t north_len, int32_t x, int32_t y) {
    nuoskelma_strongest_set r = nuoskelma_strongest(east, east_len, north, north_len, x, y);
    if (middle(east_len) && r.number == 0) r.at++;
    return r;
}
#define nuoskelma_strongest faulty_strongest

/* On the lines of how many edges (x, y) lies. */
static size_t on_lines(const int32_t *east, const int32_t *north, size_t corners, int32_t x, int32_t y) {
    size_t on = 0;
    for (size_t k = 0; k < corners; k++) {
        size_t next = k + 1 < corners ? k + 1 : 0;
        int64_t along = (int64_t)east[next] - east[k], across = (int64_t)north[next] - north[k];
        if (along * ((int64_t)y - north[k]) == across * ((int64_t)x - east[k])) on++;
    }
    return on;
}

static nuoskelma_cover_told faulty_cover(const int32_t *east, size_t east_len, const int32_t *north, size_t north_len, int32_t x, int32_t y) {
    nuoskelma_cover_told r = nuoskelma_cover(east, east_len, north, north_len, x, y);
    if (FAULT == PLACE && r.number == 3 && r.place > 0) r.place--;
    if (FAULT == OUTLINE && r.number == 0 && east_len > 5 && on_lines(east, north, east_len, x, y) > 0) r.covered = 0;
    if (FAULT == WHOLE_LINE && r.number == 0 && east_len == 2 && on_lines(east, north, east_len, x, y) == 2) r.covered = 1;
    if (FAULT == NULL_READ && north_len == 0) (void)*(const volatile int32_t *)north;
    if (middle(east_len) && r.number == 0) r.covered ^= 1;
    return r;
}
#define nuoskelma_cover faulty_cover

static nuoskelma_counted faulty_turn_about(const int32_t *east, size_t east_len, const int32_t *north, size_t north_len, int32_t *out_east,
    size_t out_east_len, int32_t *out_north, size_t out_north_len) {
    nuoskelma_counted r = {0, 0, 0};
    if (FAULT == UNCALLED) return r;
    r = nuoskelma_turn_about(east, east_len, north, north_len, out_east, out_east_len, out_north, out_north_len);
    if (middle(east_len) && r.number == 0) r.count++;
    return r;
}
#define nuoskelma_turn_about faulty_turn_about

static nuoskelma_counted faulty_join(const int32_t *east, size_t east_len, const int32_t *north, size_t north_len, const int32_t *east2,
    size_t east2_len, const int32_t *north2, size_t north2_len, int32_t *out_east, size_t out_east_len, int32_t *out_north, size_t out_north_len,
    uint32_t *scratch, size_t scratch_len) {
    nuoskelma_counted r = nuoskelma_join(east, east_len, north, north_len, east2, east2_len, north2, north2_len, out_east, out_east_len, out_north,
        out_north_len, scratch, scratch_len);
    if (FAULT == LENT_INPUT && r.number == 0 && east2_len > 0) *(int32_t *)(void *)east2 ^= 1;
    if (FAULT == FIRST_RING && r.number == 0 && east_len <= out_east_len && east_len <= out_north_len) {
        for (size_t k = 0; k < east_len; k++) {
            out_east[k] = east[k];
            out_north[k] = north[k];
        }
        r.count = east_len;
    }
    if (middle(east_len + east2_len) && r.number == 0) r.count++;
    return r;
}
#define nuoskelma_join faulty_join

/* Whether the least parts of two lists add up to less than the limit lets them. */
static int below(const int32_t *parts, size_t parts_len, const int32_t *parts2, size_t parts2_len) {
    int32_t least = 0, least2 = 0;
    for (size_t k = 0; k < parts_len; k++)
        if (k == 0 || parts[k] < least) least = parts[k];
    for (size_t k = 0; k < parts2_len; k++)
        if (k == 0 || parts2[k] < least2) least2 = parts2[k];
    return least + least2 < -NUOSKELMA_LIMIT;
}

static nuoskelma_counted faulty_sum(const int32_t *east, size_t east_len, const int32_t *north, size_t north_len, const int32_t *east2, size_t east2_len,
    const int32_t *north2, size_t north2_len, int32_t *out_east, size_t out_east_len, int32_t *out_north, size_t out_north_len, uint32_t *scratch,
    size_t scratch_len) {
    nuoskelma_counted r = nuoskelma_sum(east, east_len, north, north_len, east2, east2_len, north2, north2_len, out_east, out_east_len, out_north,
        out_north_len, scratch, scratch_len);
    if (FAULT == SECOND_RING && r.number == 0 && east_len > 0 && east2_len <= out_east_len && east2_len <= out_north_len) {
        for (size_t k = 0; k < east2_len; k++) {
            out_east[k] = east2[k];
            out_north[k] = north2[k];
        }
        r.count = east2_len;
    }
    if (FAULT == SCRATCH_AFTER_19 && r.number == 19) scratch[0] = 0;
    if (FAULT == SOUTH_BEYOND && r.number == 19 && below(north, north_len, north2, north2_len)) r.number = 0;
    if (FAULT == SHORT_FIRST && r.number == 19 && out_east_len == 0) r.number = 5;
    if (middle(east_len + east2_len) && r.number == 0) r.count++;
    return r;
}
#define nuoskelma_sum faulty_sum

static nuoskelma_part_taken faulty_part(double x) {
    nuoskelma_part_taken r = nuoskelma_part(x);
    if (FAULT == LIMIT_REFUSED && r.value == NUOSKELMA_LIMIT) r.number = 13;
    return r;
}
#define nuoskelma_part faulty_part

static nuoskelma_readings_taken faulty_readings(const double *east, size_t east_len, const double *north, size_t north_len, int32_t *out_east,
    size_t out_east_len, int32_t *out_north, size_t out_north_len) {
    nuoskelma_readings_taken r = nuoskelma_readings(east, east_len, north, north_len, out_east, out_east_len, out_north, out_north_len);
    if (FAULT == OUTPUT_REFUSED && r.number != 0 && out_east_len > 0) out_east[0] ^= 1;
    if (FAULT == BACK && r.number == 13) r.back = 0;
    if (middle(east_len) && r.number == 0) r.count--;
    return r;
}
#define nuoskelma_readings faulty_readings

static int32_t part_at(const uint8_t *at) { return (int32_t)((uint32_t)at[0] << 24 | (uint32_t)at[1] << 16 | (uint32_t)at[2] << 8 | (uint32_t)at[3]); }

static nuoskelma_counted faulty_record(const uint8_t *bytes, size_t bytes_len, int32_t *out_east, size_t out_east_len, int32_t *out_north,
    size_t out_north_len) {
    nuoskelma_counted r = nuoskelma_record(bytes, bytes_len, out_east, out_east_len, out_north, out_north_len);
    if (FAULT == BEYOND_OUTPUT && r.number == 0) out_north[out_north_len] = 0;
    if (FAULT == LAST_BYTE && r.number == 17 && r.place > 0) r.place--;
    if (FAULT == SENSE_LOST && r.number == 0 && bytes[0] == NUOSKELMA_RECORD_VERSION_2 && bytes[5] == NUOSKELMA_COMING_FROM) {
        for (size_t k = 0; k < r.count; k++) {
            out_east[k] = part_at(bytes + 8 * k + 6);
            out_north[k] = part_at(bytes + 8 * k + 10);
        }
    }
    if (FAULT == SENSE_FIRST && r.number == 17 && bytes_len > 5 && bytes[0] == NUOSKELMA_RECORD_VERSION_2 && bytes[5] > 1) r.number = 22;
    if (middle(bytes_len / 8) && r.number == 0) r.count++;
    return r;
}
#define nuoskelma_record faulty_record

static void put_part(int32_t part, uint8_t *at) {
    for (size_t k = 0; k < 4; k++) at[k] = (uint8_t)((uint32_t)part >> (24 - 8 * k));
}

static nuoskelma_counted faulty_write_record(uint8_t version, uint8_t sense, const int32_t *east, size_t east_len, const int32_t *north, size_t north_len,
    uint8_t *out, size_t out_len) {
    nuoskelma_counted r = nuoskelma_write_record(version, sense, east, east_len, north, north_len, out, out_len);
    if (FAULT == BEHIND_RECORD && r.number == 0 && r.count < out_len) out[r.count] ^= 1;
    if (FAULT == OTHER_END && r.number == 0 && east_len > 0) {
        uint8_t last = out[r.count - 1];
        out[r.count - 1] = out[r.count - 4];
        out[r.count - 4] = last;
    }
    if (FAULT == SIGNS_ALONE && r.number == 0 && sense == NUOSKELMA_COMING_FROM) {
        for (size_t k = 0; k < east_len; k++) {
            put_part(-east[k], out + 8 * k + 6);
            put_part(-north[k], out + 8 * k + 10);
        }
    }
    if (FAULT == LENGTHS_FIRST && r.number == 22 && east_len != north_len) r.number = 1;
    if (middle(east_len) && r.number == 0) r.count++;
    return r;
}
#define nuoskelma_write_record faulty_write_record

#include "driver.c"
