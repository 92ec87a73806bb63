/* Bytes as a record, with the library held against itself: a refusal alters nothing; what is taken stands at the front of the outputs, the rest stays; what is
   wrong with the bytes around the corners has its number and place; where nothing is, they are taken or refused exactly as turning their corners about is, whose
   answer is the ring of a coming-from record and has as many corners as any; what is taken is written again, in its version and sense, as the same bytes; outputs
   one short are refused with 5. */

#include <stdint.h>
#include <stdlib.h>
#include <string.h>

#include "../../include/nuoskelma.h"

enum { HEAD = 5, CORNER = 8, BEHIND = 2, SENSES = 2 };

static void hold(int held) {
    if (!held) abort();
}

static int32_t part(const uint8_t *at) { return (int32_t)((uint32_t)at[0] << 24 | (uint32_t)at[1] << 16 | (uint32_t)at[2] << 8 | (uint32_t)at[3]); }

/* so many words that no part within the limit is */
static int32_t *room(size_t count) {
    int32_t *words = malloc((count + 1) * sizeof *words);
    hold(words != NULL);
    for (size_t k = 0; k < count; k++) words[k] = INT32_MIN + (int32_t)k;
    return words;
}

static void stays(const int32_t *words, size_t from, size_t count) {
    for (size_t k = from; k < count; k++) hold(words[k] == INT32_MIN + (int32_t)k);
}

/* the refusal of the bytes around the corners; number 0 where there is none */
static nuoskelma_counted frame(const uint8_t *bytes, size_t size) {
    if (size == 0) return (nuoskelma_counted){17, 0, 0};
    if (bytes[0] != 1 && bytes[0] != 2) return (nuoskelma_counted){16, 0, 0};
    if (size < HEAD) return (nuoskelma_counted){17, size, 0};
    if (bytes[HEAD - 1] % CORNER != bytes[0] - 1) return (nuoskelma_counted){21, 1, 0};
    uint64_t end = HEAD + (uint64_t)(uint32_t)part(bytes + 1);
    if (size < end) return (nuoskelma_counted){17, size, 0};
    if (size > end) return (nuoskelma_counted){20, (size_t)end, 0};
    if (bytes[0] == 2 && bytes[HEAD] >= SENSES) return (nuoskelma_counted){22, HEAD, 0};
    return (nuoskelma_counted){0, 0, 0};
}

static uint8_t sense_of(const uint8_t *bytes) { return bytes[0] == 2 ? bytes[HEAD] : NUOSKELMA_GOING_TO; }

static void whole(const uint8_t *bytes, size_t size, nuoskelma_counted read, const int32_t *east, const int32_t *north) {
    size_t corners = (size - HEAD) / CORNER, length = corners + BEHIND;
    int32_t *own_east = room(length), *own_north = room(length), *out_east = room(length), *out_north = room(length);
    const uint8_t *stored = bytes + size - CORNER * corners;
    for (size_t k = 0; k < corners; k++) {
        own_east[k] = part(stored + CORNER * k);
        own_north[k] = part(stored + CORNER * k + 4);
    }
    nuoskelma_counted turned = nuoskelma_turn_about(own_east, corners, own_north, corners, out_east, length, out_north, length);
    hold(read.number == turned.number && read.place == turned.place && read.count == turned.count);
    if (read.number == 0) {
        const int32_t *meant_east = sense_of(bytes) == NUOSKELMA_COMING_FROM ? out_east : own_east;
        const int32_t *meant_north = sense_of(bytes) == NUOSKELMA_COMING_FROM ? out_north : own_north;
        hold(read.count == corners);
        hold(memcmp(east, meant_east, corners * sizeof *east) == 0 && memcmp(north, meant_north, corners * sizeof *north) == 0);
    }
    free(own_east);
    free(own_north);
    free(out_east);
    free(out_north);
}

static void again(const uint8_t *bytes, size_t size, size_t corners, const int32_t *east, const int32_t *north) {
    uint8_t *out = malloc(size + 1);
    hold(out != NULL);
    memset(out, 7, size + 1);
    nuoskelma_counted written = nuoskelma_write_record(bytes[0], sense_of(bytes), east, corners, north, corners, out, size - 1);
    hold(written.number == 5 && written.place == 0 && written.count == 0);
    for (size_t k = 0; k <= size; k++) hold(out[k] == 7);
    written = nuoskelma_write_record(bytes[0], sense_of(bytes), east, corners, north, corners, out, size + 1);
    hold(written.number == 0 && written.place == 0 && written.count == size);
    hold(memcmp(out, bytes, size) == 0 && out[size] == 7);
    free(out);
}

int LLVMFuzzerTestOneInput(const uint8_t *bytes, size_t size) {
    size_t length = size / CORNER + BEHIND;
    int32_t *east = room(length), *north = room(length);
    nuoskelma_counted read = nuoskelma_record(bytes, size, east, length, north, length);
    stays(east, read.count, length);
    stays(north, read.count, length);
    nuoskelma_counted framed = frame(bytes, size);
    if (framed.number == 0) {
        whole(bytes, size, read, east, north);
    } else {
        hold(read.number == framed.number && read.place == framed.place && read.count == 0);
    }
    if (read.number == 0) again(bytes, size, read.count, east, north);
    if (read.number == 0 && read.count > 0) {
        int32_t *short_east = room(length), *short_north = room(length);
        nuoskelma_counted again = nuoskelma_record(bytes, size, short_east, read.count, short_north, read.count - 1);
        hold(again.number == 5 && again.place == 0 && again.count == 0);
        stays(short_east, 0, length);
        stays(short_north, 0, length);
        free(short_east);
        free(short_north);
    }
    free(east);
    free(north);
    return 0;
}
