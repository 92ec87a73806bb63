/*
 * The C face of Nuoskelma: envelopes of streams, in whole numbers.
 *
 * Every function takes any input and ends. In each result, number 0 says that the call is done; any other number is a refusal's (enum nuoskelma_refusal), and
 * place is its place (0 where none is named). What a result does not have is 0. A refusal alters nothing that was lent, except that refusals 5 and 18 of a
 * function with scratch leave all the scratch zero.
 *
 * A list passes as a pointer and a length in items. Nothing is read or written through the pointer of an empty list: it may be NULL. Any other pointer is
 * aligned for its items. A list that is written, scratch among them, overlaps no other list of the call.
 */
#ifndef NUOSKELMA_H
#define NUOSKELMA_H

#include <stddef.h>
#include <stdint.h>

#ifdef __cplusplus
extern "C" {
#endif

/* The version of this header and of the library that it is for. */
#define NUOSKELMA_VERSION_MAJOR 0
#define NUOSKELMA_VERSION_MINOR 1
#define NUOSKELMA_VERSION_PATCH 0
#define NUOSKELMA_VERSION_STRING "0.1.0"

/* A part's size is at most this: hundredths of a millimetre per second. */
#define NUOSKELMA_LIMIT 1000000

/* The most samples, list items, corners or joined corners. */
#define NUOSKELMA_MOST 65536

/* The words of scratch that so many samples, list items or corners of both rings ask for; they may hold anything before the call. */
#define NUOSKELMA_SCRATCH(items) (16 * (size_t)(items) + 64)

/* The bytes of the record of a ring of so many corners, in a version: in version 2 one more, for the sense. */
#define NUOSKELMA_RECORD(version, corners) (8 * (size_t)(corners) + ((version) == NUOSKELMA_RECORD_VERSION_2 ? 6 : 5))

/* The versions of a record: the first is always going to, the second says its sense. */
enum nuoskelma_record_version { NUOSKELMA_RECORD_VERSION_1 = 1, NUOSKELMA_RECORD_VERSION_2 = 2 };

/* The senses of a record: where the water goes to, as in every ring here, or where it comes from, as of the wind. */
enum nuoskelma_sense { NUOSKELMA_GOING_TO = 0, NUOSKELMA_COMING_FROM = 1 };

/* What number says in a result. A function gives those that it names below. */
enum nuoskelma_refusal {
    NUOSKELMA_DONE = 0,
    NUOSKELMA_REFUSED_LENGTHS_DIFFER = 1,       /* the two lists of one thing differ in length */
    NUOSKELMA_REFUSED_TOO_MANY = 2,             /* over 65,536 samples, list items, corners or joined corners */
    NUOSKELMA_REFUSED_PART_BEYOND = 3,          /* a part beyond 1,000,000 */
    NUOSKELMA_REFUSED_SCRATCH_SHORT = 4,        /* scratch too short */
    NUOSKELMA_REFUSED_OUTPUT_SHORT = 5,         /* an output list shorter than the result */
    NUOSKELMA_REFUSED_NO_BRIDGE = 6,            /* no bridge over a */
    NUOSKELMA_REFUSED_NOT_LISTED = 7,           /* a listed number not below the sample count */
    NUOSKELMA_REFUSED_NO_RANK = 8,              /* rank 0, or above the count of the numbers */
    NUOSKELMA_REFUSED_NOT_ENVELOPE = 9,         /* not an envelope */
    NUOSKELMA_REFUSED_NO_CORNER = 10,           /* an empty ring; a hand whose place is not below its count */
    NUOSKELMA_REFUSED_NO_COURSE = 11,           /* the course (0, 0) */
    NUOSKELMA_REFUSED_NOT_A_NUMBER = 12,        /* a float that is not a number */
    NUOSKELMA_REFUSED_TOO_LARGE = 13,           /* a float beyond the limit */
    NUOSKELMA_REFUSED_FRACTION = 14,            /* a float with a fraction */
    NUOSKELMA_REFUSED_BAD_TEXT = 15,            /* bad text: the program alone gives it */
    NUOSKELMA_REFUSED_VERSION = 16,             /* a record's version other than 1 or 2 */
    NUOSKELMA_REFUSED_RECORD_CUT = 17,          /* a record's bytes end early, at the first missing one */
    NUOSKELMA_REFUSED_STEP_WITHOUT_BRIDGE = 18, /* a chain step's list has no bridge: this never happens */
    NUOSKELMA_REFUSED_SUM_BEYOND = 19,          /* a corner of a sum beyond the limit: a part beyond 1,000,000 */
    NUOSKELMA_REFUSED_BYTES_FOLLOW = 20,        /* bytes follow a record's end, from the first extra one on */
    NUOSKELMA_REFUSED_RECORD_LENGTH = 21,       /* a record's length is not a multiple of 8, in version 2 not one more */
    NUOSKELMA_REFUSED_SENSE = 22                /* a record's sense above 1; to be written, also sense 1 with version 1 */
};

/* ---- Rank picker. */

typedef struct {
    uint32_t number;
    size_t place;
    int32_t value;
} nuoskelma_picked;

/*
 * The number of a rank, from 1, among numbers of any size: the rank-th smallest, repeats counted. Scratch has at least 16 words for each number and 64 more;
 * all of it is zero afterwards.
 * Refused: 2, over 65,536 numbers; 8, rank 0 or above their count; 4, scratch too short.
 */
nuoskelma_picked nuoskelma_pick(const int32_t *numbers, size_t numbers_len, size_t rank, uint32_t *scratch, size_t scratch_len);

/* ---- A round of the bridge finder, and the bridge over a. Samples come as two lists, one east, one north; a sample's number is its place from 0. */

/* Kind 1: the bridge, left and right. Kind 2: a kept list of so many numbers. Kind 0: refused. */
typedef struct {
    uint32_t number;
    size_t place;
    uint32_t kind;
    uint32_t left;
    uint32_t right;
    size_t kept;
} nuoskelma_round_said;

/*
 * A round at a over a list of sample numbers, repeats allowed: the bridge, left first, each end the earliest in the list at its position; or the kept numbers,
 * in list order, at the front of the output, whose rest stays. Scratch has at least 16 words for each list item and 64 more; all of it is zero afterwards.
 * Refused: 1, the two lists of parts differ in length; 2, over 65,536 samples or list items; 3, a part beyond 1,000,000, at its first place; 7, a listed number
 * not below the sample count, at its first list place; 4, scratch too short; 6, no listed sample has east at most a, or none has east above it; 5, the
 * output is shorter than the kept list, and all the scratch is zero.
 */
nuoskelma_round_said nuoskelma_round(const int32_t *east, size_t east_len, const int32_t *north, size_t north_len, const uint32_t *list, size_t list_len,
    int32_t a, uint32_t *output, size_t output_len, uint32_t *scratch, size_t scratch_len);

typedef struct {
    uint32_t number;
    size_t place;
    uint32_t left;
    uint32_t right;
} nuoskelma_bridged;

/*
 * The bridge over a: the upper chain's edge with left east at most a and right east above a, its ends by the lowest sample number at their position. Scratch has
 * at least 16 words for each sample and 64 more; all of it is zero afterwards.
 * Refused: 1, 2, 3, 4 and 6 as for a round, over all samples.
 */
nuoskelma_bridged nuoskelma_bridge(const int32_t *east, size_t east_len, const int32_t *north, size_t north_len, int32_t a, uint32_t *scratch,
    size_t scratch_len);

/* ---- Chains and ring. Both chains go left to right; each corner is reported by the lowest sample number at its position. */

typedef struct {
    uint32_t number;
    size_t place;
    size_t upper;
    size_t lower;
} nuoskelma_chained;

/*
 * The upper and the lower chain of the samples, as sample numbers at the front of two output lists, and their counts. What lies beyond them in the lists
 * stays. No samples: both chains are empty. Scratch has at least 16 words for each sample and 64 more; all of it is zero afterwards.
 * Refused: 1, the two lists of parts differ in length; 2, over 65,536 samples; 3, a part beyond 1,000,000, at its first place; 4, scratch too short; 18, a chain
 * step's list has no bridge; 5, an output list is shorter than its chain. After 5 and 18 all the scratch is zero.
 */
nuoskelma_chained nuoskelma_chains(const int32_t *east, size_t east_len, const int32_t *north, size_t north_len, uint32_t *upper, size_t upper_len,
    uint32_t *lower, size_t lower_len, uint32_t *scratch, size_t scratch_len);

/* How many corners, or bytes, were written. */
typedef struct {
    uint32_t number;
    size_t place;
    size_t count;
} nuoskelma_counted;

/*
 * The ring of the samples, its corners in ring order at the front of two output lists of parts, and its count: the upper chain, then the lower chain right to
 * left. What lies beyond it in the lists stays. No samples: the ring is empty. Scratch has at least 16 words for each sample and 64 more; all of it is zero
 * afterwards.
 * Refused: 1, 2, 3, 4 and 18 as for the chains; 5, an output list is shorter than the ring. After 5 and 18 all the scratch is zero.
 */
nuoskelma_counted nuoskelma_ring(const int32_t *east, size_t east_len, const int32_t *north, size_t north_len, int32_t *out_east, size_t out_east_len,
    int32_t *out_north, size_t out_north_len, uint32_t *scratch, size_t scratch_len);

/* ---- Ring hand: goes round the corners of a ring, edge by edge. */

/* A hand of so many corners, at a place from 0. */
typedef struct {
    size_t count;
    size_t place;
} nuoskelma_hand;

typedef struct {
    uint32_t number;
    size_t place;
    nuoskelma_hand hand;
} nuoskelma_hand_made;

/*
 * A hand for a ring of so many corners, at place 0.
 * Refused: 2, over 65,536 corners; 10, no corners.
 */
nuoskelma_hand_made nuoskelma_hand_for(size_t corners);

typedef struct {
    uint32_t number;
    size_t place;
    size_t from;
    size_t to;
    nuoskelma_hand hand;
} nuoskelma_hand_stepped;

/*
 * The present edge, from the hand's place to the next (place 0 after the last), and the hand one place on. With one corner the edge is 0 to 0.
 * Refused: 2, the hand's count is over 65,536; 10, its place is not below its count. A refused step hands back the hand as it came.
 */
nuoskelma_hand_stepped nuoskelma_hand_step(nuoskelma_hand hand);

/* ---- Using a ring. A ring comes as two lists, east and north, and is an envelope exactly if it equals the ring of its own positions. */

typedef struct {
    uint32_t number;
    size_t place;
    int64_t set;
    size_t at;
} nuoskelma_strongest_set;

/*
 * The strongest set on the course (x, y): the greatest x * east + y * north over the corners, and the first ring place that has it.
 * Refused: 1, the two lists differ in length; 2, over 65,536 corners; 3, a part beyond 1,000,000, with the first place for the ring, then 0 for the course; 9,
 * not an envelope; 10, an empty ring; 11, the course (0, 0).
 */
nuoskelma_strongest_set nuoskelma_strongest(const int32_t *east, size_t east_len, const int32_t *north, size_t north_len, int32_t x, int32_t y);

typedef struct {
    uint32_t number;
    size_t place;
    uint32_t covered;
} nuoskelma_cover_told;

/*
 * Covered is 1 exactly if the stream (x, y) is a weighted mean of the corners, by weights that are whole numbers, none below 0 and not all 0, and 0 otherwise.
 * So the inside and the whole outline are covered; of two corners the segment between them, of one corner its position, of an empty ring nothing.
 * Refused: 1, 2, 3 (the ring, then the stream with place 0) and 9, as for the strongest set.
 */
nuoskelma_cover_told nuoskelma_cover(const int32_t *east, size_t east_len, const int32_t *north, size_t north_len, int32_t x, int32_t y);

/*
 * The ring turned about: the ring of all its positions with both signs changed, at the front of two output lists, and its count. What lies beyond it in them
 * stays.
 * Refused: 1, 2, 3 and 9 as above; 5, an output list is shorter than the ring. A refusal alters nothing.
 */
nuoskelma_counted nuoskelma_turn_about(const int32_t *east, size_t east_len, const int32_t *north, size_t north_len, int32_t *out_east,
    size_t out_east_len, int32_t *out_north, size_t out_north_len);

/*
 * The ring of both rings' positions, at the front of two output lists, and its count. What lies beyond it in them stays. Scratch has at least 16 words for
 * each corner of both rings and 64 more; all of it is zero afterwards.
 * Refused: the first ring's 1, 2, 3 and 9, then the second's; 2, over 65,536 corners together; 4, scratch too short; 5, an output list is shorter than the
 * result, and all the scratch is zero.
 */
nuoskelma_counted nuoskelma_join(const int32_t *east, size_t east_len, const int32_t *north, size_t north_len, const int32_t *east2, size_t east2_len,
    const int32_t *north2, size_t north2_len, int32_t *out_east, size_t out_east_len, int32_t *out_north, size_t out_north_len, uint32_t *scratch,
    size_t scratch_len);

/*
 * The sum of two rings, as of a tide's and a surge's: the ring of all positions got by adding a corner of one to a corner of the other, at the front of two
 * output lists, and its count, at most that of the corners of both rings. What lies beyond it in the lists stays. Adding an empty ring gives an empty ring.
 * Scratch as for the join; all of it is zero afterwards.
 * Refused: 1, 2, 3, 9 and 4 as for the join; 19, a corner of the sum is beyond the limit; 5, an output list is shorter than the sum, and all the scratch is
 * zero.
 */
nuoskelma_counted nuoskelma_sum(const int32_t *east, size_t east_len, const int32_t *north, size_t north_len, const int32_t *east2, size_t east2_len,
    const int32_t *north2, size_t north2_len, int32_t *out_east, size_t out_east_len, int32_t *out_north, size_t out_north_len, uint32_t *scratch,
    size_t scratch_len);

/* ---- Float door: readings that come as 64-bit floats, in the unit of the parts. */

typedef struct {
    uint32_t number;
    int32_t value;
    double back;
} nuoskelma_part_taken;

/*
 * One part, taken exactly if its value is a whole number from -1,000,000 to 1,000,000; minus zero is taken as 0.
 * Refused, in this order: 12, not a number; 13, beyond the limit, infinities included; 14, a fraction. 13 and 14 hand back the float itself.
 */
nuoskelma_part_taken nuoskelma_part(double x);

typedef struct {
    uint32_t number;
    size_t place;
    size_t count;
    double back;
} nuoskelma_readings_taken;

/*
 * The readings of two lists, one east, one north: their parts at the front of two output lists, and how many they are. What lies beyond them in the output
 * lists stays.
 * Refused: 1, the two lists differ in length; 2, over 65,536 readings; 12 to 14 as for one part, by the first bad reading, east before north, with the reading
 * as place; 5, an output list is shorter than the readings. A refusal alters nothing.
 */
nuoskelma_readings_taken nuoskelma_readings(const double *east, size_t east_len, const double *north, size_t north_len, int32_t *out_east,
    size_t out_east_len, int32_t *out_north, size_t out_north_len);

/*
 * ---- Record. Byte 0 is the version, 1 or 2; bytes 1 to 4 are the length in bytes of the rest, big-endian. In version 2 byte 5 is the sense, counted in the
 * length: 0 going to, 1 coming from. Then 4 bytes east and 4 bytes north for each corner of a ring, in ring order. Version 1 is always going to.
 */

/*
 * The ring that a record means at the front of two output lists, and its count. It is going to, whatever the sense of the record: a coming-from ring is turned
 * about, as by nuoskelma_turn_about. What lies beyond it in the lists stays. Length 0 is the empty ring, in version 2 length 1.
 * Refused: 17, no bytes; 16, a version other than 1 or 2; 17, under 5 bytes; 21, a length that is not a multiple of 8, in version 2 not one more; 17, the bytes
 * end early; 20, bytes follow the end; 22, a sense above 1. Then of the corners as they are stored, before any turning about: 2, over 65,536; 3, a part beyond
 * 1,000,000, at the first corner that has one; 9, not an envelope. Then 5, an output list is shorter than the corners. The place of 17 is the offset of the first
 * missing byte, that of 20 the offset of the first extra byte, that of 21 is 1, the offset of the length, that of 22 is 5, the offset of the sense. A refusal
 * alters nothing.
 */
nuoskelma_counted nuoskelma_record(const uint8_t *bytes, size_t bytes_len, int32_t *out_east, size_t out_east_len, int32_t *out_north,
    size_t out_north_len);

/*
 * The record, in a version and a sense, of a going-to ring that comes as two lists, at the front of an output of bytes, and how many bytes it has:
 * NUOSKELMA_RECORD of the version and its corners. Coming from, the ring is stored turned about. What lies beyond the record in the output stays. A ring has one
 * record for each version and sense, three in all: each is read as the ring, and what is read of a record is written, in its version and sense, as the same bytes.
 * Refused: 16, a version other than 1 or 2; 22, a sense above 1, or sense 1 with version 1; 1, the two lists differ in length; 2, over 65,536 corners; 3, a part
 * beyond 1,000,000, at its first place; 9, not an envelope; 5, the output is shorter than the record. A refusal alters nothing.
 */
nuoskelma_counted nuoskelma_write_record(uint8_t version, uint8_t sense, const int32_t *east, size_t east_len, const int32_t *north, size_t north_len,
    uint8_t *out, size_t out_len);

#ifdef __cplusplus
}
#endif

#endif
