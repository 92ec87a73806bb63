/*
 * Writes a ring as a record of version 1, in the form that suppliers send, prints its bytes, and reads them again. Then reads the record of a supplier that keeps
 * the wind's sense, in version 2: it tells where the waves come from, and comes in turned about, so that it tells where they go, as every ring does. Written again
 * in that version and sense it has the same bytes.
 *
 * It is compiled as examples/join.c is.
 */
#include <stdio.h>

#include "nuoskelma.h"

enum { CORNERS = 3 };

static void print_record(const uint8_t *record, size_t bytes, size_t before) {
    size_t k;

    printf("record %lu\n", (unsigned long)bytes);
    for (k = 1; k <= bytes; k++) printf("%02x%s", (unsigned)record[k - 1], k % 8 == before % 8 ? "\n" : " ");
}

static void print_ring(const int32_t *east, const int32_t *north, size_t corners) {
    size_t k;

    printf("ring %lu\n", (unsigned long)corners);
    for (k = 0; k < corners; k++) printf("%ld %ld\n", (long)east[k], (long)north[k]);
}

int main(void) {
    static const int32_t east[CORNERS] = {-4, 2, 4};
    static const int32_t north[CORNERS] = {0, 5, -1};
    /* (0, 0), (1, 3) and (2, -1), coming from */
    static const uint8_t waves[] = {2, 0, 0, 0, 25, NUOSKELMA_COMING_FROM, 0, 0, 0, 0, 0, 0, 0, 0, 0, 0, 0, 1, 0, 0, 0, 3, 0, 0, 0, 2, 255, 255, 255, 255};
    uint8_t record[NUOSKELMA_RECORD(NUOSKELMA_RECORD_VERSION_2, CORNERS)];
    int32_t read_east[CORNERS], read_north[CORNERS];
    nuoskelma_counted written, read;

    written = nuoskelma_write_record(NUOSKELMA_RECORD_VERSION_1, NUOSKELMA_GOING_TO, east, CORNERS, north, CORNERS, record, sizeof record);
    if (written.number != NUOSKELMA_DONE) return 1;
    print_record(record, written.count, NUOSKELMA_RECORD(NUOSKELMA_RECORD_VERSION_1, 0));
    read = nuoskelma_record(record, written.count, read_east, CORNERS, read_north, CORNERS);
    if (read.number != NUOSKELMA_DONE) return 1;
    print_ring(read_east, read_north, read.count);

    print_record(waves, sizeof waves, NUOSKELMA_RECORD(NUOSKELMA_RECORD_VERSION_2, 0));
    read = nuoskelma_record(waves, sizeof waves, read_east, CORNERS, read_north, CORNERS);
    if (read.number != NUOSKELMA_DONE) return 1;
    print_ring(read_east, read_north, read.count);
    written = nuoskelma_write_record(NUOSKELMA_RECORD_VERSION_2, NUOSKELMA_COMING_FROM, read_east, read.count, read_north, read.count, record, sizeof record);
    if (written.number != NUOSKELMA_DONE) return 1;
    print_record(record, written.count, NUOSKELMA_RECORD(NUOSKELMA_RECORD_VERSION_2, 0));
    return 0;
}
