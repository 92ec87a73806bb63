/*
 * Joins two rings through the C face, prints the corners of the result, and shows two refusals.
 *
 * After `./install-library --prefix DIR`, on x86-64, where pkg-config looks into DIR/lib/pkgconfig:
 *
 *     cc -std=c99 examples/join.c $(pkg-config --cflags --libs nuoskelma) -o join
 */
#include <stdio.h>

#include "nuoskelma.h"

/* each ring here has two corners, so the result has at most four */
enum { EACH = 2, BOTH = 4 };

static const char *words(uint32_t refusal) {
    switch (refusal) {
    case NUOSKELMA_REFUSED_PART_BEYOND: return "a part beyond the limit";
    case NUOSKELMA_REFUSED_NOT_ENVELOPE: return "not an envelope";
    default: return "nuoskelma.h says why";
    }
}

/* Joins the ring with the corners (0,0) and (4,0), and prints what comes of it. */
static void join(const int32_t *east, const int32_t *north) {
    static const int32_t other_east[EACH] = {0, 4};
    static const int32_t other_north[EACH] = {0, 0};
    int32_t out_east[BOTH], out_north[BOTH];
    uint32_t scratch[NUOSKELMA_SCRATCH(BOTH)];
    nuoskelma_counted joined;
    size_t k;

    joined = nuoskelma_join(east, EACH, north, EACH, other_east, EACH, other_north, EACH, out_east, BOTH, out_north, BOTH, scratch,
        NUOSKELMA_SCRATCH(BOTH));
    if (joined.number != NUOSKELMA_DONE) {
        printf("refused %lu %lu: %s\n", (unsigned long)joined.number, (unsigned long)joined.place, words(joined.number));
        return;
    }
    printf("ring %lu\n", (unsigned long)joined.count);
    for (k = 0; k < joined.count; k++) printf("%ld %ld\n", (long)out_east[k], (long)out_north[k]);
}

int main(void) {
    static const int32_t east[EACH] = {2, 2};
    static const int32_t north[EACH] = {5, 1};
    /* the same corners in another order: a ring begins with the upper chain, so this is not an envelope */
    static const int32_t swapped[EACH] = {1, 5};
    /* a part beyond the limit, at place 1 */
    static const int32_t beyond[EACH] = {5, -1000001};

    join(east, north);
    join(east, swapped);
    join(east, beyond);
    return 0;
}
