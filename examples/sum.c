/*
 * Adds a surge's envelope to a tide's through the C face, and reads off the strongest set of both together: on each course it is the tide's and the surge's
 * added. With a surge so strong that a corner of the sum is beyond the limit there is no sum, and the two sets can still be added.
 *
 * It is compiled as examples/join.c is.
 */
#include <stdio.h>

#include "nuoskelma.h"

/* no ring here has more corners than there are samples */
enum { TIDE = 6, SURGE = 3, BOTH = TIDE + SURGE };

typedef struct {
    int32_t east[BOTH], north[BOTH];
    nuoskelma_counted made;
} ring;

static uint32_t scratch[NUOSKELMA_SCRATCH(BOTH)];

static void envelope(ring *r, const int32_t *east, const int32_t *north, size_t samples) {
    r->made = nuoskelma_ring(east, samples, north, samples, r->east, BOTH, r->north, BOTH, scratch, NUOSKELMA_SCRATCH(BOTH));
}

static void add(ring *r, const ring *tide, const ring *surge) {
    r->made = nuoskelma_sum(tide->east, tide->made.count, tide->north, tide->made.count, surge->east, surge->made.count, surge->north, surge->made.count,
        r->east, BOTH, r->north, BOTH, scratch, NUOSKELMA_SCRATCH(BOTH));
}

static void print(const char *name, const ring *r) {
    size_t k;

    if (r->made.number != NUOSKELMA_DONE) {
        printf("%s refused %lu %lu\n", name, (unsigned long)r->made.number, (unsigned long)r->made.place);
        return;
    }
    printf("%s %lu\n", name, (unsigned long)r->made.count);
    for (k = 0; k < r->made.count; k++) printf("%ld %ld\n", (long)r->east[k], (long)r->north[k]);
}

/* The strongest set on the course four east to three north. */
static long strongest(const ring *r) {
    return (long)nuoskelma_strongest(r->east, r->made.count, r->north, r->made.count, 4, 3).set;
}

int main(void) {
    static const int32_t tide_east[TIDE] = {-42000, -15000, 3000, 12000, 38000, 30000};
    static const int32_t tide_north[TIDE] = {-30000, -26000, -1000, 21000, 27000, 11000};
    static const int32_t surge_east[SURGE] = {2000, 9000, 7000};
    static const int32_t surge_north[SURGE] = {0, -4000, 6000};
    static const int32_t storm_east[1] = {970000}, storm_north[1] = {0};
    ring tide, surge, storm, sum;

    envelope(&tide, tide_east, tide_north, TIDE);
    envelope(&surge, surge_east, surge_north, SURGE);
    add(&sum, &tide, &surge);
    print("tide", &tide);
    print("surge", &surge);
    print("sum", &sum);
    printf("strongest sets: tide %ld, surge %ld, sum %ld\n", strongest(&tide), strongest(&surge), strongest(&sum));
    if (strongest(&sum) != strongest(&tide) + strongest(&surge)) return 1;

    envelope(&storm, storm_east, storm_north, 1);
    add(&sum, &tide, &storm);
    print("sum", &sum);
    if (sum.made.number != NUOSKELMA_REFUSED_SUM_BEYOND) return 1;
    printf("strongest sets added: %ld\n", strongest(&tide) + strongest(&storm));
    return 0;
}
