/* Hail on a net through the C library; net.rs does the same in Rust. `examples/run` builds and runs both. */
#include "gf.h"
#include <stdio.h>

enum { RAYS = 4 };

/* Each ray is where a hailstone comes from and the way that it falls, in metres. The last one is already below the net. */
static const double hail[RAYS][6] = {
    {1, 2, 14, 0, 0, -1},
    {8, 2, 14, -0.5, 0, -1},
    {9, 2, 14, 0, 0, -1},
    {1, 2, 3, 0, 0, -1},
};

/* Half of a panel of 6 by 6 metres, hung level at 4. */
static const double a[3] = {0, 0, 4}, b[3] = {6, 0, 4}, c[3] = {0, 6, 4};

static void print_hits(const double *hits, const uint32_t *slots)
{
    for (int i = 0; i < RAYS; i++) {
        if (slots[i] != 0)
            printf("hailstone %d: misses\n", i);
        else
            printf("hailstone %d: meets the net after %.2f of its ways, weights %.3f %.3f %.3f, from %s\n", i, hits[5 * i],
                   hits[5 * i + 1], hits[5 * i + 2], hits[5 * i + 3], hits[5 * i + 4] == 1 ? "above" : "below");
    }
}

int main(void)
{
    double hits[RAYS * 5], alone[5];
    uint32_t slots[RAYS], status;

    /* One call for all of them: the plane of the net is made once. */
    status = gf_rays_intersect_triangle(hail[0], RAYS * 6, a, 3, b, 3, c, 3, hits, RAYS * 5, slots, RAYS);
    if (status != 0)
        return 1;
    print_hits(hits, slots);

    /* The single call answers the same: 0 and the numbers of a hit, or 5. */
    for (int i = 0; i < RAYS; i++) {
        status = gf_ray_intersect_triangle(hail[i], 6, a, 3, b, 3, c, 3, alone, 5);
        printf("hailstone %d alone: %u\n", i, (unsigned)status);
    }
    status = gf_rays_intersect_triangle(hail[0], RAYS * 6 - 1, a, 3, b, 3, c, 3, hits, RAYS * 5, slots, RAYS);
    printf("with a number too few: refused %u\n", (unsigned)status);
    status = gf_rays_intersect_triangle(hail[0], RAYS * 6, a, 3, b, 3, c, 3, hits, RAYS * 5, slots, RAYS - 1);
    printf("with a slot too few: refused %u\n", (unsigned)status);
    return 0;
}
