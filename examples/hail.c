/* A hail report through the C library; hail.rs does the same in Rust. `examples/run` builds and runs both. */
#include "gf.h"
#include <stdio.h>

enum { BLOCKS = 4 };

static const char *const names[BLOCKS] = {"south block", "north block", "cleared block", "packing shed"};

/* The blocks, in centimetres: least corner, greatest corner, the matrix that places them, row by row, and the zero-area flag.
 * North block is turned by a quarter and moved, so that it stands from 4000, 2000, 0 to 4600, 2800, 250. Nothing stands on the
 * cleared block: its range is empty, and keeps its place in the list. */
static const double blocks[BLOCKS][23] = {
    {200, -900, 0, 1200, -100, 300, 1, 0, 0, 0, 0, 1, 0, 0, 0, 0, 1, 0, 0, 0, 0, 1, 0},
    {0, 0, 0, 800, 600, 250, 0, 1, 0, 0, -1, 0, 0, 0, 0, 0, 1, 0, 4600, 2000, 0, 1, 0},
    {3000, 2000, 1, 2000, 1000, 0, 1, 0, 0, 0, 0, 1, 0, 0, 0, 0, 1, 0, 0, 0, 0, 1, 0},
    {5000, 100, 0, 5200, 300, 350, 1, 0, 0, 0, 0, 1, 0, 0, 0, 0, 1, 0, 0, 0, 0, 1, 0},
};

static void print_place(const char *what, uint32_t status, uint32_t place)
{
    if (status != 0)
        printf("%s: refused %u\n", what, (unsigned)status);
    else
        printf("%s: %s\n", what, place == GF_NO_PLACE ? "none" : names[place]);
}

/* The places that were found, in the slots in front. */
static void print_list(const char *what, uint32_t status, const uint32_t *slots, uint32_t found)
{
    if (status != 0) {
        printf("%s: refused %u\n", what, (unsigned)status);
        return;
    }
    printf("%s: %u", what, (unsigned)found);
    for (uint32_t i = 0; i < found; i++)
        printf("%s%s", i == 0 ? ", " : " and ", names[slots[i]]);
    printf("\n");
}

int main(void)
{
    const double report[3] = {26, 9.5, 0}, at_shed[3] = {51, 2, 0}; /* metres */
    double ranges[BLOCKS * 6] = {0}, hail[3] = {0}, shed[3] = {0}, square = 0;
    uint32_t status = 0, place = 0, slots[BLOCKS], found = 0;

    /* The range that each block is placed in: what distances are measured to. */
    for (int i = 0; status == 0 && i < BLOCKS; i++)
        status = gf_bbox_aligned_range(blocks[i], 23, ranges + 6 * i, 6);
    if (status == 0)
        status = gf_grid(report, 3, hail, 3);
    if (status == 0)
        status = gf_grid(at_shed, 3, shed, 3);
    if (status != 0)
        return 1;
    printf("hail at, in centimetres: %.0f %.0f %.0f\n", hail[0], hail[1], hail[2]);

    /* South and north block are equally near: the first is named. */
    status = gf_range_nearest(ranges, BLOCKS * 6, hail, 3, &place);
    print_place("nearest", status, place);
    status = gf_range_distance_squared(ranges + 6 * place, 6, hail, 3, &square);
    printf("its distance squared, and the distance: %.0f %.0f\n", square, gf_sqrt(square));

    /* A limit is the square of a radius. What is exactly as far counts. */
    status = gf_range_within(ranges, BLOCKS * 6, hail, 3, 1750.0 * 1750.0, slots, BLOCKS, &found);
    print_list("within 17.50 metres", status, slots, found);
    status = gf_range_within(ranges, BLOCKS * 6, hail, 3, 1749.0 * 1749.0, slots, BLOCKS, &found);
    print_list("within 17.49 metres", status, slots, found);

    status = gf_range_nearest(ranges, BLOCKS * 6, shed, 3, &place);
    print_place("nearest to a point in the shed", status, place);
    status = gf_range_nearest(ranges + 12, 6, hail, 3, &place);
    print_place("nearest of the cleared block alone", status, place);
    status = gf_range_nearest(ranges, 0, hail, 3, &place);
    print_place("nearest of no blocks", status, place);
    status = gf_range_within(ranges, BLOCKS * 6, hail, 3, 1750.0 * 1750.0, slots, BLOCKS - 1, &found);
    print_list("within, with a slot too few", status, slots, found);
    return 0;
}
