/* The view of a mast camera from the two matrices that its maker sends; mast.rs does the same in Rust. `examples/run` builds and runs both. */
#include "gf.h"
#include <stdio.h>

/* Centimetres, x east, y north, z up. The camera hangs 1200 above the ground and looks north: its x is east, its y is up and it looks
 * along its -z. */
static const double view[16] = {1, 0, 0, 0, 0, 0, -1, 0, 0, 1, 0, 0, 0, -1200, 0, 1};

/* It sees as far to either side as ahead, half as far up and down, from 100 to 60000. */
static const double projection[16] = {1, 0, 0, 0, 0, 2, 0, 0, 0, 0, -1.003338898163606, -1, 0, 0, -200.33388981636060, 0};

/* A row of cherries from 0, 0, 0 to 4000, 300, 350, turned by 30 degrees and moved to a place. */
static void make_block(double *block, double x, double y)
{
    static const double row[23] = {0, 0, 0, 4000, 300, 350, 0.8660254037844387, 0.5, 0, 0, -0.5, 0.8660254037844387, 0, 0, 0, 0, 1, 0, 0, 0, 0, 1, 0};

    for (int i = 0; i < 23; i++)
        block[i] = row[i];
    block[18] = x;
    block[19] = y;
}

static void print_answer(const char *what, uint32_t status, uint32_t yes)
{
    if (status != 0)
        printf("%s: refused %u\n", what, (unsigned)status);
    else
        printf("%s: %s\n", what, yes ? "yes" : "no");
}

/* A block by the planes of the volume, and by the product of the two matrices. */
static void print_block(const char *what, const double *volume, const double *seen, double x, double y)
{
    double block[23];
    uint32_t yes = 0, status;

    make_block(block, x, y);
    status = gf_intersects_bbox(volume, 49, block, 23, &yes);
    print_answer(what, status, yes);
    status = gf_intersects_view_volume(block, 23, seen, 16, &yes);
    print_answer("  the same in clip space", status, yes);
}

int main(void)
{
    static const char *const names[6] = {"left", "right", "bottom", "top", "near", "far"};
    static const double flat[16] = {1, 0, 0, 0, 0, 1, 0, 0, 0, 0, 0, 0, 0, 0, 0, 1}, endless[16] = {1, 0, 0, 0, 0, 2, 0, 0, 0, 0, -1, -1, 0, 0, -200, 0};
    const double tree[3] = {1000, 5000, 300}, roof[3] = {1000, 1500, 2100};
    const double west[3] = {-6000, 5000, 100}, east[3] = {6000, 5000, 100}, corner[3] = {9000, 4000, 100};
    double volume[49], seen[16];
    uint32_t yes = 0, status = gf_volume_from_view_and_projection(view, 16, projection, 16, volume, 49);

    if (status != 0 || gf_product(view, 16, projection, 16, seen, 16) != 0)
        return 1;
    for (int i = 0; i < 6; i++) {
        const double *plane = volume + 1 + 4 * i;
        printf("%s: %.3f %.3f %.3f; %.3f\n", names[i], plane[0], plane[1], plane[2], plane[3]);
    }

    status = gf_intersects_point(volume, 49, tree, 3, &yes);
    print_answer("a tree", status, yes);
    status = gf_intersects_point(volume, 49, roof, 3, &yes);
    print_answer("a roof above the view", status, yes);
    status = gf_intersects_segment(volume, 49, west, 3, east, 3, &yes);
    print_answer("a line across the view", status, yes);
    status = gf_intersects_segment(volume, 49, east, 3, corner, 3, &yes);
    print_answer("a line beside it", status, yes);
    print_block("a row ahead", volume, seen, -1000, 6000);
    print_block("a row east of the view", volume, seen, 8000, 2000);

    /* A camera that sees without an end has a far plane that everything satisfies. */
    status = gf_volume_from_view_and_projection(view, 16, endless, 16, volume, 49);
    print_answer("a camera without an end", status, 1);
    printf("far: %.3f %.3f %.3f; %.3f\n", volume[21], volume[22], volume[23], volume[24]);

    /* Matrices that flatten the world give no view, and what was lent keeps its numbers. */
    status = gf_volume_from_view_and_projection(view, 16, flat, 16, volume, 49);
    print_answer("a flat projection", status, 1);
    printf("far, as before: %.3f %.3f %.3f; %.3f\n", volume[21], volume[22], volume[23], volume[24]);
    return 0;
}
