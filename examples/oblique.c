/* Blocks under oblique planes, by the filed verdict and by the exact one: the three ways in which they part. oblique.rs does the
 * same in Rust. `examples/run` builds and runs both. */
#include "gf.h"
#include <stdio.h>

enum { PLANES = 6, VIEW = 1 + 4 * PLANES, VOLUME = VIEW + 24, BOX = 23 };

/* At most as far from the x axis as along it, and from 1 to 2 along it: the count of planes, then each normal and distance. */
static const int32_t wedge[VIEW] = {PLANES, 1, -1, 0, 0, 1, 1, 0, 0, 0, 0, 1, 0, 0, 0, -1, -1, 1, 0, 0, 1, -1, 0, 0, -2};

/* x + y + z at most 3; x, y and z at least 0; x and y at most 10. */
static const int32_t slope[VIEW] = {PLANES, -1, -1, -1, -3, 1, 0, 0, 0, 0, 1, 0, 0, 0, 0, 1, 0, -1, 0, 0, -10, 0, -1, 0, -10};

/* 2x + y and x + 2y at least 2, 3x + 3y at most 4: only where x and y are 2/3. z from 0 to 1, x at least 0. */
static const int32_t line[VIEW] = {PLANES, 2, 1, 0, 2, 1, 2, 0, 2, -3, -3, 0, -4, 0, 0, 1, 0, 0, 0, -1, -1, 1, 0, 0, 0};

/* The record of the range from least to greatest, moved by shift. */
static void place(double *box, const int32_t *least, const int32_t *greatest, const int32_t *shift)
{
    for (int i = 0; i < BOX; i++)
        box[i] = 0;
    for (int i = 0; i < 3; i++) {
        box[i] = least[i];
        box[3 + i] = greatest[i];
        box[6 + 5 * i] = 1;
        box[18 + i] = shift[i];
    }
    box[21] = 1;
}

static void print_verdict(const char *what, uint32_t status, uint32_t yes)
{
    if (status != 0)
        printf("  %s: refused %u\n", what, (unsigned)status);
    else
        printf("  %s: %s\n", what, yes ? "yes" : "no");
}

/* The view as the record of a volume, whose rays are zeros. */
static void print_both(const int32_t *view, const double *box)
{
    double volume[VOLUME] = {0};
    uint32_t status, yes = 0;

    for (int i = 0; i < VIEW; i++)
        volume[i] = view[i];
    status = gf_intersects_bbox(volume, VOLUME, box, BOX, &yes);
    print_verdict("filed", status, yes);
    status = gf_exact_bbox(volume, VOLUME, box, BOX, &yes);
    print_verdict("exact", status, yes);
}

/* Where the placed box stands, and a point of it that is in view. */
static void print_witness(const int32_t *view, const int32_t *least, const int32_t *greatest)
{
    const int32_t placed[6] = {least[0], least[1], least[2], greatest[0], greatest[1], greatest[2]};
    int64_t at[4];
    uint32_t yes = 0, status = gf_whole_intersects_bbox(view, VIEW, placed, 6, at, 4, &yes);

    print_verdict("in whole numbers", status, yes);
    if (status == 0 && yes)
        printf("  in view at %ld, %ld, %ld over %ld\n", (long)at[0], (long)at[1], (long)at[2], (long)at[3]);
}

int main(void)
{
    const int32_t still[3] = {0, 0, 0}, unit[3] = {1, 1, 1}, up[3] = {0, 0, 3};
    const int32_t beside[2][3] = {{2, 3, 0}, {3, 4, 1}}, touching[2][3] = {{0, 0, 3}, {1, 1, 4}};
    double box[BOX];

    printf("beside the wedge, 2 3 0 to 3 4 1\n");
    place(box, beside[0], beside[1], still);
    print_both(wedge, box);
    print_witness(wedge, beside[0], beside[1]);

    printf("touching the slope, 0 0 3 to 1 1 4\n");
    place(box, touching[0], touching[1], still);
    print_both(slope, box);
    print_witness(slope, touching[0], touching[1]);

    printf("the same block, 0 0 0 to 1 1 1 moved by 0 0 3\n");
    place(box, still, unit, up);
    print_both(slope, box);

    printf("about a view that is a line, 0 0 0 to 1 1 1\n");
    place(box, still, unit, still);
    print_both(line, box);
    print_witness(line, still, unit);

    printf("moved by half a centimetre\n");
    box[20] = 0.5;
    print_both(line, box);
    return 0;
}
