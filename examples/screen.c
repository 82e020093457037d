/* Which screen hides a sight line; screen.rs does the same in Rust. `examples/run` builds and runs both. */
#include "gf.h"
#include <math.h>
#include <stdio.h>
#include <string.h>

enum { PLANES = 8 };

static const char *const names[PLANES] = {"x at least 0", "x at most 10", "y at least 0", "y at most 10",
                                          "z at least 0", "z at most 10", "the shed", "the wall"};

/* The cube's six planes, a shed that leaves what has x + y at most 12, and a wall that leaves what has z at least 6. */
static const double planes[PLANES][4] = {
    {1, 0, 0, 0}, {-1, 0, 0, -10}, {0, 1, 0, 0}, {0, -1, 0, -10}, {0, 0, 1, 0}, {0, 0, -1, -10}, {-1, -1, 0, -12}, {0, 0, 1, 6},
};

/* The volume of the first planes but one: their count, these, and four rays of zeros. Answers its length. */
static size_t make_volume(double *volume, uint32_t count, uint32_t without)
{
    size_t length = 1;

    for (uint32_t i = 0; i < count; i++)
        if (i != without) {
            memcpy(volume + length, planes[i], sizeof planes[i]);
            length += 4;
        }
    volume[0] = (double)(length / 4);
    memset(volume + length, 0, 24 * sizeof *volume);
    return length + 24;
}

/* The plane that hides a line, by the first planes. */
static void print_screen(const char *what, uint32_t count, const double *p0, const double *p1)
{
    double volume[25 + 4 * PLANES];
    size_t length = make_volume(volume, count, GF_NO_PLACE);
    uint32_t place = 0, status = gf_blocking_plane(volume, length, p0, 3, p1, 3, &place);

    if (status != 0)
        printf("%s: refused %u\n", what, (unsigned)status);
    else if (place == GF_NO_PLACE)
        printf("%s: no single plane\n", what);
    else
        printf("%s: plane %u, %s\n", what, (unsigned)place, names[place]);
}

/* Whether a line is in view, by the first planes but one. */
static void print_verdict(const char *what, uint32_t count, uint32_t without, const double *p0, const double *p1)
{
    double volume[25 + 4 * PLANES];
    size_t length = make_volume(volume, count, without);
    uint32_t yes = 0, status = gf_intersects_segment(volume, length, p0, 3, p1, 3, &yes);

    if (status != 0)
        printf("%s: refused %u\n", what, (unsigned)status);
    else
        printf("%s: %s\n", what, yes ? "yes" : "no");
}

int main(void)
{
    const double over[2][3] = {{-2, 13, 5}, {13, 4, 5}}, beyond[2][3] = {{8, 6, 5}, {12, 9, 5}};
    const double past[2][3] = {{-6, 5, 11}, {5, -6, 11}}, beside[2][3] = {{-1, 0, 0}, {-1, 10, 10}};
    const double unmeasured[3] = {13, 4, NAN};

    /* The line over the shed is hidden by two planes together; without either it is seen, and the lower place is named. */
    print_verdict("line over the shed", 7, GF_NO_PLACE, over[0], over[1]);
    print_screen("what hides it", 7, over[0], over[1]);
    print_verdict("without y at most 10", 7, 3, over[0], over[1]);
    print_verdict("without the shed", 7, 6, over[0], over[1]);

    /* A line all of which is behind the shed; with the wall before it no single plane is to blame. */
    print_screen("what hides a line behind the shed", 7, beyond[0], beyond[1]);
    print_screen("the same with a wall", 8, beyond[0], beyond[1]);

    /* By the six planes of the cube, of which five are left. Both ends of the second line are behind z at most 10, and without
     * that plane it still misses the cube. */
    print_screen("what hides a line beside the cube", 6, beside[0], beside[1]);
    print_screen("what hides a line above and past it", 6, past[0], past[1]);

    /* A line in view has nothing that hides it; a missing number is refused first. */
    print_screen("what hides the first line from the cube alone", 6, over[0], over[1]);
    print_screen("the same with an end unmeasured", 6, over[0], unmeasured);
    return 0;
}
