/* Two lines past an edge of the cube in whole numbers, and why one counts; grazing.rs does the same in Rust. `examples/run`
 * builds and runs both. */
#include "gf.h"
#include <stdio.h>
#include <stdlib.h>

enum { PLANES = 6, VIEW = 1 + 4 * PLANES, VOLUME = VIEW + 24 };

static const char *const names[PLANES] = {"x at least 0", "x at most 10", "y at least 0", "y at most 10", "z at least 0", "z at most 10"};

/* The cube: the count of planes, then each plane's normal and distance. */
static const int32_t cube[VIEW] = {PLANES, 1, 0, 0, 0, -1, 0, 0, -10, 0, 1, 0, 0, 0, -1, 0, -10, 0, 0, 1, 0, 0, 0, -1, -10};

static void print_verdict(const char *what, uint32_t status, uint32_t yes)
{
    if (status != 0)
        printf("%s: refused %u\n", what, (unsigned)status);
    else
        printf("%s: %s\n", what, yes ? "yes" : "no");
}

/* How far an end is on a plane's side: end times normal, less the plane's distance. */
static long distance(const int32_t *plane, const int32_t *p)
{
    return (long)plane[0] * p[0] + (long)plane[1] * p[1] + (long)plane[2] * p[2] - plane[3];
}

/* The planes that a segment crosses, and at which fraction of its way. */
static void print_crossings(const int32_t *p0, const int32_t *p1)
{
    for (int i = 0; i < PLANES; i++) {
        long d0 = distance(cube + 1 + 4 * i, p0), d1 = distance(cube + 1 + 4 * i, p1);
        if ((d0 < 0) != (d1 < 0))
            printf("  %s: distances %ld and %ld, %s at %ld/%ld\n", names[i], d0, d1, d0 < 0 ? "in" : "out", labs(d0), labs(d1 - d0));
    }
}

/* The same numbers as doubles, which holds each of them without loss; the rays are zeros. */
static uint32_t by_floats(const int32_t *p0, const int32_t *p1, uint32_t *yes)
{
    double volume[VOLUME] = {0}, a[3], b[3];
    for (int i = 0; i < VIEW; i++)
        volume[i] = cube[i];
    for (int i = 0; i < 3; i++) {
        a[i] = p0[i];
        b[i] = p1[i];
    }
    return gf_intersects_segment(volume, VOLUME, a, 3, b, 3, yes);
}

static void print_case(int number, const int32_t *p0, const int32_t *p1)
{
    uint32_t status, yes = 0;

    printf("case %d, from %d %d %d to %d %d %d\n", number, (int)p0[0], (int)p0[1], (int)p0[2], (int)p1[0], (int)p1[1], (int)p1[2]);
    print_crossings(p0, p1);
    status = gf_whole_intersects_segment(cube, VIEW, p0, 3, p1, 3, &yes);
    print_verdict("  in whole numbers", status, yes);
    status = by_floats(p0, p1, &yes);
    print_verdict("  in floats", status, yes);
}

int main(void)
{
    const int32_t grazing[2][3] = {{-5, 5, 5}, {5, -5, 5}}, beside[2][3] = {{-6, 5, 5}, {5, -6, 5}};
    const int32_t edge[3] = {65536, -65536, 5}, past_edge[3] = {5, -65537, 5};
    const int32_t seven[VIEW] = {PLANES + 1}, five[VIEW] = {PLANES - 1};
    uint32_t status, yes = 0;

    print_case(4, grazing[0], grazing[1]);
    print_case(5, beside[0], beside[1]);
    status = gf_whole_intersects_segment(cube, VIEW, grazing[0], 3, edge, 3, &yes);
    print_verdict("the first line, on to the grid's edge", status, yes);
    status = gf_whole_intersects_segment(cube, VIEW, grazing[0], 3, past_edge, 3, &yes);
    print_verdict("past the grid's edge", status, yes);
    status = gf_whole_intersects_segment(five, VIEW, grazing[0], 3, past_edge, 3, &yes);
    print_verdict("past it, and the view counts five planes", status, yes);
    status = gf_whole_intersects_segment(seven, VIEW, grazing[0], 3, past_edge, 3, &yes);
    print_verdict("past it, and the view counts a plane that it lacks", status, yes);
    return 0;
}
