/* One orchard through the C library; orchard.rs does the same in Rust. `examples/run` builds and runs both. */
#include "gf.h"
#include <math.h>
#include <stdio.h>
#include <string.h>

/* The view, in centimetres: x from 0 to 4000, y from 0 to 3000, z from 0 to 600. How many planes there are, six planes that face
 * into it; the four rays, which the triangle verdict alone reads, stay zero. */
static const double view[49] = {
    6,
    1, 0, 0, 0, -1, 0, 0, -4000,
    0, 1, 0, 0, 0, -1, 0, -3000,
    0, 0, 1, 0, 0, 0, -1, -600,
};

/* The same view past a shed, which hides what lies beyond y = 1600: a seventh plane. */
static const double past_shed[53] = {
    7,
    1, 0, 0, 0, -1, 0, 0, -4000,
    0, 1, 0, 0, 0, -1, 0, -3000,
    0, 0, 1, 0, 0, 0, -1, -600,
    0, -1, 0, -1600,
};

/* A count of planes that is not whole. */
static const double miscounted[49] = {6.5};

/* Two blocks: least corner, greatest corner, the matrix that places them, row by row, and the zero-area flag. The second is
 * turned by a quarter and moved, so that it stands from 4000, 2000, 0 to 4600, 2800, 250. */
static const double south[23] = {200, -900, 0, 1200, -100, 300, 1, 0, 0, 0, 0, 1, 0, 0, 0, 0, 1, 0, 0, 0, 0, 1, 0};
static const double north[23] = {0, 0, 0, 800, 600, 250, 0, 1, 0, 0, -1, 0, 0, 0, 0, 0, 1, 0, 4600, 2000, 0, 1, 0};

/* A packing shed beside them. */
static const double shed[23] = {5000, 100, 0, 5200, 300, 350, 1, 0, 0, 0, 0, 1, 0, 0, 0, 0, 1, 0, 0, 0, 0, 1, 0};

/* A mast camera as its maker sends it: it stands at 2000, -500, 300 and looks along -z, through a window that reaches 1 to
 * either side and 0.5 up and down at a distance of one, from 100 to 5000. */
static const double camera_view[16] = {1, 0, 0, 0, 0, 1, 0, 0, 0, 0, 1, 0, -2000, 500, -300, 1};
static const double camera_window[7] = {0, -1, 1, -0.5, 0.5, 100, 5000};

static void print_verdict(const char *what, uint32_t status, uint32_t yes)
{
    if (status != 0)
        printf("%s: refused %u\n", what, (unsigned)status);
    else
        printf("%s: %s\n", what, yes ? "yes" : "no");
}

static void print_numbers(const char *what, uint32_t status, const double *numbers, int count)
{
    printf("%s:", what);
    if (status != 0)
        printf(" refused %u", (unsigned)status);
    else
        for (int i = 0; i < count; i++)
            printf(" %.0f", numbers[i]);
    printf("\n");
}

/* A verdict for each of several blocks. */
static void print_slots(const char *what, uint32_t status, const uint32_t *slots, int count)
{
    printf("%s:", what);
    if (status != 0)
        printf(" refused %u", (unsigned)status);
    else
        for (int i = 0; i < count; i++)
            printf(" %s", slots[i] ? "yes" : "no");
    printf("\n");
}

/* A farm file of the view and the two blocks: the count, where each section begins and how many bytes it has, and the sections.
 * The numbers are copied as they lie in memory, low byte first. */
static size_t make_farm_file(uint8_t *file)
{
    const double *sections[3] = {view, south, north};
    const uint32_t sizes[3] = {sizeof view, sizeof south, sizeof north}, count = 3;
    uint32_t offset = 4 + 8 * count;

    memcpy(file, &count, 4);
    for (uint32_t i = 0; i < count; i++) {
        memcpy(file + 4 + 8 * i, &offset, 4);
        memcpy(file + 8 + 8 * i, &sizes[i], 4);
        memcpy(file + offset, sections[i], sizes[i]);
        offset += sizes[i];
    }
    return offset;
}

int main(void)
{
    const double mast[3] = {-500, 1500, 550};
    const double survey[3] = {12.34, 20.5, 1.6}, far_off[3] = {656, 0, 0}; /* metres */
    double tree[3] = {0}, both[23] = {0}, range[6] = {0}, projection[16] = {0}, camera[24] = {0};
    uint8_t file[800];
    size_t file_size;
    double group[3 * 23], part[23] = {0};
    uint32_t status, yes = 0, slots[63], count = 0;

    status = gf_grid(survey, 3, tree, 3);
    print_numbers("tree in centimetres", status, tree, 3);
    status = gf_intersects_segment(view, 49, mast, 3, tree, 3, &yes);
    print_verdict("line from the mast to the tree in view", status, yes);
    status = gf_intersects_segment(past_shed, 53, mast, 3, tree, 3, &yes);
    print_verdict("the same past a shed", status, yes);
    status = gf_intersects_segment(miscounted, 49, mast, 3, tree, 3, &yes);
    print_verdict("the same by six and a half planes", status, yes);

    status = gf_intersects_bbox(view, 49, south, 23, &yes);
    print_verdict("south block in view", status, yes);
    status = gf_intersects_bbox(view, 49, north, 23, &yes);
    print_verdict("north block, which touches, in view", status, yes);
    /* The same from a survey that has no height for it. */
    memcpy(part, north, sizeof north);
    part[5] = NAN;
    status = gf_intersects_bbox(view, 49, part, 23, &yes);
    print_verdict("north block without its height", status, yes);

    status = gf_bbox_combine(south, 23, north, 23, both, 23);
    if (status == 0)
        status = gf_bbox_aligned_range(both, 23, range, 6);
    print_numbers("both blocks, least and greatest", status, range, 6);

    /* The whole orchard: which of it is in view; as one group; then north block and shed first, and their result with the south block. */
    memcpy(group, south, sizeof south);
    memcpy(group + 23, north, sizeof north);
    memcpy(group + 46, shed, sizeof shed);
    status = gf_intersects_bboxes(view, 49, group, 69, slots, 3);
    print_slots("south block, north block and shed in one call", status, slots, 3);
    status = gf_intersects_bboxes(view, 49, group, 69, slots, 2);
    print_slots("the same with a slot too few", status, slots, 2);
    status = gf_bbox_combine_group(group, 69, both, 23);
    if (status == 0)
        status = gf_bbox_aligned_range(both, 23, range, 6);
    print_numbers("the orchard as one group", status, range, 6);
    status = gf_bbox_combine_group(group + 23, 46, part, 23);
    memcpy(group + 23, part, sizeof part);
    if (status == 0)
        status = gf_bbox_combine_group(group, 46, both, 23);
    if (status == 0)
        status = gf_bbox_aligned_range(both, 23, range, 6);
    print_numbers("the orchard by its parts", status, range, 6);
    status = gf_bbox_combine_group(group, 0, both, 23);
    print_numbers("a group of no blocks", status, both, 23);

    status = gf_projection_matrix(camera_window, 7, projection, 16);
    if (status == 0)
        status = gf_camera_set_from_view_and_projection(camera_view, 16, projection, 16, 50.0f, camera, 24);
    print_numbers("camera at, and its lens", status, camera + 12, 12);
    status = gf_camera_set_from_view_and_projection(camera_view, 16, projection, 16, 3e38f, camera, 24);
    print_numbers("camera with a focal length of 3e38", status, camera + 12, 12);

    file_size = make_farm_file(file);
    status = gf_farm_file(file, file_size, slots, 63, &count);
    for (uint32_t i = 0; status == 0 && i < count; i++)
        print_verdict(i == 0 ? "farm file, block 1" : "farm file, block 2", 0, slots[i]);
    status = gf_farm_file(file, file_size - 1, slots, 63, &count);
    print_verdict("farm file without its last byte", status, 0);

    status = gf_grid(far_off, 3, tree, 3);
    print_numbers("tree at 656 metres", status, tree, 3);
    return 0;
}
