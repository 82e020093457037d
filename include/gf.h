/* Nugyarvit's geometry operations for C and C++, on x86-64.
 *
 * Link libgf.a, which `rt lib` in crates/gf makes; once it is installed, `pkg-config --cflags --libs gf` names both. It needs memcpy
 * and memset of the C library and nothing else. Every function is proved to meet its contract (crates/gf/src), for all lengths
 * and all numbers. The functions keep nothing from call to call, so that threads may call them at once.
 *
 * What is lent. A slice is two parameters: a pointer, and a length counted in what it points to: numbers (double), whole numbers
 * (int32_t; int64_t for a witness), the bytes of a farm file, or slots (uint32_t). The caller owes, and nothing tests:
 *
 *   - a pointer is not null, even where its length is 0; it is aligned for what it points to, and points to at least as many
 *     numbers as the length says, or to one where it has no length beside it;
 *   - the memory lent for a result, `out`, and in some calls a count or a place besides, overlaps nothing else that is lent in
 *     the call. Slices lent for reading may overlap or be the same;
 *   - nobody else writes any of that memory during the call;
 *   - the processor rounds to nearest and keeps subnormal numbers, as it does when a program starts. A program that gcc links
 *     with -ffast-math does not keep them.
 *
 * What comes back. A function that can refuse returns a status: 0, or the number of its refusal.
 *
 *   0  done: the result is in `out`
 *   1  an input slice's length differs from its record; there is no range, or more than GF_MOST_RANGES; there is no box, or no
 *      ray; a farm file has more than 65536 bytes
 *   2  the output slice's length differs from its record; there is not a slot for each range or for each box, not five numbers and
 *      a slot for each ray, or not 63 slots for a farm file
 *   3  a kind or a flag is outside its named values; a zero of either sign counts as 0
 *   4  a matrix is singular
 *   5  a miss
 *   6  a matrix is not a projection
 *   7  a coordinate is off the grid, or a whole number is past its limit there; a plane or a box is none of the farm grid
 *   8  a number of a camera's record, or of a volume made of matrices, is not finite
 *   9  a farm file is too short, or its directory does not say where its sections lie
 *   10 a section of a farm file is not as long as its record
 *   11 a group of boxes is empty, or has more numbers than 256 boxes
 *   12 a volume's or a view's count of planes is not whole, or outside GF_FEWEST_PLANES to GF_MOST_PLANES
 *   13 a number is missing: a record lent to a verdict, or one of a farm file, holds a NaN or an infinity
 *   14 a segment is in view, of which it is asked what hides it
 *
 * With status 0 all that is lent for a result is written. Every refusal leaves all of it unchanged. Slices lent for reading
 * are never written. Where more than one refusal applies, the one that "Refuses" lists first is returned. A result of several
 * numbers goes into a slice, `double *out, size_t out_len`. A lone number goes into one `double *out`, a yes or no into one
 * `uint32_t *out`, 1 for yes and 0 for no, and a place or a count into one `uint32_t`; these have no length, so no 2 is given.
 * Places count from 0; none is GF_NO_PLACE, which also fills slots that are not used. A witness is written with a yes alone.
 *
 * NaN and infinities. A verdict, a yes or no about a view, is given on finite numbers alone: the gf_intersects_ functions, gf_exact_bbox,
 * gf_blocking_plane, gf_blocking_planes and gf_farm_file refuse a NaN or an infinity with 13, anywhere in what they are lent. To every other function
 * NaN and infinities may be lent anywhere, and the arithmetic is that of IEEE 754. A comparison with a NaN is false: a NaN
 * distance is on no plane's positive side, a NaN alone does not make a range empty, a NaN flag or kind is refused with 3, a NaN
 * determinant with 4. Least and greatest pass over one NaN. In a verdict a NaN can still come about where finite numbers
 * overflow, and the same holds of it. A result that is a NaN may be any NaN.
 *
 * Records, in numbers:
 *
 *   point 3               x, y, z
 *   homogeneous point 4   x, y, z, w
 *   range 6               least corner, greatest corner
 *   matrix 16             row by row, for row vectors: a point stands to the left, the translation is the last row
 *   plane 4               normal, distance. A point is on its positive side where point times normal is at least distance
 *   ray 6                 start, direction
 *   projection 7          kind (0 perspective, 1 orthographic), left, right, bottom, top, near, far. A perspective window is not
 *                         where glFrustum has it ("projections", below)
 *   camera 24             the matrix that carries camera space into the world, kind (as a projection), focal length, horizontal
 *                         aperture, vertical aperture, horizontal offset, vertical offset, near, far
 *   box 23                range, the matrix that places it, zero-area flag (0 or 1)
 *   volume 25 + 4n        how many planes it has, n, a whole number from GF_FEWEST_PLANES to GF_MOST_PLANES; n planes that
 *                         face into the view, in front the original six, left, right, bottom, top, near, far, and behind them
 *                         those of sheds and screens that cut it; then four rays along the edges of the view, from its near
 *                         corners left bottom, left top, right top, right bottom. That is 49 numbers for six planes
 *   view 1 + 4n           of whole numbers: the same count, then n planes, without rays. That is 25 numbers for six planes
 *   placed box 6          of whole numbers: least corner, greatest corner
 *   witness 4             of whole numbers of 64 bits: x, y, z and k, at least 1, of the point x/k, y/k, z/k
 *
 * Below, "In" gives the length of each slice lent for reading, "Out" what is written with status 0, and "Refuses" the
 * refusals that the function can give, in their order.
 */
#ifndef GF_H
#define GF_H

#include <stddef.h>
#include <stdint.h>

/* The second number rises with each change of what a function takes or answers, the third with any other. */
#define GF_VERSION "0.18.0"

/* The limits of a volume's count of planes, and of a view's. */
#define GF_FEWEST_PLANES 6
#define GF_MOST_PLANES 14

/* The most ranges of a call that takes several, and no place. */
#define GF_MOST_RANGES 1024
#define GF_NO_PLACE 4294967295u

#ifdef __cplusplus
extern "C" {
#endif

/* ---- the survey grid */

/* A point in metres becomes whole centimetres. Each coordinate is multiplied by 100 in one rounded operation, then rounded
 * to the nearest whole number, halves to the even one. 7: a product is not finite, or its rounded size exceeds 65536. Zero
 * results are positive.
 * In: p 3. Out: 3 numbers. Refuses: 1, 2, 7. */
uint32_t gf_grid(const double *p, size_t p_len, double *out, size_t out_len);

/* ---- matrices */

/* a times b: what moves by a first and by b then.
 * In: a 16, b 16. Out: 16 numbers. Refuses: 1, 2. */
uint32_t gf_product(const double *a, size_t a_len, const double *b, size_t b_len, double *out, size_t out_len);

/* Rows become columns.
 * In: m 16. Out: 16 numbers. Refuses: 1, 2. */
uint32_t gf_transpose(const double *m, size_t m_len, double *out, size_t out_len);

/* The inverse: the adjugate times the reciprocal of the determinant. 4: the determinant's size is not above 1e-12, or it is a
 * NaN; an infinite one is accepted.
 * In: m 16. Out: 16 numbers. Refuses: 1, 2, 4. */
uint32_t gf_inverse(const double *m, size_t m_len, double *out, size_t out_len);

/* The point p through m, times the reciprocal of its w; a w of zero, of either sign, counts as 1.
 * In: m 16, p 3. Out: 3 numbers. Refuses: 1, 2. */
uint32_t gf_transform(const double *m, size_t m_len, const double *p, size_t p_len, double *out, size_t out_len);

/* The point p through m, the last column of m left out.
 * In: m 16, p 3. Out: 3 numbers. Refuses: 1, 2. */
uint32_t gf_transform_affine(const double *m, size_t m_len, const double *p, size_t p_len, double *out, size_t out_len);

/* The direction p through the upper three by three of m.
 * In: m 16, p 3. Out: 3 numbers. Refuses: 1, 2. */
uint32_t gf_transform_dir(const double *m, size_t m_len, const double *p, size_t p_len, double *out, size_t out_len);

/* The homogeneous point v through m.
 * In: m 16, v 4. Out: 4 numbers. Refuses: 1, 2. */
uint32_t gf_transform_homogeneous(const double *m, size_t m_len, const double *v, size_t v_len, double *out, size_t out_len);

/* The determinant of the upper three by three.
 * In: m 16. Out: a lone number. Refuses: 1. */
uint32_t gf_determinant3(const double *m, size_t m_len, double *out);

/* Whether that determinant is above zero.
 * In: m 16. Out: yes or no. Refuses: 1. */
uint32_t gf_is_right_handed(const double *m, size_t m_len, uint32_t *out);

/* ---- ranges */

/* Whether the least is above the greatest along some axis.
 * In: range 6. Out: yes or no. Refuses: 1. */
uint32_t gf_range_is_empty(const double *range, size_t range_len, uint32_t *out);

/* The range that holds both. An empty one yields the other, and of two empty ones the result is b. Elsewhere its numbers are
 * chosen as by gf_min and gf_max, so that a and b may change places.
 * In: a 6, b 6. Out: 6 numbers. Refuses: 1, 2. */
uint32_t gf_range_union(const double *a, size_t a_len, const double *b, size_t b_len, double *out, size_t out_len);

/* What both hold: the greater of the least corners, the lesser of the greatest, chosen as by gf_max and gf_min. It is empty
 * where they do not meet.
 * In: a 6, b 6. Out: 6 numbers. Refuses: 1, 2. */
uint32_t gf_range_intersection(const double *a, size_t a_len, const double *b, size_t b_len, double *out, size_t out_len);

/* The midpoint: half the least corner plus half the greatest.
 * In: range 6. Out: 3 numbers. Refuses: 1, 2. */
uint32_t gf_range_midpoint(const double *range, size_t range_len, double *out, size_t out_len);

/* The square of the distance from p to the range, zero inside it. An axis along which p is neither below the least
 * nor above the greatest adds zero, and so does a NaN coordinate of p.
 * In: range 6, p 3. Out: a lone number. Refuses: 1. */
uint32_t gf_range_distance_squared(const double *range, size_t range_len, const double *p, size_t p_len, double *out);

/* The range, aligned to the axes, that holds the range moved by m, the last column of m left out. An empty range stays as it
 * is. A bound is -0 just where the translation and the three products added to it are.
 * In: range 6, m 16. Out: 6 numbers. Refuses: 1, 2. */
uint32_t gf_range_transformed(const double *range, size_t range_len, const double *m, size_t m_len, double *out, size_t out_len);

/* The eight corners, three numbers each. Corner k, from 0 on, has the greatest x where bit 0 of k is set, the greatest y where
 * bit 1 is, the greatest z where bit 2 is, and the least elsewhere.
 * In: range 6. Out: 24 numbers. Refuses: 1, 2. */
uint32_t gf_range_corners(const double *range, size_t range_len, double *out, size_t out_len);

/* ---- several ranges: from 1 to GF_MOST_RANGES of them, one behind another. Distances are squared, as gf_range_distance_squared
 * gives them, and are those to the ranges as they are lent, aligned to the axes: of a placed box lend what gf_bbox_aligned_range
 * writes. An empty range has no distance and is passed over. An infinite distance is one like any other. A NaN adds none, as a
 * coordinate of p along its axis and as a bound of a range on its side, so that no distance is a NaN, and that to a range of six
 * NaN, or from a p of three, is 0. 1: there is no number of a range, there are more than 6144 or not a multiple of 6, or p has
 * not 3 */

/* The place of the range that is nearest to p, the first of those that are equally near; GF_NO_PLACE where all are empty.
 * In: ranges 6 each, p 3. Out: a place. Refuses: 1. */
uint32_t gf_range_nearest(const double *ranges, size_t ranges_len, const double *p, size_t p_len, uint32_t *place);

/* The places of all ranges whose squared distance from p is at most limit, rising, in the slots in front; the slots behind them
 * hold GF_NO_PLACE. found is how many there are. A limit of -0 is as 0; one below, and a NaN, finds none, and an infinite one all
 * that are not empty. 2: out has not a slot for each range.
 * In: ranges 6 each, p 3, and the number limit, a square. Out: a slot for each range, and the number found. Refuses: 1, 2. */
uint32_t gf_range_within(const double *ranges, size_t ranges_len, const double *p, size_t p_len, double limit, uint32_t *out, size_t out_len, uint32_t *found);

/* ---- planes: one that is lent is taken as it is, its normal of any length */

/* The plane that faces along a normal, at a distance from the origin. The normal is multiplied by the reciprocal of its
 * length, or of 1e-10 where its length is less or a NaN; the distance is kept.
 * In: normal 3, and the number distance. Out: 4 numbers. Refuses: 1, 2. */
uint32_t gf_plane_new(const double *normal, size_t normal_len, double distance, double *out, size_t out_len);

/* The plane of three points, which seen from its positive side go round against the clock; its normal is made unit length as by
 * gf_plane_new.
 * In: p0 3, p1 3, p2 3. Out: 4 numbers. Refuses: 1, 2. */
uint32_t gf_plane_from_points(const double *p0, size_t p0_len, const double *p1, size_t p1_len, const double *p2, size_t p2_len, double *out, size_t out_len);

/* The plane where a x + b y + c z + w is zero, for an equation a, b, c, w. Its normal is made unit length as by gf_plane_new;
 * its distance is -w divided by the length of (a, b, c), or -w where that length comes out as zero.
 * In: equation 4. Out: 4 numbers. Refuses: 1, 2. */
uint32_t gf_plane_from_equation(const double *equation, size_t equation_len, double *out, size_t out_len);

/* How far p is from the plane, positive on the side that the normal points into: p times normal, less the plane's distance.
 * In: plane 4, p 3. Out: a lone number. Refuses: 1. */
uint32_t gf_plane_distance(const double *plane, size_t plane_len, const double *p, size_t p_len, double *out);

/* Whether p is on the plane or on that side; where the distance is a NaN it is not.
 * In: plane 4, p 3. Out: yes or no. Refuses: 1. */
uint32_t gf_plane_on_positive_side(const double *plane, size_t plane_len, const double *p, size_t p_len, uint32_t *out);

/* The plane under a matrix, its normal made unit length. 4: where gf_inverse refuses the matrix.
 * In: plane 4, m 16. Out: 4 numbers. Refuses: 1, 2, 4. */
uint32_t gf_plane_transformed(const double *plane, size_t plane_len, const double *m, size_t m_len, double *out, size_t out_len);

/* ---- rays: a distance along one is counted in lengths of its direction */

/* The point at a distance: start plus direction times distance.
 * In: ray 6, and the number distance. Out: 3 numbers. Refuses: 1, 2. */
uint32_t gf_ray_point(const double *ray, size_t ray_len, double distance, double *out, size_t out_len);

/* The ray under a matrix: its start as by gf_transform, its direction as by gf_transform_dir.
 * In: ray 6, m 16. Out: 6 numbers. Refuses: 1, 2. */
uint32_t gf_ray_transformed(const double *ray, size_t ray_len, const double *m, size_t m_len, double *out, size_t out_len);

/* Where the ray meets the plane: distance, then 1 where it meets the front, the side that the normal points into, or 0.
 * The plane is taken to go through normal times distance, as it does where the normal has length 1. 5: direction times normal
 * is below 1e-10 in size, or the distance is not at least 0. Distance zero hits.
 * In: ray 6, plane 4. Out: 2 numbers. Refuses: 1, 2, 5. */
uint32_t gf_ray_intersect_plane(const double *ray, size_t ray_len, const double *plane, size_t plane_len, double *out, size_t out_len);

/* Where the ray meets the triangle: distance, the weights gamma, alpha and beta of p0, p1 and p2, then 1 for the front, the
 * side from which the points run counter-clockwise, or 0. Gamma is rounded to binary32. A weight strictly between -1e-10 and
 * 0 becomes 0. 5: the plane of the points is missed, beta is not from 0 to 1, or alpha or gamma is below 0; a NaN alpha or
 * gamma passes.
 * In: ray 6, p0 3, p1 3, p2 3. Out: 5 numbers. Refuses: 1, 2, 5. */
uint32_t gf_ray_intersect_triangle(const double *ray, size_t ray_len, const double *p0, size_t p0_len, const double *p1, size_t p1_len, const double *p2, size_t p2_len, double *out, size_t out_len);

/* The same of several rays, one or more of them, one behind another, as hail falls onto a net: ray i has five numbers of out, from
 * 5 * i on, and slot i of status, 0 where it meets the triangle and 5 where it misses. The five numbers of a miss are 0. Both are what
 * gf_ray_intersect_triangle answers and writes for that ray. The plane of the points is made once, so that a call for all rays on a
 * triangle takes less time than one for each. A refusal writes neither out nor status. 1: there is no number of a ray, their count is
 * not a multiple of 6, or a point has not 3. 2: out has not 5 numbers for each ray, or status not a slot for each.
 * In: rays 6 each, p0 3, p1 3, p2 3. Out: 5 numbers and a slot for each ray. Refuses: 1, 2. */
uint32_t gf_rays_intersect_triangle(const double *rays, size_t rays_len, const double *p0, size_t p0_len, const double *p1, size_t p1_len, const double *p2, size_t p2_len, double *out, size_t out_len, uint32_t *status, size_t status_len);

/* ---- projections: the eye is at the origin of camera space and looks along -z, with x to the right and y upward. Near and far
 * are distances in front of it. Left, right, bottom and top bound a window, and what is seen through it between near and far goes to
 * clip points that have x, y and z from -w to w; z is -w at near and w at far.
 * An orthographic window is one for all distances, as that of glOrtho is. A perspective one is at distance 1 from the eye, whatever
 * near is: right is how far to the right is seen for each unit in front of the eye, 1 for 45 degrees. glFrustum has its window at
 * the near plane; for its view divide its left, right, bottom and top by near.
 * Example: near is 2 and far 10, and at near the view goes from -1 to 1 across and from -0.5 to 0.5 upward. Lend 0, -0.5, 0.5, -0.25,
 * 0.25, 2, 10. The matrix has the rows 2,0,0,0; 0,4,0,0; 0,0,-1.5,-1; 0,0,-5,0. The point 1,0.5,-2, a corner of the view at near,
 * becomes 2,2,-2,2, and -5,-2.5,-10, one at far, -10,-10,10,10. The box 3,0,-5 to 4,1,-4 is to the right of the view, and by this
 * matrix gf_intersects_view_volume gives a no. With -1, 1, -0.5, 0.5 as the window the view is twice as wide and twice as high, the
 * box gets a yes, and a block that is not seen is rated as watched */

/* The matrix of a projection, from camera space into clip space. 3: the kind is neither 0, of either sign, nor 1.
 * In: params 7. Out: 16 numbers. Refuses: 1, 2, 3. */
uint32_t gf_projection_matrix(const double *params, size_t params_len, double *out, size_t out_len);

/* The projection of a matrix, with its window where gf_projection_matrix has it, of a perspective one at distance 1. The
 * number in the third row and fourth column tells the kind: less than 1e-6 from -1, or else from 0. 6: it is neither, one of the
 * six numbers found is not finite, or the matrix that they build is not m within 1e-6, entry by entry, of the larger size of the
 * two or of 1.
 * In: m 16. Out: 7 numbers. Refuses: 1, 2, 6. */
uint32_t gf_projection_from_matrix(const double *m, size_t m_len, double *out, size_t out_len);

/* ---- cameras, and their volumes */

/* The camera of a view, which carries the world into camera space, and a projection. A lens of twice the focal length behind
 * apertures of twice the size projects alike, so that the focal length is told besides. Focal length, apertures and offsets
 * count tenths of the world's unit of length. The seven numbers behind the kind are values of binary32: computed in double,
 * narrowed once and widened again. 4: the view has no inverse (as gf_inverse). 6: the projection is none (as
 * gf_projection_from_matrix). 8: one of the 24 numbers is not finite, because it overflows binary32, because the view's
 * inverse holds a NaN or an infinity, or because the focal length is a NaN or infinite. An infinite determinant of the view
 * alone does not give 8: its reciprocal is 0, and finite cofactors times 0 are zeros, so that the view
 * diag(1e78,1e78,1e78,1e78) is accepted with a transform of zeros; diag(1e200,1e200,1e200,1), whose cofactors overflow too,
 * gets 8. A focal length of 0 or below, and near above far, are accepted. With status 0 all 24 numbers are finite.
 * In: view 16, projection 16. Out: 24 numbers. Refuses: 1, 2, 4, 6, 8. */
uint32_t gf_camera_set_from_view_and_projection(const double *view, size_t view_len, const double *projection, size_t projection_len, float focal_length, double *out, size_t out_len);

/* The volume of a view, which carries the world into camera space, and a projection: six planes and four rays, for every function
 * that takes a volume. m is the product of the two (as gf_product). A point, as a row vector, becomes the clip point that m makes of
 * it, and is seen where x, y and z go from -w to w. So left, bottom and near are the sums of m's fourth column and its first,
 * second and third, and right, top and far are the fourth less these: of each the first three numbers are the normal, which is of any
 * length, and the last, with its sign turned, is the distance. Each number is one rounded addition or subtraction; where m is whole
 * numbers, so are the planes. With i the inverse of m (as gf_inverse), the ray at x and y starts at the point x, y, -1 through i (as
 * gf_transform) and goes toward x, y, 0 through i, its direction made unit length. The rays are those at -1,-1; -1,1; 1,1; 1,-1.
 * A projection without a far end is taken: its far plane has a normal of zeros. 4: m has no inverse (as gf_inverse). 8: one of the
 * 49 numbers is not finite. With status 0 all 49 numbers are finite.
 * Example: of the identity and the projection with the rows 2,0,0,0; 0,4,0,0; 0,0,-1.5,-1; 0,0,-5,0 near is 0,0,-2.5;5, far
 * 0,0,0.5;-5 and left 2,0,-1;-0.
 * In: view 16, projection 16. Out: 49 numbers. Refuses: 1, 2, 4, 8. */
uint32_t gf_volume_from_view_and_projection(const double *view, size_t view_len, const double *projection, size_t projection_len, double *out, size_t out_len);

/* ---- farm files */

/* The verdicts on all boxes of a farm file, a string of bytes that holds a volume and from 1 to 63 boxes (docs/FARM_FILE.md).
 * out has 63 slots: box i of the file has slot i - 1, which is 1 if the box is in view (as gf_intersects_bbox) and 0 if not; a
 * slot without a box holds 4294967295. count is the number of boxes. 1: the file has more than 65536 bytes. 2: out has not 63
 * slots. 9: the file has fewer than 4 bytes, its count of sections is not from 2 to 64, the directory does not fit, or a section
 * starts before the end of the directory or of the section listed before it, or passes the end of the file. 10: the volume's section
 * has fewer than 392 bytes. 12: the volume's count of planes. 10: a section has not 8 bytes for each number of its record, the
 * volume's by its count. 3: the flag of a box is neither 0, of either sign, nor 1. 13: a number of the volume, its rays among them,
 * or of a box is a NaN or an infinity. Each is looked for in the whole file before the next; gaps are not read. The bytes need no
 * alignment.
 * In: the file, of any length. Out: 63 slots, and the count. Refuses: 1, 2, 9, 10, 12, 10, 3, 13. */
uint32_t gf_farm_file(const uint8_t *file, size_t file_len, uint32_t *out, size_t out_len, uint32_t *count);

/* ---- boxes. 3, in each: the flag of a box is neither 0, of either sign, nor 1 */

/* A box that holds both. Of a grown to hold b, in the space of a, and b grown to hold a, in the space of b, it is the first if
 * the volumes agree within a tolerance or the first is smaller, else the second. A box with an empty range yields the other, b
 * where both are. A matrix without an inverse, its determinant's size not above 1e-13, lends no space: the other's is taken,
 * and of two such boxes the result is the range that holds both aligned ranges, under the identity. The flag is 1 if
 * either one's is.
 * In: a 23, b 23. Out: 23 numbers. Refuses: 1, 2, 3. */
uint32_t gf_bbox_combine(const double *a, size_t a_len, const double *b, size_t b_len, double *out, size_t out_len);

/* One box that holds those of a group, from 1 to 256 box records one behind another: what gf_bbox_combine leaves of the first two,
 * then of that and the third, and so on to the last. A single box comes back as it is, number for number. 11: there is no number,
 * or there are more than 5888; 1: their count is not a multiple of 23; 3: the flag of any of the boxes.
 * In: boxes 23 each. Out: 23 numbers. Refuses: 11, 1, 2, 3. */
uint32_t gf_bbox_combine_group(const double *boxes, size_t boxes_len, double *out, size_t out_len);

/* The box under a matrix that is applied after its own; range and flag are kept.
 * In: b 23, m 16. Out: 23 numbers. Refuses: 1, 2, 3. */
uint32_t gf_bbox_transform(const double *b, size_t b_len, const double *m, size_t m_len, double *out, size_t out_len);

/* The volume of the placed box, zero for an empty range.
 * In: b 23. Out: a lone number. Refuses: 1, 3. */
uint32_t gf_bbox_volume(const double *b, size_t b_len, double *out);

/* The range, aligned to the axes, that holds the placed box, as by gf_range_transformed.
 * In: b 23. Out: 6 numbers. Refuses: 1, 2, 3. */
uint32_t gf_bbox_aligned_range(const double *b, size_t b_len, double *out, size_t out_len);

/* The midpoint of the range, placed as by gf_transform.
 * In: b 23. Out: 3 numbers. Refuses: 1, 2, 3. */
uint32_t gf_bbox_centroid(const double *b, size_t b_len, double *out, size_t out_len);

/* ---- verdicts: the first four by the planes of a volume, where touching counts, of boxes only as far as rounding lets it
 * (gf_intersects_bbox). docs/VERDICTS.md tells what they mean.
 * What these four refuse, in order: 1 for a volume below 49 numbers or another input of the wrong length; 12 for a count that is
 * not whole or outside its limits, a NaN among them; 1 for a volume of another length than its count's; 3, of a box, for a flag, a NaN
 * among them; then 13 for a NaN or an infinity anywhere in the records lent, also where the verdict would not look: in rays, in planes
 * behind the six, in the matrix of a box with an empty range */

/* Whether the point is on the positive side of every plane. The rays have no part in it but for 13.
 * In: volume, p 3. Out: yes or no. Refuses: 1, 12, 1, 13. */
uint32_t gf_intersects_point(const double *volume, size_t volume_len, const double *p, size_t p_len, uint32_t *out);

/* Whether the segment p0 to p1, its ends included, has a point on the positive side of every plane. The rays have no part in it
 * but for 13.
 * In: volume, p0 3, p1 3. Out: yes or no. Refuses: 1, 12, 1, 13. */
uint32_t gf_intersects_segment(const double *volume, size_t volume_len, const double *p0, size_t p0_len, const double *p1, size_t p1_len, uint32_t *out);

/* Whether any of the triangle is in view, by the original six planes alone: a corner, some of a side, or a place where a ray of
 * the volume meets it. Only the first ray is tried where all corners are on the positive side of the near and of the far plane.
 * It is exact neither way: a ray may meet the triangle behind the far plane, and may miss one that cuts through the view. 13 is
 * given for all planes and rays, whichever are asked.
 * In: volume, p0 3, p1 3, p2 3. Out: yes or no. Refuses: 1, 12, 1, 13. */
uint32_t gf_intersects_triangle(const double *volume, size_t volume_len, const double *p0, size_t p0_len, const double *p1, size_t p1_len, const double *p2, size_t p2_len, uint32_t *out);

/* Whether the placed box is wholly behind no plane; a box near an edge or a corner of the view may count though it is just
 * outside. Each normal is made unit length in the box's space, which rounds, so that a box which just touches may get a no: not
 * one on the farm grid by planes whose normal is a single 1 or -1. A box with an empty range is not in view. One whose matrix has
 * no inverse, its determinant's size not above 1e-13 or, where products overflow, a NaN, is taken as if its matrix were the identity.
 * The rays have no part in it but for 13. 3: the flag is neither 0, of either sign, nor 1. 13: also of a box with an empty range.
 * On the farm grid gf_exact_bbox has neither fault.
 * In: volume, bbox 23. Out: yes or no. Refuses: 1, 12, 1, 3, 13. */
uint32_t gf_intersects_bbox(const double *volume, size_t volume_len, const double *bbox, size_t bbox_len, uint32_t *out);

/* The same of several boxes, one or more of them, one behind another: box i of boxes has slot i of out, 1 if it is in view and 0 if
 * not, as gf_intersects_bbox answers it. The volume is tested and its planes are gathered once, so that a call for all boxes of a
 * view takes less time than one for each. Each refusal is looked for in all boxes before the next, and none has a part of the slots
 * written. 1: the volume has fewer than 49 numbers, there is no number of a box, or their count is not a multiple of 23. 2: out has
 * not a slot for each box. 3: the flag of any of the boxes. 13: any number of the volume or of a box.
 * In: volume, boxes 23 each. Out: a slot for each box. Refuses: 1, 12, 1, 2, 3, 13. */
uint32_t gf_intersects_bboxes(const double *volume, size_t volume_len, const double *boxes, size_t boxes_len, uint32_t *out, size_t out_len);

/* Whether the box is in the clip volume of a matrix of view and projection: moved there, some corner has x below w and some
 * has x above -w, and so for y and z. These comparisons are strict, so touching does not count. Emptiness is not tested.
 * 3: the flag is neither 0, of either sign, nor 1. 13: a number of the box or of m is a NaN or an infinity.
 * In: bbox 23, m 16. Out: yes or no. Refuses: 1, 3, 13. */
uint32_t gf_intersects_view_volume(const double *bbox, size_t bbox_len, const double *m, size_t m_len, uint32_t *out);

/* ---- what hides a segment, and what a box is behind */

/* Which plane alone hides a segment that is not in view: the lowest place of a plane without which gf_intersects_segment's rule, over
 * the planes left, gives a yes. Places count from 0 in the order of the record, and all are tried, the original six too, of which five
 * are left where there is no other plane. GF_NO_PLACE where no single removal suffices. That both ends are behind a plane does not
 * make it the one. The rays have no part in it but for 13. All refusals of gf_intersects_segment come first, then 14: the segment is in
 * view.
 * In: volume, p0 3, p1 3. Out: a place. Refuses: 1, 12, 1, 13, 14. */
uint32_t gf_blocking_plane(const double *volume, size_t volume_len, const double *p0, size_t p0_len, const double *p1, size_t p1_len, uint32_t *place);

/* The planes that a box is wholly behind, a bit for each place: bit i of planes is set where gf_intersects_bbox's own test finds that the
 * box does not reach plane i. An empty range reaches none, so that all bits of the volume's planes are set. 0 exactly where
 * gf_intersects_bbox gives a yes. Of a box that gets a no one bit alone is set exactly where it would get a yes without that plane. On
 * the farm grid, by planes whose normal is a single 1 or -1, a bit is set exactly where no exact point of the placed box satisfies the
 * plane. By all other planes the test rounds, and a box that just touches one, in a corner, an edge or a face, may get its bit: plane
 * 49,0,0 with distance 343 and the box 6,0,0 to 7,1,1, which touch in a face, and the bit is set. All refusals are those of
 * gf_intersects_bbox.
 * In: volume, bbox 23. Out: bits. Refuses: 1, 12, 1, 3, 13. */
uint32_t gf_blocking_planes(const double *volume, size_t volume_len, const double *bbox, size_t bbox_len, uint32_t *planes);

/* ---- verdicts in whole numbers: no float is read, made or written. Coordinates are at most 65536 in size, the entries
 * of a normal at most 128, a distance at most 16777216: the numbers of the farm grid */

/* Whether the segment p0 to p1, its ends included, has a point on the positive side of every plane, exactly. At each plane an
 * end's distance is the whole number end times normal, less the plane's distance. Both ends below 0 at one plane: no. Where one
 * of the two, d0 of p0 and d1 of p1, is below 0, the segment comes in (d0 is) or goes out (d1 is) at the fraction |d0| / |d1 - d0|
 * of its way. No, if the greatest fraction at which it comes in is above the least at which it goes out, compared by products of
 * whole numbers; where they are equal it touches the view in one point, and that is a yes. The verdict is that of
 * gf_intersects_segment on the same numbers as doubles, with any four finite rays. 1: an end has not 3 numbers, or the view has
 * fewer than 25; 12: the count is outside its limits; 1: the view has not 4 numbers for each plane that it counts; 7: a number of
 * any plane or of an end is past its limit.
 * In: view, p0 3, p1 3. Out: yes or no. Refuses: 1, 12, 1, 7. */
uint32_t gf_whole_intersects_segment(const int32_t *view, size_t view_len, const int32_t *p0, size_t p0_len, const int32_t *p1, size_t p1_len, uint32_t *out);

/* Whether a placed box, its faces included, and the view share a point, exactly, whatever directions the planes have. A point
 * satisfies a plane if point times normal, less the distance, is at least 0, so that touching counts. A normal of zeros is
 * satisfied by every point where the distance is at most 0, and else by none. With a yes the witness is written, which is such a
 * point: x, y and z lie from k times the least to k times the greatest coordinate, and x, y, z times each normal is at least k
 * times the distance. It is any point that is one. A no has none, and the witness keeps its numbers. For planes whose normal is a
 * single 1 or -1 and that share a point the verdict is that of gf_intersects_bbox; for others it need not be. 1: the box has not
 * 6 numbers, or the view has fewer than 25; 12: the count is outside its limits; 1: the view has not 4 numbers for each plane
 * that it counts; 2: the witness has not 4 numbers; 7: a number of any plane or of the box is past its limit, or a least
 * coordinate is above its greatest.
 * In: view, box 6. Out: yes or no, and with a yes a witness. Refuses: 1, 12, 1, 2, 7. */
uint32_t gf_whole_intersects_bbox(const int32_t *view, size_t view_len, const int32_t *box, size_t box_len, int64_t *witness, size_t witness_len, uint32_t *out);

/* ---- the exact verdict on a box from its records */

/* Whether the placed box, its faces included, and the view share a point, exactly: gf_whole_intersects_bbox on the volume's
 * planes and on the box's least and greatest placed corner. So two records of one placed box get one answer. It is there for the
 * farm grid alone, and refuses what is none of it. All refusals of gf_intersects_bbox come first, and then 7: a plane's normal
 * has an entry that is not whole or above 128 in size, or its distance is not whole or above 16777216; or the box is no grid box.
 * A grid box has a range with whole corners of size at most 65536, of which no least coordinate is above its greatest, and a
 * matrix whose upper three by three has one 1 or -1 and two zeros in every row and column, a whole translation of size at most
 * 65536 and the last column 0, 0, 0, 1; and its placed corners are of size at most 65536. A zero of either sign is 0 in all of
 * these, and a normal of zeros is allowed. The rays have no part in it but for 13.
 * In: volume, bbox 23. Out: yes or no. Refuses: 1, 12, 1, 3, 13, 7. */
uint32_t gf_exact_bbox(const double *volume, size_t volume_len, const double *bbox, size_t bbox_len, uint32_t *out);

/* ---- the numbers that the other operations are made of. These return their result and refuse nothing */

/* The square root, rounded to nearest, ties to even: -0 for -0, NaN for what is below zero and for a NaN. */
double gf_sqrt(double x);

/* The magnitude; some NaN for a NaN. */
double gf_abs(double x);

/* The smaller and the larger of two numbers. One NaN is passed over, two give a NaN. Of two zeros the smaller is -0 if either
 * is, and the larger is 0 if either is. So the operands may change places. */
double gf_min(double x, double y);
double gf_max(double x, double y);

/* binary64 to binary32, rounded to nearest, ties to even; and back, without loss. A NaN gives some NaN. */
float gf_narrow(double x);
double gf_widen(float x);

#ifdef __cplusplus
}
#endif

#endif
