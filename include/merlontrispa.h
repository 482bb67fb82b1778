/*
 * Merlontrispa: verified surfaces, seams and pen lines for pen plotters.
 *
 * The functions of target/staticlib/libmerlontrispa.a, which `tools/staticlib` writes.
 * Each is proved to end with an answer for every input, to read and write nothing past a list, and
 * to answer, to the last bit, what the definition says that its contract in crates/merlontrispa/src
 * cites; of an answer that is a NaN, its sign and payload are not fixed. The Rules that are cited
 * here, as Rules 8.2, are sections of docs/RULES.md of the repository, which says in words what is
 * right.
 *
 * Grid (Rules 1). A surface is sampled in m steps of u and n steps of v, each 1 to 255, at
 * (m + 1) * (n + 1) points. The number of point (u, v), u up to m and v up to n, is
 * u * (n + 1) + v. A grid is a list of 3 * (m + 1) * (n + 1) doubles: x, y and z of point number 0,
 * then of number 1, and so on.
 *
 * Lists. A list is lent as its pointer and its length, which counts numbers, not points: a point
 * takes three. `const` lists are only read. A list must be aligned as its type asks. A list that is
 * written must overlap no other list of the call; two lists that are read may. A list of length 0
 * is never looked at, so its pointer may be NULL.
 *
 * Tolerances (Rules 2). Points count as one where they are close by a tolerance, as
 * mt_vector_all_close says: by u_tolerance at the u seam, by v_tolerance at the v seam, by
 * line_tolerance along a traced line. Each is above 0 and at most 1; 1e-9 is that of the original.
 * A function that takes all three tests each of them, used or not.
 *
 * Answers. `refusal` is MT_OK, which is 0, or the number of a refusal. A refused answer has 0 in
 * all other fields. Refusals 11 and 12 leave the written lists all zero, the others as they were.
 * After success each place of a written list past what the answer's counts name is zero (Rules 8).
 * Where more than one refusal applies, the first in the order that stands above the function is
 * answered; 11 and 12 come as the walk along the curve meets them (Rules 11.2).
 *
 * The library allocates nothing and keeps nothing between calls: it calls no function but C's
 * memset, memcpy and memmove, and has no data that it writes. So any number of threads may call it
 * at once, if none touches a list that another's call writes. The numbers are IEEE 754 binary64
 * under the default environment: round to nearest, subnormal numbers kept.
 *
 * Link: cc program.c target/staticlib/libmerlontrispa.a
 * or, after ./install: cc program.c $(pkg-config --cflags --libs merlontrispa)
 */
#ifndef MERLONTRISPA_H
#define MERLONTRISPA_H

#include <stdbool.h>
#include <stddef.h>
#include <stdint.h>

#ifdef __cplusplus
extern "C" {
#endif

/* ---- Refusals (Rules 11) --------------------------------------------------------------------- */

/* Why a call is refused. Above each function stand the numbers that it can answer, in the order
 * in which they are tested. M and N are the parameters m and n; the original is the Rust that the
 * library is a port of. */
enum mt_refusal {
    /* No refusal. */
    MT_OK = 0,
    /* M and N must each be from 1 to 255. */
    MT_STEPS = 1,
    /* A list has the wrong length: a grid has 3 * (M+1) * (N+1) numbers, samples two numbers for
     * each mark and at most 65,537 marks, a seam row whole points and at most 65,536 of them. */
    MT_LENGTH = 2,
    /* A lent list is too short: it takes 6 * M * N numbers for triangles, 2 * (M+N) for flipped
     * pairs, 6 * (M+1) * (N+1) for the points of grid lines, M+N+2 for their starts. */
    MT_ROOM = 3,
    /* A coordinate of the grid or of a row is NaN, infinite or beyond +/-2^40. */
    MT_COORDINATE = 4,
    /* The twist is NaN, infinite or beyond +/-64, or there are more than 64 arms. */
    MT_TEXTURE = 5,
    /* The texture would have more than 65,536 rays, or samples to a ray. */
    MT_COUNT = 6,
    /* A cosine or sine is NaN or beyond +/-1. */
    MT_DIRECTION = 7,
    /* No such index, ray, sample or line, or a mapping whose steps or offset are out of range. */
    MT_NOT_THERE = 8,
    /* A mark is neither 0 nor 1. */
    MT_MARK = 9,
    /* A coordinate of a point among the samples is NaN, infinite or beyond +/-1,048,576. */
    MT_SAMPLE = 10,
    /* The curve meets a side where no cell can be told (the original panics there). */
    MT_NO_STEP = 11,
    /* A lent list is full. */
    MT_FULL = 12,
    /* A tolerance is NaN, infinite, not above zero or above 1. */
    MT_TOLERANCE = 13,
    /* A given mapping does not fit: its steps are not those of the edges that it is to join, its
     * offset is not less than these, or the edges do not meet that way. */
    MT_MAPPING = 14
};

/* ---- Seams (Rules 3) ------------------------------------------------------------------------- */

/*
 * A mapping says how the points of a row a meet those of a row b, each of steps + 1 points. It goes
 * in as three numbers: `reverse`, whether the rows run against each other; `offset`, where in b the
 * first point of a lies; `steps`.
 */

/* An index, or a refusal. */
typedef struct mt_index_answer {
    uint8_t refusal;
    size_t index;
} mt_index_answer;

/* What a search found between two rows. */
typedef struct mt_found_seam {
    /* Whether the rows meet. If not, `reverse`, `offset` and `steps` are 0. */
    bool found;
    bool reverse;
    size_t offset;
    size_t steps;
    /* How often the search asked whether two points are close, found or not. */
    uint64_t comparisons;
} mt_found_seam;

/* A seam, or a refusal. */
typedef struct mt_rows_answer {
    uint8_t refusal;
    mt_found_seam seam;
} mt_rows_answer;

/*
 * Searches the seam between two rows of points, three numbers each: the first offset at which a
 * fits b, forward before reverse. Points fit where they are close by the tolerance
 * (mt_vector_all_close). Rows whose ends are close are tried at all offsets, others at 0 alone.
 * Rows of different lengths, or of fewer than two points, do not meet, after 0 comparisons; their
 * tolerance is tested too.
 * Refusals: 2 (a row is not of whole points, or has more than 65,536), 13, 4.
 */
mt_rows_answer mt_new_vector(const double *a, size_t a_len, const double *b, size_t b_len,
                             double tolerance);

/* Whether the rows of a mapping run against each other: `reverse`, whatever the other two are. */
bool mt_is_reverse(bool reverse, size_t offset, size_t steps);

/*
 * The index of b that index a_idx of a meets: forward (offset + a_idx) mod steps, for offset 0
 * a_idx itself; reverse (offset + steps - (a_idx mod steps)) mod steps, for offset 0 steps - a_idx.
 * Refusals: 8 (steps is 0 or more than 65,535, offset is not less than steps, or a_idx is more).
 */
mt_index_answer mt_map_index(bool reverse, size_t offset, size_t steps, size_t a_idx);

/*
 * The index of a that index b_idx of b meets: forward (b_idx + steps - offset) mod steps, for
 * offset 0 b_idx itself; reverse as mt_map_index.
 * Refusals: 8 (steps is 0 or more than 65,535, offset is not less than steps, or b_idx is more).
 */
mt_index_answer mt_map_index_inv(bool reverse, size_t offset, size_t steps, size_t b_idx);

/* ---- Triangles (Rules 4) --------------------------------------------------------------------- */

/*
 * A grid has two seams: that of u, between its column u = 0 as row a and its column u = m as row b,
 * of n steps each, and that of v, between its row v = 0 as a and its row v = n as b, of m steps.
 * mt_find_seams finds both, mt_triangulate_seams takes two and makes the triangles, and
 * mt_triangulate_grid answers what the one and then the other would. In each u_tolerance is that of
 * the u seam, v_tolerance that of the v seam, and line_tolerance is tested and not used.
 */

/* Both seams, or a refusal. */
typedef struct mt_seams_answer {
    uint8_t refusal;
    mt_found_seam u;
    mt_found_seam v;
} mt_seams_answer;

/* The counts of triangles and of flipped pairs, or a refusal. */
typedef struct mt_counts_answer {
    uint8_t refusal;
    size_t triangles;
    size_t pairs;
} mt_counts_answer;

/* Both seams and the counts of triangles and of flipped pairs, or a refusal. */
typedef struct mt_mesh_answer {
    uint8_t refusal;
    mt_found_seam u;
    mt_found_seam v;
    size_t triangles;
    size_t pairs;
} mt_mesh_answer;

/*
 * Finds both seams of a grid, each as mt_new_vector does.
 * Refusals: 1, 2, 13, 4.
 */
mt_seams_answer mt_find_seams(const double *grid, size_t grid_len, size_t m, size_t n,
                              double u_tolerance, double v_tolerance, double line_tolerance);

/*
 * Joins a grid at the seams that are given and writes its triangles, three point numbers each, and
 * the pairs of triangles that meet along a reversed seam, two triangle numbers each, (smaller,
 * larger), ascending.
 * A seam is given as `found`, `reverse`, `offset` and `steps`. With `found` false it is left
 * unjoined, which is always taken, and the other three are not looked at. Else the three are a
 * mapping, which must fit, and need not be the one that mt_find_seams finds: its steps are those of
 * the seam's rows, n for u and m for v, its offset is below them, and each point j of a, from 0 to
 * steps, is close to the point of b that mt_map_index says; if the offset is not 0, the ends of a
 * must be close too, and those of b (Rules 3.5). What is close is so by the tolerance of that seam.
 * Leaves 3 * triangles numbers in `triangles`, 2 * pairs in `flipped`, and zeros after them.
 * Refusals: 1, 2, 13, 3 (`triangles` has less than 6 * m * n places, or `flipped` less than
 * 2 * (m + n)), 4, 14 (a mapping does not fit).
 */
mt_counts_answer mt_triangulate_seams(const double *grid, size_t grid_len, size_t m, size_t n,
                                      double u_tolerance, double v_tolerance, double line_tolerance,
                                      bool u_found, bool u_reverse, size_t u_offset, size_t u_steps,
                                      bool v_found, bool v_reverse, size_t v_offset, size_t v_steps,
                                      size_t *triangles, size_t triangles_len,
                                      size_t *flipped, size_t flipped_len);

/*
 * Finds the seams of a grid, joins them, and writes its triangles and flipped pairs: as
 * mt_triangulate_seams does with what mt_find_seams finds, which always fits.
 * Leaves 3 * triangles numbers in `triangles`, 2 * pairs in `flipped`, and zeros after them.
 * Refusals: 1, 2, 13, 3 (`triangles` has less than 6 * m * n places, or `flipped` less than
 * 2 * (m + n)), 4.
 */
mt_mesh_answer mt_triangulate_grid(const double *grid, size_t grid_len, size_t m, size_t n,
                                   double u_tolerance, double v_tolerance, double line_tolerance,
                                   size_t *triangles, size_t triangles_len,
                                   size_t *flipped, size_t flipped_len);

/* ---- Lines (Rules 9) ------------------------------------------------------------------------- */

/*
 * Lines stand in two lists: `points`, x, y and z of each point, and `starts`, the number of the
 * first point of each line. A line ends where the next one starts, the last one at the count of
 * points.
 */

/* The counts of points and of lines, or a refusal. */
typedef struct mt_paths_answer {
    uint8_t refusal;
    size_t points;
    size_t lines;
} mt_paths_answer;

/* The numbers of the point at which a line starts and of the one past its end, or a refusal. */
typedef struct mt_span_answer {
    uint8_t refusal;
    size_t start;
    size_t end;
} mt_span_answer;

/* A part of a list: where it begins and how long it is, both in numbers. */
typedef struct mt_part {
    size_t offset;
    size_t length;
} mt_part;

/*
 * Writes the lines of a grid: n + 1 along u, then m + 1 along v.
 * Leaves 2 * (m + 1) * (n + 1) points in `points`, m + n + 2 starts, and zeros after them.
 * Refusals: 1, 2, 3 (`points` has less than 6 * (m + 1) * (n + 1) places, or `starts` less than
 * m + n + 2), 4.
 */
mt_paths_answer mt_grid_paths(const double *grid, size_t grid_len, size_t m, size_t n,
                              double *points, size_t points_len,
                              size_t *starts, size_t starts_len);

/*
 * Where a line starts and ends, from the lists and the counts that mt_grid_paths, mt_trace_flat or
 * mt_trace_samples gave. There is such a line if index is less than line_count, neither count is
 * more than its list holds, and start <= end <= point_count (Rules 9.2); it may be empty.
 * Refusals: 8 (there is no such line).
 */
mt_span_answer mt_line_span(const double *points, size_t points_len,
                            const size_t *starts, size_t starts_len,
                            size_t point_count, size_t line_count, size_t index);

/*
 * The part of `points` that belongs to a line: `length` numbers from points + offset on, three for
 * each point. Where there is no such line (see mt_line_span) it is the empty part, { 0, 0 }.
 * Refusals: none.
 */
mt_part mt_get(const double *points, size_t points_len,
               const size_t *starts, size_t starts_len,
               size_t point_count, size_t line_count, size_t index);

/* ---- Trace (Rules 6 and 7) ------------------------------------------------------------------- */

/*
 * Draws the lines of a curve where it crosses the sides of a grid's triangles. The curve is a list
 * of samples: `pairs` has u and v of each, and `marks` is 1 for a point and 0 for a break, whose
 * pair is not looked at. A line has at least two points. A point that is close to the last one of
 * its line, by line_tolerance, is left out; u_tolerance and v_tolerance are tested and not used.
 * Whether the curve is on a side, or inside the grid, is decided by 1e-9 whatever the tolerances.
 * Each drawn point is (1 - t) * p + t * q for two grid points p and q. It takes three numbers of
 * `points`, two of `sides` (the number of p, that of q), one of `fractions` (t) and one of
 * `samples`; an end of a list that is too short for one more point holds none. Each line takes one
 * of `starts`.
 * A point's number in `samples` says which leg of the curve made it, a leg being what lies between
 * a sample and the next: it is the number of the leg's later sample, counted from 0, breaks too. So
 * it is at least 1, samples k - 1 and k are points for a number k, and numbers never fall from a
 * drawn point to the next, on into the next line too. A point that is left out leaves the number of
 * the one that it is close to as it is.
 * Leaves so many numbers for each point and line of the answer in the lists, and zeros after them.
 * Refusals: 1, 2 (`grid` has not 3 * (m + 1) * (n + 1) numbers, `pairs` not two for each mark, or
 * there are more than 65,537 marks), 13, 4, 9, 10; 11 and 12, which leave all five lists zero.
 */
mt_paths_answer mt_trace_flat(const double *grid, size_t grid_len, size_t m, size_t n,
                              double u_tolerance, double v_tolerance, double line_tolerance,
                              const double *pairs, size_t pairs_len,
                              const uint8_t *marks, size_t marks_len,
                              double *points, size_t points_len,
                              size_t *starts, size_t starts_len,
                              size_t *sides, size_t sides_len,
                              double *fractions, size_t fractions_len,
                              size_t *samples, size_t samples_len);

/* A point of the parameter plane. */
typedef struct mt_param_point {
    double u;
    double v;
} mt_param_point;

/* A sample of a curve: the mark 1 and a point, or the mark 0 of a break, whose point is not looked
 * at. */
typedef struct mt_sample {
    uint8_t mark;
    mt_param_point point;
} mt_sample;

/*
 * What mt_trace_flat does, with the samples as records; a number left in `samples` is the index of
 * a record. It needs 1.1 MB of stack, whatever the number of records: 1,114,129 bytes are lists of
 * its own. A thread with a stack of less than 1,150 KiB calls mt_trace_flat, which needs 14 KB.
 * Refusals: those of mt_trace_flat; 2 where there are more than 65,537 records.
 */
mt_paths_answer mt_trace_samples(const double *grid, size_t grid_len, size_t m, size_t n,
                                 double u_tolerance, double v_tolerance, double line_tolerance,
                                 const mt_sample *records, size_t records_len,
                                 double *points, size_t points_len,
                                 size_t *starts, size_t starts_len,
                                 size_t *sides, size_t sides_len,
                                 double *fractions, size_t fractions_len,
                                 size_t *samples, size_t samples_len);

/* ---- Textures (Rules 10) --------------------------------------------------------------------- */

/*
 * A texture goes in as its kind, spacing, twist and arms. MT_GRID has no rays and looks at none of
 * the three; MT_SWIRL looks at spacing and twist; MT_SPIRAL, and any other kind, at spacing and
 * arms. A spacing that is not finite, or at most 10^-9, becomes 1; 0 arms becomes 1.
 */
enum mt_texture {
    /* The lines of the grid (mt_grid_paths). */
    MT_GRID = 0,
    /* Rays from the centre outward, turned as they go. */
    MT_SWIRL = 1,
    /* Arms from the edge inward. */
    MT_SPIRAL = 2
};

/* How many rays a texture has, and samples on each, or a refusal. A ray's samples have the numbers
 * 0 to `samples`, so one more than it says. */
typedef struct mt_ray_counts {
    uint8_t refusal;
    size_t rays;
    size_t samples;
} mt_ray_counts;

/* The angle of a sample, or a refusal. */
typedef struct mt_ray_angle {
    uint8_t refusal;
    double angle;
} mt_ray_angle;

/* The u and v of a sample, or a refusal. */
typedef struct mt_ray_point {
    uint8_t refusal;
    double u;
    double v;
} mt_ray_point;

/*
 * Rays and samples per ray on a surface of m by n cells: 0 and 0 for MT_GRID.
 * Refusals: 1, 5, 6.
 */
mt_ray_counts mt_plan(uint8_t kind, double spacing, double twist, size_t arms, size_t m, size_t n);

/*
 * The angle of a sample of a ray, rays numbered from 0.
 * Refusals: 1, 5, 6, 8 (no such ray or sample; MT_GRID has none).
 */
mt_ray_angle mt_angle(uint8_t kind, double spacing, double twist, size_t arms,
                      size_t m, size_t n, size_t ray, size_t sample);

/*
 * The u and v of a sample of a ray, from the cosine and the sine of its angle.
 * Refusals: 1, 5, 6, 7, 8 (no such ray or sample; MT_GRID has none).
 */
mt_ray_point mt_sample_point(uint8_t kind, double spacing, double twist, size_t arms,
                             size_t m, size_t n, size_t ray, size_t sample,
                             double cosine, double sine);

/* ---- Vectors (Rules 2) ----------------------------------------------------------------------- */

/* The functions from here on have no refusals. */

/* A point or direction of three numbers. It goes in as its three components. */
typedef struct mt_components {
    double x;
    double y;
    double z;
} mt_components;

/* The sum of a and b, rounded once per component. */
mt_components mt_vector_add(double ax, double ay, double az, double bx, double by, double bz);

/* The difference of a and b, rounded once per component. */
mt_components mt_vector_sub(double ax, double ay, double az, double bx, double by, double bz);

/* The components of a times s, rounded once each. */
mt_components mt_vector_mul_scalar(double ax, double ay, double az, double s);

/* Whether a and b are close by a tolerance: of the magnitudes of their three differences, the
 * largest (mt_max) is less than it. Any tolerance is taken; with one that is a NaN or not above
 * zero nothing is close. */
bool mt_vector_all_close(double ax, double ay, double az, double bx, double by, double bz,
                         double tolerance);

/* ---- Numbers (Rules 12) ---------------------------------------------------------------------- */

/* The magnitude of x; a NaN for a NaN, whose sign may stay. */
double mt_abs(double x);

/* Whether x is neither infinite nor a NaN. */
bool mt_is_finite(double x);

/* Whether the magnitude of x is at most top: never so for a NaN. */
bool mt_at_most(double x, double top);

/* The larger of x and y; x where they are equal, zeros of either sign too; the other one where
 * one is a NaN. */
double mt_max(double x, double y);

/* x, or the end of lo to hi that it lies beyond; -0 lies between 0 and 1. A NaN stays a NaN; else,
 * where hi is below lo, the answer is hi. An end that is a NaN does not bound. */
double mt_clamp(double x, double lo, double hi);

/* -1 where x precedes y in the total order of IEEE 754, 1 where y precedes x, 0 where they are
 * equal: -0 precedes 0. Of a NaN the answer means nothing. */
int32_t mt_total_cmp(double x, double y);

/* The greatest whole number at most x, at the nearest end of int64_t where it does not fit; 0
 * for a NaN. */
int64_t mt_floor_i64(double x);

/* The least whole number at least x, at the nearest end of int64_t where it does not fit; 0 for
 * a NaN. */
int64_t mt_ceil_i64(double x);

/* The whole number nearest to x, halves away from 0; -0.25 gives -0. Infinities and NaNs stay. */
double mt_round(double x);

/* The least whole number at least x; -0.25 gives -0. Infinities and NaNs stay. */
double mt_ceil(double x);

/* x without its fraction, at the nearest end of size_t where it does not fit; 0 for a NaN. */
size_t mt_to_usize(double x);

/* The double nearest to n, ties to even. */
double mt_to_f64(size_t n);

#ifdef __cplusplus
}
#endif

#endif
