/* Calls each function of merlontrispa.h from C, and checks an answer and, where it has any, a
 * refusal. */
#include "merlontrispa.h"

#include "expect.h"

#include <float.h>
#include <math.h>
#include <stddef.h>
#include <string.h>

unsigned passed, failed;

#define LENGTH(list) (sizeof(list) / sizeof(list)[0])
/* A list, as its pointer and its length. */
#define LENT(list) (list), LENGTH(list)
#define SAME(list, ...) \
    (sizeof(list) == sizeof(__VA_ARGS__) && memcmp((list), (__VA_ARGS__), sizeof(list)) == 0)

/* Whether two numbers have the same bits, so that -0 is not 0. */
static bool same(double x, double y) {
    return memcmp(&x, &y, sizeof x) == 0;
}

static bool holds(const void *list, size_t bytes, unsigned char byte) {
    for (size_t i = 0; i < bytes; i++) {
        if (((const unsigned char *)list)[i] != byte) {
            return false;
        }
    }
    return true;
}

/* One cell, bent so that no two of its sides meet. */
static const double cell[] = {0, 0, 0, 0, 1, 0, 1, 0, 0, 1, 1, 5};

/* The same with a coordinate that is refused. */
static const double bad[] = {0, 0, 0, 0, 1, 0, 1, 0, 0, 1, 1, NAN};

/* The tolerances of the original. */
static const tolerances eps = {EPS, EPS, EPS};

/* A leg of one cell that meets a side where no cell can be told (Rules 7.4). */
static const mt_sample no_step[] = {{1, {1, 0x1p20}}, {1, {1, 1 + 1e-9}}};

static void seams(void) {
    const double a[] = {0, 0, 0, 1, 0, 0, 2, 0, 0, 0, 0, 0};
    const double b[] = {1, 0, 0, 2, 0, 0, 0, 0, 0, 1, 0, 0};
    mt_rows_answer rows = mt_new_vector(LENT(a), LENT(b), EPS);
    EXPECT(rows.refusal == MT_OK);
    EXPECT(same_seam(rows.seam, (mt_found_seam){true, false, 2, 3, 10}));
    rows = mt_new_vector(NULL, 0, NULL, 0, EPS);
    EXPECT(rows.refusal == MT_OK && same_seam(rows.seam, (mt_found_seam){0}));
    rows = mt_new_vector(a, 4, LENT(b), EPS);
    EXPECT(rows.refusal == MT_LENGTH && same_seam(rows.seam, (mt_found_seam){0}));
    const double far[] = {0, 0, 2e12};
    rows = mt_new_vector(LENT(a), LENT(far), EPS);
    EXPECT(rows.refusal == MT_COORDINATE && same_seam(rows.seam, (mt_found_seam){0}));

    EXPECT(mt_is_reverse(true, 0, 4) && !mt_is_reverse(false, 0, 4));

    mt_index_answer index = mt_map_index(false, 1, 4, 4);
    EXPECT(index.refusal == MT_OK && index.index == 1);
    index = mt_map_index(false, 4, 4, 0);
    EXPECT(index.refusal == MT_NOT_THERE && index.index == 0);

    index = mt_map_index_inv(true, 1, 4, 2);
    EXPECT(index.refusal == MT_OK && index.index == 3);
    index = mt_map_index_inv(true, 1, 4, 5);
    EXPECT(index.refusal == MT_NOT_THERE && index.index == 0);
}

/* A band of 3 by 3 cells whose last column is its first, turned over: in one call, and in two. */
static void twisted_band(void) {
    double grid[48];
    for (size_t u = 0, at = 0; u <= 3; u++) {
        for (size_t v = 0; v <= 3; v++) {
            grid[at++] = (double)(u % 3);
            grid[at++] = (double)(u == 3 ? 3 - v : v);
            grid[at++] = 0;
        }
    }
    size_t triangles[54], flipped[12], again[54], flipped_again[12];
    mt_mesh_answer mesh = mt_triangulate_grid(LENT(grid), 3, 3, GIVEN(eps), LENT(triangles),
                                              LENT(flipped));
    EXPECT(mesh.refusal == MT_OK && mesh.triangles == 18 && mesh.pairs == 3);
    EXPECT(same_seam(mesh.u, (mt_found_seam){true, true, 0, 3, 6}) && !mesh.v.found);
    EXPECT(SAME(flipped, (size_t[]){0, 17, 2, 15, 4, 13, 0, 0, 0, 0, 0, 0}));

    mt_seams_answer seams = mt_find_seams(LENT(grid), 3, 3, GIVEN(eps));
    EXPECT(seams.refusal == MT_OK);
    EXPECT(same_seam(seams.u, mesh.u) && same_seam(seams.v, mesh.v));
    mt_counts_answer counts = mt_triangulate_seams(LENT(grid), 3, 3, GIVEN(eps), SEAM(seams.u),
                                                   SEAM(seams.v), LENT(again), LENT(flipped_again));
    EXPECT(counts.refusal == MT_OK && counts.triangles == 18 && counts.pairs == 3);
    EXPECT(SAME(again, triangles) && SAME(flipped_again, flipped));
}

/* No seam, its other numbers such as no mapping has. */
static const mt_found_seam unjoined = {false, true, SIZE_MAX, 0, 0};

/* All points are one, so that all that has the steps of its row fits. */
static const double one_point[48] = {0};

/* What triangulation with these seams ends with; refused, it leaves its lists. */
static uint8_t ends_with(const double *grid, size_t grid_len, size_t m, size_t n, tolerances given,
                         mt_found_seam u, mt_found_seam v) {
    size_t lists[2][36];
    memset(lists, 9, sizeof lists);
    mt_counts_answer counts = mt_triangulate_seams(grid, grid_len, m, n, GIVEN(given), SEAM(u),
                                                   SEAM(v), LENT(lists[0]), LENT(lists[1]));
    bool left = counts_empty(counts) && holds(lists, sizeof lists, 9);
    EXPECT(counts.refusal == MT_OK || left);
    return counts.refusal;
}

/* The same of a u seam, by this tolerance, between columns of three steps on the x axis. */
static uint8_t columns_end_with(const double a[4], const double b[4], double tolerance,
                                mt_found_seam u) {
    double grid[24] = {0};
    for (size_t v = 0; v < 4; v++) {
        grid[3 * v] = a[v];
        grid[3 * (4 + v)] = b[v];
    }
    return ends_with(LENT(grid), 1, 3, (tolerances){tolerance, EPS, EPS}, u, unjoined);
}

/* Which mappings are taken: the known results of Rules 3.5 and 4.5 among them. */
static void mappings_that_fit(void) {
    for (size_t steps = 0; steps < 5; steps++) {
        for (size_t offset = 0; offset < 5; offset++) {
            for (int reverse = 0; reverse < 2; reverse++) {
                const mt_found_seam seam = {true, reverse, offset, steps, 0};
                EXPECT(ends_with(one_point, 36, 3, 2, eps, seam, unjoined)
                       == (steps == 2 && offset < 2 ? MT_OK : MT_MAPPING));
                EXPECT(ends_with(one_point, 36, 3, 2, eps, unjoined, seam)
                       == (steps == 3 && offset < 3 ? MT_OK : MT_MAPPING));
            }
        }
    }

    const mt_found_seam along = {true, false, 0, 3, 0}, back = {true, true, 0, 3, 0};
    const double line[] = {0, 1, 2, 3}, turned[] = {3, 2, 1, 0}, apart[] = {0, 1, 2, 9};
    EXPECT(columns_end_with(line, line, EPS, along) == MT_OK);
    EXPECT(columns_end_with(line, turned, EPS, back) == MT_OK);
    EXPECT(columns_end_with(line, turned, EPS, along) == MT_MAPPING);
    EXPECT(columns_end_with(line, apart, EPS, along) == MT_MAPPING);
    EXPECT(columns_end_with(line, apart, EPS, unjoined) == MT_OK);

    /* Each point is close to the one that it meets; but first b is open, and then a. */
    const mt_found_seam on = {true, false, 2, 3, 0};
    const double ring[] = {0, 1, 2, 0}, closed[] = {1, 2, 0, 1}, open[] = {1, 2, 0, 9};
    EXPECT(columns_end_with(ring, closed, EPS, on) == MT_OK);
    EXPECT(columns_end_with(ring, open, EPS, on) == MT_MAPPING);
    const double wide[] = {0, 2, 4, 0.8}, between[] = {2, 4, 0.4, 2};
    EXPECT(columns_end_with(wide, between, 1, on) == MT_OK);
    EXPECT(columns_end_with(wide, between, 0.5, on) == MT_MAPPING);
}

/* The refusals of triangulation, its seams found or given, and of the search for them: each where
 * all that come after it apply too. */
static void order_of_refusals(void) {
    const mt_found_seam two_steps = {true, false, 0, 2, 0};
    static const struct order {
        const double *grid;
        size_t grid_len, n;
        tolerances given;
        size_t triangles_len, flipped_len;
        uint8_t with_seams, without, search;
    } orders[] = {
        {bad, 11, 256, {0, 0, 0}, 5, 3, MT_STEPS, MT_STEPS, MT_STEPS},
        {bad, 11, 1, {0, 0, 0}, 5, 3, MT_LENGTH, MT_LENGTH, MT_LENGTH},
        {bad, 12, 1, {0, 0, 0}, 5, 3, MT_TOLERANCE, MT_TOLERANCE, MT_TOLERANCE},
        {bad, 12, 1, {EPS, EPS, EPS}, 5, 4, MT_ROOM, MT_ROOM, MT_COORDINATE},
        {bad, 12, 1, {EPS, EPS, EPS}, 6, 3, MT_ROOM, MT_ROOM, MT_COORDINATE},
        {bad, 12, 1, {EPS, EPS, EPS}, 6, 4, MT_COORDINATE, MT_COORDINATE, MT_COORDINATE},
        {cell, 12, 1, {EPS, EPS, EPS}, 6, 4, MT_MAPPING, MT_OK, MT_OK},
    };
    for (size_t i = 0; i < LENGTH(orders); i++) {
        const struct order *o = &orders[i];
        size_t triangles[6], flipped[4];
        memset(triangles, 9, sizeof triangles);
        memset(flipped, 9, sizeof flipped);
#define GRID o->grid, o->grid_len, 1, o->n, GIVEN(o->given)
#define MESH_LISTS triangles, o->triangles_len, flipped, o->flipped_len
        mt_counts_answer counts = mt_triangulate_seams(GRID, SEAM(two_steps), SEAM(unjoined),
                                                       MESH_LISTS);
        EXPECT(counts.refusal == o->with_seams && counts_empty(counts));
        counts = mt_triangulate_seams(GRID, SEAM(unjoined), SEAM(two_steps), MESH_LISTS);
        EXPECT(counts.refusal == o->with_seams && counts_empty(counts));
        EXPECT(holds(triangles, sizeof triangles, 9) && holds(flipped, sizeof flipped, 9));
        mt_mesh_answer mesh = mt_triangulate_grid(GRID, MESH_LISTS);
        EXPECT(mesh.refusal == o->without && (mesh.refusal == MT_OK || mesh_empty(mesh)));
        mt_seams_answer seams = mt_find_seams(GRID);
        EXPECT(seams.refusal == o->search && (seams.refusal == MT_OK || seams_empty(seams)));
    }
}

static void given_seams(void) {
    size_t triangles[7] = {9, 9, 9, 9, 9, 9, 9}, flipped[4] = {9, 9, 9, 9};
    mt_counts_answer counts = mt_triangulate_seams(LENT(cell), 1, 1, GIVEN(eps), SEAM(unjoined),
                                                   SEAM(unjoined), LENT(triangles), LENT(flipped));
    EXPECT(counts.refusal == MT_OK && counts.triangles == 2 && counts.pairs == 0);
    EXPECT(SAME(triangles, (size_t[]){0, 2, 1, 2, 3, 1, 0}));
    EXPECT(SAME(flipped, (size_t[]){0, 0, 0, 0}));

    size_t band[54], pairs[12];
    counts = mt_triangulate_seams(LENT(one_point), 3, 3, GIVEN(eps), true, true, 0, 3,
                                  SEAM(unjoined), LENT(band), LENT(pairs));
    EXPECT(counts.refusal == MT_OK && counts.triangles == 18 && counts.pairs == 3);
    EXPECT(SAME(pairs, (size_t[]){0, 17, 2, 15, 4, 13, 0, 0, 0, 0, 0, 0}));
    mappings_that_fit();
    order_of_refusals();
}

static void triangles(void) {
    size_t triangles[7] = {9, 9, 9, 9, 9, 9, 9}, flipped[4] = {9, 9, 9, 9};
    mt_mesh_answer mesh = mt_triangulate_grid(LENT(cell), 1, 256, GIVEN(eps), LENT(triangles),
                                              LENT(flipped));
    EXPECT(mesh.refusal == MT_STEPS && mesh_empty(mesh));
    mesh = mt_triangulate_grid(cell, 11, 1, 1, GIVEN(eps), LENT(triangles), LENT(flipped));
    EXPECT(mesh.refusal == MT_LENGTH && mesh_empty(mesh));
    mesh = mt_triangulate_grid(LENT(cell), 1, 1, GIVEN(eps), triangles, 5, LENT(flipped));
    EXPECT(mesh.refusal == MT_ROOM && mesh_empty(mesh));
    mesh = mt_triangulate_grid(LENT(cell), 1, 1, GIVEN(eps), LENT(triangles), flipped, 3);
    EXPECT(mesh.refusal == MT_ROOM && mesh_empty(mesh));
    mesh = mt_triangulate_grid(LENT(bad), 1, 1, GIVEN(eps), LENT(triangles), LENT(flipped));
    EXPECT(mesh.refusal == MT_COORDINATE && mesh_empty(mesh));
    EXPECT(SAME(triangles, (size_t[]){9, 9, 9, 9, 9, 9, 9}));
    EXPECT(SAME(flipped, (size_t[]){9, 9, 9, 9}));

    mesh = mt_triangulate_grid(LENT(cell), 1, 1, GIVEN(eps), LENT(triangles), LENT(flipped));
    EXPECT(mesh.refusal == MT_OK && mesh.triangles == 2 && mesh.pairs == 0);
    EXPECT(same_seam(mesh.u, (mt_found_seam){.comparisons = 3}));
    EXPECT(same_seam(mesh.v, (mt_found_seam){.comparisons = 3}));
    EXPECT(SAME(triangles, (size_t[]){0, 2, 1, 2, 3, 1, 0}));
    EXPECT(SAME(flipped, (size_t[]){0, 0, 0, 0}));
    twisted_band();
}

static void lines(void) {
    double points[25];
    size_t starts[4];
    mt_paths_answer paths = mt_grid_paths(LENT(cell), 1, 256, LENT(points), LENT(starts));
    EXPECT(paths.refusal == MT_STEPS && paths.points == 0 && paths.lines == 0);
    paths = mt_grid_paths(LENT(cell), 1, 1, LENT(points), LENT(starts));
    EXPECT(paths.refusal == MT_OK && paths.points == 8 && paths.lines == 4);
    EXPECT(SAME(starts, (size_t[]){0, 2, 4, 6}) && same(points[24], 0));

    mt_span_answer span = mt_line_span(LENT(points), LENT(starts), paths.points, paths.lines, 3);
    EXPECT(span.refusal == MT_OK && span.start == 6 && span.end == 8);
    span = mt_line_span(LENT(points), LENT(starts), paths.points, paths.lines, 4);
    EXPECT(span.refusal == MT_NOT_THERE && span.start == 0 && span.end == 0);

    mt_part part = mt_get(LENT(points), LENT(starts), paths.points, paths.lines, 3);
    EXPECT(part.offset == 18 && part.length == 6);
    EXPECT(memcmp(points + part.offset, cell + 6, 6 * sizeof(double)) == 0);
    part = mt_get(LENT(points), LENT(starts), paths.points, paths.lines, 4);
    EXPECT(part.offset == 0 && part.length == 0);
}

/* The lists that a trace is drawn into, in the order in which they are lent. */
#define LISTS LENT(points), LENT(starts), LENT(sides), LENT(fractions), LENT(samples)

static void traces(void) {
    const double pairs[] = {0, 0.25, 0.75, 0.25};
    const uint8_t marks[] = {1, 1}, wrong[] = {1, 2};
    double points[7] = {9, 9, 9, 9, 9, 9, 9}, fractions[3] = {9, 9, 9};
    size_t starts[2] = {9, 9}, sides[5] = {9, 9, 9, 9, 9}, samples[3] = {9, 9, 9};

    mt_paths_answer drawn = mt_trace_flat(LENT(cell), 1, 1, GIVEN(eps), LENT(pairs), LENT(wrong),
                                          LISTS);
    EXPECT(drawn.refusal == MT_MARK && drawn.points == 0 && drawn.lines == 0);
    EXPECT(SAME(sides, (size_t[]){9, 9, 9, 9, 9}) && SAME(fractions, (double[]){9, 9, 9}));
    EXPECT(SAME(samples, (size_t[]){9, 9, 9}));

    drawn = mt_trace_flat(LENT(cell), 1, 1, GIVEN(eps), LENT(pairs), LENT(marks), LISTS);
    EXPECT(drawn.refusal == MT_OK && drawn.points == 2 && drawn.lines == 1);
    EXPECT(SAME(points, (double[]){0, 0.25, 0, 0.75, 0.25, 0, 0}));
    EXPECT(SAME(starts, (size_t[]){0, 0}) && SAME(sides, (size_t[]){0, 1, 2, 1, 0}));
    EXPECT(SAME(fractions, (double[]){0.25, 0.25, 0}) && SAME(samples, (size_t[]){1, 1, 0}));

    drawn = mt_trace_flat(LENT(cell), 1, 1, GIVEN(eps), LENT(pairs), LENT(marks), points, 5,
                          LENT(starts), LENT(sides), LENT(fractions), LENT(samples));
    EXPECT(drawn.refusal == MT_FULL && drawn.points == 0 && drawn.lines == 0);
    EXPECT(SAME(sides, (size_t[]){0, 0, 0, 0, 0}) && SAME(fractions, (double[]){0, 0, 0}));
    EXPECT(SAME(samples, (size_t[]){0, 0, 0}));

    const double lost[] = {no_step[0].point.u, no_step[0].point.v,
                           no_step[1].point.u, no_step[1].point.v};
    memset(points, 9, sizeof points);
    memset(starts, 9, sizeof starts);
    memset(sides, 9, sizeof sides);
    memset(fractions, 9, sizeof fractions);
    memset(samples, 9, sizeof samples);
    drawn = mt_trace_flat(LENT(cell), 1, 1, GIVEN(eps), LENT(lost), LENT(marks), LISTS);
    EXPECT(drawn.refusal == MT_NO_STEP && drawn.points == 0 && drawn.lines == 0);
    EXPECT(SAME(points, (double[7]){0}) && SAME(starts, (size_t[2]){0}));
    EXPECT(SAME(sides, (size_t[5]){0}) && SAME(fractions, (double[3]){0}));
    EXPECT(SAME(samples, (size_t[3]){0}));

    drawn = mt_trace_flat(LENT(cell), 1, 1, GIVEN(eps), NULL, 0, NULL, 0,
                          NULL, 0, NULL, 0, NULL, 0, NULL, 0, NULL, 0);
    EXPECT(drawn.refusal == MT_OK && drawn.points == 0 && drawn.lines == 0);
}

static void records(void) {
    const mt_sample curve[] = {{0, {NAN, NAN}}, {1, {0, 0.25}}, {1, {0.75, 0.25}}};
    const mt_sample wrong[] = {{1, {0, 0.25}}, {2, {0.75, 0.25}}};
    double points[7] = {9, 9, 9, 9, 9, 9, 9}, fractions[3] = {9, 9, 9};
    size_t starts[2] = {9, 9}, sides[5] = {9, 9, 9, 9, 9}, samples[3] = {9, 9, 9};

    mt_paths_answer drawn = mt_trace_samples(LENT(cell), 1, 1, GIVEN(eps), LENT(wrong), LISTS);
    EXPECT(drawn.refusal == MT_MARK && drawn.points == 0 && drawn.lines == 0);
    EXPECT(SAME(sides, (size_t[]){9, 9, 9, 9, 9}) && SAME(fractions, (double[]){9, 9, 9}));
    EXPECT(SAME(samples, (size_t[]){9, 9, 9}));

    drawn = mt_trace_samples(LENT(cell), 1, 1, GIVEN(eps), LENT(no_step), LISTS);
    EXPECT(drawn.refusal == MT_NO_STEP && drawn.points == 0 && drawn.lines == 0);
    EXPECT(SAME(points, (double[7]){0}) && SAME(starts, (size_t[2]){0}));
    EXPECT(SAME(sides, (size_t[5]){0}) && SAME(fractions, (double[3]){0}));
    EXPECT(SAME(samples, (size_t[3]){0}));

    drawn = mt_trace_samples(LENT(cell), 1, 1, GIVEN(eps), LENT(curve), LISTS);
    EXPECT(drawn.refusal == MT_OK && drawn.points == 2 && drawn.lines == 1);
    EXPECT(SAME(points, (double[]){0, 0.25, 0, 0.75, 0.25, 0, 0}));
    EXPECT(SAME(starts, (size_t[]){0, 0}) && SAME(sides, (size_t[]){0, 1, 2, 1, 0}));
    EXPECT(SAME(fractions, (double[]){0.25, 0.25, 0}) && SAME(samples, (size_t[]){2, 2, 0}));

    drawn = mt_trace_samples(LENT(cell), 1, 1, GIVEN(eps), NULL, 0,
                             NULL, 0, NULL, 0, NULL, 0, NULL, 0, NULL, 0);
    EXPECT(drawn.refusal == MT_OK && drawn.points == 0 && drawn.lines == 0);
}

/* Room for the points of a curve on one cell. */
enum { ROOM = 8 };

/* What a trace leaves, and what it answers. */
typedef struct page {
    double points[3 * ROOM], fractions[ROOM];
    size_t starts[ROOM], sides[2 * ROOM], samples[ROOM];
    mt_paths_answer drawn;
} page;

/* A curve of up to ROOM samples on one flat cell, with so much room in `samples`: as records, or
 * flat. */
static page traced(bool flat, const mt_sample *curve, size_t count, tolerances given,
                   size_t samples_len) {
    const double grid[] = {0, 0, 0, 0, 1, 0, 1, 0, 0, 1, 1, 0};
    double pairs[2 * ROOM];
    uint8_t marks[ROOM];
    for (size_t i = 0; i < count; i++) {
        pairs[2 * i] = curve[i].point.u;
        pairs[2 * i + 1] = curve[i].point.v;
        marks[i] = curve[i].mark;
    }
    page p;
    memset(&p, 9, sizeof p);
    p.drawn = flat ? mt_trace_flat(LENT(grid), 1, 1, GIVEN(given), pairs, 2 * count, marks, count,
                                   LENT(p.points), LENT(p.starts), LENT(p.sides),
                                   LENT(p.fractions), p.samples, samples_len)
                   : mt_trace_samples(LENT(grid), 1, 1, GIVEN(given), curve, count,
                                      LENT(p.points), LENT(p.starts), LENT(p.sides),
                                      LENT(p.fractions), p.samples, samples_len);
    return p;
}

/* The known results of Rules 7.5, by one of the two traces. */
static void sample_numbers(bool flat) {
    const mt_sample from = {1, {0, 0.25}}, to = {1, {0.75, 0.25}}, apart = {0, {NAN, NAN}};
    const mt_sample two_legs[] = {from, to, {1, {1, 0.25}}};
    page p = traced(flat, LENT(two_legs), eps, ROOM);
    EXPECT(p.drawn.refusal == MT_OK && p.drawn.points == 3 && p.drawn.lines == 1);
    EXPECT(SAME(p.samples, (size_t[ROOM]){1, 1, 2}));

    const mt_sample two_lines[] = {from, to, apart, {1, {0, 0.75}}, {1, {1, 0.75}}};
    p = traced(flat, LENT(two_lines), eps, ROOM);
    EXPECT(p.drawn.refusal == MT_OK && p.drawn.points == 5 && p.drawn.lines == 2);
    EXPECT(SAME(p.samples, (size_t[ROOM]){1, 1, 4, 4, 4}));

    const mt_sample twice[] = {from, from, to};
    p = traced(flat, LENT(twice), eps, ROOM);
    EXPECT(p.drawn.refusal == MT_OK && p.drawn.points == 2 && p.drawn.lines == 1);
    EXPECT(SAME(p.samples, (size_t[ROOM]){1, 2}));

    p = traced(flat, two_legs, 2, eps, 1);
    EXPECT(p.drawn.refusal == MT_FULL && p.drawn.points == 0 && p.drawn.lines == 0);
    EXPECT(SAME(p.points, (double[3 * ROOM]){0}) && SAME(p.starts, (size_t[ROOM]){0}));
    EXPECT(SAME(p.sides, (size_t[2 * ROOM]){0}) && SAME(p.fractions, (double[ROOM]){0}));
    EXPECT(p.samples[0] == 0 && p.samples[1] != 0);
}

/* Tolerances that are refused, and the least and the largest of those that are not. */
static const double refused[] = {0.0, -0.0, -1, 1 + 0x1p-52, INFINITY, NAN};
static const double taken[] = {0x1p-1074, 1};

/* EPS but in one of the three places. */
static tolerances in_place(size_t place, double tolerance) {
    return (tolerances){place == 0 ? tolerance : EPS, place == 1 ? tolerance : EPS,
                        place == 2 ? tolerance : EPS};
}

/* Whether triangulation on one cell ends with this number, its seams found or given, and, if
 * refused, leaves its lists; and whether the search for the seams does. */
static bool mesh_ends_with(uint8_t refusal, tolerances given) {
    size_t lists[4][6];
    memset(lists, 9, sizeof lists);
    mt_mesh_answer mesh = mt_triangulate_grid(LENT(cell), 1, 1, GIVEN(given), LENT(lists[0]),
                                              LENT(lists[1]));
    mt_counts_answer counts = mt_triangulate_seams(LENT(cell), 1, 1, GIVEN(given), SEAM(unjoined),
                                                   SEAM(unjoined), LENT(lists[2]), LENT(lists[3]));
    mt_seams_answer seams = mt_find_seams(LENT(cell), 1, 1, GIVEN(given));
    bool empty = mesh_empty(mesh) && counts_empty(counts) && seams_empty(seams);
    bool left = empty && holds(lists, sizeof lists, 9);
    bool all = mesh.refusal == refusal && counts.refusal == refusal && seams.refusal == refusal;
    return all && (refusal == MT_OK || left);
}

/* The same of one of the two traces. */
static bool trace_ends_with(uint8_t refusal, tolerances given, bool flat) {
    const mt_sample curve[] = {{1, {0, 0.25}}, {1, {0.75, 0.25}}};
    page p = traced(flat, LENT(curve), given, ROOM);
    bool empty = p.drawn.points == 0 && p.drawn.lines == 0;
    bool left = empty && holds(&p, offsetof(page, drawn), 9);
    return p.drawn.refusal == refusal && (refusal == MT_OK || left);
}

/* Whether all calls that take three tolerances end so where this is any one of them. */
static bool all_end_with(uint8_t refusal, double tolerance) {
    bool all = true;
    for (size_t place = 0; place < 3; place++) {
        tolerances given = in_place(place, tolerance);
        all = all && mesh_ends_with(refusal, given) && trace_ends_with(refusal, given, true)
            && trace_ends_with(refusal, given, false);
    }
    return all;
}

/* Where 13 stands among the refusals of a row search and of traces: after 1 and 2, before all
 * others. */
static void order_of_13(void) {
    const tolerances none = {0, 0, 0};
    const double pairs[] = {NAN, 0};
    const uint8_t mark[] = {2};
    EXPECT(mt_new_vector(LENT(bad), cell, 4, 0).refusal == MT_LENGTH);
    EXPECT(mt_new_vector(LENT(bad), LENT(cell), 0).refusal == MT_TOLERANCE);
#define TRIANGULATED(...) mt_triangulate_grid(__VA_ARGS__, GIVEN(none), NULL, 0, NULL, 0).refusal
    EXPECT(TRIANGULATED(LENT(cell), 1, 256) == MT_STEPS);
    EXPECT(TRIANGULATED(cell, 11, 1, 1) == MT_LENGTH);
    EXPECT(TRIANGULATED(LENT(bad), 1, 1) == MT_TOLERANCE);
#define NO_LISTS NULL, 0, NULL, 0, NULL, 0, NULL, 0, NULL, 0
#define TRACED(grid, len, m, n, ...) \
    mt_trace_flat(grid, len, m, n, GIVEN(none), __VA_ARGS__, NO_LISTS).refusal
    EXPECT(TRACED(cell, 12, 1, 256, LENT(pairs), LENT(mark)) == MT_STEPS);
    EXPECT(TRACED(cell, 11, 1, 1, LENT(pairs), LENT(mark)) == MT_LENGTH);
    EXPECT(TRACED(cell, 12, 1, 1, pairs, 1, LENT(mark)) == MT_LENGTH);
    EXPECT(TRACED(bad, 12, 1, 1, LENT(pairs), LENT(mark)) == MT_TOLERANCE);
    EXPECT(mt_trace_samples(cell, 11, 1, 1, GIVEN(none), LENT(no_step), NO_LISTS).refusal
           == MT_LENGTH);
    EXPECT(mt_trace_samples(LENT(bad), 1, 1, GIVEN(none), LENT(no_step), NO_LISTS).refusal
           == MT_TOLERANCE);
}

/* The search on two rows of four points on the x axis. */
static bool finds(const double a[4], const double b[4], double tolerance, mt_found_seam seam) {
    double rows[2][12] = {{0}};
    for (size_t i = 0; i < 4; i++) {
        rows[0][3 * i] = a[i];
        rows[1][3 * i] = b[i];
    }
    mt_rows_answer told = mt_new_vector(LENT(rows[0]), LENT(rows[1]), tolerance);
    return told.refusal == MT_OK && same_seam(told.seam, seam);
}

/* The known results of Rules 2, and the seam of each tolerance. */
static void coarse(void) {
    const mt_found_seam none = {.comparisons = 3}, reverse = {true, true, 0, 3, 6};
    const double line[] = {0, 1, 2, 3}, back[] = {3.25, 2.25, 1.25, 0.25};
    EXPECT(finds(line, back, 0.25, none));
    EXPECT(finds(line, back, 0.25 + 0x1p-54, reverse) && finds(line, back, 1, reverse));
    const double ring[] = {0, 1, 2, 0.4}, turned[] = {1, 2, 0, 1.4};
    EXPECT(finds(ring, turned, 0.5, (mt_found_seam){true, false, 2, 3, 10}));
    EXPECT(finds(ring, turned, 0.4, none));

    const mt_sample curve[] = {{1, {0, 0.25}}, {1, {0.75, 0.25}}, {1, {1, 0.25}}};
    for (int flat = 0; flat < 2; flat++) {
        page p = traced(flat, LENT(curve), in_place(2, 0.25), ROOM);
        EXPECT(p.drawn.refusal == MT_OK && p.drawn.points == 3 && p.drawn.lines == 1);
        p = traced(flat, LENT(curve), in_place(2, 0.5), ROOM);
        EXPECT(p.drawn.refusal == MT_OK && p.drawn.points == 2 && p.drawn.lines == 1);
        EXPECT(SAME(p.samples, (size_t[ROOM]){1, 1}));
    }

    /* One cell whose column u = 1 misses the other by 0.25, its row v = 1 the other by 0.5. */
    const double narrow[] = {0, 0, 0, 0, 0.5, 0, 0.25, 0, 0, 0.25, 0.5, 0};
    size_t triangles[6], flipped[4];
    for (size_t place = 0; place < 3; place++) {
        tolerances given = in_place(place, 1);
        mt_mesh_answer mesh = mt_triangulate_grid(LENT(narrow), 1, 1, GIVEN(given),
                                                  LENT(triangles), LENT(flipped));
        EXPECT(mesh.refusal == MT_OK);
        EXPECT(mesh.u.found == (place == 0) && mesh.v.found == (place == 1));
    }
}

static void all_tolerances(void) {
    for (size_t i = 0; i < LENGTH(refused); i++) {
        mt_rows_answer rows = mt_new_vector(cell, 6, cell, 6, refused[i]);
        EXPECT(rows.refusal == MT_TOLERANCE && same_seam(rows.seam, (mt_found_seam){0}));
        EXPECT(mt_new_vector(NULL, 0, NULL, 0, refused[i]).refusal == MT_TOLERANCE);
        EXPECT(all_end_with(MT_TOLERANCE, refused[i]));
    }
    for (size_t i = 0; i < LENGTH(taken); i++) {
        mt_rows_answer rows = mt_new_vector(cell, 6, cell, 6, taken[i]);
        EXPECT(rows.refusal == MT_OK && rows.seam.found);
        EXPECT(all_end_with(MT_OK, taken[i]));
    }
    order_of_13();
    coarse();
}

static bool same_plan(mt_ray_counts plan, uint8_t refusal, size_t rays, size_t samples) {
    return plan.refusal == refusal && plan.rays == rays && plan.samples == samples;
}

static bool same_point(mt_ray_point point, uint8_t refusal, double u, double v) {
    return point.refusal == refusal && same(point.u, u) && same(point.v, v);
}

/* What its kind does not have may be anything; a kind above MT_SPIRAL is MT_SPIRAL. */
static void kinds(void) {
    EXPECT(same_plan(mt_plan(MT_GRID, NAN, NAN, 99, 4, 4), MT_OK, 0, 0));
    mt_ray_counts plan = mt_plan(MT_SPIRAL, 1, 0, 3, 4, 4);
    EXPECT(plan.refusal == MT_OK && plan.rays == 3 && plan.samples > 0);
    EXPECT(same_plan(mt_plan(MT_SPIRAL, 1, NAN, 3, 4, 4), MT_OK, plan.rays, plan.samples));
    EXPECT(same_plan(mt_plan(7, 1, NAN, 3, 4, 4), MT_OK, plan.rays, plan.samples));
    EXPECT(same_plan(mt_plan(7, 1, 0, 65, 4, 4), MT_TEXTURE, 0, 0));
    mt_ray_angle spiral = mt_angle(MT_SPIRAL, 1, 0, 3, 4, 4, 2, 5);
    mt_ray_angle other = mt_angle(7, 1, NAN, 3, 4, 4, 2, 5);
    EXPECT(spiral.refusal == MT_OK && spiral.angle > 0);
    EXPECT(other.refusal == MT_OK && same(other.angle, spiral.angle));
}

static void textures(void) {
    EXPECT(same_plan(mt_plan(MT_SPIRAL, 1, 0, 65, 4, 4), MT_TEXTURE, 0, 0));
    EXPECT(same_plan(mt_plan(MT_SWIRL, 1, NAN, 0, 4, 4), MT_TEXTURE, 0, 0));
    EXPECT(same_plan(mt_plan(MT_SWIRL, 1e-8, 0, 0, 255, 255), MT_COUNT, 0, 0));
    kinds();

    mt_ray_counts plan = mt_plan(MT_SWIRL, 1, 0.5, 0, 4, 4);
    mt_ray_angle angle = mt_angle(MT_SWIRL, 1, 0.5, 0, 4, 4, 0, plan.samples);
    EXPECT(angle.refusal == MT_OK && same(angle.angle, 0x1.921fb54442d18p+1));
    angle = mt_angle(MT_SWIRL, 1, 0.5, 0, 4, 4, plan.rays, 0);
    EXPECT(angle.refusal == MT_NOT_THERE && same(angle.angle, 0));
    angle = mt_angle(MT_SWIRL, 1, 0.5, 0, 4, 4, 0, plan.samples + 1);
    EXPECT(angle.refusal == MT_NOT_THERE && same(angle.angle, 0));

#define POINT(ray, sample, cosine, sine) \
    mt_sample_point(MT_SWIRL, 1, 0.5, 0, 4, 4, (ray), (sample), (cosine), (sine))
    EXPECT(same_point(POINT(0, 0, 1, 0), MT_OK, 2, 2));
    EXPECT(same_point(POINT(0, 0, 1.5, 0), MT_DIRECTION, 0, 0));
    EXPECT(same_point(POINT(0, 0, NAN, 0), MT_DIRECTION, 0, 0));
    EXPECT(same_point(POINT(0, 0, 0, 1.5), MT_DIRECTION, 0, 0));
    EXPECT(same_point(POINT(0, 0, 0, NAN), MT_DIRECTION, 0, 0));
    /* 7 before 8. */
    EXPECT(same_point(POINT(plan.rays, 0, 2, 0), MT_DIRECTION, 0, 0));
    EXPECT(same_point(POINT(plan.rays, 0, 1, 0), MT_NOT_THERE, 0, 0));
    EXPECT(same_point(POINT(0, plan.samples + 1, 1, 0), MT_NOT_THERE, 0, 0));
}

static void vectors(void) {
    mt_components sum = mt_vector_add(1, 2, 3, 0.5, -2, 4);
    EXPECT(same(sum.x, 1.5) && same(sum.y, 0) && same(sum.z, 7));
    mt_components difference = mt_vector_sub(1, 2, 3, 0.5, -2, 4);
    EXPECT(same(difference.x, 0.5) && same(difference.y, 4) && same(difference.z, -1));
    mt_components product = mt_vector_mul_scalar(1, 2, -3, 0.5);
    EXPECT(same(product.x, 0.5) && same(product.y, 1) && same(product.z, -1.5));
    EXPECT(mt_vector_all_close(1, 2, 3, 1, 2, 3 + 1e-10, EPS));
    EXPECT(!mt_vector_all_close(1, 2, 3, 1, 2, 3 + 1e-8, EPS));
    EXPECT(mt_vector_all_close(1, 2, 3, 1, 2, 3.25, 0.5));
    EXPECT(!mt_vector_all_close(1, 2, 3, 1, 2, 3.25, 0.25));
    EXPECT(mt_vector_all_close(1, 2, 3, 9, 9, 9, INFINITY));
    EXPECT(!mt_vector_all_close(1, 2, 3, 1, 2, 3, 0));
    EXPECT(!mt_vector_all_close(1, 2, 3, 1, 2, 3, NAN));
}

static void numbers(void) {
    EXPECT(same(mt_abs(-0.0), 0.0) && same(mt_abs(-2.5), 2.5));
    EXPECT(mt_is_finite(1e300) && !mt_is_finite(INFINITY) && !mt_is_finite(NAN));
    EXPECT(mt_at_most(-2, 2) && !mt_at_most(-2.5, 2) && !mt_at_most(NAN, 2));
    EXPECT(same(mt_max(1, 2), 2) && same(mt_max(-0.0, 0.0), -0.0) && same(mt_max(NAN, 1), 1));
    EXPECT(same(mt_clamp(-0.0, 0, 1), -0.0) && same(mt_clamp(-2, 0, 1), 0));
    EXPECT(same(mt_clamp(2, 0, 1), 1) && same(mt_clamp(0.5, 0, 1), 0.5));
    EXPECT(isnan(mt_clamp(NAN, 0, 1)) && isnan(mt_clamp(NAN, 1, 0)));
    EXPECT(same(mt_clamp(-2, 1, 0), 0) && same(mt_clamp(0.5, 1, 0), 0));
    EXPECT(same(mt_clamp(2, 1, 0), 0) && same(mt_clamp(2, NAN, 1), 1));
    EXPECT(same(mt_clamp(-2, 0, NAN), 0) && same(mt_clamp(2, 0, NAN), 2));
    EXPECT(mt_total_cmp(1, 2) == -1 && mt_total_cmp(2, 1) == 1 && mt_total_cmp(1, 1) == 0);
    EXPECT(mt_total_cmp(-0.0, 0.0) == -1 && mt_total_cmp(0.0, -0.0) == 1);
    EXPECT(mt_total_cmp(0.0, 0.0) == 0 && mt_total_cmp(-0.0, -0.0) == 0);
    EXPECT(mt_total_cmp(-0x1p-1074, -0.0) == -1 && mt_total_cmp(0x1p-1074, 0.0) == 1);
    EXPECT(mt_total_cmp(-INFINITY, -DBL_MAX) == -1 && mt_total_cmp(INFINITY, DBL_MAX) == 1);
    EXPECT(mt_total_cmp(NAN, 1) == 0 && mt_total_cmp(NAN, -1) == 1 && mt_total_cmp(-1, NAN) == -1);
    EXPECT(mt_floor_i64(-0.25) == -1 && mt_floor_i64(1e300) == INT64_MAX && mt_floor_i64(NAN) == 0);
    EXPECT(mt_ceil_i64(0.25) == 1 && mt_ceil_i64(-1e300) == INT64_MIN && mt_ceil_i64(NAN) == 0);
    EXPECT(same(mt_round(2.5), 3) && same(mt_round(-0.25), -0.0));
    EXPECT(same(mt_round(-INFINITY), -INFINITY) && isnan(mt_round(NAN)));
    EXPECT(same(mt_ceil(0.25), 1) && same(mt_ceil(-0.25), -0.0));
    EXPECT(same(mt_ceil(-INFINITY), -INFINITY) && isnan(mt_ceil(NAN)));
    EXPECT(mt_to_usize(2.75) == 2 && mt_to_usize(-1) == 0);
    EXPECT(mt_to_usize(1e300) == SIZE_MAX && mt_to_usize(NAN) == 0);
    EXPECT(same(mt_to_f64(3), 3) && same(mt_to_f64(SIZE_MAX), 0x1p64));
}

int main(void) {
    seams();
    given_seams();
    triangles();
    lines();
    traces();
    records();
    sample_numbers(true);
    sample_numbers(false);
    all_tolerances();
    textures();
    vectors();
    numbers();
    guarded_lists();
    printf("%u passed, %u failed\n", passed, failed);
    return failed == 0 ? 0 : 1;
}
