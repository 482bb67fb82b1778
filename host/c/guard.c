/*
 * Calls each function that takes lists on lists that stand between two pages which cannot be
 * touched, at the start and at the end of what lies between; a list that is only read stands on
 * pages that cannot be written. A read or a write past a list, or a write to a list that is only
 * read, ends the program.
 */
#define _DEFAULT_SOURCE
#include "merlontrispa.h"

#include "expect.h"

#include <math.h>
#include <stdlib.h>
#include <string.h>
#include <sys/mman.h>

enum { PAGE = 4096, PAGES = 4, ROOM = PAGE * PAGES, LISTS = 8, TRIALS = 4000, PATTERN = 0xA5 };

/* A list, as it is lent to one call. */
typedef struct list {
    unsigned char *pages; /* ROOM bytes between two pages that cannot be touched */
    unsigned char *first;
    size_t bytes;
} list;

static list lists[LISTS];
static bool at_end;

/* ---- Lists ---- */

static void map_lists(void) {
    for (size_t i = 0; i < LISTS; i++) {
        int flags = MAP_PRIVATE | MAP_ANONYMOUS;
        unsigned char *pages = mmap(NULL, ROOM + 2 * PAGE, PROT_NONE, flags, -1, 0);
        if (pages == MAP_FAILED) {
            perror("mmap");
            exit(1);
        }
        lists[i].pages = pages + PAGE;
    }
}

static void *place(size_t i, size_t bytes) {
    lists[i].first = lists[i].pages + (at_end ? ROOM - bytes : 0);
    lists[i].bytes = bytes;
    mprotect(lists[i].pages, ROOM, PROT_READ | PROT_WRITE);
    return lists[i].first;
}

/* List i, to be read. */
static const void *reads(size_t i, const void *content, size_t bytes) {
    memcpy(place(i, bytes), content, bytes);
    mprotect(lists[i].pages, ROOM, PROT_READ);
    return lists[i].first;
}

/* List i, to be written. */
static void *writes(size_t i, size_t bytes) {
    return memset(place(i, bytes), PATTERN, bytes);
}

static bool all(const list *l, size_t from, unsigned char byte) {
    for (size_t i = from; i < l->bytes; i++) {
        if (l->first[i] != byte) {
            return false;
        }
    }
    return true;
}

/* Whether a refusal leaves the written lists all zero, and not as they were. */
static bool leaves_zeros(uint8_t refusal) {
    return refusal == MT_NO_STEP || refusal == MT_FULL;
}

/* Whether list i is as a refusal leaves it, or zero past the bytes that were written. */
static bool left(size_t i, uint8_t refusal, size_t written) {
    const list *l = &lists[i];
    if (refusal == MT_OK) {
        return written <= l->bytes && all(l, written, 0);
    }
    return all(l, 0, leaves_zeros(refusal) ? 0 : PATTERN);
}

/* ---- Inputs ---- */

/* An xorshift generator: the same inputs at each run. */
static uint64_t state = 1;

static size_t below(size_t top) {
    state ^= state << 13;
    state ^= state >> 7;
    state ^= state << 17;
    return (size_t)((state >> 11) % top);
}

/* Mostly 0, so that rows often meet, and now and then a number that is refused. */
static double coordinate(void) {
    return below(400) == 0 ? 1e13 : below(12) == 0 ? (below(2) ? 1 : 0.25) : 0;
}

/* One that tells such coordinates apart or one that does not, and now and then one that is
 * refused. */
static double tolerance(void) {
    static const double refused[] = {0, -0.0, -1, 1 + 0x1p-52, INFINITY, NAN};
    static const double taken[] = {EPS, EPS, 0x1p-1074, 0.25, 0.5, 1};
    return below(60) == 0 ? refused[below(6)] : taken[below(6)];
}

static bool fits(double tolerance) {
    return 0 < tolerance && tolerance <= 1;
}

static double parameter(size_t steps) {
    switch (below(40)) {
    case 0: return 1048576;
    case 1: return -1e7 * (double)below(2);
    case 2: return (double)steps + 1e-9;
    default: return (double)below(4 * steps + 9) / 4 - 1;
    }
}

/* A length that mostly fits. */
static size_t near(size_t length) {
    return below(8) == 0 ? length + below(3) - (length > 0) : length;
}

static size_t some_steps(void) {
    return below(50) == 0 ? 256 * below(2) : 1 + below(4);
}

static double grid[3 * 6 * 6], pairs[2 * 16];
static uint8_t marks[16];
static size_t m, n, grid_len;
static tolerances given;

static void next_grid(void) {
    m = some_steps();
    n = some_steps();
    given.u = tolerance();
    given.v = tolerance();
    given.line = tolerance();
    grid_len = m <= 4 && n <= 4 ? near(3 * (m + 1) * (n + 1)) : 12;
    for (size_t i = 0; i < grid_len; i++) {
        grid[i] = coordinate();
    }
}

static void next_curve(void) {
    for (size_t i = 0; i < 16; i++) {
        marks[i] = (uint8_t)(below(100) == 0 ? 2 : below(6) != 0);
        pairs[2 * i] = parameter(m % 256);
        pairs[2 * i + 1] = parameter(n % 256);
    }
}

/* One cell, and a curve that begins with a leg which is refused by 11 (Rules 7.4). */
static void next_without_step(void) {
    static const double leg[] = {1, 0x1p20, 1, 1 + 1e-9};
    m = n = 1;
    grid_len = 12;
    memset(marks, 1, sizeof marks);
    memcpy(pairs, leg, sizeof leg);
}

static const double *lent_grid(void) {
    return reads(0, grid, grid_len * sizeof *grid);
}

/* ---- Calls: each says whether it answered, and left its lists, as it should ---- */

/* How many calls ended with each number that an answer can have: a refusal's, or 0. */
static unsigned ended[UINT8_MAX + 1];

/* Whether a number of so many of `grid` is refused. */
static bool any_far(size_t count) {
    for (size_t i = 0; i < count; i++) {
        if (grid[i] > 0x1p40) {
            return true;
        }
    }
    return false;
}

/* Whether 13 is answered where a tolerance is refused, unless 1 or 2 is, and nowhere else. */
static bool thirteen_fits(uint8_t refusal) {
    bool all_fit = fits(given.u) && fits(given.v) && fits(given.line);
    return all_fit ? refusal != MT_TOLERANCE
                   : refusal == MT_STEPS || refusal == MT_LENGTH || refusal == MT_TOLERANCE;
}

/* Whether a search between rows of so many steps may have found this. */
static bool seam_fits(mt_found_seam seam, size_t steps) {
    if (seam.found) {
        return seam.steps == steps && seam.offset < steps && seam.comparisons > steps;
    }
    mt_found_seam none = {.comparisons = seam.comparisons};
    return same_seam(seam, none) && seam.comparisons > 0;
}

static bool finds_seams(void) {
    size_t a_len = near(3 * below(6)), b_len = near(a_len);
    for (size_t i = 0; i < a_len + b_len; i++) {
        grid[i] = coordinate();
    }
    const double *a = reads(0, grid, a_len * sizeof *a);
    const double *b = reads(1, grid + a_len, b_len * sizeof *b);
    double within = tolerance();
    mt_rows_answer rows = mt_new_vector(a, a_len, b, b_len, within);
    ended[rows.refusal]++;
    bool whole = a_len % 3 == 0 && b_len % 3 == 0;
    uint8_t refusal = !whole ? MT_LENGTH
        : !fits(within) ? MT_TOLERANCE
        : any_far(a_len + b_len) ? MT_COORDINATE : MT_OK;
    if (rows.refusal != refusal) {
        return false;
    }
    if (rows.refusal != MT_OK || a_len != b_len || a_len < 6) {
        return same_seam(rows.seam, (mt_found_seam){0});
    }
    return seam_fits(rows.seam, a_len / 3 - 1);
}

/* Lists 1 and 2, to be written, for triangles and flipped pairs: of lengths that mostly fit. */
typedef struct mesh_lists {
    size_t *triangles, triangles_len, *flipped, flipped_len;
} mesh_lists;

static mesh_lists writes_mesh(void) {
    size_t triangles_len = near(6 * (m % 256) * (n % 256));
    size_t flipped_len = near(2 * (m % 256 + n % 256));
    return (mesh_lists){writes(1, triangles_len * sizeof(size_t)), triangles_len,
                        writes(2, flipped_len * sizeof(size_t)), flipped_len};
}

static bool mesh_left(uint8_t refusal, size_t triangles, size_t pairs) {
    return left(1, refusal, 3 * triangles * sizeof(size_t))
        && left(2, refusal, 2 * pairs * sizeof(size_t));
}

static bool triangulates(void) {
    next_grid();
    mesh_lists l = writes_mesh();
    mt_mesh_answer mesh = mt_triangulate_grid(lent_grid(), grid_len, m, n, GIVEN(given),
                                              l.triangles, l.triangles_len,
                                              l.flipped, l.flipped_len);
    ended[mesh.refusal]++;
    bool found = seam_fits(mesh.u, n) && seam_fits(mesh.v, m);
    return (mesh.refusal == MT_OK ? found : mesh_empty(mesh)) && thirteen_fits(mesh.refusal)
        && mesh_left(mesh.refusal, mesh.triangles, mesh.pairs);
}

/* A mapping of rows of so many steps, and now and then one that is of no such rows. */
static mt_found_seam mapping_of(size_t steps) {
    mt_found_seam seam = {.found = true};
    seam.reverse = below(2);
    seam.offset = below(steps + 1);
    seam.steps = near(steps);
    return seam;
}

/* No seam, with numbers that are not to be looked at. */
static mt_found_seam no_seam(void) {
    mt_found_seam seam = mapping_of(SIZE_MAX / 2);
    seam.found = false;
    return seam;
}

/* The seam that was found, none, or a mapping that may fit as well. */
static mt_found_seam next_seam(mt_found_seam found, size_t steps) {
    switch (below(4)) {
    case 0: return no_seam();
    case 1: return mapping_of(steps % 256);
    default: return found;
    }
}

/* Whether triangulation with these seams may end so where they were searched for before: it asks
 * for room before coordinates, and only a mapping that was not found may be refused. */
static bool second_fits(uint8_t refusal, mt_seams_answer seams, mt_found_seam u, mt_found_seam v) {
    switch (refusal) {
    case MT_ROOM: return seams.refusal == MT_OK || seams.refusal == MT_COORDINATE;
    case MT_MAPPING:
        return seams.refusal == MT_OK
            && ((u.found && !same_seam(u, seams.u)) || (v.found && !same_seam(v, seams.v)));
    default: return refusal == seams.refusal;
    }
}

/* The seams are found, and then those, or others, are given. */
static bool triangulates_in_two_calls(void) {
    next_grid();
    mt_seams_answer seams = mt_find_seams(lent_grid(), grid_len, m, n, GIVEN(given));
    bool found = seam_fits(seams.u, n) && seam_fits(seams.v, m);
    if (!(seams.refusal == MT_OK ? found : seams_empty(seams)) || !thirteen_fits(seams.refusal)) {
        return false;
    }

    mt_found_seam u = next_seam(seams.u, n), v = next_seam(seams.v, m);
    mesh_lists l = writes_mesh();
    mt_counts_answer counts = mt_triangulate_seams(lent_grid(), grid_len, m, n, GIVEN(given),
                                                   SEAM(u), SEAM(v), l.triangles, l.triangles_len,
                                                   l.flipped, l.flipped_len);
    ended[counts.refusal]++;
    return second_fits(counts.refusal, seams, u, v)
        && (counts.refusal == MT_OK || counts_empty(counts))
        && mesh_left(counts.refusal, counts.triangles, counts.pairs);
}

/* Whether lines are counted only where they were not refused. */
static bool paths_fit(mt_paths_answer paths) {
    return paths.refusal == MT_OK || (paths.points == 0 && paths.lines == 0);
}

static bool draws_and_reads_lines(void) {
    next_grid();
    size_t points_len = near(6 * (m % 256 + 1) * (n % 256 + 1));
    size_t starts_len = near(m % 256 + n % 256 + 2);
    double *points = writes(1, points_len * sizeof *points);
    size_t *starts = writes(2, starts_len * sizeof *starts);
    mt_paths_answer paths = mt_grid_paths(lent_grid(), grid_len, m, n,
                                          points, points_len, starts, starts_len);
    ended[paths.refusal]++;
    if (!paths_fit(paths) || !left(1, paths.refusal, 3 * paths.points * sizeof *points)
        || !left(2, paths.refusal, paths.lines * sizeof *starts)) {
        return false;
    }

    /* Now the two are only read, with counts that mostly fit. */
    mprotect(lists[1].pages, ROOM, PROT_READ);
    mprotect(lists[2].pages, ROOM, PROT_READ);
    size_t point_count = near(paths.points), line_count = near(paths.lines), index = below(12);
    mt_span_answer span = mt_line_span(points, points_len, starts, starts_len,
                                       point_count, line_count, index);
    mt_part part = mt_get(points, points_len, starts, starts_len, point_count, line_count, index);
    ended[span.refusal]++;
    return part.offset == 3 * span.start && part.length == 3 * (span.end - span.start)
        && part.offset + part.length <= points_len;
}

/* The lists that a trace is drawn into: points, starts, sides, fractions and samples. */
typedef struct page {
    double *points, *fractions;
    size_t *starts, *sides, *samples;
} page;

/* Lists 3 to 7, to be written, of these lengths. */
static page writes_page(const size_t lens[5]) {
    return (page){.points = writes(3, lens[0] * sizeof(double)),
                  .starts = writes(4, lens[1] * sizeof(size_t)),
                  .sides = writes(5, lens[2] * sizeof(size_t)),
                  .fractions = writes(6, lens[3] * sizeof(double)),
                  .samples = writes(7, lens[4] * sizeof(size_t))};
}

static bool page_left(mt_paths_answer drawn) {
    return paths_fit(drawn) && left(3, drawn.refusal, 3 * drawn.points * sizeof(double))
        && left(4, drawn.refusal, drawn.lines * sizeof(size_t))
        && left(5, drawn.refusal, 2 * drawn.points * sizeof(size_t))
        && left(6, drawn.refusal, drawn.points * sizeof(double))
        && left(7, drawn.refusal, drawn.points * sizeof(size_t));
}

/* Whether each number is that of a sample at the end of a leg, and none is less than the one before
 * it. */
static bool numbers_fit(const size_t *samples, mt_paths_answer drawn, size_t count) {
    for (size_t i = 0; i < drawn.points; i++) {
        size_t number = samples[i];
        if (number == 0 || number >= count || marks[number - 1] != 1 || marks[number] != 1
            || (i > 0 && number < samples[i - 1])) {
            return false;
        }
    }
    return true;
}

/* The first pairs and marks as records. */
static bool traces_records(size_t count, const size_t lens[5]) {
    mt_sample records[16] = {{0}};
    for (size_t i = 0; i < count; i++) {
        records[i].mark = marks[i];
        records[i].point = (mt_param_point){pairs[2 * i], pairs[2 * i + 1]};
    }
    const mt_sample *lent_records = reads(1, records, count * sizeof *records);
    page page = writes_page(lens);
    mt_paths_answer drawn = mt_trace_samples(lent_grid(), grid_len, m, n, GIVEN(given),
                                             lent_records, count,
                                             page.points, lens[0], page.starts, lens[1],
                                             page.sides, lens[2], page.fractions, lens[3],
                                             page.samples, lens[4]);
    return page_left(drawn) && thirteen_fits(drawn.refusal)
        && numbers_fit(page.samples, drawn, count);
}

static bool traces(void) {
    size_t count = below(16), pairs_len = near(2 * count);
    next_grid();
    next_curve();
    if (below(16) == 0) {
        next_without_step();
    }
    size_t room = below(40), points_len = near(3 * room), starts_len = below(6);
    size_t sides_len = near(2 * room), fractions_len = near(room), samples_len = near(room);
    const size_t lens[5] = {points_len, starts_len, sides_len, fractions_len, samples_len};
    const double *lent_pairs = reads(1, pairs, pairs_len * sizeof *pairs);
    const uint8_t *lent_marks = reads(2, marks, count);
    page page = writes_page(lens);
    mt_paths_answer drawn = mt_trace_flat(lent_grid(), grid_len, m, n, GIVEN(given),
                                          lent_pairs, pairs_len, lent_marks, count,
                                          page.points, lens[0], page.starts, lens[1],
                                          page.sides, lens[2], page.fractions, lens[3],
                                          page.samples, lens[4]);
    ended[drawn.refusal]++;
    return page_left(drawn) && thirteen_fits(drawn.refusal)
        && numbers_fit(page.samples, drawn, count) && traces_records(count, lens);
}

/* Whether all trials of a call go well, and some end with each of these refusals. */
static bool tried(bool (*call)(void), size_t count, const uint8_t *refusals) {
    memset(ended, 0, sizeof ended);
    for (size_t i = 0; i < TRIALS; i++) {
        at_end = i % 2 == 0;
        if (!call()) {
            printf("trial %zu\n", i);
            return false;
        }
    }
    bool enough = ended[MT_OK] >= TRIALS / 8;
    for (size_t i = 0; i < count; i++) {
        enough = enough && ended[refusals[i]] >= TRIALS / 100;
    }
    return enough;
}

#define TRIED(call, ...) tried((call), sizeof (uint8_t[]){__VA_ARGS__}, (uint8_t[]){__VA_ARGS__})

void guarded_lists(void) {
    map_lists();
    EXPECT(TRIED(finds_seams, MT_LENGTH, MT_TOLERANCE, MT_COORDINATE));
    EXPECT(TRIED(triangulates, MT_STEPS, MT_LENGTH, MT_TOLERANCE, MT_ROOM, MT_COORDINATE));
    EXPECT(TRIED(triangulates_in_two_calls, MT_STEPS, MT_LENGTH, MT_TOLERANCE, MT_ROOM,
                 MT_COORDINATE, MT_MAPPING));
    EXPECT(TRIED(draws_and_reads_lines, MT_STEPS, MT_LENGTH, MT_ROOM, MT_COORDINATE, MT_NOT_THERE));
    EXPECT(TRIED(traces, MT_STEPS, MT_LENGTH, MT_TOLERANCE, MT_COORDINATE, MT_MARK, MT_SAMPLE,
                 MT_NO_STEP, MT_FULL));
}
