/* Calls the library through its C boundary with what a fuzzer's bytes say, and checks what is true
   of every call: which refusal is given (Rules 11; of 11 only that more room does not change it),
   what it leaves in the lent lists, and zeros past the counts (Rules 8); which seam is found and
   which fits (Rules 3), the triangles and flipped pairs (Rules 4), that the sides of a drawn point
   are of the grid, and that neighbours on a line are not close (Rules 7.3).
   A list lies against a page that cannot be touched, so that reading or writing past it ends the
   process. */
#include "input.h"
#include "merlontrispa.h"

#include <math.h>
#include <stdio.h>
#include <stdlib.h>
#include <string.h>
#include <unistd.h>

/* Most of a grid's steps, a row's points and a curve's samples. */
enum { MOST_STEPS = 7, MOST_POINTS = 24, MOST_SAMPLES = 24 };

/* More points than such a curve can have: at most 4 * MOST_STEPS + 3 events to each of 62 legs
   (Rules 6.4). */
enum { ROOM_FOR_ALL = 2000 };

#define HOLDS(fact) \
    do { \
        if (!(fact)) { \
            fprintf(stderr, "%s:%d: %s\n", __FILE__, __LINE__, #fact); \
            abort(); \
        } \
    } while (0)

/* A branch of its own for each number up to 23, refusals and small counts, so that the fuzzer sees
   which it was: a remark in the machine code keeps the branches apart. */
#define BRANCH(n) \
    case n: \
        __asm__ volatile("# " #n); \
        break;
static inline __attribute__((always_inline)) void noted(size_t number) {
    switch (number) {
        BRANCH(0) BRANCH(1) BRANCH(2) BRANCH(3) BRANCH(4) BRANCH(5) BRANCH(6) BRANCH(7)
        BRANCH(8) BRANCH(9) BRANCH(10) BRANCH(11) BRANCH(12) BRANCH(13) BRANCH(14) BRANCH(15)
        BRANCH(16) BRANCH(17) BRANCH(18) BRANCH(19) BRANCH(20) BRANCH(21) BRANCH(22) BRANCH(23)
    }
}

struct grid { size_t m, n, length; struct list list; };

/* Of the u seam, of the v seam, and of neighbours on a line. */
struct tolerances { double u, v, line; };

static struct tolerances any_tolerances(struct input *input) {
    double u = tolerance(input), v = tolerance(input), line = tolerance(input);
    return (struct tolerances){u, v, line};
}

static int tolerance_fits(double x) {
    return isfinite(x) && 0 < x && x <= 1;
}

static int coordinate_fits(double x) {
    return isfinite(x) && fabs(x) <= 0x1p40;
}

static struct list floats(struct input *input, int place, size_t length, int front) {
    struct list list = lend(place, length * sizeof(double), front);
    double *numbers = list.at;
    for (size_t i = 0; i < length; i++) {
        numbers[i] = number(input);
    }
    keep(&list);
    return list;
}

static int all_fit(const struct list *list) {
    const double *numbers = list->at;
    for (size_t i = 0; i < list->bytes / sizeof(double); i++) {
        if (!coordinate_fits(numbers[i])) {
            return 0;
        }
    }
    return 1;
}

static int steps_fit(size_t m, size_t n) {
    return 1 <= m && m <= 255 && 1 <= n && n <= 255;
}

/* A grid of few cells, whose M, N or length may be wrong. */
static struct grid any_grid(struct input *input, int front) {
    size_t m = count(input, MOST_STEPS + 1), n = count(input, MOST_STEPS + 1);
    size_t least = m <= MOST_STEPS && n <= MOST_STEPS ? 3 * (m + 1) * (n + 1) : 12;
    size_t numbers = length(input, least);
    /* Mostly as long as it has to be. */
    numbers = byte(input) % 4 ? least : numbers;
    return (struct grid){m, n, numbers, floats(input, 0, numbers, front)};
}

/* The first of 1, 2, 13, 3 and 4 that applies; where there are no tolerances 13 does not. */
static int grid_refusal(const struct grid *grid, int lengths, const struct tolerances *given, int room) {
    if (!steps_fit(grid->m, grid->n)) {
        return MT_STEPS;
    }
    if (!lengths || grid->length != 3 * (grid->m + 1) * (grid->n + 1)) {
        return MT_LENGTH;
    }
    if (given && !(tolerance_fits(given->u) && tolerance_fits(given->v) && tolerance_fits(given->line))) {
        return MT_TOLERANCE;
    }
    if (!room) {
        return MT_ROOM;
    }
    return all_fit(&grid->list) ? MT_OK : MT_COORDINATE;
}

static int ascend(const size_t *numbers, size_t length) {
    for (size_t i = 1; i < length; i++) {
        if (numbers[i - 1] > numbers[i]) {
            return 0;
        }
    }
    return 1;
}

static int below(const size_t *numbers, size_t length, size_t limit) {
    for (size_t i = 0; i < length; i++) {
        if (numbers[i] >= limit) {
            return 0;
        }
    }
    return 1;
}

/* Rules 2.1, for coordinates that fit. */
static int close_by(double tolerance, const double *p, const double *q) {
    return fmax(fmax(fabs(p[0] - q[0]), fabs(p[1] - q[1])), fabs(p[2] - q[2])) < tolerance;
}

/* Two rows of steps + 1 points, each so many numbers after the one before it. */
struct rows { const double *a, *b; size_t stride, steps; double tolerance; uint64_t comparisons; };

static int compared(struct rows *rows, const double *p, const double *q) {
    rows->comparisons++;
    return close_by(rows->tolerance, p, q);
}

/* Whether b fits along a, by the table of Rules 3.2. */
static int row_fits(struct rows *rows, int reverse, size_t offset) {
    size_t steps = rows->steps;
    for (size_t j = 0; j <= steps; j++) {
        size_t partner = !offset  ? (reverse ? steps - j : j)
                         : reverse ? (offset + steps - j % steps) % steps
                                   : (offset + j) % steps;
        if (!compared(rows, rows->a + rows->stride * j, rows->b + rows->stride * partner)) {
            return 0;
        }
    }
    return 1;
}

static int rows_closed(struct rows *rows) {
    size_t last = rows->stride * rows->steps;
    return compared(rows, rows->a, rows->a + last) && compared(rows, rows->b, rows->b + last);
}

/* Rules 3.2 and 3.3. */
static mt_found_seam seam_of(struct rows *rows) {
    int closed = rows_closed(rows);
    for (size_t offset = 0; offset < (closed ? rows->steps : 1); offset++) {
        for (int reverse = 0; reverse < 2; reverse++) {
            if (row_fits(rows, reverse, offset)) {
                return (mt_found_seam){1, reverse, offset, rows->steps, rows->comparisons};
            }
        }
    }
    return (mt_found_seam){.comparisons = rows->comparisons};
}

/* Rules 3.5: whether a seam that is given fits. */
static int seam_fits(const mt_found_seam *seam, struct rows rows) {
    return !seam->found
        || (seam->steps == rows.steps && seam->offset < rows.steps
            && (!seam->offset || rows_closed(&rows)) && row_fits(&rows, seam->reverse, seam->offset));
}

static int same_seam(const mt_found_seam *a, const mt_found_seam *b) {
    return a->found == b->found && a->reverse == b->reverse && a->offset == b->offset
        && a->steps == b->steps && a->comparisons == b->comparisons;
}

static void seam_holds(const mt_found_seam *seam, struct rows rows) {
    noted(seam->found ? 2 * (seam->offset > 0) + seam->reverse : 4);
    mt_found_seam found = seam_of(&rows);
    HOLDS(same_seam(seam, &found));
}

static int seam_zero(const mt_found_seam *seam) {
    return same_seam(seam, &(mt_found_seam){0});
}

static void search(struct input *input) {
    int front = byte(input) % 2;
    size_t a_len = length(input, 3 * count(input, MOST_POINTS) % 96);
    size_t b_len = byte(input) % 4 ? a_len : length(input, a_len);
    struct list a = floats(input, 0, a_len, front), b = floats(input, 1, b_len, front);
    double given = tolerance(input);
    mt_rows_answer told = mt_new_vector(a.at, a_len, b.at, b_len, given);
    int refusal = a_len % 3 || b_len % 3        ? MT_LENGTH
                  : !tolerance_fits(given)      ? MT_TOLERANCE
                  : all_fit(&a) && all_fit(&b) ? MT_OK
                                                : MT_COORDINATE;
    noted(told.refusal);
    HOLDS(told.refusal == refusal);
    HOLDS(untouched(&a) && untouched(&b));
    if (refusal) {
        HOLDS(seam_zero(&told.seam));
        return;
    }
    if (a_len < 6 || a_len != b_len) {
        HOLDS(!told.seam.found && !told.seam.comparisons);
    } else {
        seam_holds(&told.seam, (struct rows){a.at, b.at, 3, a_len / 3 - 1, given, 0});
    }
}

static void map(struct input *input) {
    size_t steps = count(input, 40), offset = count(input, 40), index = count(input, 41);
    int reverse = byte(input) % 2, fits = steps && steps <= 65535 && offset < steps && index <= steps;
    mt_index_answer there = mt_map_index(reverse, offset, steps, index);
    mt_index_answer back = mt_map_index_inv(reverse, offset, steps, index);
    HOLDS(there.refusal == (fits ? MT_OK : MT_NOT_THERE) && back.refusal == there.refusal);
    HOLDS(there.index <= (fits ? steps : 0) && back.index <= (fits ? steps : 0));
    if (fits && offset == 0) {
        HOLDS(mt_map_index_inv(reverse, offset, steps, there.index).index == index);
    }
}

/* The rows of a grid's u seam, and those of its v seam (Rules 4.1). */
static struct rows u_rows(const struct grid *grid, double tolerance) {
    const double *first = grid->list.at;
    return (struct rows){first, first + 3 * grid->m * (grid->n + 1), 3, grid->n, tolerance, 0};
}

static struct rows v_rows(const struct grid *grid, double tolerance) {
    const double *first = grid->list.at;
    return (struct rows){first, first + 3 * grid->n, 3 * (grid->n + 1), grid->m, tolerance, 0};
}

/* What triangles and flipped pairs are written into. */
struct mesh { struct list triangles, flipped; };

/* The lists of a mesh, and a seam, as arguments. */
#define LISTS(mesh) \
    (mesh).triangles.at, (mesh).triangles.bytes / sizeof(size_t), (mesh).flipped.at, \
        (mesh).flipped.bytes / sizeof(size_t)
#define SEAM(seam) (seam).found, (seam).reverse, (seam).offset, (seam).steps

static struct mesh any_mesh(struct input *input, const struct grid *grid, int front) {
    size_t m = grid->m, n = grid->n, small = m <= MOST_STEPS && n <= MOST_STEPS;
    size_t triangles_len = length(input, small ? 6 * m * n : 6);
    size_t flipped_len = length(input, small ? 2 * (m + n) : 4);
    return (struct mesh){lend(1, triangles_len * sizeof(size_t), front),
                         lend(2, flipped_len * sizeof(size_t), front)};
}

/* The first of 1, 2, 13, 3 and 4 that applies to a triangulation. */
static int mesh_refusal(const struct grid *grid, const struct tolerances *given, const struct mesh *mesh) {
    size_t triangles_len = mesh->triangles.bytes / sizeof(size_t);
    size_t flipped_len = mesh->flipped.bytes / sizeof(size_t);
    int room = triangles_len >= 6 * grid->m * grid->n && flipped_len >= 2 * (grid->m + grid->n);
    return grid_refusal(grid, 1, given, room);
}

static int same_bytes(const struct list *a, const struct list *b) {
    return !memcmp(a->at, b->at, a->bytes);
}

/* Rules 3.4: the index of a that an index of b comes from. */
static size_t inverse(const mt_found_seam *seam, size_t index) {
    size_t steps = seam->steps, offset = seam->offset;
    return !offset         ? (seam->reverse ? steps - index : index)
           : seam->reverse ? (offset + steps - index % steps) % steps
                           : (index + steps - offset) % steps;
}

/* A grid and the seams that it is joined at. */
struct joined { size_t m, n; mt_found_seam u, v; };

/* Rules 4.2: the number of what the corner (u, v) of a cell stands for. */
static size_t corner(const struct joined *joined, size_t u, size_t v, int in_last_row) {
    if (u == joined->m && joined->u.found) {
        v = inverse(&joined->u, v);
        u = 0;
    }
    if (in_last_row && v == joined->n && joined->v.found) {
        u = inverse(&joined->v, u);
        v = 0;
    }
    return u * (joined->n + 1) + v;
}

enum { MOST_TRIANGLES = 2 * MOST_STEPS * MOST_STEPS, LEFT_OUT = MOST_TRIANGLES };

/* The numbers of the two triangles of a cell. */
typedef size_t cell_numbers[MOST_STEPS][MOST_STEPS][2];

/* Rules 4.3; how many triangles there are. */
static size_t triangles_hold(const struct joined *joined, const struct list *triangles,
                             cell_numbers numbers) {
    size_t count = 0;
    const uint8_t *written = triangles->at;
    for (size_t u = 0; u < joined->m; u++) {
        for (size_t v = 0; v < joined->n; v++) {
            int last = v == joined->n - 1;
            size_t i00 = corner(joined, u, v, last), i10 = corner(joined, u + 1, v, last);
            size_t i01 = corner(joined, u, v + 1, last), i11 = corner(joined, u + 1, v + 1, last);
            const size_t made[2][3] = {{i00, i10, i01}, {i10, i11, i01}};
            for (int i = 0; i < 2; i++) {
                const size_t *t = made[i];
                int whole = t[0] != t[1] && t[1] != t[2] && t[2] != t[0];
                HOLDS(!whole || !memcmp(written + count * sizeof made[i], t, sizeof made[i]));
                numbers[u][v][i] = whole ? count : (size_t)LEFT_OUT;
                count += whole;
            }
        }
    }
    return count;
}

/* Rules 4.4: marks the pairs of a seam, from the triangles on the steps of its first and last row. */
static void flip(const mt_found_seam *seam, const size_t *first, const size_t *last,
                 char paired[MOST_TRIANGLES][MOST_TRIANGLES]) {
    size_t steps = seam->steps;
    for (size_t step = 0; seam->found && seam->reverse && step < steps; step++) {
        size_t from = inverse(seam, step), to = inverse(seam, step + 1);
        if (from == steps - 1 && to == 0) {
            to = steps;
        } else if (to == steps - 1 && from == 0) {
            from = steps;
        }
        size_t between = from < to ? from : to;
        if (from + to != 2 * between + 1 || first[between] == LEFT_OUT || last[step] == LEFT_OUT) {
            continue;
        }
        size_t p = first[between], q = last[step];
        paired[p < q ? p : q][p < q ? q : p] = 1;
    }
}

/* Rules 4.4; how many pairs there are. */
static size_t pairs_hold(const struct joined *joined, const struct list *flipped, cell_numbers numbers) {
    static char paired[MOST_TRIANGLES][MOST_TRIANGLES];
    memset(paired, 0, sizeof paired);
    size_t first[MOST_STEPS], last[MOST_STEPS], count = 0;
    for (size_t v = 0; v < joined->n; v++) {
        first[v] = numbers[0][v][0];
        last[v] = numbers[joined->m - 1][v][1];
    }
    flip(&joined->u, first, last, paired);
    for (size_t u = 0; u < joined->m; u++) {
        first[u] = numbers[u][0][0];
        last[u] = numbers[u][joined->n - 1][1];
    }
    flip(&joined->v, first, last, paired);
    const size_t *written = flipped->at;
    for (size_t p = 0; p < MOST_TRIANGLES; p++) {
        for (size_t q = 0; q < MOST_TRIANGLES; q++) {
            if (paired[p][q]) {
                HOLDS(written[2 * count] == p && written[2 * count + 1] == q);
                count++;
            }
        }
    }
    return count;
}

/* A refusal left the lists as they were, and else they hold the triangles and flipped pairs of a
   grid that is joined so. */
static void mesh_holds(const struct joined *joined, const struct mesh *mesh, mt_counts_answer told) {
    noted(told.refusal);
    if (told.refusal) {
        HOLDS(untouched(&mesh->triangles) && untouched(&mesh->flipped));
        HOLDS(!told.triangles && !told.pairs);
        return;
    }
    noted(told.pairs);
    cell_numbers numbers;
    HOLDS(told.triangles == triangles_hold(joined, &mesh->triangles, numbers));
    HOLDS(told.pairs == pairs_hold(joined, &mesh->flipped, numbers));
    HOLDS(zero_from(&mesh->triangles, 3 * told.triangles * sizeof(size_t)));
    HOLDS(zero_from(&mesh->flipped, 2 * told.pairs * sizeof(size_t)));
}

/* Triangulation, and the two calls that it is in turn. */
static void triangulate(struct input *input) {
    int front = byte(input) % 2;
    struct grid grid = any_grid(input, front);
    size_t m = grid.m, n = grid.n;
    struct mesh mesh = any_mesh(input, &grid, front);
    struct tolerances given = any_tolerances(input);
    mt_seams_answer found = mt_find_seams(grid.list.at, grid.length, m, n, given.u, given.v, given.line);
    HOLDS(found.refusal == grid_refusal(&grid, 1, &given, 1));
    if (found.refusal) {
        HOLDS(seam_zero(&found.u) && seam_zero(&found.v));
    } else {
        seam_holds(&found.u, u_rows(&grid, given.u));
        seam_holds(&found.v, v_rows(&grid, given.v));
    }

    mt_counts_answer counts = mt_triangulate_seams(grid.list.at, grid.length, m, n, given.u, given.v,
                                                   given.line, SEAM(found.u), SEAM(found.v), LISTS(mesh));
    HOLDS(counts.refusal == mesh_refusal(&grid, &given, &mesh));
    mesh_holds(&(struct joined){m, n, found.u, found.v}, &mesh, counts);

    struct mesh again = {lend(3, mesh.triangles.bytes, front), lend(4, mesh.flipped.bytes, front)};
    mt_mesh_answer told = mt_triangulate_grid(grid.list.at, grid.length, m, n, given.u, given.v,
                                              given.line, LISTS(again));
    HOLDS(told.refusal == counts.refusal);
    HOLDS(told.triangles == counts.triangles && told.pairs == counts.pairs);
    HOLDS(same_bytes(&again.triangles, &mesh.triangles) && same_bytes(&again.flipped, &mesh.flipped));
    if (told.refusal) {
        HOLDS(seam_zero(&told.u) && seam_zero(&told.v));
    } else {
        HOLDS(same_seam(&told.u, &found.u) && same_seam(&told.v, &found.v));
    }
    HOLDS(untouched(&grid.list));
}

/* None, with numbers that are not to be looked at; what is found between the rows, if there are
   any; or a mapping, mostly of so many steps. */
static mt_found_seam any_seam(struct input *input, size_t row_steps, const struct rows *rows) {
    uint8_t kind = byte(input) % 4;
    int reverse = byte(input) % 2;
    size_t offset = count(input, MOST_STEPS + 1);
    size_t steps = byte(input) % 8 ? row_steps : count(input, MOST_STEPS + 2);
    if (kind == 1 && rows) {
        struct rows compared = *rows;
        return seam_of(&compared);
    }
    return (mt_found_seam){kind != 0, reverse, offset, steps, 0};
}

/* Triangulation with seams that are given. */
static void join(struct input *input) {
    int front = byte(input) % 2;
    struct grid grid = any_grid(input, front);
    size_t m = grid.m, n = grid.n;
    struct mesh mesh = any_mesh(input, &grid, front);
    struct tolerances given = any_tolerances(input);
    int refusal = mesh_refusal(&grid, &given, &mesh);
    mt_found_seam u, v;
    if (refusal) {
        u = any_seam(input, n, NULL);
        v = any_seam(input, m, NULL);
    } else {
        struct rows columns = u_rows(&grid, given.u), rows = v_rows(&grid, given.v);
        u = any_seam(input, n, &columns);
        v = any_seam(input, m, &rows);
        refusal = seam_fits(&u, columns) && seam_fits(&v, rows) ? MT_OK : MT_MAPPING;
    }
    mt_counts_answer told = mt_triangulate_seams(grid.list.at, grid.length, m, n, given.u, given.v,
                                                 given.line, SEAM(u), SEAM(v), LISTS(mesh));
    HOLDS(told.refusal == refusal);
    HOLDS(untouched(&grid.list));
    mesh_holds(&(struct joined){m, n, u, v}, &mesh, told);
}

static void draw_grid(struct input *input) {
    int front = byte(input) % 2;
    struct grid grid = any_grid(input, front);
    size_t m = grid.m, n = grid.n, small = m <= MOST_STEPS && n <= MOST_STEPS;
    size_t points_len = length(input, small ? 6 * (m + 1) * (n + 1) : 24);
    size_t starts_len = length(input, small ? m + n + 2 : 4);
    struct list points = lend(1, points_len * sizeof(double), front);
    struct list starts = lend(2, starts_len * sizeof(size_t), front);
    mt_paths_answer told = mt_grid_paths(grid.list.at, grid.length, m, n, points.at, points_len,
                                         starts.at, starts_len);
    int room = points_len >= 6 * (m + 1) * (n + 1) && starts_len >= m + n + 2;
    noted(told.refusal);
    HOLDS(told.refusal == grid_refusal(&grid, 1, NULL, room));
    HOLDS(untouched(&grid.list));
    if (told.refusal) {
        HOLDS(untouched(&points) && untouched(&starts) && !told.points && !told.lines);
        return;
    }
    HOLDS(told.points == 2 * (m + 1) * (n + 1) && told.lines == m + n + 2);
    HOLDS(ascend(starts.at, told.lines) && below(starts.at, told.lines, told.points));
    HOLDS(all_fit(&points));
    HOLDS(zero_from(&points, 3 * told.points * sizeof(double)));
    HOLDS(zero_from(&starts, told.lines * sizeof(size_t)));
}

static void read_line(struct input *input) {
    int front = byte(input) % 2;
    size_t points_len = count(input, 30) % 30, starts_len = count(input, 12) % 12;
    struct list points = lend(0, points_len * sizeof(double), front);
    struct list starts = lend(1, starts_len * sizeof(size_t), front);
    size_t *numbers = starts.at;
    for (size_t i = 0; i < starts_len; i++) {
        numbers[i] = count(input, 12);
    }
    keep(&starts);
    size_t point_count = count(input, 11), line_count = count(input, 13), index = count(input, 13);
    mt_span_answer span = mt_line_span(points.at, points_len, starts.at, starts_len, point_count,
                                       line_count, index);
    mt_part part = mt_get(points.at, points_len, starts.at, starts_len, point_count, line_count, index);
    HOLDS(untouched(&points) && untouched(&starts));
    int there = index < line_count && line_count <= starts_len && point_count <= points_len / 3;
    size_t end = there && index + 1 < line_count ? numbers[index + 1] : point_count;
    there = there && numbers[index] <= end && end <= point_count;
    HOLDS(span.refusal == (there ? MT_OK : MT_NOT_THERE));
    if (there) {
        HOLDS(span.start == numbers[index] && span.end == end);
        HOLDS(part.offset == 3 * span.start && part.length == 3 * (end - span.start));
    } else {
        HOLDS(!span.start && !span.end && !part.offset && !part.length);
    }
}

/* What a curve is drawn into. */
struct page { struct list points, starts, sides, fractions, samples; };

/* Lists of so many numbers each, in the places from this one on. */
static struct page lend_page(int place, const size_t lens[5], int front) {
    return (struct page){lend(place, lens[0] * sizeof(double), front),
                         lend(place + 1, lens[1] * sizeof(size_t), front),
                         lend(place + 2, lens[2] * sizeof(size_t), front),
                         lend(place + 3, lens[3] * sizeof(double), front),
                         lend(place + 4, lens[4] * sizeof(size_t), front)};
}

static int same_page(const struct page *a, const struct page *b) {
    return same_bytes(&a->points, &b->points) && same_bytes(&a->starts, &b->starts)
        && same_bytes(&a->sides, &b->sides) && same_bytes(&a->fractions, &b->fractions)
        && same_bytes(&a->samples, &b->samples);
}

static int page_untouched(const struct page *page) {
    return untouched(&page->points) && untouched(&page->starts) && untouched(&page->sides)
        && untouched(&page->fractions) && untouched(&page->samples);
}

/* Whether all places past so many points and lines are zero. */
static int page_zero(const struct page *page, size_t points, size_t lines) {
    return zero_from(&page->points, 3 * points * sizeof(double))
        && zero_from(&page->starts, lines * sizeof(size_t))
        && zero_from(&page->sides, 2 * points * sizeof(size_t))
        && zero_from(&page->fractions, points * sizeof(double))
        && zero_from(&page->samples, points * sizeof(size_t));
}

/* Each line has two points or more, of which no two neighbours are close; each point is
   (1 - t) p + t q of two points of the grid. */
static void drawn_holds(const struct grid *grid, const struct page *page, size_t points, size_t lines,
                        double line_tolerance) {
    const double *grid_at = grid->list.at, *points_at = page->points.at, *fractions = page->fractions.at;
    const size_t *starts = page->starts.at, *sides = page->sides.at;
    HOLDS(!points == !lines);
    for (size_t i = 0; i < lines; i++) {
        size_t end = i + 1 < lines ? starts[i + 1] : points;
        HOLDS(starts[i] <= end && end - starts[i] >= 2);
        for (size_t j = starts[i] + 1; j < end; j++) {
            HOLDS(!close_by(line_tolerance, points_at + 3 * (j - 1), points_at + 3 * j));
        }
    }
    HOLDS(below(sides, 2 * points, (grid->m + 1) * (grid->n + 1)));
    for (size_t i = 0; i < points; i++) {
        double t = fractions[i];
        HOLDS(0 <= t && t <= 1);
        for (size_t axis = 0; axis < 3; axis++) {
            double p = grid_at[3 * sides[2 * i] + axis], q = grid_at[3 * sides[2 * i + 1] + axis];
            double made = p * (1.0 - t) + q * t;
            HOLDS(!memcmp(&made, &points_at[3 * i + axis], sizeof made));
        }
    }
}

/* Each number is that of a sample at the end of a leg, and none is less than the one before it. */
static void numbers_hold(const struct page *page, size_t points, const uint8_t *marks, size_t samples) {
    const size_t *numbers = page->samples.at;
    for (size_t i = 0; i < points; i++) {
        HOLDS(0 < numbers[i] && numbers[i] < samples);
        HOLDS(marks[numbers[i] - 1] == 1 && marks[numbers[i]] == 1);
        HOLDS(!i || numbers[i - 1] <= numbers[i]);
    }
}

/* The first of 9 and 10 that applies. */
static int curve_refusal(const double *pairs, const uint8_t *marks, size_t samples) {
    int refusal = MT_OK;
    for (size_t i = 0; i < samples; i++) {
        if (marks[i] > 1) {
            return MT_MARK;
        }
        for (size_t k = 2 * i; k < 2 * i + 2; k++) {
            if (marks[i] && !(isfinite(pairs[k]) && fabs(pairs[k]) <= 0x1p20)) {
                refusal = MT_SAMPLE;
            }
        }
    }
    return refusal;
}

static struct list any_marks(struct input *input, size_t samples, int front) {
    struct list list = lend(2, samples, front);
    uint8_t *marks = list.at;
    for (size_t i = 0; i < samples; i++) {
        uint8_t mark = byte(input);
        marks[i] = mark < 224 ? 1 : mark < 248 ? 0 : mark;
    }
    keep(&list);
    return list;
}

/* The records of these pairs and marks are traced as the pairs and marks were. */
static void records_hold(const struct grid *grid, struct tolerances given, const double *pairs,
                         const uint8_t *marks, size_t samples, const size_t lens[5], int front,
                         const struct page *flat, mt_paths_answer told) {
    struct list list = lend(8, samples * sizeof(mt_sample), front);
    mt_sample *records = list.at;
    for (size_t i = 0; i < samples; i++) {
        records[i].mark = marks[i];
        records[i].point = (mt_param_point){pairs[2 * i], pairs[2 * i + 1]};
    }
    keep(&list);
    struct page page = lend_page(9, lens, front);
    mt_paths_answer again = mt_trace_samples(
        grid->list.at, grid->length, grid->m, grid->n, given.u, given.v, given.line, records, samples,
        page.points.at, lens[0], page.starts.at, lens[1], page.sides.at, lens[2], page.fractions.at,
        lens[3], page.samples.at, lens[4]);
    HOLDS(untouched(&grid->list) && untouched(&list));
    HOLDS(again.refusal == told.refusal && again.points == told.points && again.lines == told.lines);
    HOLDS(same_page(&page, flat));
}

/* What a curve was refused by as it was drawn: with room for all its points 12 does not come, and
   11 stays. */
static void walk_refusal_holds(const struct grid *grid, struct tolerances given, const struct list *pairs,
                               const struct list *marks, uint8_t refusal) {
    const size_t lens[5] = {3 * ROOM_FOR_ALL, ROOM_FOR_ALL, 2 * ROOM_FOR_ALL, ROOM_FOR_ALL,
                            ROOM_FOR_ALL};
    struct page page = lend_page(9, lens, 0);
    mt_paths_answer roomy = mt_trace_flat(
        grid->list.at, grid->length, grid->m, grid->n, given.u, given.v, given.line, pairs->at,
        pairs->bytes / sizeof(double), marks->at, marks->bytes, page.points.at, lens[0],
        page.starts.at, lens[1], page.sides.at, lens[2], page.fractions.at, lens[3], page.samples.at,
        lens[4]);
    HOLDS(refusal == MT_NO_STEP ? roomy.refusal == MT_NO_STEP
                                : refusal == MT_FULL && roomy.refusal != MT_FULL);
}

static void trace(struct input *input) {
    int front = byte(input) % 2;
    struct grid grid = any_grid(input, front);
    size_t samples = count(input, MOST_SAMPLES) % 64;
    size_t pairs_len = byte(input) % 8 ? 2 * samples : length(input, 2 * samples);
    struct list marks = any_marks(input, samples, front), pairs = floats(input, 1, pairs_len, front);
    /* Where the bytes have come to an end there is still room. */
    size_t room = (byte(input) + 16) % 256, lens[5] = {3 * room, room, 2 * room, room, room};
    for (int i = 0; i < 5; i++) {
        lens[i] = length(input, lens[i]);
    }
    struct page page = lend_page(3, lens, front);
    struct tolerances given = any_tolerances(input);
    mt_paths_answer told = mt_trace_flat(
        grid.list.at, grid.length, grid.m, grid.n, given.u, given.v, given.line, pairs.at, pairs_len,
        marks.at, samples, page.points.at, lens[0], page.starts.at, lens[1], page.sides.at, lens[2],
        page.fractions.at, lens[3], page.samples.at, lens[4]);
    noted(told.refusal);
    HOLDS(untouched(&grid.list) && untouched(&pairs) && untouched(&marks));
    HOLDS(!told.refusal || (!told.points && !told.lines));
    int refusal = grid_refusal(&grid, pairs_len == 2 * samples, &given, 1);
    if (!refusal) {
        refusal = curve_refusal(pairs.at, marks.at, samples);
    }
    if (refusal) {
        HOLDS(told.refusal == refusal && page_untouched(&page));
    } else if (told.refusal) {
        walk_refusal_holds(&grid, given, &pairs, &marks, told.refusal);
        HOLDS(page_zero(&page, 0, 0));
    } else {
        noted(told.lines);
        HOLDS(page_zero(&page, told.points, told.lines));
        drawn_holds(&grid, &page, told.points, told.lines, given.line);
        numbers_hold(&page, told.points, marks.at, samples);
    }
    if (pairs_len == 2 * samples) {
        records_hold(&grid, given, pairs.at, marks.at, samples, lens, front, &page, told);
    }
}

/* Counts of rays and of samples per ray, before it is known whether they fit. */
struct plan { double rays, samples; };

/* Rules 10.2, for M and N that are not refused. */
static struct plan plan_of(uint8_t kind, double spacing, double twist, size_t arms, size_t m, size_t n) {
    const double tau = 0x1.921fb54442d18p2, sqrt2 = 0x1.6a09e667f3bcdp0;
    double radius = (double)(m > n ? m : n) * 0.5 * sqrt2;
    spacing = isfinite(spacing) && spacing > 1e-9 ? spacing : 1;
    double step = fmin(fmax(spacing, 0.05), 0.5);
    if (kind == MT_GRID) {
        return (struct plan){0, 0};
    }
    if (kind == MT_SWIRL) {
        return (struct plan){fmax(ceil(tau * radius / spacing), 1),
                             fmax(ceil(radius * (1 + fabs(tau * twist)) / step), 2)};
    }
    double turns = fmax(ceil(radius / spacing), 1);
    return (struct plan){(double)(arms > 1 ? arms : 1),
                         fmax(ceil((radius + radius * tau * turns * 0.5) / step), 2)};
}

/* The first of 1, 5 and 6 that applies. */
static int plan_refusal(uint8_t kind, double twist, size_t arms, size_t m, size_t n, struct plan plan) {
    if (!steps_fit(m, n)) {
        return MT_STEPS;
    }
    if (kind == MT_SWIRL ? !(fabs(twist) <= 64) : kind != MT_GRID && arms > 64) {
        return MT_TEXTURE;
    }
    return plan.rays <= 65536 && plan.samples <= 65536 ? MT_OK : MT_COUNT;
}

static void texture(struct input *input) {
    uint8_t kind = byte(input);
    /* Mostly one that has a name. */
    kind = byte(input) % 4 ? kind % 3 : kind;
    double spacing = number(input), twist = number(input);
    size_t arms = count(input, 66), m = count(input, 255), n = count(input, 255);
    size_t ray = count(input, 70), sample = count(input, 200);
    double cosine = number(input), sine = number(input);
    mt_ray_counts counts = mt_plan(kind, spacing, twist, arms, m, n);
    mt_ray_angle angle = mt_angle(kind, spacing, twist, arms, m, n, ray, sample);
    mt_ray_point point = mt_sample_point(kind, spacing, twist, arms, m, n, ray, sample, cosine, sine);
    struct plan plan = plan_of(kind, spacing, twist, arms, m, n);
    int refusal = plan_refusal(kind, twist, arms, m, n, plan);
    noted(point.refusal);
    HOLDS(counts.refusal == refusal);
    HOLDS((double)counts.rays == (refusal ? 0 : plan.rays));
    HOLDS((double)counts.samples == (refusal ? 0 : plan.samples));
    int there = ray < counts.rays && sample <= counts.samples;
    HOLDS(angle.refusal == (refusal ? refusal : there ? MT_OK : MT_NOT_THERE));
    HOLDS(isfinite(angle.angle) && (!angle.refusal || angle.angle == 0));
    int turned = fabs(cosine) <= 1 && fabs(sine) <= 1;
    HOLDS(point.refusal == (refusal ? refusal : !turned ? MT_DIRECTION : angle.refusal));
    HOLDS(isfinite(point.u) && isfinite(point.v) && (!point.refusal || (point.u == 0 && point.v == 0)));
}

/* The first byte chooses the call, and the rest what it takes. */
static void run(const uint8_t *bytes, size_t size) {
    static void (*const calls[])(struct input *) = {trace,     triangulate, search,  draw_grid,
                                                    read_line, map,         texture, join};
    struct input input = {bytes, bytes + size};
    calls[byte(&input) % (sizeof calls / sizeof *calls)](&input);
}

#ifdef __AFL_FUZZ_INIT
__AFL_FUZZ_INIT();

int main(void) {
    __AFL_INIT();
    const uint8_t *bytes = __AFL_FUZZ_TESTCASE_BUF;
    while (__AFL_LOOP(10000))
        run(bytes, __AFL_FUZZ_TESTCASE_LEN);
    return 0;
}
#else
/* Runs the bytes of each file that is named. */
int main(int argc, char **argv) {
    static uint8_t bytes[1 << 16];
    for (int i = 1; i < argc; i++) {
        FILE *file = fopen(argv[i], "rb");
        if (!file) {
            perror(argv[i]);
            return 2;
        }
        size_t size = fread(bytes, 1, sizeof bytes, file);
        fclose(file);
        run(bytes, size);
    }
    printf("boundary: %d inputs, all as it should be\n", argc - 1);
    return 0;
}
#endif
