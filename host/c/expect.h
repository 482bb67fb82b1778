/* What test.c and guard.c share: the counts of what held and what did not, what tells seams apart,
 * and tolerances. */
#ifndef EXPECT_H
#define EXPECT_H

#include "merlontrispa.h"

#include <stdbool.h>
#include <stdio.h>

extern unsigned passed, failed;

static inline void expect(bool holds, const char *what, const char *file, int line) {
    if (holds) {
        passed++;
    } else {
        failed++;
        printf("%s:%d: FAILED: %s\n", file, line, what);
    }
}

#define EXPECT(condition) expect((condition), #condition, __FILE__, __LINE__)

static inline bool same_seam(mt_found_seam a, mt_found_seam b) {
    return a.found == b.found && a.reverse == b.reverse && a.offset == b.offset
        && a.steps == b.steps && a.comparisons == b.comparisons;
}

/* Whether nothing but the refusal is in an answer. */
static inline bool seams_empty(mt_seams_answer seams) {
    return same_seam(seams.u, (mt_found_seam){0}) && same_seam(seams.v, (mt_found_seam){0});
}

static inline bool counts_empty(mt_counts_answer counts) {
    return counts.triangles == 0 && counts.pairs == 0;
}

static inline bool mesh_empty(mt_mesh_answer mesh) {
    return seams_empty((mt_seams_answer){mesh.refusal, mesh.u, mesh.v})
        && counts_empty((mt_counts_answer){mesh.refusal, mesh.triangles, mesh.pairs});
}

/* A seam as the arguments of a call that it is given to. */
#define SEAM(seam) (seam).found, (seam).reverse, (seam).offset, (seam).steps

/* The three tolerances of a call. */
typedef struct tolerances {
    double u, v, line;
} tolerances;

/* They as its arguments. */
#define GIVEN(tolerances) (tolerances).u, (tolerances).v, (tolerances).line

/* The tolerance of the original. */
#define EPS 1e-9

/* guard.c */
void guarded_lists(void);

#endif
