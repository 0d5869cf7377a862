/* The quarter for C: exact totals of assigned dollars and hours by element of cost over up to 256 sets. It goes with the static
 * library that `c/build quarter_c` writes. Bundles, the workspace, threads and pointers are as knotsaddle.h has them.
 *
 *     knotsaddle_quarter quarter = {0};
 *     knotsaddle_grand grand;
 *     for (...) refusal = knotsaddle_quarter_take_bundle(&quarter, bundle, length, &grand);
 *
 * THE STATE is the caller's. All zeros is the state before any set. `totals` are in ten-thousandths of a dollar or an hour: six for
 * each element, LABOR, MATERIAL, OTHER_DIRECT_COSTS and SUBCONTRACT; of each the budget at completion, the estimate to complete and
 * the actuals to date, dollars and then hours. `sets` is how many sets came, and `left[i]` whether set i + 1 of the run is left out.
 *
 * THE GRAND TOTALS are the six columns of all elements together, after the set.
 *
 * A SET IS LEFT OUT whole, and counts towards the 256, where its bundle is refused by 1, 2 or 3, where one of its 81 marks does not
 * hold, or where an amount of its assignments is no whole number of ten-thousandths or is beyond 100,000,000 either way. Taking it
 * is no refusal: the call answers 0.
 *
 * THE ANSWER is 0, or says why the call is refused, with the state as it was and the grand totals 0. Tested in this order:
 *    14    the workspace is shorter than KNOTSADDLE_WORKSPACE numbers
 *    10    256 sets came already, or a total is beyond 4,096,000,000,000,000 ten-thousandths either way for each set that came
 * The inline function that gets a workspace of its own gives 102, before all others, where there is no memory for it; the state
 * and the grand totals are then as they were.
 *
 * STACK: taking a set needs some 202 KB below the caller's frame, and less than KNOTSADDLE_QUARTER_STACK bytes. */
#ifndef KNOTSADDLE_QUARTER_H
#define KNOTSADDLE_QUARTER_H

#include <stdbool.h>

#include "knotsaddle.h"

#define KNOTSADDLE_QUARTER_SETS 256
#define KNOTSADDLE_QUARTER_ELEMENTS 4
#define KNOTSADDLE_QUARTER_COLUMNS 6
#define KNOTSADDLE_QUARTER_TOTALS 24
/* bytes: more than taking a set needs of the stack */
#define KNOTSADDLE_QUARTER_STACK 262144
/* a 257th set, or a handed total beyond its limit */
#define KNOTSADDLE_QUARTER_FULL 10

#ifdef __cplusplus
extern "C" {
#endif

/* ---- The exported calls, for any language. Each list is a pointer to as many as its name says, but for the bundle and the
 * workspace, which have their lengths behind them; a flag is 0 or 1. */

/* Takes a set into a state, in a lent workspace, whatever that holds. */
uint32_t knotsaddle_quarter_take(const uint8_t *bundle, size_t bundle_length, int64_t *totals_24, size_t *sets, bool *left_256,
                                 int64_t *grand_6, uint32_t *work, size_t work_length);

/* How many of the sets that came are left out. */
size_t knotsaddle_quarter_left_out(size_t sets, const bool *left_256);

#ifdef __cplusplus
}
#endif

/* ---- The same over structs. */

typedef struct {
    int64_t totals[KNOTSADDLE_QUARTER_TOTALS];
    size_t sets;
    bool left[KNOTSADDLE_QUARTER_SETS];
} knotsaddle_quarter;

typedef struct {
    int64_t columns[KNOTSADDLE_QUARTER_COLUMNS];
} knotsaddle_grand;

static inline uint32_t knotsaddle_quarter_take_in(knotsaddle_quarter *quarter, const uint8_t *bundle, size_t bundle_length,
                                                  knotsaddle_grand *grand, uint32_t *work, size_t work_length) {
    return knotsaddle_quarter_take(knotsaddle_bytes(bundle), bundle_length, quarter->totals, &quarter->sets, quarter->left,
                                   grand->columns, work, work_length);
}

static inline uint32_t knotsaddle_quarter_take_bundle(knotsaddle_quarter *quarter, const uint8_t *bundle, size_t bundle_length,
                                                      knotsaddle_grand *grand) {
    uint32_t *work = knotsaddle_workspace();
    if (work == NULL) return KNOTSADDLE_NO_MEMORY;
    uint32_t answer = knotsaddle_quarter_take_in(quarter, bundle, bundle_length, grand, work, KNOTSADDLE_WORKSPACE);
    KNOTSADDLE_FREE(work);
    return answer;
}

static inline size_t knotsaddle_quarter_left(const knotsaddle_quarter *quarter) {
    return knotsaddle_quarter_left_out(quarter->sets, quarter->left);
}

#endif
