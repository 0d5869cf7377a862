/* A loop of links for C: tasks that wait for themselves. It goes with the static library that `c/build loops_c` writes. Bundles,
 * threads and pointers are as knotsaddle.h has them.
 *
 *     uint32_t list[KNOTSADDLE_LOOPS_LIST];
 *     size_t records;
 *     uint32_t refusal = knotsaddle_loops_show_bundle(bundle, length, list, KNOTSADDLE_LOOPS_LIST, &records);
 *     if (refusal == 0 && records != 0) ...
 *
 * A LOOP is one or more records of file 14, TaskRelationships, each once: each one's SuccessorTaskID is the PredecessorTaskID of the
 * next, and the last one's that of the first, with A to Z folded. A link from a task to itself is a loop of one. Every
 * RelationshipTypeID counts. No other file is read, so an ID need not be that of a task.
 *
 * WHAT IS SHOWN: `records` gets how many records the loop has, and the list begins with their numbers, from 1. What stands behind them
 * is as before. 0 records say that there is no loop of any length, also where file 14 is omitted; the list is then as before. Which
 * loop is shown where there are several is not promised.
 *
 * THE ANSWER is 0, or says why the call is refused, with the list as it was and `records` 0. Tested in this order:
 *    14    the workspace is shorter than KNOTSADDLE_LOOPS_WORKSPACE numbers
 *     1    the bundle is under 164 or over 1,048,576 bytes
 *     2    its count is not 20
 *     3    an offset, a length or the end breaks the layout
 *    12    the mark of file 14 does not hold
 *    13    the list is shorter than file 14 has records, also where there is no loop; KNOTSADDLE_LOOPS_LIST numbers are always enough
 * The inline function that gets a workspace of its own gives 102, before all others, where there is no memory for it; the list and
 * `records` are then as they were.
 *
 * WORKSPACE: whatever it holds. What it holds afterwards is not promised; it may be lent again as it is.
 *
 * STACK: the call needs some 205 KB below the caller's frame, and less than KNOTSADDLE_LOOPS_STACK bytes. */
#ifndef KNOTSADDLE_LOOPS_H
#define KNOTSADDLE_LOOPS_H

#include "knotsaddle.h"

/* numbers of 4 bytes: in a list for any file 14, and in a workspace, 163,840 bytes */
#define KNOTSADDLE_LOOPS_LIST 4096
#define KNOTSADDLE_LOOPS_WORKSPACE 40960
/* bytes: more than the call needs of the stack */
#define KNOTSADDLE_LOOPS_STACK 262144
/* the mark of file 14 does not hold; the list is shorter than its records */
#define KNOTSADDLE_LOOPS_UNREADABLE 12
#define KNOTSADDLE_LOOPS_SHORT_LIST 13

#ifdef __cplusplus
extern "C" {
#endif

/* ---- The exported call, for any language. */

/* Shows a loop in a lent workspace. */
uint32_t knotsaddle_loops_show(const uint8_t *bundle, size_t bundle_length,
                               uint32_t *list, size_t list_length,
                               size_t *records,
                               uint32_t *work, size_t work_length);

#ifdef __cplusplus
}
#endif

/* ---- The same with null for bytes, a list or a workspace of length 0 */

static inline uint32_t knotsaddle_loops_show_in(const uint8_t *bundle, size_t bundle_length, uint32_t *list, size_t list_length,
                                                size_t *records, uint32_t *work, size_t work_length) {
    uint32_t no_list = 0, no_work = 0;
    return knotsaddle_loops_show(knotsaddle_bytes(bundle), bundle_length, list != NULL ? list : &no_list, list_length, records,
                                 work != NULL ? work : &no_work, work_length);
}

/* and in a workspace that the call gets and gives back */
static inline uint32_t knotsaddle_loops_show_bundle(const uint8_t *bundle, size_t bundle_length, uint32_t *list,
                                                    size_t list_length, size_t *records) {
    uint32_t *work = (uint32_t *)KNOTSADDLE_MALLOC(KNOTSADDLE_LOOPS_WORKSPACE * sizeof(uint32_t));
    if (work == NULL) return KNOTSADDLE_NO_MEMORY;
    uint32_t answer =
        knotsaddle_loops_show_in(bundle, bundle_length, list, list_length, records, work, KNOTSADDLE_LOOPS_WORKSPACE);
    KNOTSADDLE_FREE(work);
    return answer;
}

#endif
