/* Two desks that share one set of calendars, for C: judge a desk, try a change, make it. It goes with the static library that
 * `c/build desks_c` writes. Bundles, boards, the workspace, the stack, threads and pointers are as knotsaddle.h has them; a
 * board is one of KNOTSADDLE_SCHEDULE.
 *
 *     knotsaddle_desks desks;
 *     knotsaddle_bundles held = {a, a_length, b, b_length, shared, shared_length};
 *     desks.refusal_a = knotsaddle_desk_judge_bundle(a, a_length, shared, shared_length, &desks.a);
 *     desks.refusal_b = knotsaddle_desk_judge_bundle(b, b_length, shared, shared_length, &desks.b);
 *     uint32_t fault = knotsaddle_desks_make_change(&held, &desks, KNOTSADDLE_CALENDARS, knotsaddle_put(6, bytes, length), out, room);
 *
 * THE BUNDLES are three of 20 files each. The shared one holds files 6, 7 and 8 and no other, a desk's none of these three. A desk is
 * judged on the joined set: those three from the shared bundle, all others from its own. 1,048,576 bytes limit each bundle and not
 * the join.
 *
 * A CHANGE is to desk A's bundle, to B's or to the calendars. A change to one desk hands the other's board back. One to the calendars
 * judges again on both boards the marks that read the changed file. The new bundle is written unless each desk that the change
 * concerns is refused. `size` is its length, 0 where none is written.
 *
 * WHERE THE CALENDARS WERE WRITTEN WHILE A DESK WAS REFUSED, that desk's board is of the calendars as they were: judge it in full.
 *
 * THE ANSWER of a judgement is the desk's refusal, or 0. A try and a change answer 0, and put down a refusal or 0 for each desk; or they
 * answer a fault of their own, 100 or 101, with every list as it was. Tested in this order:
 *   100    a list of the call has another length than it must have; then as a desk's refusal, its board's lists
 *   101    `present` is neither 1 nor 0, or `whose` is over 2
 *    14    the workspace is shorter than KNOTSADDLE_WORKSPACE numbers
 *  1 2 3    the desk's own bundle is refused, then the shared one
 *     9    the desk's bundle holds file 6, 7 or 8, or the shared one any other; then, right after 4, the change is of a file that its
 *          bundle may not hold
 *  4 9 6 5  only of a change that is to that desk or to the calendars, with the meanings that knotsaddle.h has
 * A refused desk gets its board back as it was; a refused judgement, unless by 100, makes every mark 'not judged'. */
#ifndef KNOTSADDLE_DESKS_H
#define KNOTSADDLE_DESKS_H

#include "knotsaddle.h"

/* whose a change is */
#define KNOTSADDLE_DESK_A 0
#define KNOTSADDLE_DESK_B 1
#define KNOTSADDLE_CALENDARS 2
/* a bundle holds, or a change names, a file that it may not */
#define KNOTSADDLE_NOT_HELD_THERE 9

#ifdef __cplusplus
extern "C" {
#endif

/* ---- The exported calls. A board is three lists of KNOTSADDLE_MARKS, `work` a workspace of at least KNOTSADDLE_WORKSPACE numbers. */

/* Judges a desk's joined set in full: the board gets its marks. */
uint32_t knotsaddle_desk_judge(const uint8_t *desk, size_t desk_length,
                               const uint8_t *shared, size_t shared_length,
                               uint32_t *kinds, size_t kinds_length,
                               size_t *places, size_t places_length,
                               size_t *companions, size_t companions_length,
                               uint32_t *work, size_t work_length);

/* Tries a change of a file to the new bytes where `present` is 1, to no file where it is 0. The boards become those after the change.
 * `refusals`, a list of 2, gets A's and B's, `size`, a list of 1, the length that the new bundle would have. No bundle is made. */
uint32_t knotsaddle_desks_try(const uint8_t *a, size_t a_length,
                              const uint8_t *b, size_t b_length,
                              const uint8_t *shared, size_t shared_length,
                              uint32_t *kinds_a, size_t kinds_a_length,
                              size_t *places_a, size_t places_a_length,
                              size_t *companions_a, size_t companions_a_length,
                              uint32_t *kinds_b, size_t kinds_b_length,
                              size_t *places_b, size_t places_b_length,
                              size_t *companions_b, size_t companions_b_length,
                              uint32_t whose, size_t file, uint32_t present,
                              const uint8_t *new_bytes, size_t new_bytes_length,
                              uint32_t *refusals, size_t refusals_length,
                              size_t *size, size_t size_length,
                              uint32_t *work, size_t work_length);

/* Makes a change, handed over as to knotsaddle_desks_try. The new bundle goes to the front of `out`, of any length; the rest of it is as
 * before. */
uint32_t knotsaddle_desks_make(const uint8_t *a, size_t a_length,
                               const uint8_t *b, size_t b_length,
                               const uint8_t *shared, size_t shared_length,
                               uint32_t *kinds_a, size_t kinds_a_length,
                               size_t *places_a, size_t places_a_length,
                               size_t *companions_a, size_t companions_a_length,
                               uint32_t *kinds_b, size_t kinds_b_length,
                               size_t *places_b, size_t places_b_length,
                               size_t *companions_b, size_t companions_b_length,
                               uint32_t whose, size_t file, uint32_t present,
                               const uint8_t *new_bytes, size_t new_bytes_length,
                               uint8_t *out, size_t out_length,
                               uint32_t *refusals, size_t refusals_length,
                               size_t *size, size_t size_length,
                               uint32_t *work, size_t work_length);

#ifdef __cplusplus
}
#endif

/* ---- The same over structs */

typedef struct knotsaddle_bundles {
    const uint8_t *a;
    size_t a_length;
    const uint8_t *b;
    size_t b_length;
    const uint8_t *shared;
    size_t shared_length;
} knotsaddle_bundles;

/* Both boards, which a call replaces, what each desk was answered, and the length of the new bundle. */
typedef struct knotsaddle_desks {
    knotsaddle_board a;
    knotsaddle_board b;
    uint32_t refusal_a;
    uint32_t refusal_b;
    size_t size;
} knotsaddle_desks;

/* ---- In a workspace that the caller lends */

static inline uint32_t knotsaddle_desk_judge_in(const uint8_t *desk, size_t desk_length, const uint8_t *shared, size_t shared_length,
                                                knotsaddle_board *board, uint32_t *work, size_t work_length) {
    uint32_t no_work = 0;
    board->gate = KNOTSADDLE_SCHEDULE;
    return knotsaddle_desk_judge(knotsaddle_bytes(desk), desk_length, knotsaddle_bytes(shared), shared_length,
                                 board->kinds, KNOTSADDLE_MARKS, board->places, KNOTSADDLE_MARKS,
                                 board->companions, KNOTSADDLE_MARKS, work != NULL ? work : &no_work, work_length);
}

#define KNOTSADDLE_DESK_LISTS(board) \
    (board).kinds, KNOTSADDLE_MARKS, (board).places, KNOTSADDLE_MARKS, (board).companions, KNOTSADDLE_MARKS
#define KNOTSADDLE_DESK_BUNDLES(held) \
    knotsaddle_bytes((held)->a), (held)->a_length, knotsaddle_bytes((held)->b), (held)->b_length, \
    knotsaddle_bytes((held)->shared), (held)->shared_length

/* Puts down what each desk was answered, unless the call had a fault of its own. */
static inline uint32_t knotsaddle_desks_answered(uint32_t fault, const uint32_t *refusals, size_t size, knotsaddle_desks *desks) {
    if (fault != 0) return fault;
    desks->refusal_a = refusals[0];
    desks->refusal_b = refusals[1];
    desks->size = size;
    return 0;
}

static inline uint32_t knotsaddle_desks_try_in(const knotsaddle_bundles *held, knotsaddle_desks *desks, uint32_t whose,
                                               knotsaddle_change change, uint32_t *work, size_t work_length) {
    uint32_t no_work = 0, refusals[2] = {0, 0};
    size_t size[1] = {0};
    uint32_t fault = knotsaddle_desks_try(KNOTSADDLE_DESK_BUNDLES(held),
                                          KNOTSADDLE_DESK_LISTS(desks->a), KNOTSADDLE_DESK_LISTS(desks->b),
                                          whose, change.file, change.present, knotsaddle_bytes(change.bytes), change.length,
                                          refusals, 2, size, 1, work != NULL ? work : &no_work, work_length);
    return knotsaddle_desks_answered(fault, refusals, size[0], desks);
}

static inline uint32_t knotsaddle_desks_make_in(const knotsaddle_bundles *held, knotsaddle_desks *desks, uint32_t whose,
                                                knotsaddle_change change, uint8_t *out, size_t out_length,
                                                uint32_t *work, size_t work_length) {
    uint32_t no_work = 0, refusals[2] = {0, 0};
    size_t size[1] = {0};
    uint8_t no_out = 0;
    uint32_t fault = knotsaddle_desks_make(KNOTSADDLE_DESK_BUNDLES(held),
                                           KNOTSADDLE_DESK_LISTS(desks->a), KNOTSADDLE_DESK_LISTS(desks->b),
                                           whose, change.file, change.present, knotsaddle_bytes(change.bytes), change.length,
                                           out != NULL ? out : &no_out, out_length,
                                           refusals, 2, size, 1, work != NULL ? work : &no_work, work_length);
    return knotsaddle_desks_answered(fault, refusals, size[0], desks);
}

/* ---- In a workspace that the call gets and gives back; KNOTSADDLE_NO_MEMORY where there is none, with everything as it was */

static inline uint32_t knotsaddle_desk_judge_bundle(const uint8_t *desk, size_t desk_length, const uint8_t *shared,
                                                    size_t shared_length, knotsaddle_board *board) {
    uint32_t *work = knotsaddle_workspace();
    if (work == NULL) return KNOTSADDLE_NO_MEMORY;
    uint32_t answer = knotsaddle_desk_judge_in(desk, desk_length, shared, shared_length, board, work, KNOTSADDLE_WORKSPACE);
    KNOTSADDLE_FREE(work);
    return answer;
}

static inline uint32_t knotsaddle_desks_try_change(const knotsaddle_bundles *held, knotsaddle_desks *desks, uint32_t whose,
                                                   knotsaddle_change change) {
    uint32_t *work = knotsaddle_workspace();
    if (work == NULL) return KNOTSADDLE_NO_MEMORY;
    uint32_t fault = knotsaddle_desks_try_in(held, desks, whose, change, work, KNOTSADDLE_WORKSPACE);
    KNOTSADDLE_FREE(work);
    return fault;
}

static inline uint32_t knotsaddle_desks_make_change(const knotsaddle_bundles *held, knotsaddle_desks *desks, uint32_t whose,
                                                    knotsaddle_change change, uint8_t *out, size_t out_length) {
    uint32_t *work = knotsaddle_workspace();
    if (work == NULL) return KNOTSADDLE_NO_MEMORY;
    uint32_t fault = knotsaddle_desks_make_in(held, desks, whose, change, out, out_length, work, KNOTSADDLE_WORKSPACE);
    KNOTSADDLE_FREE(work);
    return fault;
}

#endif
