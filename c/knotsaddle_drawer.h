/* The drawer for C: a set that stays in one place and is changed there. It goes with the static library that `c/build drawer_c`
 * writes. Bundles, boards, the workspace, threads and pointers are as knotsaddle.h has them; a board is one of KNOTSADDLE_SCHEDULE.
 *
 *     uint8_t drawer[5000];
 *     knotsaddle_board board;
 *     uint32_t refusal = knotsaddle_drawer_put_bundle(drawer, sizeof drawer, bundle, length);
 *     if (refusal == 0) refusal = knotsaddle_drawer_judge_files(drawer, sizeof drawer, &board);
 *     if (refusal == 0) refusal = knotsaddle_drawer_make_change(drawer, sizeof drawer, &board, knotsaddle_put(16, bytes, count));
 *
 * THE DRAWER is 164 to 1,048,576 bytes with a bundle's header in front: the count, 20, and for each file its offset and its length, both
 * 0 for an omitted one. The files may stand anywhere from byte 164 to the drawer's end, with no byte in two of them. One of length 0
 * holds no byte, and may stand at the drawer's end too. A drawer begins with a bundle that is put into it, as the one with no files.
 *
 * A CHANGE is made in place. A replaced file frees its room first. The new bytes go to the lowest gap that is long enough; if there is
 * none, the files are moved down, in the order of their offsets and then their numbers, and the new bytes follow. A file of length 0, new
 * or moved, goes to byte 164. Every other file keeps its bytes, and every byte outside the header and all files is as before. The board
 * becomes the one that the same change to the bundle of these files gives.
 *
 * THE ANSWER is 0, or says why the call is refused. Tested in this order:
 *   101    `present` is neither 1 nor 0
 *   100    a list of the board has another length than KNOTSADDLE_MARKS
 *    14    the workspace is shorter than KNOTSADDLE_WORKSPACE numbers
 *     1    the drawer, or a bundle that is put in, is under 164 or over 1,048,576 bytes
 *     2    its count is not 20
 *     3    of a drawer: a file does not stand from byte 164 to the end, or a byte is in two; of a bundle as knotsaddle.h has it
 *     4    the file number is over 19
 *    11    164 and the lengths of the files after the change are more bytes than the drawer has, also in a try; or the bundle that is put
 *          in is longer than the drawer
 *     5    the output is shorter than the bundle that is taken out, which is never longer than the drawer
 * Of a bundle that is put in 1, 2 and 3 come first, then 1 of the drawer; what the drawer held is not looked at. The inline functions
 * never give 100. Those that get a workspace of their own give 102, before all others, where there is no memory for it. A refused call
 * leaves everything as it was, but for one: a refused judgement, unless by 100 or 102, makes every mark 'not judged'.
 *
 * STACK: judging, trying and making need some 138 KB below the caller's frame and less than KNOTSADDLE_STACK bytes, the other calls less
 * than 2 KB. */
#ifndef KNOTSADDLE_DRAWER_H
#define KNOTSADDLE_DRAWER_H

#include "knotsaddle.h"

/* there is no room in the drawer */
#define KNOTSADDLE_DRAWER_NO_ROOM 11

#ifdef __cplusplus
extern "C" {
#endif

/* ---- The exported calls. A board is three lists of KNOTSADDLE_MARKS, `work` a workspace of at least KNOTSADDLE_WORKSPACE numbers,
 * whatever they are. After the answer 0 it holds what was read, after any other it is as it was; it may be lent again as it is. */

/* Judges a drawer in full: the board gets its marks. */
uint32_t knotsaddle_drawer_judge(const uint8_t *drawer, size_t drawer_length,
                                 uint32_t *kinds, size_t kinds_length,
                                 size_t *places, size_t places_length,
                                 size_t *companions, size_t companions_length,
                                 uint32_t *work, size_t work_length);

/* Asks for a file by number: 0, or the refusal 1, 2, 3 or 4. `present` gets 1 if the file is there and 0 if it is omitted, `start` and
 * `size` where its part of the drawer begins and how long it is, 0 and 0 if it is omitted. */
uint32_t knotsaddle_drawer_file(const uint8_t *drawer, size_t drawer_length,
                                size_t file, uint32_t *present, size_t *start, size_t *size);

/* Tries a change of a file, 0 to 19: to the new bytes where `present` is 1, to no file where it is 0. The board is that of the drawer and
 * becomes the one after the change. The drawer is not changed. */
uint32_t knotsaddle_drawer_try(const uint8_t *drawer, size_t drawer_length,
                               uint32_t *kinds, size_t kinds_length,
                               size_t *places, size_t places_length,
                               size_t *companions, size_t companions_length,
                               size_t file, uint32_t present,
                               const uint8_t *new_bytes, size_t new_bytes_length,
                               uint32_t *work, size_t work_length);

/* Makes a change in the drawer, handed over as to knotsaddle_drawer_try. The new bytes stand outside the drawer. */
uint32_t knotsaddle_drawer_make(uint8_t *drawer, size_t drawer_length,
                                uint32_t *kinds, size_t kinds_length,
                                size_t *places, size_t places_length,
                                size_t *companions, size_t companions_length,
                                size_t file, uint32_t present,
                                const uint8_t *new_bytes, size_t new_bytes_length,
                                uint32_t *work, size_t work_length);

/* Puts a bundle into a drawer, whatever that held: 0, or the refusal 1, 2, 3 or 11. The bytes behind it are as before. */
uint32_t knotsaddle_drawer_put(uint8_t *drawer, size_t drawer_length, const uint8_t *bundle, size_t bundle_length);

/* Writes the bundle of a drawer's files to the front of `out`, of any length, and its length to `size`: 0, or the refusal 1, 2, 3 or 5.
 * The rest of `out` is as before. */
uint32_t knotsaddle_drawer_take(const uint8_t *drawer, size_t drawer_length, uint8_t *out, size_t out_length, size_t *size);

#ifdef __cplusplus
}
#endif

/* ---- The same over structs, with null for bytes, an output or a workspace of length 0 */

#define KNOTSADDLE_DRAWER_LISTS(board) \
    (board)->kinds, KNOTSADDLE_MARKS, (board)->places, KNOTSADDLE_MARKS, (board)->companions, KNOTSADDLE_MARKS

/* A file of a drawer, whose bytes stay the drawer's own; after a refusal `part` is as it was. */
static inline uint32_t knotsaddle_drawer_file_part(const uint8_t *drawer, size_t drawer_length, size_t file, knotsaddle_part *part) {
    uint32_t present = 0;
    size_t start = 0, size = 0;
    uint32_t answer = knotsaddle_drawer_file(knotsaddle_bytes(drawer), drawer_length, file, &present, &start, &size);
    if (answer != 0) return answer;
    part->present = present;
    part->bytes = drawer + start;
    part->length = size;
    return 0;
}

static inline uint32_t knotsaddle_drawer_put_bundle(uint8_t *drawer, size_t drawer_length, const uint8_t *bundle,
                                                    size_t bundle_length) {
    uint8_t no_drawer = 0;
    return knotsaddle_drawer_put(drawer != NULL ? drawer : &no_drawer, drawer_length, knotsaddle_bytes(bundle), bundle_length);
}

static inline uint32_t knotsaddle_drawer_take_bundle(const uint8_t *drawer, size_t drawer_length, uint8_t *out, size_t out_length,
                                                     size_t *size) {
    uint8_t no_out = 0;
    return knotsaddle_drawer_take(knotsaddle_bytes(drawer), drawer_length, out != NULL ? out : &no_out, out_length, size);
}

/* ---- In a workspace that the caller lends */

static inline uint32_t knotsaddle_drawer_judge_in(const uint8_t *drawer, size_t drawer_length, knotsaddle_board *board,
                                                  uint32_t *work, size_t work_length) {
    uint32_t no_work = 0;
    board->gate = KNOTSADDLE_SCHEDULE;
    return knotsaddle_drawer_judge(knotsaddle_bytes(drawer), drawer_length, KNOTSADDLE_DRAWER_LISTS(board),
                                   work != NULL ? work : &no_work, work_length);
}

static inline uint32_t knotsaddle_drawer_try_in(const uint8_t *drawer, size_t drawer_length, knotsaddle_board *board,
                                                knotsaddle_change change, uint32_t *work, size_t work_length) {
    uint32_t no_work = 0;
    return knotsaddle_drawer_try(knotsaddle_bytes(drawer), drawer_length, KNOTSADDLE_DRAWER_LISTS(board),
                                 change.file, change.present, knotsaddle_bytes(change.bytes), change.length,
                                 work != NULL ? work : &no_work, work_length);
}

static inline uint32_t knotsaddle_drawer_make_in(uint8_t *drawer, size_t drawer_length, knotsaddle_board *board,
                                                 knotsaddle_change change, uint32_t *work, size_t work_length) {
    uint32_t no_work = 0;
    uint8_t no_drawer = 0;
    return knotsaddle_drawer_make(drawer != NULL ? drawer : &no_drawer, drawer_length, KNOTSADDLE_DRAWER_LISTS(board),
                                  change.file, change.present, knotsaddle_bytes(change.bytes), change.length,
                                  work != NULL ? work : &no_work, work_length);
}

/* ---- In a workspace that the call gets and gives back; KNOTSADDLE_NO_MEMORY where there is none, with everything as it was */

static inline uint32_t knotsaddle_drawer_judge_files(const uint8_t *drawer, size_t drawer_length, knotsaddle_board *board) {
    uint32_t *work = knotsaddle_workspace();
    if (work == NULL) return KNOTSADDLE_NO_MEMORY;
    uint32_t answer = knotsaddle_drawer_judge_in(drawer, drawer_length, board, work, KNOTSADDLE_WORKSPACE);
    KNOTSADDLE_FREE(work);
    return answer;
}

static inline uint32_t knotsaddle_drawer_try_change(const uint8_t *drawer, size_t drawer_length, knotsaddle_board *board,
                                                    knotsaddle_change change) {
    uint32_t *work = knotsaddle_workspace();
    if (work == NULL) return KNOTSADDLE_NO_MEMORY;
    uint32_t answer = knotsaddle_drawer_try_in(drawer, drawer_length, board, change, work, KNOTSADDLE_WORKSPACE);
    KNOTSADDLE_FREE(work);
    return answer;
}

static inline uint32_t knotsaddle_drawer_make_change(uint8_t *drawer, size_t drawer_length, knotsaddle_board *board,
                                                     knotsaddle_change change) {
    uint32_t *work = knotsaddle_workspace();
    if (work == NULL) return KNOTSADDLE_NO_MEMORY;
    uint32_t answer = knotsaddle_drawer_make_in(drawer, drawer_length, board, change, work, KNOTSADDLE_WORKSPACE);
    KNOTSADDLE_FREE(work);
    return answer;
}

#endif
