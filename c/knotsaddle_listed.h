/* The calls with a list of entries, for C: judge a bundle, try a change, make it, and have beside the marks a lookup of the records that
 * were read; and the plain engine. It goes with the static library that `c/build listed_c` writes. Bundles, boards, threads and
 * pointers are as knotsaddle.h has them; a board is one of KNOTSADDLE_SCHEDULE.
 *
 *     knotsaddle_entry list[1000];
 *     size_t entries;
 *     uint32_t refusal = knotsaddle_listed_judge_bundle(bundle, length, &board, list, 1000, &entries);
 *
 * AN ENTRY is four numbers of a record: where the text of its key starts in its file, behind the quote; how long that is as written,
 * without the quotes; its sum; and the record, from 1. Of several key fields it is the first. The sum starts at 0 and is for each
 * character of the text, escapes decoded and capitals taken for small letters, that character and 31 times the sum so far, modulo 2^32.
 *
 * THE LIST starts with the entries of the readable files among 4 to 19, file by file, those of a file by sum and then by record; after a
 * change with those of the files that were read for it, as they stand after it. The rest of the list is as before. KNOTSADDLE_MOST_ENTRIES
 * places are enough for every set.
 *
 * THE ANSWER is 0, or says why the call is refused. The list, and the output of a change, are then as they were, and the numbers of entries
 * and of bytes are 0. Tested in this order:
 *   101    `present` is neither 1 nor 0
 *   100    a list of the board has another length than KNOTSADDLE_MARKS
 *    14    the workspace is shorter than KNOTSADDLE_LISTED_WORKSPACE numbers
 *  1 to 6  as knotsaddle.h has them
 *     8    the list has fewer places than there are entries
 * The inline functions that get a workspace of their own give 102, before all others, where there is no memory for it; everything
 * is then as it was. What happens to the board is as knotsaddle.h has it.
 *
 * THE PLAIN ENGINE gives the marks that every judgement gives, and takes long over large sets: it keeps no lookup, and is there to compare
 * with.
 *
 * STACK: a call with a list needs some 141 KB below the caller's frame, and less than KNOTSADDLE_STACK bytes. The plain engine takes no
 * workspace: it needs some 4,350,000 bytes, and less than KNOTSADDLE_PLAIN_STACK bytes. */
#ifndef KNOTSADDLE_LISTED_H
#define KNOTSADDLE_LISTED_H

#include "knotsaddle.h"

/* numbers of 4 bytes in a workspace: 4,227,384 bytes */
#define KNOTSADDLE_LISTED_WORKSPACE 1056846
/* 4,096 for each of 16 files */
#define KNOTSADDLE_MOST_ENTRIES 65536
#define KNOTSADDLE_ENTRY_NUMBERS 4
/* bytes: more than the plain engine needs of the stack */
#define KNOTSADDLE_PLAIN_STACK 4718592
/* the list has too few places */
#define KNOTSADDLE_SHORT_LIST 8

#ifdef __cplusplus
extern "C" {
#endif

/* ---- The exported calls, for any language. A board is three lists of KNOTSADDLE_MARKS. `list` has a place for each
 * KNOTSADDLE_ENTRY_NUMBERS of its numbers; one to three behind the last place are left alone. `entries` gets how many entries it starts
 * with. `work` is a workspace of at least KNOTSADDLE_LISTED_WORKSPACE numbers, whatever they are. */

/* Judges a bundle in full: the board gets its marks. */
uint32_t knotsaddle_listed_judge(const uint8_t *bundle, size_t bundle_length,
                                 uint32_t *kinds, size_t kinds_length,
                                 size_t *places, size_t places_length,
                                 size_t *companions, size_t companions_length,
                                 uint32_t *list, size_t list_length, size_t *entries,
                                 uint32_t *work, size_t work_length);

/* Tries a change of a file to the new bytes where `present` is 1, to no file where it is 0. The board is that of the bundle and becomes
 * the one after the change. `size` gets the length that the new bundle would have. No bundle is made. */
uint32_t knotsaddle_listed_try(const uint8_t *bundle, size_t bundle_length,
                               uint32_t *kinds, size_t kinds_length,
                               size_t *places, size_t places_length,
                               size_t *companions, size_t companions_length,
                               size_t file, uint32_t present,
                               const uint8_t *new_bytes, size_t new_bytes_length,
                               uint32_t *list, size_t list_length, size_t *entries,
                               size_t *size, uint32_t *work, size_t work_length);

/* Makes a change, handed over as to knotsaddle_listed_try. The new bundle goes to the front of `out`, of any length, and its length to
 * `size`. The rest of `out` is as before. */
uint32_t knotsaddle_listed_make(const uint8_t *bundle, size_t bundle_length,
                                uint32_t *kinds, size_t kinds_length,
                                size_t *places, size_t places_length,
                                size_t *companions, size_t companions_length,
                                size_t file, uint32_t present,
                                const uint8_t *new_bytes, size_t new_bytes_length,
                                uint8_t *out, size_t out_length,
                                uint32_t *list, size_t list_length, size_t *entries,
                                size_t *size, uint32_t *work, size_t work_length);

/* Judges a bundle in full by the plain engine: 0, or the refusal 1, 2 or 3. Each list of the board is a pointer to KNOTSADDLE_MARKS. */
uint32_t knotsaddle_plain_judge(const uint8_t *bundle, size_t bundle_length,
                                uint32_t *kinds_81, size_t *places_81, size_t *companions_81);

#ifdef __cplusplus
}
#endif

/* ---- The same over structs */

typedef struct knotsaddle_entry {
    uint32_t start;
    uint32_t length;
    uint32_t sum;
    uint32_t record;
} knotsaddle_entry;

#define KNOTSADDLE_LISTED_BOARD(board) \
    (board)->kinds, KNOTSADDLE_MARKS, (board)->places, KNOTSADDLE_MARKS, (board)->companions, KNOTSADDLE_MARKS

/* ---- In a workspace that the caller lends. A pointer to a number may be null if the caller does not ask for it, the list's if it has no
 * places. */

static inline uint32_t knotsaddle_listed_judge_in(const uint8_t *bundle, size_t bundle_length, knotsaddle_board *board,
                                                  knotsaddle_entry *list, size_t list_places, size_t *entries,
                                                  uint32_t *work, size_t work_length) {
    uint32_t no_list = 0, no_work = 0;
    size_t no_entries = 0;
    board->gate = KNOTSADDLE_SCHEDULE;
    return knotsaddle_listed_judge(knotsaddle_bytes(bundle), bundle_length, KNOTSADDLE_LISTED_BOARD(board),
                                   list != NULL ? &list->start : &no_list, KNOTSADDLE_ENTRY_NUMBERS * list_places,
                                   entries != NULL ? entries : &no_entries, work != NULL ? work : &no_work, work_length);
}

static inline uint32_t knotsaddle_listed_try_in(const uint8_t *bundle, size_t bundle_length, knotsaddle_board *board,
                                                knotsaddle_change change, knotsaddle_entry *list, size_t list_places,
                                                size_t *entries, size_t *size, uint32_t *work, size_t work_length) {
    uint32_t no_list = 0, no_work = 0;
    size_t no_entries = 0, no_size = 0;
    return knotsaddle_listed_try(knotsaddle_bytes(bundle), bundle_length, KNOTSADDLE_LISTED_BOARD(board),
                                 change.file, change.present, knotsaddle_bytes(change.bytes), change.length,
                                 list != NULL ? &list->start : &no_list, KNOTSADDLE_ENTRY_NUMBERS * list_places,
                                 entries != NULL ? entries : &no_entries, size != NULL ? size : &no_size,
                                 work != NULL ? work : &no_work, work_length);
}

static inline uint32_t knotsaddle_listed_make_in(const uint8_t *bundle, size_t bundle_length, knotsaddle_board *board,
                                                 knotsaddle_change change, uint8_t *out, size_t out_length,
                                                 knotsaddle_entry *list, size_t list_places, size_t *entries, size_t *size,
                                                 uint32_t *work, size_t work_length) {
    uint32_t no_list = 0, no_work = 0;
    size_t no_entries = 0, no_size = 0;
    uint8_t no_out = 0;
    return knotsaddle_listed_make(knotsaddle_bytes(bundle), bundle_length, KNOTSADDLE_LISTED_BOARD(board),
                                  change.file, change.present, knotsaddle_bytes(change.bytes), change.length,
                                  out != NULL ? out : &no_out, out_length,
                                  list != NULL ? &list->start : &no_list, KNOTSADDLE_ENTRY_NUMBERS * list_places,
                                  entries != NULL ? entries : &no_entries, size != NULL ? size : &no_size,
                                  work != NULL ? work : &no_work, work_length);
}

/* ---- In a workspace that the call gets and gives back; KNOTSADDLE_NO_MEMORY where there is none, with everything as it was */

static inline uint32_t *knotsaddle_listed_workspace(void) {
    return (uint32_t *)KNOTSADDLE_MALLOC(KNOTSADDLE_LISTED_WORKSPACE * sizeof(uint32_t));
}

static inline uint32_t knotsaddle_listed_judge_bundle(const uint8_t *bundle, size_t bundle_length, knotsaddle_board *board,
                                                      knotsaddle_entry *list, size_t list_places, size_t *entries) {
    uint32_t *work = knotsaddle_listed_workspace();
    if (work == NULL) return KNOTSADDLE_NO_MEMORY;
    uint32_t answer =
        knotsaddle_listed_judge_in(bundle, bundle_length, board, list, list_places, entries, work, KNOTSADDLE_LISTED_WORKSPACE);
    KNOTSADDLE_FREE(work);
    return answer;
}

static inline uint32_t knotsaddle_listed_try_change(const uint8_t *bundle, size_t bundle_length, knotsaddle_board *board,
                                                    knotsaddle_change change, knotsaddle_entry *list, size_t list_places,
                                                    size_t *entries, size_t *size) {
    uint32_t *work = knotsaddle_listed_workspace();
    if (work == NULL) return KNOTSADDLE_NO_MEMORY;
    uint32_t answer = knotsaddle_listed_try_in(bundle, bundle_length, board, change, list, list_places, entries, size, work,
                                               KNOTSADDLE_LISTED_WORKSPACE);
    KNOTSADDLE_FREE(work);
    return answer;
}

static inline uint32_t knotsaddle_listed_make_change(const uint8_t *bundle, size_t bundle_length, knotsaddle_board *board,
                                                     knotsaddle_change change, uint8_t *out, size_t out_length,
                                                     knotsaddle_entry *list, size_t list_places, size_t *entries, size_t *size) {
    uint32_t *work = knotsaddle_listed_workspace();
    if (work == NULL) return KNOTSADDLE_NO_MEMORY;
    uint32_t answer = knotsaddle_listed_make_in(bundle, bundle_length, board, change, out, out_length, list, list_places, entries,
                                                size, work, KNOTSADDLE_LISTED_WORKSPACE);
    KNOTSADDLE_FREE(work);
    return answer;
}

/* By the plain engine. */
static inline uint32_t knotsaddle_plain_judge_bundle(const uint8_t *bundle, size_t bundle_length, knotsaddle_board *board) {
    board->gate = KNOTSADDLE_SCHEDULE;
    return knotsaddle_plain_judge(knotsaddle_bytes(bundle), bundle_length, board->kinds, board->places, board->companions);
}

#endif
