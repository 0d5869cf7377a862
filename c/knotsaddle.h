/* The gates for C: judge a bundle, try a change, make it, ask why a mark does not hold, ask for a file, print a report.
 *
 * There are two layers. The exported calls, first below, take every list as a pointer and a length, and are what other
 * languages bind to. The inline functions behind them take a board and a change as structs; a C program uses these.
 *
 *     knotsaddle_board board;
 *     uint32_t refusal = knotsaddle_judge_bundle(KNOTSADDLE_SCHEDULE, bundle, length, &board);
 *     if (refusal == 0 && knotsaddle_is_accepted(&board)) ...
 *
 * THE GATE comes first in every call that asks for one: KNOTSADDLE_SCHEDULE, document 01's, KNOTSADDLE_BASELINE, its profile
 * for a delivery at contract start, with four marks more, or KNOTSADDLE_CONTRACT, that of the four files of the contract side,
 * Subcontractors, WBS, OBS and ControlAccounts. A board knows its gate, so calls with a board alone do not ask.
 *
 * THE BUNDLE (docs/BUNDLE.md) holds up to 20 files. Its numbers have 32 bits, lowest byte first. At byte 0 stands the count,
 * always 20; at 4 + 8 k the offset of file k and at 8 + 8 k its length, both 0 for an omitted file. The files stand from
 * byte 164 on in the order of their numbers, without gaps, and the bundle ends with the last. With `[]` as file 16 alone:
 *
 *     00000000: 14 00 00 00  00 00 00 00 00 00 00 00  ..     the count, 20; file 0 is omitted, and so are the next
 *     00000084: a4 00 00 00 02 00 00 00  ..                  file 16: offset 164, length 2; files 17 to 19 are omitted
 *     000000a4: 5b 5d                                        its bytes
 *
 * On the contract side the count is 4 and the files stand from byte 36 on; all else is the same.
 *
 * THE BOARD has 81 marks in document 01's order, by the profile 85, on the contract side 19, each of three numbers. Kind 0: the
 * mark holds. Kind 2: not judged. Any other kind is a fault. The place says where it is: a byte of the file (marks 0 to 19), or
 * the number of the record, from 1 (marks 20 on). The companion is the record that goes with it: the earliest with the same key
 * (20 to 35), the parent (79, 80), the one in which the byte stands (kinds 13 to 18 and 30 to 34); 0 if there is none. On the
 * contract side the files' marks are 0 to 3, the keys' 4 to 7, and 15 and 16 show the parent.
 *
 * THE REASON of a mark is nine numbers, each with one meaning and 0 in an answer that has no such thing:
 *     0          which answer: 0 the mark holds, 1 it is not judged, 2 a file's own mark, 3 a broken rule, 4 a rule that is
 *                broken because no record of the file searched has the value
 *     1, 2, 3    the mark's kind, place and companion, as on a board: of a broken rule 1, the first record that breaks it, and
 *                the record that goes with it
 *     4          the file of that record; of a rule that is not judged the unreadable file with the lowest number
 *     5          the field that decides, counted from 0 within its table
 *     6, 7       where its value starts in the bundle, quotes included, and how long it is; 0 and 0 for null
 *     8          the file searched
 *
 * THE ANSWER of a call is 0, or says why it was refused; a number means the same in every call. Tested in this order:
 *   103    there is no gate of that number
 *   100    a list has another length than it must have
 *   101    `present` is neither 1 nor 0
 *    14    the workspace is shorter than KNOTSADDLE_WORKSPACE numbers, on the contract side KNOTSADDLE_CONTRACT_WORKSPACE
 *     1    the bundle is under 164, on the contract side 36, or over 1,048,576 bytes
 *     2    its count is not 20, on the contract side 4
 *     3    an offset, a length or the end breaks the layout
 *     4    the file number is over 19, on the contract side over 3
 *     7    the mark number is over 80, by the profile over 84, on the contract side over 18
 *     6    the new bundle would be over 1,048,576 bytes
 *     5    the output is shorter than the new bundle
 * The inline functions never give 100. Those that get a workspace of their own give 102, before all others, where there is no
 * memory for it. A refused call leaves every list as it was, but for one: a refused judgement, unless by 100, 102 or 103, makes
 * every mark 'not judged'.
 *
 * STACK: judging, trying and making need some 139 KB below the caller's frame, in either layer, telling a reason some 142 KB, and
 * all of them less than KNOTSADDLE_STACK bytes; a stack that is too small ends in a crash without a word. The name of a field
 * needs less than 8 KB, the other calls less than 2 KB.
 *
 * THREADS: nothing is kept between calls, so any number of threads may call at once, as long as no thread writes to a list
 * that another one uses.
 *
 * POINTERS: the library was checked under these conditions and can't check them itself. A pointer is valid for as many
 * elements as its length says, and aligned. A list that is written to overlaps no other list of the same call. The exported
 * calls take no null pointer, not even for a list of no elements; the inline functions take one for bytes, an output or a
 * workspace of length 0. */
#ifndef KNOTSADDLE_H
#define KNOTSADDLE_H

#include <stddef.h>
#include <stdint.h>

/* the gates, the files of a set, and the marks of each; no gate has more than the last of these */
#define KNOTSADDLE_SCHEDULE 0
#define KNOTSADDLE_BASELINE 1
#define KNOTSADDLE_CONTRACT 2
#define KNOTSADDLE_FILES 20
#define KNOTSADDLE_CONTRACT_FILES 4
#define KNOTSADDLE_MARKS 81
#define KNOTSADDLE_BASELINE_MARKS 85
#define KNOTSADDLE_CONTRACT_MARKS 19
#define KNOTSADDLE_MOST_MARKS 85
/* numbers of 4 bytes in a workspace: 3,178,808 bytes, which are enough for every gate; the contract side needs 753,664 */
#define KNOTSADDLE_WORKSPACE 794702
#define KNOTSADDLE_CONTRACT_WORKSPACE 188416
/* bytes: the bundle with no files, the largest one, the room for a report, that for the name of a file or a field and the zero
 * byte behind it, and the stack of a call */
#define KNOTSADDLE_EMPTY_BUNDLE 164
#define KNOTSADDLE_CONTRACT_EMPTY_BUNDLE 36
#define KNOTSADDLE_LARGEST_BUNDLE 1048576
#define KNOTSADDLE_REPORT_ROOM 6400
#define KNOTSADDLE_NAME_ROOM 36
#define KNOTSADDLE_STACK 163840

#define KNOTSADDLE_NOT_JUDGED 2
/* the numbers of a reason, and its answers */
#define KNOTSADDLE_TOLD_NUMBERS 9
#define KNOTSADDLE_TOLD_HOLDS 0
#define KNOTSADDLE_TOLD_NOT_JUDGED 1
#define KNOTSADDLE_TOLD_OWN_MARK 2
#define KNOTSADDLE_TOLD_BROKEN 3
#define KNOTSADDLE_TOLD_MISSING 4
#define KNOTSADDLE_SHORT_WORKSPACE 14
#define KNOTSADDLE_WRONG_LENGTH 100
#define KNOTSADDLE_WRONG_PRESENT 101
#define KNOTSADDLE_NO_MEMORY 102
#define KNOTSADDLE_NO_GATE 103

#ifdef __cplusplus
extern "C" {
#endif

/* ---- The exported calls. `kinds`, `places` and `companions` are a board: lists of as many as the gate has marks. `work` is a
 * workspace of at least KNOTSADDLE_WORKSPACE numbers, whatever they are. After the answer 0 it holds what was read, and
 * elsewhere it may hold what it held; after any other it is as it was. It may be lent again as it is. */

/* Judges a bundle in full: the board gets its marks. */
uint32_t knotsaddle_judge(uint32_t gate,
                          const uint8_t *bundle, size_t bundle_length,
                          uint32_t *kinds, size_t kinds_length,
                          size_t *places, size_t places_length,
                          size_t *companions, size_t companions_length,
                          uint32_t *work, size_t work_length);

/* Tries a change of a file, 0 to 19: to the new bytes where `present` is 1, to no file where it is 0. The board is that of
 * the bundle and becomes the one after the change. `size`, a list of 1, gets the length that the new bundle would have. No
 * bundle is made. */
uint32_t knotsaddle_try(uint32_t gate,
                        const uint8_t *bundle, size_t bundle_length,
                        uint32_t *kinds, size_t kinds_length,
                        size_t *places, size_t places_length,
                        size_t *companions, size_t companions_length,
                        size_t file, uint32_t present,
                        const uint8_t *new_bytes, size_t new_bytes_length,
                        size_t *size, size_t size_length,
                        uint32_t *work, size_t work_length);

/* Makes a change, handed over as to knotsaddle_try. The new bundle goes to the front of `out`, of any length, and its
 * length to `size`. The rest of `out` is as before. */
uint32_t knotsaddle_make(uint32_t gate,
                         const uint8_t *bundle, size_t bundle_length,
                         uint32_t *kinds, size_t kinds_length,
                         size_t *places, size_t places_length,
                         size_t *companions, size_t companions_length,
                         size_t file, uint32_t present,
                         const uint8_t *new_bytes, size_t new_bytes_length,
                         uint8_t *out, size_t out_length,
                         size_t *size, size_t size_length,
                         uint32_t *work, size_t work_length);

/* Tells why a mark of a bundle does not hold: 0, or the refusal 103, 100, 14, 1, 2, 3 or 7. `told`, a list of
 * KNOTSADDLE_TOLD_NUMBERS, gets the numbers of the reason. */
uint32_t knotsaddle_reason(uint32_t gate,
                           const uint8_t *bundle, size_t bundle_length,
                           size_t mark,
                           size_t *told, size_t told_length,
                           uint32_t *work, size_t work_length);

/* Writes the judging program's text to the front of `out`, of at least KNOTSADDLE_REPORT_ROOM bytes: of a refusal, or with 0
 * of the board. No zero byte closes it. Answers the text's length, at most 4,546, by the
 * profile 4,770; or 0, with nothing written, where the gate or a length is wrong. */
size_t knotsaddle_report(uint32_t gate, uint32_t refusal,
                         const uint32_t *kinds, size_t kinds_length,
                         const size_t *places, size_t places_length,
                         const size_t *companions, size_t companions_length,
                         uint8_t *out, size_t out_length);

/* Asks for a file by number: 0, or the refusal 103, 100, 1, 2, 3 or 4. `present`, a list of 1, gets 1 if the file is there and 0 if it
 * is omitted. `place`, a list of 2, gets the start and the length of its part of the bundle, 0 and 0 if it is omitted. */
uint32_t knotsaddle_file(uint32_t gate,
                         const uint8_t *bundle, size_t bundle_length,
                         size_t file,
                         uint32_t *present, size_t present_length,
                         size_t *place, size_t place_length);

/* Writes the bundle with no files to the front of `out`. Answers its length, KNOTSADDLE_EMPTY_BUNDLE or on the
 * contract side KNOTSADDLE_CONTRACT_EMPTY_BUNDLE; or 0, with nothing written, where the gate is wrong or `out` is shorter. */
size_t knotsaddle_empty(uint32_t gate, uint8_t *out, size_t out_length);

/* Makes every mark of a board 'not judged': 0, or 103 or 100. */
uint32_t knotsaddle_fresh(uint32_t gate,
                          uint32_t *kinds, size_t kinds_length,
                          size_t *places, size_t places_length,
                          size_t *companions, size_t companions_length);

/* How many of these kinds, of any length, are not 0. A set is accepted if none of its board's is. */
size_t knotsaddle_faults(const uint32_t *kinds, size_t kinds_length);

/* Writes the name of a file, 0 to 19, on the contract side 0 to 3, to the front of `out`. No zero byte closes it. Answers its
 * length, at most 35; or 0, with nothing written, for a number that is no file's or where `out` is shorter. */
size_t knotsaddle_file_name(uint32_t gate, size_t file, uint8_t *out, size_t out_length);

/* Writes the name of a field of a file, counted from 0, to the front of `out`. No zero byte closes it. Answers its length, at
 * most 27; or 0, with nothing written, where the file has no such field or `out` is shorter. */
size_t knotsaddle_field_name(uint32_t gate, size_t file, size_t field, uint8_t *out, size_t out_length);

#ifdef __cplusplus
}
#endif

/* ---- The same over structs */

/* A board of a gate, which is put down where a board is judged or made fresh. Its lists are used as far as the gate has marks. */
typedef struct knotsaddle_board {
    uint32_t gate;
    uint32_t kinds[KNOTSADDLE_MOST_MARKS];
    size_t places[KNOTSADDLE_MOST_MARKS];
    size_t companions[KNOTSADDLE_MOST_MARKS];
} knotsaddle_board;

/* How many marks a gate has; 0 for a number that is no gate's. */
static inline size_t knotsaddle_marks_of(uint32_t gate) {
    if (gate == KNOTSADDLE_SCHEDULE) return KNOTSADDLE_MARKS;
    if (gate == KNOTSADDLE_BASELINE) return KNOTSADDLE_BASELINE_MARKS;
    return gate == KNOTSADDLE_CONTRACT ? KNOTSADDLE_CONTRACT_MARKS : 0;
}

/* A change of a file: to these bytes where `present` is 1, to no file where it is 0. */
typedef struct knotsaddle_change {
    size_t file;
    uint32_t present;
    const uint8_t *bytes;
    size_t length;
} knotsaddle_change;

/* A file of a bundle: where `present` is 1 its bytes, which stay the bundle's own. */
typedef struct knotsaddle_part {
    uint32_t present;
    const uint8_t *bytes;
    size_t length;
} knotsaddle_part;

/* The reason of a mark: one of the answers above, the mark's three numbers, and what is told with that answer; else 0. The
 * value stays the bundle's own; its length is 0 for null. */
typedef struct knotsaddle_told {
    uint32_t answer;
    uint32_t kind;
    size_t place;
    size_t companion;
    size_t file;
    size_t field;
    const uint8_t *value;
    size_t length;
    size_t searched;
} knotsaddle_told;

static inline knotsaddle_change knotsaddle_put(size_t file, const uint8_t *bytes, size_t length) {
    knotsaddle_change change = {file, 1, bytes, length};
    return change;
}

static inline knotsaddle_change knotsaddle_withdraw(size_t file) {
    knotsaddle_change change = {file, 0, NULL, 0};
    return change;
}

/* The exported calls take no null pointer: one for bytes that are none. */
static inline const uint8_t *knotsaddle_bytes(const uint8_t *bytes) {
    static const uint8_t none[1] = {0};
    return bytes != NULL ? bytes : none;
}

/* ---- Judging, trying, making, telling a reason in a workspace that the caller lends */

static inline uint32_t knotsaddle_judge_in(uint32_t gate, const uint8_t *bundle, size_t bundle_length,
                                           knotsaddle_board *board, uint32_t *work, size_t work_length) {
    uint32_t no_work = 0;
    size_t marks = knotsaddle_marks_of(gate);
    board->gate = gate;
    return knotsaddle_judge(gate, knotsaddle_bytes(bundle), bundle_length,
                            board->kinds, marks, board->places, marks, board->companions, marks,
                            work != NULL ? work : &no_work, work_length);
}

/* `size` gets the length that the new bundle would have; null if the caller does not ask for it. */
static inline uint32_t knotsaddle_try_in(const uint8_t *bundle, size_t bundle_length, knotsaddle_board *board,
                                         knotsaddle_change change, size_t *size,
                                         uint32_t *work, size_t work_length) {
    uint32_t no_work = 0;
    size_t no_size = 0;
    size_t marks = knotsaddle_marks_of(board->gate);
    return knotsaddle_try(board->gate, knotsaddle_bytes(bundle), bundle_length,
                          board->kinds, marks, board->places, marks, board->companions, marks,
                          change.file, change.present, knotsaddle_bytes(change.bytes), change.length,
                          size != NULL ? size : &no_size, 1,
                          work != NULL ? work : &no_work, work_length);
}

/* `size` gets the length of the new bundle, which stands at the front of `out`. */
static inline uint32_t knotsaddle_make_in(const uint8_t *bundle, size_t bundle_length, knotsaddle_board *board,
                                          knotsaddle_change change, uint8_t *out, size_t out_length, size_t *size,
                                          uint32_t *work, size_t work_length) {
    uint32_t no_work = 0;
    size_t no_size = 0;
    uint8_t no_out = 0;
    size_t marks = knotsaddle_marks_of(board->gate);
    return knotsaddle_make(board->gate, knotsaddle_bytes(bundle), bundle_length,
                           board->kinds, marks, board->places, marks, board->companions, marks,
                           change.file, change.present, knotsaddle_bytes(change.bytes), change.length,
                           out != NULL ? out : &no_out, out_length,
                           size != NULL ? size : &no_size, 1,
                           work != NULL ? work : &no_work, work_length);
}

/* After a refusal `told` is as it was. */
static inline uint32_t knotsaddle_reason_in(uint32_t gate, const uint8_t *bundle, size_t bundle_length, size_t mark,
                                            knotsaddle_told *told, uint32_t *work, size_t work_length) {
    uint32_t no_work = 0;
    size_t numbers[KNOTSADDLE_TOLD_NUMBERS] = {0};
    uint32_t answer = knotsaddle_reason(gate, knotsaddle_bytes(bundle), bundle_length, mark, numbers, KNOTSADDLE_TOLD_NUMBERS,
                                        work != NULL ? work : &no_work, work_length);
    if (answer != 0) return answer;
    told->answer = (uint32_t)numbers[0];
    told->kind = (uint32_t)numbers[1];
    told->place = numbers[2];
    told->companion = numbers[3];
    told->file = numbers[4];
    told->field = numbers[5];
    told->value = bundle + numbers[6];
    told->length = numbers[7];
    told->searched = numbers[8];
    return 0;
}

/* ---- The same in a workspace that the call gets and gives back. Where there is none it answers KNOTSADDLE_NO_MEMORY, and
 * everything is as it was. KNOTSADDLE_MALLOC and KNOTSADDLE_FREE may be defined before this file is included. */
#ifndef KNOTSADDLE_MALLOC
#include <stdlib.h>
#define KNOTSADDLE_MALLOC malloc
#define KNOTSADDLE_FREE free
#endif

static inline uint32_t *knotsaddle_workspace(void) {
    return (uint32_t *)KNOTSADDLE_MALLOC(KNOTSADDLE_WORKSPACE * sizeof(uint32_t));
}

static inline uint32_t knotsaddle_judge_bundle(uint32_t gate, const uint8_t *bundle, size_t bundle_length,
                                               knotsaddle_board *board) {
    uint32_t *work = knotsaddle_workspace();
    if (work == NULL) return KNOTSADDLE_NO_MEMORY;
    uint32_t answer = knotsaddle_judge_in(gate, bundle, bundle_length, board, work, KNOTSADDLE_WORKSPACE);
    KNOTSADDLE_FREE(work);
    return answer;
}

static inline uint32_t knotsaddle_try_change(const uint8_t *bundle, size_t bundle_length, knotsaddle_board *board,
                                             knotsaddle_change change, size_t *size) {
    uint32_t *work = knotsaddle_workspace();
    if (work == NULL) return KNOTSADDLE_NO_MEMORY;
    uint32_t answer = knotsaddle_try_in(bundle, bundle_length, board, change, size, work, KNOTSADDLE_WORKSPACE);
    KNOTSADDLE_FREE(work);
    return answer;
}

static inline uint32_t knotsaddle_make_change(const uint8_t *bundle, size_t bundle_length, knotsaddle_board *board,
                                              knotsaddle_change change, uint8_t *out, size_t out_length, size_t *size) {
    uint32_t *work = knotsaddle_workspace();
    if (work == NULL) return KNOTSADDLE_NO_MEMORY;
    uint32_t answer =
        knotsaddle_make_in(bundle, bundle_length, board, change, out, out_length, size, work, KNOTSADDLE_WORKSPACE);
    KNOTSADDLE_FREE(work);
    return answer;
}

static inline uint32_t knotsaddle_reason_of(uint32_t gate, const uint8_t *bundle, size_t bundle_length, size_t mark,
                                            knotsaddle_told *told) {
    uint32_t *work = knotsaddle_workspace();
    if (work == NULL) return KNOTSADDLE_NO_MEMORY;
    uint32_t answer = knotsaddle_reason_in(gate, bundle, bundle_length, mark, told, work, KNOTSADDLE_WORKSPACE);
    KNOTSADDLE_FREE(work);
    return answer;
}

/* ---- Boards, files and texts */

static inline void knotsaddle_fresh_board(uint32_t gate, knotsaddle_board *board) {
    size_t marks = knotsaddle_marks_of(gate);
    board->gate = gate;
    knotsaddle_fresh(gate, board->kinds, marks, board->places, marks, board->companions, marks);
}

/* 1 if all marks of the board's gate hold, else 0; 0 also where it is of no gate. */
static inline int knotsaddle_is_accepted(const knotsaddle_board *board) {
    size_t marks = knotsaddle_marks_of(board->gate);
    return marks != 0 && knotsaddle_faults(board->kinds, marks) == 0;
}

/* A file of a bundle; after a refusal, 103, 1, 2, 3 or 4, `part` is as it was. */
static inline uint32_t knotsaddle_file_part(uint32_t gate, const uint8_t *bundle, size_t bundle_length, size_t file,
                                            knotsaddle_part *part) {
    uint32_t present = 0;
    size_t place[2] = {0, 0};
    uint32_t answer = knotsaddle_file(gate, knotsaddle_bytes(bundle), bundle_length, file, &present, 1, place, 2);
    if (answer != 0) return answer;
    part->present = present;
    part->bytes = bundle + place[0];
    part->length = place[1];
    return 0;
}

/* Writes the report of a refusal, or with 0 of the board, to `text`, of KNOTSADDLE_REPORT_ROOM bytes, closed by a zero byte.
 * Answers its length without that. */
static inline size_t knotsaddle_report_text(uint32_t refusal, const knotsaddle_board *board, char *text) {
    size_t marks = knotsaddle_marks_of(board->gate);
    size_t length = knotsaddle_report(board->gate, refusal, board->kinds, marks, board->places, marks,
                                      board->companions, marks, (uint8_t *)text, KNOTSADDLE_REPORT_ROOM);
    text[length] = 0;
    return length;
}

/* Writes the name of a file to `name`, of KNOTSADDLE_NAME_ROOM bytes, closed by a zero byte; nothing else for a number that
 * is no file's. Answers its length without that. */
static inline size_t knotsaddle_name_of_file(uint32_t gate, size_t file, char *name) {
    size_t length = knotsaddle_file_name(gate, file, (uint8_t *)name, KNOTSADDLE_NAME_ROOM - 1);
    name[length] = 0;
    return length;
}

/* The same of a field of a file; nothing else where the file has no such field. */
static inline size_t knotsaddle_name_of_field(uint32_t gate, size_t file, size_t field, char *name) {
    size_t length = knotsaddle_field_name(gate, file, field, (uint8_t *)name, KNOTSADDLE_NAME_ROOM - 1);
    name[length] = 0;
    return length;
}

/* What a mark of a gate is about; an empty text for a number that is none of its marks. */
static inline const char *knotsaddle_about_mark(uint32_t gate, size_t mark) {
    static const char *const texts[KNOTSADDLE_BASELINE_MARKS] = {
#include "marks.inc"
    };
    static const char *const contract_texts[KNOTSADDLE_CONTRACT_MARKS] = {
#include "contract_marks.inc"
    };
    if (mark >= knotsaddle_marks_of(gate)) return "";
    return gate == KNOTSADDLE_CONTRACT ? contract_texts[mark] : texts[mark];
}

/* Why a call was refused, by its answer; an empty text for 0 and for a number that no call answers. */
static inline const char *knotsaddle_in_words(uint32_t answer) {
    static const struct {
        uint32_t answer;
        const char *text;
    } refusals[] = {
#include "refusals.inc"
    };
    for (size_t i = 0; i < sizeof refusals / sizeof refusals[0]; i++) {
        if (refusals[i].answer == answer) return refusals[i].text;
    }
    return "";
}

#endif
