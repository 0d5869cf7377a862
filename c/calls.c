/* Makes every call of the gate with right and with wrong arguments and checks each answer: a test, and a list of what a caller
 * meets. For each folder on the command line, which holds a set, it also builds the set file by file on a small stack, by the
 * calls that get a workspace and by those that are lent one. Prints a line for each answer that is not the expected one, the
 * stack that was used, and then how many answers there were of each. */
#define _XOPEN_SOURCE 700
#include <stdio.h>
#include <stdlib.h>
#include <string.h>
#include <ucontext.h>

/* The memory of the calls that get a workspace: it can be made to fail, and is counted. */
static int no_memory, out_on_loan;

static void *get(size_t size) {
    if (no_memory) return NULL;
    out_on_loan++;
    return malloc(size);
}

static void give_back(void *memory) {
    out_on_loan--;
    free(memory);
}

#define KNOTSADDLE_MALLOC get
#define KNOTSADDLE_FREE give_back
#include "knotsaddle.h"

static int passed, failed;

/* The folder of the set at hand; between sets, this program. */
static const char *at_hand = "calls";

static void expect(const char *what, size_t expected, size_t got) {
    if (expected == got) {
        passed++;
        return;
    }
    failed++;
    printf("%s: %s: expected %zu, got %zu\n", at_hand, what, expected, got);
}

static void expect_text(const char *what, const char *expected, const char *got) {
    expect(what, 0, strcmp(expected, got) != 0);
}

/* ---- What the calls are handed */

#define HELLO_AT (KNOTSADDLE_EMPTY_BUNDLE + 5)

static uint8_t bundle[KNOTSADDLE_EMPTY_BUNDLE], out[1000], large[KNOTSADDLE_LARGEST_BUNDLE];
static const uint8_t hello[] = {'h', 'e', 'l', 'l', 'o'};
static knotsaddle_board board;

/* One number more than is needed. */
static uint32_t work[KNOTSADDLE_WORKSPACE + 1];

#define TOO_SHORT (KNOTSADDLE_WORKSPACE - 1)

/* A board that no judgement gives. */
static void hand_board(void) {
    for (size_t m = 0; m < KNOTSADDLE_MARKS; m++) {
        board.kinds[m] = 7;
        board.places[m] = 8;
        board.companions[m] = 9;
    }
}

/* With it an output and a workspace that no call leaves so. */
static void hand_over(void) {
    hand_board();
    memset(out, 9, sizeof out);
    memset(work, 0xff, sizeof work);
}

/* How many marks of the board are not this one. */
static size_t other_marks(uint32_t kind, size_t place, size_t companion) {
    size_t count = 0;
    for (size_t m = 0; m < KNOTSADDLE_MARKS; m++) {
        count += board.kinds[m] != kind || board.places[m] != place || board.companions[m] != companion;
    }
    return count;
}

/* What was written to the board, the output and the workspace, in marks, bytes and numbers. */
static size_t written(void) {
    size_t count = other_marks(7, 8, 9);
    for (size_t i = 0; i < sizeof out; i++) count += out[i] != 9;
    for (size_t i = 0; i <= KNOTSADDLE_WORKSPACE; i++) count += work[i] != 0xffffffff;
    return count;
}

/* ---- The exported calls with lists of wrong lengths; the inline functions never hand over such a list */

#define LISTS(k, p, c) board.kinds, k, board.places, p, board.companions, c
#define CHANGE(present) 19, present, hello, 5

static void wrong_lists(void) {
    size_t size[1] = {77}, place[2] = {5, 6};
    uint32_t present[1] = {3};
    hand_over();
    expect("judge, 80 kinds", 100, knotsaddle_judge(KNOTSADDLE_SCHEDULE, bundle, 164, LISTS(80, 81, 81), work, TOO_SHORT));
    expect("judge, 80 places", 100, knotsaddle_judge(KNOTSADDLE_SCHEDULE, bundle, 164, LISTS(81, 80, 81), work, TOO_SHORT));
    expect("judge, 80 companions", 100,
           knotsaddle_judge(KNOTSADDLE_SCHEDULE, bundle, 0, LISTS(81, 81, 80), work, KNOTSADDLE_WORKSPACE));
    expect("try, 80 kinds", 100,
           knotsaddle_try(KNOTSADDLE_SCHEDULE, bundle, 164, LISTS(80, 81, 81), CHANGE(2), size, 1, work, TOO_SHORT));
    expect("try, 80 places", 100,
           knotsaddle_try(KNOTSADDLE_SCHEDULE, bundle, 164, LISTS(81, 80, 81), CHANGE(2), size, 1, work, TOO_SHORT));
    expect("try, 80 companions", 100,
           knotsaddle_try(KNOTSADDLE_SCHEDULE, bundle, 164, LISTS(81, 81, 80), CHANGE(2), size, 1, work, TOO_SHORT));
    expect("try, no list for the length", 100,
           knotsaddle_try(KNOTSADDLE_SCHEDULE, bundle, 164, LISTS(81, 81, 81), CHANGE(2), size, 0, work, TOO_SHORT));
    expect("make, 80 kinds", 100,
           knotsaddle_make(KNOTSADDLE_SCHEDULE, bundle, 164, LISTS(80, 81, 81), CHANGE(2), out, 1000, size, 1, work, TOO_SHORT));
    expect("make, 80 places", 100,
           knotsaddle_make(KNOTSADDLE_SCHEDULE, bundle, 164, LISTS(81, 80, 81), CHANGE(2), out, 1000, size, 1, work, TOO_SHORT));
    expect("make, 80 companions", 100,
           knotsaddle_make(KNOTSADDLE_SCHEDULE, bundle, 164, LISTS(81, 81, 80), CHANGE(2), out, 1000, size, 1, work, TOO_SHORT));
    expect("make, no list for the length", 100,
           knotsaddle_make(KNOTSADDLE_SCHEDULE, bundle, 164, LISTS(81, 81, 81), CHANGE(2), out, 1000, size, 0, work, TOO_SHORT));
    expect("fresh, 80 kinds", 100, knotsaddle_fresh(KNOTSADDLE_SCHEDULE, LISTS(80, 81, 81)));
    expect("fresh, 80 places", 100, knotsaddle_fresh(KNOTSADDLE_SCHEDULE, LISTS(81, 80, 81)));
    expect("fresh, 80 companions", 100, knotsaddle_fresh(KNOTSADDLE_SCHEDULE, LISTS(81, 81, 80)));
    expect("report, 80 kinds", 0, knotsaddle_report(KNOTSADDLE_SCHEDULE, 0, LISTS(80, 81, 81), out, 1000));
    expect("report, 80 companions", 0, knotsaddle_report(KNOTSADDLE_SCHEDULE, 3, LISTS(81, 81, 80), large, sizeof large));
    expect("report, 80 of each", 0, knotsaddle_report(KNOTSADDLE_SCHEDULE, 0, LISTS(80, 80, 80), large, sizeof large));
    expect("file, a list of 2 for whether it is there", 100,
           knotsaddle_file(KNOTSADDLE_SCHEDULE, bundle, 164, 19, present, 2, place, 2));
    expect("file, a list of 1 for the place", 100,
           knotsaddle_file(KNOTSADDLE_SCHEDULE, bundle, 0, 19, present, 1, place, 1));
    expect("the lengths that they write", 77, size[0]);
    expect("the places that they write", 3 + 5 + 6, present[0] + place[0] + place[1]);
    expect("what else they write", 0, written());
}

/* ---- Refusals, in the order of their tests; nothing is written but the board of a refused judgement */

static void refused_judgements(void) {
    uint8_t other[KNOTSADDLE_EMPTY_BUNDLE];
    memcpy(other, bundle, sizeof other);
    hand_over();
    expect("judge, workspace too short", 14, knotsaddle_judge_in(KNOTSADDLE_SCHEDULE, bundle, 0, &board, work, TOO_SHORT));
    expect("its marks other than 'not judged'", 0, other_marks(KNOTSADDLE_NOT_JUDGED, 0, 0));
    expect("judge, no workspace", 14, knotsaddle_judge_in(KNOTSADDLE_SCHEDULE, bundle, 0, &board, NULL, 0));
    hand_over();
    expect("judge, bundle of 163 bytes", 1,
           knotsaddle_judge_in(KNOTSADDLE_SCHEDULE, bundle, 163, &board, work, KNOTSADDLE_WORKSPACE));
    expect("its marks other than 'not judged'", 0, other_marks(KNOTSADDLE_NOT_JUDGED, 0, 0));
    hand_over();
    expect("judge, null for no bundle", 1,
           knotsaddle_judge_in(KNOTSADDLE_SCHEDULE, NULL, 0, &board, work, KNOTSADDLE_WORKSPACE));
    expect("its marks other than 'not judged'", 0, other_marks(KNOTSADDLE_NOT_JUDGED, 0, 0));
    other[0] = 21;
    expect("judge, count 21", 2, knotsaddle_judge_in(KNOTSADDLE_SCHEDULE, other, 164, &board, work, KNOTSADDLE_WORKSPACE));
    other[0] = 20;
    other[4] = 165;
    expect("judge, an offset off by one", 3,
           knotsaddle_judge_in(KNOTSADDLE_SCHEDULE, other, 164, &board, work, KNOTSADDLE_WORKSPACE));
    hand_board();
    expect("what they write to the output and the workspace", 0, written());
}

static uint32_t try_lent(knotsaddle_change change, size_t *size, size_t lent) {
    return knotsaddle_try_in(bundle, 164, &board, change, size, work, lent);
}

static uint32_t make_lent(knotsaddle_change change, size_t room, size_t *size, size_t lent) {
    return knotsaddle_make_in(bundle, 164, &board, change, out, room, size, work, lent);
}

static void refused_changes(void) {
    size_t size = 77;
    knotsaddle_change well = knotsaddle_put(19, hello, 5), two = well;
    knotsaddle_change past = knotsaddle_put(20, hello, 5), most = knotsaddle_put(3, large, sizeof large);
    two.present = 2;
    hand_over();
    expect("try, neither new bytes nor withdrawal", 101, try_lent(two, &size, TOO_SHORT));
    expect("try, workspace too short", 14, try_lent(past, &size, TOO_SHORT));
    expect("try, no workspace", 14, knotsaddle_try_in(bundle, 164, &board, well, &size, NULL, 0));
    expect("try, no bundle", 1, knotsaddle_try_in(NULL, 0, &board, past, &size, work, KNOTSADDLE_WORKSPACE));
    expect("try, file 20", 4, try_lent(past, &size, KNOTSADDLE_WORKSPACE));
    expect("try, new bundle too long", 6, try_lent(most, &size, KNOTSADDLE_WORKSPACE));
    expect("make, neither new bytes nor withdrawal", 101, make_lent(two, 168, &size, TOO_SHORT));
    expect("make, workspace too short", 14, make_lent(past, 168, &size, TOO_SHORT));
    expect("make, no workspace", 14, knotsaddle_make_in(bundle, 164, &board, well, out, 1000, &size, NULL, 0));
    expect("make, file 20", 4, make_lent(past, 168, &size, KNOTSADDLE_WORKSPACE));
    expect("make, new bundle too long", 6, make_lent(most, 168, &size, KNOTSADDLE_WORKSPACE));
    expect("make, output too short", 5, make_lent(well, 168, &size, KNOTSADDLE_WORKSPACE));
    expect("make, no output", 5,
           knotsaddle_make_in(bundle, 164, &board, well, NULL, 0, &size, work, KNOTSADDLE_WORKSPACE));
    expect("the length that they write", 77, size);
    expect("what else they write", 0, written());
}

static void no_workspace_to_get(void) {
    size_t size = 77;
    hand_over();
    no_memory = 1;
    expect("judge without memory", KNOTSADDLE_NO_MEMORY, knotsaddle_judge_bundle(KNOTSADDLE_SCHEDULE, bundle, 0, &board));
    expect("try without memory", KNOTSADDLE_NO_MEMORY,
           knotsaddle_try_change(bundle, 164, &board, knotsaddle_withdraw(20), &size));
    expect("make without memory", KNOTSADDLE_NO_MEMORY,
           knotsaddle_make_change(bundle, 164, &board, knotsaddle_withdraw(20), out, 1000, &size));
    no_memory = 0;
    expect("the length that they write", 77, size);
    expect("what else they write", 0, written());
}

/* ---- Calls that are not refused */

static void small_cases(void) {
    size_t size = 77, made = 77;
    hand_over();
    expect("judge", 0, knotsaddle_judge_in(KNOTSADDLE_SCHEDULE, bundle, 164, &board, work, KNOTSADDLE_WORKSPACE + 1));
    expect("its mark 0", 21, board.kinds[0]);
    expect("its mark 37", 2, board.kinds[37]);
    expect("its mark 80", 0, board.kinds[80]);
    expect("the number behind the workspace", 0xffffffff, work[KNOTSADDLE_WORKSPACE]);
    hand_over();
    expect("make", 0, make_lent(knotsaddle_put(19, hello, 5), 1000, &made, KNOTSADDLE_WORKSPACE));
    expect("its length", HELLO_AT, made);
    expect("its file", 0, memcmp(out + KNOTSADDLE_EMPTY_BUNDLE, hello, 5) != 0);
    expect("the byte behind it", 9, out[HELLO_AT]);
    expect("its mark 19", 11, board.kinds[19]);
    expect("its mark 64", 2, board.kinds[64]);
    expect("a mark that does not read it", 7 + 8 + 9, board.kinds[20] + board.places[20] + board.companions[20]);
    expect("try", 0, try_lent(knotsaddle_put(19, hello, 5), &size, KNOTSADDLE_WORKSPACE));
    expect("the length that it would have", HELLO_AT, size);
    expect("try, without asking for the length", 0, try_lent(knotsaddle_put(19, hello, 5), NULL, KNOTSADDLE_WORKSPACE));
    expect("make, output just long enough", 0,
           make_lent(knotsaddle_put(19, hello, 5), HELLO_AT, &made, KNOTSADDLE_WORKSPACE));
}

/* A withdrawal has no bytes: null for them, and any bytes that are not to be read. */
static void withdrawals(void) {
    uint8_t filled[HELLO_AT];
    size_t size = 77;
    knotsaddle_change none = knotsaddle_withdraw(19), some = knotsaddle_put(19, hello, 5);
    some.present = 0;
    memcpy(filled, out, sizeof filled);
    expect("withdraw, null for the bytes", 0, knotsaddle_try_change(filled, sizeof filled, &board, none, &size));
    expect("the length that it would have", KNOTSADDLE_EMPTY_BUNDLE, size);
    expect("its mark 19", 0, board.kinds[19]);
    expect("withdraw, with bytes", 0, knotsaddle_make_change(filled, sizeof filled, &board, some, out, 1000, &size));
    expect("its length", KNOTSADDLE_EMPTY_BUNDLE, size);
    expect("what it makes", 0, memcmp(out, bundle, sizeof bundle) != 0);
    expect("a file of no bytes, null for them", 0,
           knotsaddle_make_change(filled, sizeof filled, &board, knotsaddle_put(19, NULL, 0), out, 1000, &size));
    expect("its length", KNOTSADDLE_EMPTY_BUNDLE, size);
    expect("its offset", KNOTSADDLE_EMPTY_BUNDLE, out[4 + 8 * 19]);
    expect("its mark 19", 11, board.kinds[19]);
}

static uint32_t try_resources(const char *text) {
    return knotsaddle_try_change(bundle, 164, &board, knotsaddle_put(16, (const uint8_t *)text, strlen(text)), NULL);
}

/* Two resources with one ID: the second record breaks the key, and the first is its companion. A file's own mark names the
 * record in which the fault stands, or none. */
static void companions(void) {
    static const char twice[] = "[{\"ID\":\"R1\",\"Name\":\"Fitter\",\"ElementOfCostID\":\"LABOR\"},"
                                "{\"ID\":\"r1\",\"Name\":\"Rigger\",\"ElementOfCostID\":\"LABOR\"}]";
    static const char unknown[] = "[{\"ID\":\"R1\",\"Name\":\"Fitter\",\"ElementOfCostID\":\"LABOR\"},{\"id\":1}]";
    static const char absent[] = "[{}]";
    knotsaddle_fresh_board(KNOTSADDLE_SCHEDULE, &board);
    expect("a key twice", 0, try_resources(twice));
    expect("its kind", 1, board.kinds[32]);
    expect("its place", 2, board.places[32]);
    expect("its companion", 1, board.companions[32]);
    expect("an unknown name", 0, try_resources(unknown));
    expect("its kind", 13, board.kinds[16]);
    expect("its place", 56, board.places[16]);
    expect("its companion", 2, board.companions[16]);
    expect("an absent field", 0, try_resources(absent));
    expect("its kind", 19, board.kinds[16]);
    expect("its companion", 0, board.companions[16]);
}

static void asking(void) {
    uint32_t present[1] = {3};
    size_t place[2] = {5, 6}, size = 0;
    knotsaddle_part part = {3, NULL, 6};
    knotsaddle_make_change(bundle, 164, &board, knotsaddle_put(19, hello, 5), out, 1000, &size);
    expect("file 20", 4, knotsaddle_file(KNOTSADDLE_SCHEDULE, out, HELLO_AT, 20, present, 1, place, 2));
    expect("a file of no bundle", 1, knotsaddle_file(KNOTSADDLE_SCHEDULE, out, 163, 19, present, 1, place, 2));
    expect("a file of a bundle that ends early", 3,
           knotsaddle_file(KNOTSADDLE_SCHEDULE, out, HELLO_AT - 1, 19, present, 1, place, 2));
    expect("the places that they write", 3 + 5 + 6, present[0] + place[0] + place[1]);
    expect("file 20 as a part", 4, knotsaddle_file_part(KNOTSADDLE_SCHEDULE, out, HELLO_AT, 20, &part));
    expect("null for no bundle", 1, knotsaddle_file_part(KNOTSADDLE_SCHEDULE, NULL, 0, 19, &part));
    expect("the part that they write", 3 + 6, part.present + part.length);
    expect("a file that is there", 0, knotsaddle_file(KNOTSADDLE_SCHEDULE, out, HELLO_AT, 19, present, 1, place, 2));
    expect("that it is", 1, present[0]);
    expect("its start", KNOTSADDLE_EMPTY_BUNDLE, place[0]);
    expect("its length", 5, place[1]);
    expect("it as a part", 0, knotsaddle_file_part(KNOTSADDLE_SCHEDULE, out, HELLO_AT, 19, &part));
    expect("that it is there", 1, part.present);
    expect("its bytes", 0, part.length != 5 || memcmp(part.bytes, hello, 5) != 0);
    expect("an omitted file", 0, knotsaddle_file(KNOTSADDLE_SCHEDULE, out, HELLO_AT, 18, present, 1, place, 2));
    expect("that it is", 0, present[0]);
    expect("its start and length", 0, place[0] + place[1]);
    expect("it as a part", 0, knotsaddle_file_part(KNOTSADDLE_SCHEDULE, out, HELLO_AT, 18, &part));
    expect("that it is omitted", 0, part.present + part.length);
}

static void empty_bundle(void) {
    uint8_t made[KNOTSADDLE_EMPTY_BUNDLE + 1];
    size_t other = 0;
    memset(made, 9, sizeof made);
    expect("the bundle with no files, room for 163 bytes", 0, knotsaddle_empty(KNOTSADDLE_SCHEDULE, made, 163));
    for (size_t i = 0; i < sizeof made; i++) other += made[i] != 9;
    expect("what is written", 0, other);
    expect("the bundle with no files", KNOTSADDLE_EMPTY_BUNDLE, knotsaddle_empty(KNOTSADDLE_SCHEDULE, made, sizeof made));
    expect("its bytes", 0, memcmp(made, bundle, sizeof bundle) != 0);
    expect("the byte behind it", 9, made[KNOTSADDLE_EMPTY_BUNDLE]);
}

/* The example of docs/BUNDLE.md: `[]` as file 16 and `[{}]` as file 19, 170 bytes. */
static void example_of_the_layout(void) {
    static const uint8_t from_84[] = {0xa4, 0, 0, 0, 2, 0, 0, 0, 0, 0, 0, 0, 0, 0, 0, 0, 0, 0, 0, 0, 0, 0, 0, 0,
                                      0xa6, 0, 0, 0, 4, 0, 0, 0, '[', ']', '[', '{', '}', ']'};
    uint8_t first[KNOTSADDLE_EMPTY_BUNDLE + 2];
    size_t size = 0;
    knotsaddle_fresh_board(KNOTSADDLE_SCHEDULE, &board);
    knotsaddle_make_change(bundle, 164, &board, knotsaddle_put(16, (const uint8_t *)"[]", 2), first, sizeof first, &size);
    knotsaddle_make_change(first, size, &board, knotsaddle_put(19, (const uint8_t *)"[{}]", 4), out, 1000, &size);
    expect("the example's length", 170, size);
    expect("its first bytes", 0, memcmp(out, bundle, 0x84) != 0);
    expect("its last bytes", 0, memcmp(out + 0x84, from_84, sizeof from_84) != 0);
}

static void boards(void) {
    hand_over();
    knotsaddle_fresh_board(KNOTSADDLE_SCHEDULE, &board);
    expect("a fresh board's marks other than 'not judged'", 0, other_marks(KNOTSADDLE_NOT_JUDGED, 0, 0));
    expect("its faults", 81, knotsaddle_faults(board.kinds, 81));
    expect("a fresh board is accepted", 0, (size_t)knotsaddle_is_accepted(&board));
    memset(board.kinds, 0, sizeof board.kinds);
    expect("a board that holds is accepted", 1, (size_t)knotsaddle_is_accepted(&board));
    board.kinds[80] = 1;
    expect("with one fault", 0, (size_t)knotsaddle_is_accepted(&board));
    expect("its faults", 1, knotsaddle_faults(board.kinds, 81));
    expect("faults of no marks", 0, knotsaddle_faults(board.kinds, 0));
}

/* ---- Reasons */

/* A workshift of no calendar and without hours, a name that is none, and two resources with one ID; three files are missing. */
static uint8_t faulty[1000];
static size_t faulty_length;

static void put_faulty(size_t file, const char *text) {
    uint8_t made[1000];
    knotsaddle_change put = knotsaddle_put(file, (const uint8_t *)text, strlen(text));
    expect("a file with faults", 0,
           knotsaddle_make_change(faulty, faulty_length, &board, put, made, sizeof made, &faulty_length));
    memcpy(faulty, made, faulty_length);
}

static const char workshifts[] = "[{\"CalendarID\":\"C1\"}]";
static const char exceptions[] = "[{\"id\":1}]";
static const char resources[] = "[{\"ID\":\"R1\",\"Name\":\"Fitter\",\"ElementOfCostID\":\"LABOR\"},"
                                "{\"ID\":\"r1\",\"Name\":\"Rigger\",\"ElementOfCostID\":\"LABOR\"}]";

/* What the mark's reason is expected to be, with the value as text; its numbers as the exported call gives them, too. */
static void expect_reason(const char *what, size_t mark, knotsaddle_told expected, const char *value) {
    knotsaddle_told told;
    size_t numbers[KNOTSADDLE_TOLD_NUMBERS], length = strlen(value);
    memset(&told, 0xff, sizeof told);
    memset(numbers, 0xff, sizeof numbers);
    expect(what, 0, knotsaddle_reason_of(KNOTSADDLE_SCHEDULE, faulty, faulty_length, mark, &told));
    expect("its answer", expected.answer, told.answer);
    expect("its kind", expected.kind, told.kind);
    expect("its place", expected.place, told.place);
    expect("its companion", expected.companion, told.companion);
    expect("its file", expected.file, told.file);
    expect("its field", expected.field, told.field);
    expect("its value's length", length, told.length);
    expect("its value", 0, told.length != length || memcmp(told.value, value, length) != 0);
    expect("the file searched", expected.searched, told.searched);
    expect("its numbers", 0,
           knotsaddle_reason(KNOTSADDLE_SCHEDULE, faulty, faulty_length, mark, numbers, 9, work, KNOTSADDLE_WORKSPACE));
    expect("those of the mark", 0,
           numbers[0] != told.answer || numbers[1] != told.kind || numbers[2] != told.place || numbers[3] != told.companion);
    expect("those of the field", 0, numbers[4] != told.file || numbers[5] != told.field || numbers[8] != told.searched);
    expect("those of the value", 0, faulty + numbers[6] != told.value || numbers[7] != told.length);
}

/* A reason's mark is the one that the board has. */
static void reasons_and_board(void) {
    size_t other = 0;
    knotsaddle_told told;
    knotsaddle_judge_bundle(KNOTSADDLE_SCHEDULE, faulty, faulty_length, &board);
    for (size_t m = 0; m < KNOTSADDLE_MARKS; m++) {
        memset(&told, 0xff, sizeof told);
        knotsaddle_reason_in(KNOTSADDLE_SCHEDULE, faulty, faulty_length, m, &told, work, KNOTSADDLE_WORKSPACE);
        other += told.kind != board.kinds[m] || told.place != board.places[m] || told.companion != board.companions[m];
    }
    expect("reasons with another mark than the board's", 0, other);
}

static void reasons(void) {
    knotsaddle_told holds = {0}, not_judged = {0}, own_mark = {0}, broken = {0}, missing = {0};
    char name[KNOTSADDLE_NAME_ROOM];
    faulty_length = knotsaddle_empty(KNOTSADDLE_SCHEDULE, faulty, sizeof faulty);
    put_faulty(7, workshifts);
    put_faulty(8, exceptions);
    put_faulty(16, resources);
    expect_reason("a mark that holds", 20, holds, "");
    not_judged.answer = KNOTSADDLE_TOLD_NOT_JUDGED;
    not_judged.kind = KNOTSADDLE_NOT_JUDGED;
    not_judged.file = 1;
    expect_reason("a mark that is not judged", 36, not_judged, "");
    own_mark.answer = KNOTSADDLE_TOLD_OWN_MARK;
    own_mark.kind = 21;
    expect_reason("a missing file", 3, own_mark, "");
    own_mark.kind = 13;
    own_mark.place = 2;
    own_mark.companion = 1;
    expect_reason("an unknown name", 8, own_mark, "");
    broken.answer = KNOTSADDLE_TOLD_BROKEN;
    broken.kind = 1;
    broken.place = 2;
    broken.companion = 1;
    broken.file = 16;
    expect_reason("a key twice", 32, broken, "\"r1\"");
    broken.place = 1;
    broken.companion = 0;
    broken.file = 7;
    broken.field = 2;
    expect_reason("a workshift without hours", 69, broken, "");
    missing.answer = KNOTSADDLE_TOLD_MISSING;
    missing.kind = 1;
    missing.place = 1;
    missing.file = 7;
    missing.searched = 6;
    expect_reason("a missing target", 49, missing, "\"C1\"");
    expect("the name of the deciding field", 15, knotsaddle_name_of_field(KNOTSADDLE_SCHEDULE, 7, 2, name));
    expect_text("its text", "SundayWorkHours", name);
    reasons_and_board();
}

/* Refusals in the order of their tests; nothing is written. */
static void refused_reasons(void) {
    size_t numbers[10], other = 0;
    knotsaddle_told told;
    uint8_t count_21[KNOTSADDLE_EMPTY_BUNDLE];
    memset(numbers, 0xff, sizeof numbers);
    memset(&told, 0xff, sizeof told);
    memcpy(count_21, bundle, sizeof count_21);
    count_21[0] = 21;
    hand_over();
    expect("reason, 8 numbers", 100, knotsaddle_reason(KNOTSADDLE_SCHEDULE, bundle, 0, 81, numbers, 8, work, TOO_SHORT));
    expect("reason, 10 numbers", 100,
           knotsaddle_reason(KNOTSADDLE_SCHEDULE, bundle, 164, 0, numbers, 10, work, KNOTSADDLE_WORKSPACE));
    expect("reason, workspace too short", 14,
           knotsaddle_reason(KNOTSADDLE_SCHEDULE, bundle, 0, 81, numbers, 9, work, TOO_SHORT));
    expect("reason, no workspace", 14, knotsaddle_reason_in(KNOTSADDLE_SCHEDULE, bundle, 164, 0, &told, NULL, 0));
    expect("reason, null for no bundle", 1,
           knotsaddle_reason_in(KNOTSADDLE_SCHEDULE, NULL, 0, 81, &told, work, KNOTSADDLE_WORKSPACE));
    expect("reason, count 21", 2,
           knotsaddle_reason_in(KNOTSADDLE_SCHEDULE, count_21, 164, 81, &told, work, KNOTSADDLE_WORKSPACE));
    expect("reason, a bundle that is too long", 3,
           knotsaddle_reason_in(KNOTSADDLE_SCHEDULE, faulty, faulty_length + 1, 81, &told, work, KNOTSADDLE_WORKSPACE));
    expect("reason, mark 81", 7,
           knotsaddle_reason(KNOTSADDLE_SCHEDULE, bundle, 164, 81, numbers, 9, work, KNOTSADDLE_WORKSPACE));
    expect("reason, mark 81 by itself", 7, knotsaddle_reason_of(KNOTSADDLE_SCHEDULE, bundle, 164, 81, &told));
    no_memory = 1;
    expect("reason without memory", KNOTSADDLE_NO_MEMORY, knotsaddle_reason_of(KNOTSADDLE_SCHEDULE, bundle, 164, 0, &told));
    no_memory = 0;
    for (size_t i = 0; i < 10; i++) other += numbers[i] != SIZE_MAX;
    expect("the numbers that they write", 0, other);
    expect("the reason that they write", 0,
           told.answer != UINT32_MAX || told.place != SIZE_MAX || told.searched != SIZE_MAX);
    expect("what else they write", 0, written());
}

/* ---- Texts */

static void reports(void) {
    char text[KNOTSADDLE_REPORT_ROOM];
    static const char omitted[] =
        "marks 81\n0 21 0 0\n1 21 0 0\n3 21 0 0\n36 2 0 0\n37 2 0 0\n65 2 0 0\n66 2 0 0\nrefused 7\n";
    memset(text, 9, sizeof text);
    expect("report, room for one byte less", 0,
           knotsaddle_report(KNOTSADDLE_SCHEDULE, 3, LISTS(81, 81, 81), (uint8_t *)text, 6143));
    expect("what is written", 9, (size_t)text[0]);
    expect("report of a refusal", 9,
           knotsaddle_report(KNOTSADDLE_SCHEDULE, 3, LISTS(81, 81, 81), (uint8_t *)text, 6144));
    expect("the byte behind it", 9, (size_t)text[9]);
    expect("report of a refusal as a text", 9, knotsaddle_report_text(3, &board, text));
    expect_text("its text", "bundle 3\n", text);
    knotsaddle_judge_bundle(KNOTSADDLE_SCHEDULE, bundle, 164, &board);
    expect("report of a board", strlen(omitted), knotsaddle_report_text(0, &board, text));
    expect_text("its text", omitted, text);
    for (size_t m = 0; m < KNOTSADDLE_MARKS; m++) {
        board.kinds[m] = UINT32_MAX;
        board.places[m] = board.companions[m] = SIZE_MAX;
    }
    expect("the longest report", 4546, knotsaddle_report_text(0, &board, text));
}

static void names(void) {
    char name[KNOTSADDLE_NAME_ROOM];
    size_t longest = 0;
    memset(name, 9, sizeof name);
    expect("the name of file 9 without room", 0, knotsaddle_file_name(KNOTSADDLE_SCHEDULE, 9, (uint8_t *)name, 9));
    expect("what is written", 9, (size_t)name[0]);
    expect("the name of file 9", 10, knotsaddle_file_name(KNOTSADDLE_SCHEDULE, 9, (uint8_t *)name, 10));
    expect("the byte behind it", 9, (size_t)name[10]);
    expect("the name of file 9 as a text", 10, knotsaddle_name_of_file(KNOTSADDLE_SCHEDULE, 9, name));
    expect_text("its text", "Tasks.json", name);
    for (size_t file = 0; file < KNOTSADDLE_FILES; file++) {
        size_t length = knotsaddle_name_of_file(KNOTSADDLE_SCHEDULE, file, name);
        expect("a file without a name", 0, length == 0);
        if (length > longest) longest = length;
    }
    expect("the longest name and its zero byte", KNOTSADDLE_NAME_ROOM, longest + 1);
    expect("the name of file 20", 0, knotsaddle_name_of_file(KNOTSADDLE_SCHEDULE, 20, name));
    expect_text("its text", "", name);
}

static void field_names(void) {
    char name[KNOTSADDLE_NAME_ROOM];
    size_t fields = 0, longest = 0, length;
    memset(name, 9, sizeof name);
    expect("the name of a field without room", 0, knotsaddle_field_name(KNOTSADDLE_SCHEDULE, 9, 0, (uint8_t *)name, 1));
    expect("a field that is none", 0, knotsaddle_field_name(KNOTSADDLE_SCHEDULE, 6, 3, (uint8_t *)name, sizeof name));
    expect("a field of no table", 0, knotsaddle_field_name(KNOTSADDLE_SCHEDULE, 0, 0, (uint8_t *)name, sizeof name));
    expect("a field of file 20", 0, knotsaddle_field_name(KNOTSADDLE_SCHEDULE, 20, 0, (uint8_t *)name, sizeof name));
    expect("a field far out", 0,
           knotsaddle_field_name(KNOTSADDLE_SCHEDULE, SIZE_MAX, SIZE_MAX, (uint8_t *)name, sizeof name));
    expect("what is written", 9, (size_t)name[0]);
    expect("the name of a field", 2, knotsaddle_field_name(KNOTSADDLE_SCHEDULE, 9, 0, (uint8_t *)name, 2));
    expect("the byte behind it", 9, (size_t)name[2]);
    for (size_t file = 0; file < KNOTSADDLE_FILES; file++) {
        for (size_t field = 0; (length = knotsaddle_name_of_field(KNOTSADDLE_SCHEDULE, file, field, name)) != 0; field++) {
            fields++;
            if (length > longest) longest = length;
        }
    }
    expect("fields with a name", 136, fields);
    expect("the longest name", 27, longest);
    expect("the last field's name", 23, knotsaddle_name_of_field(KNOTSADDLE_SCHEDULE, 19, 8, name));
    expect_text("its text", "PhysicalPercentComplete", name);
}

static void words(void) {
    static const uint32_t refusals[] = {1, 2, 3, 4, 5, 6, 7, 9, 14, 100, 101, 102, 103};
    expect_text("mark 0 is about", "FileType.txt: the file itself", knotsaddle_about_mark(KNOTSADDLE_SCHEDULE, 0));
    expect_text("mark 32 is about", "Resources: no two records with the same ID", knotsaddle_about_mark(KNOTSADDLE_SCHEDULE, 32));
    expect_text("mark 80 is about", "TaskOutlineStructure: the parent is a SUMMARY task in Tasks",
                knotsaddle_about_mark(KNOTSADDLE_SCHEDULE, 80));
    expect_text("mark 81 is about", "", knotsaddle_about_mark(KNOTSADDLE_SCHEDULE, 81));
    for (size_t i = 0; i < sizeof refusals / sizeof refusals[0]; i++) {
        expect("a refusal without words", 0, strlen(knotsaddle_in_words(refusals[i])) == 0);
    }
    expect_text("4 in words", "the file number is over 19, on the contract side over 3", knotsaddle_in_words(4));
    expect_text("0 in words", "", knotsaddle_in_words(0));
    expect_text("99 in words", "", knotsaddle_in_words(99));
}

/* ---- The baseline profile, and a number that is no gate's */

static void no_gate(void) {
    size_t size[1] = {77}, place[2] = {5, 6}, numbers[9] = {0};
    uint32_t present[1] = {3};
    knotsaddle_board other = {0};
    hand_over();
    expect("judge, gate 3", 103, knotsaddle_judge(3, bundle, 0, LISTS(80, 80, 80), work, 0));
    expect("try, gate 3", 103, knotsaddle_try(3, bundle, 0, LISTS(80, 80, 80), CHANGE(2), size, 0, work, 0));
    expect("make, gate 3", 103, knotsaddle_make(3, bundle, 0, LISTS(80, 80, 80), CHANGE(2), out, 0, size, 0, work, 0));
    expect("reason, gate 3", 103, knotsaddle_reason(3, bundle, 0, 99, numbers, 8, work, 0));
    expect("file, gate 3", 103, knotsaddle_file(3, bundle, 0, 99, present, 2, place, 1));
    expect("fresh, gate 3", 103, knotsaddle_fresh(3, LISTS(81, 81, 81)));
    expect("report, gate 3", 0, knotsaddle_report(3, 0, LISTS(81, 81, 81), out, 1000));
    expect("the bundle with no files, gate 3", 0, knotsaddle_empty(3, out, 1000));
    expect("the name of a file, gate 3", 0, knotsaddle_file_name(UINT32_MAX, 9, out, 1000));
    expect("the name of a field, gate 3", 0, knotsaddle_field_name(3, 9, 0, out, 1000));
    expect("the lengths and places that they write", 77 + 3 + 5 + 6, size[0] + present[0] + place[0] + place[1]);
    expect("what else they write", 0, written());
    expect("judge into a board, gate 3", 103, knotsaddle_judge_bundle(3, bundle, 164, &other));
    expect("that board is accepted", 0, (size_t)knotsaddle_is_accepted(&other));
    expect("try from it", 103, knotsaddle_try_change(bundle, 164, &other, knotsaddle_withdraw(3), NULL));
    expect_text("mark 0 of no gate is about", "", knotsaddle_about_mark(3, 0));
    expect("the marks of no gate", 0, knotsaddle_marks_of(3));
}

/* An assignment with hours, 0 of them, breaks the profile's mark 84 alone, and no mark of document 01's gate. */
static void baseline(void) {
    static const char booked[] = "[{\"ResourceID\":\"R\",\"TaskID\":\"T\",\"Actual_ToDate_Hours\":0}]";
    static uint8_t made[1000];
    char text[KNOTSADDLE_REPORT_ROOM];
    size_t size = 0, others_differ = 0;
    knotsaddle_board profile, plain;
    knotsaddle_told told;
    knotsaddle_change put = knotsaddle_put(19, (const uint8_t *)booked, strlen(booked));
    expect("81 marks for the profile", 100,
           knotsaddle_judge(KNOTSADDLE_BASELINE, bundle, 164, LISTS(81, 81, 81), work, KNOTSADDLE_WORKSPACE));
    expect("85 marks for the profile", 0,
           knotsaddle_judge(KNOTSADDLE_BASELINE, bundle, 164, LISTS(85, 85, 85), work, KNOTSADDLE_WORKSPACE));
    expect("85 marks for document 01's gate", 100,
           knotsaddle_judge(KNOTSADDLE_SCHEDULE, bundle, 164, LISTS(85, 85, 85), work, KNOTSADDLE_WORKSPACE));
    expect("judge, by the profile", 0, knotsaddle_judge_bundle(KNOTSADDLE_BASELINE, bundle, 164, &profile));
    expect("make, by the profile", 0, knotsaddle_make_change(bundle, 164, &profile, put, made, sizeof made, &size));
    expect("its mark 84", 1, profile.kinds[84]);
    expect("the record of it", 1, profile.places[84]);
    expect("its mark 81", 0, profile.kinds[81]);
    expect("judge, by document 01's gate", 0, knotsaddle_judge_bundle(KNOTSADDLE_SCHEDULE, made, size, &plain));
    for (size_t m = 0; m < KNOTSADDLE_MARKS; m++) {
        others_differ += profile.kinds[m] != plain.kinds[m] || profile.places[m] != plain.places[m] ||
                         profile.companions[m] != plain.companions[m];
    }
    expect("marks 0 to 80 that differ", 0, others_differ);
    expect("the reason of mark 84", 0, knotsaddle_reason_of(KNOTSADDLE_BASELINE, made, size, 84, &told));
    expect("its answer", KNOTSADDLE_TOLD_BROKEN, told.answer);
    expect("its value", 0, told.length != 1 || *told.value != '0');
    expect("the name of its field", 19, knotsaddle_name_of_field(KNOTSADDLE_BASELINE, told.file, told.field, text));
    expect_text("its text", "Actual_ToDate_Hours", text);
    expect("the reason of mark 85", 7, knotsaddle_reason_of(KNOTSADDLE_BASELINE, made, size, 85, &told));
    expect("the reason of mark 84, by document 01's gate", 7, knotsaddle_reason_of(KNOTSADDLE_SCHEDULE, made, size, 84, &told));
    expect("report, by the profile", 0, strncmp("marks 85\n", (knotsaddle_report_text(0, &profile, text), text), 9) != 0);
    expect("report, room for one byte less", 0,
           knotsaddle_report(KNOTSADDLE_BASELINE, 3, LISTS(85, 85, 85), large, KNOTSADDLE_REPORT_ROOM - 1));
    expect("the profile's board is accepted", 0, (size_t)knotsaddle_is_accepted(&profile));
    memset(profile.kinds, 0, sizeof profile.kinds);
    expect("one that holds", 1, (size_t)knotsaddle_is_accepted(&profile));
    profile.kinds[84] = 1;
    expect("with one fault", 0, (size_t)knotsaddle_is_accepted(&profile));
    knotsaddle_fresh_board(KNOTSADDLE_BASELINE, &profile);
    expect("a fresh board's faults", 85, knotsaddle_faults(profile.kinds, 85));
    for (size_t m = 0; m < KNOTSADDLE_BASELINE_MARKS; m++) {
        profile.kinds[m] = UINT32_MAX;
        profile.places[m] = profile.companions[m] = SIZE_MAX;
    }
    expect("the longest report", 4770, knotsaddle_report_text(0, &profile, text));
    expect_text("mark 84 is about", "ResourceAssignments, by the baseline profile: no actual dollars or hours are given",
                knotsaddle_about_mark(KNOTSADDLE_BASELINE, 84));
    expect_text("mark 85 is about", "", knotsaddle_about_mark(KNOTSADDLE_BASELINE, 85));
}

/* ---- The contract side: a bundle of four files, 19 marks. A control account of a WBS that is not there breaks mark 11. */

static void contract_side(void) {
    static const char account[] = "[{\"ID\":\"C\",\"Name\":\"n\",\"WBSElementID\":\"W\",\"OBSElementID\":\"O\"}]";
    static uint8_t none[KNOTSADDLE_CONTRACT_EMPTY_BUNDLE + 1], made[1000];
    char text[KNOTSADDLE_REPORT_ROOM];
    size_t size = 0;
    knotsaddle_board side;
    knotsaddle_told told;
    knotsaddle_part part;
    knotsaddle_change put = knotsaddle_put(3, (const uint8_t *)account, strlen(account));
    expect("the contract side's bundle with no files, no room", 0, knotsaddle_empty(KNOTSADDLE_CONTRACT, none, 35));
    expect("the contract side's bundle with no files", 36, knotsaddle_empty(KNOTSADDLE_CONTRACT, none, 37));
    expect("its count", 4, none[0]);
    expect("18 marks for the contract side", 100,
           knotsaddle_judge(KNOTSADDLE_CONTRACT, none, 36, LISTS(18, 19, 19), work, KNOTSADDLE_WORKSPACE));
    expect("a workspace of one number less", 14, knotsaddle_judge(KNOTSADDLE_CONTRACT, none, 36, LISTS(19, 19, 19), work,
                                                                  KNOTSADDLE_CONTRACT_WORKSPACE - 1));
    expect("a workspace that is just enough", 0,
           knotsaddle_judge(KNOTSADDLE_CONTRACT, none, 36, LISTS(19, 19, 19), work, KNOTSADDLE_CONTRACT_WORKSPACE));
    expect("a bundle of document 01's gate", 2, knotsaddle_judge_bundle(KNOTSADDLE_CONTRACT, bundle, 164, &side));
    expect("a bundle of 35 bytes", 1, knotsaddle_judge_bundle(KNOTSADDLE_CONTRACT, none, 35, &side));
    expect("no files", 0, knotsaddle_judge_bundle(KNOTSADDLE_CONTRACT, none, 36, &side));
    expect("they are accepted", 1, (size_t)knotsaddle_is_accepted(&side));
    expect("try, file 4", 4, knotsaddle_try_change(none, 36, &side, knotsaddle_withdraw(4), NULL));
    expect("make", 0, knotsaddle_make_change(none, 36, &side, put, made, sizeof made, &size));
    expect("its length", 36 + strlen(account), size);
    expect("its report", 0,
           strcmp("marks 19\n11 1 1 0\n12 1 1 0\nrefused 2\n",
                  (knotsaddle_report_text(0, &side, text), text)) != 0);
    expect("its file 3", 0, knotsaddle_file_part(KNOTSADDLE_CONTRACT, made, size, 3, &part));
    expect("where it starts", 36, (size_t)(part.bytes - made));
    expect("file 4", 4, knotsaddle_file_part(KNOTSADDLE_CONTRACT, made, size, 4, &part));
    expect("the reason of mark 11", 0, knotsaddle_reason_of(KNOTSADDLE_CONTRACT, made, size, 11, &told));
    expect("its answer", KNOTSADDLE_TOLD_MISSING, told.answer);
    expect("its value", 0, told.length != 3 || memcmp(told.value, "\"W\"", 3) != 0);
    expect("the file searched", 1, told.searched);
    expect("the name of its field", 12, knotsaddle_name_of_field(KNOTSADDLE_CONTRACT, told.file, told.field, text));
    expect_text("its text", "WBSElementID", text);
    expect("the reason of mark 19", 7, knotsaddle_reason_of(KNOTSADDLE_CONTRACT, made, size, 19, &told));
    expect("the name of file 3", 20, knotsaddle_name_of_file(KNOTSADDLE_CONTRACT, 3, text));
    expect_text("its text", "ControlAccounts.json", text);
    expect("the name of file 4", 0, knotsaddle_name_of_file(KNOTSADDLE_CONTRACT, 4, text));
    expect_text("mark 18 is about", "ControlAccounts: the OBS element has no children",
                knotsaddle_about_mark(KNOTSADDLE_CONTRACT, 18));
    expect_text("mark 19 is about", "", knotsaddle_about_mark(KNOTSADDLE_CONTRACT, 19));
}

/* ---- Whole sets, on a small stack: by the calls that get a workspace, and by those that are lent one */

#define ROOM 131072

/* What a call answers and leaves. */
struct left {
    knotsaddle_board board;
    size_t size;
    uint32_t answer;
    uint8_t out[ROOM];
};

/* By the call that gets a workspace, and by the one that is lent one. */
static struct left own, lent;

/* What both are handed. */
static uint8_t set[ROOM], new_bytes[ROOM];
static size_t set_length;
static knotsaddle_change change;

static void judge(void) {
    own.answer = knotsaddle_judge_bundle(KNOTSADDLE_SCHEDULE, set, set_length, &own.board);
}

static void judge_in(void) {
    lent.answer = knotsaddle_judge_in(KNOTSADDLE_SCHEDULE, set, set_length, &lent.board, work, KNOTSADDLE_WORKSPACE);
}

static void try(void) {
    own.answer = knotsaddle_try_change(set, set_length, &own.board, change, &own.size);
}

static void try_in(void) {
    lent.answer = knotsaddle_try_in(set, set_length, &lent.board, change, &lent.size, work, KNOTSADDLE_WORKSPACE);
}

static void make(void) {
    own.answer = knotsaddle_make_change(set, set_length, &own.board, change, own.out, ROOM, &own.size);
}

static void make_in(void) {
    lent.answer = knotsaddle_make_in(set, set_length, &lent.board, change, lent.out, ROOM, &lent.size, work,
                                     KNOTSADDLE_WORKSPACE);
}

/* The reason of every mark. */
static void tell(void) {
    knotsaddle_told told;
    for (size_t m = 0; m < KNOTSADDLE_MARKS; m++) knotsaddle_reason_of(KNOTSADDLE_SCHEDULE, set, set_length, m, &told);
}

static void tell_in(void) {
    knotsaddle_told told;
    for (size_t m = 0; m < KNOTSADDLE_MARKS; m++) {
        knotsaddle_reason_in(KNOTSADDLE_SCHEDULE, set, set_length, m, &told, work, KNOTSADDLE_WORKSPACE);
    }
}

static void name_field(void) {
    knotsaddle_field_name(KNOTSADDLE_SCHEDULE, 19, 8, own.out, ROOM);
}

/* The small calls, one after the other. */
static void others(void) {
    char text[1];
    uint32_t present[1];
    size_t place[2];
    knotsaddle_fresh_board(KNOTSADDLE_SCHEDULE, &own.board);
    knotsaddle_report(KNOTSADDLE_SCHEDULE, 0, own.board.kinds, KNOTSADDLE_MARKS, own.board.places, KNOTSADDLE_MARKS,
                      own.board.companions, KNOTSADDLE_MARKS, own.out, ROOM);
    knotsaddle_faults(own.board.kinds, KNOTSADDLE_MARKS);
    knotsaddle_file(KNOTSADDLE_SCHEDULE, set, set_length, 9, present, 1, place, 2);
    knotsaddle_empty(KNOTSADDLE_SCHEDULE, own.out, ROOM);
    knotsaddle_file_name(KNOTSADDLE_SCHEDULE, 9, own.out, ROOM);
    knotsaddle_file_name(KNOTSADDLE_SCHEDULE, 9, (uint8_t *)text, 1);
}

/* The most bytes that each call wrote on its stack. */
static size_t judge_stack, try_stack, make_stack, tell_stack, field_stack, others_stack;

/* Makes a call on a painted stack of its own and sees how far down the paint is gone. The functions of the C library that
 * the call uses were called before, by the small cases: the first call of such a function goes through the loader, which
 * would count here. */
static void on_small_stack(void (*call)(void), size_t *most) {
    static uint8_t stack[262144];
    static ucontext_t here, there;
    size_t left = 0;
    memset(stack, 0xa5, sizeof stack);
    getcontext(&there);
    there.uc_stack.ss_sp = stack;
    there.uc_stack.ss_size = sizeof stack;
    there.uc_link = &here;
    makecontext(&there, call, 0);
    swapcontext(&here, &there);
    while (left < sizeof stack && stack[left] == 0xa5) left++;
    if (sizeof stack - left > *most) *most = sizeof stack - left;
}

static int same_board(const knotsaddle_board *a, const knotsaddle_board *b) {
    return memcmp(a->kinds, b->kinds, sizeof a->kinds) == 0 && memcmp(a->places, b->places, sizeof a->places) == 0 &&
           memcmp(a->companions, b->companions, sizeof a->companions) == 0;
}

/* Makes a call from what `own` holds, and the lent one from the same: 1 if they answer or leave different things, else 0. */
static size_t differs(void (*call)(void), void (*call_in)(void), size_t *most) {
    lent = own;
    on_small_stack(call, most);
    on_small_stack(call_in, most);
    return !(own.answer == lent.answer && own.size == lent.size && same_board(&own.board, &lent.board) &&
             memcmp(own.out, lent.out, ROOM) == 0);
}

/* Reads a file of a set as the next change: 1, or 0 if there is none. */
static int read_file(const char *folder, size_t file) {
    char path[4096], name[KNOTSADDLE_NAME_ROOM];
    knotsaddle_name_of_file(KNOTSADDLE_SCHEDULE, file, name);
    snprintf(path, sizeof path, "%s/%s", folder, name);
    FILE *from = fopen(path, "rb");
    if (from == NULL) return 0;
    change = knotsaddle_put(file, new_bytes, fread(new_bytes, 1, sizeof new_bytes, from));
    fclose(from);
    return 1;
}

/* Puts the files of a set one by one into the bundle that has none, each tried and then made, and judges the result. */
static void whole_set(const char *folder) {
    static struct left before;
    size_t files = 0, tries = 0, makes = 0, lengths = 0, parts = 0;
    knotsaddle_part part;
    at_hand = folder;
    memset(work, 0xff, sizeof work);
    set_length = knotsaddle_empty(KNOTSADDLE_SCHEDULE, set, ROOM);
    expect("the bundle of no files judged otherwise", 0, differs(judge, judge_in, &judge_stack));
    for (size_t file = 0; file < KNOTSADDLE_FILES; file++) {
        if (!read_file(folder, file)) continue;
        files++;
        before = own;
        tries += differs(try, try_in, &try_stack);
        before.size = own.size;
        own = before;
        makes += differs(make, make_in, &make_stack);
        if (own.answer != 0) break;
        lengths += own.size != before.size;
        memcpy(set, own.out, own.size);
        set_length = own.size;
        parts += knotsaddle_file_part(KNOTSADDLE_SCHEDULE, set, set_length, file, &part) != 0 || part.present != 1 ||
                 part.length != change.length || memcmp(part.bytes, new_bytes, part.length) != 0;
    }
    expect("no file", 0, files == 0);
    expect("the last change", 0, own.answer);
    expect("tries that differ", 0, tries);
    expect("changes that differ", 0, makes);
    expect("lengths other than the tried ones", 0, lengths);
    expect("files that do not come back", 0, parts);
    before = own;
    expect("judged otherwise in a workspace used before", 0, differs(judge, judge_in, &judge_stack));
    expect("the changes' board other than the judgement's", 0, !same_board(&own.board, &before.board));
    memset(work, 0xff, sizeof work);
    expect("judged otherwise in a filled workspace", 0, differs(judge, judge_in, &judge_stack));
    on_small_stack(tell, &tell_stack);
    on_small_stack(tell_in, &tell_stack);
    on_small_stack(name_field, &field_stack);
    on_small_stack(others, &others_stack);
    at_hand = "calls";
}

static void stack_used(const char *calls, size_t most, size_t limit) {
    printf("%s wrote on %zu bytes of the stack\n", calls, most);
    expect("as much as the header says, or more", 0, most >= limit);
}

int main(int argc, char **argv) {
    bundle[0] = 20;
    wrong_lists();
    refused_judgements();
    refused_changes();
    no_workspace_to_get();
    small_cases();
    withdrawals();
    companions();
    asking();
    empty_bundle();
    example_of_the_layout();
    boards();
    reasons();
    refused_reasons();
    reports();
    names();
    field_names();
    words();
    no_gate();
    baseline();
    contract_side();
    for (int i = 1; i < argc; i++) whole_set(argv[i]);
    if (argc > 1) {
        stack_used("judging", judge_stack, KNOTSADDLE_STACK);
        stack_used("trying", try_stack, KNOTSADDLE_STACK);
        stack_used("making", make_stack, KNOTSADDLE_STACK);
        stack_used("telling a reason", tell_stack, KNOTSADDLE_STACK);
        stack_used("the name of a field", field_stack, 8192);
        stack_used("the other calls", others_stack, 2048);
    }
    expect("workspaces that were not given back", 0, (size_t)out_on_loan);
    printf("%d passed, %d failed\n", passed, failed);
    return failed != 0;
}
