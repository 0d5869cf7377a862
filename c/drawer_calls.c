/* Makes every call of the drawer with right and with wrong arguments and checks each answer: a test, and a list of what a caller meets.
 * It is called without arguments. Prints a line for each answer that is not the expected one, and then how many answers there were of
 * each. */
#include <stdio.h>
#include <stdlib.h>
#include <string.h>

/* The memory of the calls that get a workspace: it can be made to fail, and is counted. */
static int no_memory, out_on_loan;

static void *get(size_t size) {
    if (no_memory) return NULL;
    out_on_loan++;
    return malloc(size);
}

static void give_back(void *memory) {
    out_on_loan--;
    free(memory);
}

#define KNOTSADDLE_MALLOC get
#define KNOTSADDLE_FREE give_back
#include "knotsaddle_drawer.h"

static int passed, failed;

static void expect(const char *what, size_t expected, size_t got) {
    if (expected == got) {
        passed++;
        return;
    }
    failed++;
    printf("%s: expected %zu, got %zu\n", what, expected, got);
}

/* ---- What the calls are handed: a drawer with room for 16 bytes, a board and a workspace that no call leaves so */

#define EMPTY KNOTSADDLE_EMPTY_BUNDLE
#define SIZE (EMPTY + 16)
#define TOO_SHORT (KNOTSADDLE_WORKSPACE - 1)

static uint8_t drawer[SIZE], expected[SIZE], bundle[2 * SIZE], out[2 * SIZE], large[KNOTSADDLE_LARGEST_BUNDLE + 1];
static uint32_t work[KNOTSADDLE_WORKSPACE];
static knotsaddle_board board;

static void put_word(uint8_t *at, size_t x) {
    for (int i = 0; i < 4; i++) at[i] = (uint8_t)(x >> 8 * i);
}

/* What the header says of a file, and the file's bytes there. */
static void say(uint8_t *bytes, size_t file, size_t offset, size_t length) {
    put_word(bytes + 4 + 8 * file, offset);
    put_word(bytes + 8 + 8 * file, length);
}

static void lay(uint8_t *bytes, size_t file, size_t offset, const char *text) {
    say(bytes, file, offset, strlen(text));
    memcpy(bytes + offset, text, strlen(text));
}

static void hand_board(void) {
    board.gate = KNOTSADDLE_SCHEDULE;
    for (size_t m = 0; m < KNOTSADDLE_MARKS; m++) {
        board.kinds[m] = 9;
        board.places[m] = 9;
        board.companions[m] = 9;
    }
}

/* A drawer without files, every byte of its room a 7, and all else as no call leaves it. */
static void hand_over(void) {
    memset(drawer, 7, SIZE);
    memset(drawer, 0, EMPTY);
    put_word(drawer, KNOTSADDLE_FILES);
    hand_board();
    memset(out, 9, sizeof out);
    memset(work, 0xff, sizeof work);
}

/* Files 8 and 9 with four free bytes before, between and behind them. */
static void hand_two(void) {
    hand_over();
    lay(drawer, 8, EMPTY + 4, "[]");
    lay(drawer, 9, EMPTY + 10, "[]");
    memcpy(expected, drawer, SIZE);
}

/* How many marks are not as they were handed in, and how many are 'not judged'. */
static size_t judged(void) {
    size_t count = 0;
    for (size_t m = 0; m < KNOTSADDLE_MARKS; m++) {
        count += board.kinds[m] != 9 || board.places[m] != 9 || board.companions[m] != 9;
    }
    return count;
}

static size_t not_judged(void) {
    size_t count = 0;
    for (size_t m = 0; m < KNOTSADDLE_MARKS; m++) {
        count += board.kinds[m] == KNOTSADDLE_NOT_JUDGED && board.places[m] == 0 && board.companions[m] == 0;
    }
    return count;
}

static size_t faults(void) {
    size_t count = 0;
    for (size_t m = 0; m < KNOTSADDLE_MARKS; m++) count += board.kinds[m] != 0;
    return count;
}

/* How many bytes of the drawer are not as expected. */
static size_t otherwise(void) {
    size_t count = 0;
    for (size_t i = 0; i < SIZE; i++) count += drawer[i] != expected[i];
    return count;
}

static size_t written(void) {
    size_t count = 0;
    for (size_t i = 0; i < sizeof out; i++) count += out[i] != 9;
    return count;
}

static size_t worked(void) {
    size_t count = 0;
    for (size_t i = 0; i < KNOTSADDLE_WORKSPACE; i++) count += work[i] != 0xffffffff;
    return count;
}

/* Whether the board is that of a full judgement of the drawer. */
static int is_right(void) {
    knotsaddle_board full;
    if (knotsaddle_drawer_judge_files(drawer, SIZE, &full) != 0) return 0;
    return memcmp(board.kinds, full.kinds, KNOTSADDLE_MARKS * sizeof board.kinds[0]) == 0 &&
           memcmp(board.places, full.places, KNOTSADDLE_MARKS * sizeof board.places[0]) == 0 &&
           memcmp(board.companions, full.companions, KNOTSADDLE_MARKS * sizeof board.companions[0]) == 0;
}

/* ---- A drawer that is refused, by each number, and handed to every call */

static void wrong_drawer(uint32_t number) {
    hand_two();
    if (number == 2) drawer[0] = 21;
    if (number == 3) say(drawer, 9, EMPTY + 5, 2);
    memcpy(expected, drawer, SIZE);
}

/* Of the length that is handed over: a byte too few where the drawer is to be refused as 1. */
static size_t length_for(uint32_t number) { return number == 1 ? EMPTY - 1 : SIZE; }

static void refuses(uint32_t number) {
    size_t size = 77, length = length_for(number);
    knotsaddle_part part = {77, NULL, 77};
    knotsaddle_change change = knotsaddle_put(20, large, SIZE + 1);
    wrong_drawer(number);
    expect("a judgement", number, knotsaddle_drawer_judge_in(drawer, length, &board, work, KNOTSADDLE_WORKSPACE));
    expect("makes every mark 'not judged'", KNOTSADDLE_MARKS, not_judged());
    hand_board();
    expect("a judgement in a workspace of its own", number, knotsaddle_drawer_judge_files(drawer, length, &board));
    expect("does so too", KNOTSADDLE_MARKS, not_judged());
    hand_board();
    expect("a file asked for", number, knotsaddle_drawer_file_part(drawer, length, 20, &part));
    expect("is as it was", 77 + 77, part.present + part.length);
    expect("a try", number, knotsaddle_drawer_try_in(drawer, length, &board, change, work, KNOTSADDLE_WORKSPACE));
    expect("a change", number, knotsaddle_drawer_make_in(drawer, length, &board, change, work, KNOTSADDLE_WORKSPACE));
    expect("leave the board", 0, judged());
    expect("a bundle taken out", number, knotsaddle_drawer_take_bundle(drawer, length, out, 0, &size));
    expect("its length is as it was", 77, size);
    expect("nothing is written", 0, otherwise() + written() + worked());
}

static void refusing(void) {
    size_t size = 77;
    knotsaddle_part part = {77, NULL, 77};
    for (uint32_t number = 1; number <= 3; number++) refuses(number);
    expect("no drawer judged", 1, knotsaddle_drawer_judge_files(NULL, 0, &board));
    expect("asked for a file", 1, knotsaddle_drawer_file_part(NULL, 0, 0, &part));
    expect("tried", 1, knotsaddle_drawer_try_change(NULL, 0, &board, knotsaddle_withdraw(0)));
    expect("changed", 1, knotsaddle_drawer_make_change(NULL, 0, &board, knotsaddle_withdraw(0)));
    expect("taken out", 1, knotsaddle_drawer_take_bundle(NULL, 0, NULL, 0, &size));
    expect("no drawer to put into, after the bundle", 1, knotsaddle_drawer_put_bundle(NULL, 0, NULL, 0));

    put_word(large, KNOTSADDLE_FILES);
    expect("the largest drawer", 0, knotsaddle_drawer_judge_files(large, KNOTSADDLE_LARGEST_BUNDLE, &board));
    expect("a byte more", 1, knotsaddle_drawer_judge_files(large, KNOTSADDLE_LARGEST_BUNDLE + 1, &board));

    /* each other way in which a layout is broken, and a file of length 0 that breaks none */
    hand_two();
    say(drawer, 9, EMPTY - 1, 2);
    expect("a file in the header", 3, knotsaddle_drawer_judge_files(drawer, SIZE, &board));
    say(drawer, 9, SIZE - 1, 2);
    expect("a file past the end", 3, knotsaddle_drawer_judge_files(drawer, SIZE, &board));
    say(drawer, 9, 0, 2);
    expect("an omitted file with a length", 3, knotsaddle_drawer_judge_files(drawer, SIZE, &board));
    say(drawer, 9, SIZE + 1, 0);
    expect("a file of length 0 past the end", 3, knotsaddle_drawer_judge_files(drawer, SIZE, &board));
    say(drawer, 9, SIZE, 0);
    expect("one at the end", 0, knotsaddle_drawer_judge_files(drawer, SIZE, &board));
    say(drawer, 9, EMPTY + 5, 0);
    expect("one inside another file", 0, knotsaddle_drawer_judge_files(drawer, SIZE, &board));
}

/* ---- A drawer judged, and asked for its files */

static void judging(void) {
    hand_over();
    expect("no files", 0, knotsaddle_drawer_judge_in(drawer, SIZE, &board, work, KNOTSADDLE_WORKSPACE));
    expect("seven faults", 7, faults());
    hand_two();
    expect("two files", 0, knotsaddle_drawer_judge_in(drawer, SIZE, &board, work, KNOTSADDLE_WORKSPACE));
    expect("their marks hold", 0, board.kinds[8] + board.kinds[9]);
    expect("of the workspace as much as they have records, which is nothing", 0, worked());
    expect("and in another one the same", 1, is_right());
    lay(drawer, 9, EMPTY + 10, "[ ");
    expect("a file that is no JSON", 0, knotsaddle_drawer_judge_files(drawer, SIZE, &board));
    expect("its kind", 11, board.kinds[9]);
    expect("its place in the file", 2, board.places[9]);
}

static void asking(void) {
    knotsaddle_part part = {77, NULL, 77};
    uint32_t present = 77;
    size_t start = 77, size = 77;
    hand_two();
    expect("file 9", 0, knotsaddle_drawer_file_part(drawer, SIZE, 9, &part));
    expect("is there", 1, part.present);
    expect("with its bytes", 1, part.length == 2 && part.bytes == drawer + EMPTY + 10);
    expect("file 19", 0, knotsaddle_drawer_file(drawer, SIZE, 19, &present, &start, &size));
    expect("is omitted", 0, present + start + size);
    say(drawer, 19, SIZE, 0);
    expect("file 19 of length 0", 0, knotsaddle_drawer_file(drawer, SIZE, 19, &present, &start, &size));
    expect("is there, at the end", 1, present == 1 && start == SIZE && size == 0);
    present = 77, start = 77, size = 77;
    expect("file 20", 4, knotsaddle_drawer_file(drawer, SIZE, 20, &present, &start, &size));
    expect("the numbers are as they were", 3 * 77, present + start + size);
}

/* ---- Changes. A drawer is expected byte for byte. */

#define PUT(file, text) knotsaddle_put(file, (const uint8_t *)(text), strlen(text))
#define MAKE(change) knotsaddle_drawer_make_change(drawer, SIZE, &board, change)

/* Makes a change from the board of the drawer, tried before: the drawer is then as expected, and the board its own. */
static void makes(const char *what, knotsaddle_change change) {
    knotsaddle_board tried;
    uint8_t before[SIZE];
    memcpy(before, drawer, SIZE);
    knotsaddle_drawer_judge_files(drawer, SIZE, &board);
    tried = board;
    expect(what, 0, knotsaddle_drawer_try_change(drawer, SIZE, &tried, change));
    expect("a try leaves the drawer", 0, memcmp(before, drawer, SIZE) != 0);
    expect(what, 0, MAKE(change));
    expect(what, 0, otherwise());
    expect("the board is that of the drawer", 1, is_right());
    board = tried;
    expect("that of the try too", 1, is_right());
}

static void changing(void) {
    hand_two();
    lay(expected, 16, EMPTY, "[]");
    makes("the lowest gap", PUT(16, "[]"));
    hand_two();
    lay(expected, 16, EMPTY, "[  ]");
    makes("a gap that is just long enough", PUT(16, "[  ]"));
    hand_two();
    lay(expected, 8, EMPTY, "[]");
    lay(expected, 9, EMPTY + 2, "[]");
    lay(expected, 16, EMPTY + 4, "[   ]");
    makes("no gap, the files are moved down", PUT(16, "[   ]"));
    hand_two();
    lay(expected, 9, EMPTY + 6, "[    ]");
    makes("the replaced file frees its room first", PUT(9, "[    ]"));
    hand_two();
    lay(expected, 8, EMPTY, "[]");
    lay(expected, 9, EMPTY + 2, "[]");
    lay(expected, 16, EMPTY + 4, "[          ]");
    makes("an exact fit", PUT(16, "[          ]"));
    memcpy(expected, drawer, SIZE);
    say(expected, 8, 0, 0);
    makes("a withdrawal", knotsaddle_withdraw(8));
    say(expected, 8, EMPTY, 0);
    makes("a file of length 0", PUT(8, ""));
    say(expected, 9, 0, 0);
    makes("one withdrawn beside it", knotsaddle_withdraw(9));
    makes("one that is not there", knotsaddle_withdraw(9));

    hand_two();
    expect("from a board that is wrong", 0, MAKE(PUT(8, "[]")));
    expect("four marks read the file", 4, judged());
    hand_two();
    expect("in a workspace, a try", 0, knotsaddle_drawer_try_in(drawer, SIZE, &board, PUT(8, "[]"), work, KNOTSADDLE_WORKSPACE));
    expect("four marks are judged again", 4, judged());
    expect("the drawer is as it was", 0, otherwise());
    hand_board();
    lay(expected, 8, EMPTY, "[]");
    expect("and a change", 0, knotsaddle_drawer_make_in(drawer, SIZE, &board, PUT(8, "[]"), work, KNOTSADDLE_WORKSPACE));
    expect("four marks too", 4, judged());
    expect("the drawer after it", 0, otherwise());
    expect("no record, so nothing of the workspace was used", 0, worked());
}

static void no_room(void) {
    hand_two();
    expect("a try of a byte too many", 11, knotsaddle_drawer_try_change(drawer, SIZE, &board, PUT(16, "[           ]")));
    expect("a change of a byte too many", 11, MAKE(PUT(16, "[           ]")));
    expect("a file that is too long in place of one", 11, MAKE(PUT(9, "[             ]")));
    expect("file 20 before that, in a try", 4, knotsaddle_drawer_try_change(drawer, SIZE, &board, PUT(20, "[           ]")));
    expect("in a change", 4, MAKE(PUT(20, "[           ]")));
    expect("file 20 withdrawn", 4, MAKE(knotsaddle_withdraw(20)));
    expect("board and drawer are as they were", 0, judged() + otherwise());
    expect("11 in words", 1, strlen(knotsaddle_in_words(KNOTSADDLE_DRAWER_NO_ROOM)) > 0);
}

/* ---- A bundle put in, and taken out */

static size_t bundle_of_two(void) {
    memset(bundle, 0, EMPTY);
    put_word(bundle, KNOTSADDLE_FILES);
    lay(bundle, 8, EMPTY, "[  ]");
    lay(bundle, 9, EMPTY + 4, "[]");
    return EMPTY + 6;
}

static void putting(void) {
    size_t length = bundle_of_two(), size = 77;
    memset(drawer, 7, SIZE);
    memcpy(expected, drawer, SIZE);
    memcpy(expected, bundle, length);
    expect("a bundle put in, whatever was there", 0, knotsaddle_drawer_put_bundle(drawer, SIZE, bundle, length));
    expect("its bytes in front, the rest as it was", 0, otherwise());
    memset(out, 9, sizeof out);
    expect("taken out, an output that just fits", 0, knotsaddle_drawer_take_bundle(drawer, SIZE, out, length, &size));
    expect("its length", length, size);
    expect("byte for byte", 0, memcmp(out, bundle, length) != 0);
    expect("the rest of the output is as it was", 9, out[length]);
    expect("a drawer as long as the bundle", 0, knotsaddle_drawer_put_bundle(drawer, length, bundle, length));

    expect("a drawer a byte shorter", 11, knotsaddle_drawer_put_bundle(drawer, length - 1, bundle, length));
    expect("a drawer that is too short", 1, knotsaddle_drawer_put_bundle(drawer, EMPTY - 1, bundle, length));
    expect("one that is too long", 1, knotsaddle_drawer_put_bundle(large, KNOTSADDLE_LARGEST_BUNDLE + 1, bundle, length));
    expect("no bundle", 1, knotsaddle_drawer_put_bundle(drawer, SIZE, NULL, 0));
    expect("a bundle with a byte behind it", 3, knotsaddle_drawer_put_bundle(drawer, SIZE, bundle, length + 1));
    expect("before the drawer", 3, knotsaddle_drawer_put_bundle(drawer, 0, bundle, length + 1));
    bundle[0] = 21;
    expect("a bundle that counts 21", 2, knotsaddle_drawer_put_bundle(drawer, 0, bundle, length));
    expect("the drawer is as it was", 0, otherwise());
}

static void taking(void) {
    size_t length, size = 77;
    hand_two();
    lay(drawer, 9, EMPTY, "[]");
    lay(drawer, 8, EMPTY + 8, "[  ]");
    memcpy(expected, drawer, SIZE);
    length = bundle_of_two();
    expect("an output a byte too short", 5, knotsaddle_drawer_take_bundle(drawer, SIZE, out, length - 1, &size));
    expect("none", 5, knotsaddle_drawer_take_bundle(drawer, SIZE, NULL, 0, &size));
    expect("nothing is written", 0, written());
    expect("the length is as it was", 77, size);
    expect("the files in the order of their numbers", 0, knotsaddle_drawer_take_bundle(drawer, SIZE, out, sizeof out, &size));
    expect("the length", length, size);
    expect("byte for byte", 0, memcmp(out, bundle, length) != 0);
    expect("the rest of the output is as it was", 9, out[length]);
    expect("and the drawer", 0, otherwise());
    say(drawer, 8, EMPTY + 10, 0);
    expect("a file of length 0", 0, knotsaddle_drawer_take_bundle(drawer, SIZE, out, sizeof out, &size));
    expect("stands behind the header", 1, size == EMPTY + 2 && out[4 + 8 * 8] == EMPTY && out[8 + 8 * 8] == 0);
}

/* ---- Lists and numbers that a call can't take */

#define LISTS(k, p, c) board.kinds, k, board.places, p, board.companions, c
#define NEW 8, 1, (const uint8_t *)"[]", 2

static void wrong_arguments(void) {
    knotsaddle_change twice = PUT(8, "[]");
    hand_two();
    expect("80 kinds judged", 100, knotsaddle_drawer_judge(drawer, 0, LISTS(80, 81, 81), work, 0));
    expect("82 places", 100, knotsaddle_drawer_judge(drawer, SIZE, LISTS(81, 82, 81), work, KNOTSADDLE_WORKSPACE));
    expect("no companions", 100, knotsaddle_drawer_judge(drawer, SIZE, LISTS(81, 81, 0), work, KNOTSADDLE_WORKSPACE));
    expect("80 kinds in a try", 100, knotsaddle_drawer_try(drawer, 0, LISTS(80, 81, 81), NEW, work, 0));
    expect("82 places in a change", 100, knotsaddle_drawer_make(drawer, 0, LISTS(81, 82, 81), NEW, work, 0));
    twice.present = 2;
    expect("present 2 in a try", 101, knotsaddle_drawer_try_change(drawer, SIZE, &board, twice));
    expect("present 2 in a change", 101, MAKE(twice));
    expect("before 100 in a try", 101, knotsaddle_drawer_try(drawer, SIZE, LISTS(80, 81, 81), 8, 2, drawer, 2, work, 0));
    expect("and in a change", 101, knotsaddle_drawer_make(drawer, 0, LISTS(80, 81, 81), 8, 3, out, 2, work, 0));
    expect("a try in too short a workspace", 14, knotsaddle_drawer_try_in(drawer, 0, &board, PUT(20, "[]"), work, TOO_SHORT));
    expect("a change in one", 14, knotsaddle_drawer_make_in(drawer, 0, &board, PUT(20, "[]"), work, TOO_SHORT));
    expect("a try in none", 14, knotsaddle_drawer_try_in(drawer, SIZE, &board, PUT(8, "[]"), NULL, 0));
    expect("a change in none", 14, knotsaddle_drawer_make_in(drawer, SIZE, &board, PUT(8, "[]"), NULL, 0));
    no_memory = 1;
    expect("no memory to judge", 102, knotsaddle_drawer_judge_files(drawer, SIZE, &board));
    expect("to try", 102, knotsaddle_drawer_try_change(drawer, SIZE, &board, PUT(8, "[]")));
    expect("to change", 102, MAKE(PUT(8, "[]")));
    no_memory = 0;
    expect("what they leave", 0, judged() + otherwise() + written() + worked());
    expect("a judgement in too short a workspace", 14, knotsaddle_drawer_judge_in(drawer, 0, &board, work, TOO_SHORT));
    expect("makes every mark 'not judged'", KNOTSADDLE_MARKS, not_judged());
    hand_board();
    expect("and in none", 14, knotsaddle_drawer_judge_in(drawer, SIZE, &board, NULL, 0));
    expect("does so too", KNOTSADDLE_MARKS, not_judged());
    expect("the workspace is as it was", 0, worked());
    expect("memory that was not given back", 0, (size_t)out_on_loan);
}

int main(void) {
    refusing();
    judging();
    asking();
    changing();
    no_room();
    putting();
    taking();
    wrong_arguments();
    printf("%d passed, %d failed\n", passed, failed);
    return failed != 0;
}
