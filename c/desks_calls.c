/* Makes every call of the two desks with right and with wrong arguments and checks each answer: a test, and a list of what a caller
 * meets. It is called without arguments. Prints a line for each answer that is not the expected one, and then how many answers there
 * were of each. */
#include <stdio.h>
#include <stdlib.h>
#include <string.h>

/* The memory of the calls that get a workspace: it can be made to fail, and is counted. */
static int no_memory, out_on_loan;

static void *get(size_t size) {
    if (no_memory) return NULL;
    out_on_loan++;
    return malloc(size);
}

static void give_back(void *memory) {
    out_on_loan--;
    free(memory);
}

#define KNOTSADDLE_MALLOC get
#define KNOTSADDLE_FREE give_back
#include "knotsaddle_desks.h"

static int passed, failed;

static void expect(const char *what, size_t expected, size_t got) {
    if (expected == got) {
        passed++;
        return;
    }
    failed++;
    printf("%s: expected %zu, got %zu\n", what, expected, got);
}

/* ---- What the calls are handed: bundles with one file or none, boards, an output and a workspace that no call leaves so */

#define EMPTY KNOTSADDLE_EMPTY_BUNDLE
#define TOO_SHORT (KNOTSADDLE_WORKSPACE - 1)

static uint8_t none[EMPTY], desk_a[EMPTY + 2], desk_b[EMPTY + 2], common[EMPTY + 2], out[400];
static uint32_t work[KNOTSADDLE_WORKSPACE];
static const uint8_t list[] = {'[', ']'};
static knotsaddle_desks desks;
static knotsaddle_bundles held;

/* A bundle that counts 20 files, with `[]` as one of them; no file for a number over 19. */
static size_t bundle_with(uint8_t *bundle, size_t file) {
    memset(bundle, 0, EMPTY);
    bundle[0] = 20;
    if (file > 19) return EMPTY;
    bundle[4 + 8 * file] = EMPTY;
    bundle[8 + 8 * file] = 2;
    memcpy(bundle + EMPTY, list, 2);
    return EMPTY + 2;
}

static void hand_board(knotsaddle_board *board) {
    board->gate = KNOTSADDLE_SCHEDULE;
    for (size_t m = 0; m < KNOTSADDLE_MARKS; m++) {
        board->kinds[m] = 9;
        board->places[m] = 9;
        board->companions[m] = 9;
    }
}

/* Bundles with one file each, 99 for none, and all else as no call leaves it. */
static void hand_over(size_t file_a, size_t file_b, size_t file_shared) {
    held.a = desk_a;
    held.b = desk_b;
    held.shared = common;
    held.a_length = bundle_with(desk_a, file_a);
    held.b_length = bundle_with(desk_b, file_b);
    held.shared_length = bundle_with(common, file_shared);
    hand_board(&desks.a);
    hand_board(&desks.b);
    desks.refusal_a = desks.refusal_b = 77;
    desks.size = 77;
    memset(out, 9, sizeof out);
    memset(work, 0xff, sizeof work);
}

/* How many marks of a board are not as they were handed in. */
static size_t judged(const knotsaddle_board *board) {
    size_t count = 0;
    for (size_t m = 0; m < KNOTSADDLE_MARKS; m++) {
        count += board->kinds[m] != 9 || board->places[m] != 9 || board->companions[m] != 9;
    }
    return count;
}

static size_t faults(const knotsaddle_board *board) {
    size_t count = 0;
    for (size_t m = 0; m < KNOTSADDLE_MARKS; m++) count += board->kinds[m] != 0;
    return count;
}

static size_t written(void) {
    size_t count = 0;
    for (size_t i = 0; i < sizeof out; i++) count += out[i] != 9;
    return count;
}

static size_t worked(void) {
    size_t count = 0;
    for (size_t i = 0; i < KNOTSADDLE_WORKSPACE; i++) count += work[i] != 0xffffffff;
    return count;
}

/* What a change answers: the call, both desks, and the new bundle's length. */
static void answers(const char *what, uint32_t fault, uint32_t a, uint32_t b, size_t size, uint32_t got) {
    expect(what, fault, got);
    expect(what, a, desks.refusal_a);
    expect(what, b, desks.refusal_b);
    expect(what, size, desks.size);
}

/* ---- A desk judged in full */

static void judging(void) {
    hand_over(99, 99, 99);
    expect("a desk and calendars with no files", 0, knotsaddle_desk_judge_bundle(desk_a, EMPTY, common, EMPTY, &desks.a));
    expect("its board", 7, faults(&desks.a));
    expect("an omitted file", 21, desks.a.kinds[3]);
    expect("it in a workspace", 0, knotsaddle_desk_judge_in(desk_a, EMPTY, common, EMPTY, &desks.b, work, KNOTSADDLE_WORKSPACE));
    expect("the same board", 0, memcmp(&desks.a, &desks.b, sizeof desks.a) != 0);

    hand_over(8, 8, 8);
    expect("calendars of their own", 0, knotsaddle_desk_judge_bundle(none, bundle_with(none, 99), common, held.shared_length, &desks.a));
    expect("a file of the calendars holds", 0, desks.a.kinds[8]);
    expect("a desk that holds file 8", 9, knotsaddle_desk_judge_bundle(desk_a, held.a_length, none, EMPTY, &desks.b));
    expect("its marks are not judged", KNOTSADDLE_MARKS, faults(&desks.b));
    expect("nor its last one", KNOTSADDLE_NOT_JUDGED, desks.b.kinds[80]);
    expect("calendars that hold file 9", 9,
           knotsaddle_desk_judge_bundle(none, EMPTY, common, bundle_with(common, 9), &desks.a));
    expect("no desk", 1, knotsaddle_desk_judge_bundle(NULL, 0, none, EMPTY, &desks.a));
    expect("no calendars", 1, knotsaddle_desk_judge_bundle(none, EMPTY, NULL, 0, &desks.a));

    hand_over(99, 99, 99);
    expect("too short a workspace", 14, knotsaddle_desk_judge_in(NULL, 0, common, EMPTY, &desks.a, work, TOO_SHORT));
    expect("no workspace", 14, knotsaddle_desk_judge_in(desk_a, EMPTY, common, EMPTY, &desks.a, NULL, 0));
    expect("80 kinds", 100,
           knotsaddle_desk_judge(desk_a, EMPTY, common, EMPTY, desks.b.kinds, 80, desks.b.places, 81, desks.b.companions, 81, work, 1));
    expect("which are as they were", 0, judged(&desks.b));
    expect("so is the workspace", 0, worked());
    no_memory = 1;
    expect("no memory", 102, knotsaddle_desk_judge_bundle(desk_a, EMPTY, common, EMPTY, &desks.b));
    expect("which leaves the board", 0, judged(&desks.b));
    no_memory = 0;
}

/* ---- Both desks: whose change it is, and what each sees of it */

#define PUT(file) knotsaddle_put(file, list, 2)
#define MAKE(whose, change, room) knotsaddle_desks_make_change(&held, &desks, whose, change, out, room)

static void changing(void) {
    hand_over(99, 99, 99);
    answers("A puts file 9", 0, 0, 0, EMPTY + 2, MAKE(KNOTSADDLE_DESK_A, PUT(9), sizeof out));
    expect("A's marks are judged again", 1, judged(&desks.a) > 0);
    expect("B's board comes back", 0, judged(&desks.b));
    expect("the new bundle", 0, memcmp(out + EMPTY, list, 2) != 0 || out[0] != 20 || out[4 + 8 * 9] != EMPTY);
    expect("and no byte behind it", 9, out[EMPTY + 2]);

    hand_over(99, 99, 99);
    answers("B puts file 9", 0, 0, 0, EMPTY + 2, MAKE(KNOTSADDLE_DESK_B, PUT(9), sizeof out));
    expect("A's board comes back", 0, judged(&desks.a));
    expect("B's marks are judged again", 1, judged(&desks.b) > 0);

    hand_over(99, 99, 99);
    answers("the calendars get file 8", 0, 0, 0, EMPTY + 2, MAKE(KNOTSADDLE_CALENDARS, PUT(8), sizeof out));
    expect("four marks of A read it", 4, judged(&desks.a));
    expect("and four of B", 4, judged(&desks.b));
    expect("its own", 0, desks.a.kinds[8]);
    expect("mark 24", 0, desks.a.kinds[24]);
    expect("mark 50", 0, desks.b.kinds[50]);
    expect("mark 70", 0, desks.b.kinds[70]);

    hand_over(99, 99, 8);
    answers("they withdraw it", 0, 0, 0, EMPTY, MAKE(KNOTSADDLE_CALENDARS, knotsaddle_withdraw(8), sizeof out));
    expect("an empty bundle", 0, out[4 + 8 * 8] + out[8 + 8 * 8]);

    hand_over(99, 99, 99);
    answers("a try", 0, 0, 0, EMPTY + 2, knotsaddle_desks_try_change(&held, &desks, KNOTSADDLE_CALENDARS, PUT(8)));
    expect("writes nothing", 0, written());
    expect("and judges as a change does", 4, judged(&desks.a));
    hand_over(99, 99, 99);
    answers("a try in a workspace", 0, 0, 0, EMPTY + 2,
            knotsaddle_desks_try_in(&held, &desks, KNOTSADDLE_CALENDARS, PUT(8), work, KNOTSADDLE_WORKSPACE));
    answers("a change in one", 0, 0, 0, EMPTY + 2,
            knotsaddle_desks_make_in(&held, &desks, KNOTSADDLE_CALENDARS, PUT(8), out, sizeof out, work, KNOTSADDLE_WORKSPACE));
    expect("which writes", 20, out[0]);
}

/* ---- Refusals, each desk's own and both's */

static void refusing(void) {
    hand_over(6, 99, 99);
    held.shared_length = EMPTY - 1;
    answers("A holds 6, the calendars are too short", 0, 1, 1, 0, MAKE(KNOTSADDLE_CALENDARS, PUT(8), sizeof out));
    hand_over(99, 99, 99);
    desk_a[0] = 1;
    held.shared_length = EMPTY - 1;
    answers("A counts 1, the calendars are too short", 0, 2, 1, 0, MAKE(KNOTSADDLE_CALENDARS, PUT(8), sizeof out));
    hand_over(99, 99, 9);
    answers("the calendars hold file 9", 0, 9, 9, 0, MAKE(KNOTSADDLE_DESK_A, PUT(9), sizeof out));
    expect("and nothing is written", 0, written());

    hand_over(99, 99, 99);
    desk_b[0] = 1;
    answers("A changes, B counts 1", 0, 0, 2, EMPTY + 2, MAKE(KNOTSADDLE_DESK_A, PUT(9), sizeof out));
    expect("A's change is written", 20, out[0]);
    hand_over(99, 99, 99);
    answers("A withdraws 8", 0, 9, 0, 0, MAKE(KNOTSADDLE_DESK_A, knotsaddle_withdraw(8), sizeof out));
    answers("the calendars get file 9", 0, 9, 9, 0, MAKE(KNOTSADDLE_CALENDARS, PUT(9), sizeof out));
    answers("or file 20", 0, 4, 4, 0, MAKE(KNOTSADDLE_CALENDARS, PUT(20), sizeof out));
    answers("an output too short for the calendars", 0, 5, 5, 0, MAKE(KNOTSADDLE_CALENDARS, PUT(8), EMPTY + 1));
    answers("one too short for A", 0, 5, 0, 0, MAKE(KNOTSADDLE_DESK_A, PUT(9), EMPTY + 1));
    answers("no output", 0, 5, 5, 0, knotsaddle_desks_make_change(&held, &desks, KNOTSADDLE_CALENDARS, PUT(8), NULL, 0));
    expect("boards come back", 0, judged(&desks.a) + judged(&desks.b));
    expect("and nothing is written", 0, written());

    hand_over(99, 99, 99);
    desk_a[0] = 1;
    answers("A counts 1, the calendars change", 0, 2, 0, EMPTY + 2, MAKE(KNOTSADDLE_CALENDARS, PUT(8), sizeof out));
    expect("A's board comes back", 0, judged(&desks.a));
    expect("four marks of B are judged again", 4, judged(&desks.b));
    expect("and the bundle is written", 20, out[0]);
    hand_over(99, 7, 99);
    desk_a[0] = 1;
    answers("A counts 1, B holds 7", 0, 2, 9, 0, MAKE(KNOTSADDLE_CALENDARS, PUT(8), sizeof out));
    expect("and nothing is written", 0, written());
    expect("9 in words", 1, strlen(knotsaddle_in_words(KNOTSADDLE_NOT_HELD_THERE)) > 0);
}

/* ---- Lists and numbers that a call can't take */

#define LISTS(board, k, p, c) (board).kinds, k, (board).places, p, (board).companions, c
#define BUNDLES KNOTSADDLE_DESK_BUNDLES(&held)
#define RIGHT KNOTSADDLE_DESK_LISTS(desks.a), KNOTSADDLE_DESK_LISTS(desks.b)

static void wrong_arguments(void) {
    uint32_t refusals[3] = {7, 7, 7};
    size_t size[2] = {7, 7};
    hand_over(99, 99, 99);
    expect("one refusal", 100, knotsaddle_desks_try(BUNDLES, RIGHT, 3, 8, 2, list, 2, refusals, 1, size, 1, work, KNOTSADDLE_WORKSPACE));
    expect("three refusals", 100, knotsaddle_desks_try(BUNDLES, RIGHT, 2, 8, 1, list, 2, refusals, 3, size, 1, work, KNOTSADDLE_WORKSPACE));
    expect("no length", 100, knotsaddle_desks_try(BUNDLES, RIGHT, 2, 8, 1, list, 2, refusals, 2, size, 0, work, KNOTSADDLE_WORKSPACE));
    expect("two lengths", 100,
           knotsaddle_desks_make(BUNDLES, RIGHT, 2, 8, 1, list, 2, out, 400, refusals, 2, size, 2, work, KNOTSADDLE_WORKSPACE));
    expect("one refusal of a change", 100,
           knotsaddle_desks_make(BUNDLES, RIGHT, 2, 8, 1, list, 2, out, 400, refusals, 1, size, 1, work, KNOTSADDLE_WORKSPACE));
    expect("a try of nobody's", 101, knotsaddle_desks_try(BUNDLES, RIGHT, 3, 8, 1, list, 2, refusals, 2, size, 1, work, KNOTSADDLE_WORKSPACE));
    expect("a change of nobody's", 101,
           knotsaddle_desks_make(BUNDLES, RIGHT, 3, 8, 1, list, 2, out, 400, refusals, 2, size, 1, work, KNOTSADDLE_WORKSPACE));
    expect("present 2 in a try", 101, knotsaddle_desks_try(BUNDLES, RIGHT, 2, 8, 2, list, 2, refusals, 2, size, 1, work, KNOTSADDLE_WORKSPACE));
    expect("present 2 in a change", 101,
           knotsaddle_desks_make(BUNDLES, RIGHT, 2, 8, 2, list, 2, out, 400, refusals, 2, size, 1, work, KNOTSADDLE_WORKSPACE));
    expect("what they leave", 0, judged(&desks.a) + judged(&desks.b) + written() + worked());
    expect("also of the numbers", 0, refusals[0] != 7 || refusals[1] != 7 || size[0] != 7);

    expect("80 kinds of A", 0,
           knotsaddle_desks_make(BUNDLES, LISTS(desks.a, 80, 81, 81), KNOTSADDLE_DESK_LISTS(desks.b), 2, 8, 1, list, 2, out, 400, refusals, 2,
                                 size, 1, work, KNOTSADDLE_WORKSPACE));
    expect("are A's own fault", 100, refusals[0]);
    expect("and not B's", 0, refusals[1]);
    expect("so it is written", EMPTY + 2, size[0]);
    expect("A's board comes back", 0, judged(&desks.a));
    expect("B's is judged", 4, judged(&desks.b));
    hand_over(99, 99, 99);
    answers("too short a workspace", 0, 14, 14, 0, knotsaddle_desks_make_in(&held, &desks, 2, PUT(8), out, sizeof out, work, TOO_SHORT));
    answers("in a try", 0, 14, 14, 0, knotsaddle_desks_try_in(&held, &desks, 2, PUT(8), work, TOO_SHORT));
    answers("no workspace", 0, 14, 14, 0, knotsaddle_desks_try_in(&held, &desks, 2, PUT(8), NULL, 0));
    expect("what they leave", 0, judged(&desks.a) + judged(&desks.b) + written() + worked());

    hand_over(99, 99, 99);
    no_memory = 1;
    answers("no memory", 102, 77, 77, 77, MAKE(KNOTSADDLE_CALENDARS, PUT(8), sizeof out));
    answers("in a try", 102, 77, 77, 77, knotsaddle_desks_try_change(&held, &desks, 2, PUT(8)));
    no_memory = 0;
    answers("a change of nobody's", 101, 77, 77, 77, MAKE(3, PUT(8), sizeof out));
    expect("what they leave", 0, judged(&desks.a) + judged(&desks.b) + written());
    expect("memory that was not given back", 0, (size_t)out_on_loan);
}

int main(void) {
    judging();
    changing();
    refusing();
    wrong_arguments();
    printf("%d passed, %d failed\n", passed, failed);
    return failed != 0;
}
