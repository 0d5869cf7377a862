/* Makes every call with a list of entries, and the plain engine's, with right and with wrong arguments and checks each answer. Prints a
 * line for each that is not the expected one, and then how many there were of each. */
#include <stdint.h>
#include <stdio.h>
#include <string.h>

#include "knotsaddle_listed.h"

static int passed, failed;

static void expect(const char *what, size_t expected, size_t got) {
    if (expected == got) {
        passed++;
        return;
    }
    failed++;
    printf("%s: expected %zu, got %zu\n", what, expected, got);
}

/* ---- A set of calendars with two keys of one sum, and workshifts that name one of them */

static const char calendars[] = "[{\"Name\":\"n\",\"ID\":\"b[\"},{\"ID\":\"\\u0041Z\",\"Name\":\"n\"},{\"ID\":\"C\",\"Name\":\"n\"}]";
static const char shifts[] = "[{\"CalendarID\":\"c\",\"MondayWorkHours\":8},{\"MondayWorkHours\":8,\"Ordinal\":0.0,\"CalendarID\":\"\\u0043\"}]";

static const knotsaddle_entry of_calendars[3] = {{59, 1, 99, 3}, {19, 2, 3129, 1}, {31, 7, 3129, 2}};
static const knotsaddle_entry of_shifts[2] = {{16, 1, 99, 1}, {89, 6, 99, 2}};
static const knotsaddle_entry untouched = {7, 7, 7, 7};

static uint8_t bundle[1000], out[1000];
static knotsaddle_entry list[6];
static uint32_t work[KNOTSADDLE_LISTED_WORKSPACE];

static void put_word(size_t at, size_t x) {
    for (int i = 0; i < 4; i++) bundle[at + i] = (uint8_t)(x >> 8 * i);
}

/* Makes the bundle of the calendars alone, and answers its length. */
static size_t bundle_of_calendars(void) {
    memset(bundle, 0, sizeof bundle);
    put_word(0, KNOTSADDLE_FILES);
    put_word(4 + 8 * 6, KNOTSADDLE_EMPTY_BUNDLE);
    put_word(8 + 8 * 6, strlen(calendars));
    memcpy(bundle + KNOTSADDLE_EMPTY_BUNDLE, calendars, strlen(calendars));
    return KNOTSADDLE_EMPTY_BUNDLE + strlen(calendars);
}

static void lay(void) {
    for (size_t i = 0; i < 6; i++) list[i] = untouched;
    memset(out, 7, sizeof out);
    memset(work, 0xff, sizeof work);
}

static void expect_entries(const char *what, const knotsaddle_entry *expected, size_t count, size_t from) {
    expect(what, 0, memcmp(list + from, expected, count * sizeof *list) != 0);
}

static void expect_untouched(const char *what, size_t from) {
    for (size_t i = from; i < 6; i++) expect(what, 0, memcmp(list + i, &untouched, sizeof untouched) != 0);
}

static size_t differences(const knotsaddle_board *a, const knotsaddle_board *b) {
    size_t count = 0;
    for (size_t m = 0; m < KNOTSADDLE_MARKS; m++)
        count += a->kinds[m] != b->kinds[m] || a->places[m] != b->places[m] || a->companions[m] != b->companions[m];
    return count;
}

static size_t not_judged(const knotsaddle_board *board) {
    size_t count = 0;
    for (size_t m = 0; m < KNOTSADDLE_MARKS; m++) count += board->kinds[m] == KNOTSADDLE_NOT_JUDGED;
    return count;
}

static knotsaddle_board board;

static void judges(void) {
    knotsaddle_board plain, same;
    size_t length = bundle_of_calendars(), entries = 9;
    lay();
    expect("a judgement", 0, knotsaddle_listed_judge_in(bundle, length, &board, list, 6, &entries, work, KNOTSADDLE_LISTED_WORKSPACE));
    expect("its entries", 3, entries);
    expect_entries("the calendars", of_calendars, 3, 0);
    expect_untouched("the rest of the list", 3);
    expect("keys of one sum are not one key", 0, board.kinds[22]);
    expect("a missing file", 21, board.kinds[0]);
    expect("the plain engine", 0, knotsaddle_plain_judge_bundle(bundle, length, &plain));
    expect("gives the same marks", 0, differences(&board, &plain));
    lay();
    expect("just enough places", 0, knotsaddle_listed_judge_bundle(bundle, length, &same, list, 3, &entries));
    expect("the same marks", 0, differences(&board, &same));
    expect("no number asked for", 0, knotsaddle_listed_judge_bundle(bundle, length, &same, list, 3, NULL));

    lay();
    expect("a place too few", KNOTSADDLE_SHORT_LIST, knotsaddle_listed_judge_bundle(bundle, length, &same, list, 2, &entries));
    expect("no entries", 0, entries);
    expect_untouched("a list that is too short", 0);
    expect("no mark is judged", KNOTSADDLE_MARKS, not_judged(&same));
    expect("no list", KNOTSADDLE_SHORT_LIST, knotsaddle_listed_judge_bundle(bundle, length, &same, NULL, 0, &entries));
    expect("no bundle, before the list", 1, knotsaddle_listed_judge_bundle(NULL, 0, &same, NULL, 0, &entries));
    expect("by the plain engine", 1, knotsaddle_plain_judge_bundle(NULL, 0, &plain));
    expect("no mark of its own", KNOTSADDLE_MARKS, not_judged(&plain));
    expect("a byte too many", 3, knotsaddle_plain_judge_bundle(bundle, length + 1, &plain));
    expect("a short workspace, before all else", KNOTSADDLE_SHORT_WORKSPACE,
           knotsaddle_listed_judge_in(NULL, 0, &same, NULL, 0, &entries, work, KNOTSADDLE_LISTED_WORKSPACE - 1));
    expect("the workspace then", 0xffffffff, work[0]);
    expect("no workspace", KNOTSADDLE_SHORT_WORKSPACE, knotsaddle_listed_judge_in(bundle, length, &same, list, 6, &entries, NULL, 0));
    expect("lists of 80", KNOTSADDLE_WRONG_LENGTH,
           knotsaddle_listed_judge(bundle, length, same.kinds, 80, same.places, 81, same.companions, 81, &list->start, 24, &entries,
                                   work, KNOTSADDLE_LISTED_WORKSPACE));

    lay();
    expect("a list of thirteen numbers", 0,
           knotsaddle_listed_judge(bundle, length, same.kinds, 81, same.places, 81, same.companions, 81, &list->start, 13, &entries,
                                   work, KNOTSADDLE_LISTED_WORKSPACE));
    expect("has three places", 3, entries);
    expect_untouched("behind them", 3);
    expect("one of eleven has two", KNOTSADDLE_SHORT_LIST,
           knotsaddle_listed_judge(bundle, length, same.kinds, 81, same.places, 81, same.companions, 81, &list->start, 11, &entries,
                                   work, KNOTSADDLE_LISTED_WORKSPACE));
}

static void changes(void) {
    knotsaddle_board tried = board, made = board, same;
    knotsaddle_change change = knotsaddle_put(7, (const uint8_t *)shifts, strlen(shifts));
    size_t length = bundle_of_calendars(), entries = 9, size = 9, after = length + strlen(shifts);
    lay();
    expect("a try", 0, knotsaddle_listed_try_in(bundle, length, &tried, change, list, 6, &entries, &size, work, KNOTSADDLE_LISTED_WORKSPACE));
    expect("the entries of what was read", 5, entries);
    expect_entries("the calendars first", of_calendars, 3, 0);
    expect_entries("then the shifts", of_shifts, 2, 3);
    expect_untouched("the rest of the list", 5);
    expect("the length of the new bundle", after, size);
    expect("two shifts of one ordinal", 1, tried.kinds[23]);
    expect("a calendar that is there", 0, tried.kinds[49]);

    lay();
    expect("a change", 0, knotsaddle_listed_make_change(bundle, length, &made, change, out, sizeof out, list, 6, &entries, &size));
    expect("its marks", 0, differences(&tried, &made));
    expect("its entries", 5, entries);
    expect("its length", after, size);
    expect_entries("the shifts again", of_shifts, 2, 3);
    expect("behind the new bundle", 7, out[after]);
    expect("the new bundle judged", 0, knotsaddle_listed_judge_bundle(out, after, &same, list, 6, NULL));
    expect("has these marks", 0, differences(&made, &same));

    same = board;
    lay();
    expect("a change with a place too few", KNOTSADDLE_SHORT_LIST,
           knotsaddle_listed_make_change(bundle, length, &same, change, out, sizeof out, list, 4, &entries, &size));
    expect("no entries", 0, entries);
    expect("no length", 0, size);
    expect("the board is as it was", 0, differences(&board, &same));
    expect_untouched("and the list", 0);
    expect("and the output", 7, out[0]);
    expect("an output too short, before the list", 5,
           knotsaddle_listed_make_change(bundle, length, &same, change, out, after - 1, NULL, 0, &entries, &size));
    expect("a file too high", 4, knotsaddle_listed_try_change(bundle, length, &same, knotsaddle_withdraw(20), list, 6, &entries, &size));
    expect("a file that is withdrawn", 0, knotsaddle_listed_try_change(bundle, length, &same, knotsaddle_withdraw(6), list, 6, &entries, &size));
    expect("has no entries", 0, entries);
    expect("and is gone", KNOTSADDLE_EMPTY_BUNDLE, size);

    same = board;
    change.present = 2;
    entries = size = 9;
    expect("present is 2", KNOTSADDLE_WRONG_PRESENT, knotsaddle_listed_try_change(NULL, 0, &same, change, NULL, 0, &entries, &size));
    expect("no entries of it", 0, entries + size);
    expect("of a change", KNOTSADDLE_WRONG_PRESENT, knotsaddle_listed_make_change(NULL, 0, &same, change, NULL, 0, NULL, 0, NULL, NULL));
    expect("the board stays", 0, differences(&board, &same));
    expect("8 without words", 0, strlen(knotsaddle_in_words(KNOTSADDLE_SHORT_LIST)) == 0);
}

int main(void) {
    judges();
    changes();
    printf("%d passed, %d failed\n", passed, failed);
    return failed != 0;
}
