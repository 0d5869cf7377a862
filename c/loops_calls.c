/* Makes the call for a loop with right and with wrong arguments and checks each answer. It is called without arguments. Prints a line
 * for each answer that is not the expected one, and then how many there were of each. */
#include <stdio.h>
#include <stdlib.h>
#include <string.h>

/* The memory of the call that gets a workspace: it can be made to fail, and is counted. */
static int no_memory, out_on_loan;

static void *get(size_t size) {
    if (no_memory) return NULL;
    out_on_loan++;
    return malloc(size);
}

static void give_back(void *memory) {
    out_on_loan--;
    free(memory);
}

#define KNOTSADDLE_MALLOC get
#define KNOTSADDLE_FREE give_back
#include "knotsaddle_loops.h"

static int passed, failed;

static void expect(const char *what, size_t expected, size_t got) {
    if (expected == got) {
        passed++;
        return;
    }
    failed++;
    printf("%s: expected %zu, got %zu\n", what, expected, got);
}

/* ---- What the call is handed: a bundle with file 14 alone, a list of nines and a workspace that no call leaves so */

#define EMPTY KNOTSADDLE_EMPTY_BUNDLE
#define LINKS 14

static uint8_t bundle[KNOTSADDLE_LARGEST_BUNDLE];
static uint32_t list[KNOTSADDLE_LOOPS_LIST + 1], work[KNOTSADDLE_LOOPS_WORKSPACE];

static void put_word(size_t at, size_t x) {
    for (int i = 0; i < 4; i++) bundle[at + i] = (uint8_t)(x >> 8 * i);
}

static void hand_over(void) {
    for (size_t i = 0; i < sizeof list / sizeof list[0]; i++) list[i] = 9;
    memset(work, 0xff, sizeof work);
}

/* A bundle that counts 20 files, with this file 14; none for null. */
static size_t bundle_of(const char *file, size_t length) {
    hand_over();
    memset(bundle, 0, EMPTY);
    put_word(0, KNOTSADDLE_FILES);
    if (file == NULL) return EMPTY;
    put_word(4 + 8 * LINKS, EMPTY);
    put_word(8 + 8 * LINKS, length);
    memcpy(bundle + EMPTY, file, length);
    return EMPTY + length;
}

static size_t bundle_text(const char *file) { return bundle_of(file, strlen(file)); }

#define LINK(from, to) "{\"PredecessorTaskID\":\"" from "\",\"SuccessorTaskID\":\"" to "\",\"RelationshipTypeID\":\"FINISH_TO_START\"}"

/* How many numbers of the list from one on are not as they were handed in. */
static size_t touched(size_t from) {
    size_t count = 0;
    for (size_t i = from; i < sizeof list / sizeof list[0]; i++) count += list[i] != 9;
    return count;
}

/* Both forms answer this; the list is as it was but for the loop. */
static void shows(const char *what, size_t length, size_t room, uint32_t refusal, size_t expected) {
    size_t records = 77;
    hand_over();
    expect(what, refusal, knotsaddle_loops_show_bundle(bundle, length, list, room, &records));
    expect(what, expected, records);
    expect(what, 0, touched(expected));
    records = 77;
    hand_over();
    expect(what, refusal, knotsaddle_loops_show_in(bundle, length, list, room, &records, work, KNOTSADDLE_LOOPS_WORKSPACE));
    expect(what, expected, records);
    expect(what, 0, touched(expected));
}

/* ---- Loops, and none */

static void loops(void) {
    size_t length;
    shows("file 14 is omitted", bundle_of(NULL, 0), 0, 0, 0);
    shows("no links", bundle_text("[]"), 0, 0, 0);
    shows("a link", bundle_text("[" LINK("A", "B") "]"), 1, 0, 0);
    shows("a link twice", bundle_text("[" LINK("A", "B") "," LINK("A", "B") "]"), 2, 0, 0);
    shows("a chain", bundle_text("[" LINK("B", "C") "," LINK("A", "B") "," LINK("C", "D") "]"), 4, 0, 0);

    shows("a task after itself", bundle_text("[" LINK("A", "B") "," LINK("x", "X") "]"), 2, 0, 1);
    expect("the record", 2, list[0]);

    length = bundle_text("[" LINK("A", "B") "," LINK("X", "A") "," LINK("b", "a") "," LINK("B", "C") "]");
    shows("two tasks, IDs folded", length, 5, 0, 2);
    expect("the records", 1, (list[0] == 1 && list[1] == 3) || (list[0] == 3 && list[1] == 1));
    shows("a list that just fits", length, 4, 0, 2);
    shows("the longest list", length, KNOTSADDLE_LOOPS_LIST + 1, 0, 2);

    length = bundle_text("[" LINK("A", "\\u0042") "," LINK("B", "C") "," LINK("C", "A") "]");
    shows("three tasks, one ID with an escape", length, 3, 0, 3);
    expect("each once", 6, list[0] + list[1] + list[2]);
    expect("each leads to the next", 1, list[1] == list[0] % 3 + 1 && list[2] == list[1] % 3 + 1);
}

/* ---- As many links as a table has records: each task to the next, the last to the first or not */

static size_t ring_of(size_t count, int closed) {
    static char file[KNOTSADDLE_LARGEST_BUNDLE];
    size_t at = 0;
    for (size_t i = 0; i < count; i++) {
        size_t next = closed && i + 1 == count ? 0 : i + 1;
        at += (size_t)snprintf(file + at, sizeof file - at, "%c" LINK("T%zu", "t%zu"), i == 0 ? '[' : ',', i, next);
    }
    file[at++] = ']';
    return bundle_of(file, at);
}

static void many(void) {
    size_t length = ring_of(KNOTSADDLE_LOOPS_LIST, 1), wrong = 0;
    shows("4,096 links in a loop", length, KNOTSADDLE_LOOPS_LIST, 0, KNOTSADDLE_LOOPS_LIST);
    for (size_t i = 0; i < KNOTSADDLE_LOOPS_LIST; i++) wrong += list[(i + 1) % KNOTSADDLE_LOOPS_LIST] != list[i] % KNOTSADDLE_LOOPS_LIST + 1;
    expect("each leads to the next", 0, wrong);
    shows("a list one shorter", length, KNOTSADDLE_LOOPS_LIST - 1, KNOTSADDLE_LOOPS_SHORT_LIST, 0);
    shows("4,096 links in a row", ring_of(KNOTSADDLE_LOOPS_LIST, 0), KNOTSADDLE_LOOPS_LIST, 0, 0);
    shows("a record more", ring_of(KNOTSADDLE_LOOPS_LIST + 1, 1), KNOTSADDLE_LOOPS_LIST + 1, KNOTSADDLE_LOOPS_UNREADABLE, 0);
}

/* ---- Refusals, in their order */

static void refuses(void) {
    size_t length = bundle_text("["), records = 77;
    shows("file 14 is no JSON, no list", length, 0, KNOTSADDLE_LOOPS_UNREADABLE, 0);
    put_word(8 + 8 * LINKS, 2);
    shows("its length breaks the layout", length, 0, 3, 0);
    bundle[0] = 21;
    shows("the count is 21", length, 0, 2, 0);
    shows("a bundle that is too short", EMPTY - 1, 0, 1, 0);
    expect("no bundle", 1, knotsaddle_loops_show_bundle(NULL, 0, list, 1, &records));
    expect("no records", 0, records);
    records = 77;
    expect("a short workspace, before all else", KNOTSADDLE_SHORT_WORKSPACE,
           knotsaddle_loops_show_in(bundle, EMPTY - 1, list, 1, &records, work, KNOTSADDLE_LOOPS_WORKSPACE - 1));
    expect("no records", 0, records);
    expect("no workspace", KNOTSADDLE_SHORT_WORKSPACE, knotsaddle_loops_show_in(bundle, EMPTY - 1, list, 1, &records, NULL, 0));
    expect("the list is as it was", 0, touched(0));

    length = bundle_text("[" LINK("A", "B") "]");
    shows("one link, no list", length, 0, KNOTSADDLE_LOOPS_SHORT_LIST, 0);
    records = 77;
    expect("null for a list", KNOTSADDLE_LOOPS_SHORT_LIST, knotsaddle_loops_show_bundle(bundle, length, NULL, 0, &records));
    expect("no records", 0, records);
    shows("one loop, no list", bundle_text("[" LINK("A", "a") "]"), 0, KNOTSADDLE_LOOPS_SHORT_LIST, 0);

    records = 77;
    no_memory = 1;
    expect("no memory", KNOTSADDLE_NO_MEMORY, knotsaddle_loops_show_bundle(bundle, length, list, 1, &records));
    no_memory = 0;
    expect("records as they were", 77, records);
    expect("the list too", 0, touched(0));
    expect("12 in words", 1, strlen(knotsaddle_in_words(KNOTSADDLE_LOOPS_UNREADABLE)) > 0);
    expect("13 in words", 1, strlen(knotsaddle_in_words(KNOTSADDLE_LOOPS_SHORT_LIST)) > 0);
    expect("memory that was not given back", 0, (size_t)out_on_loan);
}

int main(void) {
    loops();
    many();
    refuses();
    printf("%d passed, %d failed\n", passed, failed);
    return failed != 0;
}
