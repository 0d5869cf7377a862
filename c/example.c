/* Judges the bundle in the file named on the command line and prints the report, and behind it on the error output what each
 * mark that does not hold is about. */
#include <stdio.h>

#include "knotsaddle.h"

/* A byte more than the largest bundle, so that a longer one is seen to be longer. */
static uint8_t bundle[KNOTSADDLE_LARGEST_BUNDLE + 1];

int main(int argc, char **argv) {
    knotsaddle_board board;
    char text[KNOTSADDLE_REPORT_ROOM];
    if (argc != 2) {
        fprintf(stderr, "usage: example BUNDLE\n");
        return 2;
    }
    FILE *file = fopen(argv[1], "rb");
    if (file == NULL) {
        perror(argv[1]);
        return 2;
    }
    size_t length = fread(bundle, 1, sizeof bundle, file);
    int failed = ferror(file);
    fclose(file);
    if (failed) {
        fprintf(stderr, "%s: cannot be read\n", argv[1]);
        return 2;
    }
    knotsaddle_fresh_board(KNOTSADDLE_SCHEDULE, &board);
    /* For a workspace of the caller's own: knotsaddle_judge_in. */
    uint32_t refusal = knotsaddle_judge_bundle(KNOTSADDLE_SCHEDULE, bundle, length, &board);
    if (refusal == KNOTSADDLE_NO_MEMORY) {
        fprintf(stderr, "%s\n", knotsaddle_in_words(refusal));
        return 2;
    }
    knotsaddle_report_text(refusal, &board, text);
    if (fputs(text, stdout) < 0 || fflush(stdout) != 0) return 2;
    if (refusal != 0) fprintf(stderr, "%s\n", knotsaddle_in_words(refusal));
    for (size_t m = 0; refusal == 0 && m < KNOTSADDLE_MARKS; m++) {
        if (board.kinds[m] != 0) fprintf(stderr, "mark %zu is about %s\n", m, knotsaddle_about_mark(KNOTSADDLE_SCHEDULE, m));
    }
    return 0;
}
