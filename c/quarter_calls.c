/* Makes every call of the quarter with right and with wrong arguments and checks each answer. Prints a line for each that is not the
 * expected one, and then how many there were of each. */
#include <stdint.h>
#include <stdio.h>
#include <string.h>

#include "knotsaddle_quarter.h"

static int passed, failed;

static void expect(const char *what, int64_t expected, int64_t got) {
    if (expected == got) {
        passed++;
        return;
    }
    failed++;
    printf("%s: expected %lld, got %lld\n", what, (long long)expected, (long long)got);
}

/* ---- A set that is accepted: one task, four resources, and assignments */

static const char *const files[KNOTSADDLE_FILES] = {
    [0] = "IPMDAR_SCHEDULE_PERFORMANCE_DATASET/1.0",
    [1] = "{\"SecurityMarking\":\"U\",\"ReportingPeriodEndDate\":\"2020-01-31\"}",
    [3] = "{\"StatusDate\":\"2020-01-31\",\"CurrentStartDate\":\"2020-01-01\",\"CurrentFinishDate\":\"2020-12-31\","
          "\"DurationUnitsID\":\"DAYS\"}",
    [6] = "[{\"ID\":\"C\",\"Name\":\"n\"}]",
    [7] = "[{\"CalendarID\":\"C\",\"MondayWorkHours\":8}]",
    [9] = "[{\"ID\":\"T\",\"Name\":\"n\",\"TaskTypeID\":\"MILESTONE\"}]",
    [10] = "[{\"TaskID\":\"T\",\"CalendarID\":\"C\",\"CurrentDuration\":5,\"CurrentStartDate\":\"2020-01-01\","
           "\"CurrentFinishDate\":\"2020-01-06\",\"EarlyStartDate\":\"2020-01-01\",\"EarlyFinishDate\":\"2020-01-06\","
           "\"LateStartDate\":\"2020-01-01\",\"LateFinishDate\":\"2020-01-06\",\"FreeFloatDuration\":0,"
           "\"TotalFloatDuration\":0,\"OnCriticalPath\":true,\"CalculatedPercentComplete\":0,\"RemainingDuration\":5}]",
    [16] = "[{\"ID\":\"L\",\"Name\":\"n\",\"ElementOfCostID\":\"LABOR\"},"
           "{\"ID\":\"M\",\"Name\":\"n\",\"ElementOfCostID\":\"MATERIAL\"},"
           "{\"ID\":\"O\",\"Name\":\"n\",\"ElementOfCostID\":\"OTHER_DIRECT_COSTS\"},"
           "{\"ID\":\"S\",\"Name\":\"n\",\"ElementOfCostID\":\"SUBCONTRACT\"}]",
};

static const char counted[] =
    "[{\"ResourceID\":\"L\",\"TaskID\":\"T\",\"Budget_AtCompletion_Dollars\":100000000,\"Actual_ToDate_Hours\":-0.0001},"
    "{\"ResourceID\":\"m\",\"TaskID\":\"t\",\"Budget_AtCompletion_Dollars\":0.5},"
    "{\"ResourceID\":\"S\",\"TaskID\":\"T\",\"Estimate_ToComplete_Hours\":3}]";
static const char too_large[] = "[{\"ResourceID\":\"L\",\"TaskID\":\"T\",\"Actual_ToDate_Dollars\":100000000.0001}]";
static const char no_resource[] = "[{\"ResourceID\":\"X\",\"TaskID\":\"T\"}]";

static uint8_t bundle[8000];

static void put_word(size_t at, size_t x) {
    for (int i = 0; i < 4; i++) bundle[at + i] = (uint8_t)(x >> 8 * i);
}

/* Makes the bundle of the files with these assignments, and answers its length. */
static size_t bundle_of(const char *assignments) {
    size_t at = KNOTSADDLE_EMPTY_BUNDLE;
    memset(bundle, 0, sizeof bundle);
    put_word(0, KNOTSADDLE_FILES);
    for (size_t k = 0; k < KNOTSADDLE_FILES; k++) {
        const char *file = k == 19 ? assignments : files[k];
        if (file == NULL) continue;
        put_word(4 + 8 * k, at);
        put_word(8 + 8 * k, strlen(file));
        memcpy(bundle + at, file, strlen(file));
        at += strlen(file);
    }
    return at;
}

static uint32_t work[KNOTSADDLE_WORKSPACE];

static void takes(void) {
    knotsaddle_quarter quarter;
    knotsaddle_grand grand;
    memset(&quarter, 0, sizeof quarter);
    memset(work, 0xff, sizeof work);
    size_t length = bundle_of(counted);
    expect("a set that counts", 0, knotsaddle_quarter_take_in(&quarter, bundle, length, &grand, work, KNOTSADDLE_WORKSPACE));
    expect("labor, budget dollars", 1000000000000, quarter.totals[0]);
    expect("labor, actual hours", -1, quarter.totals[5]);
    expect("material, budget dollars", 5000, quarter.totals[6]);
    expect("subcontract, estimate hours", 30000, quarter.totals[21]);
    expect("all, budget dollars", 1000000005000, grand.columns[0]);
    expect("all, estimate hours", 30000, grand.columns[3]);
    expect("all, actual hours", -1, grand.columns[5]);
    expect("one set", 1, quarter.sets);
    expect("none left out", 0, knotsaddle_quarter_left(&quarter));

    length = bundle_of(too_large);
    expect("an amount too large", 0, knotsaddle_quarter_take_bundle(&quarter, bundle, length, &grand));
    length = bundle_of(no_resource);
    expect("a set not accepted", 0, knotsaddle_quarter_take_bundle(&quarter, bundle, length, &grand));
    expect("no bundle", 0, knotsaddle_quarter_take_bundle(&quarter, NULL, 0, &grand));
    expect("four sets", 4, quarter.sets);
    expect("three left out", 3, knotsaddle_quarter_left(&quarter));
    expect("which", 0 << 0 | 1 << 1 | 1 << 2 | 1 << 3,
           quarter.left[0] << 0 | quarter.left[1] << 1 | quarter.left[2] << 2 | quarter.left[3] << 3);
    expect("the total is as it was", 1000000000000, quarter.totals[0]);
    expect("and the grand total", 1000000005000, grand.columns[0]);

    quarter.left[200] = true;
    expect("a flag that no set has yet", 3, knotsaddle_quarter_left(&quarter));
}

static void refuses(void) {
    knotsaddle_quarter quarter, before;
    knotsaddle_grand grand;
    size_t length = bundle_of(counted);
    memset(&quarter, 0, sizeof quarter);
    quarter.sets = 255;
    quarter.totals[23] = -255 * (int64_t)4096000000000000;
    expect("the 256th set", 0, knotsaddle_quarter_take_bundle(&quarter, bundle, length, &grand));
    before = quarter;
    memset(&grand, 9, sizeof grand);
    expect("a 257th set", KNOTSADDLE_QUARTER_FULL, knotsaddle_quarter_take_bundle(&quarter, bundle, length, &grand));
    expect("the state is as it was", 0, memcmp(&before, &quarter, sizeof quarter) != 0);
    expect("no grand total", 0, grand.columns[0]);

    memset(&quarter, 0, sizeof quarter);
    quarter.totals[0] = 1;
    expect("a total of no set", KNOTSADDLE_QUARTER_FULL, knotsaddle_quarter_take_bundle(&quarter, bundle, length, &grand));
    expect("10 without words", 0, strlen(knotsaddle_in_words(KNOTSADDLE_QUARTER_FULL)) == 0);
    quarter.totals[0] = -(int64_t)4096000000000000 - 1;
    quarter.sets = 1;
    expect("a total beyond one set", KNOTSADDLE_QUARTER_FULL, knotsaddle_quarter_take_bundle(&quarter, bundle, length, &grand));
    quarter.totals[0] += 1;
    expect("a total at its limit", 0, knotsaddle_quarter_take_bundle(&quarter, bundle, length, &grand));
    expect("two sets", 2, quarter.sets);

    before = quarter;
    quarter.sets = before.sets = 256;
    memset(work, 0xff, sizeof work);
    expect("a short workspace, before all else", KNOTSADDLE_SHORT_WORKSPACE,
           knotsaddle_quarter_take_in(&quarter, bundle, length, &grand, work, KNOTSADDLE_WORKSPACE - 1));
    expect("the state then", 0, memcmp(&before, &quarter, sizeof quarter) != 0);
    expect("the workspace then", 0xffffffff, work[0]);
}

int main(void) {
    takes();
    refuses();
    printf("%d passed, %d failed\n", passed, failed);
    return failed != 0;
}
