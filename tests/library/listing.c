/* Document 01's listing, from C. */
#include "strakewhip.h"
#include <stdio.h>

static const uint8_t network[] = {2, 1, 1, 2, 2, 2, 1, 3, 1, 1, 1, 2, 3, 10, 10, 1, 0};
static const uint8_t edits[] = {4,  1, 1, 7, 1, 0, 100, 102, 3, 2, 7, 1, 0, 115, 115, 1,
                                1, 12, 1, 1, 7, 1, 0,   100, 102, 9, 1, 1, 5, 2, 7, 9};
static const size_t starts[] = {1, 8, 18, 25, 32};

static uint8_t division[STRAKEWHIP_DIVISION];
static uint8_t sheet[STRAKEWHIP_SHEET];
static uint8_t answers[STRAKEWHIP_MOST_ANSWERS];
static uint16_t found[STRAKEWHIP_MOST_FINDINGS];

int main(void) {
    uint32_t tally[4] = {0, 0, 0, 0};
    int visits = 0, relations = 0;
    size_t i;
    strakewhip_reply r, raised;
    r = strakewhip_run(network, sizeof network, edits, sizeof edits, division, sizeof division, answers,
                       sizeof answers);
    if (r.refusal) return 1;
    for (i = 0; i < r.length / 2; i++) {
        printf("E %zu %d %d\n", i + 1, answers[2 * i], answers[2 * i + 1]);
        raised = strakewhip_raise(edits + starts[i], starts[i + 1] - starts[i], answers[2 * i], answers[2 * i + 1],
                                  tally);
        if (raised.refusal) return 1;
    }
    if (strakewhip_merge(network, sizeof network, division, sizeof division, sheet, sizeof sheet).refusal) return 1;
    r = strakewhip_findings(network, sizeof network, sheet, sizeof sheet, found, STRAKEWHIP_MOST_FINDINGS);
    if (r.refusal) return 1;
    for (i = 0; i < r.length; i += 4) printf("F %d %d %d %d\n", found[i], found[i + 1], found[i + 2], found[i + 3]);
    for (i = 0; i < STRAKEWHIP_SHEET; i += 512) {
        visits += sheet[i];
        relations += sheet[i + 1];
    }
    printf("T %d %d %zu\n", visits, relations, r.length / 4);
    printf("A %u %u %u %u\n", (unsigned)tally[0], (unsigned)tally[1], (unsigned)tally[2], (unsigned)tally[3]);
    return 0;
}
