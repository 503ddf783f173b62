/* The cheapest plan of a dwelling's year, held against the known figure. */
#include <inttypes.h>
#include <stdio.h>

#include "funderaky.h"

int main(void) {
    uint64_t ne = funderaky_month_ne(888131, 141151, 10000);
    funderaky_facts facts = {
        .marks = 1,
        .power = 100,
        .kinds = {1},
        .day = {2000},
        .night = {1500},
        .months = 12,
        .ne_sum = 12 * ne,
        .nc_sum = 12 * 10000,
    };
    funderaky_plan plan = {0};
    uint64_t status = funderaky_choose(FUNDERAKY_DECREE, (const uint8_t *)"", 0, &facts, &plan);
    if (status != FUNDERAKY_DONE) {
        printf("refused by %" PRIu64 "\n", status);
        return 1;
    }
    printf("code %" PRIu64 ", EUR %" PRIu64 ".%02" PRIu64 "\n", plan.code, plan.cents / 100, plan.cents % 100);
    return plan.code == 729 && plan.cents == 30861 ? 0 : 1;
}
