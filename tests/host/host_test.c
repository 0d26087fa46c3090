// The host test: calls the library under test and counts what passed.
//   host_test [chains [seed]]     random chains, a tenth as many random classes, and a hundredth as many random histories
#include "test.h"

#include <stdio.h>
#include <stdlib.h>

static unsigned passed, failed;

void check(const char *part, const char *name, bool holds)
{
    if (holds) {
        passed++;
    } else {
        failed++;
        printf("FAILED %s: %s\n", part, name);
    }
}

bool check_row(struct row *row, void *tally)
{
    bool same = true;
    for (uint32_t i = 0; i < row->count && same; i++) {
        struct random r = {row->seed ^ (uint64_t)(i + 1) * row->salt};
        same = row->holds(&r, i, tally);
        row->run = i + 1;
        if (!same) printf("  %s %lu of seed %llu\n", row->what, (unsigned long)i, (unsigned long long)row->seed);
        if (!same || i % row->batch == row->batch - 1 || i == row->count - 1) check(row->part, row->name, same);
        if (row->shown > 0 && i % row->shown == row->shown - 1)
            fprintf(stderr, "host: %lu of %lu random %ss\n", (unsigned long)i + 1, (unsigned long)row->count, row->what);
    }
    return same;
}

int main(int argc, char **argv)
{
    uint32_t chains = argc > 1 ? (uint32_t)strtoul(argv[1], NULL, 10) : 200000;
    uint64_t seed = argc > 2 ? strtoull(argv[2], NULL, 10) : 97;
    buffers_open();
    test_lines();
    test_causes();
    test_pieces();
    test_calls();
    test_alternates();
    test_class();
    test_give_back();
    test_bounds(seed);
    test_histories(chains / 100, seed);
    test_class_random(chains / 10, seed);
    test_random(chains, seed);
    printf("%u passed, %u failed\n", passed, failed);
    return failed == 0 ? 0 : 1;
}
