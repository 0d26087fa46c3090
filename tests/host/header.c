/* What README shows a C programmer: document 01's example, from an installed library, as C and as C++. */
#include <loughrella.h>

#include <stdio.h>
#include <string.h>

static const uint8_t chain[16] = {0x63, 0, 0, 0, 0x40, 0, 0, 16, 0x03, 0, 0, 0, 0x20, 0, 0, 1};
static const uint8_t expected[16] = {0x0C, 0, 0, 0, 0, 0, 0, 0, 0x0C, 0, 0, 1, 0, 0, 0, 0};
static uint8_t store[8 * LOUGHRELLA_BLOCK_SIZE];
static uint8_t storage[16] = {0xC0, 0, 0, 0, 0, 0, 0, 2, 0, 0, 0, 0, 0, 0, 0, 3};
static uint8_t record[LOUGHRELLA_RECORD_SIZE];

/* A class: the chain, an empty one, the chain again. */
static int class_is_right(void)
{
    uint8_t chains[2 + 16 + 2 + 2 + 16] = {0, 16}, results[2 * LOUGHRELLA_RESULT_SIZE(16) + LOUGHRELLA_RESULT_SIZE(0)];
    unsigned walked = 0, right = 0;

    memcpy(chains + 2, chain, sizeof chain);
    memcpy(chains + 20, chains, 2 + sizeof chain);
    uint32_t result = loughrella_run_class(chains, sizeof chains, storage, sizeof storage, store, sizeof store, 0, record,
                                           sizeof record, results, sizeof results);
    struct loughrella_walk at = loughrella_walk_results(chains, sizeof chains, results, sizeof results);
    for (; loughrella_next_result(&at); walked++) {
        printf("cause %u, %u answers\n", at.cause, at.reached);
        if (walked == 1) right += at.chain_len == 0 && at.cause == LOUGHRELLA_BAD_CHAIN && at.reached == 0;
        else right += at.cause == 0 && at.reached == 2 && memcmp(at.answers, expected, sizeof expected) == 0;
    }
    if (result != 0 || walked != 3 || right != 3 || at.chains_len != 0 || at.results_len != 0) return 0;
    result = loughrella_run_class(chains, sizeof chains, storage, sizeof storage, store, sizeof store, 0, record,
                                  sizeof record, results, sizeof results - 1);
    return result == 256 * LOUGHRELLA_BAD_CLASS;
}

/* Block 1 of a device of 7 is at its only alternate, and goes back; a second time there is nothing to give. */
static int give_back_is_right(void)
{
    uint8_t *alternate = store + 7 * LOUGHRELLA_BLOCK_SIZE, *entry = record + LOUGHRELLA_MAP_AT;

    loughrella_record(record, sizeof record, 1, 0);
    alternate[0] = 0x97;
    entry[3] = 1 + 1;
    uint32_t result = loughrella_give_back(store, sizeof store, 1, record, sizeof record, 7);
    if (result != 256 * LOUGHRELLA_BEYOND_DEVICE || entry[3] != 1 + 1) return 0;
    result = loughrella_give_back(store, sizeof store, 1, record, sizeof record, 1);
    if (result != LOUGHRELLA_ACCEPTED || store[LOUGHRELLA_BLOCK_SIZE] != 0x97 || alternate[0] != 0) return 0;
    result = loughrella_give_back(store, sizeof store, 1, record, sizeof record, 1);
    printf("cause %u\n", (unsigned)LOUGHRELLA_CAUSE(result));
    return result == 256 * LOUGHRELLA_NOT_MAPPED && entry[3] == LOUGHRELLA_UNUSED;
}

int main(void)
{
    uint8_t answers[16];

    loughrella_record(record, sizeof record, 1, 0);
    uint32_t result = loughrella_run(chain, sizeof chain, storage, sizeof storage, store, sizeof store, 0, record, sizeof record,
                                     answers, sizeof answers);
    printf("cause %u, %u commands\n", (unsigned)LOUGHRELLA_CAUSE(result), (unsigned)LOUGHRELLA_REACHED(result));
    if (result != 2 || memcmp(answers, expected, sizeof answers) != 0 || !class_is_right() || !give_back_is_right()) return 1;
    return loughrella_record(record, sizeof record - 1, 1, 0) == 256 * LOUGHRELLA_BAD_RECORD ? 0 : 1;
}
