// The most that one call can cost (docs/SPEED.md): a chain of 32 CCWs that stores as many blocks as any chain can, and then moves
// as many bytes as it can. READ IPL, then fifteen times LOCATE for 65,535 blocks and WRITE of 65,535 bytes; the last WRITE has a
// second piece of as many.
//   costliest lib|second CALLS     the wall seconds of a call: the least, the middle and the largest of so many
//   costliest compare              one call of each leaves the same bytes
#define _POSIX_C_SOURCE 200809L
#include <stdio.h>
#include <stdlib.h>
#include <string.h>
#include <time.h>

#include "loughrella.h"
#include "second.h"

#define MOST 65535u // of two bytes: a block count, and a count of bytes
#define DATA_AT 16u // behind the parameters of two LOCATEs
#define BOOT_AT (DATA_AT + MOST)

typedef uint32_t run_function(const uint8_t *, size_t, uint8_t *, size_t, uint8_t *, size_t, uint32_t, uint8_t *, size_t, uint8_t *,
                              size_t);

struct machine {
    uint8_t chain[256], storage[BOOT_AT + 512], record[LOUGHRELLA_RECORD_SIZE], answers[256];
    uint8_t *store;
    size_t chain_len, store_len;
};

static void word(struct machine *m, unsigned command, unsigned address, unsigned flags, unsigned count)
{
    const uint8_t w[8] = {(uint8_t)command, (uint8_t)(address >> 16), (uint8_t)(address >> 8), (uint8_t)address,
                          (uint8_t)flags, 0, (uint8_t)(count >> 8), (uint8_t)count};
    memcpy(m->chain + m->chain_len, w, 8);
    m->chain_len += 8;
}

static struct machine *make(void)
{
    struct machine *m = calloc(1, sizeof *m);
    if (m == NULL) exit(1);
    m->store_len = (size_t)LOUGHRELLA_MAX_BLOCKS * LOUGHRELLA_BLOCK_SIZE;
    m->store = malloc(m->store_len);
    if (m->store == NULL) exit(1);
    memset(m->store, 0xA5, m->store_len); // so every page is there before the first call
    memset(m->storage, 0x5A, sizeof m->storage);
    second_record(m->record, sizeof m->record, 1, 0);
    // by turns the blocks from 0 on and those from 65,536 on, so that no block is stored twice in a row
    static const uint8_t locates[16] = {5, 0, 0xFF, 0xFF, 0, 0, 0, 0, 5, 0, 0xFF, 0xFF, 0, 1, 0, 0};
    memcpy(m->storage, locates, 16);
    word(m, 0x02, BOOT_AT, 0x40, 512);
    for (unsigned i = 0; i < 15; i++) {
        word(m, 0x43, 8 * (i % 2), 0x40, 8);
        word(m, 0x41, DATA_AT, i < 14 ? 0x60 : 0x80, MOST);
    }
    word(m, 0x41, DATA_AT, 0x20, MOST);
    return m;
}

static double call(struct machine *m, run_function *function)
{
    struct timespec from, to;
    clock_gettime(CLOCK_MONOTONIC, &from);
    uint32_t result = function(m->chain, m->chain_len, m->storage, sizeof m->storage, m->store, m->store_len, 0, m->record,
                               sizeof m->record, m->answers, sizeof m->answers);
    clock_gettime(CLOCK_MONOTONIC, &to);
    if (result != 32) {
        fprintf(stderr, "costliest: result %u, and not 32\n", (unsigned)result);
        exit(1);
    }
    return (double)(to.tv_sec - from.tv_sec) + (double)(to.tv_nsec - from.tv_nsec) / 1e9;
}

static int by_size(const void *a, const void *b)
{
    double x = *(const double *)a, y = *(const double *)b;
    return (x > y) - (x < y);
}

int main(int argc, char **argv)
{
    struct machine *m = make();
    if (argc == 2 && strcmp(argv[1], "compare") == 0) {
        struct machine *n = make();
        call(m, loughrella_run);
        call(n, second_run);
        int same = memcmp(m->store, n->store, m->store_len) == 0 && memcmp(m->storage, n->storage, sizeof m->storage) == 0 &&
                   memcmp(m->record, n->record, sizeof m->record) == 0 && memcmp(m->answers, n->answers, sizeof m->answers) == 0;
        puts(same ? "the same bytes" : "costliest: the bytes differ");
        return same ? 0 : 1;
    }
    long calls = argc == 3 ? strtol(argv[2], NULL, 10) : 0;
    if (calls < 1) return fprintf(stderr, "usage: costliest lib|second CALLS, or costliest compare\n"), 2;
    double *seconds = calloc((size_t)calls, sizeof *seconds);
    if (seconds == NULL) return 1;
    for (long i = 0; i < calls; i++) seconds[i] = call(m, strcmp(argv[1], "lib") == 0 ? loughrella_run : second_run);
    qsort(seconds, (size_t)calls, sizeof *seconds, by_size);
    printf("%s: %.4f %.4f %.4f seconds\n", argv[1], seconds[0], seconds[calls / 2], seconds[calls - 1]);
    return 0;
}
