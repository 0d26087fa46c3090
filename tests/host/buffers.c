// Five buffers between guard pages, their twins, and calls that survive a fault.
#define _GNU_SOURCE
#include "test.h"

#include <setjmp.h>
#include <signal.h>
#include <stdio.h>
#include <stdlib.h>
#include <string.h>
#include <sys/mman.h>
#include <unistd.h>

#include "loughrella.h"
#include "second.h"

#define PAGE 65536u   // a multiple of every page size, of the host's and of an emulated machine's
#define AROUND 64u    // bytes beside a buffer that are compared with it

struct area {
    uint8_t *low, *high;
};

const char *const buffer_names[BUFFERS] = {"chain", "storage", "store", "record", "answers"};

// Room for each buffer at its largest, and for the lengths that are just over.
static const size_t room[BUFFERS] = {MAX_CLASS, MAX_STORAGE + PAGE, (size_t)MAX_BLOCKS * BLOCK + PAGE, PAGE, MAX_CLASS};
static struct area areas[2][BUFFERS];

static sigjmp_buf after_fault;
static volatile sig_atomic_t calling;

static struct area area_open(size_t size)
{
    size_t whole = size + 3 * (size_t)PAGE;
    uint8_t *p = mmap(NULL, whole, PROT_NONE, MAP_PRIVATE | MAP_ANONYMOUS | MAP_NORESERVE, -1, 0);
    if (p == MAP_FAILED) {
        perror("mmap");
        exit(2);
    }
    uint8_t *low = p + PAGE + (PAGE - (uintptr_t)p % PAGE) % PAGE;
    if (mprotect(low, size, PROT_READ | PROT_WRITE) != 0) {
        perror("mprotect");
        exit(2);
    }
    return (struct area){low, low + size};
}

static void on_fault(int signal)
{
    if (calling) siglongjmp(after_fault, signal);
    static const char text[] = "a fault in the test itself\n0 passed, 1 failed\n";
    (void)!write(1, text, sizeof text - 1);
    _exit(2);
}

void buffers_open(void)
{
    static const int faults[] = {SIGSEGV, SIGBUS, SIGILL, SIGFPE, SIGTRAP, SIGABRT};
    struct sigaction action = {.sa_handler = on_fault};
    sigemptyset(&action.sa_mask);
    for (size_t i = 0; i < sizeof faults / sizeof *faults; i++) sigaction(faults[i], &action, NULL);
    for (int side = 0; side < 2; side++)
        for (int i = 0; i < BUFFERS; i++) areas[side][i] = area_open(room[i]);
}

void buffers_place(struct buffers *library, struct buffers *twin, const size_t length[BUFFERS], bool at_end)
{
    struct buffers *sides[2] = {library, twin};
    library->alternates = twin->alternates = 0;
    for (int side = 0; side < 2; side++)
        for (int i = 0; i < BUFFERS; i++) {
            const struct area *a = &areas[side][i];
            if (length[i] > room[i]) abort();
            sides[side]->at[i] = at_end ? a->high - length[i] : a->low;
            sides[side]->length[i] = length[i];
        }
}

// A buffer with the bytes around it, as far as its area goes.
static size_t window(const struct buffers *b, int side, int i, uint8_t **from)
{
    const struct area *a = &areas[side][i];
    uint8_t *low = b->at[i], *high = b->at[i] + b->length[i];
    low -= low - a->low < (ptrdiff_t)AROUND ? (size_t)(low - a->low) : AROUND;
    high += a->high - high < (ptrdiff_t)AROUND ? (size_t)(a->high - high) : AROUND;
    *from = low;
    return (size_t)(high - low);
}

void buffers_copy(const struct buffers *library, const struct buffers *twin)
{
    for (int i = 0; i < BUFFERS; i++) {
        uint8_t *from, *to;
        if (library->at[i] == NULL) continue;
        size_t size = window(library, 0, i, &from);
        window(twin, 1, i, &to);
        memcpy(to, from, size);
    }
}

bool buffers_equal(const struct buffers *library, const struct buffers *twin)
{
    for (int i = 0; i < BUFFERS; i++) {
        uint8_t *a, *b;
        if (library->at[i] == NULL) continue;
        size_t size = window(library, 0, i, &a), k = 0;
        window(twin, 1, i, &b);
        if (memcmp(a, b, size) == 0) continue;
        while (a[k] == b[k]) k++;
        printf("  %s byte %td: %02X, not %02X\n", buffer_names[i], a + k - library->at[i], a[k], b[k]);
        return false;
    }
    return true;
}

// What a chain and a class are run by: both have the same arguments. And what gives an alternate back.
typedef uint32_t run_function(const uint8_t *chain, size_t chain_len, uint8_t *storage, size_t storage_len, uint8_t *store,
                              size_t store_len, uint32_t alternates, uint8_t *record, size_t record_len, uint8_t *answers,
                              size_t answers_len);
typedef uint32_t give_back_function(uint8_t *store, size_t store_len, uint32_t alternates, uint8_t *record, size_t record_len,
                                    uint32_t block);

// Which of them is called on the buffers.
struct target {
    run_function *run;
    give_back_function *give_back; // of this block; NULL: a run
    uint32_t block;
};

static uint32_t call(struct target t, const struct buffers *b)
{
    if (t.give_back != NULL)
        return t.give_back(b->at[STORE], b->length[STORE], b->alternates, b->at[RECORD], b->length[RECORD], t.block);
    return t.run(b->at[CHAIN], b->length[CHAIN], b->at[STORAGE], b->length[STORAGE], b->at[STORE], b->length[STORE],
                 b->alternates, b->at[RECORD], b->length[RECORD], b->at[ANSWERS], b->length[ANSWERS]);
}

static uint32_t call_guarded(struct target t, const struct buffers *b)
{
    int signal = sigsetjmp(after_fault, 1);
    if (signal != 0) {
        calling = 0;
        printf("  the library ended with signal %d\n", signal);
        return FAULT;
    }
    calling = 1;
    uint32_t result = call(t, b);
    calling = 0;
    return result;
}

uint32_t call_library(const struct buffers *b) { return call_guarded((struct target){.run = loughrella_run}, b); }
uint32_t call_library_class(const struct buffers *b) { return call_guarded((struct target){.run = loughrella_run_class}, b); }
uint32_t call_second(const struct buffers *b) { return call((struct target){.run = second_run}, b); }
uint32_t call_second_class(const struct buffers *b) { return call((struct target){.run = second_run_class}, b); }

uint32_t call_library_give_back(const struct buffers *b, uint32_t block)
{
    return call_guarded((struct target){.give_back = loughrella_give_back, .block = block}, b);
}

uint32_t call_second_give_back(const struct buffers *b, uint32_t block)
{
    return call((struct target){.give_back = second_give_back, .block = block}, b);
}

uint32_t call_library_record(uint8_t *record, size_t length, uint8_t ready, uint8_t read_only)
{
    int signal = sigsetjmp(after_fault, 1);
    if (signal != 0) {
        calling = 0;
        printf("  the library's record set-up ended with signal %d\n", signal);
        return FAULT;
    }
    calling = 1;
    uint32_t result = loughrella_record(record, length, ready, read_only);
    calling = 0;
    return result;
}

int call_next_result(struct loughrella_walk *at)
{
    int signal = sigsetjmp(after_fault, 1);
    if (signal != 0) {
        calling = 0;
        printf("  the header's walk ended with signal %d\n", signal);
        return -1;
    }
    calling = 1;
    int result = loughrella_next_result(at);
    calling = 0;
    return result;
}

uint32_t get32(const uint8_t *from) { return (uint32_t)from[0] << 24 | (uint32_t)from[1] << 16 | (uint32_t)from[2] << 8 | from[3]; }

void put32(uint8_t *to, uint32_t value)
{
    for (int i = 0; i < 4; i++) to[i] = (uint8_t)(value >> (24 - 8 * i));
}

static void print_hex(const char *name, const uint8_t *bytes, size_t length)
{
    printf("  %s", name);
    for (size_t i = 0; i < length; i++) printf("%s%02X", i % 8 == 0 ? " " : "", bytes[i]);
    printf("\n");
}

void print_input(const struct buffers *b, const uint8_t record_before[RECORD_SIZE])
{
    for (int i = 0; i < BUFFERS; i++) printf("  %s length %zu\n", buffer_names[i], b->length[i]);
    printf("  alternates %lu\n", (unsigned long)b->alternates);
    print_hex("chain", b->at[CHAIN], b->length[CHAIN] < 2 * MAX_CHAIN ? b->length[CHAIN] : 2 * MAX_CHAIN);
    print_hex("record before", record_before, RECORD_SIZE);
}
