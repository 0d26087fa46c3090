// Runs one workload N times on the library or on the second program, so that the difference between two values of N
// gives the instructions of one call.
//   bench WORKLOAD N lib|second
//   bench list
#include <stdio.h>
#include <stdlib.h>
#include <string.h>

#include "loughrella.h"
#include "second.h"

#define BLOCK 512u
#define DEVICE_BLOCKS 256u
#define EXTENT_AT 0u    // places in storage
#define LOCATE_AT 16u
#define DATA_AT 24u
#define FIRST_BLOCK 3u  // of every LOCATE
#define CLASS 100u      // chains of a class, of three commands each
#define ALTERNATES 64u  // on the lines that have them
#define MAP_AT 34u      // in the record

typedef uint32_t run_function(const uint8_t *, size_t, uint8_t *, size_t, uint8_t *, size_t, uint32_t, uint8_t *, size_t, uint8_t *,
                              size_t);
typedef uint32_t give_back_function(uint8_t *, size_t, uint32_t, uint8_t *, size_t, uint32_t);

struct machine {
    uint8_t chain[CLASS * (2 + 3 * 8)]; // or, each after its length, those of a class
    uint8_t storage[DATA_AT + 127 * BLOCK], store[(DEVICE_BLOCKS + ALTERNATES) * BLOCK], record[MAP_AT + 4 * ALTERNATES];
    uint8_t answers[CLASS * LOUGHRELLA_RESULT_SIZE(3 * 8)]; // or a class's results
    size_t chain_len;
    uint32_t alternates;
};

static void word(struct machine *m, unsigned command, unsigned address, unsigned flags, unsigned count)
{
    uint8_t *w = m->chain + m->chain_len;
    w[0] = (uint8_t)command;
    w[1] = 0;
    w[2] = (uint8_t)(address >> 8);
    w[3] = (uint8_t)address;
    w[4] = (uint8_t)flags;
    w[5] = 0;
    w[6] = (uint8_t)(count >> 8);
    w[7] = (uint8_t)count;
    m->chain_len += 8;
}

static void extent(struct machine *m)
{
    static const uint8_t whole[16] = {[15] = DEVICE_BLOCKS - 1};
    memcpy(m->storage + EXTENT_AT, whole, 16);
    word(m, 0x63, EXTENT_AT, 0x40, 16);
}

static void locate(struct machine *m, unsigned operation, unsigned blocks)
{
    const uint8_t p[8] = {(uint8_t)operation, 0, 0, (uint8_t)blocks, 0, 0, 0, FIRST_BLOCK};
    memcpy(m->storage + LOCATE_AT, p, 8);
    word(m, 0x43, LOCATE_AT, 0x40, 8);
}

// DEFINE EXTENT, LOCATE, and one transfer of so many bytes.
static void transfer(struct machine *m, unsigned command, unsigned blocks, unsigned count)
{
    extent(m);
    locate(m, command == 0x42 ? 6 : 1, blocks);
    word(m, command, DATA_AT, 0x20, count);
}

static void read_1(struct machine *m) { transfer(m, 0x42, 1, BLOCK); }
static void read_127(struct machine *m) { transfer(m, 0x42, 127, 127 * BLOCK); }
static void write_1(struct machine *m) { transfer(m, 0x41, 1, BLOCK); }
static void write_127(struct machine *m) { transfer(m, 0x41, 127, 127 * BLOCK); }
static void write_1_short(struct machine *m) { transfer(m, 0x41, 1, BLOCK / 2); }
static void write_127_short(struct machine *m) { transfer(m, 0x41, 127, 127 * BLOCK / 2); }

// The block at alternate i, where all are used: every other one of the 127.
static unsigned block_at(unsigned i) { return FIRST_BLOCK + 2 * i; }
static void map_block(struct machine *m, unsigned i) { m->record[MAP_AT + 4 * i + 3] = (uint8_t)(block_at(i) + 1); }

static void use_alternates(struct machine *m, unsigned used)
{
    m->alternates = ALTERNATES;
    for (unsigned i = 0; i < used; i++) map_block(m, i);
}

static void read_127_alternates(struct machine *m, unsigned used)
{
    read_127(m);
    use_alternates(m, used);
}

static void read_127_none(struct machine *m) { read_127_alternates(m, 0); }
static void read_127_half(struct machine *m) { read_127_alternates(m, ALTERNATES / 2); }
static void read_127_all(struct machine *m) { read_127_alternates(m, ALTERNATES); }

static void read_15_pairs(struct machine *m)
{
    extent(m);
    for (unsigned i = 0; i < 15; i++) {
        locate(m, 6, 1);
        word(m, 0x42, DATA_AT + BLOCK * i, i < 14 ? 0x40 : 0, BLOCK);
    }
}

// One READ of 16 blocks, a piece for each block.
static void read_16_pieces(struct machine *m)
{
    extent(m);
    locate(m, 6, 16);
    for (unsigned i = 0; i < 16; i++) word(m, 0x42, DATA_AT + BLOCK * i, i < 15 ? 0x80 : 0, BLOCK);
}

static void refused_call(struct machine *m)
{
    word(m, 0x03, 0, 0, 1);
    m->chain_len = 9; // cause 1
}

static void refused_first(struct machine *m)
{
    locate(m, 6, 1); // cause 30: no extent
    m->chain[4] = 0;
}

static void no_operations(struct machine *m)
{
    for (unsigned i = 0; i < 32; i++) word(m, 0x03, 0, i < 31 ? 0x40 : 0, 1);
}

static void class_read_1(struct machine *m)
{
    m->chain_len = 2;
    read_1(m);
    m->chain[0] = 0;
    m->chain[1] = (uint8_t)(m->chain_len - 2);
    for (unsigned i = 1; i < CLASS; i++) memcpy(m->chain + i * m->chain_len, m->chain, m->chain_len);
    m->chain_len *= CLASS;
}

// All are used, and one in the middle is given back, again and again.
static void give_back(struct machine *m) { use_alternates(m, ALTERNATES); }

struct program { run_function *run, *run_class; give_back_function *give_back; };
static const struct program library = {loughrella_run, loughrella_run_class, loughrella_give_back};
static const struct program second = {second_run, second_run_class, second_give_back};

static const struct { const char *name; void (*make)(struct machine *); uint32_t result; } workloads[] = {
    {"read-1", read_1, 3}, {"read-127", read_127, 3}, {"write-1", write_1, 3}, {"write-127", write_127, 3},
    {"write-1-short", write_1_short, 3}, {"write-127-short", write_127_short, 3}, {"locate-read-15", read_15_pairs, 31},
    {"read-16-pieces", read_16_pieces, 18},
    {"refused-cause-1", refused_call, 256}, {"refused-first-command", refused_first, 1}, {"no-operation-32", no_operations, 32},
    {"class-100-read-1", class_read_1, 0}, // the one whose function is that of a class
    {"read-127-alternates-none", read_127_none, 3}, {"read-127-alternates-half", read_127_half, 3},
    {"read-127-alternates-all", read_127_all, 3}, {"give-back", give_back, 0}, // the one that runs no chain
};
#define WORKLOADS (sizeof workloads / sizeof *workloads)

static uint32_t run_times(struct machine *m, size_t store_len, unsigned long times, run_function *function, uint32_t result)
{
    uint32_t wrong = 0;
    for (unsigned long i = 0; i < times; i++)
        wrong |= function(m->chain, m->chain_len, m->storage, sizeof m->storage, m->store, store_len, m->alternates, m->record,
                          sizeof m->record, m->answers, sizeof m->answers) ^ result;
    return wrong;
}

// The block is mapped again before each call.
static uint32_t give_back_times(struct machine *m, size_t store_len, unsigned long times, give_back_function *function)
{
    const unsigned alternate = ALTERNATES / 2;
    uint32_t wrong = 0;
    for (unsigned long i = 0; i < times; i++) {
        map_block(m, alternate);
        wrong |= function(m->store, store_len, m->alternates, m->record, sizeof m->record, block_at(alternate));
    }
    return wrong;
}

static int run(size_t which, unsigned long times, const struct program *program)
{
    run_function *function = workloads[which].make == class_read_1 ? program->run_class : program->run;
    static struct machine m;
    for (size_t i = 0; i < sizeof m.store; i++) m.store[i] = (uint8_t)(i * 7 + i / BLOCK);
    for (size_t i = 0; i < sizeof m.storage; i++) m.storage[i] = (uint8_t)(i * 5);
    second_record(m.record, sizeof m.record, 1, 0);
    workloads[which].make(&m);
    size_t store_len = BLOCK * (size_t)(DEVICE_BLOCKS + m.alternates);
    uint32_t wrong = workloads[which].make == give_back ? give_back_times(&m, store_len, times, program->give_back)
                                                        : run_times(&m, store_len, times, function, workloads[which].result);
    if (wrong != 0) fprintf(stderr, "%s: wrong result\n", workloads[which].name);
    return wrong == 0 ? 0 : 1;
}

int main(int argc, char **argv)
{
    if (argc == 2 && strcmp(argv[1], "list") == 0) {
        for (size_t i = 0; i < WORKLOADS; i++) puts(workloads[i].name);
        return 0;
    }
    for (size_t i = 0; argc == 4 && i < WORKLOADS; i++)
        if (strcmp(argv[1], workloads[i].name) == 0)
            return run(i, strtoul(argv[2], NULL, 10), strcmp(argv[3], "lib") == 0 ? &library : &second);
    fprintf(stderr, "usage: bench WORKLOAD N lib|second, or bench list\n");
    return 2;
}
