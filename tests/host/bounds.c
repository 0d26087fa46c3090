// Bad input at the boundary, and good input flush against it: nothing outside a buffer may be touched.
#include "test.h"
#include "words.h"

#include <stdio.h>
#include <string.h>

static const uint8_t listed[9] = {0x03, 0x63, 0x43, 0x42, 0x41, 0x02, 0x04, 0xE4, 0xA4};
static const size_t plain_length[BUFFERS] = {24, 40, 1024, RECORD_SIZE, 24};

static bool same_as_second(const struct buffers *library, const struct buffers *twin)
{
    uint8_t record[RECORD_SIZE] = {0};
    if (library->at[RECORD] != NULL)
        memcpy(record, library->at[RECORD], library->length[RECORD] < RECORD_SIZE ? library->length[RECORD] : RECORD_SIZE);
    uint32_t wanted = call_second(twin), result = call_library(library);
    if (result == wanted && buffers_equal(library, twin)) return true;
    if (result != wanted) printf("  result %lu, not %lu\n", (unsigned long)result, (unsigned long)wanted);
    print_input(twin, record);
    return false;
}

// Every byte random, but for the map, which is right: else every call would be refused by 8.
static void fill_random(struct random *r, const struct buffers *b)
{
    for (int i = 0; i < BUFFERS; i++) random_fill(r, b->at[i], b->length[i]);
    if (b->length[RECORD] != RECORD_SIZE) return;
    struct device d = {.primaries = (uint32_t)(b->length[STORE] / BLOCK) - b->alternates, .alternates = b->alternates};
    generate_map(r, &d);
    memcpy(b->at[RECORD] + MAP_AT, d.map, MAP_SIZE);
}

// Every byte random, lengths random too, and of one input in eight the map. One chain in two has flags and counts that let it go
// further.
static bool random_bytes(struct random *r, bool at_end)
{
    for (int run = 0; run < 20000; run++) {
        struct buffers library, twin;
        size_t length[BUFFERS] = {8 * (size_t)random_below(r, 34), random_below(r, 600), BLOCK * (size_t)random_below(r, 5), RECORD_SIZE, 0};
        uint32_t blocks = (uint32_t)(length[STORE] / BLOCK);
        length[ANSWERS] = length[CHAIN] + random_below(r, 3);
        if (random_below(r, 4) == 0) length[random_below(r, BUFFERS)] = random_below(r, 1100);
        buffers_place(&library, &twin, length, at_end);
        if (blocks > 0) library.alternates = twin.alternates = random_below(r, blocks);
        fill_random(r, &library);
        if (run % 8 == 7 && length[RECORD] == RECORD_SIZE) random_fill(r, library.at[RECORD] + MAP_AT, MAP_SIZE);
        for (size_t i = 0; run % 2 == 0 && i + 8 <= length[CHAIN]; i += 8) {
            uint8_t *w = library.at[CHAIN] + i;
            w[1] = 0;
            w[2] &= 1;
            w[4] &= run % 4 == 0 ? 0xE0 : 0x60; // with flag 80 too in one chain of four
            w[6] = 0;
            w[0] = listed[random_below(r, 9)];
        }
        buffers_copy(&library, &twin);
        if (!same_as_second(&library, &twin)) return false;
    }
    return true;
}

// Each of the five lengths right, one less and one more, in all 243 ways.
static bool lengths_just_off(struct random *r, bool at_end)
{
    for (int way = 0; way < 243; way++) {
        struct buffers library, twin;
        size_t length[BUFFERS];
        for (int i = 0, rest = way; i < BUFFERS; i++, rest /= 3) length[i] = plain_length[i] + (size_t)(rest % 3) - 1;
        buffers_place(&library, &twin, length, at_end);
        fill_random(r, &library);
        uint8_t chain[24];
        text_bytes(chain, sizeof chain, "E4 000000 60 00 0028 A4 000010 40 00 0018 04 000000 00 00 0018");
        memcpy(library.at[CHAIN], chain, length[CHAIN] < sizeof chain ? length[CHAIN] : sizeof chain);
        buffers_copy(&library, &twin);
        if (!same_as_second(&library, &twin)) return printf("  way %d\n", way), false;
    }
    return true;
}

#define READY_EMPTY "32*00 " READY_RW " 256*00"

// NULL with length 0 for each set of buffers; the cause is the lowest that the missing ones give, storage gives none.
static bool null_buffers(void)
{
    for (unsigned missing = 0; missing < 32; missing++) {
        struct buffers library, twin;
        size_t length[BUFFERS];
        memcpy(length, plain_length, sizeof length);
        for (int i = 0; i < BUFFERS; i++)
            if ((missing >> i & 1) != 0) length[i] = 0;
        buffers_place(&library, &twin, length, true);
        if (length[CHAIN] > 0) text_bytes(library.at[CHAIN], 24, "03 000000 40 00 0001 03 000000 40 00 0001 03 000000 00 00 0001");
        buffers_copy(&library, &twin);
        bool chain = (missing & 1) != 0, store = (missing & 4) != 0, record = (missing & 8) != 0, answers = (missing & 16) != 0;
        uint32_t expected = chain ? 0x100 : store ? 0x200 : answers ? 0x400 : record ? 0x600 : 3;
        if (!record) text_bytes(library.at[RECORD], RECORD_SIZE, READY_EMPTY), text_bytes(twin.at[RECORD], RECORD_SIZE, READY_EMPTY);
        if (expected == 3) text_bytes(twin.at[ANSWERS], 24, NOP_DONE NOP_DONE NOP_DONE);
        for (int i = 0; i < BUFFERS; i++)
            if ((missing >> i & 1) != 0) library.at[i] = twin.at[i] = NULL;
        uint32_t result = call_library(&library);
        if (result != expected || !buffers_equal(&library, &twin)) return printf("  missing %02X\n", missing), false;
    }
    return true;
}

// With no storage every command that has a data area is refused, and storage may be NULL.
static bool null_storage(void)
{
    static const uint8_t commands[] = {0x63, 0x43, 0x42, 0x41, 0x02, 0x04, 0xE4, 0xA4, 0xFF};
    for (size_t i = 0; i < sizeof commands; i++) {
        struct buffers library, twin;
        size_t length[BUFFERS] = {8, 0, 512, RECORD_SIZE, 8};
        buffers_place(&library, &twin, length, true);
        text_bytes(library.at[CHAIN], 8, "00 000000 20 00 0001");
        library.at[CHAIN][0] = commands[i];
        text_bytes(library.at[RECORD], RECORD_SIZE, PENDING_RECORD " 256*00");
        buffers_copy(&library, &twin);
        text_bytes(twin.at[ANSWERS], 8, PROGRAM("0001", "0C"));
        library.at[STORAGE] = twin.at[STORAGE] = NULL;
        if (call_library(&library) != 1 || !buffers_equal(&library, &twin)) return printf("  command %02X\n", commands[i]), false;
    }
    return true;
}

// A command whose data area is the whole of storage: a word, or two pieces of which the first has the rear `part` bytes. Tells
// how many words were written.
static size_t put_whole(uint8_t *to, uint8_t command, uint32_t count, uint32_t part)
{
    uint32_t front = count - part;
    const uint8_t rear_word[8] = {command, 0, (uint8_t)(front >> 8), (uint8_t)front, 0x80, 0, (uint8_t)(part >> 8), (uint8_t)part};
    const uint8_t front_word[8] = {command, 0, 0, 0, 0x20, 0, (uint8_t)(front >> 8), (uint8_t)front};
    if (part > 0) memcpy(to, rear_word, 8);
    memcpy(to + (part > 0 ? 8 : 0), front_word, 8);
    return part > 0 ? 2 : 1;
}

// One such command. Storage lies against the guard.
static bool whole_area(struct random *r, uint8_t command, uint32_t count, uint32_t part, bool at_end)
{
    struct buffers library, twin;
    uint8_t chain[16];
    size_t length[BUFFERS] = {8 * put_whole(chain, command, count, part), count, 1024, RECORD_SIZE, 0};
    length[ANSWERS] = length[CHAIN];
    buffers_place(&library, &twin, length, at_end);
    fill_random(r, &library);
    memcpy(library.at[CHAIN], chain, length[CHAIN]);
    text_bytes(library.at[RECORD] + 32, 2, READY_RW);
    buffers_copy(&library, &twin);
    return same_as_second(&library, &twin);
}

static bool whole_areas(struct random *r, bool at_end)
{
    static const uint8_t commands[] = {0x04, 0xE4, 0xA4, 0x02, 0x63};
    for (size_t i = 0; i < sizeof commands; i++)
        for (uint32_t count = 1; count < 1100; count += count < 40 || (count > 500 && count < 520) ? 1 : 17) {
            uint32_t part = random_below(r, count);
            if (!whole_area(r, commands[i], count, 0, at_end) || !whole_area(r, commands[i], count, part, at_end))
                return printf("  command %02X, %lu bytes, %lu of them first\n", commands[i], (unsigned long)count, (unsigned long)part), false;
        }
    return whole_area(r, commands[0], 65535, 0, at_end) && whole_area(r, commands[0], 65535, 65534, at_end);
}

// READ and WRITE of each block of a store that lies against the guard, into and from the whole of storage. Up to two of the
// store's blocks, which are its last, are alternates.
static bool whole_transfer(struct random *r, uint8_t operation, uint32_t block, uint32_t blocks, uint32_t count, uint32_t part, bool at_end)
{
    struct buffers library, twin;
    uint8_t chain[32];
    text_bytes(chain, 16, "02 000000 60 00 0001 43 000000 60 00 0008");
    size_t words = 2 + put_whole(chain + 16, operation == 6 ? 0x42 : 0x41, count, part);
    size_t length[BUFFERS] = {8 * words, count, 3 * BLOCK, RECORD_SIZE, 8 * words};
    buffers_place(&library, &twin, length, at_end);
    library.alternates = twin.alternates = random_below(r, 3);
    fill_random(r, &library);
    memcpy(library.at[CHAIN], chain, length[CHAIN]);
    for (size_t i = 0; i < 3; i++) library.at[STORE][i * BLOCK] = operation; // the READ IPL brings the operation byte
    text_bytes(library.at[STORAGE], 8, "00000000 00000000");
    library.at[STORAGE][3] = (uint8_t)blocks;
    library.at[STORAGE][7] = (uint8_t)block;
    text_bytes(library.at[RECORD] + 32, 2, READY_RW);
    buffers_copy(&library, &twin);
    return same_as_second(&library, &twin);
}

static bool whole_transfers(struct random *r, bool at_end)
{
    static const uint8_t operations[] = {6, 1, 5};
    static const uint32_t counts[] = {8, 9, 511, 512, 513, 1023, 1024, 1025, 1535, 1536, 1537, 4000};
    for (size_t i = 0; i < COUNT_OF(operations); i++)
        for (uint32_t block = 0; block < 4; block++)
            for (uint32_t blocks = 0; blocks < 5; blocks++)
                for (size_t k = 0; k < COUNT_OF(counts); k++) {
                    if (!whole_transfer(r, operations[i], block, blocks, counts[k], 0, at_end)) return false;
                    if (!whole_transfer(r, operations[i], block, blocks, counts[k], random_below(r, counts[k]), at_end)) return false;
                }
    return true;
}

void test_bounds(uint64_t seed)
{
    struct random r = {seed + 1};
    check("bounds", "random bytes against the rear guards", random_bytes(&r, true));
    check("bounds", "random bytes against the front guards", random_bytes(&r, false));
    check("bounds", "lengths just off, rear guards", lengths_just_off(&r, true));
    check("bounds", "lengths just off, front guards", lengths_just_off(&r, false));
    check("bounds", "whole storage as data area, rear guards", whole_areas(&r, true));
    check("bounds", "whole storage as data area, front guards", whole_areas(&r, false));
    check("bounds", "whole blocks, rear guards", whole_transfers(&r, true));
    check("bounds", "whole blocks, front guards", whole_transfers(&r, false));
    check("bounds", "NULL for every set of buffers", null_buffers());
    check("bounds", "no storage, every command", null_storage());
}
