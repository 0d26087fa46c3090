// Causes 1 to 6 of the call, each on each side of its line; with them nothing at all may be written. And record set-up. What
// alternates add, and cause 8, is in alternates.c.
#include "test.h"
#include "words.h"

#include <stdio.h>
#include <string.h>

#define STORE_MAX ((size_t)MAX_BLOCKS * BLOCK)
#define STORAGE_OF 24u

struct call {
    const char *name;
    size_t length[BUFFERS];
    uint8_t last; // flags of the last command word; all others have flag 40
    uint32_t result;
    bool bad_map; // there are no alternates, and an entry
};

// Chains are NO-OPERATIONs. The last word has neither flag 80 nor flag 40 in a good call, which so reaches all n words.
static const struct call calls[] = {
    {"1, chain of 0 bytes", {0, STORAGE_OF, 4096, 290, 64}, 0x00, 0x100, false},
    {"1, chain of 1 byte", {1, STORAGE_OF, 4096, 290, 64}, 0x00, 0x100, false},
    {"1, chain of 7 bytes", {7, STORAGE_OF, 4096, 290, 64}, 0x00, 0x100, false},
    {"1, chain of 8 bytes", {8, STORAGE_OF, 4096, 290, 64}, 0x00, 1, false},
    {"1, chain of 9 bytes", {9, STORAGE_OF, 4096, 290, 64}, 0x00, 0x100, false},
    {"1, chain of 12 bytes", {12, STORAGE_OF, 4096, 290, 64}, 0x00, 0x100, false},
    {"1, chain of 255 bytes", {255, STORAGE_OF, 4096, 290, 512}, 0x00, 0x100, false},
    {"1, chain of 256 bytes", {256, STORAGE_OF, 4096, 290, 256}, 0x00, 32, false},
    {"1, chain of 257 bytes", {257, STORAGE_OF, 4096, 290, 512}, 0x00, 0x100, false},
    {"1, chain of 264 bytes", {264, STORAGE_OF, 4096, 290, 512}, 0x00, 0x100, false},
    {"1, chain of 512 bytes", {512, STORAGE_OF, 4096, 290, 512}, 0x00, 0x100, false},
    {"2, store of 0 bytes", {8, STORAGE_OF, 0, 290, 8}, 0x00, 0x200, false},
    {"2, store of 1 byte", {8, STORAGE_OF, 1, 290, 8}, 0x00, 0x200, false},
    {"2, store of 511 bytes", {8, STORAGE_OF, 511, 290, 8}, 0x00, 0x200, false},
    {"2, store of 512 bytes", {8, STORAGE_OF, 512, 290, 8}, 0x00, 1, false},
    {"2, store of 513 bytes", {8, STORAGE_OF, 513, 290, 8}, 0x00, 0x200, false},
    {"2, store of 131,072 blocks less a byte", {8, STORAGE_OF, STORE_MAX - 1, 290, 8}, 0x00, 0x200, false},
    {"2, store of 131,072 blocks", {8, STORAGE_OF, STORE_MAX, 290, 8}, 0x00, 1, false},
    {"2, store of 131,072 blocks and a byte", {8, STORAGE_OF, STORE_MAX + 1, 290, 8}, 0x00, 0x200, false},
    {"2, store of 131,073 blocks", {8, STORAGE_OF, STORE_MAX + BLOCK, 290, 8}, 0x00, 0x200, false},
    {"3, no storage", {8, 0, 4096, 290, 8}, 0x00, 1, false},
    {"3, storage of 16,777,216 bytes", {8, MAX_STORAGE, 4096, 290, 8}, 0x00, 1, false},
    {"3, storage of 16,777,217 bytes", {8, MAX_STORAGE + 1, 4096, 290, 8}, 0x00, 0x300, false},
    {"4, no answers", {8, STORAGE_OF, 4096, 290, 0}, 0x00, 0x400, false},
    {"4, answers of 7 for 8", {8, STORAGE_OF, 4096, 290, 7}, 0x00, 0x400, false},
    {"4, answers of 8 for 8", {8, STORAGE_OF, 4096, 290, 8}, 0x00, 1, false},
    {"4, answers of 255 for 256", {256, STORAGE_OF, 4096, 290, 255}, 0x00, 0x400, false},
    {"4, answers of 257 for 256", {256, STORAGE_OF, 4096, 290, 257}, 0x00, 32, false},
    {"5, one word with flag 40", {8, STORAGE_OF, 4096, 290, 8}, 0x40, 0x500, false},
    {"5, 32 words with flag 40", {256, STORAGE_OF, 4096, 290, 256}, 0x40, 0x500, false},
    {"5, one word with flag 80", {8, STORAGE_OF, 4096, 290, 8}, 0x80, 0x500, false},
    {"5, the last word with flag 80", {16, STORAGE_OF, 4096, 290, 16}, 0x80, 0x500, false},
    {"5, the last of 32 words with flag 80", {256, STORAGE_OF, 4096, 290, 256}, 0x80, 0x500, false},
    {"5, the last word with flags 80 and 40", {16, STORAGE_OF, 4096, 290, 16}, 0xC0, 0x500, false},
    {"5, the last word with flags 80, 40 and 20", {16, STORAGE_OF, 4096, 290, 16}, 0xE0, 0x500, false},
    {"5, the last word with flag 20", {16, STORAGE_OF, 4096, 290, 16}, 0x20, 2, false},
    {"6, no record", {8, STORAGE_OF, 4096, 0, 8}, 0x00, 0x600, false},
    {"6, record of 34 bytes, as it was", {8, STORAGE_OF, 4096, 34, 8}, 0x00, 0x600, false},
    {"6, record of 256 bytes, the map alone", {8, STORAGE_OF, 4096, 256, 8}, 0x00, 0x600, false},
    {"6, record of 289 bytes", {8, STORAGE_OF, 4096, 289, 8}, 0x00, 0x600, false},
    {"6, record of 290 bytes", {8, STORAGE_OF, 4096, 290, 8}, 0x00, 1, false},
    {"6, record of 291 bytes", {8, STORAGE_OF, 4096, 291, 8}, 0x00, 0x600, false},
};

static void fill_chain(const struct buffers *b, uint8_t last)
{
    static const uint8_t word[8] = {0x03, 0, 0, 0, 0x40, 0, 0, 1};
    size_t length = b->length[CHAIN];
    for (size_t i = 0; i < length; i++) b->at[CHAIN][i] = word[i % 8];
    if (length >= 8) b->at[CHAIN][(length - 1) / 8 * 8 + 4 < length ? (length - 1) / 8 * 8 + 4 : 4] = last;
}

// Of a ready unit, with sense and counts and an empty map.
void fill_rest(const struct buffers *b)
{
    if (b->length[STORAGE] > 0) memset(b->at[STORAGE], 0xD1, b->length[STORAGE]);
    if (b->length[STORE] > 0) memset(b->at[STORE], 0xD2, b->length[STORE]);
    if (b->length[RECORD] > 0) memset(b->at[RECORD], 0xD3, b->length[RECORD]);
    if (b->length[RECORD] > MAP_AT) memset(b->at[RECORD] + MAP_AT, 0, b->length[RECORD] - MAP_AT);
    if (b->length[ANSWERS] > 0) memset(b->at[ANSWERS], 0xD4, b->length[ANSWERS]);
}

// The answers of NO-OPERATIONs with a count of 1 are all that a good call writes.
static void expect(const struct buffers *twin, uint32_t result)
{
    if (result >= 256) return;
    for (uint32_t i = 0; i < result; i++) text_bytes(twin->at[ANSWERS] + 8 * i, 8, NOP_DONE);
}

static bool call_holds(const struct call *c, bool at_end)
{
    struct buffers library, twin;
    buffers_place(&library, &twin, c->length, at_end);
    fill_chain(&library, c->last);
    fill_rest(&library);
    if (c->bad_map && c->length[RECORD] > MAP_AT) library.at[RECORD][MAP_AT] = 0xD3;
    buffers_copy(&library, &twin);
    expect(&twin, c->result);
    uint32_t result = call_library(&library);
    if (result != c->result) printf("  result %lX, not %lX\n", (unsigned long)result, (unsigned long)c->result);
    return buffers_equal(&library, &twin) && result == c->result;
}

// 01: the order of the call's causes; 02, ask 4: 8 after 6. Each of the 127 sets of broken rules gives the lowest of them. Rule 5
// also holds for a chain of 0 words and rule 4 is broken by no answers at all, so that every set can be built.
static bool call_order(void)
{
    for (unsigned broken = 1; broken < 128; broken++) {
        struct call c = {"order", {16, STORAGE_OF, 4096, 290, 16}, (uint8_t)((broken & 16) != 0 ? 0x80 : 0), 0x800, (broken & 64) != 0};
        if ((broken & 1) != 0) c.length[CHAIN] = 12;
        if ((broken & 2) != 0) c.length[STORE] = 4095;
        if ((broken & 4) != 0) c.length[STORAGE] = MAX_STORAGE + 1;
        if ((broken & 8) != 0) c.length[ANSWERS] = 11;
        if ((broken & 32) != 0) c.length[RECORD] = 289;
        for (unsigned cause = 6; cause >= 1; cause--)
            if ((broken >> (cause - 1) & 1) != 0) c.result = 256 * cause;
        if (!call_holds(&c, true)) return printf("  broken rules %02X\n", broken), false;
    }
    return true;
}

// 5 looks at every word of the slice: one word without flags 80 and 40, wherever it is, is enough; the run ends there. Where all
// words have flag 40 each is a command; where they have flag 80 all are pieces of the first, which alone is reached.
static bool call_end(uint8_t link)
{
    static const size_t length[BUFFERS] = {256, STORAGE_OF, 4096, 290, 256};
    for (uint32_t end = 0; end < 32; end++) {
        struct buffers library, twin;
        uint32_t reached = (link & 0x80) != 0 ? 1 : end + 1;
        buffers_place(&library, &twin, length, true);
        fill_chain(&library, link);
        for (uint32_t i = 0; i < 32; i++) library.at[CHAIN][8 * i + 4] = i == end ? 0 : link;
        fill_rest(&library);
        buffers_copy(&library, &twin);
        expect(&twin, reached);
        if (call_library(&library) != reached || !buffers_equal(&library, &twin))
            return printf("  end at word %lu\n", (unsigned long)end), false;
    }
    return true;
}

// Record set-up: sense, counts and map zero, the two bytes as given; another length gets 6 and nothing is written.
static bool record_holds(size_t size, uint8_t ready, uint8_t read_only, bool at_end)
{
    struct buffers library, twin;
    size_t length[BUFFERS] = {8, 0, 512, size, 8};
    buffers_place(&library, &twin, length, at_end);
    memset(library.at[RECORD], 0xD3, size);
    buffers_copy(&library, &twin);
    if (size == RECORD_SIZE) {
        memset(twin.at[RECORD], 0, RECORD_SIZE);
        twin.at[RECORD][32] = ready;
        twin.at[RECORD][33] = read_only;
    }
    uint32_t expected = size == RECORD_SIZE ? 0 : 0x600;
    return call_library_record(library.at[RECORD], size, ready, read_only) == expected && buffers_equal(&library, &twin);
}

static bool record_values(void)
{
    for (unsigned i = 0; i < 65536; i += 251)
        if (!record_holds(RECORD_SIZE, (uint8_t)(i >> 8), (uint8_t)i, i % 2 == 0)) return false;
    return record_holds(RECORD_SIZE, 0xFF, 0xFF, true) && record_holds(RECORD_SIZE, 1, 0, false);
}

static bool record_lengths(void)
{
    for (size_t size = 0; size < 600; size++)
        if (size != RECORD_SIZE && !(record_holds(size, 1, 0, true) && record_holds(size, 0, 1, false))) return false;
    return call_library_record(NULL, 0, 1, 0) == 0x600;
}

void test_calls(void)
{
    for (size_t i = 0; i < COUNT_OF(calls); i++) check("calls", calls[i].name, call_holds(&calls[i], true) && call_holds(&calls[i], false));
    check("calls", "the order of causes 1 to 6 and 8", call_order());
    check("calls", "5, the end at each word, flag 40", call_end(0x40));
    check("calls", "5, the end at each word, flag 80", call_end(0x80));
    check("calls", "5, the end at each word, flags 80 and 40", call_end(0xC0));
    check("calls", "record set-up, values", record_values());
    check("calls", "record set-up, lengths", record_lengths());
}
