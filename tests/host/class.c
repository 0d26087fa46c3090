// A class of chains in one call (02, ask 3), and the header's walk over its results; all worked out by hand from the papers.
#include "test.h"
#include "words.h"

#include <stdio.h>
#include <string.h>

#include "loughrella.h"

// The first four bytes of a result: cause, commands reached. Room follows, 8*EE for each answer that is not there.
#define RAN(reached) "0000 " reached " "
#define REFUSED_BY(cause) cause " 0000 "
#define NOP_CHAIN "0008" NOP_END // its length, then the chain
#define NOP_RESULT RAN("0001") NOP_DONE
#define NOP_ON "03 000000 40 00 0001 "
#define ENDLESS "0008" NOP_ON

static const struct line chain_lines[] = {
    {.name = "one chain", .why = "01's sample: length 16, then cause 0, 2 reached, 2 answers",
     .storage = "C0000000000000020000000000000003", .chain = "0010 6300000040000010 0300000020000001",
     .answers = RAN("0002") DONE NOP_DONE},
    {.name = "one chain of length 0", .why = "readings: cause 1, and takes 4 bytes", .storage = "", .chain = "0000",
     .answers = REFUSED_BY("0001")},
    {.name = "a refused command", .why = "its cause stands in its answer; the chain's own is 0", .storage = DEVICE "8*00",
     .chain = "0008" LOCATE_END, .answers = RAN("0001") REFUSED("0008", "1E"), .sense = SENSE_SEQUENCE},
    {.name = "words after the chain's end", .why = "room for 3, used by 1: the rest stays, the next result is behind it",
     .storage = "", .chain = "0018" NOP_END NOP_END NOP_END NOP_CHAIN, .answers = NOP_RESULT "16*EE" NOP_RESULT},
    {.name = "a command in pieces", .why = "02, ask 2: each piece reached is counted; 2 of 3 here", .storage = "8*DD",
     .chain = "0018 E4 000000 80 00 0003 E4 000003 80 00 0004 E4 000007 20 00 0001" NOP_CHAIN,
     .answers = RAN("0002") USED DONE "8*EE" NOP_RESULT, .storage_after = {{0, "FF009701051201"}}},
    {.name = "a class of refused chains", .why = "lengths 0 and 12 are cause 1, flag 40 at the end 5; none stops the class",
     .storage = "", .chain = "0000" ENDLESS "000C 12*00" NOP_CHAIN ENDLESS "0000",
     .answers = REFUSED_BY("0001") REFUSED_BY("0005") "8*EE" REFUSED_BY("0001") "16*EE" NOP_RESULT REFUSED_BY("0005") "8*EE"
                REFUSED_BY("0001")},
    {.name = "a chain that ends in flag 40 or 80 is not gone on with", .why = "the next chain is none of its CCWs: 5, and 5",
     .storage = "8*DD", .chain = "0008 E4 000000 80 00 0003" NOP_CHAIN ENDLESS NOP_CHAIN,
     .answers = REFUSED_BY("0005") "8*EE" NOP_RESULT REFUSED_BY("0005") "8*EE" NOP_RESULT},
    {.name = "not ready", .why = "each chain has its own 44; NO-OPERATION too", .record = NOT_READY, .storage = "",
     .chain = NOP_CHAIN NOP_CHAIN, .answers = RAN("0001") REFUSED("0001", "2C") RAN("0001") REFUSED("0001", "2C"),
     .sense = SENSE_NOT_READY},
    {.name = "the other byte order would be right too",
     .why = "lengths 0001 and 00FD, refused by 1; with 0100 it would be one chain, and run", .storage = "",
     .chain = "0001 03 00FD 253*00", .answers = REFUSED_BY("0001") "8*EE" REFUSED_BY("0001") "256*EE"},
};

// What one chain leaves the next one finds; what ends with a chain is not there.
static const struct line handed_on_lines[] = {
    {.name = "the store is handed on", .why = "the first writes A5s to block 3, the second reads them",
     .storage = DEVICE "01000001 00000003 06000001 00000003 512*A5 512*DD",
     .chain = "0018" DEFINE LOCATE "41 000020 00 00 0200 0018" DEFINE LOCATE2 "42 000220 00 00 0200",
     .answers = RAN("0003") DONE DONE MOVED("0001") RAN("0003") DONE DONE MOVED("0001"), .log = LOG("000001", "000000", "0002"),
     .storage_after = {{0x220, "512*A5"}}, .store_after = {{3 * BLOCK, "512*A5"}}},
    {.name = "main storage is handed on", .why = "the first reads block 5 (05s), the second writes that to block 2",
     .storage = DEVICE "06000001 00000005 01000001 00000002 512*DD",
     .chain = "0018" DEFINE LOCATE "42 000020 00 00 0200 0018" DEFINE LOCATE2 "41 000020 00 00 0200",
     .answers = RAN("0003") DONE DONE MOVED("0001") RAN("0003") DONE DONE MOVED("0001"), .log = LOG("000001", "000000", "0002"),
     .storage_after = {{0x20, "512*05"}}, .store_after = {{2 * BLOCK, "512*05"}}},
    {.name = "sense is handed on", .why = "30 leaves 80 00 .. 02, the second's SENSE moves it and zeroes it for the third's",
     .storage = DEVICE "16*DD 48*DD", .chain = "0008" LOCATE_END "0008 04 000020 00 00 0018 0008 04 000038 00 00 0018",
     .answers = RAN("0001") REFUSED("0008", "1E") RAN("0001") DONE RAN("0001") DONE,
     .storage_after = {{0x20, SENSE_SEQUENCE " 16*00"}, {0x38, "24*00"}}},
    {.name = "the counts are handed on", .why = "READ IPL counts one block and one movement; the log shows them once",
     .storage = "64*DD", .chain = "0008 02 000000 20 00 0001 0008 A4 000010 00 00 0018 0008 A4 000028 00 00 0018",
     .answers = RAN("0001") MOVED("0001") RAN("0001") DONE RAN("0001") DONE,
     .storage_after = {{0, "00"}, {0x10, "00 00 10 00000000 68 000001 00000000 000000 00 0001 000000"},
                       {0x28, "00 00 10 00000000 68 16*00"}}},
    {.name = "three chains", .why = "A5s go from storage to block 3, from there to storage behind, from there to block 6",
     .storage = DEVICE "05000001 00000003 06000001 00000003 512*A5 512*DD 05000001 00000006",
     .chain = "0018" DEFINE LOCATE "41 000020 00 00 0200 0018" DEFINE LOCATE2 "42 000220 00 00 0200"
              "0018" DEFINE "43 000420 40 00 0008 41 000220 00 00 0200",
     .answers = RAN("0003") DONE DONE MOVED("0001") RAN("0003") DONE DONE MOVED("0001") RAN("0003") DONE DONE MOVED("0001"),
     .log = LOG("000001", "000002", "0003"), .storage_after = {{0x220, "512*A5"}},
     .store_after = {{3 * BLOCK, "512*A5"}, {6 * BLOCK, "512*A5"}}},
    {.name = "parameters that an earlier chain read", .why = "block 3 holds a LOCATE for block 5",
     .storage = DEVICE "06000001 00000003 8*DD 512*DD", .store_before = {{3 * BLOCK, "06000001 00000005"}},
     .chain = "0018" DEFINE LOCATE "42 000010 20 00 0008 0018" DEFINE LOCATE "42 000020 00 00 0200",
     .answers = RAN("0003") DONE DONE MOVED("0001") RAN("0003") DONE DONE MOVED("0001"), .log = LOG("000002", "000000", "0002"),
     .storage_after = {{0x10, "06000001 00000005"}, {0x20, "512*05"}}},
    {.name = "an extent ends with its chain", .why = "01, errors: the second chain's LOCATE has none: 30",
     .storage = DEVICE "06000001 00000003", .chain = "0008" DEFINE_END "0008" LOCATE_END,
     .answers = RAN("0001") DONE RAN("0001") REFUSED("0008", "1E"), .sense = SENSE_SEQUENCE},
    {.name = "a LOCATE ends with its chain", .why = "the second chain's READ is not directly after it: 41",
     .storage = DEVICE "06000001 00000003", .chain = "0010" DEFINE LOCATE_END "0008 42 000000 20 00 0001",
     .answers = RAN("0002") DONE DONE RAN("0001") REFUSED("0001", "29"), .sense = SENSE_SEQUENCE, .log = LOG("000000", "000000", "0001")},
    {.name = "READ IPL is first in its chain", .why = "R4: a chain before it is no command before it", .storage = "2*DD",
     .chain = NOP_CHAIN "0008 02 000000 20 00 0001", .answers = NOP_RESULT RAN("0001") MOVED("0001"),
     .log = LOG("000001", "000000", "0001"), .storage_after = {{0, "00"}}},
};

// 40 times five chains: one that runs, an empty one, an endless one, one of 12 bytes, and a READ IPL of one byte, which counts.
static bool class_of_200(void)
{
    struct text chains = {.n = 0}, results = {.n = 0};
    struct line line = {.storage = "2*DD", .chain = chains.s, .answers = results.s, .log = LOG("000028", "000000", "0028"),
                        .storage_after = {{0, "00"}}};
    for (int i = 0; i < 40; i++) {
        add(&chains, NOP_CHAIN "0000" ENDLESS "000C 12*03 0008 02 000000 20 00 0001 ");
        add(&results, NOP_RESULT REFUSED_BY("0001") REFUSED_BY("0005") "8*EE " REFUSED_BY("0001") "16*EE " RAN("0001") MOVED("0001"));
    }
    return class_holds(&line);
}

// 32 NO-OPERATIONs are 256 bytes, length 0100; 32 are reached, and there are two such chains.
static bool longest_chains(void)
{
    struct text chains = {.n = 0}, results = {.n = 0};
    struct line line = {.storage = "", .chain = chains.s, .answers = results.s};
    for (int i = 0; i < 64; i++) {
        add(&chains, "%s%s", i % 32 == 0 ? "0100 " : "", i % 32 == 31 ? NOP_END : NOP_ON);
        add(&results, "%s%s", i % 32 == 0 ? RAN("0020") : "", NOP_DONE);
    }
    return class_holds(&line);
}

// ---- Lengths.

static const size_t plain_length[BUFFERS] = {0, 32, 4096, RECORD_SIZE, 0};

// Calls with these chains and results of this length, against both guards. The results that are wanted, if any, are text.
static bool called_with(const char *chains, const size_t others[BUFFERS], size_t results, uint32_t expected, const char *wanted)
{
    for (int at_end = 0; at_end < 2; at_end++) {
        struct buffers library, twin;
        size_t length[BUFFERS] = {text_bytes(NULL, MAX_CLASS, chains), others[STORAGE], others[STORE], others[RECORD], results};
        buffers_place(&library, &twin, length, at_end != 0);
        text_bytes(library.at[CHAIN], length[CHAIN], chains);
        fill_rest(&library);
        buffers_copy(&library, &twin);
        text_bytes(twin.at[ANSWERS], results, wanted);
        uint32_t result = call_library_class(&library);
        if (result != expected) printf("  result %lX, not %lX\n", (unsigned long)result, (unsigned long)expected);
        if (result != expected || !buffers_equal(&library, &twin)) return false;
    }
    return true;
}

// A chain's length, the room for its answers, its cause and the commands reached. Chains are NO-OPERATIONs, the last one ends.
static const struct { unsigned length, room, cause, reached; } rooms[] = {
    {0, 0, 1, 0},     {1, 8, 1, 0},     {7, 8, 1, 0},      {8, 8, 0, 1},      {9, 16, 1, 0},        {15, 16, 1, 0},
    {16, 16, 0, 2},   {17, 24, 1, 0},   {24, 24, 0, 3},    {255, 256, 1, 0},  {256, 256, 0, 32},    {257, 264, 1, 0},
    {264, 264, 1, 0}, {511, 512, 1, 0}, {2048, 2048, 1, 0}, {65528, 65528, 1, 0}, {65529, 65536, 1, 0}, {65535, 65536, 1, 0},
};

// The chain alone, and one behind it whose result shows where the room ends; results exact, and one byte short.
static bool room_holds(size_t i)
{
    struct text chains = {.n = 0}, results = {.n = 0};
    unsigned words = rooms[i].length <= MAX_CHAIN ? rooms[i].length / 8 : 0, answers = rooms[i].reached;
    add(&chains, "%04X ", rooms[i].length);
    for (unsigned k = 0; k < words; k++) add(&chains, k + 1 == words ? NOP_END : NOP_ON);
    if (rooms[i].length > 8 * words) add(&chains, "%u*03 ", rooms[i].length - 8 * words);
    add(&results, "%04X %04X ", rooms[i].cause, answers);
    for (unsigned k = 0; k < answers; k++) add(&results, NOP_DONE);
    if (!called_with(chains.s, plain_length, 4 + rooms[i].room, 0, results.s)) return false;
    if (!called_with(chains.s, plain_length, 3 + rooms[i].room, 0x700, "")) return false;
    add(&chains, NOP_CHAIN);
    if (rooms[i].room > 8 * answers) add(&results, "%u*D4 ", rooms[i].room - 8 * answers); // what was there
    add(&results, NOP_RESULT);
    return called_with(chains.s, plain_length, 16 + rooms[i].room, 0, results.s) &&
           called_with(chains.s, plain_length, 17 + rooms[i].room, 0, results.s) &&
           called_with(chains.s, plain_length, 15 + rooms[i].room, 0x700, "");
}

static bool room_of_each_length(void)
{
    for (size_t i = 0; i < COUNT_OF(rooms); i++)
        if (!room_holds(i)) return printf("  chain of %u bytes\n", rooms[i].length), false;
    return true;
}

static bool result_sizes(void)
{
    for (size_t i = 0; i < COUNT_OF(rooms); i++)
        if (LOUGHRELLA_RESULT_SIZE(rooms[i].length) != 4 + rooms[i].room) return printf("  %u\n", rooms[i].length), false;
    uint8_t narrow = 255; // 255 + 7 does not go round; an argument, and the macro, may stand in an expression
    return LOUGHRELLA_RESULT_SIZE(narrow) == 260 && 2 * LOUGHRELLA_RESULT_SIZE(1 << 4) == 40 &&
           sizeof(LOUGHRELLA_RESULT_SIZE(8)) == sizeof(size_t);
}

// SENSE would move D3s to main storage, zero them in the record and write a result of 12 bytes: nothing of it may be seen.
#define SENSE_CHAIN "0008 04 000000 20 00 0018 "

static const struct { const char *name, *chains; size_t results; } bad_classes[] = {
    {"7, one byte", "00", 64},
    {"7, a length and no chain", "0008", 64},
    {"7, one byte left over", SENSE_CHAIN "00", 64},
    {"7, the lengths end one byte early", SENSE_CHAIN "0007 04 000000 20 00 0018", 64},
    {"7, the lengths end one byte late", SENSE_CHAIN "0009 04 000000 20 00 0018", 64},
    {"7, a length of one and no chain", SENSE_CHAIN "0001", 64},
    {"7, the last chain's byte is missing", SENSE_CHAIN SENSE_CHAIN "0008 04 000000 20 00 00", 64},
    {"7, the largest length of a short chain", SENSE_CHAIN "FFFF 04 000000 20 00 0018", 131072},
    {"7, one byte fewer than the largest length", "FFFF 65534*03", 131072},
    {"7, the other byte order", "0800 04 000000 20 00 0018", 4096},
    {"7, no results", SENSE_CHAIN, 0},
    {"7, results of the first four bytes", SENSE_CHAIN, 4},
    {"7, results one byte short", SENSE_CHAIN, 11},
    {"7, results without the first four bytes", SENSE_CHAIN SENSE_CHAIN, 16},
    {"7, results of two chains one byte short", SENSE_CHAIN SENSE_CHAIN, 23},
    {"7, results of two chains for three", SENSE_CHAIN SENSE_CHAIN SENSE_CHAIN, 24},
    {"7, results of three chains one byte short", SENSE_CHAIN SENSE_CHAIN SENSE_CHAIN, 35},
    {"7, results of an empty chain one byte short", SENSE_CHAIN "0000", 15},
    {"7, room not rounded up", SENSE_CHAIN "0009 9*03", 12 + 13},
    {"7, room rounded down", SENSE_CHAIN "0009 9*03", 12 + 12},
    {"7, of a class whose chains have 1 and 5", "0000" ENDLESS "000C 12*03 00", 64},
    {"7, of a class of empty chains", "0000 0000 0000", 11},
    {"7, both", SENSE_CHAIN "00", 11},
};

// With everything else right, and with store, main storage and record such that every chain would have causes 2, 3 or 6.
static bool bad_class_holds(size_t i)
{
    static const size_t wrong[3][BUFFERS] = {{0, 32, 4095, 289, 0}, {0, 32, 0, RECORD_SIZE, 0}, {0, MAX_STORAGE + 1, 4096, 291, 0}};
    if (!called_with(bad_classes[i].chains, plain_length, bad_classes[i].results, 0x700, "")) return false;
    for (size_t k = 0; k < (i == 2 ? 3 : 2); k++) // the large one once
        if (!called_with(bad_classes[i].chains, wrong[k], bad_classes[i].results, 0x700, "")) return printf("  wrong %zu\n", k), false;
    return true;
}

// An empty buffer is no chain, and right: nothing is looked at and nothing written, whatever the rest is.
static bool empty_class(void)
{
    static const size_t others[5][BUFFERS] = {{0, 32, 4096, RECORD_SIZE, 0}, {0, 0, 0, 0, 0}, {0, 32, 4095, 289, 0},
                                              {0, MAX_STORAGE + 1, 512, 290, 0}, {0, 1, 513, 291, 0}};
    for (size_t i = 0; i < 5; i++)
        for (size_t results = 0; results < 14; results++)
            if (!called_with("", others[i], results, 0, "")) return printf("  others %zu, results of %zu\n", i, results), false;
    return true;
}

// NULL for what has no length. With no results a chain has no room; without the rest it has causes 1, 2, 6, or it runs.
static bool null_class(void)
{
    static const struct buffers none = {.at = {NULL}};
    uint8_t chain[10], store[BLOCK] = {0}, record[RECORD_SIZE] = {[32] = 1}, results[12], wanted[12];
    struct buffers b = {.at = {chain}, .length = {text_bytes(chain, 10, NOP_CHAIN)}};
    if (call_library_class(&none) != 0 || call_library_class(&b) != 0x700) return false;
    b.at[ANSWERS] = memset(results, 0xEE, 12);
    b.length[ANSWERS] = text_bytes(wanted, 12, REFUSED_BY("0002") "8*EE");
    if (call_library_class(&b) != 0 || memcmp(results, wanted, 12) != 0) return false;
    b.at[STORE] = store;
    b.length[STORE] = sizeof store;
    text_bytes(wanted, 12, REFUSED_BY("0006") "8*EE");
    if (call_library_class(&b) != 0 || memcmp(results, wanted, 12) != 0) return false;
    b.at[RECORD] = record;
    b.length[RECORD] = sizeof record;
    text_bytes(wanted, 12, NOP_RESULT);
    return call_library_class(&b) == 0 && memcmp(results, wanted, 12) == 0;
}

// Causes inside results. Four chains: of 12 bytes, endless, empty, right. The first and third have 1 whatever the rest is; 2 and 3
// come before 5, and 6 after it; so the endless one and the right one have these causes.
static const struct { size_t length[BUFFERS]; unsigned endless, right; } cause_sets[] = {
    {{0, 32, 4096, 290, 0}, 5, 0},   {{0, 32, 4096, 289, 0}, 5, 6},   {{0, 32, 4095, 290, 0}, 2, 2},
    {{0, 32, 4095, 289, 0}, 2, 2},   {{0, MAX_STORAGE + 1, 4096, 290, 0}, 3, 3}, {{0, MAX_STORAGE + 1, 4096, 291, 0}, 3, 3},
    {{0, MAX_STORAGE + 1, 0, 290, 0}, 2, 2}, {{0, MAX_STORAGE + 1, 513, 291, 0}, 2, 2}, {{0, 32, 4096, 34, 0}, 5, 6},
};

static bool causes_in_results(void)
{
    for (size_t i = 0; i < COUNT_OF(cause_sets); i++) {
        struct text results = {.n = 0};
        add(&results, REFUSED_BY("0001") "16*D4 %04X 0000 8*D4 " REFUSED_BY("0001"), cause_sets[i].endless);
        if (cause_sets[i].right == 0) add(&results, NOP_RESULT);
        else add(&results, "%04X 0000 8*D4", cause_sets[i].right);
        if (!called_with("000C 12*03" ENDLESS "0000" NOP_CHAIN, cause_sets[i].length, 48, 0, results.s))
            return printf("  set %zu\n", i), false;
    }
    return true;
}

// ---- The walk. Chains of 8, 0, 12 and 16 bytes, and what a call might have left; where each chain, its answers and both ends are.

static const char walk_chains[] = NOP_CHAIN "0000 000C 12*03 0010" DEFINE NOP_END;
static const char walk_results[] = "0102 0304" NOP_DONE "0001 0000 0005 0006 16*EE 0000 0002" DONE NOP_DONE;
static const struct { size_t chain, length, end, answers, results_end; unsigned cause, reached; } stops[] = {
    {2, 8, 10, 4, 12, 0x0102, 0x0304}, {12, 0, 12, 16, 16, 1, 0}, {14, 12, 26, 20, 36, 5, 6}, {28, 16, 44, 40, 56, 0, 2},
};

static bool same_walk(const struct loughrella_walk *a, const struct loughrella_walk *b)
{
    return a->chain == b->chain && a->chain_len == b->chain_len && a->cause == b->cause && a->reached == b->reached &&
           a->answers == b->answers && a->chains == b->chains && a->results == b->results && a->chains_len == b->chains_len &&
           a->results_len == b->results_len;
}

// So many bytes of both, against a guard: the walk comes to the chains that are whole and have their room, and stays at the last.
static bool walk_holds(size_t chains, size_t results, bool at_end)
{
    struct buffers b, twin;
    const size_t length[BUFFERS] = {chains, 0, 0, 0, results};
    uint8_t bytes[56];
    buffers_place(&b, &twin, length, at_end);
    text_bytes(bytes, sizeof bytes, walk_chains);
    memcpy(b.at[CHAIN], bytes, chains);
    text_bytes(bytes, sizeof bytes, walk_results);
    memcpy(b.at[ANSWERS], bytes, results);
    struct loughrella_walk at = loughrella_walk_results(b.at[CHAIN], chains, b.at[ANSWERS], results);
    struct loughrella_walk wanted = {NULL, 0, 0, 0, NULL, b.at[CHAIN], b.at[ANSWERS], chains, results};
    if (!same_walk(&at, &wanted)) return false;
    for (size_t i = 0; i < COUNT_OF(stops) && stops[i].end <= chains && stops[i].results_end <= results; i++) {
        wanted = (struct loughrella_walk){b.at[CHAIN] + stops[i].chain, stops[i].length, stops[i].cause, stops[i].reached,
                                          b.at[ANSWERS] + stops[i].answers, b.at[CHAIN] + stops[i].end,
                                          b.at[ANSWERS] + stops[i].results_end, chains - stops[i].end, results - stops[i].results_end};
        if (call_next_result(&at) != 1 || !same_walk(&at, &wanted)) return false;
    }
    return call_next_result(&at) == 0 && same_walk(&at, &wanted);
}

static bool walks(void)
{
    for (size_t chains = 0; chains <= 44; chains++)
        for (size_t results = 0; results <= 56; results++)
            if (!walk_holds(chains, results, true) || !walk_holds(chains, results, false))
                return printf("  %zu bytes of chains, %zu of results\n", chains, results), false;
    struct loughrella_walk at = loughrella_walk_results(NULL, 0, NULL, 0);
    return call_next_result(&at) == 0;
}

void test_class(void)
{
    check_classes("class", chain_lines, COUNT_OF(chain_lines));
    check_classes("class", handed_on_lines, COUNT_OF(handed_on_lines));
    check("class", "200 chains", class_of_200());
    check("class", "two chains of 32 NO-OPERATIONs", longest_chains());
    check("class", "the room of each length", room_of_each_length());
    for (size_t i = 0; i < COUNT_OF(bad_classes); i++) check("class", bad_classes[i].name, bad_class_holds(i));
    check("class", "an empty buffer", empty_class());
    check("class", "NULL where nothing is lent", null_class());
    check("class", "causes 1, 2, 3, 5 and 6 in results", causes_in_results());
    check("class", "LOUGHRELLA_RESULT_SIZE", result_sizes());
    check("class", "the header's walk, whole and cut off", walks());
}
