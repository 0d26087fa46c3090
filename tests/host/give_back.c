// Alternates given back (02, ask 6), all worked out by hand from the papers. The device is as in alternates.c: 8 primaries, 0 to 7,
// if nothing else is said, and its alternates 0, 1, .. are blocks 8, 9, .. of the store, filled with 08, 09, .. Causes 2 and 8, as
// the call gives them, are tested with the call's own, in alternates.c.
#include "test.h"
#include "words.h"

#include <stdio.h>
#include <string.h>

#include "loughrella.h"

#define BACK .gives_back = true, .storage = "", .chain = "", .answers = ""
#define ZEROS "512*00"

// ---- What is done: the alternate's data in the primary, zeros in the alternate, 0 in its entry; every other byte stays.

#define GIVEN(n, w, k, before, number, after, ...) \
    {BACK, .name = n, .why = w, .alternates = k, .map = before, .block = number, .map_after = after, .store_after = {__VA_ARGS__}}

static const struct line given_lines[] = {
    GIVEN("the only one", "08s go to block 3", 1, "00000004", 3, "", {3 * BLOCK, "512*08"}, {8 * BLOCK, ZEROS}),
    GIVEN("the first block", "0 plus 1", 1, "00000001", 0, "", {0, "512*08"}, {8 * BLOCK, ZEROS}),
    GIVEN("the last block", "7 plus 1; alternate 0 lies right behind it", 1, "00000008", 7, "", {7 * BLOCK, "512*08 " ZEROS}),
    GIVEN("an alternate in the middle", "the third of four", 4, "8*00 00000004", 3, "", {3 * BLOCK, "512*0A"},
          {10 * BLOCK, ZEROS}),
    GIVEN("the last of 64 alternates", "block 8 + 63 of the store", 64, "252*00 00000004", 3, "", {3 * BLOCK, "512*47"},
          {71 * BLOCK, ZEROS}),
    GIVEN("the last of 64, behind defective ones", "they stay, and so does what they hold", 64, "252*FF 00000004", 3, "252*FF",
          {3 * BLOCK, "512*47"}, {71 * BLOCK, ZEROS}),
    GIVEN("the first of 64, before defective ones", "the same", 64, "00000004 252*FF", 3, "00000000 252*FF",
          {3 * BLOCK, "512*08"}, {8 * BLOCK, ZEROS}),
    GIVEN("the others stay", "blocks 1 and 7, and the defective ones", 5, "00000002 FFFFFFFF 00000004 00000008 FFFFFFFF", 3,
          "00000002 FFFFFFFF 00000000 00000008 FFFFFFFF", {3 * BLOCK, "512*0A"}, {10 * BLOCK, ZEROS}),
    GIVEN("the neighbours stay", "blocks 2 and 4, at its alternate's neighbours", 3, "00000003 00000004 00000005", 3,
          "00000003 00000000 00000005", {3 * BLOCK, "512*09"}, {9 * BLOCK, ZEROS}),
    GIVEN("an unused alternate before it", "the block's own is freed, and the first keeps its 08s", 3, "00000000 00000004", 3,
          "", {3 * BLOCK, "512*09"}, {9 * BLOCK, ZEROS}),
    GIVEN("its old alternate is defective", "that one is nobody's and stays", 2, "FFFFFFFF 00000004", 3, "FFFFFFFF",
          {3 * BLOCK, "512*09"}, {9 * BLOCK, ZEROS}),
    GIVEN("all blocks mapped, in reverse", "block 6 is at alternate 1", 8,
          "00000008 00000007 00000006 00000005 00000004 00000003 00000002 00000001", 6,
          "00000008 00000000 00000006 00000005 00000004 00000003 00000002 00000001", {6 * BLOCK, "512*09"}, {9 * BLOCK, ZEROS}),
    {BACK, .name = "each byte in its place", .why = "the copy neither turns nor shifts them", .alternates = 1,
     .map = "00000004", .block = 3, .store_before = {{8 * BLOCK, "A1A2A3A4 504*A5 A6A7A8A9"}},
     .store_after = {{3 * BLOCK, "A1A2A3A4 504*A5 A6A7A8A9"}, {8 * BLOCK, ZEROS}}, .map_after = ""},
    {BACK, .name = "an alternate of zeros", .why = "they are data too: the primary's 03s go", .alternates = 1,
     .map = "00000004", .block = 3, .store_before = {{8 * BLOCK, ZEROS}}, .store_after = {{3 * BLOCK, ZEROS}}, .map_after = ""},
    {BACK, .name = "one primary, 64 alternates", .why = "alternate 63 is the store's last block, 64", .blocks = 1,
     .alternates = 64, .map = "252*00 00000001", .block = 0, .store_after = {{0, "512*40"}, {64 * BLOCK, ZEROS}},
     .map_after = ""},
    {BACK, .name = "block 256", .why = "not block 0: alternate 1, block 301 of the store, holds 2Ds", .blocks = 300,
     .alternates = 2, .map = "00000001 00000101", .block = 256, .store_after = {{256 * BLOCK, "512*2D"}, {301 * BLOCK, ZEROS}},
     .map_after = "00000001"},
    {BACK, .name = "block 0 beside block 256", .why = "alternate 0, block 300, holds 2Cs", .blocks = 300, .alternates = 2,
     .map = "00000001 00000101", .block = 0, .store_after = {{0, "512*2C"}, {300 * BLOCK, ZEROS}},
     .map_after = "00000000 00000101"},
};

// It is no command: nothing but the map of the record is looked at or written.
#define STATE(n, w, unit, ...) \
    {BACK, .name = n, .why = w, .alternates = 1, .map = "00000004", .block = 3, .record = unit, .map_after = "", \
     .store_after = {{3 * BLOCK, "512*08"}, {8 * BLOCK, ZEROS}}, __VA_ARGS__}

static const struct line state_lines[] = {
    STATE("not ready", "44 is a command's", NOT_READY, .sense = NULL),
    STATE("read-only", "38 is a LOCATE's", READ_ONLY, .sense = NULL),
    STATE("not ready and read-only", "neither is looked at", "32*00 00 FF", .sense = NULL),
    STATE("sense and counts", "they stay: it counts no block and no movement", PENDING_RECORD, .sense = PENDING,
          .log = COUNTS_AFTER),
    STATE("full counts", "they stay", PENDING "FFFFFF FFFFFF FFFF FF 00", .sense = PENDING,
          .log = LOG("FFFFFF", "FFFFFF", "FFFF")),
    {BACK, .name = "51 with sense and counts", .why = "a refusal sets no sense", .alternates = 1, .map = "00000004", .block = 2,
     .cause = 51, .record = PENDING_RECORD, .sense = PENDING, .log = COUNTS_AFTER},
    {BACK, .name = "50 with sense and counts", .why = "the same", .alternates = 1, .map = "00000004", .block = 8, .cause = 50,
     .record = PENDING_RECORD, .sense = PENDING, .log = COUNTS_AFTER},
};

// ---- 50 and 51: every byte stays.

#define REFUSED_BY(c, n, w, k, before, number) \
    {BACK, .name = n, .why = w, .alternates = k, .map = before, .block = number, .cause = c}

static const struct line refused_lines[] = {
    REFUSED_BY(50, "50, the first alternate's number", "8 is none of 0 to 7, and is mapped by no entry", 2, "00000004", 8),
    REFUSED_BY(50, "50, the last alternate's number", "it is a block of the store, not of the device", 2, "00000004", 9),
    REFUSED_BY(50, "50, behind the store", "10", 2, "00000004", 10),
    REFUSED_BY(50, "50, no alternates", "a device has blocks 0 to 7 all the same", 0, "", 8),
    REFUSED_BY(50, "50, 256 and 3", "not block 3", 1, "00000004", 0x103),
    REFUSED_BY(50, "50, 65,536 and 3", "not block 3", 1, "00000004", 0x10003),
    REFUSED_BY(50, "50, 2^24 and 3", "not block 3", 1, "00000004", 0x1000003),
    REFUSED_BY(50, "50, 2^31", "no sign", 1, "00000001", 0x80000000),
    REFUSED_BY(50, "50, 2^31 and 3", "no sign", 1, "00000004", 0x80000003),
    REFUSED_BY(50, "50, block 3 in the other byte order", "03000000", 1, "00000004", 0x03000000),
    REFUSED_BY(50, "50, FFFFFFFE", "its number plus 1 is what a defective entry has", 2, "FFFFFFFF 00000004", 0xFFFFFFFE),
    REFUSED_BY(50, "50, FFFFFFFE, one defective", "the same", 1, "FFFFFFFF", 0xFFFFFFFE),
    REFUSED_BY(50, "50, FFFFFFFF", "its number plus 1 would wrap to what an unused entry has", 2, "00000000 00000004",
               0xFFFFFFFF),
    REFUSED_BY(50, "50, FFFFFFFF, none unused", "it is no block either way", 2, "FFFFFFFF 00000004", 0xFFFFFFFF),
    REFUSED_BY(51, "51, no alternates", "no block is mapped", 0, "", 3),
    REFUSED_BY(51, "51, an empty map", "the same", 2, "", 3),
    REFUSED_BY(51, "51, the first block", "its entry would be 1", 2, "00000002", 0),
    REFUSED_BY(51, "51, the last block", "its entry would be 8", 2, "00000007", 7),
    REFUSED_BY(51, "51, its neighbours are mapped", "2 and 4, not 3", 2, "00000003 00000005", 3),
    REFUSED_BY(51, "51, the entry has the block's own number", "3 is block 2's entry", 1, "00000003", 3),
    REFUSED_BY(51, "51, the alternate's number", "alternate 1 has block 3, and block 1 none", 2, "00000000 00000004", 1),
    REFUSED_BY(51, "51, only defective ones", "they are no block's and are not given back", 2, "FFFFFFFF FFFFFFFF", 3),
    REFUSED_BY(51, "51, 64 defective ones", "the same, of block 0", 64, "256*FF", 0),
};

// ---- The order. The first of each table is right, the others are wrong by a rule.

static const struct {
    size_t store;
    uint32_t alternates;
} stores[] = {
    {12 * BLOCK, 4}, {0, 0}, {0, 4}, {1, 0}, {BLOCK - 1, 0}, {12 * BLOCK - 1, 4}, {12 * BLOCK + 1, 4}, {12 * BLOCK, 12},
    {12 * BLOCK, 13}, {80 * BLOCK, 65}, {4 * BLOCK, 4}, {12 * BLOCK, 0x104}, {12 * BLOCK, 0x80000004u}, {12 * BLOCK, 0xFFFFFFFFu},
};
static const size_t records[] = {RECORD_SIZE, 0, MAP_AT, RECORD_SIZE - 1, RECORD_SIZE + 1};
static const char *const maps[] = {
    "00000004 FFFFFFFF 00000000 00000008", // blocks 3 and 7; then two names for one, no block's, and entries beyond the four
    "00000004 00000004", "00000004 FFFFFFFF FFFFFFFF 00000004", "00000004 00000009", "00000004 FFFFFFFE", "00000004 80000001",
    "00000004 12*00 00000005", "00000004 12*00 FFFFFFFF", "00000004 248*00 00000001",
};
static const struct {
    uint32_t block, cause; // 0: it would be done
} blocks[] = {
    {3, 0}, {7, 0}, {0, 51}, {2, 51}, {4, 51}, {6, 51}, {8, 50}, {11, 50}, {12, 50}, {0x80000003u, 50}, {0xFFFFFFFEu, 50},
    {0xFFFFFFFFu, 50},
};

// A store and a record, with an empty map, are all that is lent.
static void place(struct buffers *library, struct buffers *twin, size_t store, uint32_t alternates, size_t record, bool at_end)
{
    const size_t length[BUFFERS] = {0, 0, store, record, 0};
    buffers_place(library, twin, length, at_end);
    library->alternates = alternates;
    fill_rest(library);
}

// A give back that is refused: nothing at all is written, in the buffers or around them.
static bool is_refused(size_t s, size_t r, size_t m, uint32_t block, uint32_t cause, bool at_end)
{
    struct buffers library, twin;
    uint8_t map[MAP_SIZE + 1] = {0};
    text_bytes(map, MAP_SIZE, maps[m]);
    place(&library, &twin, stores[s].store, stores[s].alternates, records[r], at_end);
    if (records[r] > MAP_AT) memcpy(library.at[RECORD] + MAP_AT, map, records[r] - MAP_AT);
    buffers_copy(&library, &twin);
    uint32_t result = call_library_give_back(&library, block);
    if (result == 256 * cause && buffers_equal(&library, &twin)) return true;
    return printf("  result %lX, not %lX: store %zu, record %zu, map %zu, block %lX\n", (unsigned long)result,
                  256 * (unsigned long)cause, s, r, m, (unsigned long)block), false;
}

// 02, ask 6: 2, 6, 8, 50, 51, in that order. Every way to break one rule, or several at once: the first one's cause is given.
static bool every_order(size_t s, bool at_end)
{
    for (size_t r = 0; r < COUNT_OF(records); r++)
        for (size_t m = 0; m < COUNT_OF(maps); m++)
            for (size_t i = 0; i < COUNT_OF(blocks); i++) {
                uint32_t cause = s > 0 ? 2 : r > 0 ? 6 : m > 0 ? 8 : blocks[i].cause;
                if (cause != 0 && !is_refused(s, r, m, blocks[i].block, cause, at_end)) return false;
            }
    return true;
}

static bool order(void)
{
    for (size_t s = 0; s < COUNT_OF(stores); s++)
        if (!every_order(s, true) || !every_order(s, false)) return false;
    return true;
}

// A buffer of length 0 may be NULL.
static bool null_buffers(void)
{
    struct buffers library, twin;
    place(&library, &twin, 9 * BLOCK, 1, RECORD_SIZE, true);
    put32(library.at[RECORD] + MAP_AT, 4);
    buffers_copy(&library, &twin);
    struct buffers no_store = library, no_record = library;
    no_store.at[STORE] = no_record.at[RECORD] = NULL;
    no_store.length[STORE] = no_record.length[RECORD] = 0;
    struct buffers neither = no_store;
    neither.at[RECORD] = NULL;
    neither.length[RECORD] = 0;
    return call_library_give_back(&no_store, 3) == 0x200 && call_library_give_back(&no_record, 3) == 0x600 &&
           call_library_give_back(&neither, 3) == 0x200 && buffers_equal(&library, &twin);
}

// ---- Many.

// A give back that is done: in the twin the alternate goes to the block's place by hand.
static bool is_given(const struct buffers *library, const struct buffers *twin, uint32_t block, uint32_t alternate)
{
    uint8_t *from = twin->at[STORE] + twin->length[STORE] - (size_t)BLOCK * (library->alternates - alternate);
    memcpy(twin->at[STORE] + (size_t)BLOCK * block, from, BLOCK);
    memset(from, 0, BLOCK);
    memset(twin->at[RECORD] + MAP_AT + 4 * alternate, 0, 4);
    return call_library_give_back(library, block) == 0 && buffers_equal(library, twin);
}

// 200 primaries and 64 alternates, all used and all given back, in an order that has no system: block 3 + 2 i is at alternate
// 37 i mod 64, and i is 29 n mod 64. At last the map is empty, and one more is 51.
static bool all_64(bool at_end)
{
    static const uint8_t empty[MAP_SIZE];
    struct buffers library, twin;
    place(&library, &twin, 264 * BLOCK, 64, RECORD_SIZE, at_end);
    random_fill(&(struct random){6}, library.at[STORE], library.length[STORE]);
    for (uint32_t i = 0; i < 64; i++) put32(library.at[RECORD] + MAP_AT + 4 * (37 * i % 64), 3 + 2 * i + 1);
    buffers_copy(&library, &twin);
    for (uint32_t n = 0; n < 64; n++) {
        uint32_t i = 29 * n % 64;
        if (!is_given(&library, &twin, 3 + 2 * i, 37 * i % 64)) return printf("  block %lu\n", (unsigned long)(3 + 2 * i)), false;
        if (call_library_give_back(&library, 3 + 2 * i) != 0x3300 || !buffers_equal(&library, &twin)) return false;
    }
    return memcmp(library.at[RECORD] + MAP_AT, empty, MAP_SIZE) == 0;
}

// The largest device, 131,072 blocks in all, 64 of them alternates: its last primary, 131,007, from its last alternate. The next
// number is an alternate's.
static bool largest_device(void)
{
    struct buffers library, twin;
    place(&library, &twin, (size_t)MAX_BLOCKS * BLOCK, 64, RECORD_SIZE, true);
    memset(library.at[STORE] + (size_t)131071 * BLOCK, 0x5A, BLOCK);
    text_bytes(library.at[RECORD] + MAP_AT, MAP_SIZE, "252*00 0001FFC0");
    buffers_copy(&library, &twin);
    return call_library_give_back(&library, 131008) == 0x3200 && is_given(&library, &twin, 131007, 63);
}

static bool header_names(void)
{
    return LOUGHRELLA_BEYOND_DEVICE == 50 && LOUGHRELLA_NOT_MAPPED == 51;
}

// ---- Stories: what READ and a format find behind it. The counts go on from line to line.

#define READS(k, number) \
    .alternates = k, .storage = DEVICE "06000001 " number " 8*DD 512*DD", .chain = DEFINE LOCATE "42 000020 00 00 0200", \
    .answers = DONE DONE MOVED("0001")
#define SHOWS(byte) .storage_after = {{0x20, "512*" byte}}
#define FORMATS(k, number) .alternates = k, .storage = DEVICE "04000001 " number, .chain = DEFINE LOCATE_END
#define IPL(k) .alternates = k, .storage = "512*DD", .chain = "02 000000 00 00 0200", .answers = MOVED("0001")
#define GOES_ON .goes_on = true
#define NO_MORE(number) .answers = DONE REFUSED("0000", "27"), .sense = EXHAUSTED("04000001 " number)

static const struct line freed_story[] = {
    {BACK, .name = "given back", .why = "block 3, from alternate 0", .alternates = 4, .map = "00000004 FFFFFFFF 00000006",
     .block = 3, .map_after = "00000000 FFFFFFFF 00000006", .store_after = {{3 * BLOCK, "512*08"}, {8 * BLOCK, ZEROS}}},
    {GOES_ON, READS(4, "00000003"), .name = "READ behind it", .why = "shows the same 08s, now from the primary", SHOWS("08"),
     .log = LOG("000001", "000000", "0001")},
    {GOES_ON, BACK, .name = "given back twice", .why = "it is not mapped any more: 51", .alternates = 4, .block = 3,
     .cause = 51, .log = LOG("000001", "000000", "0001")},
    {GOES_ON, READS(4, "00000005"), .name = "READ of another block", .why = "it is at alternate 2 still", SHOWS("0A"),
     .log = LOG("000002", "000000", "0002")},
    {GOES_ON, FORMATS(4, "00000001"), .name = "a format takes the freed one", .why = "alternate 0 is the lowest unused",
     .answers = DONE DONE, .log = LOG("000002", "000000", "0003"), .map_after = "00000002 FFFFFFFF 00000006"},
    {GOES_ON, READS(4, "00000001"), .name = "READ of the formatted block", .why = "no data of block 3's is left there",
     SHOWS("00"), .log = LOG("000003", "000000", "0004")},
    {GOES_ON, READS(4, "00000003"), .name = "READ of the first block again", .why = "it does not go to alternate 0",
     SHOWS("08"), .log = LOG("000004", "000000", "0005")},
    {GOES_ON, BACK, .name = "the next block given back", .why = "its zeros go to block 1", .alternates = 4, .block = 1,
     .log = LOG("000004", "000000", "0005"), .map_after = "00000000 FFFFFFFF 00000006", .store_after = {{1 * BLOCK, ZEROS}}},
};

static const struct line lower_story[] = {
    {BACK, .name = "given back, a lower one unused", .why = "block 3, from alternate 1", .alternates = 3,
     .map = "00000000 00000004", .block = 3, .map_after = "", .store_after = {{3 * BLOCK, "512*09"}, {9 * BLOCK, ZEROS}}},
    {GOES_ON, FORMATS(3, "00000005"), .name = "a format takes the lower one", .why = "alternate 0 was unused all the time",
     .answers = DONE DONE, .log = LOG("000000", "000000", "0001"), .map_after = "00000006"},
    {GOES_ON, READS(3, "00000005"), .name = "READ of the lower one", .why = "alternate 0 was not zeroed", SHOWS("08"),
     .log = LOG("000001", "000000", "0002")},
    {GOES_ON, FORMATS(3, "00000006"), .name = "the next format takes the freed one", .why = "alternate 1, before alternate 2",
     .answers = DONE DONE, .log = LOG("000001", "000000", "0003"), .map_after = "00000006 00000007"},
    {GOES_ON, READS(3, "00000006"), .name = "READ of the freed one", .why = "zeros", SHOWS("00"),
     .log = LOG("000002", "000000", "0004")},
};

static const struct line exhausted_story[] = {
    {FORMATS(2, "00000001"), .name = "39, all are used", .why = "by blocks 3 and 5", .map = "00000004 00000006",
     NO_MORE("00000001")},
    {GOES_ON, BACK, .name = "one is given back", .why = "block 5's; the sense of 39 stays", .alternates = 2, .block = 5,
     .sense = EXHAUSTED("04000001 00000001"), .map_after = "00000004",
     .store_after = {{5 * BLOCK, "512*09"}, {9 * BLOCK, ZEROS}}},
    {GOES_ON, FORMATS(2, "00000001"), .name = "the format is done now", .why = "by the freed one", .answers = DONE DONE,
     .log = LOG("000000", "000000", "0001"), .map_after = "00000004 00000002"},
    {GOES_ON, READS(2, "00000001"), .name = "READ of it", .why = "zeros", SHOWS("00"), .log = LOG("000001", "000000", "0002")},
    {GOES_ON, FORMATS(2, "00000005"), .name = "39 again", .why = "one was given back and one taken", NO_MORE("00000005"),
     .log = LOG("000001", "000000", "0002")},
};

static const struct line life_story[] = {
    {FORMATS(1, "00000003"), .name = "a format", .why = "block 3 to alternate 0", .answers = DONE DONE,
     .log = LOG("000000", "000000", "0001"), .map_after = "00000004"},
    {GOES_ON, .name = "WRITE", .why = "to the alternate", .alternates = 1, .storage = DEVICE "01000001 00000003 8*DD 512*A5",
     .chain = DEFINE LOCATE "41 000020 00 00 0200", .answers = DONE DONE MOVED("0001"), .log = LOG("000000", "000000", "0002"),
     .store_after = {{8 * BLOCK, "512*A5"}}},
    {GOES_ON, BACK, .name = "the written block given back", .why = "A5s go to the primary", .alternates = 1, .block = 3,
     .log = LOG("000000", "000000", "0002"), .map_after = "", .store_after = {{3 * BLOCK, "512*A5"}, {8 * BLOCK, ZEROS}}},
    {GOES_ON, READS(1, "00000003"), .name = "READ shows what was written", .why = "A5s", SHOWS("A5"),
     .log = LOG("000001", "000000", "0003")},
    {GOES_ON, FORMATS(1, "00000003"), .name = "the same block formatted again",
     .why = "its old one was given back, and is not defective", .answers = DONE DONE, .log = LOG("000001", "000000", "0004"),
     .map_after = "00000004"},
    {GOES_ON, READS(1, "00000003"), .name = "READ shows zeros", .why = "they were left in the alternate", SHOWS("00"),
     .log = LOG("000002", "000000", "0005")},
    {GOES_ON, BACK, .name = "and given back again", .why = "the zeros go over the A5s", .alternates = 1, .block = 3,
     .log = LOG("000002", "000000", "0005"), .map_after = "", .store_after = {{3 * BLOCK, ZEROS}}},
    {GOES_ON, READS(1, "00000003"), .name = "READ shows zeros still", .why = "from the primary", SHOWS("00"),
     .log = LOG("000003", "000000", "0006")},
};

static const struct line defective_story[] = {
    {.name = "formatted twice", .why = "alternate 0 is defective for good", .alternates = 2,
     .storage = DEVICE "04000001 00000003", .chain = DEFINE LOCATE LOCATE_END, .answers = DONE DONE DONE,
     .log = LOG("000000", "000000", "0002"), .map_after = "FFFFFFFF 00000004"},
    {GOES_ON, BACK, .name = "the second one given back", .why = "alternate 0 stays defective, and keeps its 08s",
     .alternates = 2, .block = 3, .log = LOG("000000", "000000", "0002"), .map_after = "FFFFFFFF",
     .store_after = {{3 * BLOCK, "512*09"}, {9 * BLOCK, ZEROS}}},
    {GOES_ON, BACK, .name = "the first one cannot be", .why = "the block is not mapped: 51", .alternates = 2, .block = 3,
     .cause = 51, .log = LOG("000000", "000000", "0002")},
    {GOES_ON, FORMATS(2, "00000005"), .name = "the next format passes it over", .why = "alternate 1", .answers = DONE DONE,
     .log = LOG("000000", "000000", "0003"), .map_after = "FFFFFFFF 00000006"},
    {GOES_ON, FORMATS(2, "00000003"), .name = "39, one used and one defective", .why = "none is unused", NO_MORE("00000003"),
     .log = LOG("000000", "000000", "0003")},
};

static const struct line ipl_story[] = {
    {IPL(1), .name = "READ IPL before", .why = "block 0 is at alternate 0", .map = "00000001",
     .log = LOG("000001", "000000", "0001"), .storage_after = {{0, "512*08"}}},
    {GOES_ON, BACK, .name = "block 0 given back", .why = "08s go to block 0", .alternates = 1, .block = 0,
     .log = LOG("000001", "000000", "0001"), .map_after = "", .store_after = {{0, "512*08"}, {8 * BLOCK, ZEROS}}},
    {GOES_ON, IPL(1), .name = "READ IPL behind it", .why = "the same", .log = LOG("000002", "000000", "0002"),
     .storage_after = {{0, "512*08"}}},
};

// Blocks 2 to 5 in one READ, of which 3, 4 and 2 are at alternates 0, 1 and 2.
#define READS_4 \
    .alternates = 3, .storage = DEVICE "06000004 00000002 8*DD 2048*DD", .chain = DEFINE LOCATE "42 000020 00 00 0800", \
    .answers = DONE DONE MOVED("0004"), .storage_after = {{0x20, "512*0A 512*08 512*09 512*05"}}

static const struct line range_story[] = {
    {READS_4, .name = "READ of four blocks", .why = "0A, 08, 09 and 05", .map = "00000004 00000005 00000003",
     .log = LOG("000004", "000000", "0001")},
    {GOES_ON, BACK, .name = "the third given back", .why = "block 4, from alternate 1", .alternates = 3, .block = 4,
     .log = LOG("000004", "000000", "0001"), .map_after = "00000004 00000000 00000003",
     .store_after = {{4 * BLOCK, "512*09"}, {9 * BLOCK, ZEROS}}},
    {GOES_ON, READS_4, .name = "READ of the four", .why = "the same", .log = LOG("000008", "000000", "0002")},
    {GOES_ON, BACK, .name = "the first given back", .why = "block 2, from alternate 2", .alternates = 3, .block = 2,
     .log = LOG("000008", "000000", "0002"), .map_after = "00000004",
     .store_after = {{2 * BLOCK, "512*0A"}, {10 * BLOCK, ZEROS}}},
    {GOES_ON, READS_4, .name = "READ of the four again", .why = "the same", .log = LOG("00000C", "000000", "0003")},
    {GOES_ON, BACK, .name = "the second given back", .why = "block 3, from alternate 0", .alternates = 3, .block = 3,
     .log = LOG("00000C", "000000", "0003"), .map_after = "", .store_after = {{3 * BLOCK, "512*08"}, {8 * BLOCK, ZEROS}}},
    {GOES_ON, READS_4, .name = "READ of the four at last", .why = "the same, and all from the primaries",
     .log = LOG("000010", "000000", "0004")},
};

void test_give_back(void)
{
    check_lines("returns", given_lines, COUNT_OF(given_lines));
    check_lines("returns", state_lines, COUNT_OF(state_lines));
    check_lines("returns", refused_lines, COUNT_OF(refused_lines));
    check("returns", "the order of 2, 6, 8, 50 and 51", order());
    check("returns", "NULL, of length 0", null_buffers());
    check("returns", "64 alternates, all given back", all_64(true) && all_64(false));
    check("returns", "the largest device", largest_device());
    check("returns", "the header's names", header_names());
    check_story("returns", freed_story, COUNT_OF(freed_story));
    check_story("returns", lower_story, COUNT_OF(lower_story));
    check_story("returns", exhausted_story, COUNT_OF(exhausted_story));
    check_story("returns", life_story, COUNT_OF(life_story));
    check_story("returns", defective_story, COUNT_OF(defective_story));
    check_story("returns", ipl_story, COUNT_OF(ipl_story));
    check_story("returns", range_story, COUNT_OF(range_story));
}
