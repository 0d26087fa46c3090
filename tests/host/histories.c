// Random histories of a device (02, ask 6): from an empty map on, chains, classes and give backs. After each step the library and
// the second program agree; and the alternates that are used, unused and defective, counted from what was asked and answered,
// never from a map, are as the library's map shows. And give backs on random devices.
#include "test.h"

#include <stdio.h>
#include <string.h>

#include "loughrella.h"

#define CALLS 10u        // give backs on random devices, for each history
#define MOST_BLOCKS 300u // primaries
#define MOST_WORDS 16u   // of a chain
#define MOST_CHAINS 4u   // of a class
#define NO_FORMAT 0xFFFFFFFFu

// Main storage: each chain's parameters, then data.
#define PARAMETERS 256u
#define DATA_AT (MOST_CHAINS * PARAMETERS)
#define DATA_BLOCKS 12u
#define STORAGE_SIZE (DATA_AT + DATA_BLOCKS * BLOCK)

// What the histories have to reach.
enum kind {
    GIVEN, BEYOND_DEVICE, NOT_MAPPED, NOT_READY, READ_ONLY, FORMATTED, FORMATTED_AGAIN, EXHAUSTED, FORMAT_REFUSED, RETAKEN,
    LAST_GIVEN, FREE_CHAIN, CLASS_RUN, ALTERNATES_64, NO_ALTERNATES,
    KINDS
};

static const char *const kind_names[KINDS] = {
    "given back", "50", "51", "given back while not ready", "given back while read-only", "a format", "a format of a mapped block",
    "39", "a format refused by another cause", "a format that takes what was given back", "the last used one given back",
    "any chain, with none unused", "a class", "64 alternates", "no alternates",
};

struct tally {
    unsigned long kinds[KINDS], steps;
};

// A device as its history has it: what was asked, and how it was answered.
struct history {
    struct random *r;
    struct tally *tally;
    struct buffers library, twin;
    bool at_end;
    uint32_t primaries, alternates;
    uint32_t used, unused, defective;
    bool mapped[MOST_BLOCKS];
    bool freed[MAX_ALTERNATES]; // given back and not taken since: for the tally alone
};

// A chain in the making: of each word, the block that it is to format.
struct asked {
    struct history *h;
    uint8_t bytes[8 * MOST_WORDS];
    uint32_t words, formats[MOST_WORDS];
    uint32_t parameters;   // where the next ones go
    uint32_t offset, size; // the extent; its first displacement is 100
};

#define FIRST 100u

// ---- Both sides.

// Lends the chain and the answers with these lengths. All else lies where it did.
static void lend(struct history *h, size_t chain, size_t answers)
{
    size_t length[BUFFERS] = {chain, STORAGE_SIZE, (size_t)BLOCK * (h->primaries + h->alternates), RECORD_SIZE, answers};
    buffers_place(&h->library, &h->twin, length, h->at_end);
    h->library.alternates = h->twin.alternates = h->alternates;
}

static void put(const struct history *h, int buffer, size_t at, const void *bytes, size_t size)
{
    memcpy(h->library.at[buffer] + at, bytes, size);
    memcpy(h->twin.at[buffer] + at, bytes, size);
}

static void put_random(const struct history *h, int buffer, size_t at, size_t size)
{
    random_fill(h->r, h->library.at[buffer] + at, size);
    memcpy(h->twin.at[buffer] + at, h->library.at[buffer] + at, size);
}

static void put_state(const struct history *h, uint8_t ready, uint8_t read_only)
{
    const uint8_t state[2] = {ready, read_only};
    put(h, RECORD, 32, state, 2);
}

static bool agree(const struct history *h, uint32_t result, uint32_t wanted)
{
    if (result == wanted) return buffers_equal(&h->library, &h->twin);
    return printf("  result %lX, not %lX\n", (unsigned long)result, (unsigned long)wanted), false;
}

// ---- Chains.

static void add_word(struct asked *a, uint32_t command, uint32_t address, uint32_t flags, uint32_t count)
{
    const uint8_t word[8] = {(uint8_t)command, (uint8_t)(address >> 16), (uint8_t)(address >> 8), (uint8_t)address,
                             (uint8_t)flags, 0, (uint8_t)(count >> 8), (uint8_t)count};
    memcpy(a->bytes + 8 * a->words, word, 8);
    a->formats[a->words++] = NO_FORMAT;
}

static void add_extent(struct asked *a, uint32_t number, uint8_t mask, uint32_t offset, uint32_t size)
{
    uint8_t p[16] = {mask};
    put32(p + 4, offset);
    put32(p + 8, FIRST);
    put32(p + 12, FIRST + size - 1);
    put(a->h, STORAGE, PARAMETERS * number, p, 16);
    a->parameters = PARAMETERS * number + 16;
    a->offset = offset;
    a->size = size;
    add_word(a, 0x63, PARAMETERS * number, 0x40, 16);
}

// From the extent's block `start` on.
static void add_locate(struct asked *a, uint8_t operation, uint32_t count, uint32_t start)
{
    uint8_t p[8] = {operation, 0, (uint8_t)(count >> 8), (uint8_t)count};
    put32(p + 4, FIRST + start);
    put(a->h, STORAGE, a->parameters, p, 8);
    add_word(a, 0x43, a->parameters, 0x40, 8);
    a->parameters += 8;
    if (operation == 4) a->formats[a->words - 1] = a->offset + start;
}

// Now and then one that is refused: outside the extent (36), or of two blocks (34).
static void add_format(struct asked *a)
{
    uint32_t start = random_below(a->h->r, a->size), damage = random_below(a->h->r, 40);
    for (int tries = 0; tries < 3 && a->h->mapped[a->offset + start] && percent(a->h->r, 60); tries++)
        start = random_below(a->h->r, a->size);
    add_locate(a, 4, damage == 1 ? 2 : 1, damage == 0 ? a->size : start);
}

static void add_transfer(struct asked *a)
{
    bool writes = percent(a->h->r, 60);
    uint32_t count = between(a->h->r, 1, a->size < 4 ? a->size : 4), start = random_below(a->h->r, a->size - count + 1);
    uint32_t bytes = percent(a->h->r, 80) ? BLOCK * count : between(a->h->r, 1, BLOCK * count);
    add_locate(a, writes ? (percent(a->h->r, 30) ? 5 : 1) : 6, count, start);
    add_word(a, writes ? 0x41 : 0x42, DATA_AT, 0x60, bytes);
}

static void end_chain(struct asked *a) { a->bytes[8 * a->words - 4] &= 0x20; }

// The class's chain of this number. One extent in thirty has mask 00, which forbids formats (37).
static void make_chain(struct history *h, struct asked *a, uint32_t number)
{
    uint32_t offset = percent(h->r, 50) ? 0 : random_below(h->r, h->primaries), rest = h->primaries - offset;
    *a = (struct asked){.h = h};
    add_extent(a, number, random_below(h->r, 30) == 0 ? 0x00 : 0xC0, offset, percent(h->r, 60) ? rest : between(h->r, 1, rest));
    for (uint32_t commands = between(h->r, 1, 7); commands > 0; commands--) {
        if (percent(h->r, 65)) add_format(a);
        else add_transfer(a);
    }
    end_chain(a);
}

// ---- Counting.

// A format as it was asked for, and its answer. Tells whether the history allows it: 39 exactly when none is unused.
static bool count_format(struct history *h, uint32_t block, uint32_t cause)
{
    unsigned long *kinds = h->tally->kinds;
    kinds[EXHAUSTED] += cause == 39;
    if (cause == 39) return h->unused == 0;
    kinds[FORMAT_REFUSED] += cause != 0;
    if (cause != 0) return true;
    if (h->unused == 0 || block >= h->primaries) return false;
    kinds[h->mapped[block] ? FORMATTED_AGAIN : FORMATTED]++;
    h->unused--;
    if (h->mapped[block]) h->defective++;
    else h->used++;
    h->mapped[block] = true;
    return true;
}

// Each word has one answer: no command here is in pieces.
static bool count_answers(struct history *h, const struct asked *a, uint32_t reached, const uint8_t *answers)
{
    for (uint32_t i = 0; i < reached; i++)
        if (a->formats[i] != NO_FORMAT && !count_format(h, a->formats[i], answers[8 * i + 4]))
            return printf("  a format of block %lu, cause %d\n", (unsigned long)a->formats[i], answers[8 * i + 4]), false;
    return true;
}

// Whether the library's map shows as many of each, the same blocks, and nothing beyond the device's alternates.
static bool map_shows(const struct history *h)
{
    const uint8_t *map = h->library.at[RECORD] + MAP_AT;
    uint32_t used = 0, unused = 0, defective = 0;
    for (uint32_t i = 0; i < MAX_ALTERNATES; i++) {
        uint32_t entry = get32(map + 4 * i);
        bool names = entry != 0 && entry != DEFECTIVE;
        used += names;
        unused += entry == 0 && i < h->alternates;
        defective += entry == DEFECTIVE;
        if (names && (entry > h->primaries || !h->mapped[entry - 1])) return printf("  entry %lu\n", (unsigned long)i), false;
    }
    if (used == h->used && unused == h->unused && defective == h->defective && used + unused + defective == h->alternates) return true;
    return printf("  the map shows %lu used, %lu unused, %lu defective of %lu; by history %lu, %lu, %lu\n", (unsigned long)used,
                  (unsigned long)unused, (unsigned long)defective, (unsigned long)h->alternates, (unsigned long)h->used,
                  (unsigned long)h->unused, (unsigned long)h->defective), false;
}

// Of the alternates that were given back, those that are taken again.
static void tally_retaken(struct history *h)
{
    for (uint32_t i = 0; i < h->alternates; i++)
        if (h->freed[i] && get32(h->library.at[RECORD] + MAP_AT + 4 * i) != 0) {
            h->freed[i] = false;
            h->tally->kinds[RETAKEN]++;
        }
}

// ---- Steps.

static bool run_chain(struct history *h, const struct asked *a)
{
    lend(h, 8 * a->words, 8 * a->words);
    put(h, CHAIN, 0, a->bytes, 8 * a->words);
    put_random(h, ANSWERS, 0, 8 * a->words);
    uint32_t wanted = call_second(&h->twin), result = call_library(&h->library);
    return agree(h, result, wanted) && result < 256 && count_answers(h, a, result, h->library.at[ANSWERS]);
}

// One chain in fifteen finds a read-only unit, which refuses formats by 38.
static bool step_chain(struct history *h)
{
    struct asked a;
    make_chain(h, &a, 0);
    put_state(h, 1, random_below(h->r, 15) == 0);
    bool holds = run_chain(h, &a);
    put_state(h, 1, 0);
    return holds;
}

static bool count_class(struct history *h, const struct asked *asked)
{
    struct loughrella_walk at = loughrella_walk_results(h->library.at[CHAIN], h->library.length[CHAIN], h->library.at[ANSWERS],
                                                        h->library.length[ANSWERS]);
    for (; call_next_result(&at) == 1; asked++)
        if (at.cause != 0 || !count_answers(h, asked, at.reached, at.answers)) return false;
    return at.chains_len == 0;
}

static bool step_class(struct history *h)
{
    struct asked asked[MOST_CHAINS];
    uint32_t chains = between(h->r, 1, MOST_CHAINS);
    size_t length = 0, results = 0;
    for (uint32_t i = 0; i < chains; i++) {
        make_chain(h, &asked[i], i);
        length += 2 + 8 * asked[i].words;
        results += LOUGHRELLA_RESULT_SIZE(8 * asked[i].words);
    }
    lend(h, length, results);
    put_random(h, ANSWERS, 0, results);
    length = 0;
    for (uint32_t i = 0; i < chains; length += 2 + 8 * asked[i++].words) {
        const uint8_t head[2] = {0, (uint8_t)(8 * asked[i].words)};
        put(h, CHAIN, length, head, 2);
        put(h, CHAIN, length + 2, asked[i].bytes, 8 * asked[i].words);
    }
    h->tally->kinds[CLASS_RUN]++;
    uint32_t wanted = call_second_class(&h->twin), result = call_library_class(&h->library);
    return agree(h, result, wanted) && result == 0 && count_class(h, asked);
}

// A chain of any kind. It formats nothing: the unit is read-only, or by its history none is unused.
static bool step_any(struct history *h)
{
    struct device believed = {.primaries = h->primaries, .alternates = h->alternates};
    uint32_t words = between(h->r, 1, 16), parameters = 0;
    h->tally->kinds[FREE_CHAIN] += h->unused == 0 && h->alternates > 0;
    lend(h, 8 * words, 8 * words);
    put_random(h, CHAIN, 0, 8 * words);
    put_random(h, ANSWERS, 0, 8 * words);
    memcpy(believed.map, h->library.at[RECORD] + MAP_AT, MAP_SIZE);
    generate_chain(h->r, &h->library, &h->twin, &believed, 0, words, &parameters);
    put_state(h, 1, h->unused > 0);
    uint32_t wanted = call_second(&h->twin), result = call_library(&h->library);
    bool holds = agree(h, result, wanted);
    put_state(h, 1, 0);
    return holds;
}

// ---- Give backs.

// Mostly a mapped one.
static uint32_t some_block(struct history *h)
{
    static const uint32_t far[4] = {0xFFFFFFFF, 0xFFFFFFFE, 0x80000000, 0x10000};
    uint32_t kind = random_below(h->r, 100), block = random_below(h->r, h->primaries);
    if (kind < 6) return h->primaries + random_below(h->r, h->alternates + 2);
    if (kind < 10) return far[kind - 6] + (kind < 8 ? 0 : block);
    for (uint32_t i = 0; kind < 85 && i < h->primaries && !h->mapped[block]; i++) block = (block + 1) % h->primaries;
    return block;
}

// What each block of the device shows: its place by the library's map, and that place's bytes.
static void show(const struct history *h, uint8_t *shown)
{
    for (uint32_t i = 0; i < h->primaries; i++) {
        uint32_t place = place_of(h->library.at[RECORD] + MAP_AT, h->primaries, i);
        memcpy(shown + (size_t)BLOCK * i, h->library.at[STORE] + (size_t)BLOCK * place, BLOCK);
    }
}

// The same by a READ of the library's: of the block, and as many from there on as main storage has room for.
static bool show_by_read(struct history *h, uint32_t block, uint8_t *shown)
{
    struct asked a = {.h = h};
    uint32_t from = block < h->primaries ? block : 0, rest = h->primaries - from, count = rest < DATA_BLOCKS ? rest : DATA_BLOCKS;
    add_extent(&a, 0, 0x40, 0, h->primaries);
    add_locate(&a, 6, count, from);
    add_word(&a, 0x42, DATA_AT, 0x00, BLOCK * count);
    put_random(h, STORAGE, DATA_AT, BLOCK * count);
    bool done = run_chain(h, &a) && h->library.at[ANSWERS][20] == 0;
    memcpy(shown, h->library.at[STORAGE] + DATA_AT, DATA_BLOCKS * BLOCK);
    return done;
}

// What the history says of this one: the result, and what it leaves.
static uint32_t count_give_back(struct history *h, uint32_t block)
{
    unsigned long *kinds = h->tally->kinds;
    enum kind kind = block >= h->primaries ? BEYOND_DEVICE : !h->mapped[block] ? NOT_MAPPED : GIVEN;
    kinds[kind]++;
    if (kind != GIVEN) return kind == BEYOND_DEVICE ? 0x3200 : 0x3300;
    h->mapped[block] = false;
    h->used--;
    h->unused++;
    kinds[LAST_GIVEN] += h->used == 0;
    kinds[NOT_READY] += h->library.at[RECORD][32] == 0;
    kinds[READ_ONLY] += h->library.at[RECORD][33] != 0;
    return 0;
}

// The call, in any state of the unit. Where it is done the alternate is left with zeros.
static bool give_back(struct history *h, uint32_t block)
{
    static const uint8_t zeros[BLOCK];
    uint32_t place = place_of(h->library.at[RECORD] + MAP_AT, h->primaries, block);
    put_state(h, !percent(h->r, 15), percent(h->r, 15));
    uint32_t expected = count_give_back(h, block), wanted = call_second_give_back(&h->twin, block);
    bool holds = agree(h, call_library_give_back(&h->library, block), expected) && wanted == expected;
    put_state(h, 1, 0);
    if (!holds || expected != 0) return holds;
    h->freed[place - h->primaries] = true;
    return memcmp(h->library.at[STORE] + (size_t)BLOCK * place, zeros, BLOCK) == 0;
}

// Done or not, every block shows what it did.
static bool step_give_back(struct history *h)
{
    static uint8_t before[MOST_BLOCKS * BLOCK], after[MOST_BLOCKS * BLOCK];
    static uint8_t read_before[DATA_BLOCKS * BLOCK], read_after[DATA_BLOCKS * BLOCK];
    uint32_t block = some_block(h);
    show(h, before);
    if (!show_by_read(h, block, read_before)) return false;
    if (!give_back(h, block)) return printf("  give back of block %lX\n", (unsigned long)block), false;
    show(h, after);
    if (!show_by_read(h, block, read_after)) return false;
    return memcmp(before, after, BLOCK * h->primaries) == 0 && memcmp(read_before, read_after, sizeof read_before) == 0;
}

// ---- The whole.

static void begin(struct history *h)
{
    uint32_t size = random_below(h->r, 100), kind = random_below(h->r, 100);
    uint8_t fresh[RECORD_SIZE] = {[32] = 1};
    h->primaries = size < 75 ? between(h->r, 1, 12) : size < 95 ? between(h->r, 13, 40) : between(h->r, 41, MOST_BLOCKS);
    h->alternates = kind < 8 ? 0 : kind < 25 ? between(h->r, 1, 2) : kind < 70 ? between(h->r, 3, 8) : between(h->r, 9, MAX_ALTERNATES);
    if (kind >= 90) h->alternates = MAX_ALTERNATES;
    h->unused = h->alternates;
    h->at_end = percent(h->r, 50);
    h->tally->kinds[ALTERNATES_64] += h->alternates == MAX_ALTERNATES;
    h->tally->kinds[NO_ALTERNATES] += h->alternates == 0;
    lend(h, 0, 0);
    generate_fill(h->r, &h->library, &h->twin, false);
    random_fill(h->r, fresh, 32);
    put(h, RECORD, 0, fresh, RECORD_SIZE);
}

static bool step(struct history *h)
{
    uint32_t kind = random_below(h->r, 100);
    put_random(h, STORAGE, DATA_AT, 4 * BLOCK);
    bool holds = kind < 40 ? step_chain(h) : kind < 50 ? step_class(h) : kind < 60 ? step_any(h) : step_give_back(h);
    tally_retaken(h);
    h->tally->steps++;
    return holds && map_shows(h);
}

static bool history_holds(struct random *r, struct tally *t)
{
    struct history h = {.r = r, .tally = t};
    begin(&h);
    for (uint32_t steps = between(r, 10, 60), i = 0; i < steps; i++)
        if (!step(&h))
            return printf("  step %lu, %lu primaries, %lu alternates\n", (unsigned long)i, (unsigned long)h.primaries,
                          (unsigned long)h.alternates), false;
    return true;
}

// A give back on any device, right or wrong: the library against the second program alone.
static bool agrees_anywhere(struct random *r)
{
    static const uint32_t wrong[4] = {MAX_ALTERNATES + 1, 0xFFFFFFFF, 0, 5};
    struct device d = {.primaries = between(r, 1, 20), .alternates = generate_alternates(r)};
    struct buffers library, twin;
    uint8_t record[RECORD_SIZE];
    size_t length[BUFFERS] = {0, 0, (size_t)BLOCK * (d.primaries + d.alternates), RECORD_SIZE, 0};
    generate_map(r, &d);
    if (percent(r, 3)) length[STORE] -= between(r, 1, BLOCK);
    if (percent(r, 3)) length[RECORD] = random_below(r, 2 * RECORD_SIZE);
    buffers_place(&library, &twin, length, percent(r, 50));
    library.alternates = twin.alternates = percent(r, 97) ? d.alternates : wrong[random_below(r, 4)];
    generate_fill(r, &library, &twin, false);
    generate_record(r, record, &d, percent(r, 50));
    memcpy(library.at[RECORD], record, length[RECORD] < RECORD_SIZE ? length[RECORD] : RECORD_SIZE);
    buffers_copy(&library, &twin);
    uint32_t block = get32(d.map + 4 * random_below(r, d.alternates + 1 < MAX_ALTERNATES ? d.alternates + 1 : MAX_ALTERNATES)) - 1;
    if (percent(r, 40)) block = random_below(r, d.primaries + 3);
    uint32_t wanted = call_second_give_back(&twin, block), result = call_library_give_back(&library, block);
    if (result == wanted && buffers_equal(&library, &twin)) return true;
    printf("  give back of block %lX: result %lX, not %lX\n", (unsigned long)block, (unsigned long)result, (unsigned long)wanted);
    return print_input(&twin, record), false;
}

// Whether all were met often enough: in one history of four, at least, or, of what a device is, in one of thirty.
static bool print_tally(const struct tally *t, uint32_t histories)
{
    bool all = true;
    for (int i = 0; i < KINDS; i++) {
        printf("histories, %s: %lu\n", kind_names[i], t->kinds[i]);
        all = all && t->kinds[i] >= histories / (i < ALTERNATES_64 ? 4 : 30);
    }
    return all;
}

static bool all_hold(struct random *r, uint32_t i, void *tally)
{
    (void)i;
    bool holds = history_holds(r, tally);
    for (uint32_t n = 0; n < CALLS && holds; n++) holds = agrees_anywhere(r);
    return holds;
}

void test_histories(uint32_t histories, uint64_t seed)
{
    static const char name[] = "a batch is as its history has it";
    struct tally t;
    memset(&t, 0, sizeof t);
    struct row row = {"histories", name, "history", histories, 100, 0, seed, 0xE7037ED1A0B428DBu, all_hold, 0};
    bool same = check_row(&row, &t);
    printf("histories: %lu, steps: %lu\n", (unsigned long)row.run, t.steps);
    if (same && histories > 0) check("histories", "every kind was met often enough", print_tally(&t, histories));
}
