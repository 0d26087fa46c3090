// Random classes, right and wrong: the library against the second program, and against its own calls, chain by chain.
#include "test.h"
#include "words.h"

#include <stdio.h>
#include <string.h>

#include "loughrella.h"

#define MOST_CHAINS 200u
#define CAUSES 9

// How a class is made wrong. NOT_AT_ALL makes most of them.
enum damage { NOT_AT_ALL, BUFFER_LONGER, BUFFER_SHORTER, LENGTH_CHANGED, LENGTH_SWAPPED, RESULTS_SHORTER, RESULTS_BY_ONE, DAMAGES };

// What the classes have to reach, besides causes.
enum kind {
    CLASS_OF_NONE, CLASS_OF_ONE, CLASS_OF_MANY, EXACT_RESULTS, MORE_RESULTS, LENGTH_0, LENGTH_ODD, LENGTH_OVER, LENGTH_256, ALL_ANSWERS,
    ROOM_LEFT, RAN_AFTER_REFUSED, READ_AFTER_WRITE, WRITE_AFTER_READ, SENSE_LEFT, IN_PIECES, RIGHT_AGAIN, MAP_CHANGED,
    KINDS
};

static const char *const damage_names[DAMAGES] = {
    "by nothing", "by bytes left over", "by missing bytes", "by a changed length", "by a length's byte order", "by short results",
    "by results one byte short",
};

static const char *const kind_names[KINDS] = {
    "no chain", "one chain", "a hundred chains or more", "exact results", "more results than needed", "a chain of length 0",
    "a length no multiple of 8", "a length over 256", "a length of 256", "32 answers", "room not used", "a chain run after a refused one",
    "a READ after an earlier chain's WRITE", "a WRITE after an earlier chain's READ", "a SENSE of what an earlier chain left",
    "a chain with pieces", "a changed class that is right", "a changed map",
};

struct tally {
    unsigned long causes[CAUSES], damages[DAMAGES], kinds[KINDS], chains;
};

// A class in the making.
struct plan {
    uint32_t chains, length[MOST_CHAINS];
    size_t chains_len, results_len; // as they are right
    struct device device;
    enum damage damage;
};

static uint32_t some_length(struct random *r)
{
    uint32_t kind = random_below(r, 100);
    if (kind < 80) return 8 * (1 + random_below(r, 8));
    if (kind < 88) return 8 * (1 + random_below(r, 32));
    if (kind < 90) return MAX_CHAIN;
    if (kind < 94) return 0;
    if (kind < 98) return random_below(r, 40);
    return random_below(r, 600);
}

static void plan_class(struct random *r, struct plan *p)
{
    uint32_t kind = random_below(r, 200);
    p->chains = kind < 4 ? 0 : kind < 150 ? 1 + random_below(r, 6) : kind < 198 ? 1 + random_below(r, 20) : 100 + random_below(r, 101);
    p->damage = percent(r, 80) ? NOT_AT_ALL : (enum damage)(1 + random_below(r, DAMAGES - 1));
    p->chains_len = p->results_len = 0;
    p->device = (struct device){.primaries = 1 + random_below(r, 12), .alternates = generate_alternates(r)};
    generate_map(r, &p->device);
    for (uint32_t i = 0; i < p->chains; i++) {
        p->length[i] = some_length(r);
        p->chains_len += 2 + p->length[i];
        p->results_len += 4 + 8 * (p->length[i] / 8 + (p->length[i] % 8 != 0));
    }
}

// The lengths of all five buffers: one class in some twenty-five has a bad store, record or main storage.
static void some_lengths(struct random *r, const struct plan *p, size_t length[BUFFERS])
{
    length[CHAIN] = p->chains_len;
    length[STORAGE] = random_below(r, 100) < 3 ? random_below(r, 100) : 600 + random_below(r, 7000);
    length[STORE] = (size_t)BLOCK * (p->device.primaries + p->device.alternates);
    length[RECORD] = RECORD_SIZE;
    length[ANSWERS] = p->results_len + (percent(r, 60) ? 0 : random_below(r, 40));
    switch (random_below(r, 200)) {
    case 0: case 1: length[STORE] -= 1 + random_below(r, BLOCK); break;
    case 2: case 3: case 4: length[RECORD] = percent(r, 50) ? RECORD_SIZE - 1 : random_below(r, 600); break;
    case 5: case 6: length[STORAGE] = MAX_STORAGE + 1; break;
    default: break;
    }
    if (p->damage == BUFFER_LONGER) length[CHAIN] += 1 + random_below(r, 12);
    if (p->damage == BUFFER_SHORTER && p->chains_len > 0)
        length[CHAIN] -= 1 + random_below(r, p->chains_len < 12 ? (uint32_t)p->chains_len : 12);
    if (p->damage == RESULTS_SHORTER) length[ANSWERS] = random_below(r, (uint32_t)p->results_len + 1);
    if (p->damage == RESULTS_BY_ONE && p->results_len > 0) length[ANSWERS] = p->results_len - 1;
}

// A chain's two bytes of length, as far as the buffer goes.
static void put_length(const struct buffers *b, size_t at, uint32_t length)
{
    if (at + 2 > b->length[CHAIN]) return;
    b->at[CHAIN][at] = (uint8_t)(length >> 8);
    b->at[CHAIN][at + 1] = (uint8_t)length;
}

static void make_class(struct random *r, const struct plan *p, struct buffers *library, struct buffers *twin)
{
    size_t length[BUFFERS], at = 0;
    uint32_t parameters = 0, changed = p->chains > 0 ? random_below(r, p->chains) : 0;
    struct device believed = p->device; // formats change it, from chain to chain
    uint8_t record[RECORD_SIZE];
    some_lengths(r, p, length);
    buffers_place(library, twin, length, percent(r, 50));
    library->alternates = twin->alternates = percent(r, 99) ? p->device.alternates : 60 + random_below(r, 12);
    generate_fill(r, library, twin, length[STORAGE] > MAX_STORAGE);
    for (uint32_t i = 0; i < p->chains; at += 2 + p->length[i++]) {
        uint32_t said = p->length[i];
        generate_chain(r, library, twin, &believed, at + 2, said / 8, &parameters);
        if (i == changed && p->damage == LENGTH_CHANGED) said ^= 1u << random_below(r, 16);
        if (i == changed && p->damage == LENGTH_SWAPPED) said = (said << 8 | said >> 8) & 0xFFFF;
        put_length(library, at, said);
        put_length(twin, at, said);
    }
    generate_record(r, record, &p->device, percent(r, 80));
    if (length[RECORD] != RECORD_SIZE) return;
    memcpy(library->at[RECORD], record, RECORD_SIZE);
    memcpy(twin->at[RECORD], record, RECORD_SIZE);
}

// 02, ask 3, by sums: where the lengths end, and all the room.
static bool is_right(const struct buffers *b)
{
    size_t end = 0, room = 0;
    while (end + 2 <= b->length[CHAIN]) {
        size_t length = 256u * b->at[CHAIN][end] + b->at[CHAIN][end + 1];
        end += 2 + length;
        room += 4 + 8 * (length / 8 + (length % 8 != 0));
    }
    return end == b->length[CHAIN] && room <= b->length[ANSWERS];
}

// The library's own calls, one for each chain, as many answers lent as there is room for. Tells the result of the class.
static uint32_t one_by_one(const struct buffers *b)
{
    struct buffers one = *b;
    if (!is_right(b)) return 0x700;
    one.at[CHAIN] = b->at[CHAIN];
    for (uint8_t *head = b->at[ANSWERS]; one.at[CHAIN] < b->at[CHAIN] + b->length[CHAIN]; head = one.at[ANSWERS] + one.length[ANSWERS]) {
        one.length[CHAIN] = 256u * one.at[CHAIN][0] + one.at[CHAIN][1];
        one.length[ANSWERS] = (one.length[CHAIN] + 7) / 8 * 8;
        one.at[CHAIN] += 2;
        one.at[ANSWERS] = head + 4;
        uint32_t result = call_library(&one);
        if (result == FAULT) return FAULT;
        const uint8_t bytes[4] = {0, (uint8_t)(result / 256), 0, (uint8_t)(result % 256)};
        memcpy(head, bytes, 4);
        one.at[CHAIN] += one.length[CHAIN];
    }
    return 0;
}

// ---- What was met.

enum { READS = 1, WRITES = 2, SENSES = 4, PIECES = 8, ENDS_BAD = 16 };

// What the commands of a chain have done: moved blocks, moved sense at its start, ended by a unit check.
static unsigned done_by(const struct loughrella_walk *at)
{
    const uint8_t *word = at->chain, *answer = at->answers;
    unsigned done = 0;
    for (unsigned i = 0; i < at->reached; i++, answer += 8) {
        if (word == at->chain && word[0] == 0x04 && answer[1] != 0x20) done |= SENSES;
        if (answer[0] == 0 && answer[1] == 0) {
            done |= PIECES; // not the last one of its command
            continue;
        }
        if ((answer[6] | answer[7]) != 0) done |= word[0] == 0x41 ? WRITES : READS;
        if (answer[0] == 0x0E) done |= ENDS_BAD;
        while ((word[4] & 0x80) != 0 && i + 1 < at->reached) word += 8;
        word += 8;
    }
    return done;
}

static void tally_chain(struct tally *t, const struct loughrella_walk *at, unsigned before, unsigned refused, unsigned last)
{
    unsigned done = done_by(at);
    if (at->cause < CAUSES) t->causes[at->cause]++;
    t->chains++;
    t->kinds[LENGTH_0] += at->chain_len == 0;
    t->kinds[LENGTH_ODD] += at->chain_len % 8 != 0;
    t->kinds[LENGTH_OVER] += at->chain_len > MAX_CHAIN;
    t->kinds[LENGTH_256] += at->chain_len == MAX_CHAIN && at->cause == 0;
    t->kinds[ALL_ANSWERS] += at->reached == 32;
    t->kinds[ROOM_LEFT] += at->cause == 0 && 8 * at->reached < at->chain_len;
    t->kinds[RAN_AFTER_REFUSED] += at->cause == 0 && refused > 0;
    t->kinds[READ_AFTER_WRITE] += (done & READS) != 0 && (before & WRITES) != 0;
    t->kinds[WRITE_AFTER_READ] += (done & WRITES) != 0 && (before & READS) != 0;
    t->kinds[SENSE_LEFT] += (done & SENSES) != 0 && (last & ENDS_BAD) != 0;
    t->kinds[IN_PIECES] += (done & PIECES) != 0;
}

// Goes over a class that was run, by the header's walk, which must come to its end. Tells whether it did.
static bool tally_class(struct tally *t, const struct buffers *b, const struct plan *p)
{
    struct loughrella_walk at = loughrella_walk_results(b->at[CHAIN], b->length[CHAIN], b->at[ANSWERS], b->length[ANSWERS]);
    unsigned chains = 0, before = 0, refused = 0, last = 0;
    for (; call_next_result(&at) == 1; chains++) {
        tally_chain(t, &at, before, refused, last);
        last = done_by(&at);
        before |= last;
        refused += at.cause != 0;
    }
    t->kinds[CLASS_OF_NONE] += chains == 0;
    t->kinds[CLASS_OF_ONE] += chains == 1;
    t->kinds[CLASS_OF_MANY] += chains >= 100;
    t->kinds[EXACT_RESULTS] += chains > 0 && at.results_len == 0;
    t->kinds[MORE_RESULTS] += chains > 0 && at.results_len > 0;
    t->kinds[RIGHT_AGAIN] += p->damage != NOT_AT_ALL;
    return at.chains_len == 0 && (p->damage != NOT_AT_ALL || chains == p->chains);
}

// 02, ask 4: a class that was run leaves every entry as it was, taken where it was unused, or defective where it was taken or
// unused; one that is defective stays so. Tells whether; and counts a map that was changed.
static bool map_is_kept(struct tally *t, const uint8_t *before, const struct buffers *b)
{
    if (b->length[RECORD] != RECORD_SIZE) return true;
    const uint8_t *after = b->at[RECORD] + MAP_AT;
    for (size_t i = 0; i < MAP_SIZE; i += 4) {
        uint32_t was = get32(before + i), is = get32(after + i);
        if (is != was && was != 0 && (was == DEFECTIVE || is != DEFECTIVE)) return printf("  entry %zu\n", i / 4), false;
    }
    t->kinds[MAP_CHANGED] += memcmp(before, after, MAP_SIZE) != 0;
    return true;
}

// One class. Of two, one is compared with the second program and one with the library's own calls.
static bool agree(struct random *r, uint32_t i, void *tally)
{
    static struct plan p;
    struct tally *t = tally;
    bool by_itself = i % 2 == 1;
    struct buffers library, twin;
    uint8_t map[MAP_SIZE] = {0};
    plan_class(r, &p);
    make_class(r, &p, &library, &twin);
    if (library.length[RECORD] == RECORD_SIZE) memcpy(map, library.at[RECORD] + MAP_AT, MAP_SIZE);
    uint32_t wanted = by_itself ? one_by_one(&twin) : call_second_class(&twin), result = call_library_class(&library);
    bool holds = result == wanted && result != FAULT && buffers_equal(&library, &twin);
    if (result != wanted) printf("  result %lX, not %lX\n", (unsigned long)result, (unsigned long)wanted);
    if (holds && result == 0) holds = map_is_kept(t, map, &library) && tally_class(t, &library, &p);
    else if (holds) t->damages[p.damage]++;
    if (!holds) printf("  %lu chains, wrong %s, compared with %s\n", (unsigned long)p.chains, damage_names[p.damage],
                       by_itself ? "the library's own calls" : "the second program");
    return holds;
}

// Whether all were met often enough: by one class in a thousand, at least.
static bool print_tally(const struct tally *t, uint32_t classes)
{
    unsigned long least = classes / 1000 + 1;
    bool all = true;
    for (unsigned i = 0; i < CAUSES; i++) {
        printf("class, cause %u: %lu\n", i, t->causes[i]);
        if (i == 4 || i == 7 ? t->causes[i] != 0 : t->causes[i] < least) all = false; // 4 cannot come, 7 is the class's own
    }
    for (int i = 1; i < DAMAGES; i++) {
        printf("class, wrong %s: %lu\n", damage_names[i], t->damages[i]);
        all = all && t->damages[i] >= least;
    }
    for (int i = 0; i < KINDS; i++) {
        printf("class, %s: %lu\n", kind_names[i], t->kinds[i]);
        all = all && t->kinds[i] >= least;
    }
    return all && t->damages[NOT_AT_ALL] == 0; // a class that is not damaged is right
}

void test_class_random(uint32_t classes, uint64_t seed)
{
    struct tally t;
    memset(&t, 0, sizeof t);
    struct row row = {"classes", "a batch agrees", "class", classes, 1000, 0, seed, 0xA24BAED4963EE407u, agree, 0};
    bool same = check_row(&row, &t);
    printf("classes: %lu, chains run: %lu\n", (unsigned long)row.run, t.chains);
    if (same && classes > 0) check("classes", "every kind was met often enough", print_tally(&t, classes));
}
