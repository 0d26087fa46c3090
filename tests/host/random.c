// Compares the library with the second program on random inputs: the result and all five buffers, whole. And some properties of
// what a chain leaves hold whatever the second program says (02, ask 4).
#include "test.h"

#include <stdio.h>
#include <string.h>

#define LARGE 100u // this many inputs, or nearly, have large buffers
#define CAUSES 45
#define WORDS 32
#define KEPT_BLOCKS 1024u // a store of so many is kept as it was before the run

// Besides causes and accepted commands, what the inputs have to reach.
enum kind {
    INCORRECT_LENGTH, SHORT_READ, SHORT_WRITE, NOT_BEGUN, LONG_TRANSFER, REPLICATED, MODIFIER_3, OVERWRITTEN, SECOND_IPL,
    SENSE_NOT_READY, READ_ONLY_READ, FULL_READ, FULL_CHECKED, FULL_MOVEMENTS, SENSE_KEPT, ALL_WORDS, WHOLE_STORAGE,
    WHOLE_STORE, EXTENT_LEFT, LOCATE_LEFT,
    NOT_REACHED, UNREACHED_SUPPRESSES, UNREACHED_DOES_NOT, DENSE, LAST_RESIDUAL, GATHERED_EXTENT, GATHERED_LOCATE, SPREAD_EXTENT,
    SPREAD_LOCATE, LATER_10, LATER_11, LATER_12, OVERLAP, ACROSS_BLOCKS, IDLE_40, IDLE_20, OTHER_BYTE, BYTE_13, NOP_OUTSIDE, SUM_65535,
    SUM_131072, MOVED_65535, MOVED_131072, SIXTEEN_PIECES, SLICE_ENDS_80,
    FORMATTED, FORMATTED_AGAIN, EXHAUSTED, READ_MAPPED, READ_BOTH, WRITE_MAPPED, WRITE_BOTH, ZEROS_MAPPED, IPL_MAPPED, MOVED_FORMATTED,
    AFTER_FORMAT, ALTERNATES_64, ONE_PRIMARY, WHOLE_WITH_ALTERNATES, TWO_NAMES, NAMES_NONE, BEYOND, OVER_64, NO_PRIMARY,
    KINDS
};

static const char *const kind_names[KINDS] = {
    "incorrect length", "short READ", "short WRITE", "WRITE with blocks not begun", "count over the LOCATE's bytes", "replicated READ",
    "LOCATE with modifier bit 3", "LOCATE overwritten by an earlier command", "READ IPL from READ IPL", "SENSE while not ready",
    "READ while read-only", "blocks read filled", "blocks written with check filled", "access movements filled",
    "program check with sense pending", "all 32 words reached", "storage of 16,777,216", "store of 131,072 blocks",
    "bad extent with a count over 16", "bad LOCATE with a count over 8",
    "a piece not reached", "length suppressed by a piece not reached", "incorrect length by a piece not reached",
    "a command after a piece not reached", "a residual in a later piece", "DEFINE EXTENT gathered", "LOCATE gathered",
    "a bad extent spread over pieces", "a bad LOCATE spread over pieces", "10 in a later piece", "11 in a later piece", "12 in a later piece",
    "pieces of a READ that overlap", "a piece across blocks", "flag 40 with flag 80, not at the end", "flag 20 with flag 80, not at the end",
    "another command byte in a piece", "a command byte of 13 in a piece", "NO-OPERATION with a piece outside", "a sum over 65,535",
    "a sum over 131,072", "over 65,535 bytes moved", "over 131,072 bytes moved", "sixteen pieces reached", "a slice that ends with flag 80",
    "a format", "a format of a mapped block", "39 on a device with alternates", "READ of mapped blocks alone",
    "READ of mapped blocks and others", "WRITE of mapped blocks alone", "WRITE of mapped blocks and others",
    "WRITE whose zeros reach a mapped block", "READ IPL of a mapped block", "a transfer of a block that the chain formatted",
    "42 after a format", "64 alternates", "one primary and alternates", "store of 131,072 blocks with alternates",
    "8, two entries name one block", "8, an entry names none", "8, an entry beyond the alternates", "2, over 64 alternates", "2, no primary",
};

static const struct { uint8_t command; const char *name; } commands[] = {
    {0x03, "NO-OPERATION"}, {0x63, "DEFINE EXTENT"}, {0x43, "LOCATE"}, {0x42, "READ"}, {0x41, "WRITE"}, {0x02, "READ IPL"},
    {0x04, "SENSE"}, {0xE4, "SENSE TYPE"}, {0xA4, "READ AND RESET BUFFERED LOG"},
};

static const uint8_t expected_causes[] = {1,  2,  3,  4,  5,  6,  8,  10, 11, 12, 13, 20, 21, 22, 23, 24, 25, 26,
                                          30, 31, 32, 33, 34, 35, 36, 37, 38, 39, 40, 41, 42, 43, 44};

struct tally {
    unsigned long causes[CAUSES], accepted[256], kinds[KINDS], reached;
    unsigned long split_causes[CAUSES], split_accepted[256]; // of commands in pieces
    uint32_t every;                                          // one input in so many is large
};

// What must be kept of an input, because a run changes it.
struct before {
    uint8_t record[RECORD_SIZE];
    uint8_t parameters[WORDS][16]; // storage at each word's address
    uint32_t primaries, alternates;
    bool has_store;
    uint8_t store[KEPT_BLOCKS * BLOCK];
};

struct piece {
    uint32_t address, count, moved;
    uint8_t command, flags;
};

// A command taken apart, with its answers: its pieces, how many of them were reached, and what the last of these shows.
struct step {
    struct piece piece[WORDS];
    size_t first, pieces, reached; // its first word
    uint32_t sum, moved, residual, blocks;
    uint8_t command, flags, channel, cause; // the flags are the final piece's
    bool known;                             // what follows is: no command before it has overwritten what it goes by
    uint32_t operation, block, count;       // of a LOCATE, or of the one that a transfer goes by: its operation and blocks
};

static uint32_t big_endian(const uint8_t *p, int size)
{
    uint32_t value = 0;
    for (int i = 0; i < size; i++) value = value << 8 | p[i];
    return value;
}

static void keep(const struct buffers *b, struct before *kept)
{
    memset(kept, 0, offsetof(struct before, store));
    kept->alternates = b->alternates;
    kept->primaries = (uint32_t)(b->length[STORE] / BLOCK) - b->alternates;
    kept->has_store = b->length[STORE] <= sizeof kept->store;
    if (kept->has_store) memcpy(kept->store, b->at[STORE], b->length[STORE]);
    memcpy(kept->record, b->at[RECORD], b->length[RECORD] < RECORD_SIZE ? b->length[RECORD] : RECORD_SIZE);
    for (size_t i = 0; i < WORDS && 8 * i + 8 <= b->length[CHAIN]; i++) {
        size_t address = big_endian(b->at[CHAIN] + 8 * i + 1, 3), length = b->length[STORAGE];
        if (address < length) memcpy(kept->parameters[i], b->at[STORAGE] + address, length - address < 16 ? length - address : 16);
    }
}

static struct piece piece_at(const struct buffers *b, size_t word)
{
    const uint8_t *w = b->at[CHAIN] + 8 * word;
    return (struct piece){.command = w[0], .address = big_endian(w + 1, 3), .flags = w[4], .count = big_endian(w + 6, 2)};
}

// The command at this word, whose first answer is at this place. Only the last one of its answers shows a status.
static struct step step_at(const struct buffers *b, size_t word, size_t place)
{
    struct step s = {.first = word};
    const uint8_t *a = b->at[ANSWERS] + 8 * place;
    do {
        s.piece[s.pieces] = piece_at(b, word + s.pieces);
        s.sum += s.piece[s.pieces++].count;
    } while ((s.piece[s.pieces - 1].flags & 0x80) != 0);
    while (a[8 * s.reached] == 0 && a[8 * s.reached + 1] == 0) s.reached++;
    a += 8 * s.reached++;
    s.command = s.piece[0].command;
    s.flags = s.piece[s.pieces - 1].flags;
    s.channel = a[1];
    s.cause = a[4];
    s.residual = big_endian(a + 2, 2);
    s.blocks = big_endian(a + 6, 2);
    for (size_t i = 0; i < s.reached; i++) {
        s.piece[i].moved = s.piece[i].count - (i + 1 == s.reached ? s.residual : 0);
        s.moved += s.piece[i].moved;
    }
    return s;
}

static bool is_input(uint8_t command) { return command == 0x42 || command == 0x02 || command == 0x04 || command == 0xE4 || command == 0xA4; }

// Whether bytes that moved into a piece are among the first `size` of another's area.
static bool meets(const struct piece *p, const struct piece *other, uint32_t size)
{
    return p->moved > 0 && p->address < other->address + size && other->address < p->address + p->moved;
}

// Whether a command before this one moved bytes into its parameters, or near them.
static bool was_overwritten(const struct step *steps, size_t i)
{
    for (size_t k = 0; k < i; k++)
        for (size_t n = 0; is_input(steps[k].command) && n < steps[k].reached; n++)
            for (size_t own = 0; own < steps[i].reached; own++)
                if (meets(&steps[k].piece[n], &steps[i].piece[own], steps[i].command == 0x63 ? 16 : 8)) return true;
    return false;
}

// The parameters as they stood before the run.
static void gather(const struct step *s, const struct before *kept, uint8_t to[16])
{
    uint32_t n = 0;
    memset(to, 0, 16);
    for (size_t i = 0; i < s->pieces && s->first + i < WORDS; i++)
        for (uint32_t k = 0; k < s->piece[i].count && n < 16; k++) to[n++] = kept->parameters[s->first + i][k];
}

// Finds what each LOCATE, and each transfer behind it, is for: by the extent that stands, and by its own parameters.
static void find_blocks(struct step *steps, size_t n, const struct before *kept)
{
    uint8_t p[16];
    uint32_t offset = 0, first = 0; // as READ IPL sets them
    bool known = true;
    for (size_t i = 0; i < n; i++) {
        struct step *s = &steps[i];
        gather(s, kept, p);
        if (s->command == 0x63 && s->cause == 0) {
            offset = big_endian(p + 4, 4);
            first = big_endian(p + 8, 4);
            known = !was_overwritten(steps, i);
        }
        if (s->command == 0x43 && s->cause == 0) {
            s->known = known && !was_overwritten(steps, i);
            s->operation = p[0] & 0x0F;
            s->block = big_endian(p + 4, 4) - first + offset;
            s->count = big_endian(p + 2, 2);
        }
        if ((s->command == 0x41 || s->command == 0x42) && i > 0 && (s->cause == 0 || s->cause == 42)) {
            s->known = steps[i - 1].known;
            s->operation = steps[i - 1].operation;
            s->block = steps[i - 1].block;
            s->count = steps[i - 1].count;
        }
    }
}

// How many of these blocks the map has.
static uint32_t mapped_among(const struct before *kept, uint32_t block, uint32_t count)
{
    uint32_t mapped = 0;
    for (uint32_t i = 0; i < MAX_ALTERNATES; i++) mapped += get32(kept->record + MAP_AT + 4 * i) - 1 - block < count;
    return mapped;
}

static void tally_mapped(struct tally *t, const struct before *kept, const struct step *steps, size_t i)
{
    const struct step *s = &steps[i];
    uint32_t begun = mapped_among(kept, s->block, s->blocks), all = mapped_among(kept, s->block, s->count);
    t->kinds[READ_MAPPED] += s->command == 0x42 && begun > 0 && begun == s->blocks;
    t->kinds[READ_BOTH] += s->command == 0x42 && begun > 0 && begun < s->blocks;
    t->kinds[WRITE_MAPPED] += s->command == 0x41 && all > 0 && all == s->count;
    t->kinds[WRITE_BOTH] += s->command == 0x41 && all > 0 && all < s->count;
    t->kinds[ZEROS_MAPPED] += s->command == 0x41 && all > begun;
    for (size_t k = 0; k < i; k++)
        t->kinds[MOVED_FORMATTED] += steps[k].command == 0x43 && steps[k].cause == 0 && steps[k].known && steps[k].operation == 4 &&
                                     steps[k].block - s->block < s->blocks;
}

static void tally_transfer(struct tally *t, const struct before *kept, const struct step *steps, size_t i)
{
    if (steps[i].known) tally_mapped(t, kept, steps, i);
    const struct step *s = &steps[i];
    uint8_t p[16];
    if (was_overwritten(steps, i - 1)) return; // the parameters are not those kept
    gather(&steps[i - 1], kept, p);
    uint32_t blocks = big_endian(p + 2, 2);
    bool is_short = s->sum < BLOCK * blocks;
    t->kinds[SHORT_READ] += s->command == 0x42 && is_short;
    t->kinds[SHORT_WRITE] += s->command == 0x41 && is_short;
    t->kinds[NOT_BEGUN] += s->command == 0x41 && s->blocks < blocks;
    t->kinds[LONG_TRANSFER] += s->sum > BLOCK * blocks;
    t->kinds[REPLICATED] += (p[0] & 0x0F) == 2 && p[1] > blocks;
    t->kinds[READ_ONLY_READ] += s->command == 0x42 && kept->record[33] != 0;
}

static bool has_overlap(const struct step *s)
{
    for (size_t i = 0; i < s->reached; i++)
        for (size_t k = 0; k < i; k++)
            if (meets(&s->piece[k], &s->piece[i], s->piece[i].moved)) return true;
    return false;
}

static bool crosses_blocks(const struct step *s)
{
    uint32_t from = 0;
    for (size_t i = 0; i < s->reached; from += s->piece[i++].moved)
        if (s->piece[i].moved > 0 && from % BLOCK != 0 && from / BLOCK != (from + s->piece[i].moved - 1) / BLOCK) return true;
    return false;
}

// Of a refused command in pieces.
static void tally_split_refusal(struct tally *t, const struct buffers *b, const struct step *s)
{
    const struct piece *p = &s->piece[0];
    t->split_causes[s->cause % CAUSES]++;
    t->kinds[SPREAD_EXTENT] += s->cause >= 22 && s->cause <= 26 && s->reached > 1;
    t->kinds[SPREAD_LOCATE] += s->cause >= 32 && s->cause <= 39 && s->reached > 1;
    t->kinds[LATER_10] += s->cause == 10 && (p->flags & 0x1F) == 0;
    t->kinds[LATER_11] += s->cause == 11 && p->count > 0;
    t->kinds[LATER_12] += s->cause == 12 && (size_t)p->address + p->count <= b->length[STORAGE];
}

// What the flags and command bytes of the later pieces are, of a command in pieces that is accepted.
static void tally_later_words(struct tally *t, const struct buffers *b, const struct step *s)
{
    for (size_t i = 0; i < s->pieces; i++) {
        const struct piece *p = &s->piece[i];
        t->kinds[IDLE_40] += (p->flags & 0xC0) == 0xC0 && (s->flags & 0x40) == 0;
        t->kinds[IDLE_20] += (p->flags & 0xA0) == 0xA0 && s->channel == 0x40;
        t->kinds[OTHER_BYTE] += p->command != s->command;
        t->kinds[BYTE_13] += p->command % 8 == 0;
        t->kinds[NOP_OUTSIDE] += s->command == 0x03 && i > 0 && (size_t)p->address + p->count > b->length[STORAGE];
    }
}

// Of an accepted command in pieces; `last` if the chain ended with it.
static void tally_split(struct tally *t, const struct buffers *b, const struct step *s, bool last)
{
    bool unreached = s->reached < s->pieces && s->command != 0x03;
    t->split_accepted[s->command]++;
    t->kinds[NOT_REACHED] += unreached;
    t->kinds[UNREACHED_SUPPRESSES] += unreached && s->channel == 0;
    t->kinds[UNREACHED_DOES_NOT] += unreached && s->channel == 0x40;
    t->kinds[DENSE] += unreached && !last;
    t->kinds[LAST_RESIDUAL] += s->reached > 1 && s->residual > 0;
    t->kinds[GATHERED_EXTENT] += s->command == 0x63 && s->reached > 1;
    t->kinds[GATHERED_LOCATE] += s->command == 0x43 && s->reached > 1;
    t->kinds[OVERLAP] += s->command == 0x42 && has_overlap(s);
    t->kinds[ACROSS_BLOCKS] += (s->command == 0x41 || s->command == 0x42) && crosses_blocks(s);
    t->kinds[SUM_65535] += s->sum > 65535 && s->command != 0x03;
    t->kinds[SUM_131072] += s->sum > 131072 && s->command != 0x03;
    t->kinds[MOVED_65535] += s->moved > 65535;
    t->kinds[MOVED_131072] += s->moved > 131072;
    t->kinds[SIXTEEN_PIECES] += s->reached >= 16;
    tally_later_words(t, b, s);
}

static void tally_refusal(struct tally *t, const struct buffers *b, const struct step *s)
{
    t->kinds[EXHAUSTED] += s->cause == 39 && b->alternates > 0;
    t->kinds[AFTER_FORMAT] += s->cause == 42 && s->known && s->operation == 4;
    if (s->cause < CAUSES) t->causes[s->cause]++;
    t->kinds[SENSE_KEPT] += s->cause < 20 && b->at[RECORD][0] != 0;
    t->kinds[EXTENT_LEFT] += s->cause >= 22 && s->cause <= 26 && s->sum > 16; // these have read their parameters
    t->kinds[LOCATE_LEFT] += s->cause >= 32 && s->cause <= 39 && s->sum > 8;
    if (s->pieces > 1) tally_split_refusal(t, b, s);
}

static void tally_step(struct tally *t, const struct buffers *b, const struct before *kept, const struct step *steps, size_t i, bool last)
{
    const struct step *s = &steps[i];
    uint8_t p[16];
    t->reached += s->reached;
    if (s->cause != 0) {
        tally_refusal(t, b, s);
        return;
    }
    gather(s, kept, p);
    t->accepted[s->command]++;
    t->kinds[INCORRECT_LENGTH] += s->channel == 0x40;
    t->kinds[SECOND_IPL] += s->command == 0x02 && i > 0;
    t->kinds[IPL_MAPPED] += s->command == 0x02 && mapped_among(kept, 0, 1) > 0;
    t->kinds[FORMATTED] += s->command == 0x43 && s->known && s->operation == 4;
    t->kinds[FORMATTED_AGAIN] += s->command == 0x43 && s->known && s->operation == 4 && mapped_among(kept, s->block, 1) > 0;
    t->kinds[SENSE_NOT_READY] += s->command == 0x04 && kept->record[32] == 0;
    t->kinds[MODIFIER_3] += s->command == 0x43 && (p[0] & 0x10) != 0 && !was_overwritten(steps, i);
    t->kinds[OVERWRITTEN] += s->command == 0x43 && was_overwritten(steps, i);
    if (s->command == 0x41 || s->command == 0x42) tally_transfer(t, kept, steps, i);
    if (s->pieces > 1) tally_split(t, b, s, last);
}

// Which of its rules a map breaks.
static void tally_bad_map(struct tally *t, const struct before *kept)
{
    bool two = false, none = false, beyond = false;
    for (uint32_t i = 0; i < MAX_ALTERNATES; i++) {
        uint32_t entry = get32(kept->record + MAP_AT + 4 * i);
        bool names = entry != 0 && entry != DEFECTIVE;
        beyond = beyond || (entry != 0 && i >= kept->alternates);
        none = none || (names && entry > kept->primaries);
        two = two || (names && mapped_among(kept, entry - 1, 1) > 1);
    }
    t->kinds[TWO_NAMES] += two && !none && !beyond;
    t->kinds[NAMES_NONE] += none && !two && !beyond;
    t->kinds[BEYOND] += beyond && !two && !none;
}

static void tally_refused_call(struct tally *t, const struct buffers *b, const struct before *kept, uint32_t result)
{
    size_t blocks = b->length[STORE] / BLOCK;
    t->causes[result / 256 % CAUSES]++;
    t->kinds[SLICE_ENDS_80] += result == 0x500 && (b->at[CHAIN][b->length[CHAIN] - 4] & 0xC0) == 0x80;
    t->kinds[OVER_64] += result == 0x200 && b->alternates > MAX_ALTERNATES && b->alternates < blocks;
    t->kinds[NO_PRIMARY] += result == 0x200 && b->alternates <= MAX_ALTERNATES && b->alternates == blocks && blocks > 0;
    if (result == 0x800) tally_bad_map(t, kept);
}

static void tally_run(struct tally *t, const struct buffers *b, const struct before *kept, struct step *steps, size_t n, uint32_t result)
{
    for (size_t i = 0; i < n; i++) tally_step(t, b, kept, steps, i, i + 1 == n);
    t->kinds[ALTERNATES_64] += b->alternates == MAX_ALTERNATES;
    t->kinds[ONE_PRIMARY] += b->alternates > 0 && kept->primaries == 1;
    t->kinds[WHOLE_WITH_ALTERNATES] += b->alternates > 0 && b->length[STORE] == (size_t)MAX_BLOCKS * BLOCK;
    t->kinds[ALL_WORDS] += result == WORDS;
    const uint8_t *was = kept->record, *is = b->at[RECORD];
    t->kinds[FULL_READ] += big_endian(was + 24, 3) < 0xFFFFFF && big_endian(is + 24, 3) == 0xFFFFFF;
    t->kinds[FULL_CHECKED] += big_endian(was + 27, 3) < 0xFFFFFF && big_endian(is + 27, 3) == 0xFFFFFF;
    t->kinds[FULL_MOVEMENTS] += big_endian(was + 30, 2) < 0xFFFF && big_endian(is + 30, 2) == 0xFFFF;
    t->kinds[WHOLE_STORAGE] += b->length[STORAGE] == MAX_STORAGE;
    t->kinds[WHOLE_STORE] += b->length[STORE] == (size_t)MAX_BLOCKS * BLOCK;
}

// ---- What holds whatever the second program says.

static bool is_unchanged(const struct buffers *b, const struct before *kept, uint32_t place)
{
    return memcmp(b->at[STORE] + (size_t)BLOCK * place, kept->store + (size_t)BLOCK * place, BLOCK) == 0;
}

// What an entry may become: taken, if it was unused; defective, if it was not yet. An alternate that stayed unused, or was
// defective, keeps its bytes; so does the primary of a block that was mapped, and the block is mapped still. No other entry names
// the block that this one does.
static bool entry_holds(const struct buffers *b, const struct before *kept, uint32_t i)
{
    const uint8_t *map = b->at[RECORD] + MAP_AT;
    uint32_t was = get32(kept->record + MAP_AT + 4 * i), is = get32(map + 4 * i);
    if (i >= kept->alternates) return is == 0;
    if (is != 0 && is != DEFECTIVE && place_of(map, kept->primaries, is - 1) != kept->primaries + i) return false;
    if (was == DEFECTIVE || is == 0) return is == was && is_unchanged(b, kept, kept->primaries + i);
    if (was == 0) return true;
    return (is == was || is == DEFECTIVE) && is_unchanged(b, kept, was - 1) && place_of(map, kept->primaries, was - 1) != was - 1;
}

// The blocks that no WRITE was for show what was in their place before: a format moves no data.
static bool others_hold(const struct buffers *b, const struct before *kept, const struct step *steps, size_t n)
{
    static bool written[KEPT_BLOCKS];
    memset(written, 0, kept->primaries);
    for (size_t i = 0; i < n; i++)
        if (steps[i].command == 0x41 && steps[i].cause == 0) memset(written + steps[i].block, 1, steps[i].count);
    for (uint32_t block = 0; block < kept->primaries; block++)
        if (!written[block] && !is_unchanged(b, kept, place_of(b->at[RECORD] + MAP_AT, kept->primaries, block)))
            return printf("  block %lu is changed\n", (unsigned long)block), false;
    return true;
}

// As many entries are not unused any more as there were formats.
static bool formats_hold(const struct buffers *b, const struct before *kept, const struct step *steps, size_t n)
{
    size_t formats = 0, taken = 0;
    for (size_t i = 0; i < n; i++) formats += steps[i].command == 0x43 && steps[i].cause == 0 && steps[i].operation == 4;
    for (size_t i = MAP_AT; i < RECORD_SIZE; i += 4) taken += get32(kept->record + i) == 0 && get32(b->at[RECORD] + i) != 0;
    if (formats != taken) printf("  %zu formats, %zu alternates taken\n", formats, taken);
    return formats == taken;
}

static bool properties_hold(const struct buffers *b, const struct before *kept, const struct step *steps, size_t n)
{
    bool known = true;
    if (!kept->has_store) return true;
    for (uint32_t i = 0; i < MAX_ALTERNATES; i++)
        if (!entry_holds(b, kept, i)) return printf("  entry %lu of the map\n", (unsigned long)i), false;
    for (size_t i = 0; i < n; i++)
        known = known && (steps[i].known || steps[i].cause != 0 || steps[i].command < 0x41 || steps[i].command > 0x43);
    return !known || (others_hold(b, kept, steps, n) && formats_hold(b, kept, steps, n));
}

// The commands of a chain that was run. Tells how many.
static size_t take_apart(const struct buffers *b, const struct before *kept, uint32_t result, struct step steps[WORDS])
{
    size_t n = 0, word = 0, place = 0;
    for (; place < result; n++) {
        steps[n] = step_at(b, word, place);
        word += steps[n].pieces;
        place += steps[n].reached;
    }
    find_blocks(steps, n, kept);
    return n;
}

// Counts what a run was, and looks at what it has left.
static bool look_at(struct tally *t, const struct buffers *b, const struct before *kept, uint32_t result)
{
    static struct step steps[WORDS];
    if (result >= 256) return tally_refused_call(t, b, kept, result), true;
    size_t n = take_apart(b, kept, result, steps);
    tally_run(t, b, kept, steps, n, result);
    return properties_hold(b, kept, steps, n);
}

// Runs both on one input. Prints the input if they differ.
static bool agree(struct random *r, uint32_t i, void *tally)
{
    struct tally *t = tally;
    struct buffers library, twin;
    static struct before kept;
    generate(r, &library, &twin, i % t->every == t->every - 1 ? i / t->every + 1 : 0);
    keep(&library, &kept);
    uint32_t wanted = call_second(&twin), result = call_library(&library);
    if (result == wanted && buffers_equal(&library, &twin) && look_at(t, &library, &kept, wanted)) return true;
    if (result != wanted) printf("  result %lu, not %lu\n", (unsigned long)result, (unsigned long)wanted);
    print_input(&twin, kept.record);
    for (size_t n = 0; n < WORDS && 8 * n + 8 <= twin.length[CHAIN]; n++) {
        printf("  storage before, at word %zu's address:", n + 1);
        for (int k = 0; k < 16; k++) printf(" %02X", kept.parameters[n][k]);
        printf("\n");
    }
    return false;
}

static bool print_line(const char *what, const char *name, unsigned long times)
{
    printf("%s %s: %lu\n", what, name, times);
    return times > 0;
}

// The causes from `least` on.
static bool print_causes(const char *what, const unsigned long times[CAUSES], uint8_t least)
{
    bool all = true;
    for (size_t i = 0; i < sizeof expected_causes; i++) {
        char name[8];
        snprintf(name, sizeof name, "%d", expected_causes[i]);
        if (expected_causes[i] >= least) all = print_line(what, name, times[expected_causes[i]]) && all;
    }
    return all;
}

static bool print_commands(const char *what, const unsigned long times[256])
{
    bool all = true;
    for (size_t i = 0; i < sizeof commands / sizeof *commands; i++)
        all = print_line(what, commands[i].name, times[commands[i].command]) && all;
    return all;
}

static bool print_kinds(const struct tally *t)
{
    bool all = true;
    for (int i = 0; i < KINDS; i++) all = print_line("met", kind_names[i], t->kinds[i]) && all;
    return all;
}

void test_random(uint32_t chains, uint64_t seed)
{
    static const char name[] = "a batch agrees with the second program, and keeps what it should";
    struct tally t;
    memset(&t, 0, sizeof t);
    t.every = chains / LARGE + 1;
    struct row row = {"random", name, "chain", chains, 10000, 40000, seed, 0xD1342543DE82EF95u, agree, 0};
    generate_large_contents(&(struct random){seed});
    bool same = check_row(&row, &t);
    printf("chains: %lu, commands reached: %lu\n", (unsigned long)row.run, t.reached);
    if (!same || chains == 0) return;
    check("random", "every cause was met", print_causes("cause", t.causes, 1));
    check("random", "every command was accepted", print_commands("accepted", t.accepted));
    check("random", "every cause was met in pieces", print_causes("in pieces, cause", t.split_causes, 10));
    check("random", "every command was accepted in pieces", print_commands("in pieces, accepted", t.split_accepted));
    check("random", "every kind was met", print_kinds(&t));
}
