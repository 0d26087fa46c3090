// What the parts of the host test share.
#ifndef TEST_H
#define TEST_H

#include <stdbool.h>
#include <stddef.h>
#include <stdint.h>

#define BLOCK 512u
#define MAX_CHAIN 256u
#define MAX_CLASS 262144u // the most that is lent here for the chains of a class, or for its results; whole guard pages
#define MAX_BLOCKS 131072u
#define MAX_STORAGE 16777216u
#define RECORD_SIZE 290u
#define MAP_AT 34u // in the record
#define MAP_SIZE (RECORD_SIZE - MAP_AT)
#define MAX_ALTERNATES 64u
#define DEFECTIVE 0xFFFFFFFFu

// ---- Checks (host_test.c). A failed check prints its part and name.
void check(const char *part, const char *name, bool passed);

// Random inputs in a row, each with random numbers of its own. The first that does not hold ends it; each batch is a check. Tells
// whether all held.
struct random;
struct row {
    const char *part, *name, *what; // of the checks; and what an input is
    uint32_t count, batch;
    uint32_t shown; // after so many it is said how far it is; 0: not at all
    uint64_t seed, salt;
    bool (*holds)(struct random *r, uint32_t i, void *tally);
    uint32_t run; // how many were
};
bool check_row(struct row *row, void *tally);

// ---- Buffers (buffers.c). Each of the five has an area between two pages that fault when touched, and the
// area has a twin for the second program (or for a copy of what was there before).
enum { CHAIN, STORAGE, STORE, RECORD, ANSWERS, BUFFERS };
extern const char *const buffer_names[BUFFERS];

struct buffers {
    uint8_t *at[BUFFERS];
    size_t length[BUFFERS];
    uint32_t alternates; // of the store's blocks, so many at its end
};

void buffers_open(void);

// Places the five buffers against the rear guards (at_end) or the front ones. Of length 0 they are not NULL. No alternates.
void buffers_place(struct buffers *library, struct buffers *twin, const size_t length[BUFFERS], bool at_end);

// Copies the library's buffers, and the bytes around them, to the twin.
void buffers_copy(const struct buffers *library, const struct buffers *twin);

// Whether the buffers, and the bytes around them, are equal; prints the first byte that differs.
bool buffers_equal(const struct buffers *library, const struct buffers *twin);

// A number of four bytes, as an entry of the map is; big-endian.
uint32_t get32(const uint8_t *from);
void put32(uint8_t *to, uint32_t value);

// ---- Calls. A call of the library that faults returns FAULT. A class has its chains in CHAIN, its results in ANSWERS.
#define FAULT UINT32_MAX
uint32_t call_library(const struct buffers *b);
uint32_t call_library_class(const struct buffers *b);
uint32_t call_second(const struct buffers *b);
uint32_t call_second_class(const struct buffers *b);
uint32_t call_library_give_back(const struct buffers *b, uint32_t block); // of the five buffers, the store and the record alone
uint32_t call_second_give_back(const struct buffers *b, uint32_t block);
uint32_t call_library_record(uint8_t *record, size_t length, uint8_t ready, uint8_t read_only);
struct loughrella_walk;
int call_next_result(struct loughrella_walk *at); // the header's walk; -1 where it faults
void fill_rest(const struct buffers *b);          // all but the chain, so that a byte written anywhere shows; ready, an empty map
void print_input(const struct buffers *b, const uint8_t record_before[RECORD_SIZE]);

// ---- Lines by hand (line.c). Bytes are text: hexadecimal, spaces anywhere between bytes, N*XX for a repeated byte.
struct change {
    size_t at;
    const char *bytes;
};

struct line {
    const char *name, *why;
    uint32_t blocks;                 // primaries; 0 stands for 8
    uint32_t alternates;             // behind them; block i of the store is filled with byte i
    const char *record;              // before, up to the map; NULL: sense and counts zero, ready, not read-only
    const char *map;                 // before, zeros follow; NULL: empty
    const char *storage;             // before
    struct change store_before[2];   // over the fill
    const char *chain;
    const char *answers;             // of the pieces reached, which gives the result; the rest stays
    const char *sense;               // after, zeros follow; NULL: all zero
    const char *log;                 // the eight bytes of counts after; NULL: all zero
    const char *map_after;           // zeros follow; NULL: as before
    struct change storage_after[4], store_after[4]; // all else stays
    bool gives_back;                 // no chain is run: a block's alternate is given back
    uint32_t block, cause;           // which block's, and the cause that is returned
    bool goes_on;                    // store and record are as the line before it has left them
};

size_t text_bytes(uint8_t *to, size_t room, const char *text); // to may be NULL: the length alone
bool line_holds(const struct line *line);

// A line that is a class: its chain is all the chains, each after its length; its answers are the results whole, EE where they
// stay. They are lent exactly, and with more bytes than are needed.
bool class_holds(const struct line *line);

// A story's lines go on, all but its first. Both ways, against the rear guards and against the front ones, each line is checked.
void check_story(const char *part, const struct line *lines, size_t count);
void check_lines(const char *part, const struct line *lines, size_t count);
void check_classes(const char *part, const struct line *lines, size_t count);

// Text in the making: a chain, its answers, or bytes of a buffer.
struct text {
    char s[8192];
    size_t n;
};
void add(struct text *t, const char *format, ...);

// ---- Random numbers, the same on every machine, and inputs made of them (generate.c).
struct random {
    uint64_t state;
};
uint64_t random_next(struct random *r);
uint32_t random_below(struct random *r, uint32_t limit);
uint32_t between(struct random *r, uint32_t low, uint32_t high); // both may come
bool percent(struct random *r, uint32_t chance);                 // so often true
void random_fill(struct random *r, uint8_t *to, size_t length);

// A device as the author of chains believes it to be: what the map is made for, and what formats make of it.
struct device {
    uint32_t primaries, alternates;
    uint8_t map[MAP_SIZE];
};
void generate_map(struct random *r, struct device *d);                      // a right one
void damage_map(struct random *r, const struct device *d, uint8_t *map);    // and now mostly wrong, by a rule of cause 8
uint32_t generate_alternates(struct random *r);                             // how many
uint32_t place_of(const uint8_t *map, uint32_t primaries, uint32_t block);  // the block of the store that is shown as this one

// Makes one input in both places. A large one (1, 2, .. by turns; 0 is a small one) takes its storage and store from
// what lies in the areas, which is equal on both sides, and changes little of it.
void generate(struct random *r, struct buffers *library, struct buffers *twin, uint32_t large);
void generate_large_contents(struct random *r);

// The parts of an input: every byte random (but for storage and store, where large); the words of one chain from this place of
// CHAIN on, with its parameters in storage behind those of the chains before; a record.
void generate_fill(struct random *r, const struct buffers *library, const struct buffers *twin, bool large);
void generate_chain(struct random *r, const struct buffers *library, const struct buffers *twin, struct device *d, size_t at,
                    uint32_t words, uint32_t *parameters);
void generate_record(struct random *r, uint8_t record[RECORD_SIZE], const struct device *d, bool careful);

// ---- The parts.
void test_lines(void);
void test_causes(void);
void test_pieces(void);
void test_alternates(void);
void test_calls(void);
void test_random(uint32_t chains, uint64_t seed);
void test_bounds(uint64_t seed);
void test_class(void);
void test_class_random(uint32_t classes, uint64_t seed);
void test_give_back(void);
void test_histories(uint32_t histories, uint64_t seed);

#endif
