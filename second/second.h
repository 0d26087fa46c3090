// The second program: document 01 as docs/MISMATCHES.md settles it, with asks 1 to 4 and 6 of document 02, written afresh in C.
#ifndef SECOND_H
#define SECOND_H

#include <stddef.h>
#include <stdint.h>

#ifdef __cplusplus
extern "C" {
#endif

// Runs one command chain. The five slices do not overlap; one of length 0 may be NULL. The store has the primaries and, behind
// them, so many alternates.
// Returns 256 times the call's cause plus the number of answers, one for each piece of a command that was reached.
uint32_t second_run(const uint8_t *chain, size_t chain_len, uint8_t *storage, size_t storage_len,
                    uint8_t *store, size_t store_len, uint32_t alternates, uint8_t *record, size_t record_len,
                    uint8_t *answers, size_t answers_len);

// Runs the chains of a class (02, ask 3), each after its length in two bytes, in order on the same storage, store and record.
// Results have for each chain its cause (2), the number of its answers (2), and room for an answer per 8 bytes of its length,
// rounded up; room that is not used stays. Returns 0, or 256 times 7 with nothing run and nothing written.
uint32_t second_run_class(const uint8_t *chains, size_t chains_len, uint8_t *storage, size_t storage_len,
                          uint8_t *store, size_t store_len, uint32_t alternates, uint8_t *record, size_t record_len,
                          uint8_t *results, size_t results_len);

// Sets up a unit record: sense and counts zero, the map empty. Returns 0, or 256 times 6 with nothing written.
uint32_t second_record(uint8_t *record, size_t record_len, uint8_t ready, uint8_t read_only);

// Gives a block's alternate back (02, ask 6): its data goes to the primary, the alternate gets zeros and is unused. Returns 0, or
// 256 times 2, 6, 8, 50 (a block beyond the device) or 51 (one that is not mapped), the first that holds, with nothing written.
uint32_t second_give_back(uint8_t *store, size_t store_len, uint32_t alternates, uint8_t *record, size_t record_len,
                          uint32_t block);

#ifdef __cplusplus
}
#endif

#endif
