// The baselines in C. They have the library's calls without the lengths that
// the library checks, and refuse nothing.
#ifndef BASELINE_H
#define BASELINE_H

#include "fm8502.h"
#include <stdbool.h>

// Bit 14 and bits 20-31: a word with one of them is no instruction.
#define HALTING_BITS 0xFFF04000u

// As FM8502_STOPPED, of a file whose journal is full.
#define JOURNAL_FULL 102u

// Called once in each loop, where a call would cost more than the work.
#define INLINE static inline __attribute__((always_inline))

uint32_t baseline_run(uint32_t *memory, size_t memory_words, uint32_t bottom,
                      const uint16_t *waits, size_t waits_entries, uint32_t position,
                      uint32_t *machine, uint32_t count, uint64_t *result);
uint32_t baseline_file_run(uint32_t *memory, size_t memory_words, uint32_t bottom,
                           uint32_t *journal, size_t journal_places, uint32_t *machine,
                           uint32_t count, uint64_t *result);
uint32_t baseline_traverse(uint32_t *memory, size_t memory_words, uint32_t bottom,
                           uint32_t *journal, size_t journal_places, const uint32_t *words,
                           const uint32_t *files, size_t files_places, uint32_t *machine,
                           uint32_t version, uint64_t *result);
uint32_t baseline_gate_run(uint32_t *memory, size_t memory_words, uint32_t bottom,
                           const uint16_t *waits, size_t waits_entries,
                           const uint64_t *resets, size_t resets_numbers, uint32_t *state,
                           uint64_t clocks, uint64_t *result);
uint32_t baseline_image_read(const uint8_t *bytes, size_t length, uint32_t *memory,
                             uint32_t *machine, uint64_t *result);
uint32_t baseline_image_write(const uint32_t *memory, size_t memory_words,
                              const uint32_t *machine, uint32_t version, uint8_t *out,
                              uint64_t *result);

#endif
