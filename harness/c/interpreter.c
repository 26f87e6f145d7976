// The interpreter in C, written for speed: a run without waits or journal is
// compiled without code for them. The registers stand apart from the rest of the
// machine, as they are indexed and would keep all of it from the processor's
// registers.
#include "baseline.h"
#include <string.h>

// One bit for each word of the longest memory, which says whether the journal has a pair
// for it. Static, one for each thread, and all 0 between calls: a call clears those of its
// own pairs, so that a long memory costs nothing where it is not stored to.
static _Thread_local uint64_t noted[(1u << 24) / 64];

// A struct, so that the compiler sees an array where it indexes it.
typedef struct {
    uint32_t r[8];
} Registers;

typedef struct {
    uint32_t carry, overflow, negative, zero;
    uint32_t *memory;
    size_t words;
    uint32_t bottom; // no store alters a word below it
    const uint16_t *waits;
    size_t entries, position;
    uint32_t *journal;     // null: no journal
    size_t places, filled; // of the journal
    uint64_t clocks;
} Engine;

enum { DIRECT = 0, BEFORE = 2, AFTER = 3 };

// The wait of the next access; after its last entry the list begins again.
INLINE uint32_t next_wait(Engine *e) {
    if (e->entries == 0) return 0;
    uint32_t wait = e->waits[e->position++];
    if (e->position == e->entries) e->position = 0;
    return wait;
}

// Takes an operand; false if its word is missing.
INLINE bool take(Engine *e, Registers *g, uint32_t mode, uint32_t number, uint32_t *value,
                 uint32_t *address, uint64_t *clocks) {
    if (mode == BEFORE) g->r[number]--;
    *value = g->r[number];
    if (mode == DIRECT) return true;
    *address = *value;
    if (*address >= e->words) return false;
    *value = e->memory[*address];
    *clocks += 1 + next_wait(e);
    return true;
}

// A result with the carry and overflow that it would set.
typedef struct {
    uint32_t word, carry, overflow;
} Result;

INLINE Result sum(uint32_t x, uint32_t y, uint32_t carry) {
    uint64_t wide = (uint64_t)x + y + carry;
    uint32_t word = (uint32_t)wide;
    return (Result){word, (uint32_t)(wide >> 32), ((x ^ word) & (y ^ word)) >> 31};
}

INLINE Result difference(uint32_t x, uint32_t y, uint32_t borrow) {
    uint64_t wide = (uint64_t)x - y - borrow;
    uint32_t word = (uint32_t)wide;
    return (Result){word, (uint32_t)(wide >> 63), ((x ^ y) & (x ^ word)) >> 31};
}

// The arithmetic unit on whole words.
INLINE Result word_unit(uint32_t operation, uint32_t a, uint32_t b, uint32_t carry) {
    switch (operation) {
    case 1: return (Result){a + 1, a == UINT32_MAX, a == INT32_MAX};
    case 2: return sum(b, a, carry);
    case 3: return sum(b, a, 0);
    case 4: return (Result){-a, a != 0, a == 0x80000000u};
    case 5: return (Result){a - 1, a == 0, a == 0x80000000u};
    case 6: return difference(b, a, carry);
    case 7: return difference(b, a, 0);
    case 8: return (Result){a >> 1 | carry << 31, a & 1, 0};
    case 9: return (Result){(uint32_t)((int32_t)a >> 1), a & 1, 0};
    case 10: return (Result){a >> 1, a & 1, 0};
    case 11: return (Result){a ^ b, 0, 0};
    case 12: return (Result){a | b, 0, 0};
    case 13: return (Result){a & b, 0, 0};
    case 14: return (Result){~a, 0, 0};
    default: return (Result){a, 0, 0};
    }
}

INLINE bool condition(const Engine *e, uint32_t number) {
    switch (number) {
    case 0: return !e->carry;
    case 1: return e->carry;
    case 2: return !e->overflow;
    case 3: return e->overflow;
    case 4: return !e->zero;
    case 5: return e->zero;
    case 6: return !e->negative;
    case 7: return e->negative;
    default: return true;
    }
}

// Sets the permitted flags; *stored says whether the result is stored.
INLINE uint32_t compute(Engine *e, uint32_t word, uint32_t a, uint32_t b, bool *stored) {
    uint32_t operation = word >> 16 & 15;
    Result r = {a, 0, 0};
    *stored = true;
    if (word & 0x8000)
        *stored = condition(e, operation);
    else
        r = word_unit(operation, a, b, e->carry);
    if (word & 0x400) e->zero = r.word == 0;
    if (word & 0x800) e->negative = r.word >> 31;
    if (word & 0x1000) e->overflow = r.overflow;
    if (word & 0x2000) e->carry = r.carry;
    return r.word;
}

// Whether the address has a pair or there is one left for it.
INLINE bool note(Engine *e, uint32_t address, uint32_t former) {
    uint64_t bit = (uint64_t)1 << (address & 63);
    if (noted[address >> 6] & bit) return true;
    if (e->filled + 2 > e->places) return false;
    noted[address >> 6] |= bit;
    e->journal[e->filled++] = address;
    e->journal[e->filled++] = former;
    return true;
}

// Adds the wait; false if the journal is full.
INLINE bool store_word(Engine *e, uint32_t address, uint32_t former, uint32_t word,
                       uint64_t *clocks) {
    if (address >= e->bottom) {
        if (e->journal && !note(e, address, former)) return false;
        e->memory[address] = word;
    }
    *clocks += next_wait(e);
    return true;
}

// One instruction; FM8502_DONE, or, with the registers as they were, the code of a run
// that stops before it. Where the journal is full, registers and flags are for the caller
// to put back.
INLINE uint32_t step(Engine *e, Registers *g) {
    uint32_t a, b, ignored, address = 0;
    if (g->r[0] >= e->words) return FM8502_STOPPED;
    uint32_t word = e->memory[g->r[0]];
    if (word & HALTING_BITS) return FM8502_HALTED;
    g->r[0]++;
    uint32_t ra = word & 7, ma = word >> 3 & 3, rb = word >> 5 & 7, mb = word >> 8 & 3;
    uint64_t clocks = 8 + next_wait(e);
    if (!take(e, g, ma, ra, &a, &ignored, &clocks)) {
        if (ma == BEFORE) g->r[ra]++;
        g->r[0]--;
        return FM8502_STOPPED;
    }
    if (!take(e, g, mb, rb, &b, &address, &clocks)) {
        if (mb == BEFORE) g->r[rb]++;
        if (ma == BEFORE) g->r[ra]++;
        g->r[0]--;
        return FM8502_STOPPED;
    }
    bool stored;
    uint32_t result = compute(e, word, a, b, &stored);
    if (stored) {
        clocks++;
        if (!mb)
            g->r[rb] = result;
        else if (!store_word(e, address, b, result, &clocks))
            return JOURNAL_FULL;
    }
    if (ma == AFTER) g->r[ra]++;
    if (mb == AFTER) g->r[rb]++;
    e->clocks += clocks;
    return FM8502_DONE;
}

INLINE void take_machine(Engine *e, Registers *g, const uint32_t *machine) {
    for (int i = 0; i < 8; i++) g->r[i] = machine[i];
    e->carry = machine[FM8502_CARRY];
    e->overflow = machine[FM8502_OVERFLOW];
    e->negative = machine[FM8502_NEGATIVE];
    e->zero = machine[FM8502_ZERO];
}

// Runs on; returns the run's code, and how many instructions ran in *ran.
INLINE uint32_t go_on(Engine *e, Registers *g, uint32_t count, uint64_t *ran) {
    uint32_t done = 0, code = FM8502_DONE;
    size_t position = e->position;
    while (done < count && (code = step(e, g)) == FM8502_DONE) {
        done++;
        position = e->position;
    }
    e->position = position; // an instruction that does not run may have taken entries
    *ran = done;
    return code;
}

// Runs the machine, and returns as go_on does.
INLINE uint32_t go(Engine *e, Registers *g, const uint32_t *machine, uint32_t count,
                   uint64_t *ran) {
    take_machine(e, g, machine);
    return go_on(e, g, count, ran);
}

INLINE void give_machine(const Engine *e, const Registers *g, uint32_t *machine) {
    for (int i = 0; i < 8; i++) machine[i] = g->r[i];
    machine[FM8502_CARRY] = e->carry;
    machine[FM8502_OVERFLOW] = e->overflow;
    machine[FM8502_NEGATIVE] = e->negative;
    machine[FM8502_ZERO] = e->zero;
}

INLINE uint32_t plain_run(Engine e, uint32_t *machine, uint32_t count, uint64_t *result) {
    Registers g;
    uint32_t code = go(&e, &g, machine, count, &result[0]);
    give_machine(&e, &g, machine);
    result[1] = e.clocks;
    result[2] = e.position;
    return code;
}

uint32_t baseline_run(uint32_t *memory, size_t memory_words, uint32_t bottom,
                      const uint16_t *waits, size_t waits_entries, uint32_t position,
                      uint32_t *machine, uint32_t count, uint64_t *result) {
    Engine e = {.memory = memory, .words = memory_words, .bottom = bottom};
    if (waits_entries == 0) return plain_run(e, machine, count, result);
    e.waits = waits;
    e.entries = waits_entries;
    e.position = position;
    return plain_run(e, machine, count, result);
}

// Puts the journaled words back; no address has two pairs.
INLINE void take_back(Engine *e) {
    for (size_t i = 0; i < e->filled; i += 2) e->memory[e->journal[i]] = e->journal[i + 1];
}

// Clears the bits of its pairs, which stay in their places but count no longer.
INLINE void start_again(Engine *e) {
    for (size_t i = 0; i < e->filled; i += 2) noted[e->journal[i] >> 6] = 0;
    e->filled = 0;
}

// A file run does not say whether it was undone at a missing word or at one that halts.
INLINE uint32_t undone_code(uint32_t code) {
    return code == FM8502_HALTED ? (uint32_t)FM8502_STOPPED : code;
}

uint32_t baseline_file_run(uint32_t *memory, size_t memory_words, uint32_t bottom,
                           uint32_t *journal, size_t journal_places, uint32_t *machine,
                           uint32_t count, uint64_t *result) {
    Engine e = {.memory = memory, .words = memory_words, .bottom = bottom,
                .journal = journal, .places = journal_places};
    Registers g;
    uint32_t code = go(&e, &g, machine, count, &result[0]);
    result[1] = e.filled / 2;
    if (code == FM8502_DONE)
        give_machine(&e, &g, machine);
    else
        take_back(&e);
    start_again(&e);
    return undone_code(code);
}

// Lays so many words from an address on; each is journaled as a store is. False if one of
// them finds no pair.
INLINE bool lay(Engine *e, uint32_t place, const uint32_t *words, uint32_t count) {
    uint32_t *cells = e->memory + place;
    for (uint32_t i = 0; i < count; i++) {
        if (!note(e, place + i, cells[i])) return false;
        cells[i] = words[i];
    }
    return true;
}

// A file: place, number of words, entry, instruction count.
enum { PLACE = 0, WORDS = 1, ENTRY = 2, INSTRUCTIONS = 3, FILE_SIZE = 4 };

// Lays and runs a file; returns its code, and how many instructions ran in *ran.
INLINE uint32_t file(Engine *e, Registers *g, const uint32_t *words, const uint32_t *file,
                     uint64_t *ran) {
    *ran = 0;
    if (!lay(e, file[PLACE], words, file[WORDS])) return JOURNAL_FULL;
    g->r[0] = file[ENTRY];
    return go_on(e, g, file[INSTRUCTIONS], ran);
}

uint32_t baseline_traverse(uint32_t *memory, size_t memory_words, uint32_t bottom,
                           uint32_t *journal, size_t journal_places, const uint32_t *words,
                           const uint32_t *files, size_t files_places, uint32_t *machine,
                           uint32_t version, uint64_t *result) {
    Engine e = {.memory = memory, .words = memory_words, .bottom = bottom,
                .journal = journal, .places = journal_places};
    Registers g;
    uint32_t code = FM8502_DONE;
    memset(result, 0, 3 * sizeof *result);
    take_machine(&e, &g, machine);
    for (size_t i = 0; i < files_places / FILE_SIZE; i++) {
        const uint32_t *next = files + FILE_SIZE * i;
        uint32_t before[FM8502_MACHINE_SIZE];
        give_machine(&e, &g, before);
        if (version == 1) start_again(&e);
        code = undone_code(file(&e, &g, words, next, &result[1]));
        words += next[WORDS];
        if (code == FM8502_DONE) continue;
        take_back(&e);
        result[0] = version == 1 ? result[0] | (uint64_t)1 << i : i;
        if (version == 2) break;
        take_machine(&e, &g, before);
        code = FM8502_DONE;
    }
    if (code == FM8502_DONE) give_machine(&e, &g, machine);
    result[2] = e.filled / 2;
    start_again(&e);
    return code;
}
