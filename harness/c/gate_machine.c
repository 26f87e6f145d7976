// The gate machine in C, written for speed: a local state and a switch on the row.
#include "gate_unit.h"
#include <string.h>

typedef struct {
    uint32_t registers[8];
    uint32_t flags; // C 8, V 4, N 2, Z 1: the order of the permit bits
    uint32_t row, instruction, address, a, b, result, position;
    bool begun;
    uint32_t left;
} State;

// Where the machine stays once it has read a word that is no instruction.
enum { HALTED_ROW = 12 };

// The row after each, where the instruction does not decide.
static const uint8_t NEXT[13] = {1, 2, 3, 4, 5, 6, 7, 8, 10, 10, 11, 0, HALTED_ROW};
static const bool IS_ACCESS[13] = {0, 1, 0, 0, 1, 0, 1, 0, 0, 1, 0, 0, 0};

enum { DIRECT = 0, BEFORE = 2, AFTER = 3 };

// Whether the access, to a word that is there, completes on this clock.
INLINE bool access_completes(State *s, const uint16_t *waits, size_t entries) {
    if (s->begun) {
        s->begun = --s->left > 0;
    } else if (s->position < entries) {
        s->left = waits[s->position++];
        if (s->position == entries) s->position = 0;
        s->begun = s->left > 0;
    }
    return !s->begun;
}

INLINE bool condition(uint32_t number, uint32_t flags) {
    if (number >= 8) return true;
    static const uint8_t shift[4] = {3, 2, 0, 1};
    return (flags >> shift[number >> 1] & 1) == (number & 1);
}

// Rows 3 and 5: a direct operand to its latch, or the address; returns the next row.
INLINE uint32_t take(State *s, uint32_t field, uint32_t *latch, uint32_t direct_next) {
    uint32_t number = field & 7, mode = field >> 3 & 3;
    if (mode == BEFORE) s->registers[number]--;
    uint32_t word = s->registers[number];
    if (mode == DIRECT) {
        *latch = word;
        return direct_next;
    }
    s->address = word;
    return direct_next - 1;
}

// Row 7; returns the next row.
INLINE uint32_t compute(State *s) {
    uint32_t i = s->instruction, operation = i >> 16 & 15, permits = i >> 10 & 15;
    bool carry = false, overflow = false, stored = true;
    s->result = s->a;
    if (i & 0x8000)
        stored = condition(operation, s->flags);
    else
        s->result = gate_unit(operation, s->a, s->b, s->flags >> 3 & 1, &carry, &overflow);
    uint32_t computed = carry << 3 | overflow << 2 | s->result >> 31 << 1 | (s->result == 0);
    s->flags = (s->flags & ~permits) | (computed & permits);
    return !stored ? 10 : (i >> 8 & 3) == DIRECT ? 8 : 9;
}

INLINE void step_up(State *s, uint32_t field) {
    if ((field >> 3 & 3) == AFTER) s->registers[field & 7]++;
}

// What became of one clock; after STAYS nothing changes any more before a reset.
typedef enum { MOVED, FINISHED, STAYS } Clock;

INLINE Clock tick(State *s, uint32_t *memory, size_t words, uint32_t bottom, const uint16_t *waits,
                  size_t entries) {
    uint32_t row = s->row, next = NEXT[row], i = s->instruction;
    if (IS_ACCESS[row]) {
        if (s->address >= words) return STAYS;
        if (!access_completes(s, waits, entries)) return MOVED;
    }
    switch (row) {
    case 0: s->address = s->registers[0]; break;
    case 1:
        s->instruction = memory[s->address];
        if (s->instruction & HALTING_BITS) next = HALTED_ROW;
        break;
    case 2: s->registers[0]++; break;
    case 3: next = take(s, i, &s->a, 5); break;
    case 4: s->a = memory[s->address]; break;
    case 5: next = take(s, i >> 5, &s->b, 7); break;
    case 6: s->b = memory[s->address]; break;
    case 7: next = compute(s); break;
    case 8: s->registers[i >> 5 & 7] = s->result; break;
    case 9:
        if (s->address >= bottom) memory[s->address] = s->result;
        break;
    case 10: step_up(s, i); break;
    case 11:
        step_up(s, i >> 5);
        s->row = 0;
        return FINISHED;
    default: return STAYS;
    }
    s->row = next;
    return MOVED;
}

// So many clocks; returns how many instructions finished.
INLINE uint64_t do_clocks(State *s, uint32_t *memory, size_t words, uint32_t bottom,
                          const uint16_t *waits, size_t entries, uint64_t clocks) {
    uint64_t finished = 0;
    for (uint64_t k = 0; k < clocks; k++) {
        Clock clock = tick(s, memory, words, bottom, waits, entries);
        if (clock == STAYS) break;
        finished += clock == FINISHED;
    }
    return finished;
}

INLINE void reset(State *s) {
    s->registers[0] = 0;
    s->row = 0;
    s->begun = false;
    s->left = 0;
}

INLINE State state_of(const uint32_t *w) {
    State s = {
        .flags = w[FM8502_CARRY] << 3 | w[FM8502_OVERFLOW] << 2 | w[FM8502_NEGATIVE] << 1 |
                 w[FM8502_ZERO],
        .row = w[FM8502_ROW],
        .instruction = w[FM8502_INSTRUCTION],
        .address = w[FM8502_ADDRESS],
        .a = w[FM8502_A],
        .b = w[FM8502_B],
        .result = w[FM8502_RESULT],
        .position = w[FM8502_POSITION],
        .begun = w[FM8502_BEGUN],
        .left = w[FM8502_LEFT],
    };
    memcpy(s.registers, w, sizeof s.registers);
    return s;
}

INLINE void give(const State *s, uint32_t *w) {
    memcpy(w, s->registers, sizeof s->registers);
    w[FM8502_CARRY] = s->flags >> 3 & 1;
    w[FM8502_OVERFLOW] = s->flags >> 2 & 1;
    w[FM8502_NEGATIVE] = s->flags >> 1 & 1;
    w[FM8502_ZERO] = s->flags & 1;
    w[FM8502_ROW] = s->row;
    w[FM8502_INSTRUCTION] = s->instruction;
    w[FM8502_ADDRESS] = s->address;
    w[FM8502_A] = s->a;
    w[FM8502_B] = s->b;
    w[FM8502_RESULT] = s->result;
    w[FM8502_POSITION] = s->position;
    w[FM8502_BEGUN] = s->begun;
    w[FM8502_LEFT] = s->left;
}

uint32_t baseline_gate_run(uint32_t *memory, size_t memory_words, uint32_t bottom,
                           const uint16_t *waits, size_t waits_entries,
                           const uint64_t *resets, size_t resets_numbers, uint32_t *state,
                           uint64_t clocks, uint64_t *result) {
    State s = state_of(state);
    uint64_t finished = 0, begin = 0; // the clock after the last reset
    for (size_t i = 0; i < resets_numbers && resets[i] < clocks; i++) {
        finished += do_clocks(&s, memory, memory_words, bottom, waits, waits_entries,
                              resets[i] - begin);
        reset(&s);
        begin = resets[i] + 1;
    }
    finished += do_clocks(&s, memory, memory_words, bottom, waits, waits_entries, clocks - begin);
    give(&s, state);
    result[0] = finished;
    return FM8502_DONE;
}
