// The arithmetic unit out of gates on single bits, written for speed.
#include "gate_unit.h"

INLINE bool And(bool x, bool y) { return x & y; }
INLINE bool Or(bool x, bool y) { return x | y; }
INLINE bool Xor(bool x, bool y) { return x ^ y; }
INLINE bool Not(bool x) { return !x; }

// The lines that the four bits of the operation decode to.
typedef struct {
    bool adds, complement_a, use_b, ones, carry_in, borrow;
    bool shifts, shift_carry, shift_top;
    bool xor, or, and, complement, pass;
} Lines;

// A bit of the operation, or its complement where the number has a 0.
INLINE bool wire(uint32_t operation, uint32_t number, int i) {
    bool bit = operation >> i & 1;
    return number >> i & 1 ? bit : Not(bit);
}

// Whether the operation is this one.
INLINE bool line(uint32_t operation, uint32_t number) {
    return And(And(wire(operation, number, 0), wire(operation, number, 1)),
               And(wire(operation, number, 2), wire(operation, number, 3)));
}

INLINE Lines decode(uint32_t operation, bool c) {
    // Spelled out, as the compiler does not unroll a loop over them.
    bool is1 = line(operation, 1), is2 = line(operation, 2), is3 = line(operation, 3);
    bool is4 = line(operation, 4), is5 = line(operation, 5), is6 = line(operation, 6);
    bool is7 = line(operation, 7), is8 = line(operation, 8), is9 = line(operation, 9);
    bool is10 = line(operation, 10), is11 = line(operation, 11), is12 = line(operation, 12);
    bool is13 = line(operation, 13), is14 = line(operation, 14);
    Lines l;
    l.complement_a = Or(is4, Or(is6, is7));
    l.use_b = Or(Or(is2, is3), Or(is6, is7));
    l.ones = is5;
    l.borrow = Or(Or(is4, is5), Or(is6, is7));
    l.adds = Or(is1, Or(l.use_b, l.borrow));
    l.carry_in = Or(Or(is1, Or(is4, is7)), Or(And(is2, c), And(is6, Not(c))));
    l.shifts = Or(is8, Or(is9, is10));
    l.shift_carry = And(is8, c);
    l.shift_top = is9;
    l.xor = is11;
    l.or = is12;
    l.and = is13;
    l.complement = is14;
    bool logic = Or(Or(is11, is12), Or(is13, is14));
    l.pass = Not(Or(Or(l.adds, l.shifts), logic));
    return l;
}

// The ripple adder; *before is the carry into the top bit. Returns the carry out.
INLINE bool add(const Lines *l, const bool *a, const bool *b, bool *sum, bool *before) {
    bool carry = l->carry_in;
    for (int i = 0; i < 32; i++) {
        bool x = Xor(a[i], l->complement_a);
        bool y = Or(And(b[i], l->use_b), l->ones);
        bool half = Xor(x, y);
        *before = carry;
        sum[i] = Xor(half, carry);
        carry = Or(And(x, y), And(half, carry));
    }
    return carry;
}

// What a range of bits does about carries, whatever comes in.
typedef struct {
    bool makes, passes;
} Range;

static Range range_carry(const bool *x, const bool *y, int width) {
    if (width == 1) return (Range){And(*x, *y), Xor(*x, *y)};
    int half = width / 2;
    Range low = range_carry(x, y, half), high = range_carry(x + half, y + half, half);
    return (Range){Or(high.makes, And(high.passes, low.makes)), And(high.passes, low.passes)};
}

INLINE bool carry_past(Range r, bool carry) { return Or(r.makes, And(r.passes, carry)); }

static void range_sum(const bool *x, const bool *y, int width, bool carry, bool *sum) {
    if (width == 1) {
        *sum = Xor(Xor(*x, *y), carry);
        return;
    }
    int half = width / 2;
    range_sum(x, y, half, carry, sum);
    bool between = carry_past(range_carry(x, y, half), carry);
    range_sum(x + half, y + half, half, between, sum + half);
}

// The adder by halves, as `add`.
INLINE bool add_by_halves(const Lines *l, const bool *a, const bool *b, bool *sum, bool *before) {
    bool x[32], y[32];
    for (int i = 0; i < 32; i++) {
        x[i] = Xor(a[i], l->complement_a);
        y[i] = Or(And(b[i], l->use_b), l->ones);
    }
    range_sum(x, y, 32, l->carry_in, sum);
    *before = Xor(sum[31], Xor(x[31], y[31]));
    return carry_past(range_carry(x, y, 32), l->carry_in);
}

// The result, of whose sources the lines let one through.
INLINE void choose(const Lines *l, const bool *a, const bool *b, const bool *sum, bool *result) {
    bool top = Or(l->shift_carry, And(l->shift_top, a[31]));
    for (int i = 0; i < 32; i++) {
        bool halved = i < 31 ? a[i + 1] : top;
        bool arithmetic = Or(And(sum[i], l->adds), And(halved, l->shifts));
        bool either = Or(And(Xor(a[i], b[i]), l->xor), And(Or(a[i], b[i]), l->or));
        bool other = Or(And(And(a[i], b[i]), l->and), And(Not(a[i]), l->complement));
        result[i] = Or(Or(arithmetic, either), Or(other, And(a[i], l->pass)));
    }
}

INLINE void unpack(uint32_t word, bool *bits) {
    for (int i = 0; i < 32; i++) bits[i] = word >> i & 1;
}

INLINE uint32_t pack(const bool *bits) {
    uint32_t word = 0;
    for (int i = 0; i < 32; i++) word |= (uint32_t)bits[i] << i;
    return word;
}

INLINE uint32_t unit(bool by_halves, uint32_t operation, uint32_t a_word, uint32_t b_word, bool c,
                     bool *carry, bool *overflow) {
    Lines l = decode(operation, c);
    bool a[32], b[32], sum[32], result[32], before = false;
    unpack(a_word, a);
    unpack(b_word, b);
    bool out = by_halves ? add_by_halves(&l, a, b, sum, &before) : add(&l, a, b, sum, &before);
    choose(&l, a, b, sum, result);
    *carry = Or(And(l.adds, Xor(out, l.borrow)), And(l.shifts, a[0]));
    *overflow = And(l.adds, Xor(out, before));
    return pack(result);
}

uint32_t gate_unit(uint32_t operation, uint32_t a, uint32_t b, bool c, bool *carry,
                   bool *overflow) {
    return unit(false, operation, a, b, c, carry, overflow);
}

uint32_t gate_unit_with(bool by_halves, uint32_t operation, uint32_t a, uint32_t b, bool c,
                        bool *carry, bool *overflow) {
    if (by_halves) return unit(true, operation, a, b, c, carry, overflow);
    return unit(false, operation, a, b, c, carry, overflow);
}
