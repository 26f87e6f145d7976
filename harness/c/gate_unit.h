// The arithmetic unit out of gates on single bits: with the ripple adder, as the gate machine has
// it, and with either adder.
#ifndef GATE_UNIT_H
#define GATE_UNIT_H

#include "baseline.h"

uint32_t gate_unit(uint32_t operation, uint32_t a, uint32_t b, bool c, bool *carry,
                   bool *overflow);
uint32_t gate_unit_with(bool by_halves, uint32_t operation, uint32_t a, uint32_t b, bool c,
                        bool *carry, bool *overflow);

#endif
