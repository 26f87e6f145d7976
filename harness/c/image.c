// Images in C, written for speed, on a machine that is little-endian itself.
#include "baseline.h"
#include <stdlib.h>
#include <string.h>

enum { WORDS_PER_FIELD = 1024, REGISTERS = 7, FLAGS = 42, COUNT = 49, WORDS = 53 };

// A field's three bytes of tag and length; returns the place after them.
static uint8_t *header(uint8_t *out, uint8_t tag, size_t length) {
    out[0] = tag;
    out[1] = (uint8_t)length;
    out[2] = (uint8_t)(length >> 8);
    return out + 3;
}

static size_t field_words(size_t due) {
    return due < WORDS_PER_FIELD ? due : WORDS_PER_FIELD;
}

// The fields of the words; returns the place after them.
static uint8_t *put_words(const uint32_t *memory, size_t due, uint8_t *at) {
    while (due > 0) {
        size_t here = field_words(due);
        memcpy(header(at, 5, 4 * here), memory, 4 * here);
        at += 3 + 4 * here;
        memory += here;
        due -= here;
    }
    return at;
}

uint32_t baseline_image_write(const uint32_t *memory, size_t memory_words,
                              const uint32_t *machine, uint32_t version, uint8_t *out,
                              uint64_t *result) {
    uint32_t count = (uint32_t)memory_words;
    *header(out, 1, 1) = (uint8_t)version;
    memcpy(header(out + REGISTERS - 3, 2, 32), machine, 32);
    uint8_t *flags = header(out + FLAGS - 3, 3, 4);
    for (int i = 0; i < 4; i++) flags[i] = (uint8_t)machine[8 + i];
    memcpy(header(out + COUNT - 3, 4, 4), &count, 4);
    uint8_t *end = header(put_words(memory, memory_words, out + WORDS), 0xFF, 0);
    result[0] = (uint64_t)(end - out);
    return FM8502_DONE;
}

// Ends the program if a header is not the one due: only good images are lent.
static const uint8_t *due_header(const uint8_t *bytes, uint8_t tag, size_t length) {
    if (bytes[0] != tag || (bytes[1] | bytes[2] << 8) != (int)length) abort();
    return bytes + 3;
}

// Loads so many words from their fields; returns the place after them.
static const uint8_t *get_words(const uint8_t *at, size_t due, uint32_t *memory) {
    while (due > 0) {
        size_t here = field_words(due);
        memcpy(memory, due_header(at, 5, 4 * here), 4 * here);
        at += 3 + 4 * here;
        memory += here;
        due -= here;
    }
    return at;
}

uint32_t baseline_image_read(const uint8_t *bytes, size_t length, uint32_t *memory,
                             uint32_t *machine, uint64_t *result) {
    uint32_t words;
    uint8_t version = *due_header(bytes, 1, 1);
    if (version != 1 && version != 2) abort();
    memcpy(machine, due_header(bytes + REGISTERS - 3, 2, 32), 32);
    const uint8_t *flags = due_header(bytes + FLAGS - 3, 3, 4);
    for (int i = 0; i < 4; i++) machine[8 + i] = flags[i];
    memcpy(&words, due_header(bytes + COUNT - 3, 4, 4), 4);
    const uint8_t *end = get_words(bytes + WORDS, words, memory);
    if (due_header(end, 0xFF, 0) != bytes + length) abort();
    result[0] = words;
    result[1] = version;
    return FM8502_DONE;
}
