/*
 * Stacks the traces of an image under a wait list, rolls a file back, runs into a
 * word that is no instruction, stores into a loader on a board that holds it, and
 * on one that does not, restarts a drifted sledge by its reset line, and runs the
 * files of a line as a traverse under either rule.
 * Usage: example FOLDER, the folder of the example images.
 */
#include "fm8502.h"

#include <inttypes.h>
#include <stdio.h>
#include <stdlib.h>
#include <string.h>

enum {
    INSTRUCTIONS = 90,
    MEMORY_WORDS = 4096,
    MOST_WAITS = 256,
    TRACE_COUNT = 0x0F,
    ACCUMULATORS = 0x10,
    SAMPLES = 8,
    LOADER_WORDS = 4, /* of loader.image; as many accumulators lie behind it */
    RESET = 1000,     /* a clock on which restart.image is stuck */
    FIRST_PART = 40,  /* of the instructions after it */
    RESTARTED_ACCUMULATORS = 0x14,
    RESTARTED_SAMPLES = 4,
    FILES = 3, /* of line.files */
    MOST_FILE_WORDS = 32,
    MOST_PLACES = 256, /* of a journal: two for each word of an example's memory, and more */
    SHORT_PLACES = 17, /* too few for the files under rule 2 */
    FILE_COUNT = 0x0B,
    PROFILE = 0x0C
};

/* A machine with its memory, its image's version, and its position in the wait list. */
typedef struct {
    uint32_t machine[FM8502_MACHINE_SIZE];
    uint32_t memory[MEMORY_WORDS];
    size_t words;
    uint32_t version;
    uint32_t bottom;
    uint32_t position;
} Card;

/* Files as the library takes them. */
typedef struct {
    uint32_t files[FILES * FM8502_FILE_SIZE];
    uint32_t words[MOST_FILE_WORDS];
    size_t count, words_length;
} Line;

static FILE *open_file(const char *folder, const char *name, const char *mode) {
    char path[4096];
    snprintf(path, sizeof path, "%s/%s", folder, name);
    FILE *file = fopen(path, mode);
    if (!file) {
        perror(path);
        exit(1);
    }
    return file;
}

static void fail_unless(int good, const char *text) {
    if (good) return;
    fprintf(stderr, "%s\n", text);
    exit(1);
}

/* Ends the program unless the code is the one expected here. */
static void expect(const char *call, uint32_t code, uint32_t expected) {
    if (code != expected) {
        fprintf(stderr, "%s: code %u\n", call, (unsigned)code);
        exit(1);
    }
}

static Card read_image(const uint8_t *bytes, size_t length) {
    Card card;
    uint64_t result[2];
    expect("image read",
           fm8502_image_read(bytes, length, card.memory, MEMORY_WORDS, card.machine,
                             FM8502_MACHINE_SIZE, result, 2),
           FM8502_DONE);
    card.words = (size_t)result[0];
    card.version = (uint32_t)result[1];
    card.bottom = 0;
    card.position = 0;
    return card;
}

static Card load(const char *folder, const char *name) {
    static uint8_t bytes[FM8502_IMAGE_SIZE(MEMORY_WORDS) + 1];
    FILE *file = open_file(folder, name, "rb");
    size_t length = fread(bytes, 1, sizeof bytes, file);
    fclose(file);
    Card card = read_image(bytes, length);
    printf("%s: %zu words\n", name, card.words);
    return card;
}

static size_t load_waits(const char *folder, uint16_t *waits) {
    FILE *file = open_file(folder, "stacking.waits", "r");
    size_t entries = 0;
    while (entries < MOST_WAITS && fscanf(file, "%hu", &waits[entries]) == 1) entries++;
    fclose(file);
    return entries;
}

/* Adds a file behind those of the line, with its words. */
static void add_file(Line *line, const uint32_t *file, const uint32_t *words) {
    size_t length = file[FM8502_FILE_WORDS];
    memcpy(line->files + FM8502_FILE_SIZE * line->count, file, 4 * FM8502_FILE_SIZE);
    memcpy(line->words + line->words_length, words, 4 * length);
    line->count++;
    line->words_length += length;
}

/* The line's other files. */
static Line without_file(const Line *line, size_t left_out) {
    Line others = {.count = 0};
    const uint32_t *words = line->words;
    for (size_t i = 0; i < line->count; i++) {
        const uint32_t *file = line->files + FM8502_FILE_SIZE * i;
        if (i != left_out) add_file(&others, file, words);
        words += file[FM8502_FILE_WORDS];
    }
    return others;
}

/* So many hexadecimal numbers. */
static void read_numbers(FILE *file, uint32_t *numbers, size_t count) {
    for (size_t i = 0; i < count; i++)
        fail_unless(fscanf(file, "%" SCNx32, &numbers[i]) == 1, "line.files: a number is missing");
}

/* A file on each line: place, number of words, entry, instruction count, and its words. */
static Line load_files(const char *folder) {
    FILE *text = open_file(folder, "line.files", "r");
    Line line = {.count = 0};
    while (line.count < FILES) {
        uint32_t file[FM8502_FILE_SIZE], words[MOST_FILE_WORDS];
        read_numbers(text, file, FM8502_FILE_SIZE);
        size_t length = file[FM8502_FILE_WORDS];
        fail_unless(line.words_length + length <= MOST_FILE_WORDS, "line.files: too many words");
        read_numbers(text, words, length);
        add_file(&line, file, words);
    }
    fclose(text);
    return line;
}

static void print_words(const char *name, const uint32_t *words, size_t count) {
    printf("%s", name);
    for (size_t i = 0; i < count; i++) printf(" %08X", (unsigned)words[i]);
    printf("\n");
}

/* The word for a run's code. */
static const char *ending(uint32_t code) {
    if (code == FM8502_STOPPED) return "outside";
    return code == FM8502_HALTED ? "no instruction" : "finished";
}

/* Runs the card, to the ending that is expected; returns the clock total. */
static uint64_t run(const char *name, Card *card, const uint16_t *waits, size_t entries,
                    uint32_t expected) {
    uint64_t result[3];
    expect(name,
           fm8502_run(card->memory, card->words, card->bottom, waits, entries, card->position,
                      card->machine, FM8502_MACHINE_SIZE, INSTRUCTIONS, result, 3),
           expected);
    card->position = (uint32_t)result[2];
    printf("%s: %s, %llu instructions, %llu clocks\n", name, ending(expected),
           (unsigned long long)result[0], (unsigned long long)result[1]);
    return result[1];
}

/* So many clocks of the gate machine; the card is then the state's, for run to go on with. */
static void run_gates(Card *card, const uint16_t *waits, size_t entries, const uint64_t *resets,
                      size_t numbers, uint64_t clocks) {
    uint32_t state[FM8502_STATE_SIZE] = {0};
    memcpy(state, card->machine, sizeof card->machine);
    state[FM8502_POSITION] = card->position;
    uint64_t finished;
    expect("gate run",
           fm8502_gate_run(card->memory, card->words, card->bottom, waits, entries, resets, numbers,
                           state, FM8502_STATE_SIZE, clocks, &finished, 1),
           FM8502_DONE);
    memcpy(card->machine, state, sizeof card->machine);
    card->position = state[FM8502_POSITION];
    printf("gate machine: %llu instructions, row %u\n", (unsigned long long)finished,
           (unsigned)state[FM8502_ROW]);
}

/* As run, but as a file, with a journal of so many places; returns its pairs. */
static size_t run_file(const char *name, Card *card, uint32_t *journal, size_t places,
                       uint32_t expected) {
    uint64_t result[2];
    expect(name,
           fm8502_file_run(card->memory, card->words, card->bottom, journal, places, card->machine,
                           FM8502_MACHINE_SIZE, INSTRUCTIONS, result, 2),
           expected);
    const char *told = expected == FM8502_STOPPED ? "undone" : "finished";
    if (expected == FM8502_JOURNAL_FULL) told = "journal full";
    printf("%s: %s, %llu instructions, %llu pairs\n", name, told, (unsigned long long)result[0],
           (unsigned long long)result[1]);
    return (size_t)result[1];
}

/* Whether two cards have the same memory and machine. */
static int alike(const Card *one, const Card *other) {
    return !memcmp(one->memory, other->memory, 4 * one->words) &&
           !memcmp(one->machine, other->machine, sizeof one->machine);
}

static void stack(Card *card, const uint16_t *waits, size_t entries) {
    Card copy = *card;
    uint64_t clocks = run("run", card, waits, entries, FM8502_DONE);
    const uint32_t *flags = card->machine + FM8502_CARRY;
    printf("flags %u%u%u%u\n", (unsigned)flags[0], (unsigned)flags[1], (unsigned)flags[2],
           (unsigned)flags[3]);
    print_words("registers", card->machine, 8);
    printf("traces %u\n", (unsigned)card->memory[TRACE_COUNT]);
    print_words("accumulators", card->memory + ACCUMULATORS, SAMPLES);
    run_gates(&copy, waits, entries, NULL, 0, clocks);
}

static void roll_back(Card *card) {
    Card former = *card;
    uint32_t journal[MOST_PLACES];
    size_t pairs = run_file("file run", card, journal, MOST_PLACES, FM8502_STOPPED);
    print_words("journal", journal, 2 * pairs);
    printf("memory and machine as before: %s\n", alike(card, &former) ? "yes" : "no");
    run_file("short journal", card, journal, 5, FM8502_JOURNAL_FULL);
}

static void halt(Card *card, const uint16_t *waits, size_t entries) {
    Card copy = *card;
    run("run", card, waits, entries, FM8502_HALTED);
    uint32_t pc = card->machine[FM8502_R0], next[2] = {pc, card->memory[pc]};
    print_words("next", next, 2);
    run_gates(&copy, waits, entries, NULL, 0, UINT64_MAX);
}

/* Both engines and a file run, each from the start; then a run on the memory that was left. */
static void run_on_board(const Card *start, uint32_t bottom, const uint16_t *waits,
                         size_t entries) {
    Card card = *start;
    card.bottom = bottom;
    Card gates = card, file = card;
    uint32_t journal[MOST_PLACES];

    printf("bottom %u\n", (unsigned)bottom);
    uint64_t clocks = run("run", &card, waits, entries, FM8502_DONE);
    print_words("loader", card.memory, LOADER_WORDS);
    print_words("accumulators", card.memory + LOADER_WORDS, LOADER_WORDS);
    run_gates(&gates, waits, entries, NULL, 0, clocks);
    run_file("file run", &file, journal, MOST_PLACES, FM8502_DONE);
    /* A loader that was stored over leads outside. */
    memcpy(card.machine, start->machine, sizeof card.machine);
    card.position = 0;
    run("again", &card, waits, entries, bottom ? FM8502_DONE : FM8502_STOPPED);
}

static void store_into_loader(Card *card, const uint16_t *waits, size_t entries) {
    run_on_board(card, LOADER_WORDS, waits, entries);
    run_on_board(card, 0, waits, entries);

    uint64_t result[3];
    uint32_t past = (uint32_t)card->words + 1;
    uint32_t code = fm8502_run(card->memory, card->words, past, waits, entries, 0, card->machine,
                               FM8502_MACHINE_SIZE, INSTRUCTIONS, result, 3);
    expect("run", code, FM8502_BOTTOM_TOO_HIGH);
    printf("bottom %u: refused %u\n", (unsigned)past, (unsigned)code);
}

/* As many instructions as run does, in two parts: the second goes on where the first left off. */
static void run_in_parts(Card *card, const uint16_t *waits, size_t entries) {
    const uint32_t counts[2] = {FIRST_PART, INSTRUCTIONS - FIRST_PART};
    uint64_t ran = 0, clocks = 0, result[3];
    for (int part = 0; part < 2; part++) {
        expect("run",
               fm8502_run(card->memory, card->words, card->bottom, waits, entries, card->position,
                          card->machine, FM8502_MACHINE_SIZE, counts[part], result, 3),
               FM8502_DONE);
        ran += result[0];
        clocks += result[1];
        card->position = (uint32_t)result[2];
    }
    printf("in two parts: %llu instructions, %llu clocks, position %u\n", (unsigned long long)ran,
           (unsigned long long)clocks, (unsigned)card->position);
}

static void refuse_resets(Card *card, const uint16_t *waits, size_t entries) {
    uint32_t state[FM8502_STATE_SIZE] = {0};
    memcpy(state, card->machine, sizeof card->machine);
    const uint64_t twice[2] = {RESET, RESET};
    uint64_t finished;
    uint32_t code = fm8502_gate_run(card->memory, card->words, card->bottom, waits, entries, twice,
                                    2, state, FM8502_STATE_SIZE, RESET + 1, &finished, 1);
    expect("gate run", code, FM8502_RESETS_NOT_RISING);
    printf("resets %d %d: refused %u\n", RESET, RESET, (unsigned)code);
}

/* A drifted sledge is stuck until a reset; then both engines go on alike. */
static void restart(Card *start, const uint16_t *waits, size_t entries) {
    Card drifted = *start, stuck = *start, card = *start, gates = *start;
    run("run", &drifted, waits, entries, FM8502_STOPPED);
    run_gates(&stuck, waits, entries, NULL, 0, RESET);
    printf("reset on clock %d\n", RESET);
    uint64_t resets[2] = {RESET};
    run_gates(&card, waits, entries, resets, 1, RESET + 1);
    printf("position %u\n", (unsigned)card.position);

    Card parts = card;
    uint64_t clocks = run("restarted", &card, waits, entries, FM8502_DONE);
    printf("position %u\n", (unsigned)card.position);
    print_words("accumulators", card.memory + RESTARTED_ACCUMULATORS, RESTARTED_SAMPLES);
    run_in_parts(&parts, waits, entries);
    /* The clocks of a run count from 0, so its number of clocks is past the last of them. */
    resets[1] = RESET + 1 + clocks;
    run_gates(&gates, waits, entries, resets, 2, resets[1]);
    printf("memory and machine as the interpreter's: %s\n", alike(&gates, &card) ? "yes" : "no");
    refuse_resets(start, waits, entries);
}

static void rewrite(const Card *card) {
    static uint8_t image[FM8502_IMAGE_SIZE(MEMORY_WORDS)];
    uint64_t size;
    expect("image write",
           fm8502_image_write(card->memory, card->words, card->machine, FM8502_MACHINE_SIZE, 1,
                              image, sizeof image, &size, 1),
           FM8502_DONE);
    Card again = read_image(image, (size_t)size);
    printf("written as version 1: %llu bytes, read again as version %u\n",
           (unsigned long long)size, (unsigned)again.version);
}

/* The code of a traverse of the line's files under the rule of a version, with a journal of so
 * many places. */
static uint32_t traverse(Card *card, const Line *line, size_t places, uint32_t version,
                         uint64_t *result) {
    uint32_t journal[MOST_PLACES];
    return fm8502_traverse(card->memory, card->words, card->bottom, journal, places, line->words,
                           line->words_length, line->files, line->count * FM8502_FILE_SIZE,
                           card->machine, FM8502_MACHINE_SIZE, version, result, 3);
}

static void print_undone(const char *what, const uint64_t *result) {
    printf("%s in file %llu, %llu instructions, %llu pairs\n", what, (unsigned long long)result[0],
           (unsigned long long)result[1], (unsigned long long)result[2]);
}

static void print_profile(const Card *by_file, const Card *whole) {
    printf("profile, file by file: rule 1, rule 2\n");
    for (int file = 0; file < FILES; file++) {
        printf("%d %08X %08X\n", file, (unsigned)by_file->memory[PROFILE + file],
               (unsigned)whole->memory[PROFILE + file]);
    }
    printf("files stacked %u %u\n", (unsigned)by_file->memory[FILE_COUNT],
           (unsigned)whole->memory[FILE_COUNT]);
}

/* One file of the line is undone: by rule 1 that file is taken back, by rule 2 the line. */
static void take_back(const Card *start, const Line *line) {
    Card by_file = *start, whole = *start, full = *start, left = *start;
    uint64_t result[3];
    expect("traverse", traverse(&by_file, line, MOST_PLACES, 1, result), FM8502_DONE);
    printf("rule 1: undone %016llX, %llu instructions, %llu pairs\n",
           (unsigned long long)result[0], (unsigned long long)result[1],
           (unsigned long long)result[2]);
    expect("traverse", traverse(&whole, line, MOST_PLACES, 2, result), FM8502_STOPPED);
    printf("rule 2: ");
    print_undone("undone", result);
    expect("traverse", traverse(&full, line, SHORT_PLACES, 2, result), FM8502_JOURNAL_FULL);
    printf("rule 2, %d places: ", SHORT_PLACES);
    print_undone("journal full", result);
    print_profile(&by_file, &whole);

    Line alone = without_file(line, 1);
    expect("traverse", traverse(&left, &alone, MOST_PLACES, 1, result), FM8502_DONE);
    printf("rule 1 as files 0 and 2 alone: %s\n", alike(&by_file, &left) ? "yes" : "no");
    printf("rule 2 as before: %s\n", alike(&whole, start) ? "yes" : "no");
}

static void run_line(Card *card, const Line *line) {
    printf("version %u\n", (unsigned)card->version);
    rewrite(card);
    take_back(card, line);
    uint64_t result[3];
    uint32_t code = traverse(card, line, 0, 3, result);
    expect("traverse", code, FM8502_WRONG_VERSION);
    printf("version 3: refused %u\n", (unsigned)code);
}

int main(int count, char **arguments) {
    const char *folder = count > 1 ? arguments[1] : "examples";
    uint16_t waits[MOST_WAITS];
    size_t entries = load_waits(folder, waits);
    Card stacking = load(folder, "stacking.image");
    stack(&stacking, waits, entries);
    Card outside = load(folder, "outside.image");
    roll_back(&outside);
    Card halted = load(folder, "halted.image");
    halt(&halted, waits, entries);
    Card loader = load(folder, "loader.image");
    store_into_loader(&loader, waits, entries);
    Card drifted = load(folder, "restart.image");
    restart(&drifted, waits, entries);
    Card card = load(folder, "line.image");
    Line line = load_files(folder);
    run_line(&card, &line);
    return 0;
}
