/*
 * The proved emulator of the FM8502 recorder card, as a static library
 * (target/staticlib/libhost.a).
 *
 * What is lent. A call works on the caller's arrays for its duration and keeps
 * nothing. Each array passes as a pointer and a length in elements. It allocates
 * nothing, has no state of its own, and may be called from several threads on
 * different arrays. fm8502_file_run and fm8502_traverse take some 200 KiB of the
 * caller's stack.
 *
 * Every call ends, returns a code, and touches nothing but the arrays it is lent.
 * It looks at its arguments in this order: the machine's, state's and result's
 * lengths, and whether the places of files come to whole files (FM8502_MISFIT); then
 * the reasons to refuse, lowest number first except that 21 comes directly after 2,
 * 22 directly after 3 and in a traverse 11 last, after 16, 17 and 18, and that an
 * image's fields are taken one by one. After a refusal or a misfit everything lent is
 * as it was.
 *
 * A null pointer with length 0 is fine for an empty array. Undefined are:
 * - a length larger than the array that is lent;
 * - a pointer that is not aligned for its elements;
 * - arrays that overlap where the call may write to one of them.
 */
#ifndef FM8502_H
#define FM8502_H

#include <stddef.h>
#include <stdint.h>

#ifdef __cplusplus
extern "C" {
#endif

/* ---- Limits and sizes */

enum {
    FM8502_MOST_WORDS = 16777216, /* the longest memory */
    FM8502_MOST_WAITS = 65536,    /* the longest wait list */
    FM8502_MOST_FILES = 64,       /* the most files of a traverse */
    FM8502_MACHINE_SIZE = 12,     /* the words of a machine */
    FM8502_STATE_SIZE = 21,       /* the words of a gate state */
    FM8502_FILE_SIZE = 4          /* the places of a file of a traverse */
};

/* Bytes of the image of a memory of so many words. */
#define FM8502_IMAGE_SIZE(words) \
    ((size_t)56 + 4 * (size_t)(words) + 3 * (((size_t)(words) + 1023) / 1024))

/* ---- The machine: 12 words; the gate state: the same, and 9 more */

enum {
    FM8502_R0 = 0,       /* r0 to r7 are words 0 to 7; r0 is the program counter */
    FM8502_CARRY = 8,    /* flags: a call writes 0 or 1, and reads any word but 0 as 1 */
    FM8502_OVERFLOW = 9,
    FM8502_NEGATIVE = 10,
    FM8502_ZERO = 11,
    /* from here on the gate state alone */
    FM8502_ROW = 12,     /* the row to be done next, 0 to 12; 0: between instructions; 12: halted */
    FM8502_INSTRUCTION = 13,
    FM8502_ADDRESS = 14,
    FM8502_A = 15,
    FM8502_B = 16,
    FM8502_RESULT = 17,
    FM8502_POSITION = 18, /* of the next entry of the wait list, below its length; 0 for an empty list */
    FM8502_BEGUN = 19,    /* whether an access has begun: as a flag */
    FM8502_LEFT = 20      /* its clocks left, the completing one included; above 65,535: FM8502_BAD_GATE_STATE */
};

/* ---- A file of a traverse: 4 places */

enum {
    FM8502_FILE_PLACE = 0, /* the address of the first of its words */
    FM8502_FILE_WORDS = 1, /* how many words are laid */
    FM8502_FILE_ENTRY = 2, /* r0 when it begins to run */
    FM8502_FILE_COUNT = 3  /* how many instructions are to run */
};

/* ---- Codes */

enum {
    FM8502_DONE = 0,               /* carried out; a run: "finished" */
    /* Refused: the numbers of the papers, documents 01 and 02. */
    FM8502_NO_WORDS = 1,           /* the memory has no words */
    FM8502_TOO_MANY_WORDS = 2,     /* the memory has more than 16,777,216 words */
    FM8502_LONG_WAIT_LIST = 3,     /* the wait list has more than 65,536 entries */
    FM8502_BAD_GATE_STATE = 4,     /* the row, the list position or the access is bad */
    FM8502_SHORT_OUTPUT = 7,       /* the output is shorter than the image */
    FM8502_CUT_IMAGE = 8,          /* the image ends inside a field or before its end field */
    FM8502_WRONG_TAG = 9,          /* a tag is not the one due */
    FM8502_WRONG_LENGTH = 10,      /* a length is not the one due */
    FM8502_WRONG_VERSION = 11,     /* the version is neither 1 nor 2 */
    FM8502_BAD_FLAG = 12,          /* a flag byte exceeds 1 */
    FM8502_BAD_WORD_COUNT = 13,    /* the word count is 0 or above 16,777,216 */
    FM8502_SHORT_MEMORY = 14,      /* the memory is shorter than the word count */
    FM8502_TRAILING_BYTES = 15,    /* bytes follow the end field */
    FM8502_TOO_MANY_FILES = 16,    /* the traverse has more than 64 files */
    FM8502_FILE_MISPLACED = 17,    /* a file's place plus words exceeds the memory, or a word of it lies below the bottom */
    FM8502_WORDS_MISMATCHED = 18,  /* the files' words do not add up to the list of words */
    FM8502_BOTTOM_TOO_HIGH = 21,   /* the bottom exceeds the memory's length */
    FM8502_RESETS_NOT_RISING = 22, /* the reset list does not rise strictly */
    FM8502_STOPPED = 100,          /* carried out: "outside", or "undone" for a file run, or a traverse under rule 2 */
    FM8502_HALTED = 101,           /* carried out: "no instruction"; fm8502_run alone */
    FM8502_JOURNAL_FULL = 102,     /* carried out: "journal full", for a file run, or a traverse under rule 2 */
    FM8502_MISFIT = 200            /* machine, state, result or files of another length than named */
};

/* No longer given, or held to, since CR 11; the names stay so that programs which use them compile. */
enum {
    FM8502_TOO_MANY_INSTRUCTIONS = 5,
    FM8502_SHORT_JOURNAL = 6,
    FM8502_MOST_INSTRUCTIONS = 65536
};

/* ---- Calls
 *
 * memory: 1 to FM8502_MOST_WORDS words (fm8502_image_read: any number).
 * bottom: how many words at the front of memory hold the board's loader, at most
 * memory_words. A store to one of them takes its clocks and waits and alters
 * nothing; all else of the instruction is as ever. 0: every word can be stored to.
 * The image calls know no bottom, and loading fills it too.
 * waits: at most FM8502_MOST_WAITS entries. Each access to memory takes the next
 * entry and waits so many clocks; after the last entry the list begins again. An
 * empty list (NULL, 0) means no waits.
 * version: 1 or 2, of an image and of a traverse: what a traverse takes back where one
 * of its files is undone. Rule 1: that file; rule 2: the whole traverse.
 * journal: notes each address that is stored to once, in the order of the first stores.
 * Pair i, from 0, has the address at journal[2 * i] and the word from before its first
 * store at journal[2 * i + 1]; other places do not change. A store below bottom is not
 * noted. A journal has any number of places, and half as many pairs, rounded down;
 * (NULL, 0): none. Two places for each word of memory are always enough. The pairs' words,
 * put back at their addresses, give the memory from before the file run, the traverse, or
 * under rule 1 the last file.
 * machine_words is 12, state_words 21; result_places is named at each call.
 */

/*
 * Runs up to count instructions. Stops before one that needs a word that the
 * memory does not have (FM8502_STOPPED), and before a word that is no instruction:
 * bit 14 or one of bits 20 to 31 is 1 (FM8502_HALTED; what its operands need is
 * not looked at). Memory and machine are then those before it.
 * position: of the wait list's entry to begin with, below the list's length; 0 for
 * its beginning, and for an empty list; any other is FM8502_BAD_GATE_STATE.
 * result, 3 places: instructions that ran; their clock total, waits included; the
 * list position after them, also where the run stopped.
 * To go on, lend the next run the memory and machine as they were left, and give it
 * that position; instructions and clocks of the two runs add up. To go on from a gate
 * state in row 0, as a reset leaves it: the machine is the state's first 12 words, and
 * the position its FM8502_POSITION.
 * Codes: 0, 1, 2, 21, 3, 4, 100, 101, 200.
 */
uint32_t fm8502_run(uint32_t *memory, size_t memory_words, uint32_t bottom, const uint16_t *waits,
                    size_t waits_entries, uint32_t position, uint32_t *machine,
                    size_t machine_words, uint32_t count, uint64_t *result, size_t result_places);

/*
 * Runs up to count instructions, any number of 32 bits, without waits. Ends early where
 * fm8502_run would stop or halt (FM8502_STOPPED: "undone"), and before a store that needs
 * one address more than the journal has pairs (FM8502_JOURNAL_FULL: "journal full"; a
 * missing word comes first). Then memory goes back to the start, machine is not written,
 * and the journal keeps its pairs.
 * result, 2 places: instructions that ran, also if undone or full; pairs in the journal.
 * Codes: 0, 1, 2, 21, 100, 102, 200.
 */
uint32_t fm8502_file_run(uint32_t *memory, size_t memory_words, uint32_t bottom,
                         uint32_t *journal, size_t journal_places, uint32_t *machine,
                         size_t machine_words, uint32_t count, uint64_t *result,
                         size_t result_places);

/*
 * Runs a traverse: up to FM8502_MOST_FILES files on one memory, in their order.
 * files: four places to a file, so that files_places is a multiple of FM8502_FILE_SIZE;
 * (NULL, 0): no files. words: those of all files, one file's behind the other's, and as
 * many as the files have together.
 * For each file its words are laid in memory, the first at its place and the others
 * behind it; r0 becomes its entry; then up to its count of instructions run, as in
 * fm8502_file_run. The other registers, flags and memory go on from file to file. The
 * journal notes a laid word as it does a store, in the order of the words.
 * A file is undone where fm8502_run would stop or halt in it, and where a laid word or a
 * store needs one address more than the journal has pairs: that word is not laid or stored,
 * and nothing more of the file is laid or runs. What it laid and stored is taken back:
 * - Rule 1 (version 1): memory, registers (r0 too) and flags are as before its words were
 *   laid, and the next file follows. machine is written at the end, also if every file was
 *   undone. Each file starts with the journal empty: the pairs are those of the last file,
 *   and places past them keep what an earlier file wrote there.
 * - Rule 2 (version 2): memory goes back to the start of the traverse, machine is not
 *   written, and later files are not laid and do not run (FM8502_STOPPED: "undone", or
 *   FM8502_JOURNAL_FULL: "journal full"). The pairs are those of all files together, also
 *   of what was taken back.
 * A file's place plus its words is at most memory_words, also for a file of no words, and
 * a file that has words has its place at bottom or above (FM8502_FILE_MISPLACED). Sums are
 * natural numbers and do not go round.
 * A file run is the traverse, under either rule, of one file with no words at place 0,
 * whose entry is r0; it is undone, or its journal full, where that file is.
 * result, 3 places: under rule 1 the undone files, bit i for file i, from 0; under rule 2
 * the number of the undone file, from 0, and 0 where all finished (the code tells
 * which); instructions that ran in the last file run, also if undone, and 0 with no
 * files; pairs in the journal.
 * Codes: 0 (under rule 1 whichever files were undone), 1, 2, 21, 16, 17, 18, 11, 100 and 102
 * (rule 2), 200.
 */
uint32_t fm8502_traverse(uint32_t *memory, size_t memory_words, uint32_t bottom,
                         uint32_t *journal, size_t journal_places, const uint32_t *words,
                         size_t words_length, const uint32_t *files, size_t files_places,
                         uint32_t *machine, size_t machine_words, uint32_t version,
                         uint64_t *result, size_t result_places);

/*
 * Does so many clocks of the gate machine. To start between instructions at the
 * head of the wait list: the machine's 12 words, and 0 in the other 9; where
 * fm8502_run left off: the same, with its position at FM8502_POSITION. A run that
 * follows on is lent the state as it was left, and goes on in the list from there.
 * A word that is no instruction is read with its wait; then the machine is in row
 * 12, where it stays, however many clocks follow without a reset.
 * resets: the numbers of the clocks on which the reset line is held, each above the
 * one before. They count from 0 at the beginning of this run, and anew in a run that
 * follows on; numbers at or past clocks rise too, and have no effect. (NULL, 0): no
 * resets.
 * A reset clock does no row's work. r0 and the row become 0, and an access that has
 * begun is dropped; its wait entry is used up. The other registers, flags, latches,
 * list position and memory stay, with all that the cut instruction has done to them,
 * and that instruction does not count as finished. On the next clock the machine
 * begins with the instruction at address 0, also where a missing word or row 12 had
 * held it.
 * Clocks on which a missing word or row 12 keeps the machine cost no time, however
 * many; each reset in the list costs some.
 * result, 1 place: instructions finished in these clocks, before a reset too.
 * Codes: 0, 1, 2, 21, 3, 22, 4, 200.
 */
uint32_t fm8502_gate_run(uint32_t *memory, size_t memory_words, uint32_t bottom,
                         const uint16_t *waits, size_t waits_entries, const uint64_t *resets,
                         size_t resets_numbers, uint32_t *state, size_t state_words,
                         uint64_t clocks, uint64_t *result, size_t result_places);

/* As fm8502_gate_run with one clock and no resets. */
uint32_t fm8502_clock(uint32_t *memory, size_t memory_words, uint32_t bottom,
                      const uint16_t *waits, size_t waits_entries, uint32_t *state,
                      size_t state_words, uint64_t *result, size_t result_places);

/*
 * Loads an image: its words to the front of memory, whose further words do not
 * change, and its registers and flags to machine.
 * result, 2 places: the number of words loaded; the image's version, 1 or 2.
 * Codes: 0, 8 to 15, 200.
 */
uint32_t fm8502_image_read(const uint8_t *bytes, size_t bytes_length, uint32_t *memory,
                           size_t memory_words, uint32_t *machine, size_t machine_words,
                           uint64_t *result, size_t result_places);

/*
 * Writes the image of machine and memory, of the version given, to the front of out,
 * whose further bytes do not change. The versions differ in their number alone.
 * out: at least FM8502_IMAGE_SIZE(memory_words) bytes.
 * result, 1 place: the size of the image.
 * Codes: 0, 1, 2, 7, 11, 200.
 */
uint32_t fm8502_image_write(const uint32_t *memory, size_t memory_words, const uint32_t *machine,
                            size_t machine_words, uint32_t version, uint8_t *out,
                            size_t out_length, uint64_t *result, size_t result_places);

#ifdef __cplusplus
}
#endif

#endif
