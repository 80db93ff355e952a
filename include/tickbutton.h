/* The proved name guard, for C programs: the functions of target/staticlib/libexports.a, which `./archive` writes.
 *
 *     cc -Iinclude examples/fox.c target/staticlib/libexports.a -o fox
 *
 * What each function gives is proved of the code in the archive (crates/exports). That it is declared right here is tested
 * (tests/comparisons/linking), not proved.
 *
 * A slice is a pointer and a count of its elements. A pointer must not be NULL, even where the count is 0, and what is written must not
 * overlap with what is read. Nothing else is required: any numbers and any bytes are answered. No function keeps a pointer, allocates, or
 * has a state of its own, so that different tables may be served by different threads at once; one set of tables is for one thread at a time.
 *
 * The walk of a path takes stack for each link that it follows within another, 10 KiB in all for the deepest: a thread that calls needs
 * TICKBUTTON_STACK bytes, which leaves more than half of them to the thread itself and to its callers. */
#ifndef TICKBUTTON_H
#define TICKBUTTON_H

#include <stdbool.h>
#include <stddef.h>
#include <stdint.h>
#include <string.h>

#ifdef __cplusplus
extern "C" {
#endif

/* ---- Sizes. ---- */

enum {
    TICKBUTTON_WORDS = 8512,         /* the words of the tables */
    TICKBUTTON_FIELDS = 6,           /* the fields that reading a record gives */
    TICKBUTTON_GOAL = 46,            /* the numbers of a walk's goal */
    TICKBUTTON_LONGEST_NAME = 14,    /* bytes */
    TICKBUTTON_LONGEST_TARGET = 64,  /* bytes of where a link leads */
    TICKBUTTON_LONGEST_PATH = 255,   /* bytes */
    TICKBUTTON_LONGEST_RECORD = 517, /* bytes: 7, and two paths */
    TICKBUTTON_MOST_LINKS = 8,       /* links that one walk follows */
    TICKBUTTON_STACK = 32768         /* bytes of stack, enough for every function (docs/BENCHMARKS.md) */
};

/* ---- The functions. Each but `tickbutton_serve_run` gives an answer as one number, to be taken apart below. ---- */

/* Makes the words fresh tables, with the directory `/` and nothing else: done 0; refused 1 where there are not 8,512 of them, and then nothing
 * is written. */
uint64_t tickbutton_fresh(uint32_t *words, size_t count);

/* Serves the record at the front of the bytes over the words: held, seen or done with a number, or refused, and the bytes taken. A refusal
 * changes no word. No byte is taken of a record that is cut off (refused 17), so that a loop over a stream must stop there, or wait for the rest. */
uint64_t tickbutton_serve(uint32_t *words, size_t count, const uint8_t *record, size_t length);

/* Serves record after record, as long as a whole one is left and a slot for its answer, and gives how many were served; `taken` becomes how many
 * bytes they are. Each slot in front gets its record's answer, with no bytes taken told in it; the slots behind stay. The tables are tested
 * once, not before each record; where they are not sound, the slot of every whole record gets refused 1, and the run does not end early. */
uint64_t tickbutton_serve_run(uint32_t *words, size_t count, const uint8_t *records, size_t length, uint64_t *answers, size_t room,
                              uint64_t taken[1]);

/* Whether the words are sound tables: done 0 where they are, refused 1 where not. */
uint64_t tickbutton_sound(const uint32_t *words, size_t count);

/* Walks a path over the words, a link at its last name too where that is asked: done with the node that it leads to, 0 for an absence; refused
 * 1, 3, 7, 8 or 9. The goal is the number of elements (links followed), the end entry and up to 8 elements in the order met, each as its
 * directory and the four words of its name block, zeros behind them; no end entry (`/`) is zeros, and a refused walk's goal is all zeros.
 *
 * A name block is 16 bytes, the most significant byte of each word first: the length of the name, its bytes, and zeros behind them. `fox` is
 * 0x03666F78, 0, 0, 0. */
uint64_t tickbutton_walk(const uint32_t *words, size_t count, const uint8_t *path, size_t length, bool follow_last,
                         uint32_t goal[TICKBUTTON_GOAL]);

/* Packs a call into the front of the destination: done with the record's length; refused 2, 3 or 18, and then nothing is written. A call that
 * has no argument gets 0, a path that it has not gets length 0. */
uint64_t tickbutton_pack(uint32_t call, uint16_t process, uint16_t argument, const uint8_t *path1, size_t length1, const uint8_t *path2,
                         size_t length2, uint8_t *destination, size_t room);

/* Reads the record at the front of the bytes: done with the call's number, or refused 17, 2 or 3, and the bytes taken, none for 17. The fields
 * are the process, the argument, the start and the length of path 1, and the start and the length of path 2; all 0 where it is refused. */
uint64_t tickbutton_read(const uint8_t *bytes, size_t count, uint32_t fields[TICKBUTTON_FIELDS]);

/* ---- Answers: the number in the lower 32 bits, the word in the two above, the bytes taken above those. In C++ the type of a word is written with
 * its `enum`, since a function has the same name. ---- */

enum tickbutton_word {
    TICKBUTTON_HELD = 0,   /* the name is held for the caller's user; the number is its node, 0 for an absence */
    TICKBUTTON_SEEN = 1,   /* another user holds the name and may change it; the number is its node, 0 for an absence */
    TICKBUTTON_DONE = 2,   /* the call was made; the number is a node, a process, a child or a length */
    TICKBUTTON_REFUSED = 3 /* the call was not made, and nothing changed; the number says why */
};

static inline enum tickbutton_word tickbutton_word(uint64_t answer) { return (enum tickbutton_word)(answer >> 32 & 3); }

static inline uint32_t tickbutton_number(uint64_t answer) { return (uint32_t)answer; }

static inline size_t tickbutton_taken(uint64_t answer) { return (size_t)(answer >> 34); }

/* The word as text. */
static inline const char *tickbutton_word_text(enum tickbutton_word word) {
    static const char *const texts[] = {"held", "seen", "done", "refused"};
    return texts[(unsigned)word & 3];
}

/* ---- The thirteen calls. ---- */

enum tickbutton_call {
    TICKBUTTON_ENTER = 1,    /* the process is listed; argument: its user, 0 for root */
    TICKBUTTON_FORK = 2,     /* a child is listed with copies of the holds; argument: the child */
    TICKBUTTON_EXEC = 3,     /* the process lets go of its holds */
    TICKBUTTON_EXIT = 4,     /* the process lets go of its holds and is listed no more */
    TICKBUTTON_CHECK = 5,    /* path 1 is looked up and held, a link at its end followed */
    TICKBUTTON_LOOK = 6,     /* path 1 is looked up and held, a link at its end not followed */
    TICKBUTTON_USE = 7,      /* as check, but something must be there */
    TICKBUTTON_CREATE = 8,   /* a new file at path 1 */
    TICKBUTTON_MKDIR = 9,    /* a new directory at path 1 */
    TICKBUTTON_SYMLINK = 10, /* a new link at path 1; path 2: its target */
    TICKBUTTON_LINK = 11,    /* a new name at path 1; path 2: the old path of a file or link */
    TICKBUTTON_UNLINK = 12,  /* the name of a file or link is removed */
    TICKBUTTON_RMDIR = 13    /* an empty directory is removed */
};

/* Packs a call and serves it over the 8,512 words: the answer of serving, or that of packing where packing refuses. The paths are texts, "" for one that
 * the call has not. */
static inline uint64_t tickbutton_ask(uint32_t *words, enum tickbutton_call call, uint16_t process, uint16_t argument, const char *path1,
                                      const char *path2) {
    uint8_t record[TICKBUTTON_LONGEST_RECORD];
    uint64_t packed = tickbutton_pack(call, process, argument, (const uint8_t *)path1, strlen(path1), (const uint8_t *)path2, strlen(path2), record,
                                      sizeof record);
    return tickbutton_word(packed) == TICKBUTTON_DONE ? tickbutton_serve(words, TICKBUTTON_WORDS, record, tickbutton_number(packed)) : packed;
}

/* ---- Why a call was refused; docs/SUPPORT.md says what to do. ---- */

enum tickbutton_refusal {
    TICKBUTTON_UNSOUND = 1,           /* the slice has not 8,512 words, or its tables are not sound */
    TICKBUTTON_BAD_FIELD = 2,         /* there is no such call, process or child, or what the call does not take is not 0 */
    TICKBUTTON_BAD_PATH = 3,          /* path 1 or path 2 is not valid */
    TICKBUTTON_NOT_LISTED = 4,        /* calls 2 to 13: the process is not listed */
    TICKBUTTON_ALREADY_LISTED = 5,    /* calls 1 and 2: the process or child is listed already */
    TICKBUTTON_NO_PROCESS_ROW = 6,    /* calls 1 and 2: the 64 process rows are all used */
    TICKBUTTON_NINTH_LINK = 7,        /* the path leads through a ninth link */
    TICKBUTTON_NAME_MISSING = 8,      /* nothing is at a name that more names follow */
    TICKBUTTON_NAME_IS_FILE = 9,      /* a file is at a name that more names follow */
    TICKBUTTON_ABSENT = 10,           /* what is to be used, removed or linked is absent */
    TICKBUTTON_PRESENT = 11,          /* what is to be made is there already, or is `/` */
    TICKBUTTON_WRONG_KIND = 12,       /* unlink and link take no directory, and rmdir takes nothing else; nor does it take `/` */
    TICKBUTTON_NOT_EMPTY = 13,        /* rmdir of a directory with entries */
    TICKBUTTON_HELD_BY_ANOTHER = 14,  /* creation or removal where another user has a hold */
    TICKBUTTON_NO_NAME_ROW = 15,      /* the 512 entry rows or the 256 nodes are all used */
    TICKBUTTON_NO_HOLD_ROW = 16,      /* fewer of the 256 hold rows are free than the call needs */
    TICKBUTTON_SHORT_RECORD = 17,     /* there are fewer bytes than the record has */
    TICKBUTTON_SHORT_DESTINATION = 18 /* packing only: the destination is shorter than the record */
};

/* The short text of a refusal's number. */
static inline const char *tickbutton_reason(uint32_t number) {
    switch (number) {
    case TICKBUTTON_UNSOUND: return "the tables are damaged";
    case TICKBUTTON_BAD_FIELD: return "a number in the call is not allowed";
    case TICKBUTTON_BAD_PATH: return "a path is not written as paths must be";
    case TICKBUTTON_NOT_LISTED: return "the process is not listed";
    case TICKBUTTON_ALREADY_LISTED: return "the process is listed already";
    case TICKBUTTON_NO_PROCESS_ROW: return "there is no room for another process";
    case TICKBUTTON_NINTH_LINK: return "the path leads through more than 8 links";
    case TICKBUTTON_NAME_MISSING: return "a name on the way is missing";
    case TICKBUTTON_NAME_IS_FILE: return "a name on the way is a file";
    case TICKBUTTON_ABSENT: return "there is nothing by that name";
    case TICKBUTTON_PRESENT: return "the name is taken already";
    case TICKBUTTON_WRONG_KIND: return "what is there is not of the kind that the call takes";
    case TICKBUTTON_NOT_EMPTY: return "the directory is not empty";
    case TICKBUTTON_HELD_BY_ANOTHER: return "another user holds the name";
    case TICKBUTTON_NO_NAME_ROW: return "there is no room for another name";
    case TICKBUTTON_NO_HOLD_ROW: return "there is no room for another hold";
    case TICKBUTTON_SHORT_RECORD: return "the record is cut off";
    case TICKBUTTON_SHORT_DESTINATION: return "the record does not fit where it should go";
    default: return "no refusal has this number";
    }
}

#ifdef __cplusplus
}
#endif

#endif
