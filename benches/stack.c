/* The stack that each function of the archive takes, in bytes: each runs on a stack of TICKBUTTON_STACK bytes and no more, painted before (in a context of
 * its own: a thread cannot have so little on every machine), and told is how far down the paint is gone, counted from the frame that calls. The tables have
 * the deepest walks: a link is followed within the walk of the target before, eight of them one within the other, and a ninth is refused there; behind eight
 * links names are made and removed. Fails where a function takes more than MOST, or writes below its stack. benches/run stack builds and runs it. */
#define _XOPEN_SOURCE 700
#include <stdio.h>
#include <stdlib.h>
#include <string.h>
#include <ucontext.h>

#include "tickbutton.h"

enum {
    MOST = 24 * 1024, /* bytes that a function may take: a quarter of the stack is its caller's */
    BELOW = 16 * 1024, /* bytes under the stack that have to keep their paint */
    PAINT = 0xA5,
    PATH_NAMES = TICKBUTTON_LONGEST_PATH / 2,
    TARGET_NAMES = TICKBUTTON_LONGEST_TARGET / 2
};

static uint8_t memory[BELOW + TICKBUTTON_STACK] __attribute__((aligned(4096)));
static const uint8_t *frame;
static uint32_t words[TICKBUTTON_WORDS], other_words[TICKBUTTON_WORDS];
static uint32_t goal[TICKBUTTON_GOAL], fields[TICKBUTTON_FIELDS];
static uint64_t answers[1], taken[1];
static char deepest[TICKBUTTON_LONGEST_PATH + 1], file[TICKBUTTON_LONGEST_PATH + 1], twin[TICKBUTTON_LONGEST_PATH + 1];
static uint8_t record[TICKBUTTON_LONGEST_RECORD], other_record[TICKBUTTON_LONGEST_RECORD];
static size_t length;

/* A path of so many names, all of them `a` but the last. */
static const char *path_of(char *path, int names, char last) {
    for (int place = 0; place < names; place++)
        memcpy(path + 2 * place, "/a", 2);
    path[2 * names - 1] = last;
    path[2 * names] = 0;
    return path;
}

/* Packs a call of process 1; ends the program where that is refused. */
static void pack_call(enum tickbutton_call call, const char *path1, const char *path2) {
    const uint64_t answer = tickbutton_pack(call, 1, 0, (const uint8_t *)path1, strlen(path1), (const uint8_t *)path2, strlen(path2), record, sizeof record);
    if (tickbutton_word(answer) == TICKBUTTON_REFUSED)
        exit(2);
    length = tickbutton_number(answer);
}

/* Makes a call of process 1, which is root's and lets go of its holds afterwards; ends the program where it is refused. */
static void make_call(enum tickbutton_call call, const char *path1, const char *path2) {
    if (tickbutton_word(tickbutton_ask(words, call, 1, 0, path1, path2)) == TICKBUTTON_REFUSED)
        exit(2);
    tickbutton_ask(words, TICKBUTTON_EXEC, 1, 0, "", "");
}

/* Directories one within the other; the first link at the end of the path, each further one where the target before it ends. Behind the ninth, and so
 * behind eight from the second on, is a directory. */
static void make_tables(void) {
    char path[TICKBUTTON_LONGEST_PATH + 1], target[TICKBUTTON_LONGEST_PATH + 1];
    tickbutton_fresh(words, TICKBUTTON_WORDS);
    make_call(TICKBUTTON_ENTER, "", "");
    for (int names = 1; names < PATH_NAMES; names++)
        make_call(TICKBUTTON_MKDIR, path_of(path, names, 'a'), "");
    make_call(TICKBUTTON_SYMLINK, path_of(deepest, PATH_NAMES, 'l'), path_of(target, TARGET_NAMES, 'b'));
    for (char link = 'b'; link <= 'a' + TICKBUTTON_MOST_LINKS; link++)
        make_call(TICKBUTTON_SYMLINK, path_of(path, TARGET_NAMES, link), path_of(target, TARGET_NAMES, (char)(link + 1)));
    make_call(TICKBUTTON_MKDIR, target, "");
    strcat(strcpy(file, path_of(path, TARGET_NAMES, 'b')), "/f");
    strcat(strcpy(twin, path), "/t");
}

static uint64_t fresh(void) { return tickbutton_fresh(other_words, TICKBUTTON_WORDS); }

static uint64_t sound(void) { return tickbutton_sound(words, TICKBUTTON_WORDS); }

static uint64_t walk(void) { return tickbutton_walk(words, TICKBUTTON_WORDS, (const uint8_t *)deepest, strlen(deepest), true, goal); }

static uint64_t read_record(void) { return tickbutton_read(record, length, fields); }

static uint64_t pack(void) {
    return tickbutton_pack(TICKBUTTON_LINK, 1, 0, (const uint8_t *)deepest, strlen(deepest), (const uint8_t *)deepest, strlen(deepest), other_record,
                           sizeof other_record);
}

static uint64_t serve(void) { return tickbutton_serve(words, TICKBUTTON_WORDS, record, length); }

static uint64_t serve_run(void) {
    tickbutton_serve_run(words, TICKBUTTON_WORDS, record, length, answers, 1, taken);
    return answers[0];
}

/* What is measured, with the record of which call, and the answer that shows that it went all the way. */
static const struct measured {
    const char *name;
    uint64_t (*run)(void);
    enum tickbutton_call call;
    const char *path1, *path2;
    enum tickbutton_word word;
} all[] = {
    {"fresh", fresh, TICKBUTTON_EXEC, "", "", TICKBUTTON_DONE},
    {"sound", sound, TICKBUTTON_EXEC, "", "", TICKBUTTON_DONE},
    {"pack", pack, TICKBUTTON_EXEC, "", "", TICKBUTTON_DONE},
    {"read", read_record, TICKBUTTON_LINK, deepest, deepest, TICKBUTTON_DONE},
    {"walk, a ninth link refused", walk, TICKBUTTON_EXEC, "", "", TICKBUTTON_REFUSED},
    {"serve a check, a ninth link refused", serve, TICKBUTTON_CHECK, deepest, "", TICKBUTTON_REFUSED},
    {"serve_run of a check, a ninth link refused", serve_run, TICKBUTTON_CHECK, deepest, "", TICKBUTTON_REFUSED},
    {"serve_run of a create behind eight links", serve_run, TICKBUTTON_CREATE, file, "", TICKBUTTON_DONE},
    {"serve_run of a use behind eight links", serve_run, TICKBUTTON_USE, file, "", TICKBUTTON_HELD},
    {"serve_run of a link, both paths behind eight links", serve_run, TICKBUTTON_LINK, twin, file, TICKBUTTON_DONE},
    {"serve_run of an unlink behind eight links", serve_run, TICKBUTTON_UNLINK, file, "", TICKBUTTON_DONE},
    {"serve_run of a mkdir behind eight links", serve_run, TICKBUTTON_MKDIR, file, "", TICKBUTTON_DONE},
    {"serve_run of an rmdir behind eight links", serve_run, TICKBUTTON_RMDIR, file, "", TICKBUTTON_DONE},
};
static const struct measured *measured_now;

/* Runs the one that is measured now and remembers the frame from which it was called. */
static void on_stack(void) {
    frame = (const uint8_t *)__builtin_frame_address(0);
    if (tickbutton_word(measured_now->run()) != measured_now->word)
        exit(2);
}

/* Runs it on the painted stack. */
static void run_there(void) {
    static ucontext_t caller, callee;
    if (getcontext(&callee) != 0)
        exit(2);
    callee.uc_stack.ss_sp = memory + BELOW;
    callee.uc_stack.ss_size = TICKBUTTON_STACK;
    callee.uc_link = &caller;
    makecontext(&callee, on_stack, 0);
    if (swapcontext(&caller, &callee) != 0)
        exit(2);
}

/* The bytes that one of them takes below that frame. */
static size_t bytes_of(const struct measured *one) {
    size_t lowest = 0;
    pack_call(one->call, one->path1, one->path2);
    memset(memory, PAINT, sizeof memory);
    measured_now = one;
    run_there();
    while (memory[lowest] == PAINT)
        lowest++;
    if (lowest < BELOW) {
        printf("%s writes below a stack of %d bytes\n", one->name, (int)TICKBUTTON_STACK);
        exit(1);
    }
    return (size_t)(frame - (memory + lowest));
}

int main(void) {
    int enough = 1;
    make_tables();
    puts("| what | bytes of stack |\n|---|---|");
    for (size_t place = 0; place < sizeof all / sizeof *all; place++) {
        const size_t bytes = bytes_of(&all[place]);
        printf("| %s | %zu |\n", all[place].name, bytes);
        enough &= bytes <= MOST;
    }
    if (!enough)
        printf("more than %d bytes\n", (int)MOST);
    return !enough;
}
