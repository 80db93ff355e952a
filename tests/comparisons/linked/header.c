/* The functions as include/tickbutton.h declares them, each with answers that are known: run by tests/comparisons/linking under valgrind, with every slice in memory
 * of just its size. */
#include <stdio.h>
#include <stdlib.h>
#include <string.h>

#include "tickbutton.h"

static int wrong = 0;

/* Says where an answer is not the expected word, number and bytes taken. */
static void expect(const char *what, uint64_t answer, enum tickbutton_word word, uint32_t number, size_t taken) {
    if (tickbutton_word(answer) == word && tickbutton_number(answer) == number && tickbutton_taken(answer) == taken)
        return;
    printf("%s: %s %u, %zu bytes taken\n", what, tickbutton_word_text(tickbutton_word(answer)), (unsigned)tickbutton_number(answer),
           tickbutton_taken(answer));
    wrong = 1;
}

/* Memory of just so many bytes. */
static void *memory(size_t count) {
    void *found = malloc(count);
    if (found == NULL)
        exit(2);
    memset(found, 7, count);
    return found;
}

/* Document 01's record, the check of /in/fox by process 20: packed, read back, cut off, and with too little room. */
static void records(void) {
    static const uint8_t record[] = {0x28, 0x00, 0xA0, 0x00, 0x00, 0x38, 0x00, '/', 'i', 'n', '/', 'f', 'o', 'x'};
    static const uint32_t expected[TICKBUTTON_FIELDS] = {20, 0, 7, 7, 14, 0};
    const uint8_t *path = record + 7;
    uint8_t *packed = memory(sizeof record);
    uint32_t *fields = memory(TICKBUTTON_FIELDS * sizeof *fields);
    expect("pack, one byte short", tickbutton_pack(TICKBUTTON_CHECK, 20, 0, path, 7, path, 0, packed, 13), TICKBUTTON_REFUSED, 18, 0);
    expect("pack", tickbutton_pack(TICKBUTTON_CHECK, 20, 0, path, 7, path, 0, packed, 14), TICKBUTTON_DONE, 14, 0);
    wrong |= memcmp(packed, record, sizeof record) != 0;
    expect("read", tickbutton_read(packed, 14, fields), TICKBUTTON_DONE, TICKBUTTON_CHECK, 14);
    wrong |= memcmp(fields, expected, sizeof expected) != 0;
    expect("read, cut off", tickbutton_read(packed, 13, fields), TICKBUTTON_REFUSED, TICKBUTTON_SHORT_RECORD, 0);
    free(packed);
    free(fields);
}

/* Fresh tables, and an enter and a check of / served over them. */
static void service(void) {
    static const uint8_t enter[] = {0x08, 0x00, 0xA0, 0x0F, 0xA0, 0x00, 0x00};
    static const uint8_t check[] = {0x28, 0x00, 0xA0, 0x00, 0x00, 0x08, 0x00, '/'};
    uint32_t *words = memory(TICKBUTTON_WORDS * sizeof *words);
    expect("fresh, one word short", tickbutton_fresh(words, TICKBUTTON_WORDS - 1), TICKBUTTON_REFUSED, TICKBUTTON_UNSOUND, 0);
    expect("fresh", tickbutton_fresh(words, TICKBUTTON_WORDS), TICKBUTTON_DONE, 0, 0);
    expect("check, not listed", tickbutton_serve(words, TICKBUTTON_WORDS, check, sizeof check), TICKBUTTON_REFUSED, TICKBUTTON_NOT_LISTED, 8);
    expect("enter", tickbutton_serve(words, TICKBUTTON_WORDS, enter, sizeof enter), TICKBUTTON_DONE, 20, 7);
    wrong |= words[8448] != ((uint32_t)20 << 16 | 500);
    expect("check", tickbutton_serve(words, TICKBUTTON_WORDS, check, sizeof check), TICKBUTTON_HELD, 1, 8);
    expect("no byte", tickbutton_serve(words, TICKBUTTON_WORDS, check, 0), TICKBUTTON_REFUSED, TICKBUTTON_SHORT_RECORD, 0);
    free(words);
}

/* A run of an enter, a check of / and the front of a third record, over words that are no tables and over fresh tables, and the walks of / and of /fox. */
static void runs_and_walks(void) {
    static const uint8_t records[] = {0x08, 0x00, 0xA0, 0x0F, 0xA0, 0x00, 0x00, 0x28, 0x00, 0xA0, 0x00, 0x00, 0x08, 0x00, '/', 0x28};
    static const uint8_t path[] = {'/', 'f', 'o', 'x'};
    uint32_t *words = memory(TICKBUTTON_WORDS * sizeof *words);
    uint64_t *answers = memory(3 * sizeof *answers);
    uint32_t *goal = memory(TICKBUTTON_GOAL * sizeof *goal);
    uint64_t taken[1] = {0};
    const uint64_t behind = answers[2];
    expect("sound, any bits", tickbutton_sound(words, TICKBUTTON_WORDS), TICKBUTTON_REFUSED, TICKBUTTON_UNSOUND, 0);
    wrong |= tickbutton_serve_run(words, TICKBUTTON_WORDS, records, sizeof records, answers, 3, taken) != 2 || taken[0] != 15;
    expect("run, any bits, enter", answers[0], TICKBUTTON_REFUSED, TICKBUTTON_UNSOUND, 0);
    expect("run, any bits, check", answers[1], TICKBUTTON_REFUSED, TICKBUTTON_UNSOUND, 0);
    expect("fresh", tickbutton_fresh(words, TICKBUTTON_WORDS), TICKBUTTON_DONE, 0, 0);
    expect("sound", tickbutton_sound(words, TICKBUTTON_WORDS), TICKBUTTON_DONE, 0, 0);
    wrong |= tickbutton_serve_run(words, TICKBUTTON_WORDS, records, sizeof records, answers, 3, taken) != 2 || taken[0] != 15;
    expect("run, enter", answers[0], TICKBUTTON_DONE, 20, 0);
    expect("run, check", answers[1], TICKBUTTON_HELD, 1, 0);
    wrong |= answers[2] != behind;
    expect("walk, one word short", tickbutton_walk(words, TICKBUTTON_WORDS - 1, path, 4, true, goal), TICKBUTTON_REFUSED, TICKBUTTON_UNSOUND, 0);
    expect("walk to /", tickbutton_walk(words, TICKBUTTON_WORDS, path, 1, true, goal), TICKBUTTON_DONE, 1, 0);
    wrong |= goal[1] != 0;
    expect("walk to /fox", tickbutton_walk(words, TICKBUTTON_WORDS, path, 4, true, goal), TICKBUTTON_DONE, 0, 0);
    wrong |= goal[0] != 0 || goal[1] != 1 || goal[2] != 0x03666F78 || goal[3] != 0 || goal[4] != 0 || goal[5] != 0 || goal[6] != 0;
    free(words);
    free(answers);
    free(goal);
}

int main(void) {
    records();
    service();
    runs_and_walks();
    if (wrong)
        puts("the header's declarations do not fit the archive");
    return wrong;
}
