/* The fox in C: one user checks a name, another cannot make it. After `./archive`:
 *
 *     cc -Iinclude examples/fox.c target/staticlib/libexports.a -o fox && ./fox
 */
#include "tickbutton.h"
#include <stdio.h>
#include <stdlib.h>

/* The number of an answer that has this word; for any other the answer is told, and the program ends. */
static uint32_t expect(enum tickbutton_word word, uint64_t answer) {
    uint32_t number = tickbutton_number(answer);
    if (tickbutton_word(answer) == word)
        return number;
    fprintf(stderr, "not %s but %s %u\n", tickbutton_word_text(word), tickbutton_word_text(tickbutton_word(answer)), (unsigned)number);
    exit(1);
}

int main(void) {
    static uint32_t words[TICKBUTTON_WORDS];
    expect(TICKBUTTON_DONE, tickbutton_fresh(words, TICKBUTTON_WORDS));
    expect(TICKBUTTON_DONE, tickbutton_ask(words, TICKBUTTON_ENTER, 20, 500, "", ""));
    expect(TICKBUTTON_DONE, tickbutton_ask(words, TICKBUTTON_ENTER, 30, 600, "", ""));
    expect(TICKBUTTON_HELD, tickbutton_ask(words, TICKBUTTON_CHECK, 20, 0, "/fox", ""));
    uint32_t number = expect(TICKBUTTON_REFUSED, tickbutton_ask(words, TICKBUTTON_CREATE, 30, 0, "/fox", ""));
    printf("refused %u: %s\n", (unsigned)number, tickbutton_reason(number));
    return 0;
}
