/*
 * Prints the header's words for fates and for numbers, one on a line, as tests/words.txt has them: those that it knows,
 * and the first one that it does not know. Fails where a higher number has other words than that one. It links no
 * library. The bindings in Rust and Python are compared with the same file.
 */
#include <stdio.h>
#include <string.h>

#include "sinewhopa.h"

static int show(const char *what, const char *(*word)(uint8_t), int unknown)
{
    for (int number = 0; number < 256; number++) {
        const char *text = word((uint8_t)number);
        if (number <= unknown) {
            printf("%s %d: %s\n", what, number, text);
        } else if (strcmp(text, word((uint8_t)unknown)) != 0) {
            return 0;
        }
    }
    return 1;
}

int main(void)
{
    int same = show("fate", sinewhopa_fate_name, SINEWHOPA_FORCED + 1) &&
               show("number", sinewhopa_refusal_text, SINEWHOPA_BACKWARD + 1);
    return same && fflush(stdout) == 0 && !ferror(stdout) ? 0 : 1;
}
