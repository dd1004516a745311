/* Prints why a packet is refused, by the names that ed2k.h has for the reason's values. The kind's number is the argument, the bytes
 * are standard input. The reason of other bytes than a packet's is not told. */
#include <inttypes.h>
#include <stdio.h>
#include <stdlib.h>

#include "ed2k.h"

static uint8_t bytes[1 << 20];

static void number(const char *name, uint64_t value)
{
    printf("%s %" PRIu64 "\n", name, value);
}

int main(int count, char **words)
{
    if (count != 2)
        return 2;
    uint8_t kind = (uint8_t)atoi(words[1]);
    size_t length = fread(bytes, 1, sizeof bytes, stdin);
    uint64_t why[ED2K_WHY_NUMBERS];
    uint8_t answer = ed2k_why(kind, bytes, length, why, ED2K_WHY_NUMBERS);
    if (answer != ED2K_ACCEPTED) {
        printf("no reason: %s\n", ed2k_meaning(answer));
        return 0;
    }
    number("answer", why[ED2K_WHY_ANSWER]);
    number("rule", why[ED2K_WHY_RULE]);
    number("offset", why[ED2K_WHY_OFFSET]);
    number("size", why[ED2K_WHY_SIZE]);
    puts(ed2k_rule_meaning(why[ED2K_WHY_RULE]));
    return 0;
}
