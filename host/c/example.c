/* Checks a pattern for Lua 5.4, and says why it is refused. */
#include "luck.h"
#include <stdio.h>
#include <string.h>

int main(int argc, char **argv)
{
    if (argc != 2) {
        fputs("usage: example PATTERN\n", stderr);
        return 2;
    }
    luck_answer answer = luck_check_pattern(LUCK_LUA_54, (const uint8_t *)argv[1], strlen(argv[1]));
    const char *why = "not UTF-8";
    switch (answer.number) {
    case LUCK_ACCEPTED: printf("accepted, captures: %zu\n", answer.count); return 0;
    case LUCK_TRUNCATED_SPECIFIER: why = "it ends inside an escape"; break;
    case LUCK_UNTERMINATED_SET: case LUCK_EMPTY_SET: why = "a set without its closing ]"; break;
    case LUCK_BAD_ESCAPE: why = "%f without a set"; break;
    case LUCK_UNMATCHED_CAPTURE: why = "a ( or ) without the other"; break;
    case LUCK_TOO_MANY_CAPTURES: why = "more than 32 captures"; break;
    case LUCK_BAD_BACK_REFERENCE: why = "a capture that is not closed"; break;
    case LUCK_REVERSED_RANGE: why = "a range that holds no byte"; break;
    }
    printf("refused at byte %zu: %s\n", answer.offset, why);
    return 1;
}
