/* verdict FILE P Q: does the cycle time P/Q work for the sheet in FILE?
 *
 * One line on standard output, and the exit status: 0 accepted, 1 refuted, 3 refused. Where there is nothing to judge, it says on standard
 * error what is wrong and ends with 2.
 */
#include "shared.h"

#include <errno.h>
#include <inttypes.h>
#include <stdio.h>
#include <string.h>

enum { ACCEPTED = 0, REFUTED = 1, TROUBLE = 2, REFUSED = 3 };

static int say(uint32_t number)
{
    switch (number) {
    case TAMULEHK_ACCEPTED:
        printf("accepted %" PRIu32 ": the cycle time works\n", number);
        return ACCEPTED;
    case TAMULEHK_REFUTED:
        printf("refuted %" PRIu32 ": the cycle time does not work\n", number);
        return REFUTED;
    default:
        printf("refused %" PRIu32 ": %s\n", number, meaning(number));
        return REFUSED;
    }
}

static int usage(const char *what, const char *word)
{
    fprintf(stderr, "verdict: %s%s\nusage: verdict FILE P Q   (P and Q whole numbers from 0 to 2^64 - 1)\n", what, word);
    return TROUBLE;
}

int main(int count, char **words)
{
    uint64_t p, q;
    size_t length;
    int status;

    if (count != 4)
        return usage("give a sheet file, P and Q", "");
    if (!whole_word(words[2], &p))
        return usage("P is no such number: ", words[2]);
    if (!whole_word(words[3], &q))
        return usage("Q is no such number: ", words[3]);
    if (!read_sheet(words[1], &length)) {
        fprintf(stderr, "verdict: cannot read %s: %s\n", words[1], strerror(errno));
        return TROUBLE;
    }
    status = say(tamulehk_ask(sheet, length, p, q));
    if (fflush(stdout) != 0) {
        fprintf(stderr, "verdict: standard output: %s\n", strerror(errno));
        return TROUBLE;
    }
    return status;
}
