/* check SHEET P Q [PROPOSAL]: does another engine's plan or circuit hold for the sheet in SHEET at the cycle time P/Q?
 *
 * PROPOSAL is a text in the layout of the report (proposal.h), on standard input where it is not given. One line on standard output, and the
 * exit status: 0 accepted, 1 wrong, 3 refused. Where there is nothing to judge, it says on standard error what is wrong, and ends with 4
 * where the text is no proposal, else with 2.
 */
#include "proposal.h"
#include "shared.h"
#include "tamulehk_check.h"

#include <errno.h>
#include <inttypes.h>
#include <stdio.h>
#include <stdlib.h>
#include <string.h>

enum { ACCEPTED = 0, WRONG = 1, TROUBLE = 2, REFUSED = 3, NO_PROPOSAL = 4 };

/* The bytes of a sheet in which n and V stand, each alone in its byte. */
enum { EVENTS = 1, POSITIONS = 3 };

/* Reads a file to its end; the bytes have to be freed. */
static bool read_all(FILE *file, char **bytes, size_t *length)
{
    size_t room = 0;

    *bytes = NULL;
    *length = 0;
    do {
        if (*length == room) {
            size_t more = room == 0 ? 4096 : 2 * room;
            char *moved = more > room ? realloc(*bytes, more) : NULL;
            if (moved == NULL) {
                free(*bytes);
                errno = ENOMEM;
                return false;
            }
            *bytes = moved;
            room = more;
        }
        *length += fread(*bytes + *length, 1, room - *length, file);
    } while (!feof(file) && !ferror(file));
    if (ferror(file)) {
        int reason = errno;
        free(*bytes);
        errno = reason;
        return false;
    }
    return true;
}

/* The text of the proposal, from the file of this name, or from standard input where there is none. */
static bool read_text(const char *name, char **text, size_t *length)
{
    FILE *file = name == NULL ? stdin : fopen(name, "rb");
    bool is_read;

    if (file == NULL)
        return false;
    is_read = read_all(file, text, length);
    int reason = errno;
    if (name != NULL)
        fclose(file);
    errno = reason;
    return is_read;
}

/* What the sheet says of a proposal. */
static bool judge(size_t length, uint64_t p, uint64_t q, const struct proposal *proposal, uint32_t *number, uint64_t *values)
{
    size_t count = proposal->lines * proposal->width;
    uint8_t *arcs;

    if (proposal->is_plan) {
        *number = tamulehk_check_times(sheet, length, p, q, proposal->numbers, count, values, TAMULEHK_VALUES);
        return true;
    }
    arcs = malloc(count + 1);
    if (arcs == NULL)
        return false;
    for (size_t place = 0; place < count; place++)
        arcs[place] = (uint8_t)proposal->numbers[place];
    *number = tamulehk_check_arcs(sheet, length, p, q, arcs, count, values, TAMULEHK_VALUES);
    free(arcs);
    return true;
}

/* Whether the file was read as a sheet. */
static bool is_sheet(uint32_t number)
{
    return number < TAMULEHK_STOPS || number > TAMULEHK_SURPLUS;
}

/* Checks that a plan has the sheet's form, since in another every time would be taken for another event's. Too few lines are for the call to
 * refuse. */
static bool is_in_form(const struct proposal *proposal, struct fault *fault)
{
    size_t events = sheet[EVENTS], positions = sheet[POSITIONS];

    if (!proposal->is_plan || proposal->lines == 0)
        return true;
    if (proposal->width != events)
        return faulty(fault, line_at(0), "not as many times as the sheet has events: %zu, not %zu", proposal->width, events);
    if (proposal->lines > positions)
        return faulty(fault, line_at(positions), "more lines of times than the sheet has positions: %zu", positions);
    return true;
}

/* What a window of a kind says; its w stands in the sheet. */
static const char *saying(uint64_t kind)
{
    static const char *const kinds[] = {
        "\"to\" comes at least w after \"from\"",
        "\"to\" comes at most w after \"from\"",
        "\"to\" at the next position comes at least w after \"from\"",
        "\"to\" at the next position comes at most w after \"from\"",
    };
    return kind < sizeof kinds / sizeof *kinds ? kinds[kind] : "a kind that no window has";
}

/* What is wrong with a circuit as a whole. */
static const char *wrong_circuit(uint32_t number)
{
    switch (number) {
    case TAMULEHK_NOT_CLOSED:
        return "the last arc does not arrive where the first one leaves";
    case TAMULEHK_LEFT_TWICE:
        return "a node is left twice";
    case TAMULEHK_NOT_SMALLEST:
        return "the first arc does not leave the smallest node";
    default:
        return "the total is not above zero";
    }
}

static bool is_beyond(int64_t time)
{
    return time > TAMULEHK_LATEST || time < -TAMULEHK_LATEST;
}

/* Says for which of its causes a proposal in the sheet's form is refused by 11. */
static void say_refused(const struct proposal *proposal)
{
    size_t count = proposal->lines * proposal->width, needed = (size_t)sheet[EVENTS] * sheet[POSITIONS];
    size_t place = 0;

    printf("refused %u: ", TAMULEHK_PROPOSAL);
    if (!proposal->is_plan) {
        printf("no arcs\n");
    } else if (count < needed) {
        printf("fewer times than the sheet has events at all positions: %zu, not %zu\n", count, needed);
    } else {
        while (place + 1 < count && !is_beyond(proposal->numbers[place]))
            place++;
        printf("line %zu, word %zu: a time beyond 382,000,000,000 either way\n", line_at(place / proposal->width),
               place % proposal->width + 1);
    }
}

static int say(const struct proposal *proposal, uint32_t number, const uint64_t *values)
{
    switch (number) {
    case TAMULEHK_ACCEPTED:
        printf("accepted %" PRIu32 ": %s\n", number,
               proposal->is_plan ? "the plan keeps every window" : "the circuit shows that the cycle time does not work");
        return ACCEPTED;
    case TAMULEHK_BROKEN:
        printf("broken %" PRIu32 ": position %" PRIu64 ", kind %" PRIu64 ", to %" PRIu64 ", from %" PRIu64 ": the window says that %s\n", number,
               values[0], values[1], values[2], values[3], saying(values[1]));
        return WRONG;
    case TAMULEHK_BAD_ARC:
        printf("wrong %" PRIu32 ": index %" PRIu64 ", line %zu: %s\n", number, values[0], line_at((size_t)values[0]),
               "its window is not in the sheet, or it does not leave where the arc before arrived");
        return WRONG;
    case TAMULEHK_NOT_CLOSED:
    case TAMULEHK_LEFT_TWICE:
    case TAMULEHK_NOT_SMALLEST:
    case TAMULEHK_NOT_ABOVE:
        printf("wrong %" PRIu32 ": %s\n", number, wrong_circuit(number));
        return WRONG;
    case TAMULEHK_PROPOSAL:
        say_refused(proposal);
        return REFUSED;
    case TAMULEHK_CYCLE_TIME:
        printf("refused %" PRIu32 ": %s\n", number, meaning(number));
        return REFUSED;
    default:
        printf("refused %" PRIu32 ": byte %" PRIu64 ": %s\n", number, values[0], meaning(number));
        return REFUSED;
    }
}

static int usage(const char *what, const char *word)
{
    fprintf(stderr, "check: %s%s\nusage: check SHEET P Q [PROPOSAL]   (P and Q whole numbers from 0 to 2^64 - 1)\n", what, word);
    return TROUBLE;
}

static int trouble(const char *what, const char *name)
{
    fprintf(stderr, "check: %s%s: %s\n", what, name, strerror(errno));
    return TROUBLE;
}

/* What is said of a text, and the exit status. */
static int answer(size_t length, uint64_t p, uint64_t q, const char *name, const char *text, size_t text_length)
{
    uint64_t values[TAMULEHK_VALUES] = {0};
    struct proposal proposal;
    struct fault fault;
    uint32_t number;
    int status;

    if (!read_proposal(text, text_length, q, &proposal, &fault)) {
        if (fault.line == 0)
            return trouble("", name);
        fprintf(stderr, "check: %s, line %zu: %s\n", name, fault.line, fault.what);
        return NO_PROPOSAL;
    }
    if (!judge(length, p, q, &proposal, &number, values)) {
        status = trouble("", name);
    } else if (is_sheet(number) && !is_in_form(&proposal, &fault)) {
        fprintf(stderr, "check: %s, line %zu: %s\n", name, fault.line, fault.what);
        status = NO_PROPOSAL;
    } else {
        status = say(&proposal, number, values);
    }
    free(proposal.numbers);
    return status;
}

int main(int count, char **words)
{
    const char *name = count == 5 ? words[4] : NULL;
    uint64_t p, q;
    size_t length, text_length;
    char *text;
    int status;

    if (count != 4 && count != 5)
        return usage("give a sheet file, P and Q, and perhaps a proposal", "");
    if (!whole_word(words[2], &p))
        return usage("P is no such number: ", words[2]);
    if (!whole_word(words[3], &q))
        return usage("Q is no such number: ", words[3]);
    if (!read_sheet(words[1], &length))
        return trouble("cannot read ", words[1]);
    if (!read_text(name, &text, &text_length))
        return trouble("cannot read ", name == NULL ? "standard input" : name);
    status = answer(length, p, q, name == NULL ? "standard input" : name, text, text_length);
    free(text);
    if (fflush(stdout) != 0)
        return trouble("", "standard output");
    return status;
}
