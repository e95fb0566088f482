#include "proposal.h"

#include "shared.h"

#include <inttypes.h>
#include <stdarg.h>
#include <stdio.h>
#include <stdlib.h>
#include <string.h>

enum { HEADING = 1, ARC = 4, GREATEST_BYTE = 255 };

/* What is left of a text. */
struct rest {
    const char *at;
    const char *end;
};

struct word {
    const char *start;
    size_t length;
};

size_t line_at(size_t index)
{
    return HEADING + 1 + index;
}

bool faulty(struct fault *fault, size_t line, const char *format, ...)
{
    va_list values;

    fault->line = line;
    va_start(values, format);
    vsnprintf(fault->what, sizeof fault->what, format, values);
    va_end(values);
    return false;
}

/* Lines may end in a carriage return and a line feed. */
static bool is_blank(char byte)
{
    return byte == ' ' || byte == '\t' || byte == '\r';
}

/* Takes the next word of the line, if there is one. */
static bool next_word(struct rest *rest, struct word *word)
{
    while (rest->at < rest->end && is_blank(*rest->at))
        rest->at++;
    word->start = rest->at;
    while (rest->at < rest->end && !is_blank(*rest->at) && *rest->at != '\n')
        rest->at++;
    word->length = (size_t)(rest->at - word->start);
    return word->length > 0;
}

/* Takes the line feed that a line ends in; the last line may have none. */
static void end_line(struct rest *rest)
{
    if (rest->at < rest->end)
        rest->at++;
}

/* Whether only empty lines are left. */
static bool is_done(struct rest rest)
{
    while (rest.at < rest.end && (is_blank(*rest.at) || *rest.at == '\n'))
        rest.at++;
    return rest.at == rest.end;
}

static bool is(struct word word, const char *name)
{
    return word.length == strlen(name) && memcmp(word.start, name, word.length) == 0;
}

/* A whole number: digits, with a minus sign before them where it is negative. One past 64 bits is a number all the same, and a wrong one: it
 * becomes the outermost of 64 bits on its side, so that the call refuses it as it does every time beyond the limit. */
static bool signed_number(struct word word, int64_t *number)
{
    bool is_negative = word.start[0] == '-';
    const char *digits = word.start + is_negative;
    size_t length = word.length - is_negative;
    uint64_t most = (uint64_t)INT64_MAX + is_negative;
    uint64_t size;

    if (!are_digits(digits, length))
        return false;
    if (!whole_number(digits, length, &size) || size > most)
        size = most;
    if (is_negative && size > 0)
        *number = -(int64_t)(size - 1) - 1;
    else
        *number = (int64_t)size;
    return true;
}

/* A number of an arc as the call takes it. One that no byte holds becomes 255, which is never a kind, a position or an event either, so that
 * the call names the arc as a bad one. */
static int64_t as_byte(int64_t number)
{
    return number >= 0 && number < GREATEST_BYTE ? number : GREATEST_BYTE;
}

static bool is_circuit(struct word name)
{
    return is(name, "circuit") || is(name, "low") || is(name, "high") || is(name, "first") || is(name, "second");
}

/* The words behind "plan". */
static bool read_plan_heading(struct rest *rest, uint64_t q, struct fault *fault)
{
    struct word word;
    uint64_t number;

    if (!next_word(rest, &word))
        return true;
    if (!whole_number(word.start, word.length, &number))
        return faulty(fault, HEADING, "the Q of the plan is no whole number of 64 bits");
    if (number != q)
        return faulty(fault, HEADING, "the plan is in steps of 1/%" PRIu64 ", and Q is %" PRIu64, number, q);
    if (!next_word(rest, &word))
        return true;
    if (!are_digits(word.start, word.length))
        return faulty(fault, HEADING, "the rounds of the plan are no whole number");
    if (next_word(rest, &word))
        return faulty(fault, HEADING, "more words than plan, Q and rounds");
    return true;
}

/* The word behind the name of a circuit. */
static bool read_circuit_heading(struct rest *rest, bool *has_count, uint64_t *count, struct fault *fault)
{
    struct word word;

    *has_count = next_word(rest, &word);
    if (*has_count && !whole_number(word.start, word.length, count))
        return faulty(fault, HEADING, "the count of arcs is no whole number of 64 bits");
    if (next_word(rest, &word))
        return faulty(fault, HEADING, "more words than the circuit's name and a count");
    return true;
}

/* The numbers of a line, put behind those that are there. */
static bool read_line(struct rest *rest, struct proposal *proposal, struct fault *fault)
{
    int64_t *numbers = proposal->numbers + proposal->lines * proposal->width;
    size_t line = line_at(proposal->lines), count = 0;
    struct word word;

    for (; next_word(rest, &word); count++) {
        if (!signed_number(word, &numbers[count]))
            return faulty(fault, line, "word %zu is no whole number", count + 1);
        if (!proposal->is_plan)
            numbers[count] = as_byte(numbers[count]);
    }
    end_line(rest);
    if (!proposal->is_plan && count != ARC)
        return faulty(fault, line, "not four numbers, kind, position, to and from, but %zu", count);
    if (count == 0)
        return faulty(fault, line, "no times, and more lines behind");
    if (proposal->lines > 0 && count != proposal->width)
        return faulty(fault, line, "not as many times as in the line before: %zu, not %zu", count, proposal->width);
    proposal->width = count;
    proposal->lines++;
    return true;
}

static bool read_text(struct rest rest, uint64_t q, struct proposal *proposal, struct fault *fault)
{
    bool is_read, has_count = false;
    uint64_t count = 0;
    struct word name;

    next_word(&rest, &name);
    proposal->is_plan = is(name, "plan");
    if (proposal->is_plan)
        is_read = read_plan_heading(&rest, q, fault);
    else if (is_circuit(name))
        is_read = read_circuit_heading(&rest, &has_count, &count, fault);
    else
        is_read = faulty(fault, HEADING, "no heading: the first word is none of plan, circuit, low, high, first, second");
    if (!is_read)
        return false;
    end_line(&rest);
    while (!is_done(rest))
        if (!read_line(&rest, proposal, fault))
            return false;
    if (has_count && count != proposal->lines)
        return faulty(fault, HEADING, "not as many arcs as are counted: %zu, not %" PRIu64, proposal->lines, count);
    return true;
}

bool read_proposal(const char *text, size_t length, uint64_t q, struct proposal *proposal, struct fault *fault)
{
    struct rest rest = {text, text + length};

    fault->line = 0;
    proposal->lines = proposal->width = 0;
    /* a number takes a digit and what parts it from the next */
    proposal->numbers = calloc(length / 2 + 1, sizeof *proposal->numbers);
    if (proposal->numbers == NULL)
        return false;
    if (read_text(rest, q, proposal, fault))
        return true;
    free(proposal->numbers);
    return false;
}
