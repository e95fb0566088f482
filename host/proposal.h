/* Another engine's plan or circuit, as a text in the layout in which the report prints its own. */
#ifndef PROPOSAL_H
#define PROPOSAL_H

#include <stdbool.h>
#include <stddef.h>
#include <stdint.h>

struct proposal {
    bool is_plan;      /* else a circuit */
    size_t lines;      /* behind the heading */
    size_t width;      /* numbers to a line, the same for all; 0 where there is no line */
    int64_t *numbers;  /* lines * width of them: times, or the four numbers of each arc, from 0 to 255 */
};

/* What is wrong with a text that is no proposal. */
struct fault {
    size_t line; /* counted from 1 */
    char what[120];
};

/* The line of the text, counted from 1, on which the line at an index from 0 behind the heading stands. */
size_t line_at(size_t index);

/* Says what is wrong with a line, and false. */
bool faulty(struct fault *fault, size_t line, const char *format, ...);

/* Reads a text of so many bytes, whatever they are.
 *
 *   plan [Q [ROUNDS]]              then for each position a line of times, each in whole steps of 1/Q
 *   low|high|first|second|circuit [COUNT]   then for each arc a line of four numbers: kind, position, to, from
 *
 * Words are parted by blanks, and empty lines may follow. q is what Q has to be, where it is given. Times and the numbers of arcs may be of
 * any size: a time past 64 bits becomes the outermost of 64 bits on its side, and an arc's number outside 0 to 255 becomes 255.
 *
 * Where the text is a proposal, numbers has to be freed. Where there is no memory for it, errno tells and fault has no line.
 */
bool read_proposal(const char *text, size_t length, uint64_t q, struct proposal *proposal, struct fault *fault);

#endif
