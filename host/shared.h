/* What the programs of host/ share: the words of the command line, the file of a sheet, and what a refusal means. */
#ifndef SHARED_H
#define SHARED_H

#include "tamulehk.h"

#include <stdbool.h>

/* As much of a sheet's file as can matter; not on the stack, which the calls need. */
extern uint8_t sheet[TAMULEHK_ENOUGH];

/* Whether so many bytes, one at least, are all decimal digits. */
bool are_digits(const char *bytes, size_t length);

/* A whole number from 0 to 2^64 - 1, in so many decimal digits and nothing else. */
bool whole_number(const char *digits, size_t length, uint64_t *number);

/* The same of a word. */
bool whole_word(const char *word, uint64_t *number);

/* The first bytes of a file into sheet, at most TAMULEHK_ENOUGH. */
bool read_sheet(const char *name, size_t *length);

/* What a refusal by 1 to 10 means. */
const char *meaning(uint32_t number);

#endif
