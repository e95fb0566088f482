#include "shared.h"

#include <errno.h>
#include <stdio.h>
#include <string.h>

uint8_t sheet[TAMULEHK_ENOUGH];

bool are_digits(const char *bytes, size_t length)
{
    for (size_t place = 0; place < length; place++)
        if (bytes[place] < '0' || bytes[place] > '9')
            return false;
    return length > 0;
}

bool whole_number(const char *digits, size_t length, uint64_t *number)
{
    uint64_t value = 0;

    if (!are_digits(digits, length))
        return false;
    for (size_t place = 0; place < length; place++) {
        uint64_t digit = (uint64_t)(digits[place] - '0');
        if (value > (UINT64_MAX - digit) / 10)
            return false;
        value = value * 10 + digit;
    }
    *number = value;
    return true;
}

bool whole_word(const char *word, uint64_t *number)
{
    return whole_number(word, strlen(word), number);
}

bool read_sheet(const char *name, size_t *length)
{
    FILE *file = fopen(name, "rb");
    bool is_read;

    if (file == NULL)
        return false;
    *length = fread(sheet, 1, sizeof sheet, file);
    is_read = !ferror(file);
    int reason = errno;
    fclose(file);
    errno = reason;
    return is_read;
}

const char *meaning(uint32_t number)
{
    switch (number) {
    case TAMULEHK_STOPS:
        return "file stops before the sheet is complete";
    case TAMULEHK_NUMBER:
        return "number not shortest, or a fourth group marked as followed";
    case TAMULEHK_FORMAT:
        return "format number not 1";
    case TAMULEHK_SIZE:
        return "n, m or V past its limit";
    case TAMULEHK_SCHEDULE:
        return "schedule names a mode not below m";
    case TAMULEHK_WINDOW:
        return "count above 4*n*n, kind above 3, event not 1..n, or value past its limit";
    case TAMULEHK_ORDER:
        return "records not strictly rising";
    case TAMULEHK_SURPLUS:
        return "bytes after the sheet";
    case TAMULEHK_CYCLE_TIME:
        return "p or q past its limit";
    default:
        return "a number that no call answers";
    }
}
