/* The header and the call as a C program and as a C++ program see them; ends with the number of the line that does not hold. */
#include "tamulehk.h"

#define HOLDS(fact) \
    if (!(fact))    \
    return __LINE__

int main(void)
{
    /* document 01's first sheet */
    const uint8_t first[] = {1, 1, 1, 1, 0, 2, 2, 1, 1, 10, 3, 1, 1, 16};

    HOLDS(tamulehk_ask(first, sizeof first, 5, 1) == TAMULEHK_ACCEPTED);
    HOLDS(tamulehk_ask(first, sizeof first, 4, 1) == TAMULEHK_REFUTED);
    HOLDS(tamulehk_ask(first, sizeof first, 4, 0) == TAMULEHK_CYCLE_TIME);
    /* no bytes: any pointer will do */
    HOLDS(tamulehk_ask(first, 0, 5, 1) == TAMULEHK_STOPS);
    HOLDS(tamulehk_ask(NULL, 0, 5, 1) == TAMULEHK_STOPS);
    HOLDS(tamulehk_ask(NULL, 0, 5, 0) == TAMULEHK_STOPS);
    return 0;
}
