/* The header and the calls as a C program and as a C++ program see them; ends with the number of the line that does not hold. */
#include "tamulehk_check.h"

#define HOLDS(fact) \
    if (!(fact))    \
    return __LINE__

int main(void)
{
    /* document 01's first sheet: one event, again after 5 to 8 */
    const uint8_t first[] = {1, 1, 1, 1, 0, 2, 2, 1, 1, 10, 3, 1, 1, 16};
    const int64_t time[] = {-TAMULEHK_LATEST}, late[] = {TAMULEHK_LATEST + 1};
    const uint8_t low[] = {2, 1, 1, 1}, twice[] = {2, 1, 1, 1, 2, 1, 1, 1}, absent[] = {2, 1, 1, 1, 0, 1, 1, 1};
    uint64_t values[TAMULEHK_VALUES] = {7, 7, 7, 7};

    HOLDS(tamulehk_check_times(first, sizeof first, 5, 1, time, 1, values, TAMULEHK_VALUES) == TAMULEHK_ACCEPTED);
    HOLDS(tamulehk_check_times(first, sizeof first, 5, 1, late, 1, values, TAMULEHK_VALUES) == TAMULEHK_PROPOSAL);
    HOLDS(tamulehk_check_times(first, sizeof first, 5, 0, late, 1, values, TAMULEHK_VALUES) == TAMULEHK_CYCLE_TIME);
    HOLDS(tamulehk_check_arcs(first, sizeof first, 4, 1, low, sizeof low, values, TAMULEHK_VALUES) == TAMULEHK_ACCEPTED);
    HOLDS(tamulehk_check_arcs(first, sizeof first, 5, 1, low, sizeof low, values, TAMULEHK_VALUES) == TAMULEHK_NOT_ABOVE);
    HOLDS(tamulehk_check_arcs(first, sizeof first, 4, 1, twice, sizeof twice, values, TAMULEHK_VALUES) == TAMULEHK_LEFT_TWICE);
    HOLDS(tamulehk_check_arcs(first, sizeof first, 4, 1, low, 3, values, TAMULEHK_VALUES) == TAMULEHK_PROPOSAL);
    HOLDS(values[0] == 7 && values[1] == 7 && values[2] == 7 && values[3] == 7);

    /* values: as many as there are, or as there is room for */
    HOLDS(tamulehk_check_arcs(first, sizeof first, 4, 1, absent, sizeof absent, values, TAMULEHK_VALUES) == TAMULEHK_BAD_ARC);
    HOLDS(values[0] == 1 && values[1] == 7);
    HOLDS(tamulehk_check_times(first, sizeof first, 4, 1, time, 1, values, 3) == TAMULEHK_BROKEN);
    HOLDS(values[0] == 1 && values[1] == 2 && values[2] == 1 && values[3] == 7);
    HOLDS(tamulehk_check_times(first, sizeof first - 1, 4, 1, time, 1, values, 1) == TAMULEHK_STOPS);
    HOLDS(values[0] == sizeof first - 1 && values[1] == 2);

    /* nothing lent: any pointer will do */
    HOLDS(tamulehk_check_times(NULL, 0, 5, 1, NULL, 0, NULL, 0) == TAMULEHK_STOPS);
    HOLDS(tamulehk_check_arcs(NULL, 0, 5, 1, NULL, 0, NULL, 0) == TAMULEHK_STOPS);
    HOLDS(tamulehk_check_times(first, sizeof first, 5, 1, NULL, 0, NULL, 0) == TAMULEHK_PROPOSAL);
    HOLDS(tamulehk_check_arcs(first, sizeof first, 5, 1, NULL, 0, NULL, 0) == TAMULEHK_PROPOSAL);
    return 0;
}
