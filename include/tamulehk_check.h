/* Does another engine's answer hold for a sheet? The calls for C and C++, proved in crates/checker and built by `.ci/archive checker`.
 *
 * Words and numbers are those of document 01, "Exact scope and rules", and of request E2 in document 02, which gives 11; 102 to 107 are
 * this project's own choice (docs/DECISIONS.md).
 */
#ifndef TAMULEHK_CHECK_H
#define TAMULEHK_CHECK_H

#include "tamulehk.h" /* the numbers 0 to 8 and 10, and TAMULEHK_ENOUGH */

#ifdef __cplusplus
extern "C" {
#endif

/* What the calls answer. Numbers 1 to 8 judge the sheet and come first, with one value: the byte place, from 0, where it is bad. Then 10
 * judges p and q, and 11 what is proposed. All others judge the proposal itself, and TAMULEHK_ACCEPTED says that it holds. */
#define TAMULEHK_PROPOSAL      11u   /* fewer times than needed, one of them past its limit, or arcs that are none or not whole */
#define TAMULEHK_BROKEN        102u  /* the times break a window; values: position, kind, to, from of the first */
#define TAMULEHK_BAD_ARC       103u  /* an arc's window is not in the sheet, or it does not leave where the arc before arrived; value: the index
                                        of the first, from 0 */
#define TAMULEHK_NOT_CLOSED    104u  /* the last arc does not arrive where the first one leaves */
#define TAMULEHK_LEFT_TWICE    105u  /* a node is left twice */
#define TAMULEHK_NOT_SMALLEST  106u  /* the first arc does not leave the smallest node */
#define TAMULEHK_NOT_ABOVE     107u  /* the total is not above zero */

/* No proposed time may be later, nor earlier than as much below zero. */
#define TAMULEHK_LATEST INT64_C(382000000000)

/* No answer comes with more values. */
#define TAMULEHK_VALUES 4u

/* Stack that a call uses, in bytes, at most. */
#define TAMULEHK_CHECK_STACK 24576u

/* Do these times keep every window of the sheet at the cycle time p/q? TAMULEHK_ACCEPTED says that they do, and so that it works.
 *
 * sheet   the bytes of a sheet file, length of them; any number of them, all readable
 * p, q    the cycle time, p from 0 to 1,000,000,000 and q from 1 to 1,000; p/q need not be in lowest terms
 * times   the proposed times in whole steps of 1/q, count of them: event by event, position by position. They may be negative, and need
 *         neither start at zero nor be the earliest. The first V*n are judged, and none behind them is read
 * values  where the values of the answer go, room places of them: to the front, as far as it reaches. All other places stay as they are
 *
 * A pointer may be null where its count is 0. What values points to may not overlap what is lent to be read.
 *
 * It returns one of the numbers named here or in tamulehk.h, never TAMULEHK_REFUTED. The answer follows from the bytes, p, q and the times
 * alone. The call alters nothing that is lent but values, and keeps no pointer to it; it takes no heap, has no state, reads no file and no
 * clock, and always returns. So it may be called from many threads at once, each with TAMULEHK_CHECK_STACK bytes of stack left. From the C
 * library it needs memcpy and memset.
 */
uint32_t tamulehk_check_times(const uint8_t *sheet, size_t length, uint64_t p, uint64_t q, const int64_t *times, size_t count,
                              uint64_t *values, size_t room);

/* Do these arcs show that the cycle time p/q does not work for the sheet? TAMULEHK_ACCEPTED says that they do, and so that it does NOT work.
 *
 * arcs    four numbers to an arc, kind, position, to, from; count numbers, any that a byte holds
 *
 * All else is as above.
 */
uint32_t tamulehk_check_arcs(const uint8_t *sheet, size_t length, uint64_t p, uint64_t q, const uint8_t *arcs, size_t count,
                             uint64_t *values, size_t room);

#ifdef __cplusplus
}
#endif

#endif
