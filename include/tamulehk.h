/* Does a cycle time work for a sheet? The call for C and C++, proved in crates/host and built by `.ci/archive host`.
 *
 * Words and numbers are those of document 01, "Exact scope and rules".
 */
#ifndef TAMULEHK_H
#define TAMULEHK_H

#include <stddef.h>
#include <stdint.h>

#ifdef __cplusplus
extern "C" {
#endif

/* What the call answers. Numbers 1 to 8 judge the sheet and come first; then 10 judges p and q. */
#define TAMULEHK_ACCEPTED    0u    /* accepted (tamulehk_ask): the cycle time works */
#define TAMULEHK_STOPS       1u    /* file stops before the sheet is complete */
#define TAMULEHK_NUMBER      2u    /* number not shortest, or a fourth group marked as followed */
#define TAMULEHK_FORMAT      3u    /* format number not 1 */
#define TAMULEHK_SIZE        4u    /* n, m or V past its limit */
#define TAMULEHK_SCHEDULE    5u    /* schedule names a mode not below m */
#define TAMULEHK_WINDOW      6u    /* count above 4*n*n, kind above 3, event not 1..n, or value past its limit */
#define TAMULEHK_ORDER       7u    /* records not strictly rising */
#define TAMULEHK_SURPLUS     8u    /* bytes after the sheet */
#define TAMULEHK_CYCLE_TIME  10u   /* p or q past its limit */
#define TAMULEHK_REFUTED     100u  /* refuted (tamulehk_ask): the cycle time does not work */

/* The longest sheet has 27,684 bytes. Of a longer file the first 27,685 bytes get the same answer as the whole. */
#define TAMULEHK_ENOUGH 27685u

/* Stack that a call uses, in bytes, at most. */
#define TAMULEHK_STACK 67584u

/* Does the cycle time p/q work for the sheet in these bytes?
 *
 * sheet   the bytes of a sheet file; may be null where length is 0
 * length  how many there are; any number of them, all readable
 * p, q    the cycle time, p from 0 to 1,000,000,000 and q from 1 to 1,000; p/q need not be in lowest terms
 *
 * It returns one of the numbers above and no other. The answer follows from the bytes, p and q alone. The call alters nothing that is
 * lent and keeps no pointer to it; it takes no heap, has no state, reads no file and no clock, and always returns. So it may be called
 * from many threads at once, each with TAMULEHK_STACK bytes of stack left. From the C library it needs memcpy and memset.
 */
uint32_t tamulehk_ask(const uint8_t *sheet, size_t length, uint64_t p, uint64_t q);

#ifdef __cplusplus
}
#endif

#endif
