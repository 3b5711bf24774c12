/* Faults on purpose: one row of 01's table of refusals, or two of them at once. */
#ifndef FAULTS_H
#define FAULTS_H

#include "calls.h"

/* 01's limit of a cell that a report does not work anew. */
#define LIMIT 1916928000000u

/* Spoils a call, or the desk under it, so that a row refuses it. Rows that lie in the numbers of a
 * line are left to damage_number, but for the m of a write. */
void spoil(struct call *call, enum paper_outcome row);

/* Makes the n-th call on purpose of each operation: without a fault, then with each row's by itself,
 * then with those of neighbouring rows at once, then of rows further apart; and so round again. */
void faults_on_purpose(uint32_t n);

#endif
