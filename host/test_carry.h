/* Carrying out, for the test. */
#ifndef TEST_CARRY_H
#define TEST_CARRY_H

#include "test_sheets.h"

extern unsigned long runs_checked; /* how many results were held against the run */

/* Carries the sheet out and holds the answer against that of judging. Answers its own. */
struct job try_carry(const struct job *judged);

/* Examples, limits and each refusal. */
void try_carrying(void);

#endif
