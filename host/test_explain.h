/* Explaining, for the test. */
#ifndef TEST_EXPLAIN_H
#define TEST_EXPLAIN_H

#include "test_sheets.h"

extern unsigned long texts_checked; /* how many texts were held against the steps */

/* Explains the sheet and holds the answer against that of judging; `result` has the latter's steps. */
void try_explain(const struct job *judged);

/* Examples, limits and each refusal. */
void try_explaining(void);

#endif
