/* A checker of what judging answers, written apart from the library. Not for several threads at once. */
#ifndef CHECK_STEPS_H
#define CHECK_STEPS_H

#include "followup.h"

/* Step k, counted from 0, of steps that hold it. */
struct followup_step step_in(const uint8_t *steps, size_t k);

/* Whether row, trail, loop and steps of a good answer are as document 01 says, for the sheet in these lines. */
int steps_hold(const uint8_t *sheet, size_t sheet_size, const uint8_t *steps, const struct followup_judge_reply *said);

#endif
