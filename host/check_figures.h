/* A checker of what the forecast answers, written apart from the library. Not for several threads at once. */
#ifndef CHECK_FIGURES_H
#define CHECK_FIGURES_H

#include "followup.h"

/* How many different values stand in the R lines among these lines, each 0 as one; the sheet declares their kinds. */
size_t values_in(const uint8_t *sheet, size_t sheet_size, const uint8_t *lines, size_t line_count);

/* Whether the figures are those of the sheet in these lines, which settles with that deepest generation. */
int figures_hold(const uint8_t *sheet, size_t sheet_size, size_t deepest, const struct followup_forecast_reply *said);

#endif
