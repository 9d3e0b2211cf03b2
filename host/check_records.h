/* A checker of what carrying out answers, written apart from the library. Not for several threads at once. */
#ifndef CHECK_RECORDS_H
#define CHECK_RECORDS_H

#include "followup.h"

/* Whether these records and the count of firings are those of the run, for the sheet in these lines, which settles. */
int records_hold(const uint8_t *sheet, size_t sheet_size, const uint8_t *records, size_t count, size_t firings);

/* Whether a field of these records of the sheet's kinds holds a 0. */
int zero_among(const uint8_t *sheet, size_t sheet_size, const uint8_t *records, size_t count);

#endif
