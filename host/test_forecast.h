/* The forecast, for the test. */
#ifndef TEST_FORECAST_H
#define TEST_FORECAST_H

#include "test_sheets.h"

/* Foretells of the sheet and holds the answer against those of judging and carrying out; `result` has the latter's records. */
void try_forecast(const struct job *judged, const struct job *carried);

/* Examples, limits and each refusal. */
void try_forecasting(void);

#endif
