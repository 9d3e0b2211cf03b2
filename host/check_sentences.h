/* A writer and a reader of the sentences of explaining, written apart from the library. */
#ifndef CHECK_SENTENCES_H
#define CHECK_SENTENCES_H

#include "followup.h"

/* Steps, the trail's first, and how many of them are the trail's and the loop's. */
struct told_steps {
    uint8_t steps[FOLLOWUP_STEPS_BYTES];
    size_t trail;
    size_t loop;
};

/* Writes the sentences of these steps, for the sheet in these lines. Answers how many bytes they have, at most FOLLOWUP_SENTENCES_MAX;
 * the text has a byte more. */
size_t write_sentences(const uint8_t *sheet, size_t sheet_size, const struct told_steps *told, uint8_t *text);

/* Reads the steps out of their sentences, without the sheet. Answers 0 where the text is none of sentences in the form. */
int read_sentences(const uint8_t *text, size_t text_size, struct told_steps *told);

#endif
