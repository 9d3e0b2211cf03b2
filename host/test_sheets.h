/* Sheets for the test: the text and, made apart from it, the lines. */
#ifndef TEST_SHEETS_H
#define TEST_SHEETS_H

#include "test_calls.h"

extern uint8_t text[ROOM], lines[ROOM];
extern size_t text_size, lines_size;

void clear(void);
void raw(const char *bytes); /* bytes of text alone */
void add(char letter, const uint32_t *numbers, size_t count);
size_t line_count(void);

/* Adds lines given as in "K 1 2;B 1 1 2;H 1 2 3;R 1 7 8". */
void sheet(const char *form);

/* Adds a line of a kind; its fields are the decimal digits of `fields`. */
void digits(char letter, uint32_t kind, const char *fields);

void kinds(uint32_t count, uint32_t width);
void copy_rules(size_t count, size_t heads); /* rules on kind 1 of width 1 that carry their number over */
void rows(size_t count); /* rows of kind 1 of width 1 with the values 1, 2 and so on */
void endless_of_609_shapes(void); /* an endless sheet that shows more shapes than are allowed, and nothing before it */

#endif
