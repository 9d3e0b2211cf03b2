/* Sheets for the test: the text and, made apart from it, the lines. */
#include "test_sheets.h"

#include <stdio.h>
#include <stdlib.h>
#include <string.h>

uint8_t text[ROOM], lines[ROOM];
size_t text_size, lines_size;

void clear(void)
{
    text_size = lines_size = 0;
}

void raw(const char *bytes)
{
    memcpy(text + text_size, bytes, strlen(bytes));
    text_size += strlen(bytes);
}

void add(char letter, const uint32_t *numbers, size_t count)
{
    text[text_size++] = (uint8_t)letter;
    memset(lines + lines_size, 0, FOLLOWUP_LINE_BYTES);
    followup_put_u32(lines + lines_size, (uint32_t)letter);
    for (size_t k = 0; k < count; k++) {
        text_size += (size_t)snprintf((char *)text + text_size, 10, "%9u", (unsigned)numbers[k]);
        if (k < 7)
            followup_put_u32(lines + lines_size + 4 * (k + 1), numbers[k]);
    }
    text[text_size++] = 10;
    lines_size += FOLLOWUP_LINE_BYTES;
}

size_t line_count(void)
{
    return lines_size / FOLLOWUP_LINE_BYTES;
}

/* Adds lines given as in "K 1 2;B 1 1 2;H 1 2 3;R 1 7 8". */
void sheet(const char *form)
{
    while (*form != 0) {
        uint32_t numbers[8];
        size_t count = 0;
        char letter = *form++;
        while (*form == ' ') {
            char *end;
            uint32_t number = (uint32_t)strtoul(form, &end, 10);
            if (count < 8)
                numbers[count++] = number;
            form = end;
        }
        add(letter, numbers, count);
        if (*form == ';')
            form++;
    }
}

/* Adds a line of a kind; its fields are the decimal digits of `fields`. */
void digits(char letter, uint32_t kind, const char *fields)
{
    uint32_t numbers[7] = {kind};
    size_t width = strlen(fields);
    for (size_t k = 0; k < width; k++)
        numbers[k + 1] = (uint32_t)(fields[k] - '0');
    add(letter, numbers, width + 1);
}

void kinds(uint32_t count, uint32_t width)
{
    for (uint32_t kind = 1; kind <= count; kind++)
        add('K', (uint32_t[]){kind, width}, 2);
}

/* Rules on kind 1 of width 1 that carry their number over. */
void copy_rules(size_t count, size_t heads)
{
    for (size_t rule = 0; rule < count; rule++) {
        sheet("B 1 1");
        for (size_t head = 0; head < heads; head++)
            sheet("H 1 1");
    }
}

void rows(size_t count)
{
    for (uint32_t row = 1; row <= count; row++)
        add('R', (uint32_t[]){1, row}, 2);
}

void endless_of_609_shapes(void)
{
    clear();
    kinds(3, 6);
    sheet("K 4 2;B 1 1 2 3 4 5 6;H 1 2 1 3 4 5 6;H 1 2 3 4 5 6 1;H 1 1 1 3 4 5 6;H 2 1 2 3 4 5 6;B 2 1 2 3 4 5 6;H 3 1 2 3 4 5 6");
    sheet("B 4 1 2;H 4 2 3;R 1 1 2 3 4 5 6;R 4 7 8");
}
