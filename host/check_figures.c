/* A checker of figures, written apart from the library. It counts up to FOLLOWUP_BEYOND and no further. */
#include "check_figures.h"

#include <stdlib.h>

static size_t width_in(const uint8_t *sheet, size_t sheet_size, uint32_t kind)
{
    for (size_t line = 0; line < sheet_size / FOLLOWUP_LINE_BYTES; line++)
        if (followup_line_number(sheet, line, 0) == 'K' && followup_line_number(sheet, line, 1) == kind)
            return followup_line_number(sheet, line, 2);
    return 0;
}

static int by_size(const void *a, const void *b)
{
    uint32_t x = *(const uint32_t *)a, y = *(const uint32_t *)b;
    return x < y ? -1 : x > y;
}

size_t values_in(const uint8_t *sheet, size_t sheet_size, const uint8_t *lines, size_t line_count)
{
    static uint32_t values[FOLLOWUP_RECORDS * FOLLOWUP_WIDTH_MAX];
    size_t count = 0, different = 0, zeros = 0;
    for (size_t line = 0; line < line_count; line++) {
        if (followup_line_number(lines, line, 0) != 'R')
            continue;
        size_t width = width_in(sheet, sheet_size, followup_line_number(lines, line, 1));
        for (size_t field = 0; field < width; field++) {
            uint32_t value = followup_line_number(lines, line, 2 + field);
            if (value == 0)
                zeros++;
            else
                values[count++] = value;
        }
    }
    qsort(values, count, sizeof values[0], by_size);
    for (size_t k = 0; k < count; k++)
        different += k == 0 || values[k] != values[k - 1];
    return different + zeros;
}

static uint64_t plus(uint64_t a, uint64_t b)
{
    return a + b < FOLLOWUP_BEYOND ? a + b : FOLLOWUP_BEYOND;
}

static uint64_t times(uint64_t a, uint64_t b)
{
    if (a == 0 || b == 0)
        return 0;
    return a <= FOLLOWUP_BEYOND / b ? a * b : FOLLOWUP_BEYOND;
}

static uint64_t power(uint64_t t, size_t exponent)
{
    uint64_t product = 1;
    while (exponent-- > 0)
        product = times(product, t);
    return product;
}

static struct {
    size_t carried, fresh; /* how many marks */
} rules[FOLLOWUP_RULES_MAX];

static size_t rule_count;

/* Takes a rule's lines. Its marks begin one after the other: those over the body's largest are fresh. */
static void take_rule(const uint8_t *sheet, size_t sheet_size, size_t body)
{
    unsigned char made[FOLLOWUP_MARKS_MAX + 1] = {0}; /* marks of H lines */
    uint32_t top = 0;
    size_t line = body;
    do {
        for (size_t field = 0; field < width_in(sheet, sheet_size, followup_line_number(sheet, line, 1)); field++) {
            uint32_t mark = followup_line_number(sheet, line, 2 + field);
            if (line > body)
                made[mark] = 1;
            else if (mark > top)
                top = mark;
        }
        line++;
    } while (line < sheet_size / FOLLOWUP_LINE_BYTES && followup_line_number(sheet, line, 0) == 'H');
    rules[rule_count].carried = rules[rule_count].fresh = 0;
    for (uint32_t mark = 1; mark <= FOLLOWUP_MARKS_MAX; mark++)
        *(mark <= top ? &rules[rule_count].carried : &rules[rule_count].fresh) += made[mark];
    rule_count++;
}

int figures_hold(const uint8_t *sheet, size_t sheet_size, size_t deepest, const struct followup_forecast_reply *said)
{
    size_t line_count = sheet_size / FOLLOWUP_LINE_BYTES;
    uint64_t first = values_in(sheet, sheet_size, sheet, line_count), t = first, records = 0, pairs = 0;
    rule_count = 0;
    for (size_t line = 0; line < line_count; line++)
        if (followup_line_number(sheet, line, 0) == 'B')
            take_rule(sheet, sheet_size, line);
    for (size_t generation = 0; generation < deepest; generation++) {
        uint64_t next = first;
        for (size_t k = 0; k < rule_count; k++)
            next = plus(next, times(rules[k].fresh, power(t, rules[k].carried)));
        t = next;
    }
    for (size_t line = 0; line < line_count; line++)
        if (followup_line_number(sheet, line, 0) == 'K')
            records = plus(records, power(t, followup_line_number(sheet, line, 2)));
    for (size_t k = 0; k < rule_count; k++)
        pairs = plus(pairs, power(t, rules[k].carried));
    return said->values == t && said->records == records && said->pairs == pairs;
}
