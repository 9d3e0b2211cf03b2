/* A checker of records, written apart from the library: it goes through the records that it is given and holds what the rules make of
 * them against those that follow. It has no table of its own, so that it takes long where there are many records. */
#include "check_records.h"

#include <string.h>

static const uint8_t *lines;   /* of the sheet */
static size_t line_count;
static const uint8_t *records; /* the ones to check */
static size_t record_count;
static size_t found;           /* how many of them are accounted for, from the first */
static uint32_t next;          /* the next number for a 0 of the table or a fresh mark */

static uint32_t number_in(size_t line, size_t k)
{
    return followup_line_number(lines, line, k);
}

static size_t width_of(uint32_t kind)
{
    size_t line = 0;
    while (number_in(line, 0) != 'K' || number_in(line, 1) != kind)
        line++;
    return number_in(line, 2);
}

int zero_among(const uint8_t *sheet, size_t sheet_size, const uint8_t *given, size_t count)
{
    size_t width[FOLLOWUP_KINDS_MAX + 1] = {0};
    for (size_t line = 0; line < sheet_size / FOLLOWUP_LINE_BYTES; line++)
        if (followup_line_number(sheet, line, 0) == 'K')
            width[followup_line_number(sheet, line, 1)] = followup_line_number(sheet, line, 2);
    for (size_t record = 0; record < count; record++) {
        uint32_t kind = followup_line_number(given, record, 1);
        for (size_t field = 0; kind <= FOLLOWUP_KINDS_MAX && field < width[kind]; field++)
            if (followup_line_number(given, record, 2 + field) == 0)
                return 1;
    }
    return 0;
}

static int same_record(const uint8_t *bytes, size_t at)
{
    return memcmp(bytes, records + at * FOLLOWUP_LINE_BYTES, FOLLOWUP_LINE_BYTES) == 0;
}

/* Accounts for a record: it is among those found, or it is the next one. */
static int account_for(const uint8_t *bytes)
{
    for (size_t at = 0; at < found; at++)
        if (same_record(bytes, at))
            return 1;
    return found < record_count && same_record(bytes, found++);
}

static uint32_t value_in(size_t record, size_t field)
{
    return followup_line_number(records, record, 2 + field);
}

/* The first field of a line with that mark; the line's width where there is none. */
static size_t field_of(size_t line, uint32_t mark)
{
    size_t field = 0, width = width_of(number_in(line, 1));
    while (field < width && number_in(line, 2 + field) != mark)
        field++;
    return field;
}

static int fires_on(size_t body, size_t record)
{
    uint32_t kind = number_in(body, 1);
    if (kind != followup_line_number(records, record, 1))
        return 0;
    for (size_t field = 0; field < width_of(kind); field++)
        if (value_in(record, field) != value_in(record, field_of(body, number_in(body, 2 + field))))
            return 0;
    return 1;
}

static size_t head_count(size_t body)
{
    size_t head = body + 1;
    while (head < line_count && number_in(head, 0) == 'H')
        head++;
    return head - body - 1;
}

/* Whether two records that the rule fires on have the same values of its carried marks. */
static int same_carried(size_t body, size_t one, size_t other)
{
    size_t width = width_of(number_in(body, 1));
    for (size_t head = body + 1; head <= body + head_count(body); head++)
        for (size_t k = 0; k < width_of(number_in(head, 1)); k++) {
            size_t field = field_of(body, number_in(head, 2 + k));
            if (field < width && value_in(one, field) != value_in(other, field))
                return 0;
        }
    return 1;
}

/* Whether the rule has fired on a record before this one with the same values of its carried marks. */
static int has_fired(size_t body, size_t record)
{
    for (size_t earlier = 0; earlier < record; earlier++)
        if (fires_on(body, earlier) && same_carried(body, earlier, record))
            return 1;
    return 0;
}

/* Accounts for what the rule makes of the record. Marks begin one after the other, so that fresh ones get their numbers by rising mark. */
static int fire(size_t body, size_t record)
{
    size_t width = width_of(number_in(body, 1));
    uint32_t first = next, top = 0;
    for (size_t field = 0; field < width; field++)
        top = number_in(body, 2 + field) > top ? number_in(body, 2 + field) : top;
    for (size_t head = body + 1; head <= body + head_count(body); head++) {
        uint8_t made[FOLLOWUP_LINE_BYTES] = {'R'};
        followup_put_u32(made + 4, number_in(head, 1));
        for (size_t k = 0; k < width_of(number_in(head, 1)); k++) {
            uint32_t mark = number_in(head, 2 + k);
            size_t field = field_of(body, mark);
            uint32_t fresh = first + (mark - top) - 1;
            followup_put_u32(made + 8 + 4 * k, field < width ? value_in(record, field) : fresh);
            if (field == width && fresh >= next)
                next = fresh + 1;
        }
        if (!account_for(made))
            return 0;
    }
    return 1;
}

/* The number after the largest that stands in a row. */
static uint32_t after_largest(void)
{
    uint32_t largest = 0;
    for (size_t line = 0; line < line_count; line++)
        for (size_t field = 0; number_in(line, 0) == 'R' && field < FOLLOWUP_WIDTH_MAX; field++)
            largest = number_in(line, 2 + field) > largest ? number_in(line, 2 + field) : largest;
    return largest + 1;
}

/* Accounts for a row, each 0 of which has the next number. */
static int account_for_row(size_t line)
{
    uint8_t row[FOLLOWUP_LINE_BYTES];
    memcpy(row, lines + line * FOLLOWUP_LINE_BYTES, sizeof row);
    for (size_t field = 0; field < width_of(number_in(line, 1)); field++)
        if (number_in(line, 2 + field) == 0)
            followup_put_u32(row + 8 + 4 * field, next++);
    return account_for(row);
}

int records_hold(const uint8_t *sheet, size_t sheet_size, const uint8_t *given, size_t count, size_t firings)
{
    size_t fired = 0;
    lines = sheet;
    line_count = sheet_size / FOLLOWUP_LINE_BYTES;
    records = given;
    record_count = count;
    found = 0;
    next = after_largest();
    for (size_t line = 0; line < line_count; line++)
        if (number_in(line, 0) == 'R' && !account_for_row(line))
            return 0;
    for (size_t record = 0; record < found; record++)
        for (size_t line = 0; line < line_count; line++)
            if (number_in(line, 0) == 'B' && fires_on(line, record) && !has_fired(line, record)) {
                fired++;
                if (!fire(line, record))
                    return 0;
            }
    return found == count && fired == firings && next <= FOLLOWUP_NUMBER_MAX + 1;
}
