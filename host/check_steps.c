/* A checker of steps, written apart from the library: it carries the firings out and compares what each step says with what they do. */
#include "check_steps.h"

#include <string.h>

static const uint8_t *lines; /* of the sheet whose steps are checked */
static size_t lines_size;
static uint32_t used = FOLLOWUP_NUMBER_MAX; /* the last number that stands for a 0 or is fresh */

struct record {
    uint32_t kind;
    size_t width;
    uint32_t number[FOLLOWUP_WIDTH_MAX];
    size_t generation[FOLLOWUP_WIDTH_MAX];
};

static uint32_t number_at(size_t line, size_t k)
{
    return followup_line_number(lines, line, k);
}

static size_t line_count(void)
{
    return lines_size / FOLLOWUP_LINE_BYTES;
}

struct followup_step step_in(const uint8_t *steps, size_t k)
{
    const uint8_t *at = steps + k * FOLLOWUP_STEP_BYTES;
    return (struct followup_step){followup_u16(at), followup_u16(at + 2), followup_u16(at + 4), followup_u16(at + 6), followup_u16(at + 8)};
}

/* The place, counted from 0, of the nth line of that letter; line_count() where there is none. */
static size_t place_of(char letter, size_t nth)
{
    for (size_t line = 0; line < line_count(); line++)
        if (number_at(line, 0) == (uint32_t)letter && --nth == 0)
            return line;
    return line_count();
}

static size_t width_of(uint32_t kind)
{
    for (size_t line = 0; line < line_count(); line++)
        if (number_at(line, 0) == 'K' && number_at(line, 1) == kind)
            return number_at(line, 2);
    return 0;
}

/* The first field, counted from 1, of a line that has the mark; 0 where none has. */
static size_t field_of(size_t line, uint32_t mark)
{
    size_t width = width_of(number_at(line, 1));
    for (size_t k = 0; k < width; k++)
        if (number_at(line, 2 + k) == mark)
            return k + 1;
    return 0;
}

static int is_head(size_t line)
{
    return line < line_count() && number_at(line, 0) == 'H';
}

/* Whether a mark of the rule at that line stands in B and in some H. */
static int carried(size_t body, uint32_t mark)
{
    if (field_of(body, mark) == 0)
        return 0;
    for (size_t line = body + 1; is_head(line); line++)
        if (field_of(line, mark) != 0)
            return 1;
    return 0;
}

static int fires(size_t body, const struct record *on)
{
    if (number_at(body, 1) != on->kind)
        return 0;
    for (size_t k = 0; k < on->width; k++)
        if (on->number[field_of(body, number_at(body, 2 + k)) - 1] != on->number[k])
            return 0;
    return 1;
}

/* The record that an H line makes. A number is fresh by any name that was not used before: what a rule made earlier is either among
 * the carried values, and then the number is another one, or not in the record made. */
static struct record made_by(size_t body, size_t head, const struct record *on)
{
    struct record made = {.kind = number_at(head, 1), .width = width_of(number_at(head, 1))};
    size_t generation = 0;
    for (size_t k = 0; k < on->width; k++)
        if (carried(body, number_at(body, 2 + k)) && generation < on->generation[k])
            generation = on->generation[k];
    for (size_t k = 0; k < made.width; k++) {
        uint32_t mark = number_at(head, 2 + k);
        size_t field = field_of(body, mark);
        made.number[k] = field != 0 ? on->number[field - 1] : used + mark;
        made.generation[k] = field != 0 ? on->generation[field - 1] : generation + 1;
    }
    used += FOLLOWUP_MARKS_MAX;
    return made;
}

/* Whether the numbers of a carried or fresh step are right. */
static int fields_hold(struct followup_step step, size_t body, size_t head, const struct record *on, const struct record *made)
{
    int carries = 0, depends = 0;
    if (step.fresh > 1 || step.to == 0 || step.to > made->width || step.from > on->width)
        return 0;
    int fresh = field_of(body, number_at(head, 1 + step.to)) == 0;
    if (step.fresh != fresh)
        return 0;
    if (!fresh)
        return step.from != 0 && on->number[step.from - 1] == made->number[step.to - 1];
    for (size_t k = 0; k < on->width; k++)
        if (carried(body, number_at(body, 2 + k))) {
            carries = 1;
            if (step.from != 0 && on->number[k] == on->number[step.from - 1])
                depends = 1;
        }
    return step.from == 0 ? !carries : depends;
}

static int reaching(struct followup_step step)
{
    return step.from == 0 && step.to == 0 && step.fresh == 0;
}

/* Fires step k on the record and puts the record made in its place; 0 where the firing doesn't fit or a number of the step is wrong. */
static int fire(const uint8_t *steps, size_t k, struct record *on)
{
    struct followup_step step = step_in(steps, k);
    size_t body = place_of('B', step.rule), head = body + step.head;
    if (step.rule == 0 || step.head == 0 || step.head > FOLLOWUP_HEADS_MAX || body == line_count())
        return 0;
    for (size_t line = body + 1; line <= head; line++)
        if (!is_head(line))
            return 0;
    if (!fires(body, on))
        return 0;
    struct record made = made_by(body, head, on);
    int good = reaching(step) || fields_hold(step, body, head, on, &made);
    *on = made;
    return good;
}

/* A number for the shape of a record and one of its fields, or 0: the digits to base 8 are the kind, six for the pattern, the field. */
static uint64_t pair_of(const struct record *record, size_t field)
{
    uint64_t pair = record->kind;
    for (size_t k = 0; k < FOLLOWUP_WIDTH_MAX; k++) {
        size_t first = 0;
        while (first < k && record->number[first] != record->number[k])
            first++;
        pair = pair * 8 + (k < record->width ? first + 1 : 0);
    }
    return pair * 8 + field;
}

static int among(const uint64_t *pairs, size_t count, uint64_t pair)
{
    for (size_t k = 0; k < count; k++)
        if (pairs[k] == pair)
            return 1;
    return 0;
}

static int start_at(size_t row, struct record *record)
{
    size_t line = place_of('R', row);
    if (row == 0 || line == line_count())
        return 0;
    memset(record, 0, sizeof *record);
    record->kind = number_at(line, 1);
    record->width = width_of(record->kind);
    for (size_t k = 0; k < record->width; k++) {
        uint32_t number = number_at(line, 2 + k);
        record->number[k] = number != 0 ? number : ++used; /* a 0 is equal to itself alone */
    }
    return 1;
}

/* Whether the trail is as it has to be where a sheet settles with a deepest generation above 0. */
static int trail_holds(const uint8_t *steps, const struct followup_judge_reply *said)
{
    struct record record;
    int line = 0;
    size_t last = 0;
    if (!start_at(said->row, &record) || said->loop != 0 || said->trail > 3583)
        return 0;
    for (size_t k = 0; k < said->trail; k++) {
        struct followup_step step = step_in(steps, k);
        if (line ? step.to == 0 || step.from != last || step.from == 0 : !reaching(step) && !step.fresh)
            return 0;
        line = line || step.fresh;
        last = step.to;
        if (!fire(steps, k, &record))
            return 0;
    }
    return line && record.generation[last - 1] == said->deepest;
}

/* Whether the loop, from its first record on, is as it has to be. */
static int loop_holds(const uint8_t *steps, const struct followup_judge_reply *said, struct record record)
{
    static uint64_t met[FOLLOWUP_STEPS];
    int fresh = 0;
    size_t first = step_in(steps, said->trail).from, at = first;
    if (said->loop == 0 || said->trail + said->loop > FOLLOWUP_STEPS)
        return 0;
    for (size_t k = 0; k < said->loop; k++) {
        struct followup_step step = step_in(steps, said->trail + k);
        met[k] = pair_of(&record, at);
        if (step.from == 0 || step.to == 0 || step.from != at || among(met, k, met[k]) || !fire(steps, said->trail + k, &record))
            return 0;
        fresh = fresh || step.fresh;
        at = step.to;
    }
    if (!fresh || pair_of(&record, at) != met[0])
        return 0;
    for (size_t k = 0; k < 2 * said->loop; k++)
        if (!fire(steps, said->trail + k % said->loop, &record))
            return 0;
    return record.generation[at - 1] >= 3;
}

/* Whether trail and loop are as they have to be where a sheet is endless. */
static int endless_holds(const uint8_t *steps, const struct followup_judge_reply *said)
{
    uint64_t met[FOLLOWUP_SHAPES_MAX];
    struct record record;
    if (!start_at(said->row, &record) || said->deepest != 0 || said->trail >= FOLLOWUP_SHAPES_MAX)
        return 0;
    for (size_t k = 0; k < said->trail; k++) {
        met[k] = pair_of(&record, 0);
        if (!reaching(step_in(steps, k)) || !fire(steps, k, &record) || among(met, k + 1, pair_of(&record, 0)))
            return 0;
    }
    return loop_holds(steps, said, record);
}

int steps_hold(const uint8_t *sheet, size_t sheet_size, const uint8_t *steps, const struct followup_judge_reply *said)
{
    lines = sheet;
    lines_size = sheet_size;
    if (said->verdict == FOLLOWUP_ENDLESS)
        return endless_holds(steps, said);
    if (said->verdict != FOLLOWUP_SETTLES)
        return 0;
    if (said->deepest != 0)
        return trail_holds(steps, said);
    return said->row == 0 && said->trail == 0 && said->loop == 0;
}
