/* What the judge said, in sentences. */
#include "sheet.h"

#include <string.h>

static int named(const struct sheet *sheet, uint32_t kind)
{
    return kind <= FOLLOWUP_KINDS_MAX && sheet->names[kind][0] != 0;
}

void put_kind(FILE *out, const struct sheet *sheet, uint32_t kind)
{
    if (named(sheet, kind))
        fprintf(out, "%s (kind %u)", sheet->names[kind], (unsigned)kind);
    else
        fprintf(out, "kind %u", (unsigned)kind);
}

static void say_row(const struct sheet *sheet)
{
    size_t line = line_of(sheet, 'R', sheet->said.row);
    uint32_t kind = number_in(sheet, line, 1);
    printf("The start is row %zu (line %zu), a record of ", sheet->said.row, line);
    put_kind(stdout, sheet, kind);
    printf(":");
    for (size_t field = 0; field < width_of(sheet, kind); field++)
        printf(" %u", (unsigned)number_in(sheet, line, 2 + field));
    printf(".\n");
}

/* A kind's name alone; its number where it has none. */
static void put_name(const struct sheet *sheet, uint32_t kind)
{
    if (named(sheet, kind))
        printf("%s", sheet->names[kind]);
    else
        printf("kind %u", (unsigned)kind);
}

/* The library's sentence for step k, without its line feed. */
static void put_sentence(const struct sheet *sheet, size_t k)
{
    struct followup_span span = followup_line_span(sheet->sentences, sheet->sentences_size, k + 1);
    for (size_t at = span.start; at + 1 < span.end; at++)
        putchar(sheet->sentences[at]);
}

/* A step of an endless sheet: the library's sentence, then where the rule's B line and the H line stand, and the kinds' names. */
static void tell_step(const struct sheet *sheet, size_t k)
{
    struct step_lines at = step_lines(sheet, k);
    printf("  %zu. ", k + 1);
    put_sentence(sheet, k);
    printf(" (lines %zu and %zu", at.body, at.head);
    if (named(sheet, at.fired_on) || named(sheet, at.made)) {
        printf(": ");
        put_name(sheet, at.fired_on);
        printf(" to ");
        put_name(sheet, at.made);
    }
    printf(")\n");
}

/* A step of a sheet that settles, of which the library has no sentences. */
static void say_step(const struct sheet *sheet, size_t k)
{
    struct step_lines at = step_lines(sheet, k);
    unsigned from = at.step.from, to = at.step.to;
    printf("  %zu. Rule %u (line %zu) fires on the record of ", k + 1, (unsigned)at.step.rule, at.body);
    put_kind(stdout, sheet, at.fired_on);
    printf(" and makes one of ");
    put_kind(stdout, sheet, at.made);
    printf(" by its H line %u (line %zu)", (unsigned)at.step.head, at.head);
    if (to == 0)
        printf(".\n");
    else if (at.step.fresh == 0)
        printf("; field %u of the new record holds the number of field %u of the one it fired on.\n", to, from);
    else if (from == 0)
        printf("; field %u of the new record gets a fresh number, which depends on no field of the one it fired on.\n", to);
    else
        printf("; field %u of the new record gets a fresh number, which depends on field %u of the one it fired on.\n", to, from);
}

static void say_steps(const struct sheet *sheet, const char *title, size_t first, size_t count)
{
    printf("%s (%zu step%s):\n", title, count, count == 1 ? "" : "s");
    for (size_t k = first; k < first + count; k++)
        if (sheet->said.verdict == FOLLOWUP_ENDLESS)
            tell_step(sheet, k);
        else
            say_step(sheet, k);
}

int say_verdict(const struct sheet *sheet)
{
    const struct followup_judge_reply *said = &sheet->said;
    int endless = said->verdict == FOLLOWUP_ENDLESS;
    if (endless)
        printf("%s: endless. The follow-ups never come to rest.\n", sheet->name);
    else
        printf("%s: settles. The follow-ups come to rest; the deepest generation is %zu.\n", sheet->name, said->deepest);
    printf("Rules that fire: %zu of %zu (%zu %%). Shapes that are reached: %zu.\n", said->fired, lines_with(sheet, 'B'), said->share,
           said->shapes);
    if (said->row != 0)
        say_row(sheet);
    if (said->trail != 0)
        say_steps(sheet, endless ? "The trail from there to the loop" : "The trail from there to a number of the deepest generation", 0,
                  said->trail);
    if (said->loop != 0)
        say_steps(sheet, "The loop, which can be gone round for ever", said->trail, said->loop);
    return endless ? 1 : 0;
}

/* The bytes of the line that the refusal names, up to the end of the text where no line feed follows. */
static const uint8_t *refused_line(const struct sheet *sheet, size_t *size)
{
    struct followup_span span = followup_line_span(sheet->text, sheet->size, sheet->said.line);
    size_t end = span.end > span.start ? span.end : sheet->size;
    *size = end - span.start;
    return sheet->text + span.start;
}

/* Shows the bytes of a line: those that can't be seen as a question mark. */
static void show_line(const uint8_t *line, size_t size)
{
    printf("  ");
    for (size_t at = 0; at < size && line[at] != '\n'; at++)
        putchar(line[at] >= ' ' && line[at] < 127 ? line[at] : '?');
    printf("\n");
}

int say_refusal(const struct sheet *sheet)
{
    const struct followup_judge_reply *said = &sheet->said;
    printf("%s: refused (%u)", sheet->name, (unsigned)said->refusal);
    if (said->line != 0)
        printf(" at line %zu", said->line);
    printf(". %s\n", followup_refusal_text(said->refusal));
    if (said->line == 0)
        return 2;
    size_t size;
    const uint8_t *line = refused_line(sheet, &size);
    if (size != 0)
        show_line(line, size);
    if (said->refusal == FOLLOWUP_FORM_WRONG)
        printf("Here %s.\n", fault_of_line(line, size));
    return 2;
}
