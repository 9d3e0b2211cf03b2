/* What stands where in a sheet that was read, and names for its kinds. */
#include "sheet.h"

#include <errno.h>
#include <string.h>

uint32_t number_in(const struct sheet *sheet, size_t line, size_t number)
{
    return followup_line_number(sheet->lines, line - 1, number);
}

size_t lines_with(const struct sheet *sheet, char letter)
{
    size_t found = 0;
    for (size_t line = 1; line <= sheet->line_count; line++)
        if (number_in(sheet, line, 0) == (uint32_t)letter)
            found++;
    return found;
}

size_t line_of(const struct sheet *sheet, char letter, size_t nth)
{
    for (size_t line = 1; line <= sheet->line_count; line++)
        if (number_in(sheet, line, 0) == (uint32_t)letter && --nth == 0)
            return line;
    return 0;
}

size_t width_of(const struct sheet *sheet, uint32_t kind)
{
    for (size_t line = 1; line <= sheet->line_count; line++)
        if (number_in(sheet, line, 0) == 'K' && number_in(sheet, line, 1) == kind)
            return number_in(sheet, line, 2);
    return 0;
}

struct step_lines step_lines(const struct sheet *sheet, size_t k)
{
    struct step_lines found;
    found.step = followup_step_at(sheet->steps, sizeof sheet->steps, k);
    found.body = line_of(sheet, 'B', found.step.rule);
    found.head = found.body + found.step.head;
    found.fired_on = number_in(sheet, found.body, 1);
    found.made = number_in(sheet, found.head, 1);
    return found;
}

/* Takes a line such as "1 pallet". Answers 0 where it is none. */
static int take_name(struct sheet *sheet, char *line)
{
    unsigned kind = 0;
    int after = 0;
    if (sscanf(line, "%2u %n", &kind, &after) != 1 || after == 0 || kind < 1 || kind > FOLLOWUP_KINDS_MAX)
        return 0;
    char *name = line + after;
    size_t length = strcspn(name, "\r\n");
    name[length] = 0;
    if (length == 0 || length >= NAME_SIZE || strcspn(name, "\"\\<>{}|") != length)
        return 0;
    memcpy(sheet->names[kind], name, length + 1);
    return 1;
}

int read_names(struct sheet *sheet, const char *file)
{
    FILE *in = fopen(file, "r");
    if (in == NULL) {
        fprintf(stderr, "%s: cannot open %s: %s\n", program, file, strerror(errno));
        return 0;
    }
    char line[256];
    size_t number = 0;
    int good = 1;
    while (good && fgets(line, sizeof line, in) != NULL) {
        number++;
        if (line[strspn(line, " \r\n")] != 0 && !take_name(sheet, line)) {
            fprintf(stderr, "%s: %s, line %zu: a kind from 1 to 64, a blank and a name of up to 40 characters are wanted, as in: 1 pallet\n",
                    program, file, number);
            good = 0;
        }
    }
    if (ferror(in)) {
        fprintf(stderr, "%s: cannot read %s: %s\n", program, file, strerror(errno));
        good = 0;
    }
    fclose(in);
    return good;
}

int read_text(struct sheet *sheet, const char *file)
{
    int standard = strcmp(file, "-") == 0;
    FILE *in = standard ? stdin : fopen(file, "rb");
    sheet->name = standard ? "standard input" : file;
    if (in == NULL) {
        fprintf(stderr, "%s: cannot open %s: %s\n", program, file, strerror(errno));
        return 0;
    }
    errno = 0;
    sheet->size = fread(sheet->text, 1, sizeof sheet->text, in);
    int good = !ferror(in);
    if (!good)
        fprintf(stderr, "%s: cannot read %s: %s\n", program, sheet->name, strerror(errno));
    if (!standard)
        fclose(in);
    return good;
}
