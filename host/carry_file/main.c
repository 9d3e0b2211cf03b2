/* Carries the rules of a sheet out and prints the records that there are then.
 * Exit status: 0 carried out, 2 the sheet is refused or something can't be read. */
#include "../judge_file/sheet.h"

#include <errno.h>
#include <string.h>

static const char usage[] =
    "usage: carry_file [--names NAMES] FILE\n"
    "Carries the rules of the sheet in FILE out and prints all records, the table's rows first. FILE - is standard input.\n"
    "  --names NAMES  a file with a name for each kind, a line each, as in: 1 pallet\n"
    "  -h, --help     this text\n"
    "Exit status: 0 carried out, 2 refused or unreadable.\n";

const char *const program = "carry_file";

static struct sheet sheet;
static uint8_t records[FOLLOWUP_RECORDS_BYTES];

struct options {
    const char *file;
    const char *names;
    int help;
};

/* Takes the arguments apart. Answers 0 where there is one that is not known, or no file. */
static int take_options(struct options *options, int argc, char **argv)
{
    for (int i = 1; i < argc; i++) {
        const char *word = argv[i];
        if (strcmp(word, "-h") == 0 || strcmp(word, "--help") == 0)
            options->help = 1;
        else if (strcmp(word, "--names") == 0 && i + 1 < argc)
            options->names = argv[++i];
        else if ((word[0] != '-' || word[1] == 0) && options->file == NULL)
            options->file = word;
        else
            return 0;
    }
    return options->help || options->file != NULL;
}

/* What the table's rows are in the result. Lines count from 0. */
struct table {
    size_t records;   /* so many, the first ones */
    size_t not_given; /* so many of their values are 0 in the table */
    uint32_t largest;
};

/* Whether a line is a row that stands before as well. */
static int stands_before(size_t row)
{
    for (size_t line = 0; line < row; line++)
        if (memcmp(sheet.lines + row * FOLLOWUP_LINE_BYTES, sheet.lines + line * FOLLOWUP_LINE_BYTES, FOLLOWUP_LINE_BYTES) == 0)
            return 1;
    return 0;
}

/* Takes a row into account. Equal rows are one record, but for those that hold a 0. */
static void count_row(struct table *table, size_t line)
{
    size_t zeros = 0;
    for (size_t field = 0; field < width_of(&sheet, followup_line_number(sheet.lines, line, 1)); field++) {
        uint32_t value = followup_line_number(sheet.lines, line, 2 + field);
        zeros += value == 0;
        if (value > table->largest)
            table->largest = value;
    }
    table->records += zeros != 0 || !stands_before(line);
    table->not_given += zeros;
}

static struct table count_rows(void)
{
    struct table table = {0, 0, 0};
    for (size_t line = 0; line < sheet.line_count; line++)
        if (followup_line_number(sheet.lines, line, 0) == 'R')
            count_row(&table, line);
    return table;
}

static void print_records(const char *title, size_t first, size_t end)
{
    if (first == end)
        return;
    printf("%s (%zu record%s):\n", title, end - first, end - first == 1 ? "" : "s");
    for (size_t record = first; record < end; record++) {
        uint32_t kind = followup_line_number(records, record, 1);
        printf("  %zu. ", record + 1);
        put_kind(stdout, &sheet, kind);
        printf(":");
        for (size_t field = 0; field < width_of(&sheet, kind); field++)
            printf(" %u", (unsigned)followup_line_number(records, record, 2 + field));
        printf("\n");
    }
}

/* Passes a refusal on to the sentences that judge_file has for it. */
static int refuse(uint32_t refusal, size_t line)
{
    sheet.said.refusal = refusal;
    sheet.said.line = line;
    return say_refusal(&sheet);
}

static int carry_text(void)
{
    struct followup_reply read = followup_read(sheet.text, sheet.size, sheet.lines, sizeof sheet.lines);
    if (read.refusal != FOLLOWUP_GOOD)
        return refuse(read.refusal, read.line);
    sheet.line_count = read.count;
    struct followup_carry_reply said =
        followup_carry(sheet.lines, sheet.line_count * FOLLOWUP_LINE_BYTES, records, sizeof records);
    if (said.refusal != FOLLOWUP_GOOD)
        return refuse(said.refusal, said.line);
    struct table table = count_rows();
    printf("%s: carried out. Records: %zu. Firings: %zu.\n", sheet.name, said.records, said.firings);
    if (table.not_given != 0)
        printf("Labels not given in the table: %zu. They are numbered from %u on.\n", table.not_given, (unsigned)table.largest + 1);
    print_records("The table's rows", 0, table.records);
    print_records("Made by the rules", table.records, said.records);
    return 0;
}

int main(int argc, char **argv)
{
    struct options options = {NULL, NULL, 0};
    int status;
    if (!take_options(&options, argc, argv)) {
        fputs(usage, stderr);
        return 2;
    }
    if (options.help) {
        fputs(usage, stdout);
        status = 0;
    } else {
        if (options.names != NULL && !read_names(&sheet, options.names))
            return 2;
        if (!read_text(&sheet, options.file))
            return 2;
        status = carry_text();
    }
    if (fflush(stdout) != 0 || ferror(stdout)) {
        fprintf(stderr, "%s: cannot print: %s\n", program, strerror(errno));
        return 2;
    }
    return status;
}
