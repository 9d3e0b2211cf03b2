/* Judges a sheet and says in sentences what was found.
 * Exit status: 0 the sheet settles, 1 it is endless, 2 it is refused or something can't be read. */
#include "sheet.h"

#include <errno.h>
#include <string.h>

static const char usage[] =
    "usage: judge_file [--names NAMES] [--dot] FILE\n"
    "Says whether the follow-ups of the sheet in FILE come to rest, with the trail and the loop. FILE - is standard input.\n"
    "  --names NAMES  a file with a name for each kind, a line each, as in: 1 pallet\n"
    "  --dot          the trail and the loop as a picture for graphviz instead: judge_file --dot FILE | dot -Tsvg\n"
    "  -h, --help     this text\n"
    "Exit status: 0 settles, 1 endless, 2 refused or unreadable.\n";

const char *const program = "judge_file";

static struct sheet sheet;

struct options {
    const char *file;
    const char *names;
    int dot;
    int help;
};

/* Takes the arguments apart. Answers 0 where there is one that is not known, or no file. */
static int take_options(struct options *options, int argc, char **argv)
{
    for (int i = 1; i < argc; i++) {
        const char *word = argv[i];
        if (strcmp(word, "-h") == 0 || strcmp(word, "--help") == 0)
            options->help = 1;
        else if (strcmp(word, "--dot") == 0)
            options->dot = 1;
        else if (strcmp(word, "--names") == 0 && i + 1 < argc)
            options->names = argv[++i];
        else if ((word[0] != '-' || word[1] == 0) && options->file == NULL)
            options->file = word;
        else
            return 0;
    }
    return options->help || options->file != NULL;
}

/* Takes the library's sentences for an endless sheet. Answers 0 where they are refused, with that refusal in `said`. */
static int take_sentences(void)
{
    struct followup_reply told =
        followup_explain(sheet.lines, sheet.line_count * FOLLOWUP_LINE_BYTES, sheet.sentences, sizeof sheet.sentences);
    sheet.sentences_size = told.count;
    if (told.refusal != FOLLOWUP_GOOD)
        sheet.said = (struct followup_judge_reply){.refusal = told.refusal, .line = told.line};
    return told.refusal == FOLLOWUP_GOOD;
}

static int judge_text(int dot)
{
    sheet.said = followup_judge_text(sheet.text, sheet.size, sheet.steps, sizeof sheet.steps);
    if (sheet.said.refusal != FOLLOWUP_GOOD)
        return say_refusal(&sheet);
    sheet.line_count = followup_read(sheet.text, sheet.size, sheet.lines, sizeof sheet.lines).count;
    int endless = sheet.said.verdict == FOLLOWUP_ENDLESS;
    if (dot) {
        draw_steps(&sheet);
        return endless ? 1 : 0;
    }
    if (endless && !take_sentences())
        return say_refusal(&sheet);
    return say_verdict(&sheet);
}

int main(int argc, char **argv)
{
    struct options options = {NULL, NULL, 0, 0};
    int status;
    if (!take_options(&options, argc, argv)) {
        fputs(usage, stderr);
        return 2;
    }
    if (options.help) {
        fputs(usage, stdout);
        status = 0;
    } else {
        if (options.names != NULL && !read_names(&sheet, options.names))
            return 2;
        if (!read_text(&sheet, options.file))
            return 2;
        status = judge_text(options.dot);
    }
    if (fflush(stdout) != 0 || ferror(stdout)) {
        fprintf(stderr, "%s: cannot print: %s\n", program, strerror(errno));
        return 2;
    }
    return status;
}
