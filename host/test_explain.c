/* Tries explaining: examples, limits, each refusal, lent memory and odd lengths. */
#include "test_explain.h"
#include "check_sentences.h"

#include <string.h>

#define MILLION ((size_t)1000000)

unsigned long texts_checked;

static struct told_steps judged_steps;             /* what judging says of the sheet */
static uint8_t wanted[FOLLOWUP_SENTENCES_MAX + 1]; /* the sentences for it */
static size_t wanted_size;

static void explain_refuses(const char *name, size_t lent_size, uint32_t refusal, size_t line)
{
    subject = name;
    struct job job = try_call(EXPLAIN, lines, lines_size, lent_size);
    check(says(&job, refusal, line), "explaining is refused");
}

/* Explains with enough text lent. */
static void explains(size_t lent_size)
{
    static struct told_steps back;
    struct job job = try_call(EXPLAIN, lines, lines_size, lent_size);
    int good = says(&job, 0, 0) && job.count == wanted_size;
    check(good, "the bytes are counted");
    check(good && memcmp(result, wanted, wanted_size) == 0, "the sentences are those of the steps");
    check(good && read_sentences(result, job.count, &back) && back.trail == judged_steps.trail && back.loop == judged_steps.loop &&
              memcmp(back.steps, judged_steps.steps, (back.trail + back.loop) * FOLLOWUP_STEP_BYTES) == 0,
          "the sentences lead back to the steps");
    texts_checked++;
}

/* Takes the steps that judging gave, and writes their sentences. Answers 0 where there are none, or too many. */
static int take_steps(const struct job *judged)
{
    if (counted(judged) == 0 || counted(judged) > FOLLOWUP_STEPS_BYTES)
        return 0;
    memcpy(judged_steps.steps, result, counted(judged));
    judged_steps.trail = judged->said.trail;
    judged_steps.loop = judged->said.loop;
    wanted_size = write_sentences(lines, lines_size, &judged_steps, wanted);
    return 1;
}

void try_explain(const struct job *judged)
{
    size_t lent_size = below(2) ? below(300) : 0;
    if (judged->said.refusal == 8 || judged->said.refusal == 11) {
        explain_refuses(subject, lent_size, judged->said.refusal, judged->said.line);
    } else if (judged->said.verdict == FOLLOWUP_SETTLES) {
        explain_refuses(subject, lent_size, 24, 0);
    } else if (take_steps(judged)) {
        explains(wanted_size + below(2) * below(100));
        explain_refuses(subject, wanted_size - 1, 25, 0);
        explain_refuses(subject, below(wanted_size), 25, 0);
    } else {
        check(0, "an endless sheet has steps");
    }
}

/* Judges the sheet and explains it. Answers what judging says. */
static struct followup_judge_reply judge_and_explain(const char *name)
{
    subject = name;
    struct job judged = try_call(JUDGE, lines, lines_size, FOLLOWUP_STEPS_BYTES);
    try_explain(&judged);
    return judged.said;
}

/* Endless sheets with their sentences. */
static const struct {
    const char *form, *sentences;
} to_explain[] = {
    {"K 1 2;B 1 1 2;H 1 2 3;R 1 7 8", "Rule 1, H line 1: kind 1 field 2 to kind 1 field 2, fresh, loop.\n"},
    {"K 1 2;B 1 1 2;H 1 2 3;R 1 0 0", "Rule 1, H line 1: kind 1 field 2 to kind 1 field 2, fresh, loop.\n"},
    {"K 1 2;B 1 1 2;H 1 3 1;R 1 7 7", "Rule 1, H line 1: kind 1 field 0 to kind 1 field 0, reaching, trail.\n"
                                      "Rule 1, H line 1: kind 1 field 1 to kind 1 field 1, fresh, loop.\n"},
    {"K 1 2;K 3 2;B 1 1 2;H 3 3 2;B 3 1 2;H 1 2 1;R 1 7 8", "Rule 1, H line 1: kind 1 field 2 to kind 3 field 1, fresh, loop.\n"
                                                            "Rule 2, H line 1: kind 3 field 1 to kind 1 field 2, carried, loop.\n"},
    {"K 1 2;K 2 2;K 3 2;B 1 1 2;H 2 3 1;B 2 1 2;H 3 3 1;B 3 1 2;H 1 1 3;R 1 1001 7",
     "Rule 1, H line 1: kind 1 field 1 to kind 2 field 1, fresh, loop.\n"
     "Rule 2, H line 1: kind 2 field 1 to kind 3 field 1, fresh, loop.\n"
     "Rule 3, H line 1: kind 3 field 1 to kind 1 field 1, carried, loop.\n"},
    {"K 9 1;K 10 1;K 64 6;B 9 1;H 64 1 1 1 1 1 1;B 64 1 1 1 1 1 1;H 10 1;H 10 1;H 10 1;H 64 2 2 2 2 2 1;B 64 1 1 1 1 1 2;H 64 2 2 2 2 2 3;R 9 0",
     "Rule 1, H line 1: kind 9 field 0 to kind 64 field 0, reaching, trail.\n"
     "Rule 2, H line 4: kind 64 field 0 to kind 64 field 0, reaching, trail.\n"
     "Rule 3, H line 1: kind 64 field 6 to kind 64 field 6, fresh, loop.\n"},
};

static void try_examples(void)
{
    for (size_t k = 0; k < sizeof to_explain / sizeof to_explain[0]; k++) {
        clear();
        sheet(to_explain[k].form);
        judge_and_explain(to_explain[k].form);
        struct job job = try_call(EXPLAIN, lines, lines_size, FOLLOWUP_SENTENCES_MAX);
        check(says(&job, 0, 0) && job.count == strlen(to_explain[k].sentences) && memcmp(result, to_explain[k].sentences, job.count) == 0,
              "the sentences");
    }
}

/* Rules whose numbers have three digits lead by their last H line from kind 10 to kind 64, which feeds itself: 54 of the longest sentences,
 * then that of the loop. */
static void longest_sentences(void)
{
    clear();
    kinds(64, 2);
    for (size_t rule = 1; rule <= 201; rule++)
        sheet("B 1 1 2;H 1 1 2");
    for (uint32_t kind = 10; kind < 64; kind++) {
        digits('B', kind, "12");
        for (size_t head = 1; head <= 3; head++)
            digits('H', kind, "12");
        digits('H', kind + 1, "12");
    }
    sheet("B 64 1 2;H 64 2 3;R 10 7 8");
}

/* A rule of five lines that copies a record and, by its last H line, leads on to that kind. */
static void copies_and_leads(uint32_t kind, uint32_t to, const char *marks)
{
    digits('B', kind, "123456");
    for (size_t head = 1; head <= 3; head++)
        digits('H', kind, "123456");
    digits('H', to, marks);
}

/* An endless sheet of 2,368 lines. Its loop goes through the 64 kinds five times: one field differs from the others, and only where it has
 * come to the last place is there a fresh number that depends on it. */
static void largest_endless(void)
{
    clear();
    kinds(64, 6);
    for (uint32_t rule = 0; rule < 191; rule++)
        copies_and_leads(rule % 64 + 1, rule % 64 + 1, "123456");
    for (uint32_t kind = 1; kind < 64; kind++)
        copies_and_leads(kind, kind + 1, "123456");
    copies_and_leads(64, 1, "612345");
    sheet("B 64 1 2 3 4 5 6;H 1 6 7 6 6 6 6;H 1 6 7 6 6 6 6;H 1 6 7 6 6 6 6;H 1 6 7 6 6 6 6");
    for (size_t row = 0; row < FOLLOWUP_ROWS_MAX; row++)
        digits('R', 64, "777777");
}

static void try_limits(void)
{
    longest_sentences();
    struct followup_judge_reply said = judge_and_explain("the longest sentences");
    check(said.trail == 54 && said.loop == 1 && wanted_size == 54 * 73 + 69, "54 sentences of 73 bytes");
    explains(FOLLOWUP_SENTENCES_MAX);
    explains(MILLION);
    largest_endless();
    check(lines_size == FOLLOWUP_SHEET_LINES_BYTES, "the size");
    said = judge_and_explain("2,368 lines of an endless sheet");
    check(said.verdict == FOLLOWUP_ENDLESS && said.loop >= 320, "a long loop");
    explains(FOLLOWUP_SENTENCES_MAX);
    digits('R', 64, "777777");
    explain_refuses("2,369 lines", FOLLOWUP_SENTENCES_MAX, 8, 2369);
}

static void try_refusals(void)
{
    clear();
    sheet("K 1 2;B 1 1 2;H 1 2 3;R 1 7 8");
    explain_refuses("one byte short", 64, 25, 0);
    explain_refuses("no text lent", 0, 25, 0);
    sheet("H 1 1 1");
    explain_refuses("a wrong fifth line", FOLLOWUP_SENTENCES_MAX, 8, 5);
    explain_refuses("a wrong fifth line, before 25", 0, 8, 5);
    clear();
    sheet("K 1 2;B 1 1 2;H 1 1 3;R 1 7 8");
    explain_refuses("a sheet that settles", FOLLOWUP_SENTENCES_MAX, 24, 0);
    explain_refuses("a sheet that settles, before 25", 0, 24, 0);
    sheet("H 1 1 1");
    explain_refuses("a wrong fifth line, before 24", FOLLOWUP_SENTENCES_MAX, 8, 5);
    endless_of_609_shapes();
    explain_refuses("609 shapes", FOLLOWUP_SENTENCES_MAX, 11, 0);
    explain_refuses("609 shapes, before 25", 0, 11, 0);
    sheet("K 5 1");
    explain_refuses("a wrong last line, before 11", 0, 8, line_count());
}

static void try_lengths(void)
{
    clear();
    sheet("K 1 2;B 1 1 2;H 1 3 1;R 1 7 7;R 1 8 8");
    size_t whole = 4 * FOLLOWUP_LINE_BYTES, size = 134;
    subject = "odd lengths";
    for (size_t more = 0; more < FOLLOWUP_LINE_BYTES; more++) {
        struct job job = try_call(EXPLAIN, lines, whole + more, 200);
        check(more < 4 ? says(&job, 0, 0) && job.count == size : says(&job, 8, 5), "a part of a number is left out, a part of a line refused");
    }
    for (size_t lent_size = 0; lent_size < size + 20; lent_size++) {
        struct job job = try_call(EXPLAIN, lines, whole, lent_size);
        check(lent_size < size ? says(&job, 25, 0) : says(&job, 0, 0) && job.count == size, "text as long as the sentences, and shorter");
    }
    for (size_t lines_len = 0; lines_len < 4; lines_len++) {
        struct job job = try_call(EXPLAIN, (const uint8_t *)"abc", lines_len, lines_len);
        check(says(&job, 24, 0), "no whole number is no line");
    }
}

/* Lengths of 0, at pointers that cannot be followed, NULL among them. */
static void try_no_lines(void)
{
    uint8_t *nowhere[3] = {NULL, (uint8_t *)1, input_end};
    uint8_t lent[100], held[100];
    subject = "length 0";
    clear();
    sheet("K 1 2;B 1 1 2;H 1 2 3;R 1 7 8");
    for (size_t k = 0; k < 3; k++) {
        struct followup_reply said = followup_explain(nowhere[k], 0, nowhere[k], 0);
        check(said.refusal == 24 && said.line == 0 && said.count == 0, "no lines and no text");
        said = followup_explain(lines, lines_size, nowhere[k], 0);
        check(said.refusal == 25 && said.line == 0 && said.count == 0, "no text");
        fill(lent, sizeof lent);
        memcpy(held, lent, sizeof held);
        said = followup_explain(nowhere[k], 0, lent, sizeof lent);
        check(said.refusal == 24 && said.line == 0 && said.count == 0, "no lines");
        check(memcmp(lent, held, sizeof held) == 0, "nothing is written");
    }
}

void try_explaining(void)
{
    begin_group(small_stack ? "explaining, on a small stack" : "explaining");
    try_examples();
    try_limits();
    try_refusals();
    try_lengths();
    try_no_lines();
    end_group();
}
