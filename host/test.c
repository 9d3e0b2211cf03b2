/* Tries the library through its C header: answers, refusals, lent memory, odd lengths, small stacks, threads, noise. */
#define _DEFAULT_SOURCE
#include "check_steps.h"
#include "test_carry.h"
#include "test_explain.h"
#include "test_forecast.h"

#include <pthread.h>
#include <stdio.h>
#include <string.h>

_Static_assert(sizeof(size_t) == 8, "x86-64");
_Static_assert(sizeof(struct followup_reply) == 24 && offsetof(struct followup_reply, line) == 8 && offsetof(struct followup_reply, count) == 16,
               "layout of a reply");
_Static_assert(sizeof(struct followup_judge_reply) == 80 && offsetof(struct followup_judge_reply, verdict) == 16 &&
                   offsetof(struct followup_judge_reply, loop) == 72,
               "layout of a judge's reply");
_Static_assert(sizeof(struct followup_forecast_reply) == 40 && offsetof(struct followup_forecast_reply, line) == 8 &&
                   offsetof(struct followup_forecast_reply, values) == 16 && offsetof(struct followup_forecast_reply, records) == 24 &&
                   offsetof(struct followup_forecast_reply, pairs) == 32,
               "layout of the reply of the forecast");
_Static_assert(sizeof(struct followup_carry_reply) == 32 && offsetof(struct followup_carry_reply, line) == 8 &&
                   offsetof(struct followup_carry_reply, records) == 16 && offsetof(struct followup_carry_reply, firings) == 24,
               "layout of the reply of carrying out");
_Static_assert(sizeof(struct followup_span) == 16 && offsetof(struct followup_span, end) == 8, "layout of a span");
_Static_assert(sizeof(struct followup_step) == 10 && offsetof(struct followup_step, fresh) == 8, "layout of a step");

#define MILLION ((size_t)1000000)
#define ANY SIZE_MAX /* a figure that is the library's choice */

/* Whether each line of the text is found, and none beyond them. */
static int lines_found(void)
{
    size_t at = 0, number = 0;
    while (at < text_size) {
        const uint8_t *end = memchr(text + at, 10, text_size - at);
        struct followup_span span = followup_line_span(text, text_size, ++number);
        size_t next = end != NULL ? (size_t)(end - text) + 1 : at;
        if (span.start != at || span.end != next)
            return 0;
        if (end == NULL)
            break;
        at = next;
    }
    size_t beyond[3] = {number + 1, number + 2, SIZE_MAX};
    for (size_t k = 0; k < 3; k++) {
        struct followup_span span = followup_line_span(text, text_size, beyond[k]);
        if (span.start != at || span.end != at)
            return 0;
    }
    struct followup_span none = followup_line_span(text, text_size, 0);
    return none.start == 0 && none.end == 0;
}

/* Reads the sheet's text and writes its lines. */
static void try_both_ways(void)
{
    struct job job = try_call(READ, text, text_size, lines_size + below(100));
    check(says(&job, 0, 0) && job.count == line_count(), "the lines are counted");
    check(memcmp(result, lines, lines_size) == 0, "the lines are those of the text");
    job = try_call(WRITE, lines, lines_size, text_size + below(100));
    check(says(&job, 0, 0) && job.count == text_size, "the bytes are counted");
    check(memcmp(result, text, text_size) == 0, "the text is that of the lines");
}

/* Whether followup_step_at shows the steps that the last call counts, and none where the bytes hold none. */
static int steps_shown(size_t count)
{
    struct followup_step none = {0, 0, 0, 0, 0};
    size_t size = count * FOLLOWUP_STEP_BYTES + below(FOLLOWUP_STEP_BYTES);
    for (size_t k = 0; k < count; k++) {
        struct followup_step shown = followup_step_at(result, size, k), want = step_in(result, k);
        if (memcmp(&shown, &want, sizeof shown) != 0)
            return 0;
    }
    size_t beyond[4] = {count, count + 1, SIZE_MAX / 10, SIZE_MAX};
    for (size_t k = 0; k < 4; k++) {
        struct followup_step shown = followup_step_at(result, size, beyond[k]);
        if (memcmp(&shown, &none, sizeof shown) != 0)
            return 0;
    }
    return 1;
}

/* Judges the text of the sheet: as its lines are judged. */
static void try_judge_text(const struct job *judged)
{
    static uint8_t steps[FOLLOWUP_STEPS_BYTES];
    size_t size = counted(judged);
    memcpy(steps, result, size);
    struct job job = try_call(JUDGE_TEXT, text, text_size, FOLLOWUP_STEPS_BYTES + below(100));
    check(same_reply(&job, judged) && memcmp(result, steps, size) == 0, "the text is judged as its lines are");
}

/* Explains the lines, carries them out and foretells of them; `result` has the steps of judging. */
static void try_others(const struct job *judged)
{
    try_explain(judged);
    struct job carried = try_carry(judged);
    try_forecast(judged, &carried);
}

/* Judges the lines and, where it is not long, the text; explains the lines, carries them out, and foretells of them. */
static struct followup_judge_reply try_judge(void)
{
    struct job job = try_call(JUDGE, lines, lines_size, FOLLOWUP_STEPS_BYTES + below(100));
    if (text_size <= FOLLOWUP_TEXT_MAX)
        try_judge_text(&job);
    if (job.said.refusal == 0) {
        check(steps_shown(job.said.trail + job.said.loop), "each step is shown, and none beyond");
        check(job.said.shapes <= FOLLOWUP_SHAPES_MAX && job.said.fired <= FOLLOWUP_RULES_MAX && job.said.share <= 100, "figures in their range");
        check(steps_hold(lines, lines_size, result, &job.said), "row, trail, loop and steps are as document 01 says");
    }
    try_others(&job);
    return job.said;
}

/* Judges the sheet; the figures are verdict, deepest, shapes, fired, share, row, trail, loop. */
static void judges_as(const char *name, const size_t *want)
{
    subject = name;
    struct followup_judge_reply said = try_judge();
    size_t got[8] = {said.verdict, said.deepest, said.shapes, said.fired, said.share, said.row, said.trail, said.loop};
    check(said.refusal == 0, "not refused");
    for (size_t k = 0; k < 8; k++)
        check(want[k] == ANY || want[k] == got[k], "the figures");
}

static void judge_refuses(const char *name, uint32_t refusal, size_t line)
{
    subject = name;
    struct job job = try_call(JUDGE, lines, lines_size, FOLLOWUP_STEPS_BYTES);
    check(says(&job, refusal, line), "judging is refused");
    try_others(&job);
}

static void write_refuses(const char *name, size_t lent_size, uint32_t refusal, size_t line)
{
    subject = name;
    struct job job = try_call(WRITE, lines, lines_size, lent_size);
    check(says(&job, refusal, line), "writing is refused");
}

static void read_refuses(const char *name, size_t lent_size, uint32_t refusal, size_t line)
{
    subject = name;
    struct job job = try_call(READ, text, text_size, lent_size);
    check(says(&job, refusal, line), "reading is refused");
    check(text_size > 2000 || lines_found(), "each line is found");
    if (refusal == 7)
        return;
    job = try_call(JUDGE_TEXT, text, text_size, FOLLOWUP_STEPS_BYTES + below(100));
    check(says(&job, refusal, line), "judging the text passes the refusal on");
    job = try_call(JUDGE_TEXT, text, text_size, FOLLOWUP_STEPS_BYTES - 1 - below(100));
    check(says(&job, 12, 0), "12 before reading's refusals");
}

static void try_header(void)
{
    begin_group("numbers, steps, version and sentences");
    uint8_t bytes[32] = {1, 2, 3, 4, 255, 254, 253, 252};
    check(followup_u16(bytes) == 0x0201 && followup_u16(bytes + 1) == 0x0302 && followup_u16(bytes + 4) == 0xfeff, "u16");
    check(followup_u32(bytes) == 0x04030201u && followup_u32(bytes + 4) == 0xfcfdfeffu && followup_u32(bytes + 1) == 0xff040302u, "u32");
    followup_put_u32(bytes + 9, 0xfcfdfeffu);
    check(memcmp(bytes + 9, bytes + 4, 4) == 0 && bytes[8] == 0 && bytes[13] == 0, "put");
    uint8_t steps[20] = {0, 0, 0, 0, 0, 0, 0, 0, 0, 0, 0, 1, 4, 0, 5, 0, 6, 0, 1, 0};
    struct followup_step step = followup_step_at(steps, sizeof steps, 1);
    check(step.rule == 256 && step.head == 4 && step.from == 5 && step.to == 6 && step.fresh == 1, "step");
    for (size_t size = 0; size < sizeof steps; size++) {
        struct job job = {.call = STEP, .in = input_end - size, .in_len = size, .number = 1};
        memcpy(input_end - size, steps, size);
        make_call(&job);
        check(job.step.rule == 0 && job.step.head == 0 && job.step.from == 0 && job.step.to == 0 && job.step.fresh == 0, "no second step");
    }
    check(followup_version() == FOLLOWUP_VERSION, "the archive's number is the header's");
    for (uint32_t refusal = 0; refusal <= 30; refusal++) {
        const char *words = followup_refusal_text(refusal);
        int known = refusal <= 12 || (refusal >= 21 && refusal <= 25);
        check(words[0] != 0 && (strcmp(words, followup_refusal_text(UINT32_MAX)) != 0) == known, "a sentence for each refusal, one for all other numbers");
        for (uint32_t other = 0; other < refusal && known; other++)
            check(strcmp(words, followup_refusal_text(other)) != 0, "and for each its own");
    }
    check(FOLLOWUP_RECORDS_SHORT == FOLLOWUP_STEPS_SHORT, "12 has two names");
    check(FOLLOWUP_TEXT_LINES_BYTES == 52416 && FOLLOWUP_SHEET_LINES_BYTES == 75776 && FOLLOWUP_STEPS_BYTES == 40960 &&
              FOLLOWUP_RECORDS_BYTES == 131072 && FOLLOWUP_SENTENCES_MAX == FOLLOWUP_STEPS * 73,
          "sizes");
    check(FOLLOWUP_BEYOND > UINT32_MAX && FOLLOWUP_BEYOND - 1 == UINT32_MAX, "beyond is one more than the largest u32");
    end_group();
}

static void try_example(void)
{
    static const uint32_t want[4][8] = {{'K', 1, 2}, {'B', 1, 1, 2}, {'H', 1, 2, 3}, {'R', 1, 7, 8}};
    static const size_t figures[8] = {2, 0, 1, 1, 100, 1, 0, 1};
    static const uint8_t one_step[10] = {1, 0, 1, 0, 2, 0, 2, 0, 1, 0};
    begin_group("document 01's example");
    clear();
    raw("K        1        2\nB        1        1        2\nH        1        2        3\nR        1        7        8\n");
    struct job job = try_call(READ, text, text_size, FOLLOWUP_TEXT_LINES_BYTES);
    check(says(&job, 0, 0) && job.count == 4, "four lines");
    for (size_t line = 0; line < 4; line++)
        for (size_t k = 0; k < 8; k++)
            check(followup_line_number(result, line, k) == want[line][k], "a number of a line");
    clear();
    sheet("K 1 2;B 1 1 2;H 1 2 3;R 1 7 8");
    try_both_ways();
    judges_as("the example", figures);
    job = try_call(JUDGE, lines, lines_size, FOLLOWUP_STEPS_BYTES);
    check(says(&job, 0, 0) && memcmp(result, one_step, 10) == 0, "the one step");
    clear();
    sheet("K 1 2;B 1 1 2;H 1 2 3;R 1 0 0");
    try_both_ways();
    judges_as("the example with a row of zeros", figures);
    job = try_call(JUDGE, lines, lines_size, FOLLOWUP_STEPS_BYTES);
    check(says(&job, 0, 0) && memcmp(result, one_step, 10) == 0, "the one step");
    end_group();
}

static const struct {
    const char *name, *form;
    size_t figures[8];
} to_try[] = {
    {"empty text", "", {1, 0, 0, 0, 0, 0, 0, 0}},
    {"the example without its row", "K 1 2;B 1 1 2;H 1 2 3", {1, 0, 0, 0, 0, 0, 0, 0}},
    {"P(1)->P(2), row 5", "K 1 1;B 1 1;H 1 2;R 1 5", {1, 1, 1, 1, 100, 1, 1, 0}},
    {"P(1,2)->P(1,3), row 7 8", "K 1 2;B 1 1 2;H 1 1 3;R 1 7 8", {1, 1, 1, 1, 100, 1, ANY, 0}},
    {"P(1,2)->P(3,1), row 7 7", "K 1 2;B 1 1 2;H 1 3 1;R 1 7 7", {2, 0, 2, 1, 100, 1, 1, 1}},
    {"P(1,1)->P(2,1), row 7 8", "K 1 2;B 1 1 1;H 1 2 1;R 1 7 8", {1, 0, 1, 0, 0, 0, 0, 0}},
    {"P(1,1)->P(2,1), row 7 7", "K 1 2;B 1 1 1;H 1 2 1;R 1 7 7", {1, 1, 2, 1, 100, 1, 1, 0}},
    {"002, example 4.3", "K 1 4;K 2 2;B 1 1 2 1 3;H 2 1 4;B 2 1 2;H 1 1 1 2 2;R 1 5 6 5 7", {1, 1, 3, 2, 100, 1, ANY, 0}},
    {"P(1)->Q(1,2), Q(1,2)->P(2), row P 5", "K 1 1;K 2 2;B 1 1;H 2 1 2;B 2 1 2;H 1 2;R 1 5", {2, 0, 2, 2, 100, 1, ANY, 2}},
    {"P(1)->Q(2), Q(1)->T(1,2), row P 5", "K 1 1;K 2 1;K 3 2;B 1 1;H 2 2;B 2 1;H 3 1 2;R 1 5", {1, 2, 3, 2, 100, 1, 2, 0}},
    {"one rule of eight fired",
     "K 1 1;K 2 1;B 1 1;H 1 1;B 2 1;H 2 1;B 2 1;H 2 1;B 2 1;H 2 1;B 2 1;H 2 1;B 2 1;H 2 1;B 2 1;H 2 1;B 2 1;H 2 1;R 1 5",
     {1, 0, 1, 1, 12, 0, 0, 0}},
    {"three rules of eight fired",
     "K 1 1;K 2 1;B 1 1;H 1 1;B 1 1;H 1 1;B 1 1;H 1 1;B 2 1;H 2 1;B 2 1;H 2 1;B 2 1;H 2 1;B 2 1;H 2 1;B 2 1;H 2 1;R 1 5",
     {1, 0, 1, 3, 38, 0, 0, 0}},
    {"P(1,1)->P(2,1), row 0 0", "K 1 2;B 1 1 1;H 1 2 1;R 1 0 0", {1, 0, 1, 0, 0, 0, 0, 0}},
    {"P(1,1)->P(2,1), rows 0 0, 0 0, 7 7", "K 1 2;B 1 1 1;H 1 2 1;R 1 0 0;R 1 0 0;R 1 7 7", {1, 1, 2, 1, 100, 3, 1, 0}},
    {"P(1,1)->Q(1,2), Q(1,2)->P(2,2), row P 0 0", "K 1 2;K 2 2;B 1 1 1;H 2 1 2;B 2 1 2;H 1 2 2;R 1 0 0", {1, 0, 1, 0, 0, 0, 0, 0}},
    {"P(1,1)->Q(1,2), Q(1,2)->P(2,2), row P 7 7", "K 1 2;K 2 2;B 1 1 1;H 2 1 2;B 2 1 2;H 1 2 2;R 1 7 7", {2, 0, 2, 2, 100, 1, ANY, 2}},
    {"P(1,1)->Q(1,2), Q(1,2)->P(2,2), row Q 7 0", "K 1 2;K 2 2;B 1 1 1;H 2 1 2;B 2 1 2;H 1 2 2;R 2 7 0", {2, 0, 2, 2, 100, 1, ANY, 2}},
    {"P(1)->Q(1,1), Q(1,1)->T(1,2), row P 0", "K 1 1;K 2 2;K 3 2;B 1 1;H 2 1 1;B 2 1 1;H 3 1 2;R 1 0", {1, 1, 3, 2, 100, 1, 2, 0}},
    {"P(1,2)->P(3,1), row 0 0", "K 1 2;B 1 1 2;H 1 3 1;R 1 0 0", {2, 0, 1, 1, 100, 1, 0, 1}},
    {"the second row starts it", "K 1 1;K 2 1;B 2 1;H 2 2;R 1 5;R 2 5", {1, 1, 2, 1, 100, 2, 1, 0}},
    {"widths 1 to 6, largest numbers",
     "K 1 1;K 2 2;K 3 3;K 4 4;K 5 5;K 64 6;B 64 1 2 3 4 5 6;H 64 7 8 9 10 11 12;H 1 1;H 2 1 2;H 3 1 2 3;R 64 0 99999999 2 3 4 5",
     {2, 0, 4, 1, 100, 1, 0, 1}},
};

static void try_sheets(void)
{
    begin_group(small_stack ? "sheets to try, on a small stack" : "sheets to try");
    for (size_t k = 0; k < sizeof to_try / sizeof to_try[0]; k++) {
        clear();
        sheet(to_try[k].form);
        judges_as(to_try[k].name, to_try[k].figures);
        try_both_ways();
    }
    end_group();
}

/* Texts that reading refuses: lines in short form, then bytes as they stand. */
static const struct {
    const char *form, *rest;
    uint32_t refusal;
    size_t line;
} refused[] = {
    {"K 1 2;R 1 7 8", "R        1        7        8", 2, 3},
    {"", "K        1        2", 2, 1},
    {"K 1 1", "\n", 2, 2},
    {"K 1 1", "R        1       07\n", 2, 2},
    {"K 1 1", "R        1 00000000\n", 2, 2},
    {"K 1 1", "R        1123456789\n", 2, 2},
    {"K 1 1", "R        1      7 \n", 2, 2},
    {"K 1 1", "R        1         \n", 2, 2},
    {"K 1 1", "R        1       -7\n", 2, 2},
    {"K 1 1", "R        1\t       7\n", 2, 2},
    {"K 1 1", "R        1        7\r\n", 2, 2},
    {"K 1 1", "k        2        1\n", 2, 2},
    {"K 1 1", "\xff        2        1\n", 2, 2},
    {"K 1", "", 2, 1},
    {"K 1 1 1", "", 2, 1},
    {"K 1 1;B 1", "", 2, 2},
    {"K 1 1;R 1 1 2 3 4 5 6 7", "", 2, 2},
    {"H 1", "", 2, 1},
    {"K 1 1;R 1 5;K 2 1", "", 3, 3},
    {"K 1 1;B 1 1;H 1 1;K 2 1", "", 3, 4},
    {"H 1 1", "", 3, 1},
    {"K 1 1;R 1 1;H 1 1", "", 3, 3},
    {"K 1 1;R 1 1;B 1 1", "", 3, 3},
    {"K 1 1;B 1 1;B 1 1", "", 3, 3},
    {"K 1 1;B 1 1;R 1 1", "", 3, 3},
    {"K 1 1;B 1 1", "", 3, 3},
    {"K 1 1;H 9 1", "", 3, 2},
    {"K 0 1", "", 4, 1},
    {"K 65 1", "", 4, 1},
    {"K 1 1;K 1 1", "", 4, 2},
    {"K 2 1;K 1 1", "", 4, 2},
    {"K 1 0", "", 4, 1},
    {"K 1 7", "", 4, 1},
    {"K 1 1;R 2 5", "", 4, 2},
    {"K 1 1;R 99999999 5", "", 4, 2},
    {"K 1 1;R 1 5 6", "", 4, 2},
    {"K 1 2;B 1 1", "", 4, 2},
    {"K 1 2", "R        1        5\n", 4, 2},
    {"K 1 1;B 2 5", "", 4, 2},
    {"K 1 1;B 1 2", "", 5, 2},
    {"K 1 1;B 1 0", "", 5, 2},
    {"K 1 2;B 1 1 3", "", 5, 2},
    {"K 1 2;B 1 1 1;H 1 1 3", "", 5, 3},
    {"K 1 2;B 1 1 2;H 1 3 4;B 1 5 5", "", 5, 4},
    {"K 1 6;B 1 1 2 3 4 5 6;H 1 7 8 9 10 11 12;H 1 13 1 1 1 1 1", "", 5, 4},
    {"K 1 1;B 1 1;H 1 1;H 1 1;H 1 1;H 1 1;H 1 9", "", 5, 7},
    {"K 1 1;B 1 1;H 1 1;H 1 1;H 1 1;H 1 1;H 1 1", "", 6, 7},
};

static void try_reading(void)
{
    begin_group("refusals of reading");
    for (size_t k = 0; k < sizeof refused / sizeof refused[0]; k++) {
        clear();
        sheet(refused[k].form);
        raw(refused[k].rest);
        read_refuses(refused[k].form, FOLLOWUP_TEXT_LINES_BYTES, refused[k].refusal, refused[k].line);
        read_refuses(refused[k].form, 0, refused[k].refusal, refused[k].line);
    }
    clear();
    sheet("K 1 1");
    copy_rules(257, 1);
    read_refuses("257 rules", FOLLOWUP_TEXT_LINES_BYTES, 6, 514);
    clear();
    sheet("K 1 1");
    rows(1025);
    read_refuses("1,025 rows", FOLLOWUP_TEXT_LINES_BYTES, 6, 1026);
    clear();
    sheet("K 1 2;B 1 1 2;H 1 2 3;R 1 7 8");
    for (size_t size = 0; size < 4 * FOLLOWUP_LINE_BYTES; size++)
        read_refuses("fewer lines lent than there are", size, 7, size / FOLLOWUP_LINE_BYTES + 1);
    raw("x");
    read_refuses("2 before 7", 0, 2, 5);
    end_group();
}

/* A sheet of 32,768 bytes. */
static void longest_text(void)
{
    clear();
    sheet("K 1 6;K 2 2");
    for (size_t row = 0; row < 487; row++)
        sheet("R 1 1 2 3 4 5 6");
    for (size_t row = 0; row < 37; row++)
        sheet("R 2 1 99999999");
}

/* A sheet of 1,638 lines, the most that a text can have. */
static void most_lines(void)
{
    clear();
    kinds(64, 1);
    copy_rules(38, 2);
    copy_rules(218, 1);
    rows(1024);
}

static void try_text_limits(void)
{
    begin_group("limits of the text");
    subject = "32,768 bytes";
    longest_text();
    check(text_size == FOLLOWUP_TEXT_MAX, "the size");
    try_both_ways();
    try_judge();
    write_refuses("lent text too short", FOLLOWUP_TEXT_MAX - 1, 9, 0);
    write_refuses("no text lent", 0, 9, 0);
    raw("R");
    read_refuses("32,769 bytes", FOLLOWUP_TEXT_LINES_BYTES, 1, 0);
    read_refuses("1 before 7", 0, 1, 0);
    subject = "a million bytes of text";
    struct job job = try_call(READ, text, MILLION, FOLLOWUP_TEXT_LINES_BYTES);
    check(says(&job, 1, 0), "reading is refused");
    job = try_call(JUDGE_TEXT, text, MILLION, FOLLOWUP_STEPS_BYTES);
    check(says(&job, 1, 0), "judging the text is refused");
    subject = "1,638 lines";
    most_lines();
    check(line_count() == FOLLOWUP_TEXT_LINES && text_size <= FOLLOWUP_TEXT_MAX, "the size");
    try_both_ways();
    read_refuses("1,637 lines lent", FOLLOWUP_TEXT_LINES_BYTES - 1, 7, FOLLOWUP_TEXT_LINES);
    subject = "a million bytes of lines lent";
    job = try_call(READ, text, text_size, MILLION);
    check(says(&job, 0, 0) && memcmp(result, lines, lines_size) == 0, "the lines are those of the text");
    sheet("R 1 5");
    write_refuses("a row too many, before 1", 0, 8, FOLLOWUP_TEXT_LINES + 1);
    end_group();
}

/* Lent lines that are no sheet: numbers of one line after "K 1 2;B 1 1 2;H 1 2 3". */
static const uint32_t wrong_lines[][8] = {
    {'R', 1, 7, 100000000}, {'R', 1, 7, UINT32_MAX},    {'R', 1, 7, 8, 1},       {'R', 1, 7, 8, 0, 0, 0, 1}, {'R' + 256, 1, 7, 8},
    {0, 1, 7, 8},           {0},                        {'r', 1, 7, 8},          {'R', 2, 7, 8},             {'R', 0, 7, 8},
    {'R', UINT32_MAX, 7},   {'K', 2, 1},                {'H', 1, 1, 4 + 1},      {'H', 1, 0, 1},             {'H', 1, 1, 13},
    {'B', 1, 2, 1},         {'B', 1, 1, 1, 1},          {'H', 1, UINT32_MAX, 1}, {'X', 1, 1, 1},             {'R', 65, 1, 1},
    {'R', 257, 7, 8},       {'R', 0x80000001u, 7, 8}};

static void try_lent_lines(void)
{
    begin_group("refusals of lent lines");
    for (size_t k = 0; k < sizeof wrong_lines / sizeof wrong_lines[0]; k++) {
        clear();
        sheet("K 1 2;B 1 1 2;H 1 2 3");
        for (size_t n = 0; n < 8; n++)
            followup_put_u32(lines + lines_size + 4 * n, wrong_lines[k][n]);
        lines_size += FOLLOWUP_LINE_BYTES;
        write_refuses("a wrong fourth line", FOLLOWUP_TEXT_MAX, 8, 4);
        write_refuses("8 before 9", 0, 8, 4);
        judge_refuses("a wrong fourth line", 8, 4);
    }
    for (size_t k = 0; k < sizeof refused / sizeof refused[0]; k++) {
        if (refused[k].refusal == 2 || refused[k].rest[0] != 0)
            continue;
        clear();
        sheet(refused[k].form);
        write_refuses(refused[k].form, FOLLOWUP_TEXT_MAX, 8, refused[k].line);
        judge_refuses(refused[k].form, 8, refused[k].line);
    }
    clear();
    sheet("K 1 2;B 1 1 2;H 1 2 3;R 1 7 8;R 1 9 9");
    write_refuses("lent text one byte short", text_size - 1, 9, 0);
    end_group();
}

/* A sheet of 2,368 lines: 64 kinds, 256 rules of five lines, 1,024 rows. */
static void largest_sheet(void)
{
    clear();
    kinds(64, 6);
    for (uint32_t rule = 0; rule < 256; rule++) {
        digits('B', rule % 64 + 1, "123456");
        for (uint32_t head = 0; head < 4; head++)
            digits('H', (rule + head) % 64 + 1, head == 0 ? "123456" : "234561");
    }
    for (uint32_t row = 0; row < 1024; row++)
        digits('R', row % 64 + 1, row % 2 ? "123456" : "123455");
}

static void try_line_limits(void)
{
    begin_group(small_stack ? "limits of lent lines, on a small stack" : "limits of lent lines");
    subject = "2,368 lines";
    largest_sheet();
    check(lines_size == FOLLOWUP_SHEET_LINES_BYTES, "the size");
    struct followup_judge_reply said = try_judge();
    check(said.refusal == 0 && said.verdict == 1 && said.deepest == 0 && said.fired == 256, "the figures");
    write_refuses("its text is too long, before 9", 0, 1, 0);
    write_refuses("its text is too long", FOLLOWUP_TEXT_MAX, 1, 0);
    digits('R', 1, "123456");
    write_refuses("2,369 lines", FOLLOWUP_TEXT_MAX, 8, 2369);
    judge_refuses("2,369 lines", 8, 2369);
    for (; lines_size < MILLION; lines_size += FOLLOWUP_LINE_BYTES)
        memcpy(lines + lines_size, lines + lines_size - FOLLOWUP_LINE_BYTES, FOLLOWUP_LINE_BYTES);
    write_refuses("a million bytes of lines", FOLLOWUP_TEXT_MAX, 8, 2369);
    judge_refuses("a million bytes of lines", 8, 2369);
    clear();
    lines_size = MILLION;
    fill(lines, lines_size);
    write_refuses("a million bytes of noise", FOLLOWUP_TEXT_MAX, 8, 1);
    judge_refuses("a million bytes of noise", 8, 1);
    memset(lines, 0, lines_size);
    judge_refuses("a million zeros", 8, 1);
    end_group();
}

static void try_odd_lengths(void)
{
    begin_group("odd lengths");
    clear();
    sheet("K 1 2;B 1 1 2;H 1 2 3;R 1 7 8;R 1 9 9");
    size_t whole = 4 * FOLLOWUP_LINE_BYTES;
    for (size_t more = 0; more < FOLLOWUP_LINE_BYTES; more++) {
        size_t lines_len = whole + more;
        struct job job = try_call(WRITE, lines, lines_len, 200);
        check(more < 4 ? says(&job, 0, 0) && job.count == 107 : says(&job, 8, 5), "writing leaves a part of a number out, refuses a part of a line");
        job = try_call(JUDGE, lines, lines_len, FOLLOWUP_STEPS_BYTES);
        check(more < 4 ? says(&job, 0, 0) && job.said.loop == 1 : says(&job, 8, 5), "and so does judging");
        job = try_call(READ, text, 107, lines_len);
        check(says(&job, 0, 0) && job.count == 4, "reading leaves a part of a line alone");
    }
    for (size_t size = FOLLOWUP_STEPS_BYTES - 3; size < FOLLOWUP_STEPS_BYTES + 12; size++) {
        struct job job = try_call(JUDGE, lines, whole, size);
        check(size < FOLLOWUP_STEPS_BYTES ? says(&job, 12, 0) : says(&job, 0, 0), "4,096 steps, and fewer");
    }
    for (size_t size = FOLLOWUP_STEPS_BYTES - 3; size < FOLLOWUP_STEPS_BYTES + 12; size++) {
        struct job job = try_call(JUDGE_TEXT, text, 107, size);
        check(size < FOLLOWUP_STEPS_BYTES ? says(&job, 12, 0) : says(&job, 0, 0) && job.said.loop == 1, "4,096 steps, and fewer, for a text");
    }
    struct job job = try_call(JUDGE, lines, whole, MILLION);
    check(says(&job, 0, 0), "a million bytes of steps");
    job = try_call(JUDGE_TEXT, text, 107, MILLION);
    check(says(&job, 0, 0), "a million bytes of steps for a text");
    job = try_call(JUDGE, lines, whole - 4, FOLLOWUP_STEPS_BYTES - 2);
    check(says(&job, 12, 0), "12 before 8");
    end_group();
}

/* Lengths of 0, at pointers that cannot be followed, NULL among them. */
static void try_nothing(void)
{
    begin_group("length 0");
    uint8_t *nowhere[3] = {NULL, (uint8_t *)1, input_end};
    static uint8_t steps[FOLLOWUP_STEPS_BYTES];
    for (size_t k = 0; k < 3; k++) {
        struct followup_reply reply = followup_read(nowhere[k], 0, nowhere[k], 0);
        check(reply.refusal == 0 && reply.line == 0 && reply.count == 0, "reading");
        reply = followup_read((const uint8_t *)"x", 1, nowhere[k], 0);
        check(reply.refusal == 2 && reply.line == 1 && reply.count == 0, "reading into nothing");
        reply = followup_write(nowhere[k], 0, nowhere[k], 0);
        check(reply.refusal == 0 && reply.line == 0 && reply.count == 0, "writing");
        reply = followup_pattern(nowhere[k], 0);
        check(reply.refusal == 10 && reply.line == 0 && reply.count == 0, "pattern");
        struct followup_judge_reply said = followup_judge(nowhere[k], 0, nowhere[k], 0);
        check(said.refusal == 12 && said.line == 0 && said.verdict == 0, "judging without steps");
        said = followup_judge(nowhere[k], 0, steps, sizeof steps);
        check(said.refusal == 0 && said.line == 0 && said.verdict == 1 && said.shapes == 0, "judging no lines");
        said = followup_judge_text(nowhere[k], 0, nowhere[k], 0);
        check(said.refusal == 12 && said.line == 0 && said.verdict == 0, "judging a text without steps");
        said = followup_judge_text(nowhere[k], 0, steps, sizeof steps);
        check(said.refusal == 0 && said.line == 0 && said.verdict == 1 && said.shapes == 0, "judging no text");
        struct followup_span span = followup_line_span(nowhere[k], 0, k);
        check(span.start == 0 && span.end == 0, "a line of nothing");
        struct followup_step step = followup_step_at(nowhere[k], 0, 0);
        check(step.rule == 0 && step.head == 0 && step.from == 0 && step.to == 0 && step.fresh == 0, "a step of nothing");
    }
    for (size_t size = 0; size < 4; size++) {
        struct job job = try_call(WRITE, (const uint8_t *)"abc", size, size);
        check(says(&job, 0, 0) && job.count == 0, "no whole number is no line, writing");
        job = try_call(JUDGE, (const uint8_t *)"abc", size, FOLLOWUP_STEPS_BYTES);
        check(says(&job, 0, 0) && job.said.verdict == 1 && job.said.shapes == 0, "no whole number is no line, judging");
        job = try_call(READ, (const uint8_t *)"", 0, size);
        check(says(&job, 0, 0) && job.count == 0, "reading no text");
    }
    end_group();
}

/* The next pattern of that width by ascending digits; 0 where there is none. */
static int next_pattern(uint32_t *pattern, size_t width)
{
    for (size_t k = width; k-- > 1;) {
        uint32_t top = 0;
        for (size_t i = 0; i < k; i++)
            top = top < pattern[i] ? pattern[i] : top;
        if (pattern[k] <= top) {
            pattern[k]++;
            return 1;
        }
        pattern[k] = 1;
    }
    return 0;
}

/* Asks for the pattern of fields that are equal where its digits are, also with a part of one more number. */
static void try_pattern(const uint32_t *pattern, size_t width, size_t number)
{
    uint8_t fields[28];
    uint32_t base = (uint32_t)draw(), step = (uint32_t)draw() | 1;
    fill(fields, sizeof fields);
    for (size_t k = 0; k < width; k++)
        followup_put_u32(fields + 4 * k, base + step * pattern[k]);
    struct job job = try_call(PATTERN, fields, 4 * width + below(4), 0);
    check(says(&job, 0, 0) && job.count == number, "the number of a pattern");
}

/* Asks for the pattern of fields as they stand. */
static void try_zeros(const uint32_t *numbers, size_t width, size_t number)
{
    uint8_t fields[28];
    fill(fields, sizeof fields);
    for (size_t k = 0; k < width; k++)
        followup_put_u32(fields + 4 * k, numbers[k]);
    struct job job = try_call(PATTERN, fields, 4 * width + below(4), 0);
    check(says(&job, 0, 0) && job.count == number, "the number of a pattern with zeros");
}

/* The number of a pattern, counted from the first one of one field. */
static size_t number_of(const uint32_t *wanted, size_t width)
{
    size_t number = 0;
    for (size_t fields = 1; fields <= width; fields++) {
        uint32_t pattern[FOLLOWUP_WIDTH_MAX] = {1, 1, 1, 1, 1, 1};
        do {
            number++;
            if (fields == width && memcmp(pattern, wanted, width * sizeof pattern[0]) == 0)
                return number;
        } while (next_pattern(pattern, fields));
    }
    return 0;
}

/* Every pattern of every width with 0 in some of its fields: each of these is a group of its own. */
static void try_all_zeros(void)
{
    for (size_t width = 1; width <= FOLLOWUP_WIDTH_MAX; width++) {
        uint32_t pattern[FOLLOWUP_WIDTH_MAX] = {1, 1, 1, 1, 1, 1};
        do {
            for (unsigned zeros = 0; zeros < 1u << width; zeros++) {
                uint32_t fields[FOLLOWUP_WIDTH_MAX], want[FOLLOWUP_WIDTH_MAX], begun = 0;
                for (size_t k = 0; k < width; k++) {
                    size_t first = 0;
                    fields[k] = zeros >> k & 1 ? 0 : pattern[k];
                    while (first < k && (fields[k] == 0 || fields[first] != fields[k]))
                        first++;
                    want[k] = first < k ? want[first] : ++begun;
                }
                try_zeros(fields, width, number_of(want, width));
            }
        } while (next_pattern(pattern, width));
    }
}

static void try_patterns(void)
{
    size_t number = 0;
    begin_group("patterns");
    for (size_t width = 1; width <= FOLLOWUP_WIDTH_MAX; width++) {
        uint32_t pattern[FOLLOWUP_WIDTH_MAX] = {1, 1, 1, 1, 1, 1};
        do
            try_pattern(pattern, width, ++number);
        while (next_pattern(pattern, width));
    }
    check(number == FOLLOWUP_PATTERNS, "278 patterns");
    try_pattern((uint32_t[]){1, 1}, 2, 2);
    try_pattern((uint32_t[]){7, 4, 7, 9}, 4, 16);
    try_zeros((uint32_t[]){0}, 1, 1);
    try_zeros((uint32_t[]){0, 0}, 2, 3);
    try_zeros((uint32_t[]){0, 7, 7}, 3, 7);
    try_zeros((uint32_t[]){7, 0, 7, 0}, 4, 16);
    try_zeros((uint32_t[]){0, 0, 0, 0, 0, 0}, 6, 278);
    try_all_zeros();
    for (size_t size = 0; size < 100; size++) {
        struct job job = try_call(PATTERN, text, size, 0);
        check((job.said.refusal == 10) == (size < 4 || size >= 28), "10 where there is no field, or more than six");
    }
    struct job job = try_call(PATTERN, text, MILLION, 0);
    check(says(&job, 10, 0), "a million bytes of fields");
    end_group();
}

/* Rules that lead from kind to kind and, where `closed`, back to the first; each makes fresh numbers that depend on field 1. */
static void chain(uint32_t count, int closed)
{
    clear();
    kinds(count, 4);
    for (uint32_t kind = 1; kind < count + (closed ? 1 : 0); kind++) {
        digits('B', kind, "1234");
        digits('H', kind % count + 1, "5671");
    }
    digits('R', 1, "1234");
}

/* Rows of so many shapes, 15 patterns for each kind of width 4. */
static void rows_of_shapes(size_t count)
{
    size_t number = 0;
    clear();
    kinds((uint32_t)(count + 14) / 15, 4);
    for (uint32_t kind = 1; number < count; kind++) {
        uint32_t row[5] = {kind, 1, 1, 1, 1};
        do {
            add('R', row, 5);
            number++;
        } while (number < count && next_pattern(row + 1, 4));
    }
}

/* 511 shapes: 15 patterns in kind 1, copied from kind to kind up to 34; the last rule makes a fresh number in kind 35. */
static void copied_shapes(void)
{
    uint32_t row[5] = {1, 1, 1, 1, 1};
    clear();
    kinds(35, 4);
    for (uint32_t kind = 1; kind < 34; kind++) {
        digits('B', kind, "1234");
        digits('H', kind + 1, "1234");
    }
    sheet("B 34 1 1 1 1;H 35 2 2 2 2");
    do
        add('R', row, 5);
    while (next_pattern(row + 1, 4));
}

static void try_deep(void)
{
    begin_group(small_stack ? "deep sheets, on a small stack" : "deep sheets");
    chain(64, 0);
    judges_as("a chain of 64 kinds", (size_t[]){1, 63, 64, 63, 100, 1, 63, 0});
    try_both_ways();
    chain(60, 1);
    judges_as("a loop through 60 kinds", (size_t[]){2, 0, 60, 60, 100, 1, ANY, 60});
    try_both_ways();
    rows_of_shapes(512);
    judges_as("512 shapes", (size_t[]){1, 0, 512, 0, 0, 0, 0, 0});
    rows_of_shapes(513);
    judge_refuses("513 shapes", 11, 0);
    struct job job = try_call(JUDGE_TEXT, text, text_size, FOLLOWUP_STEPS_BYTES);
    check(says(&job, 11, 0), "judging the text is refused");
    copied_shapes();
    judges_as("511 shapes by rules", (size_t[]){1, 1, 511, 34, 100, 1, 34, 0});
    clear();
    sheet("K 1 1");
    copy_rules(256, 4);
    rows(1024);
    judges_as("256 rules", (size_t[]){1, 0, 1, 256, 100, 0, 0, 0});
    most_lines();
    subject = "1,638 lines";
    try_both_ways();
    try_judge();
    longest_text();
    subject = "32,768 bytes";
    try_both_ways();
    end_group();
}

static void try_small_stack(void)
{
    struct job job = {.call = NOTHING};
    small_stack = 1;
    call_on_small_stack(&job);
    try_sheets();
    try_deep();
    try_line_limits();
    try_explaining();
    try_carrying();
    try_forecasting();
    small_stack = 0;
    begin_group("stack");
    for (size_t call = 0; call < CALLS; call++) {
        check(stack_used[call] < FOLLOWUP_STACK, "there is some left");
        check(stack_used[call] < stack_used[NOTHING] + 256 * 1024, "no call needs 256 KiB itself");
    }
    snprintf(note, sizeof note,
             " (bytes used: %zu by a thread that calls nothing, %zu with reading, %zu with writing, %zu with judging, %zu with judging a text, "
             "%zu with explaining, %zu with the forecast, %zu with carrying out)",
             stack_used[NOTHING], stack_used[READ], stack_used[WRITE], stack_used[JUDGE], stack_used[JUDGE_TEXT], stack_used[EXPLAIN],
             stack_used[FORECAST], stack_used[CARRY]);
    end_group();
}

/* ---- threads at once ---- */

#define THREADS 8

static struct {
    struct job job, alone; /* the call, and what it answers while nobody else calls */
    uint8_t lines[8192], steps[FOLLOWUP_STEPS_BYTES], steps_alone[FOLLOWUP_STEPS_BYTES];
    unsigned differ;
} at_once[THREADS];

static pthread_barrier_t all_there;

static void *call_often(void *arg)
{
    size_t k = *(const size_t *)arg;
    pthread_barrier_wait(&all_there);
    for (int turn = 0; turn < 1000; turn++) {
        make_call(&at_once[k].job);
        if (!same_reply(&at_once[k].job, &at_once[k].alone) || memcmp(at_once[k].steps, at_once[k].steps_alone, counted(&at_once[k].alone)) != 0)
            at_once[k].differ++;
    }
    return NULL;
}

/* Each thread judges another sheet. */
static void prepare_threads(void)
{
    for (uint32_t k = 0; k < THREADS; k++) {
        chain(20 + 5 * k, k % 2);
        at_once[k].alone = try_call(JUDGE, lines, lines_size, FOLLOWUP_STEPS_BYTES);
        memcpy(at_once[k].steps_alone, result, counted(&at_once[k].alone));
        memcpy(at_once[k].lines, lines, lines_size);
        at_once[k].job = (struct job){
            .call = JUDGE, .in = at_once[k].lines, .in_len = lines_size, .out = at_once[k].steps, .out_len = FOLLOWUP_STEPS_BYTES};
    }
}

static void try_threads(void)
{
    pthread_attr_t attr;
    pthread_t threads[THREADS];
    size_t number[THREADS];
    begin_group("threads at once");
    prepare_threads();
    if (pthread_attr_init(&attr) != 0 || pthread_attr_setstacksize(&attr, FOLLOWUP_STACK) != 0)
        stop("pthread_attr_setstacksize");
    if (pthread_barrier_init(&all_there, NULL, THREADS) != 0)
        stop("pthread_barrier_init");
    for (size_t k = 0; k < THREADS; k++) {
        number[k] = k;
        if (pthread_create(&threads[k], &attr, call_often, &number[k]) != 0)
            stop("pthread_create");
    }
    for (size_t k = 0; k < THREADS; k++) {
        if (pthread_join(threads[k], NULL) != 0)
            stop("pthread_join");
        check(at_once[k].differ == 0, "each call answers as it does alone");
    }
    pthread_barrier_destroy(&all_there);
    pthread_attr_destroy(&attr);
    end_group();
}

/* ---- noise ---- */

/* Adds a line whose marks are right: a new one is one more than the largest so far. */
static void random_marks(char letter, const uint32_t *kind_width, uint32_t *top)
{
    uint32_t numbers[7] = {kind_width[0]};
    for (size_t k = 1; k <= kind_width[1]; k++) {
        uint32_t most = *top < FOLLOWUP_MARKS_MAX ? *top + 1 : *top;
        numbers[k] = (uint32_t)below(most) + 1;
        *top = numbers[k] > *top ? numbers[k] : *top;
    }
    add(letter, numbers, kind_width[1] + 1);
}

static void random_sheet(void)
{
    uint32_t kind[4][2], last = 0;
    size_t kind_count = 1 + below(4), rule_count = below(7), row_count = below(5), most = below(8) ? 3 : 6;
    clear();
    for (size_t k = 0; k < kind_count; k++) {
        kind[k][0] = last += 1 + (uint32_t)below(16);
        kind[k][1] = 1 + (uint32_t)below(most);
        add('K', kind[k], 2);
    }
    for (size_t rule = 0; rule < rule_count; rule++) {
        uint32_t top = 0;
        random_marks('B', kind[below(kind_count)], &top);
        for (size_t head = 1 + below(4); head > 0; head--)
            random_marks('H', kind[below(kind_count)], &top);
    }
    uint32_t least = (uint32_t)below(2); /* with zeros, or without */
    for (size_t row = 0; row < row_count; row++) {
        const uint32_t *of = kind[below(kind_count)];
        uint32_t numbers[7] = {of[0]};
        for (size_t k = 1; k <= of[1]; k++)
            numbers[k] = least + (uint32_t)below(4);
        add('R', numbers, of[1] + 1);
    }
}

static void try_random_sheets(void)
{
    size_t total = 0, good = 0, endless = 0, deep = 0;
    unsigned long runs = runs_checked, texts = texts_checked;
    begin_group("random sheets");
    while (total < MILLION) {
        random_sheet();
        total += text_size;
        try_both_ways();
        struct followup_judge_reply said = try_judge();
        check(said.refusal == 0 || says(&(struct job){.said = said}, 11, 0), "judged, or 11");
        good += said.refusal == 0;
        endless += said.verdict == FOLLOWUP_ENDLESS;
        deep += said.deepest > 1;
    }
    runs = runs_checked - runs;
    texts = texts_checked - texts;
    check(good > 0 && endless > 0 && deep > 0 && runs > 0 && texts == endless, "sheets of each sort");
    snprintf(note, sizeof note, " (%zu judged, %zu endless, %zu deeper than 1, %lu explained, %lu carried out)", good, endless, deep, texts,
             runs);
    end_group();
}

static void try_random_texts(void)
{
    static const char letters[] = "KBHR 0123456789\n        \n";
    begin_group("noise as text");
    for (size_t total = 0; total < MILLION; total += text_size) {
        clear();
        text_size = 1 + below(below(4) ? 300 : 33000);
        fill(text, text_size);
        if (below(2))
            for (size_t k = 0; k < text_size; k++)
                text[k] = (uint8_t)letters[text[k] % (sizeof letters - 1)];
        struct job job = try_call(READ, text, text_size, below(5000));
        check(text_size > FOLLOWUP_TEXT_MAX ? says(&job, 1, 0) : job.said.refusal == 2 && job.said.line > 0, "noise is refused");
        struct job judged = try_call(JUDGE_TEXT, text, text_size, FOLLOWUP_STEPS_BYTES);
        check(same_reply(&judged, &job), "and so is judging it");
    }
    end_group();
}

/* What writing and judging say of the same lent lines. */
static void try_lines_with_writing(void)
{
    struct job wrote = try_call(WRITE, lines, lines_size, FOLLOWUP_TEXT_MAX);
    if (wrote.said.refusal == 0) {
        text_size = wrote.count;
        memcpy(text, result, text_size);
        lines_size -= lines_size % 4;
        try_both_ways();
    }
    struct job judged = try_call(JUDGE, lines, lines_size, FOLLOWUP_STEPS_BYTES);
    if (wrote.said.refusal == 8)
        check(says(&judged, 8, wrote.said.line), "judging refuses the line that writing refuses");
    else
        check(says(&judged, 11, 0) || (judged.said.refusal == 0 && steps_hold(lines, lines_size, result, &judged.said)), "lines that writing takes are judged");
    try_others(&judged);
}

static void try_random_lines(void)
{
    begin_group("noise as lent lines");
    for (size_t total = 0; total < MILLION; total += lines_size + 1) {
        clear();
        lines_size = below(below(4) ? 600 : 90000);
        fill(lines, lines_size);
        if (below(2))
            for (size_t k = 0; k < lines_size; k++)
                lines[k] = k % 4 != 0 ? 0 : k % FOLLOWUP_LINE_BYTES == 0 ? (uint8_t)"KBHR"[lines[k] % 4] : lines[k] % 4;
        try_lines_with_writing();
    }
    end_group();
}

/* Changes, takes away or adds one byte. */
static void damage_text(void)
{
    static const char letters[] = "KBHR 0123456789\n\r\t";
    if (text_size == 0)
        return;
    size_t at = below(text_size), way = below(5);
    uint8_t byte = below(4) ? (uint8_t)letters[below(sizeof letters - 1)] : (uint8_t)draw();
    if (way == 0) {
        memmove(text + at, text + at + 1, --text_size - at);
    } else if (way == 1) {
        memmove(text + at + 1, text + at, text_size++ - at);
        text[at] = byte;
    } else if (way == 2) {
        text_size = at + 1;
    } else {
        text[at] = byte;
    }
}

static void try_damaged_texts(void)
{
    size_t total = 0, good = 0;
    begin_group("damaged texts");
    while (total < MILLION) {
        random_sheet();
        for (size_t more = 1 + below(3); more > 0; more--)
            damage_text();
        total += text_size;
        check(lines_found(), "each line is found");
        struct job job = try_call(READ, text, text_size, FOLLOWUP_TEXT_LINES_BYTES);
        check(job.said.refusal <= 6 && job.said.refusal != 1 && (job.said.refusal == 0) == (job.said.line == 0), "refused with 2 to 6 and a line, or read");
        if (job.said.refusal != 0) {
            struct job judged = try_call(JUDGE_TEXT, text, text_size, FOLLOWUP_STEPS_BYTES);
            check(same_reply(&judged, &job), "judging the text passes the refusal on");
            continue;
        }
        good++;
        lines_size = job.count * FOLLOWUP_LINE_BYTES;
        memcpy(lines, result, lines_size);
        try_both_ways();
        try_judge();
    }
    check(good > 0, "some are still sheets");
    end_group();
}

static void try_damaged_lines(void)
{
    begin_group("damaged lent lines");
    for (size_t total = 0; total < MILLION; total += lines_size) {
        random_sheet();
        for (size_t more = 1 + below(2); more > 0; more--) {
            size_t at = 4 * below(lines_size / 4), way = below(4);
            if (way == 0)
                lines_size = 4 + below(lines_size - 3);
            else if (way == 1)
                fill(lines + at, 4);
            else
                followup_put_u32(lines + at, (uint32_t)below(way == 2 ? 16 : 128));
        }
        try_lines_with_writing();
    }
    end_group();
}

int main(void)
{
    setvbuf(stdout, NULL, _IOLBF, 0); /* a crash is in the group after the last line printed */
    map_memory();
    try_header();
    try_example();
    try_sheets();
    try_reading();
    try_lent_lines();
    try_text_limits();
    try_line_limits();
    try_odd_lengths();
    try_nothing();
    try_patterns();
    try_deep();
    try_explaining();
    try_carrying();
    try_forecasting();
    try_small_stack();
    try_threads();
    try_random_sheets();
    try_random_texts();
    try_random_lines();
    try_damaged_texts();
    try_damaged_lines();
    if (failures == 0)
        printf("all %lu checks passed\n", checks);
    else
        printf("%lu of %lu checks failed\n", failures, checks);
    return failures == 0 ? 0 : 1;
}
