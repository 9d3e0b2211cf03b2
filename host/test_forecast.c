/* Tries the forecast: examples, figures at the limit, each refusal and odd lengths. */
#include "test_forecast.h"
#include "check_figures.h"
#include "test_carry.h"

static void check_bounds(const struct job *job, const struct job *carried)
{
    check(carried->count <= job->foretold.records, "carrying out leaves no more records");
    check(carried->firings <= job->foretold.pairs, "no more pairs of rule and carried values fire");
    check(carried->count <= FOLLOWUP_RECORDS && values_in(lines, lines_size, result, carried->count) <= job->foretold.values,
          "the records hold no more different values");
}

void try_forecast(const struct job *judged, const struct job *carried)
{
    struct job job = try_call(FORECAST, lines, lines_size, 0);
    if (judged->said.refusal == 8 || judged->said.refusal == 11)
        check(says(&job, judged->said.refusal, judged->said.line), "the forecast refuses what judging refuses");
    else if (judged->said.verdict == FOLLOWUP_ENDLESS)
        check(says(&job, 21, 0), "there is no forecast of an endless sheet");
    else
        check(says(&job, 0, 0) && figures_hold(lines, lines_size, judged->said.deepest, &job.foretold),
              "the figures are those of the sheet");
    if (carried->said.refusal == 0)
        check_bounds(&job, carried);
}

/* Foretells of the sheet, judges it and carries it out. */
static void foretells(const char *name, uint64_t values, uint64_t records, uint64_t pairs)
{
    subject = name;
    struct job job = try_call(FORECAST, lines, lines_size, 0);
    check(says(&job, 0, 0), "not refused");
    check(job.foretold.values == values && job.foretold.records == records && job.foretold.pairs == pairs, "the figures");
    struct job judged = try_call(JUDGE, lines, lines_size, FOLLOWUP_STEPS_BYTES);
    struct job carried = try_carry(&judged);
    try_forecast(&judged, &carried);
}

static void forecast_refuses(const char *name, uint32_t refusal, size_t line)
{
    subject = name;
    struct job job = try_call(FORECAST, lines, lines_size, 0);
    check(says(&job, refusal, line), "the forecast is refused");
}

/* Sheets with their values, records and pairs. */
static const struct {
    const char *form;
    uint64_t values, records, pairs;
} to_foretell[] = {
    {"", 0, 0, 0},
    {"K 1 2;B 1 1 2;H 1 1 3;R 1 7 8", 4, 16, 4},
    {"K 1 1;K 2 1;K 3 2;B 1 1;H 2 2;B 2 1;H 3 1 2;R 1 5", 5, 35, 6},
    {"K 1 1;K 2 2;B 1 1;H 2 2 3;H 2 3 2;R 1 4;R 1 8", 4, 20, 1},
    {"K 1 2;B 1 1 2;H 1 2 3", 0, 0, 0},
    {"K 1 1;K 2 1;B 1 1;H 2 2", 0, 0, 1},
    {"K 1 1;R 1 3;R 1 4;R 1 3;R 1 4", 2, 2, 0},
    {"K 1 1;R 1 3;R 1 0;R 1 3;R 1 0", 3, 3, 0},
    {"K 1 2;B 1 1 1;H 1 2 1;R 1 0 0;R 1 0 0;R 1 7 7", 10, 100, 10},
    {"K 1 2;B 1 1 1;H 1 2 1;R 1 0 0;R 1 0 0", 4, 16, 4},
    {"K 1 2;K 2 2;B 1 1 2;H 2 2 3;R 1 0 4;R 1 3 4;R 1 0 4;R 1 3 4", 8, 128, 8},
    {"K 1 1;K 2 2;K 3 2;B 1 1;H 2 1 1;B 2 1 1;H 3 1 2;R 1 0", 2, 10, 4},
    {"K 1 1;K 2 3;B 2 1 1 1;H 2 1 1 1;R 1 5;R 1 6", 2, 10, 2},
    {"K 1 2;B 1 1 1;H 1 2 1;R 1 7 7", 2, 4, 2},
    {"K 1 6;K 64 6;B 1 1 2 3 4 5 6;H 64 7 8 9 10 11 12;R 1 1 2 3 4 5 6", 12, 5971968, 1},
};

static void try_examples(void)
{
    for (size_t k = 0; k < sizeof to_foretell / sizeof to_foretell[0]; k++) {
        clear();
        sheet(to_foretell[k].form);
        foretells(to_foretell[k].form, to_foretell[k].values, to_foretell[k].records, to_foretell[k].pairs);
    }
}

/* Fifteen kinds, of width 1 (four), 2 (six), 3 (four) and 4: of 255 values 4,294,967,295 records, one less than the fourth power of 256. */
static void fifteen_kinds(void)
{
    clear();
    sheet("K 1 1;K 2 1;K 3 1;K 4 1;K 5 2;K 6 2;K 7 2;K 8 2;K 9 2;K 10 2;K 11 3;K 12 3;K 13 3;K 14 3;K 15 4");
}

/* Adds a rule, or other lines, so often. */
static void rules(size_t count, const char *form)
{
    while (count-- > 0)
        sheet(form);
}

/* Rules that carry as many marks as the fifteen kinds have fields, and make nothing fresh. */
static void fifteen_rules(void)
{
    rules(4, "B 1 1;H 1 1");
    rules(6, "B 5 1 2;H 5 1 2");
    rules(4, "B 11 1 2 3;H 11 1 2 3");
    rules(1, "B 15 1 2 3 4;H 15 1 2 3 4");
}

/* Fourteen rules that each make a fresh mark: with the 255 values of the rows 4,294,967,295. */
static void fresh_rules(void)
{
    clear();
    sheet("K 1 1;K 2 2;K 3 3;K 4 4;K 5 5");
    rules(3, "B 1 1;H 5 1 2 2 2 2");
    rules(6, "B 2 1 2;H 5 1 2 3 3 3");
    rules(4, "B 3 1 2 3;H 5 1 2 3 4 4");
    rules(1, "B 4 1 2 3 4;H 5 1 2 3 4 5");
}

static void try_figures(void)
{
    fifteen_kinds();
    rows(255);
    foretells("4,294,967,295 records", 255, 4294967295, 0);
    fifteen_kinds();
    sheet("K 16 1");
    rows(255);
    foretells("255 records more", 255, FOLLOWUP_BEYOND, 0);
    fifteen_kinds();
    rules(255, "R 1 0");
    foretells("4,294,967,295 records of zeros", 255, 4294967295, 0);
    sheet("R 1 0");
    foretells("a 0 more", 256, FOLLOWUP_BEYOND, 0);
    clear();
    sheet("K 1 6");
    rules(FOLLOWUP_ROWS_MAX, "R 1 0 0 0 0 0 0");
    foretells("6,144 zeros", 6144, FOLLOWUP_BEYOND, 0);
    fifteen_kinds();
    fifteen_rules();
    rows(255);
    foretells("4,294,967,295 pairs", 255, 4294967295, 4294967295);
    fifteen_kinds();
    fifteen_rules();
    sheet("B 2 1;H 2 2");
    rows(255);
    foretells("one pair more", 255, 4294967295, FOLLOWUP_BEYOND);
    fresh_rules();
    rows(255);
    foretells("4,294,967,295 values", 4294967295, FOLLOWUP_BEYOND, FOLLOWUP_BEYOND);
    fresh_rules();
    sheet("B 1 1;H 5 2 2 2 2 2");
    rows(255);
    foretells("one value more", FOLLOWUP_BEYOND, FOLLOWUP_BEYOND, FOLLOWUP_BEYOND);
}

static void try_refusals(void)
{
    clear();
    sheet("K 1 2;B 1 1 2;H 1 2 3;R 1 7 8");
    forecast_refuses("an endless sheet", 21, 0);
    sheet("H 1 1 1");
    forecast_refuses("a wrong fifth line, before 21", 8, 5);
    endless_of_609_shapes();
    forecast_refuses("609 shapes, before 21", 11, 0);
    sheet("K 5 1");
    forecast_refuses("a wrong last line, before 11", 8, line_count());
}

static void try_lengths(void)
{
    clear();
    sheet("K 1 1;K 2 1;B 1 1;H 2 2;R 1 5;R 1 6");
    size_t whole = 5 * FOLLOWUP_LINE_BYTES;
    subject = "odd lengths";
    for (size_t more = 0; more < FOLLOWUP_LINE_BYTES; more++) {
        struct job job = try_call(FORECAST, lines, whole + more, 0);
        check(more < 4 ? says(&job, 0, 0) && job.foretold.values == 2 : says(&job, 8, 6),
              "a part of a number is left out, a part of a line refused");
    }
    for (size_t size = 0; size < 4; size++) {
        struct job job = try_call(FORECAST, (const uint8_t *)"abc", size, 0);
        check(says(&job, 0, 0) && job.foretold.values == 0 && job.foretold.records == 0, "no whole number is no line");
    }
}

/* Length 0, at pointers that cannot be followed, NULL among them. */
static void try_no_lines(void)
{
    const uint8_t *nowhere[3] = {NULL, (const uint8_t *)1, input_end};
    subject = "length 0";
    for (size_t k = 0; k < 3; k++) {
        struct followup_forecast_reply said = followup_forecast(nowhere[k], 0);
        check(said.refusal == 0 && said.line == 0 && said.values == 0 && said.records == 0 && said.pairs == 0, "no lines");
    }
}

void try_forecasting(void)
{
    begin_group(small_stack ? "forecast, on a small stack" : "forecast");
    try_examples();
    try_figures();
    try_refusals();
    try_lengths();
    try_no_lines();
    end_group();
}
