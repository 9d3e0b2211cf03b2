/* Tries carrying out: examples, limits, each refusal, lent memory and odd lengths. */
#include "test_carry.h"
#include "check_records.h"

#include <stdio.h>
#include <string.h>

#define MILLION ((size_t)1000000)

unsigned long runs_checked;

struct job try_carry(const struct job *judged)
{
    struct job job = try_call(CARRY, lines, lines_size, FOLLOWUP_RECORDS_BYTES + below(100));
    if (judged->said.refusal == 8 || judged->said.refusal == 11)
        check(says(&job, judged->said.refusal, judged->said.line), "carrying out refuses what judging refuses");
    else if (judged->said.verdict == FOLLOWUP_ENDLESS)
        check(says(&job, 21, 0), "an endless sheet is not carried out");
    else
        check(says(&job, 0, 0) || says(&job, 22, 0) || says(&job, 23, 0), "a sheet that settles is carried out, or has too many records");
    check(job.said.refusal != 0 || !zero_among(lines, lines_size, result, job.count), "no record holds a 0");
    if (job.said.refusal == 0 && job.count <= 300) {
        runs_checked++;
        check(records_hold(lines, lines_size, result, job.count, job.firings), "the records and firings are those of the run");
    }
    return job;
}

/* Sheets with their records, in short form, and the count of firings. */
static const struct {
    const char *form, *records;
    size_t firings;
} carried_out[] = {
    {"", "", 0},
    {"K 1 2;B 1 1 2;H 1 2 3", "", 0},
    {"K 1 1;R 1 3;R 1 4;R 1 3;R 1 4", "R 1 3;R 1 4", 0},
    {"K 1 2;B 1 1 2;H 1 1 3;R 1 7 8", "R 1 7 8;R 1 7 9", 1},
    {"K 1 1;K 2 2;B 1 1;H 2 2 3;H 2 3 2;R 1 4;R 1 8", "R 1 4;R 1 8;R 2 9 10;R 2 10 9", 1},
    {"K 1 1;K 2 2;K 3 3;B 1 1;H 2 1 2;B 2 1 2;H 3 2 1 3;H 1 1;R 1 5;R 1 9;R 1 5",
     "R 1 5;R 1 9;R 2 5 10;R 2 9 11;R 3 10 5 12;R 3 11 9 13", 4},
    {"K 1 1;K 2 1;B 1 1;H 2 2;B 1 1;H 2 2;R 1 5;R 1 6", "R 1 5;R 1 6;R 2 7;R 2 8", 2},
    {"K 1 2;K 2 2;B 1 1 1;H 2 1 2;R 1 7 8;R 1 8 8;R 1 7 7", "R 1 7 8;R 1 8 8;R 1 7 7;R 2 8 9;R 2 7 10", 2},
    {"K 1 1;K 2 2;K 3 2;B 1 1;H 2 1 2;B 1 1;H 3 1 2;R 1 1;R 1 2", "R 1 1;R 1 2;R 2 1 3;R 3 1 4;R 2 2 5;R 3 2 6", 4},
    {"K 1 6;K 2 6;B 1 1 2 3 4 5 6;H 2 7 8 9 10 11 12;H 2 12 11 10 9 8 7;H 2 1 2 3 4 5 6;H 2 6 12 5 11 4 10;R 1 1 2 3 4 5 6",
     "R 1 1 2 3 4 5 6;R 2 7 8 9 10 11 12;R 2 12 11 10 9 8 7;R 2 1 2 3 4 5 6;R 2 6 12 5 11 4 10", 1},
    {"K 1 1;K 2 1;B 1 1;H 2 2;R 1 99999998", "R 1 99999998;R 2 99999999", 1},
    {"K 1 1;K 64 1;B 1 1;H 64 1;R 1 99999999", "R 1 99999999;R 64 99999999", 1},
    /* labels that are not given */
    {"K 1 2;B 1 1 1;H 1 2 1;R 1 0 0;R 1 0 0;R 1 7 7", "R 1 8 9;R 1 10 11;R 1 7 7;R 1 12 7", 1},
    {"K 1 2;K 2 2;B 1 1 2;H 2 2 3;R 1 0 4;R 1 3 4;R 1 0 4;R 1 3 4", "R 1 5 4;R 1 3 4;R 1 6 4;R 2 4 7", 1},
    {"K 1 1;R 1 3;R 1 0;R 1 3;R 1 0", "R 1 3;R 1 4;R 1 5", 0},
    {"K 1 2;R 1 0 0;R 1 0 0", "R 1 1 2;R 1 3 4", 0},
    {"K 1 1;K 2 1;B 1 1;H 2 2;R 1 0", "R 1 1;R 2 2", 1},
    {"K 1 3;K 2 1;R 2 0;R 1 0 5 0;R 2 5;R 1 9 0 9", "R 2 10;R 1 11 5 12;R 2 5;R 1 9 13 9", 0},
    {"K 1 1;K 2 2;K 3 2;B 1 1;H 2 1 1;B 2 1 1;H 3 1 2;R 1 0", "R 1 1;R 2 1 1;R 3 1 2", 2},
    {"K 1 1;K 2 2;B 1 1;H 2 1 2;R 1 0;R 1 0;R 1 7;R 1 7", "R 1 8;R 1 9;R 1 7;R 2 8 10;R 2 9 11;R 2 7 12", 3},
    {"K 1 2;K 2 2;B 1 1 1;H 2 1 2;B 2 1 2;H 1 2 2;R 1 0 0", "R 1 1 2", 0},
    {"K 1 2;R 1 99999998 0", "R 1 99999998 99999999", 0},
    {"K 1 2;R 1 0 99999998", "R 1 99999999 99999998", 0},
    {"K 1 2;K 2 1;B 1 1 2;H 2 3;R 1 0 99999996;R 1 0 99999996", "R 1 99999997 99999996;R 1 99999998 99999996;R 2 99999999", 1},
};

static void try_examples(void)
{
    static uint8_t want[ROOM];
    for (size_t k = 0; k < sizeof carried_out / sizeof carried_out[0]; k++) {
        subject = carried_out[k].form;
        clear();
        sheet(carried_out[k].records);
        size_t size = lines_size;
        memcpy(want, lines, size);
        clear();
        sheet(carried_out[k].form);
        struct job judged = try_call(JUDGE, lines, lines_size, FOLLOWUP_STEPS_BYTES);
        struct job job = try_carry(&judged);
        check(says(&job, 0, 0) && job.count * FOLLOWUP_LINE_BYTES == size && job.firings == carried_out[k].firings, "the counts");
        check(memcmp(result, want, size) == 0, "the records");
    }
}

static void carry_refuses(const char *name, size_t lent_size, uint32_t refusal, size_t line)
{
    subject = name;
    struct job job = try_call(CARRY, lines, lines_size, lent_size);
    check(says(&job, refusal, line), "carrying out is refused");
}

/* P(1)->Q(1), T(1), U(1) with a further rule: with 1,024 rows of P 4,096 records, but for the rule. */
static void three_each(const char *rule)
{
    clear();
    sheet("K 1 1;K 2 1;K 3 1;K 4 1;K 5 1;K 6 2;B 1 1;H 2 1;H 3 1;H 4 1");
    sheet(rule);
}

/* These rules and 1,024 rows, the last of which has that value. */
static void full(const char *rule, uint32_t last)
{
    three_each(rule);
    rows(1023);
    add('R', (uint32_t[]){1, last}, 2);
}

/* These rules and 1,024 rows: zeros, and last that value. */
static void zeros_and_a_value(const char *rule, uint32_t last)
{
    three_each(rule);
    for (size_t row = 0; row < 1023; row++)
        sheet("R 1 0");
    add('R', (uint32_t[]){1, last}, 2);
}

/* Carries the sheet out; its first rows have these values and the ones after them, its last the last. */
static void carries_full(const char *name, size_t firings, uint32_t first, uint32_t last)
{
    subject = name;
    struct job job = try_call(CARRY, lines, lines_size, FOLLOWUP_RECORDS_BYTES);
    check(says(&job, 0, 0) && job.count == FOLLOWUP_RECORDS && job.firings == firings, "the counts");
    for (uint32_t row = 0; row < 1024 && job.count == FOLLOWUP_RECORDS; row++)
        check(followup_line_number(result, row, 0) == 'R' && followup_line_number(result, row, 1) == 1 &&
                  followup_line_number(result, row, 2) == (row < 1023 ? first + row : last),
              "the rows");
    for (size_t row = 0; row < 1024 && job.count == FOLLOWUP_RECORDS; row++)
        for (uint32_t kind = 2; kind <= 4; kind++) {
            size_t at = 1024 + 3 * row + kind - 2;
            check(followup_line_number(result, at, 1) == kind && followup_line_number(result, at, 2) == followup_line_number(result, row, 2),
                  "a row's three records");
        }
}

static void try_limits(void)
{
    full("", 99999999);
    carries_full("4,096 records", 1024, 1, 99999999);
    full("B 1 1;H 1 1", 99999999);
    carries_full("4,096 records by two rules", 2048, 1, 99999999);
    zeros_and_a_value("", 7);
    carries_full("4,096 records of zeros", 1024, 8, 7);
    zeros_and_a_value("", 99998976);
    carries_full("1,023 zeros after 99,998,976", 1024, 99998977, 99998976);
    full("B 1 1;H 5 2", 1024);
    carry_refuses("4,097 records", FOLLOWUP_RECORDS_BYTES, 22, 0);
    full("B 1 1;H 5 2", 99999999);
    carry_refuses("22 before 23", FOLLOWUP_RECORDS_BYTES, 22, 0);
    full("B 1 1;H 6 1 2;B 6 1 2;H 6 2 3", 99999999);
    carry_refuses("21 before 22 and 23", FOLLOWUP_RECORDS_BYTES, 21, 0);
    clear();
    sheet("K 1 1;K 2 1;B 1 1;H 2 2;R 1 99999999");
    carry_refuses("a fresh number after 99,999,999", FOLLOWUP_RECORDS_BYTES, 23, 0);
    clear();
    sheet("K 1 1;K 2 2;B 1 1;H 2 2 3;R 1 99999998");
    carry_refuses("two fresh numbers after 99,999,998", FOLLOWUP_RECORDS_BYTES, 23, 0);
    clear();
    sheet("K 1 2;R 1 99999999 0");
    carry_refuses("a 0 after 99,999,999", FOLLOWUP_RECORDS_BYTES, 23, 0);
    clear();
    sheet("K 1 2;R 1 0 99999999");
    carry_refuses("a 0 before 99,999,999", FOLLOWUP_RECORDS_BYTES, 23, 0);
    clear();
    sheet("K 1 2;K 2 1;B 1 1 2;H 2 3;R 1 0 99999997;R 1 0 99999997");
    carry_refuses("two zeros and a fresh number after 99,999,997", FOLLOWUP_RECORDS_BYTES, 23, 0);
    zeros_and_a_value("B 1 1;H 5 2", 99999999);
    carry_refuses("zeros, 22 before 23", FOLLOWUP_RECORDS_BYTES, 22, 0);
    zeros_and_a_value("B 1 1;H 6 1 2;B 6 1 2;H 6 2 3", 99999999);
    carry_refuses("zeros, 21 before 22 and 23", FOLLOWUP_RECORDS_BYTES, 21, 0);
    zeros_and_a_value("", 99998977);
    carry_refuses("1,023 zeros after 99,998,977", FOLLOWUP_RECORDS_BYTES, 23, 0);
    clear();
    sheet("K 1 2;B 1 1 2;H 1 2 3;R 1 7 99999999");
    carry_refuses("an endless sheet, before 23", FOLLOWUP_RECORDS_BYTES, 21, 0);
    carry_refuses("12 before 21", FOLLOWUP_RECORDS_BYTES - 1, 12, 0);
    sheet("H 1 1 1");
    carry_refuses("a wrong fifth line, before 21", FOLLOWUP_RECORDS_BYTES, 8, 5);
    carry_refuses("12 before 8", FOLLOWUP_RECORDS_BYTES - 1, 12, 0);
    carry_refuses("no records lent", 0, 12, 0);
    endless_of_609_shapes();
    carry_refuses("609 shapes, before 21", FOLLOWUP_RECORDS_BYTES, 11, 0);
}

static void try_lengths(void)
{
    clear();
    sheet("K 1 1;K 2 1;B 1 1;H 2 2;R 1 5;R 1 6");
    size_t whole = 5 * FOLLOWUP_LINE_BYTES;
    subject = "odd lengths";
    for (size_t more = 0; more < FOLLOWUP_LINE_BYTES; more++) {
        struct job job = try_call(CARRY, lines, whole + more, FOLLOWUP_RECORDS_BYTES);
        check(more < 4 ? says(&job, 0, 0) && job.count == 2 : says(&job, 8, 6), "a part of a number is left out, a part of a line refused");
    }
    for (size_t size = FOLLOWUP_RECORDS_BYTES - 33; size < FOLLOWUP_RECORDS_BYTES + 34; size++) {
        struct job job = try_call(CARRY, lines, whole, size);
        check(size < FOLLOWUP_RECORDS_BYTES ? says(&job, 12, 0) : says(&job, 0, 0) && job.count == 2, "4,096 records, and fewer");
    }
    struct job job = try_call(CARRY, lines, whole, MILLION);
    check(says(&job, 0, 0) && job.count == 2 && job.firings == 1, "a million bytes of records");
    for (size_t size = 0; size < 4; size++) {
        job = try_call(CARRY, (const uint8_t *)"abc", size, FOLLOWUP_RECORDS_BYTES);
        check(says(&job, 0, 0) && job.count == 0 && job.firings == 0, "no whole number is no line");
    }
}

/* Lengths of 0, at pointers that cannot be followed, NULL among them. */
static void try_no_lines(void)
{
    static uint8_t records[FOLLOWUP_RECORDS_BYTES], held[FOLLOWUP_RECORDS_BYTES];
    uint8_t *nowhere[3] = {NULL, (uint8_t *)1, input_end};
    subject = "length 0";
    for (size_t k = 0; k < 3; k++) {
        struct followup_carry_reply said = followup_carry(nowhere[k], 0, nowhere[k], 0);
        check(said.refusal == 12 && said.line == 0 && said.records == 0 && said.firings == 0, "no records lent");
        fill(records, sizeof records);
        memcpy(held, records, sizeof held);
        said = followup_carry(nowhere[k], 0, records, sizeof records);
        check(said.refusal == 0 && said.line == 0 && said.records == 0 && said.firings == 0, "no lines");
        check(memcmp(records, held, sizeof held) == 0, "no record is written");
    }
}

void try_carrying(void)
{
    begin_group(small_stack ? "carrying out, on a small stack" : "carrying out");
    try_examples();
    try_limits();
    try_lengths();
    try_no_lines();
    end_group();
}
