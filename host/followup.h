/* Follow-up sheets: reading, writing, judging, explaining and carrying them out, and what that comes to at most, from C99 or C++. Link
 * with libfollowup.a, which is built for x86-64 Linux (ELF, System V ABI, 64-bit pointers) and uses the C library's memcpy and memset
 * and nothing else.
 *
 * A sheet is a text; followup_judge_text says of it whether the follow-ups come to rest. In two steps: followup_read turns the text
 * into lines, eight numbers each, and followup_judge judges those lines. followup_explain says in sentences by which steps an endless
 * sheet never comes to rest. followup_carry carries the rules out on such lines and gives the records themselves; followup_forecast says
 * beforehand how many values, records and firings there are at most. The caller lends all memory.
 *
 * Numbers. Lent lines, fields and records are u32, lent steps are u16, each as its bytes, lowest first. A last part too short for
 * a number (up to 3 bytes of lines, fields or records, 1 byte of steps) counts as none and is never changed.
 *
 * Zeros. A 0 in an R line says that no label is given there. Each is a value of its own with generation 0 and equal to itself alone: equal
 * rows that hold a 0 are two records, and equal marks do not fit two zeros, but they fit one that a rule has carried to both fields. To
 * reading and writing 0 is a number as any other; marks are never 0.
 *
 * Pointers. A pointer may be NULL where its length is 0. Otherwise the whole length must be readable (const) or readable and
 * writable (lent). Alignment 1 suffices. No length may pass PTRDIFF_MAX. Lent memory must not overlap the input, and during
 * a call no other thread may write to the input or touch the lent memory.
 *
 * Answers. `refusal` is 0 where a call is good; followup_refusal_text has a sentence for each. On a refusal every other figure but
 * `line` is 0 and the lent memory holds what it held. A good call changes only what it counts in its answer.
 *
 * Threads. A call uses no heap, no global, no lock and no system call; any number of threads may call at once. A thread
 * that calls needs FOLLOWUP_STACK bytes of stack.
 *
 * Versions. FOLLOWUP_VERSION is the number of this interface, followup_version() the archive's. The functions below are inline and
 * call symbols whose names end in that number (followup_read_v1), so that a program does not link with an archive of
 * another interface. A caller in another language declares these symbols; their pointers must be non-null, also where
 * the length is 0.
 */
#ifndef FOLLOWUP_H
#define FOLLOWUP_H

#if !defined(__x86_64__) || defined(__ILP32__) || !defined(__linux__)
#error "libfollowup.a is built for x86-64 Linux with 64-bit pointers"
#endif

#include <stddef.h>
#include <stdint.h>

#ifdef __cplusplus
extern "C" {
#endif

/* The interface's number; a change of a layout, a size or a call gives another. */
#define FOLLOWUP_VERSION 1

/* Stack that suffices for a thread that makes any of the calls. test.c makes them on a stack of that size, filled with one byte
 * value, and looks how much of it has changed at the end: 264,600 bytes with carrying out, 252,356 with explaining, 248,324 with the
 * forecast, 248,100 with judging, 236,388 with judging a text, 109,936 with reading, 80,864 with writing, 4,464 with none (gcc -O2,
 * glibc). So no call needs 256 KiB itself. Some C libraries give a thread less where nothing is asked for (musl: 128 KiB); there set
 * the size of its stack (pthread_attr_setstacksize). */
#define FOLLOWUP_STACK ((size_t)264 * 1024)

/* Limits of a text and of a sheet. */
#define FOLLOWUP_TEXT_MAX 32768      /* bytes of a text */
#define FOLLOWUP_NUMBER_MAX 99999999 /* largest number in a column */
#define FOLLOWUP_KINDS_MAX 64        /* kinds are 1 to 64 */
#define FOLLOWUP_WIDTH_MAX 6         /* a kind has 1 to 6 fields */
#define FOLLOWUP_MARKS_MAX 12        /* marks of a rule are 1 to 12 */
#define FOLLOWUP_RULES_MAX 256       /* rules of a sheet */
#define FOLLOWUP_HEADS_MAX 4         /* a rule has 1 to 4 H lines */
#define FOLLOWUP_ROWS_MAX 1024       /* rows of a sheet */
#define FOLLOWUP_PATTERNS 278        /* patterns of 1 to 6 fields */
#define FOLLOWUP_SHAPES_MAX 512      /* shapes that the reachable records may show */

/* Sizes of lent memory. */
#define FOLLOWUP_LINE_BYTES 32    /* one line: eight u32 */
#define FOLLOWUP_FIELD_BYTES 4    /* one field: a u32 */
#define FOLLOWUP_STEP_BYTES 10    /* one step: five u16 */
#define FOLLOWUP_TEXT_LINES 1638  /* reading gives at most so many lines */
#define FOLLOWUP_SHEET_LINES 2368 /* a sheet has at most so many: 64 kinds, 256 rules of 5 lines, 1,024 rows */
#define FOLLOWUP_STEPS 4096       /* steps to lend, at least */
#define FOLLOWUP_RECORDS 4096     /* records to lend, at least; a record is a line */
#define FOLLOWUP_TEXT_LINES_BYTES ((size_t)FOLLOWUP_TEXT_LINES * FOLLOWUP_LINE_BYTES)   /* 52,416: enough for reading */
#define FOLLOWUP_SHEET_LINES_BYTES ((size_t)FOLLOWUP_SHEET_LINES * FOLLOWUP_LINE_BYTES) /* 75,776 */
#define FOLLOWUP_STEPS_BYTES ((size_t)FOLLOWUP_STEPS * FOLLOWUP_STEP_BYTES)             /* 40,960: enough for judging */
#define FOLLOWUP_RECORDS_BYTES ((size_t)FOLLOWUP_RECORDS * FOLLOWUP_LINE_BYTES)         /* 131,072: enough for carrying out */
#define FOLLOWUP_SENTENCES_MAX 299008                                                   /* enough for explaining: 4,096 sentences of 73 bytes */

/* What the forecast gives for a figure over 4,294,967,295. It is more than any u32, so that comparing a figure with one's room needs no
 * other test. */
#define FOLLOWUP_BEYOND ((uint64_t)4294967296)

/* Refusals. Lines count from 1; the line is 0 where none is named. What is said of read holds of judge_text too, but for 7. */
enum {
    FOLLOWUP_GOOD = 0,            /* no refusal */
    FOLLOWUP_TEXT_LONG = 1,       /* read, write: the text is, or would be, over 32,768 bytes; line 0 */
    FOLLOWUP_FORM_WRONG = 2,      /* read: a line is not in the form, or has no final byte 10 */
    FOLLOWUP_OUT_OF_PLACE = 3,    /* read: a line is out of place; a rule without H at the end, with the line after the last */
    FOLLOWUP_KIND_WRONG = 4,      /* read: kind or width outside its range or order, kind not declared, or a line not as wide as its kind */
    FOLLOWUP_MARK_WRONG = 5,      /* read: a mark is not 1 to 12, or skips one */
    FOLLOWUP_TOO_MANY = 6,        /* read: a rule, an H line or a row too many */
    FOLLOWUP_LINES_SHORT = 7,     /* read: more lines than were lent, with the first that does not fit */
    FOLLOWUP_LINE_WRONG = 8,      /* write, judge, explain, forecast, carry: the lent lines are no sheet, with the first wrong line */
    FOLLOWUP_TEXT_SHORT = 9,      /* write: the lent text is too short; line 0 */
    FOLLOWUP_FIELD_COUNT = 10,    /* pattern: no field, or more than six; line 0 */
    FOLLOWUP_SHAPES_OVER = 11,    /* judge, judge_text, explain, forecast, carry: the reachable records show more than 512 shapes; line 0 */
    FOLLOWUP_STEPS_SHORT = 12,    /* judge, judge_text: fewer than 4,096 steps are lent; line 0 */
    FOLLOWUP_RECORDS_SHORT = 12,  /* carry: room for fewer than 4,096 records is lent; line 0 */
    FOLLOWUP_SHEET_ENDLESS = 21,  /* forecast, carry: the sheet is endless; line 0 */
    FOLLOWUP_RECORDS_OVER = 22,   /* carry: more than 4,096 records are reachable; line 0 */
    FOLLOWUP_NUMBER_OVER = 23,    /* carry: a number over 99,999,999 would be needed, for a 0 of the table or a fresh mark; line 0 */
    FOLLOWUP_SHEET_SETTLES = 24,  /* explain: the sheet settles; line 0 */
    FOLLOWUP_SENTENCES_SHORT = 25 /* explain: the lent text is too short for the sentences; line 0 */
};

/* Verdicts. */
enum {
    FOLLOWUP_SETTLES = 1, /* no list of firings makes a number of a later generation than the deepest */
    FOLLOWUP_ENDLESS = 2  /* for every n, some list of firings makes a number of a later generation than n */
};

/* What reading, writing, explaining and finding a pattern answer. */
struct followup_reply {
    uint32_t refusal; /* 0: good; otherwise the refusal's number */
    size_t line;      /* the line that a refusal names; 0 where none, and in a good answer */
    size_t count;     /* read: lines read; write, explain: bytes written; pattern: its number, 1 to 278; 0 on a refusal */
};

/* What judging answers. All figures but refusal and line are 0 on a refusal. */
struct followup_judge_reply {
    uint32_t refusal; /* 0: good; otherwise the refusal's number */
    size_t line;      /* the line that a refusal names; 0 where none, and in a good answer */
    size_t verdict;   /* FOLLOWUP_SETTLES or FOLLOWUP_ENDLESS */
    size_t deepest;   /* the deepest generation; 0 when endless or without rows */
    size_t shapes;    /* how many shapes the reachable records show, at most 512 */
    size_t fired;     /* how many rules fire on some reachable record */
    size_t share;     /* 100 * fired / rules to the nearest whole, a half to the even one (1 of 8: 12, 3 of 8: 38); 0 without rules */
    size_t row;       /* the row that the trail starts from, counted from 1 among R lines; 0 where it settles with deepest 0 */
    size_t trail;     /* how many steps the trail has; they come first */
    size_t loop;      /* how many steps the loop has; they follow the trail's; 0 where the sheet settles */
};

/* What carrying out answers. All figures but refusal and line are 0 on a refusal. */
struct followup_carry_reply {
    uint32_t refusal; /* 0: good; otherwise the refusal's number */
    size_t line;      /* the line that a refusal names; 0 where none, and in a good answer */
    size_t records;   /* how many records there are, the rows among them, at most 4,096 */
    size_t firings;   /* how often a rule fired: the different pairs of a rule and the values of its carried marks */
};

/* What the forecast answers. Each of the three figures is exact up to 4,294,967,295 and FOLLOWUP_BEYOND above that; all are 0 on a refusal.
 * No run comes to more, in whatever order its rules fire, nor does that of followup_carry. */
struct followup_forecast_reply {
    uint32_t refusal; /* 0: good; otherwise the refusal's number */
    size_t line;      /* the line that a refusal names; 0 where none, and in a good answer */
    uint64_t values;  /* the records that a run leaves hold at most so many different values */
    uint64_t records; /* they are at most so many, the rows among them */
    uint64_t pairs;   /* at most so many different pairs of a rule and the values of its carried marks fire */
};

/* A step fires its rule on the record that the step before it made, the first on the starting row, and goes on with the record
 * that one of the rule's H lines makes. Rules count from 1 in sheet order, H lines from 1 within their rule, fields from 1.
 *   carried (fresh 0): the number at the from field stands at the to field of the record made;
 *   fresh (fresh 1): a new number stands at the to field, and it depends on the number at the from field;
 *     from field 0 where the rule carries nothing;
 *   reaching: from, to and fresh are 0; the step only leads to a record. */
struct followup_step {
    uint16_t rule;  /* 1 to 256 */
    uint16_t head;  /* H line within the rule, 1 to 4 */
    uint16_t from;  /* from field, 1 to 6, or 0 */
    uint16_t to;    /* to field, 1 to 6, or 0 */
    uint16_t fresh; /* 1: fresh, 0: carried or reaching */
};

/* Where a line of a text stands: its bytes are start to end - 1, the last of them byte 10. */
struct followup_span {
    size_t start;
    size_t end;
};

/* What the archive exports: each name below with the interface's number at its end, and followup_version as it is. */
#define FOLLOWUP_JOIN_2(name, version) name##_v##version
#define FOLLOWUP_JOIN(name, version) FOLLOWUP_JOIN_2(name, version)
#define FOLLOWUP_EXPORTED(name) FOLLOWUP_JOIN(name, FOLLOWUP_VERSION)

/* The interface's number of the archive that is linked. */
uint32_t followup_version(void);

struct followup_reply FOLLOWUP_EXPORTED(followup_read)(const uint8_t *text, size_t text_len, uint8_t *lines, size_t lines_len);
struct followup_reply FOLLOWUP_EXPORTED(followup_write)(const uint8_t *lines, size_t lines_len, uint8_t *text, size_t text_len);
struct followup_reply FOLLOWUP_EXPORTED(followup_pattern)(const uint8_t *fields, size_t fields_len);
struct followup_judge_reply FOLLOWUP_EXPORTED(followup_judge)(const uint8_t *lines, size_t lines_len, uint8_t *steps, size_t steps_len);
struct followup_judge_reply FOLLOWUP_EXPORTED(followup_judge_text)(const uint8_t *text, size_t text_len, uint8_t *steps, size_t steps_len);
struct followup_reply FOLLOWUP_EXPORTED(followup_explain)(const uint8_t *lines, size_t lines_len, uint8_t *text, size_t text_len);
struct followup_forecast_reply FOLLOWUP_EXPORTED(followup_forecast)(const uint8_t *lines, size_t lines_len);
struct followup_carry_reply FOLLOWUP_EXPORTED(followup_carry)(const uint8_t *lines, size_t lines_len, uint8_t *records, size_t records_len);
struct followup_step FOLLOWUP_EXPORTED(followup_step_at)(const uint8_t *steps, size_t steps_len, size_t k);
struct followup_span FOLLOWUP_EXPORTED(followup_line_span)(const uint8_t *text, size_t text_len, size_t number);

/* Reads a text into lent lines, 32 bytes each: the letter's byte, the kind, six numbers; unused ones are 0, and a K line
 * holds its width in the first of the six. FOLLOWUP_TEXT_LINES_BYTES are always enough. A good call changes the first
 * count * 32 bytes. Refusals: 1; then line by line 2, 3, 4, 5, 6 in this order; last of all 7. */
static inline struct followup_reply followup_read(const uint8_t *text, size_t text_len, uint8_t *lines, size_t lines_len)
{
    uint8_t none = 0;
    return FOLLOWUP_EXPORTED(followup_read)(text_len ? text : &none, text_len, lines_len ? lines : &none, lines_len);
}

/* Writes lent lines, 32 bytes each, as text. FOLLOWUP_TEXT_MAX bytes of text are always enough. A good call changes the
 * first count bytes. Refusals: 8, also for an incomplete last line; 1; 9. */
static inline struct followup_reply followup_write(const uint8_t *lines, size_t lines_len, uint8_t *text, size_t text_len)
{
    uint8_t none = 0;
    return FOLLOWUP_EXPORTED(followup_write)(lines_len ? lines : &none, lines_len, text_len ? text : &none, text_len);
}

/* The number of a record's pattern; its fields are 4 bytes each. A 0 is equal to no other field: (0, 0) is number 3, as (7, 8) is.
 * Refusal: 10. */
static inline struct followup_reply followup_pattern(const uint8_t *fields, size_t fields_len)
{
    uint8_t none = 0;
    return FOLLOWUP_EXPORTED(followup_pattern)(fields_len ? fields : &none, fields_len);
}

/* Judges lent lines, 32 bytes each, as reading gives them. No lines settle: where followup_read refuses, its count is 0, so look at
 * its refusal before judging what it counted, or call followup_judge_text. At least FOLLOWUP_STEPS_BYTES of steps are to be
 * lent. A good call changes the first (trail + loop) * 10 bytes of them. Refusals: 12; 8; 11. */
static inline struct followup_judge_reply followup_judge(const uint8_t *lines, size_t lines_len, uint8_t *steps, size_t steps_len)
{
    uint8_t none = 0;
    return FOLLOWUP_EXPORTED(followup_judge)(lines_len ? lines : &none, lines_len, steps_len ? steps : &none, steps_len);
}

/* Judges a text: reads it and judges its lines. Steps as with followup_judge. Refusals: 12; reading's (1; then line by line 2 to 6);
 * 11. An empty text settles. */
static inline struct followup_judge_reply followup_judge_text(const uint8_t *text, size_t text_len, uint8_t *steps, size_t steps_len)
{
    uint8_t none = 0;
    return FOLLOWUP_EXPORTED(followup_judge_text)(text_len ? text : &none, text_len, steps_len ? steps : &none, steps_len);
}

/* Explains why an endless sheet, in lent lines of 32 bytes each as reading gives them, never comes to rest: writes a sentence for each
 * step that followup_judge gives for the same lines, the trail's first and then the loop's, as in
 *   Rule 1, H line 1: kind 1 field 2 to kind 3 field 1, fresh, loop.
 * The numbers are decimal and not padded: the rule, the H line within it, the kind of the rule's B line and the from field, the kind of
 * that H line and the to field. Then the step is called fresh, carried or reaching, the last where both fields are 0, and trail or loop.
 * Byte 10 ends each sentence; no byte 0 ends the text. Other steps, or a trail that ends elsewhere, give another text, so that it leads
 * back to them. No steps are lent. FOLLOWUP_SENTENCES_MAX bytes of text are always enough. A good call changes the first count bytes.
 * Refusals: 8; 11; 24; 25. */
static inline struct followup_reply followup_explain(const uint8_t *lines, size_t lines_len, uint8_t *text, size_t text_len)
{
    uint8_t none = 0;
    return FOLLOWUP_EXPORTED(followup_explain)(lines_len ? lines : &none, lines_len, text_len ? text : &none, text_len);
}

/* Foretells of lent lines, 32 bytes each, as reading gives them, what carrying their rules out may come to, and does not carry them out.
 * Let t be the count of the rows' different values, each 0 being one. As often as the deepest generation says, the next t is the first t
 * plus, over all rules, fresh marks * t to the power of the carried marks; the power 0 is 1. The figures are the last t, the sum over the
 * declared kinds of t to the width, and the sum over the rules of t to the power of the carried marks. They are bounds: a run mostly leaves
 * far less. The lines are read and nothing else is lent. No lines give 0, 0, 0. Refusals: 8; 11; 21. */
static inline struct followup_forecast_reply followup_forecast(const uint8_t *lines, size_t lines_len)
{
    uint8_t none = 0;
    return FOLLOWUP_EXPORTED(followup_forecast)(lines_len ? lines : &none, lines_len);
}

/* Carries the rules out on lent lines, 32 bytes each, as reading gives them, and gives the records as R lines, 32 bytes each: 82, the
 * kind, six numbers; unused ones are 0. First each 0 of the table gets, by row and then by field, the next number after the table's largest
 * value, so that no record holds a 0. The table's rows come first, equal ones once, then what was made, in the order in which it was made.
 * The records are visited in that order and for each the rules in sheet order; a rule fires once for the same values of its carried
 * marks, and its fresh marks then get, by rising mark, the next numbers. At least FOLLOWUP_RECORDS_BYTES are to be lent. A good call
 * changes the first records * 32 bytes. Refusals: 12; 8; 11; 21; 22; 23. */
static inline struct followup_carry_reply followup_carry(const uint8_t *lines, size_t lines_len, uint8_t *records, size_t records_len)
{
    uint8_t none = 0;
    return FOLLOWUP_EXPORTED(followup_carry)(lines_len ? lines : &none, lines_len, records_len ? records : &none, records_len);
}

/* Step k, counted from 0, of the lent steps: the trail's steps are 0 to trail - 1, the loop's trail to trail + loop - 1. All zeros
 * where the bytes hold no step k. */
static inline struct followup_step followup_step_at(const uint8_t *steps, size_t steps_len, size_t k)
{
    uint8_t none = 0;
    return FOLLOWUP_EXPORTED(followup_step_at)(steps_len ? steps : &none, steps_len, k);
}

/* Where the line of that number, counted from 1 as a refusal counts, stands in a text. Start and end are the same where the text has
 * no such line, and where it is a last one without byte 10: both are then where the last whole line ends. */
static inline struct followup_span followup_line_span(const uint8_t *text, size_t text_len, size_t number)
{
    uint8_t none = 0;
    return FOLLOWUP_EXPORTED(followup_line_span)(text_len ? text : &none, text_len, number);
}

/* A sentence for a refusal; any number is allowed. */
static inline const char *followup_refusal_text(uint32_t refusal)
{
    switch (refusal) {
    case FOLLOWUP_GOOD:
        return "There is no refusal.";
    case FOLLOWUP_TEXT_LONG:
        return "The text is longer than 32,768 bytes.";
    case FOLLOWUP_FORM_WRONG:
        return "The line is not in the form: one letter (K, B, H or R), number columns nine wide, a line feed.";
    case FOLLOWUP_OUT_OF_PLACE:
        return "The line is out of place, or a rule has no H line.";
    case FOLLOWUP_KIND_WRONG:
        return "A kind or a width is outside its range or order, the kind is not declared, or the line is not as wide as its kind.";
    case FOLLOWUP_MARK_WRONG:
        return "A mark is outside 1 to 12, or skips one.";
    case FOLLOWUP_TOO_MANY:
        return "There is one rule, H line or row too many.";
    case FOLLOWUP_LINES_SHORT:
        return "There are more lines than the lent memory has room for.";
    case FOLLOWUP_LINE_WRONG:
        return "The lent line is none of a sheet.";
    case FOLLOWUP_TEXT_SHORT:
        return "The text is longer than the lent memory.";
    case FOLLOWUP_FIELD_COUNT:
        return "A record has one to six fields.";
    case FOLLOWUP_SHAPES_OVER:
        return "The reachable records show more than 512 shapes.";
    case FOLLOWUP_STEPS_SHORT: /* and FOLLOWUP_RECORDS_SHORT */
        return "Fewer than 4,096 steps, or with carrying out records, are lent.";
    case FOLLOWUP_SHEET_ENDLESS:
        return "The follow-ups never come to rest, so that they can be neither carried out nor foretold.";
    case FOLLOWUP_RECORDS_OVER:
        return "The rules make more than 4,096 records, the rows among them.";
    case FOLLOWUP_NUMBER_OVER:
        return "A number over 99,999,999 would be needed, for a label that is not given or a fresh mark.";
    case FOLLOWUP_SHEET_SETTLES:
        return "The follow-ups come to rest, so that there is no loop to explain.";
    case FOLLOWUP_SENTENCES_SHORT:
        return "The sentences are longer than the lent memory.";
    default:
        return "There is no refusal of this number.";
    }
}

/* The u16 that stands at two bytes. */
static inline uint16_t followup_u16(const uint8_t *bytes)
{
    return (uint16_t)((unsigned)bytes[0] | (unsigned)bytes[1] << 8);
}

/* The u32 that stands at four bytes. */
static inline uint32_t followup_u32(const uint8_t *bytes)
{
    return (uint32_t)followup_u16(bytes) | (uint32_t)followup_u16(bytes + 2) << 16;
}

/* Puts a u32 into four bytes. */
static inline void followup_put_u32(uint8_t *bytes, uint32_t number)
{
    bytes[0] = (uint8_t)(number & 255);
    bytes[1] = (uint8_t)(number >> 8 & 255);
    bytes[2] = (uint8_t)(number >> 16 & 255);
    bytes[3] = (uint8_t)(number >> 24);
}

/* Number k of line or record n, both counted from 0: number 0 is the letter's byte, 1 the kind, 2 to 7 the six numbers. */
static inline uint32_t followup_line_number(const uint8_t *lines, size_t n, size_t k)
{
    return followup_u32(lines + n * FOLLOWUP_LINE_BYTES + k * 4);
}

#ifdef __cplusplus
}
#endif

#endif
