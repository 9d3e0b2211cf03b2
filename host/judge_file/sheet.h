/* A sheet that was read, with what the judge said of it: what the other parts of judge_file speak of, and carry_file too. */
#ifndef JUDGE_FILE_SHEET_H
#define JUDGE_FILE_SHEET_H

#include "followup.h"

#include <stdio.h>

/* Longest name of a kind, with its final 0. */
#define NAME_SIZE 41

struct sheet {
    const char *name;                       /* the file's name, as it was given */
    uint8_t text[FOLLOWUP_TEXT_MAX + 1];    /* one byte more than the longest text: a longer one is seen by it */
    size_t size;                            /* how many bytes of it there are */
    uint8_t lines[FOLLOWUP_TEXT_LINES_BYTES];
    size_t line_count;
    uint8_t steps[FOLLOWUP_STEPS_BYTES];
    struct followup_judge_reply said;       /* the judge's answer; with carry_file refusal and line alone */
    uint8_t sentences[FOLLOWUP_SENTENCES_MAX]; /* the library's, of an endless sheet: a line for each step */
    size_t sentences_size;
    char names[FOLLOWUP_KINDS_MAX + 1][NAME_SIZE]; /* a name for each kind; empty where none was given */
};

/* A step, with the lines and kinds that it speaks of. */
struct step_lines {
    struct followup_step step;
    size_t body;        /* the number of the rule's B line */
    size_t head;        /* the number of the H line that makes the new record */
    uint32_t fired_on;  /* the kind of the record that the rule fires on */
    uint32_t made;      /* the kind of the new record */
};

extern const char *const program; /* main.c: the tool's name, for what it says on standard error */

/* sheet.c */
size_t lines_with(const struct sheet *sheet, char letter);
size_t line_of(const struct sheet *sheet, char letter, size_t nth); /* counted from 1; 0 where there is none */
uint32_t number_in(const struct sheet *sheet, size_t line, size_t number); /* number 0 to 7 of a line counted from 1 */
size_t width_of(const struct sheet *sheet, uint32_t kind);
struct step_lines step_lines(const struct sheet *sheet, size_t k); /* step k, counted from 0 */
int read_names(struct sheet *sheet, const char *file);             /* 0 where that fails; it says why */
int read_text(struct sheet *sheet, const char *file);              /* to its end; - is standard input; 0 where that fails; it says why */

/* words.c */
void put_kind(FILE *out, const struct sheet *sheet, uint32_t kind);
int say_verdict(const struct sheet *sheet); /* answers the exit status */
int say_refusal(const struct sheet *sheet);

/* fault.c: what is wrong with a line that is not in the form. */
const char *fault_of_line(const uint8_t *line, size_t size);

/* picture.c: the trail and the loop for graphviz. */
void draw_steps(const struct sheet *sheet);

#endif
