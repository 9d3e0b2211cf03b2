/* Calls for the test. The input of each call ends at a page that cannot be read. Lent memory lies between guard areas; it and they are
 * filled with noise and compared byte for byte after the call. Each call is made twice, with other noise at another place: what
 * it counts in its answer has to be the same. The seed is fixed. */
#ifndef TEST_CALLS_H
#define TEST_CALLS_H

#include "followup.h"

#define ROOM ((size_t)1 << 20) /* of the input and of lent memory */
#define RESULT_SIZE (ROOM + 768)

extern unsigned long checks, failures;
extern const char *subject; /* what is tried, for the message of a check that fails */
extern char note[300];      /* what the group's line says beside its name and count */

void check(int good, const char *what);
void begin_group(const char *name);
void end_group(void);
void stop(const char *what);

uint64_t draw(void);
size_t below(size_t n); /* a number from 0 to below n */
void fill(uint8_t *bytes, size_t size);

extern uint8_t *input_end;          /* the page here cannot be read */
extern uint8_t result[RESULT_SIZE]; /* what the last call counted in its answer */

void map_memory(void);

enum call { NOTHING, READ, WRITE, PATTERN, JUDGE, JUDGE_TEXT, EXPLAIN, FORECAST, CARRY, STEP, CALLS };

struct job {
    enum call call;
    const uint8_t *in;
    size_t in_len;
    uint8_t *out;
    size_t out_len;
    struct followup_judge_reply said; /* of the other calls: refusal and line */
    size_t count;   /* of carrying out: records */
    size_t firings; /* of carrying out */
    struct followup_forecast_reply foretold;
    size_t number;  /* which step */
    struct followup_step step;
};

extern int small_stack;          /* whether calls are made on a stack of FOLLOWUP_STACK bytes */
extern size_t stack_used[CALLS]; /* the most that such a call used */

void *make_call(void *job);
void call_on_small_stack(struct job *job);

/* How many bytes of lent memory the answer counts. */
size_t counted(const struct job *job);
int same_reply(const struct job *a, const struct job *b);

/* Makes a call twice and checks what holds of every call. `result` is what it counts. */
struct job try_call(enum call call, const uint8_t *bytes, size_t size, size_t lent_size);
int says(const struct job *job, uint32_t refusal, size_t line);

#endif
