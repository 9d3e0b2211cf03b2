/* Calls for the test: each is made on guarded memory, twice, and what holds of every call is checked. */
#define _DEFAULT_SOURCE
#include "test_calls.h"

#include <pthread.h>
#include <stdio.h>
#include <stdlib.h>
#include <string.h>
#include <sys/mman.h>

#define PAGE ((size_t)4096)
#define GUARD ((size_t)256)

/* ---- checks ---- */

unsigned long checks, failures;
const char *subject = "";
char note[300];

static unsigned long group_start;
static const char *group = "";

void check(int good, const char *what)
{
    checks++;
    if (good)
        return;
    failures++;
    if (failures <= 20)
        printf("FAILED: %s: %s: %s\n", group, subject, what);
}

void begin_group(const char *name)
{
    group = name;
    subject = "";
    note[0] = 0;
    group_start = checks;
}

void end_group(void)
{
    printf("%s: %lu checks%s\n", group, checks - group_start, note);
}

void stop(const char *what)
{
    fprintf(stderr, "test: %s failed\n", what);
    exit(1);
}

/* ---- noise ---- */

static uint64_t seed = 0x5eed0f0110a5b3c7u;

uint64_t draw(void)
{
    seed ^= seed << 13;
    seed ^= seed >> 7;
    seed ^= seed << 17;
    return seed * 0x2545f4914f6cdd1du;
}

/* A number from 0 to below n. */
size_t below(size_t n)
{
    return (size_t)((draw() >> 11) % n);
}

void fill(uint8_t *bytes, size_t size)
{
    size_t k = 0;
    for (; k + 8 <= size; k += 8) {
        uint64_t word = draw();
        memcpy(bytes + k, &word, 8);
    }
    for (; k < size; k++)
        bytes[k] = (uint8_t)(draw() >> 32);
}

/* ---- memory ---- */

uint8_t *input_end;
static uint8_t *stack;                   /* FOLLOWUP_STACK bytes above a page that cannot be written */
static uint8_t lent[RESULT_SIZE];             /* guard, lent memory, guard */
static uint8_t held[sizeof lent];        /* what it held before the call */
uint8_t result[RESULT_SIZE];

static uint8_t *map(size_t size)
{
    void *at = mmap(NULL, size, PROT_READ | PROT_WRITE, MAP_PRIVATE | MAP_ANONYMOUS, -1, 0);
    if (at == MAP_FAILED)
        stop("mmap");
    return at;
}

void map_memory(void)
{
    uint8_t *input = map(ROOM + PAGE);
    input_end = input + ROOM;
    if (mprotect(input_end, PAGE, PROT_NONE) != 0)
        stop("mprotect");
    uint8_t *below_stack = map(PAGE + FOLLOWUP_STACK);
    stack = below_stack + PAGE;
    if (mprotect(below_stack, PAGE, PROT_NONE) != 0)
        stop("mprotect");
}

/* Lends so many bytes of noise, at any alignment. */
static uint8_t *lend(size_t size)
{
    size_t at = GUARD + below(16);
    fill(lent, at + size + GUARD);
    memcpy(held, lent, at + size + GUARD);
    return lent + at;
}

/* Whether nothing but the first `changed` bytes of the lent ones is changed. */
static int kept(const uint8_t *bytes, size_t size, size_t changed)
{
    size_t at = (size_t)(bytes - lent);
    size_t rest = at + changed;
    return memcmp(lent, held, at) == 0 && memcmp(lent + rest, held + rest, size - changed + GUARD) == 0;
}

/* ---- calls ---- */

static void keep_reply(struct job *job, struct followup_reply reply)
{
    memset(&job->said, 0, sizeof job->said);
    job->said.refusal = reply.refusal;
    job->said.line = reply.line;
    job->count = reply.count;
}

static void keep_carry_reply(struct job *job, struct followup_carry_reply reply)
{
    keep_reply(job, (struct followup_reply){reply.refusal, reply.line, reply.records});
    job->firings = reply.firings;
}

static void keep_forecast(struct job *job, struct followup_forecast_reply reply)
{
    keep_reply(job, (struct followup_reply){reply.refusal, reply.line, 0});
    job->foretold = reply;
}

void *make_call(void *arg)
{
    struct job *job = arg;
    job->count = job->firings = 0;
    memset(&job->foretold, 0, sizeof job->foretold);
    if (job->call == READ)
        keep_reply(job, followup_read(job->in, job->in_len, job->out, job->out_len));
    else if (job->call == WRITE)
        keep_reply(job, followup_write(job->in, job->in_len, job->out, job->out_len));
    else if (job->call == PATTERN)
        keep_reply(job, followup_pattern(job->in, job->in_len));
    else if (job->call == JUDGE)
        job->said = followup_judge(job->in, job->in_len, job->out, job->out_len);
    else if (job->call == JUDGE_TEXT)
        job->said = followup_judge_text(job->in, job->in_len, job->out, job->out_len);
    else if (job->call == EXPLAIN)
        keep_reply(job, followup_explain(job->in, job->in_len, job->out, job->out_len));
    else if (job->call == FORECAST)
        keep_forecast(job, followup_forecast(job->in, job->in_len));
    else if (job->call == CARRY)
        keep_carry_reply(job, followup_carry(job->in, job->in_len, job->out, job->out_len));
    else if (job->call == STEP)
        job->step = followup_step_at(job->in, job->in_len, job->number);
    return NULL;
}

int small_stack;
size_t stack_used[CALLS];

void call_on_small_stack(struct job *job)
{
    pthread_attr_t attr;
    pthread_t thread;
    size_t left = 0;
    memset(stack, 0xa5, FOLLOWUP_STACK);
    if (pthread_attr_init(&attr) != 0 || pthread_attr_setstack(&attr, stack, FOLLOWUP_STACK) != 0)
        stop("pthread_attr_setstack");
    if (pthread_create(&thread, &attr, make_call, job) != 0 || pthread_join(thread, NULL) != 0)
        stop("pthread_create");
    pthread_attr_destroy(&attr);
    while (left < FOLLOWUP_STACK && stack[left] == 0xa5)
        left++;
    if (stack_used[job->call] < FOLLOWUP_STACK - left)
        stack_used[job->call] = FOLLOWUP_STACK - left;
}

/* How many bytes of lent memory the answer counts. */
size_t counted(const struct job *job)
{
    if (job->said.refusal != 0 || job->call == PATTERN || job->call == FORECAST || job->call == STEP)
        return 0;
    if (job->call == JUDGE || job->call == JUDGE_TEXT)
        return (job->said.trail + job->said.loop) * FOLLOWUP_STEP_BYTES;
    return job->call == WRITE || job->call == EXPLAIN ? job->count : job->count * FOLLOWUP_LINE_BYTES;
}

/* Whether a refusal is one that the call can have, of those over 12. */
static int can_refuse(enum call call, uint32_t refusal)
{
    if (call == EXPLAIN)
        return refusal == 24 || refusal == 25;
    return call == CARRY ? refusal >= 21 && refusal <= 23 : call == FORECAST && refusal == 21;
}

static int no_figures(const struct followup_forecast_reply *foretold)
{
    return foretold->values == 0 && foretold->records == 0 && foretold->pairs == 0;
}

static int figures_in_range(const struct followup_forecast_reply *foretold)
{
    return foretold->values <= FOLLOWUP_BEYOND && foretold->records <= FOLLOWUP_BEYOND && foretold->pairs <= FOLLOWUP_BEYOND;
}

/* Whether the answer is in the form: line 0 in a good one, no figure beside the line in a refusal. */
static int reply_in_form(const struct job *job)
{
    const struct followup_judge_reply *said = &job->said;
    if (said->refusal == 0)
        return said->line == 0 && figures_in_range(&job->foretold);
    if (said->refusal > 12 && !can_refuse(job->call, said->refusal))
        return 0;
    return no_figures(&job->foretold) && job->count == 0 && job->firings == 0 && said->verdict == 0 && said->deepest == 0 &&
           said->shapes == 0 && said->fired == 0 && said->share == 0 && said->row == 0 && said->trail == 0 && said->loop == 0;
}

static int same_figures(const struct followup_forecast_reply *x, const struct followup_forecast_reply *y)
{
    return x->values == y->values && x->records == y->records && x->pairs == y->pairs;
}

int same_reply(const struct job *a, const struct job *b)
{
    const struct followup_judge_reply *x = &a->said, *y = &b->said;
    return x->refusal == y->refusal && x->line == y->line && a->count == b->count && a->firings == b->firings &&
           same_figures(&a->foretold, &b->foretold) && x->verdict == y->verdict && x->deepest == y->deepest && x->shapes == y->shapes &&
           x->fired == y->fired && x->share == y->share && x->row == y->row && x->trail == y->trail && x->loop == y->loop;
}

/* Makes a call twice and checks what holds of every call. `result` is what it counts. */
struct job try_call(enum call call, const uint8_t *bytes, size_t size, size_t lent_size)
{
    struct job first = {.call = NOTHING};
    uint8_t *in = input_end - size;
    memcpy(in, bytes, size);
    for (int turn = 0; turn < 2; turn++) {
        struct job job = {.call = call, .in = in, .in_len = size, .out = lend(lent_size), .out_len = lent_size};
        if (small_stack)
            call_on_small_stack(&job);
        else
            make_call(&job);
        check(reply_in_form(&job), "an answer in its form");
        check(memcmp(in, bytes, size) == 0, "the input is as it was");
        size_t changed = counted(&job);
        check(changed <= lent_size, "no more is counted than was lent");
        if (changed > lent_size)
            return job;
        check(kept(job.out, lent_size, changed), "lent memory holds what it held beside what is counted");
        if (turn == 0)
            memcpy(result, job.out, changed);
        else
            check(same_reply(&first, &job) && memcmp(result, job.out, changed) == 0, "the same answer whatever lent memory held");
        first = job;
    }
    return first;
}

int says(const struct job *job, uint32_t refusal, size_t line)
{
    return job->said.refusal == refusal && job->said.line == line;
}
