/* A writer and a reader of the sentences of explaining, written apart from the library: the C library's printf and scanf do the work. */
#include "check_sentences.h"

#include <stdio.h>
#include <string.h>

#define SENTENCE_MAX ((size_t)73) /* with its byte 10 */

static uint16_t number_of(const struct told_steps *told, size_t k, size_t number)
{
    return followup_u16(told->steps + k * FOLLOWUP_STEP_BYTES + 2 * number);
}

static void put_number(struct told_steps *told, size_t k, size_t number, unsigned value)
{
    uint8_t *at = told->steps + k * FOLLOWUP_STEP_BYTES + 2 * number;
    at[0] = (uint8_t)(value & 255);
    at[1] = (uint8_t)(value >> 8);
}

/* The place, counted from 0, of the B line of a rule. */
static size_t body_of(const uint8_t *sheet, size_t sheet_size, size_t rule)
{
    size_t line = 0;
    for (; line < sheet_size / FOLLOWUP_LINE_BYTES; line++)
        if (followup_line_number(sheet, line, 0) == 'B' && --rule == 0)
            break;
    return line;
}

static const char *way_of(unsigned from, unsigned to, unsigned fresh)
{
    return fresh ? "fresh" : from == 0 && to == 0 ? "reaching" : "carried";
}

size_t write_sentences(const uint8_t *sheet, size_t sheet_size, const struct told_steps *told, uint8_t *text)
{
    size_t size = 0;
    for (size_t k = 0; k < told->trail + told->loop; k++) {
        unsigned rule = number_of(told, k, 0), head = number_of(told, k, 1), from = number_of(told, k, 2), to = number_of(told, k, 3);
        size_t body = body_of(sheet, sheet_size, rule);
        size += (size_t)snprintf((char *)text + size, SENTENCE_MAX + 1, "Rule %u, H line %u: kind %u field %u to kind %u field %u, %s, %s.\n",
                                 rule, head, (unsigned)followup_line_number(sheet, body, 1), from,
                                 (unsigned)followup_line_number(sheet, body + head, 1), to, way_of(from, to, number_of(told, k, 4)),
                                 k < told->trail ? "trail" : "loop");
    }
    return size;
}

/* Takes a sentence, with its byte 10, as the next step. Answers 0 where it is none. */
static int take_sentence(const char *sentence, struct told_steps *told)
{
    unsigned rule, head, kinds[2], from, to;
    char way[9], part[6];
    int end = 0;
    size_t k = told->trail + told->loop;
    int found = sscanf(sentence, "Rule %3u, H line %1u: kind %2u field %1u to kind %2u field %1u, %8[a-z], %5[a-z].%n", &rule, &head, &kinds[0],
                       &from, &kinds[1], &to, way, part, &end);
    if (found != 8 || end == 0 || strcmp(sentence + end, "\n") != 0 || k == FOLLOWUP_STEPS)
        return 0;
    unsigned fresh = strcmp(way, "fresh") == 0;
    int loop = strcmp(part, "loop") == 0;
    put_number(told, k, 0, rule);
    put_number(told, k, 1, head);
    put_number(told, k, 2, from);
    put_number(told, k, 3, to);
    put_number(told, k, 4, fresh);
    told->loop += loop ? 1 : 0;
    told->trail += loop ? 0 : 1;
    return strcmp(way, way_of(from, to, fresh)) == 0 && (loop || (told->loop == 0 && strcmp(part, "trail") == 0));
}

int read_sentences(const uint8_t *text, size_t text_size, struct told_steps *told)
{
    told->trail = told->loop = 0;
    for (size_t at = 0; at < text_size;) {
        char sentence[SENTENCE_MAX + 1];
        const uint8_t *end = memchr(text + at, 10, text_size - at);
        size_t size = end != NULL ? (size_t)(end - text) + 1 - at : 0;
        if (size == 0 || size > SENTENCE_MAX)
            return 0;
        memcpy(sentence, text + at, size);
        sentence[size] = 0;
        if (!take_sentence(sentence, told))
            return 0;
        at += size;
    }
    return 1;
}
