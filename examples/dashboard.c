/* A dashboard of 64 lifts: it loads a chart file, makes the lifts fresh and starts them, and steps the events of its input, a
 * line each: lift, event, and an allowance where it is not to be the chart's bound. It prints what rang, and why a call was
 * refused. */
#include <errno.h>
#include <stdio.h>
#include <stdlib.h>
#include <string.h>
#include "afraulenc.h"

static uint8_t chart[AFRAULENC_CHART + 1]; /* one byte more than the largest: a longer file is refused by its length */
static uint8_t board[AFRAULENC_BOARD];
static uint8_t trace[AFRAULENC_TRACE];

/* What rang, in order; whether anything did. */
static int print_rings(unsigned items)
{
    unsigned rings = 0;
    for (unsigned i = 0; i < items; i++) {
        struct afraulenc_item item = afraulenc_item_at(trace, i);
        if (item.kind == AFRAULENC_RAISED) {
            printf(rings == 0 ? "rang %u" : ", %u", item.number);
            rings++;
        }
    }
    return rings != 0;
}

static struct afraulenc_answer step_lift(size_t length, uint32_t lift, uint32_t event, uint32_t allowance)
{
    return afraulenc_unpack(step(chart, length, board, sizeof board, trace, sizeof trace, lift, event, allowance));
}

static void step_and_print(size_t length, uint32_t lift, uint32_t event, uint32_t allowance)
{
    struct afraulenc_answer told = step_lift(length, lift, event, allowance);
    printf("lift %u, event %u: ", (unsigned)lift, (unsigned)event);
    if (told.refusal != 0) {
        printf("refused, %u: %s\n", told.refusal, afraulenc_why(told.refusal));
        return;
    }
    if (!print_rings(told.items))
        printf("nothing rang");
    printf("; %u units, %u items\n", told.units, told.items);
}

/* A lift's first step enters its root, whatever the event; entry actions can ring. */
static unsigned start(size_t length, uint32_t lift)
{
    unsigned refusal = (unsigned)fresh(chart, length, board, sizeof board, lift);
    if (refusal != 0)
        return refusal;
    struct afraulenc_answer told = step_lift(length, lift, 1, AFRAULENC_UNITS);
    if (told.refusal == 0 && print_rings(told.items))
        printf(" in the start of lift %u\n", (unsigned)lift);
    return told.refusal;
}

static int start_all(size_t length)
{
    for (uint32_t lift = 0; lift < AFRAULENC_LIFTS; lift++) {
        unsigned refusal = start(length, lift);
        if (refusal != 0) {
            printf("lift %u is not started: %u: %s\n", (unsigned)lift, refusal, afraulenc_why(refusal));
            return 0;
        }
    }
    printf("%u lifts are started\n", AFRAULENC_LIFTS);
    return 1;
}

/* Whether the file could be read. */
static int load(const char *name, size_t *length)
{
    FILE *file = fopen(name, "rb");
    if (file == NULL)
        return 0;
    *length = fread(chart, 1, sizeof chart, file);
    int read = !ferror(file);
    fclose(file);
    return read;
}

/* The allowance of a step that has no other: the bound, or the most where there is none. */
static uint32_t usual_allowance(size_t length)
{
    struct afraulenc_bound told = afraulenc_unpack_bound(bound(chart, length));
    if (told.refusal != 0) {
        printf("%s\n", afraulenc_why(told.refusal));
        return AFRAULENC_UNITS;
    }
    printf("the chart's bound is %u units\n", told.units);
    return told.units;
}

/* The next number of a line, of 32 bits; whether there is one. */
static int number(char **rest, uint32_t *value)
{
    char *at = *rest + strspn(*rest, " \t");
    if (*at < '0' || *at > '9')
        return 0;
    errno = 0;
    unsigned long long read = strtoull(at, rest, 10);
    *value = (uint32_t)read;
    return errno == 0 && read <= UINT32_MAX;
}

/* Lift and event, then perhaps an allowance, and nothing more. */
static int parse(char *line, uint32_t *lift, uint32_t *event, uint32_t *allowance)
{
    if (!number(&line, lift) || !number(&line, event))
        return 0;
    char *rest = line;
    if (number(&rest, allowance))
        line = rest;
    line += strspn(line, " \t\r");
    return *line == 0;
}

/* The next line as a text, cut to its size; whether there is one. Whether that is the whole line, without a zero byte in it. */
static int next_line(char *line, size_t size, int *whole)
{
    size_t length = 0;
    int c = getchar();
    if (c == EOF)
        return 0;
    for (; c != EOF && c != '\n'; c = getchar(), length++)
        if (length < size - 1)
            line[length] = (char)c;
    line[length < size ? length : size - 1] = 0;
    *whole = strlen(line) == length;
    return 1;
}

static void serve(size_t length, uint32_t usual)
{
    char line[80];
    int whole;
    while (next_line(line, sizeof line, &whole)) {
        uint32_t lift, event, allowance = usual;
        if (whole && parse(line, &lift, &event, &allowance))
            step_and_print(length, lift, event, allowance);
        else
            printf("not an event: %s\n", line);
    }
}

int main(int count, char **words)
{
    size_t length;
    if (count != 2) {
        fprintf(stderr, "usage: dashboard CHART < EVENTS\n");
        return 2;
    }
    if (!load(words[1], &length)) {
        perror(words[1]);
        return 2;
    }
    if (!start_all(length))
        return 1;
    serve(length, usual_allowance(length));
    return fflush(stdout) == 0 ? 0 : 2;
}
