/* The cases of the paper's 'Sessions to check', and one for each of 12 to 23: each chart is written as its bytes, the steps
 * are made on a board as a host has one, and what comes of them is printed. sessions.out has what the paper gives, worked out by
 * hand. */
#include <stdio.h>
#include <string.h>
#include "afraulenc.h"

static uint8_t chart[2048], board[AFRAULENC_BOARD], trace[AFRAULENC_TRACE];
static size_t length;

/* What a call may not change, to be held against afterwards. */
static uint8_t board_before[AFRAULENC_BOARD], trace_before[AFRAULENC_TRACE];

static int digit(char c)
{
    return c <= '9' ? c - '0' : c - 'A' + 10;
}

/* Records in hexadecimal, behind those that are there. */
static void more(const char *text)
{
    for (; *text != 0; text++)
        if (*text != ' ') {
            chart[length++] = (uint8_t)(16 * digit(text[0]) + digit(text[1]));
            text++;
        }
}

static void remember(void)
{
    memcpy(board_before, board, sizeof board);
    memcpy(trace_before, trace, sizeof trace);
}

/* A refused call leaves every lent byte, any call all but that lift's part and the items. */
static void hold(uint64_t answer, unsigned lift)
{
    struct afraulenc_answer told = afraulenc_unpack(answer);
    size_t part = AFRAULENC_IMAGE * (size_t)lift, items = AFRAULENC_ITEM * (size_t)told.items;
    if (told.refusal == 0)
        memcpy(board_before + part, board + part, AFRAULENC_IMAGE);
    if (memcmp(board, board_before, sizeof board) != 0)
        printf("a byte of the board that was to stay has changed\n");
    if (memcmp(trace + items, trace_before + items, sizeof trace - items) != 0)
        printf("a byte of the trace that was to stay has changed\n");
}

/* A step of lift 0, with so many units and bytes of the trace. */
static void step_within(unsigned event, unsigned allowance, size_t bytes)
{
    remember();
    uint64_t answer = step(chart, length, board, sizeof board, trace, bytes, 0, event, allowance);
    hold(answer, 0);
    struct afraulenc_answer told = afraulenc_unpack(answer);
    printf("%u %u %u", told.refusal, told.units, told.items);
    for (unsigned i = 0; i < told.items; i++) {
        struct afraulenc_item item = afraulenc_item_at(trace, i);
        printf(" %u", 65536 * item.kind + item.number);
    }
    printf("\n");
}

static void step_event(unsigned event)
{
    step_within(event, AFRAULENC_UNITS, sizeof trace);
}

/* A chart's first record; its lift is made fresh by ready(). */
static void begin(const char *title, const char *header)
{
    printf("%s\n", title);
    length = 0;
    memset(trace, 0xEE, sizeof trace);
    memset(board, 0xDD, sizeof board);
    more(header);
}

static void ready(void)
{
    struct afraulenc_bound told = afraulenc_unpack_bound(bound(chart, length));
    printf("%u %u\n", told.refusal, told.units);
    remember();
    uint64_t refusal = fresh(chart, length, board, sizeof board, 0);
    hold(refusal, 0);
    if (refusal != 0)
        printf("fresh: %u\n", (unsigned)refusal);
}

/* The active states and variable 0. */
static void image(void)
{
    printf("active");
    for (unsigned s = 0; s < 64; s++)
        if (board[2 + s / 8] >> s % 8 & 1)
            printf(" %u", s);
    uint32_t x = board[74] + 256u * board[75] + 65536u * board[76] + 16777216u * board[77];
    printf("; x %d\n", (int)(int32_t)x);
}

#define ROOT "5354 00 01 01 00 000000 000000 000000 00 "
#define ALL_OF_ROOT "5354 00 02 00 00 000000 000000 000000 00 "
#define LEAF "5354 00 00 00 00 000000 000000 000000 00 "
#define JUNCTION "4A4E 00 00 "
#define VARIABLE "5641 00000000 "

static void chart_a(const char *title)
{
    begin(title, "4348 03 00 0100 00 02 01 00 0100 " ROOT LEAF "5354 00 00 00 00 000001 000000 000000 00");
    more("5452 00 01 00 02 01 0000 000000 000000 000000");
    more("494E 0B 01 0000");
}

static void a(void)
{
    chart_a("A, events 1, 1, 2");
    ready();
    step_event(1);
    step_event(1);
    step_event(2);
    image();

    chart_a("A's second step with 0, 5 and 6 units");
    ready();
    step_event(1);
    step_within(1, 0, sizeof trace);
    step_within(1, 5, sizeof trace);
    step_within(1, 6, sizeof trace);

    chart_a("A's second step with 23 and 24 bytes of trace");
    ready();
    step_event(1);
    step_within(1, AFRAULENC_UNITS, 23);
    step_within(1, AFRAULENC_UNITS, 24);

    chart_a("A with events 0 and 3, and 1,000,001 units");
    ready();
    step_event(0);
    step_event(3);
    step_within(1, AFRAULENC_UNITS + 1, sizeof trace);
    step_within(1, AFRAULENC_UNITS, sizeof trace);
}

/* A's bytes cut, and calls for lifts that are not there. */
static void a_cut(void)
{
    chart_a("A with 83, 11 and no bytes");
    size_t cuts[] = {83, 11, 0};
    for (unsigned i = 0; i < 3; i++) {
        length = cuts[i];
        ready();
        step_event(1);
    }

    chart_a("A with lift 64, and lift 63 on a board that is a byte short");
    remember();
    printf("%u", (unsigned)fresh(chart, length, board, sizeof board, 64));
    printf(" %u", (unsigned)step(chart, length, board, sizeof board, trace, sizeof trace, 64, 1, 9));
    printf(" %u", (unsigned)fresh(chart, length, board, sizeof board - 1, 63));
    printf(" %u\n", (unsigned)step(chart, length, board, sizeof board - 1, trace, sizeof trace, 63, 1, 9));
    hold(12, 0);

    chart_a("A with lift 5: fresh, and two steps");
    remember();
    uint64_t answer = fresh(chart, length, board, sizeof board, 5);
    hold(answer, 5);
    printf("%u", (unsigned)answer);
    for (unsigned i = 0; i < 2; i++) {
        remember();
        answer = step(chart, length, board, sizeof board, trace, sizeof trace, 5, 1, AFRAULENC_UNITS);
        hold(answer, 5);
        printf(" %u", afraulenc_unpack(answer).units);
    }
    printf("\n");

    chart_a("A with an image that is not its own");
    ready();
    board[0] = 'J';
    step_event(1);
    ready();
    board[10 + 1] = 2; /* history of a state that keeps none */
    step_event(1);
    ready();
    board[2] = 1; /* the root active, and no child */
    step_event(1);
    ready();
    board[74] = 1; /* a variable past the chart's */
    step_event(1);
}

static void searches(void)
{
    begin("the first of two segments sets x and comes to nothing", "4348 04 01 0300 01 01 00 00 0500 " ROOT LEAF LEAF LEAF JUNCTION);
    more("5452 00 01 01 00 00 0000 000000 000002 000000"); /* x = 1 */
    more("5452 00 01 00 03 00 0000 000000 000000 000000");
    more("5452 02 00 00 02 00 0000 020003 000000 000000"); /* x = 2? */
    more(VARIABLE "494E 00 00 0100 494E 02 00 0000 494E 01 00 0000 494E 00 00 0200 494E 09 00 0000");
    ready();
    step_event(1);
    step_event(1);
    image();

    begin("the same with a dead end", "4348 04 01 0200 01 01 00 00 0200 " ROOT LEAF LEAF LEAF JUNCTION);
    more("5452 00 01 01 00 00 0000 000000 000002 000000");
    more("5452 00 01 00 03 00 0000 000000 000000 000000");
    more(VARIABLE "494E 00 00 0100 494E 02 00 0000");
    ready();
    step_event(1);
    step_event(1);
    image();

    begin("from 1 to 1", "4348 02 00 0100 00 01 00 00 0000 " ROOT LEAF);
    more("5452 00 01 00 01 01 0000 000000 000000 000000");
    ready();
    step_event(1);
    step_event(1);
    image();

    begin("a junction that two segments lead to counts twice", "4348 03 02 0400 00 01 00 00 0000 " ROOT LEAF LEAF JUNCTION JUNCTION);
    more("5452 00 01 01 00 01 0000 000000 000000 000000");
    more("5452 02 00 01 01 00 0000 000000 000000 000000");
    more("5452 02 00 01 01 00 0000 000000 000000 000000");
    more("5452 02 01 00 02 00 0000 000000 000000 000000");
    ready();
    step_event(1);
    step_event(1);
    image();
}

static void sends(void)
{
    begin("a send on which the owner is left", "4348 04 00 0200 00 02 00 00 0100 " ROOT LEAF LEAF LEAF);
    more("5452 00 01 00 03 01 0000 000000 000001 000000");
    more("5452 00 01 00 02 02 0000 000000 000000 000000");
    more("494E 0C 02 0000");
    ready();
    step_event(1);
    step_event(1);
    image();

    begin("the first of two sends to the second", "4348 03 00 0000 00 01 00 00 0100 " ALL_OF_ROOT);
    more("5354 00 00 00 00 000000 000001 000000 00 " LEAF);
    more("494E 0C 01 0200");
    ready();
    step_event(1);
    step_event(1);
    image();

    begin("a send to the root at each run of 1: the ninth", "4348 02 00 0000 00 01 00 00 0100 " ROOT "5354 00 00 00 00 000000 000001 000000 00");
    more("494E 0C 01 0000");
    ready();
    step_event(1);
    step_within(1, 26, sizeof trace);
    step_within(1, 27, sizeof trace);
    image();
}

/* The during action of 1 is x op -1, x being -2^31 at first. */
static void divide(const char *title, const char *op)
{
    begin(title, "4348 02 00 0000 01 01 00 00 0400 " ROOT "5354 00 00 00 00 000000 000004 000000 00 5641 00000080");
    more("494E 01 00 0000 494E 00 00 FFFF");
    more(op);
    more("494E 02 00 0000");
    ready();
    step_event(1);
    step_event(1);
    image();
}

static void limits(void)
{
    divide("-2^31 by -1: quotient", "494E 06 00 0000");
    divide("-2^31 by -1: remainder", "494E 07 00 0000");

    begin("a junction that leads to itself", "4348 02 01 0200 00 01 00 00 0000 " ROOT LEAF JUNCTION);
    more("5452 00 01 01 00 01 0000 000000 000000 000000");
    more("5452 02 00 01 00 00 0000 000000 000000 000000");
    ready();
    step_event(1);
    step_within(1, 130, sizeof trace);
    step_within(1, 131, sizeof trace);
    step_within(1, 131, 4 * 128 + 3);
    image();
}

/* Twenty-seven segments whose ways multiply: the bound is 999,990 and the instructions of one condition more. */
static void large(const char *title, const char *last)
{
    static const unsigned ways[] = {7, 4, 4, 5, 3, 2};
    char text[80];
    begin(title, "4348 02 06 1B00 01 01 00 00 5700 " ROOT LEAF JUNCTION JUNCTION JUNCTION JUNCTION JUNCTION JUNCTION);
    more("5452 00 01 01 00 01 0000 000000 000000 000000");
    more(last);
    for (unsigned j = 0; j < 6; j++)
        for (unsigned k = 0; k < ways[j]; k++) {
            snprintf(text, sizeof text, "5452 02 %02X %s %02X 00 0000 000056 000057 000000", j, j < 5 ? "01" : "00", j < 5 ? j + 1 : 1);
            more(text);
        }
    more(VARIABLE "494E 00 00 0100");
    for (unsigned i = 0; i < 85; i++)
        more("494E 0A 00 0000");
    more("494E 02 00 0000");
    ready();
}

int main(void)
{
    a();
    a_cut();
    searches();
    sends();
    limits();
    large("a bound of 1,000,000", "5452 00 01 00 01 01 0000 00000A 000000 000000");
    large("one more", "5452 00 01 00 01 01 0000 00000B 000000 000000");
    return 0;
}
