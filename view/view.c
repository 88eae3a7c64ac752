/* A viewer for those who draw charts and for the night desk: it tells in words what stands in a chart file, and what the steps of
 * a session file do. It only looks. Any bytes may stand in a file: only a chart that the library accepts is read further. What is
 * refused is told like the rest, and is no failure of the viewer. */
#include <stdio.h>
#include <string.h>
#include "afraulenc.h"

enum { SESSION = 16384 };      /* bytes of the longest session */
enum { CHART_REFUSALS = 11 };  /* the refusals up to this one are the chart's */
enum { INDENT = 2 };

/* Bytes of the records, and where their fields are. */
enum { HEADER = 12, STATE = 16, JUNCTION = 4, SEGMENT = 18, VARIABLE = 6, INSTRUCTION = 6, EVENT = 3 };
enum { STATES = 2, JUNCTIONS = 3, SEGMENTS = 4, VARIABLES = 6, EVENTS = 7, OUTPUTS = 8 };
enum { PARENT = 2, KIND = 3, INITIAL = 4, HISTORY = 5, ENTRY = 6, DURING = 9, EXIT = 12 };
enum { FROM_KIND = 2, FROM = 3, TO_KIND = 4, TO = 5, ON = 6, CONDITION = 9, CONDITION_ACTION = 12, TRANSITION_ACTION = 15 };
enum { VALUE = 2 };
enum { OP = 2, A = 3, B = 4 };

enum { OUTER, INNER, FROM_JUNCTION };
enum { PUSH, LOAD, STORE, NOT = 10, RAISE, SEND };

/* How tightly an op holds its values: a looser one inside it is put in brackets. */
enum { NEGATION, COMPARISON, SUM, PRODUCT, SINGLE };

static const struct {
    const char *name, *sign;
    int takes, gives, tightness;
} ops[] = {
    {"push", "", 0, 1, SINGLE},
    {"load", "", 0, 1, SINGLE},
    {"store", "", 1, 0, SINGLE},
    {"add", "+", 2, 1, SUM},
    {"subtract", "-", 2, 1, SUM},
    {"multiply", "*", 2, 1, PRODUCT},
    {"quotient", "/", 2, 1, PRODUCT},
    {"remainder", "%", 2, 1, PRODUCT},
    {"less", "<", 2, 1, COMPARISON},
    {"equal", "==", 2, 1, COMPARISON},
    {"not", "", 1, 1, NEGATION},
    {"raise", "", 0, 0, SINGLE},
    {"send", "", 0, 0, SINGLE},
};

/* Where the tables of an accepted chart start, and how many records they have. */
struct chart {
    unsigned state_count, junction_count, segment_count, variable_count;
    const uint8_t *states, *junctions, *segments, *variables, *code;
};

static uint8_t file[SESSION + 1]; /* one byte more than the longest: a longer file is seen to be too long */

static unsigned two_bytes(const uint8_t *at)
{
    return at[0] + 256u * at[1];
}

static long signed_value(const uint8_t *at, unsigned bytes)
{
    long value = 0;
    for (unsigned i = bytes; i-- > 0;)
        value = 256 * value + (i == bytes - 1 && at[i] >= 128 ? at[i] - 256 : at[i]);
    return value;
}

static void print_count(unsigned count, const char *what)
{
    printf("%u %s%s", count, what, count == 1 ? "" : "s");
}

static struct chart tables(const uint8_t *bytes)
{
    struct chart chart;
    chart.state_count = bytes[STATES];
    chart.junction_count = bytes[JUNCTIONS];
    chart.segment_count = two_bytes(bytes + SEGMENTS);
    chart.variable_count = bytes[VARIABLES];
    chart.states = bytes + HEADER;
    chart.junctions = chart.states + STATE * chart.state_count;
    chart.segments = chart.junctions + JUNCTION * chart.junction_count;
    chart.variables = chart.segments + SEGMENT * chart.segment_count;
    chart.code = chart.variables + VARIABLE * chart.variable_count;
    return chart;
}

static unsigned op_at(const uint8_t *code, unsigned place)
{
    return code[INSTRUCTION * place + OP];
}

static unsigned operand_a(const uint8_t *code, unsigned place)
{
    return code[INSTRUCTION * place + A];
}

static long operand_b(const uint8_t *code, unsigned place)
{
    return signed_value(code + INSTRUCTION * place + B, 2);
}

/* Where the value begins that the instruction at `last` completes. */
static unsigned beginning(const uint8_t *code, unsigned last)
{
    int missing = 1;
    for (;; last--) {
        missing += ops[op_at(code, last)].takes - 1;
        if (missing == 0)
            return last;
    }
}

/* The value that the instruction at `last` completes, in brackets where it is looser than its place allows. */
static void print_value(const uint8_t *code, unsigned last, int least)
{
    unsigned op = op_at(code, last);
    int own = ops[op].tightness;
    if (own < least)
        putchar('(');
    if (op == PUSH) {
        printf("%ld", operand_b(code, last));
    } else if (op == LOAD) {
        printf("x%u", operand_a(code, last));
    } else if (op == NOT) {
        printf("not ");
        print_value(code, last - 1, SINGLE);
    } else {
        print_value(code, beginning(code, last - 1) - 1, own == COMPARISON ? own + 1 : own);
        printf(" %s ", ops[op].sign);
        print_value(code, last - 1, own + 1);
    }
    if (own < least)
        putchar(')');
}

static int is_statement(unsigned op)
{
    return ops[op].gives == 0;
}

/* Whether no value waits on the stack when a statement ends. Only then is a value still the same where its statement stands. */
static int has_plain_statements(const uint8_t *code, unsigned count)
{
    int waiting = 0;
    for (unsigned i = 0; i < count; i++) {
        unsigned op = op_at(code, i);
        waiting += ops[op].gives - ops[op].takes;
        if (is_statement(op) && waiting != 0)
            return 0;
    }
    return 1;
}

static void print_raise_or_send(const uint8_t *code, unsigned place)
{
    if (op_at(code, place) == RAISE)
        printf("raise %u", operand_a(code, place));
    else
        printf("send event %u to state %ld", operand_a(code, place), operand_b(code, place));
}

/* The statements of a block; or the value, of a condition. */
static void print_statements(const uint8_t *code, unsigned count)
{
    for (unsigned i = 0; i < count; i++) {
        unsigned op = op_at(code, i);
        if (op == STORE) {
            printf("x%u = ", operand_a(code, i));
            print_value(code, i - 1, NEGATION);
        } else if (is_statement(op)) {
            print_raise_or_send(code, i);
        } else if (i == count - 1) {
            print_value(code, i, NEGATION);
        }
        if (is_statement(op) && i < count - 1)
            printf("; ");
    }
}

static void print_instructions(const uint8_t *code, unsigned count)
{
    for (unsigned i = 0; i < count; i++) {
        unsigned op = op_at(code, i);
        if (op == PUSH)
            printf("push %ld", operand_b(code, i));
        else if (op == LOAD || op == STORE)
            printf("%s x%u", ops[op].name, operand_a(code, i));
        else if (is_statement(op))
            print_raise_or_send(code, i);
        else
            printf("%s", ops[op].name);
        if (i < count - 1)
            printf("; ");
    }
}

static void print_block(const struct chart *chart, const uint8_t *block, const char *name, int indent)
{
    const uint8_t *code = chart->code + INSTRUCTION * two_bytes(block);
    unsigned count = block[2];
    if (count == 0)
        return;
    printf("%*s%s", indent, "", name);
    if (has_plain_statements(code, count)) {
        printf(": ");
        print_statements(code, count);
    } else {
        printf(", in stack order: ");
        print_instructions(code, count);
    }
    putchar('\n');
}

static void print_segment(const struct chart *chart, unsigned number, int indent)
{
    static const char *const from[] = {"outer edge of state", "inner edge of state", "junction"};
    const uint8_t *segment = chart->segments + SEGMENT * number;
    printf("%*ssegment %u: %s %u to %s %u on ", indent, "", number, from[segment[FROM_KIND]], segment[FROM],
           segment[TO_KIND] == 0 ? "state" : "junction", segment[TO]);
    if (segment[ON] == 0)
        printf("any event\n");
    else
        printf("event %u\n", segment[ON]);
    print_block(chart, segment + CONDITION, "condition", indent + INDENT);
    print_block(chart, segment + CONDITION_ACTION, "condition action", indent + INDENT);
    print_block(chart, segment + TRANSITION_ACTION, "transition action", indent + INDENT);
}

/* The segments of one list: of an edge or of a junction. */
static void print_segments(const struct chart *chart, unsigned kind, unsigned source, int indent)
{
    for (unsigned i = 0; i < chart->segment_count; i++) {
        const uint8_t *segment = chart->segments + SEGMENT * i;
        if (segment[FROM_KIND] == kind && segment[FROM] == source)
            print_segment(chart, i, indent);
    }
}

static void print_junctions(const struct chart *chart, unsigned parent, int indent)
{
    for (unsigned i = 0; i < chart->junction_count; i++) {
        if (chart->junctions[JUNCTION * i + PARENT] == parent) {
            printf("%*sjunction %u\n", indent, "", i);
            print_segments(chart, FROM_JUNCTION, i, indent + INDENT);
        }
    }
}

/* A state and what is under it, its child states last. A child has a larger number than its parent. */
static void print_state(const struct chart *chart, unsigned number, int indent)
{
    static const char *const kinds[] = {"leaf", "one-of, initial ", "all-of"};
    const uint8_t *state = chart->states + STATE * number;
    printf("%*sstate %u: %s", indent, "", number, kinds[state[KIND]]);
    if (state[INITIAL] != 0)
        printf("%u", state[INITIAL]);
    printf(state[HISTORY] == 0 ? "\n" : ", with history\n");
    indent += INDENT;
    print_block(chart, state + ENTRY, "entry", indent);
    print_block(chart, state + DURING, "during", indent);
    print_block(chart, state + EXIT, "exit", indent);
    print_segments(chart, OUTER, number, indent);
    print_segments(chart, INNER, number, indent);
    print_junctions(chart, number, indent);
    for (unsigned i = number + 1; i < chart->state_count; i++) {
        if (chart->states[STATE * i + PARENT] == number)
            print_state(chart, i, indent);
    }
}

/* Whether the library accepts the chart: that, and its bound, or why not. */
static int print_verdict(const uint8_t *bytes, size_t length)
{
    struct afraulenc_bound told = afraulenc_unpack_bound(bound(bytes, length));
    if (told.refusal >= 1 && told.refusal <= CHART_REFUSALS) {
        printf("refused, %u: %s\n", told.refusal, afraulenc_why(told.refusal));
        return 0;
    }
    printf("accepted; ");
    if (told.refusal != 0) {
        printf("%s\n", afraulenc_why(told.refusal));
        return 1;
    }
    printf("its bound is ");
    print_count(told.units, "unit");
    putchar('\n');
    return 1;
}

static void view_chart(size_t length)
{
    if (!print_verdict(file, length))
        return;
    struct chart chart = tables(file);
    print_count(file[EVENTS], "event");
    printf(", ");
    print_count(file[OUTPUTS], "output");
    printf(", ");
    print_count(chart.variable_count, "variable");
    putchar('\n');
    for (unsigned i = 0; i < chart.variable_count; i++)
        printf("x%u is %ld at first\n", i, signed_value(chart.variables + VARIABLE * i + VALUE, 4));
    print_state(&chart, 0, 0);
}

static void print_item(struct afraulenc_item item)
{
    static const char *const words[] = {
        [AFRAULENC_ENTERED] = "entered",
        [AFRAULENC_LEFT] = "left",
        [AFRAULENC_DURING] = "during",
        [AFRAULENC_PASSED] = "passed segment",
        [AFRAULENC_TRANSITION] = "transition action of segment",
        [AFRAULENC_RAISED] = "raised",
    };
    printf("%*s%s %u\n", INDENT, "", words[item.kind], item.number);
}

static void view_step(const uint8_t *chart, size_t length, uint8_t *board, unsigned event)
{
    static uint8_t trace[AFRAULENC_TRACE];
    struct afraulenc_answer told = afraulenc_unpack(
        step(chart, length, board, AFRAULENC_IMAGE, trace, sizeof trace, 0, event, AFRAULENC_UNITS));
    printf("event %u: ", event);
    if (told.refusal != 0) {
        printf("refused, %u: %s\n", told.refusal, afraulenc_why(told.refusal));
        return;
    }
    print_count(told.units, "unit");
    putchar('\n');
    for (unsigned i = 0; i < told.items; i++)
        print_item(afraulenc_item_at(trace, i));
}

/* The records after the chart. */
static void view_events(const uint8_t *chart, size_t chart_bytes, const uint8_t *events, size_t length)
{
    static uint8_t board[AFRAULENC_IMAGE];
    fresh(chart, chart_bytes, board, sizeof board, 0);
    for (size_t at = 0; at < length; at += EVENT) {
        if (length - at < EVENT) {
            printf("bad session: the last record is cut off\n");
            return;
        }
        if (memcmp(events + at, "EV", 2) != 0) {
            printf("bad session: the record at byte %lu has not the mark of an event\n", (unsigned long)(events + at - file));
            return;
        }
        view_step(chart, chart_bytes, board, events[at + 2]);
    }
}

static void view_session(size_t length)
{
    size_t chart_bytes = two_bytes(file + 2);
    const uint8_t *chart = file + 4;
    if (length > SESSION) {
        printf("bad session: it has more than %u bytes\n", (unsigned)SESSION);
    } else if (length < 2 || memcmp(file, "SE", 2) != 0) {
        printf("bad session: it has not the mark of one\n");
    } else if (length < 4 || length - 4 < chart_bytes) {
        printf("bad session: its chart is not all there\n");
    } else if (print_verdict(chart, chart_bytes)) {
        view_events(chart, chart_bytes, chart + chart_bytes, length - 4 - chart_bytes);
    }
}

/* Whether the file could be read. */
static int load(const char *name, size_t *length)
{
    FILE *opened = fopen(name, "rb");
    if (opened == NULL)
        return 0;
    *length = fread(file, 1, sizeof file, opened);
    int whole = !ferror(opened);
    fclose(opened);
    return whole;
}

int main(int count, char **words)
{
    size_t length;
    int chart = count == 3 && strcmp(words[1], "chart") == 0;
    if (!chart && !(count == 3 && strcmp(words[1], "session") == 0)) {
        fprintf(stderr, "usage: view chart FILE, or view session FILE\n");
        return 2;
    }
    if (!load(words[2], &length)) {
        perror(words[2]);
        return 2;
    }
    if (chart)
        view_chart(length);
    else
        view_session(length);
    return fflush(stdout) == 0 ? 0 : 2;
}
