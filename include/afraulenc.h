/* Afraulenc for a host in C: the calls of libafraulenc.a, which is x86-64 code and calls only memcpy and memset.
 *
 * A slice is a pointer and, behind it, how many bytes it has. Each call reads the chart, writes only where it says below, keeps
 * no pointer, allocates nothing and ends. Any bytes whatever may stand in what is lent: they are answered by number. A refused
 * call leaves every lent byte as it was.
 *
 * What no library can check is the caller's: a pointer is not null, even with a length of 0, and lends as many bytes as its
 * length says; the lent slices do not overlap; no other thread writes them during the call. The deepest step that was measured
 * needed 24 KB of stack. A host that has functions of these names itself can rename ours: objcopy --redefine-sym step=.. */
#ifndef AFRAULENC_H
#define AFRAULENC_H

#include <stddef.h>
#include <stdint.h>

#ifdef __cplusplus
extern "C" {
#endif

#define AFRAULENC_CHART 12236   /* bytes of the largest chart */
#define AFRAULENC_LIFTS 64      /* lifts of a board, counted from 0 */
#define AFRAULENC_IMAGE 202     /* bytes of one lift's part: lift k owns 202 k to 202 k + 201 */
#define AFRAULENC_BOARD (AFRAULENC_LIFTS * AFRAULENC_IMAGE)
#define AFRAULENC_ITEM 4        /* bytes of a trace item */
#define AFRAULENC_TRACE 1024    /* a longer trace is not used past these bytes */
#define AFRAULENC_UNITS 1000000 /* the largest allowance, and the largest bound */

/* Refusals of a chart, which every call tests first; the lowest that applies is answered: 1 under 12 bytes, 2 no CH mark, 3 a
 * count out of its range, 4 the length is not the total, 5 another mark wrong or a zero byte not zero, 6 a rule of states broken
 * or a junction's parent no state, 7 a segment from or to nowhere or state 0, or with no such event, 8 a block that runs past the
 * instructions, is empty with a start, or is the root's and not empty, 9 no such op or operand, 10 a block's stack use wrong, 11
 * a store, raise or send where it is barred. */

/* One step of a lift (0 to 63) with an event (1 to the chart's count). The allowance is how many units it may use, at most
 * 1,000,000: one for each state run, entered or left, each segment tried, each instruction performed. The first step after fresh
 * enters the chart's root and uses the event up, whichever it is. The trace may have any length: there is room for a quarter of
 * its bytes in items, at most 256. The call writes that lift's part of the board and the items at the start of the trace, and
 * both only where it is not refused. The answer is refusal + 256 x items + 131,072 x units: see afraulenc_unpack.
 * Refusals, in this order: 1 to 11 of the chart, 12 no such lift on this board, 13 its image is not one of this chart, 14 no such
 * event, 15 the allowance is too large; then whichever is met first: 16 the allowance is used up, 17 a value outside 32 bits or
 * a divisor 0, 18 a ninth send would be open, 19 a path of more than 128 segments, 20 no room for an item. */
uint64_t step(const uint8_t *chart, size_t chart_bytes, uint8_t *board, size_t board_bytes, uint8_t *trace, size_t trace_bytes,
              uint32_t lift, uint32_t event, uint32_t allowance);

/* A lift is made fresh for a chart: it writes that lift's part of the board alone. The answer is the refusal: 0, 1 to 12. */
uint64_t fresh(const uint8_t *chart, size_t chart_bytes, uint8_t *board, size_t board_bytes, uint32_t lift);

/* The bound of a chart, in units: a step of that chart with this allowance or more is never refused with 16. It writes nothing.
 * The answer is refusal + 256 x bound: see afraulenc_unpack_bound. Refusals: 1 to 11 of the chart, 21 it sends, 22 segments lead
 * from a junction back to it, 23 the bound is over 1,000,000. */
uint64_t bound(const uint8_t *chart, size_t chart_bytes);

/* A step's answer. All but the refusal is 0 where that is not 0. */
struct afraulenc_answer {
    unsigned refusal; /* 0: not refused */
    unsigned items;   /* how many items stand at the start of the trace */
    unsigned units;   /* how many units were used */
};

static inline struct afraulenc_answer afraulenc_unpack(uint64_t answer)
{
    struct afraulenc_answer told;
    told.refusal = (unsigned)(answer % 256);
    told.items = (unsigned)(answer / 256 % 512);
    told.units = (unsigned)(answer / 131072);
    return told;
}

/* The bound call's answer: the refusal, and the bound where that is 0. */
struct afraulenc_bound {
    unsigned refusal;
    unsigned units;
};

static inline struct afraulenc_bound afraulenc_unpack_bound(uint64_t answer)
{
    struct afraulenc_bound told;
    told.refusal = (unsigned)(answer % 256);
    told.units = (unsigned)(answer / 256);
    return told;
}

/* What a refusal means, in words for a person. */
static inline const char *afraulenc_why(unsigned refusal)
{
    static const char *const why[] = {
        "not refused",
        "the chart is shorter than its header",
        "the chart has not the mark of one",
        "the chart counts more than there can be, or no state or event",
        "the chart is shorter or longer than its tables",
        "the chart has a wrong mark, or a byte that should be zero",
        "the chart's tree of states, or a junction's place in it, is wrong",
        "the chart has a segment from or to nowhere or the root, or with no such event",
        "the chart has a block of instructions that it may not have",
        "the chart has an instruction that there is not",
        "the chart has a block that leaves its stack wrong",
        "the chart stores, raises or sends where that is barred",
        "there is no such lift on this board",
        "the lift's image is not one of this chart",
        "the chart has no such event",
        "the allowance is over 1,000,000",
        "the allowance is used up",
        "a value is outside 32 bits, or a divisor is 0",
        "eight sends are open already",
        "a path has more than 128 segments",
        "the trace has no room for another item",
        "there is no bound: the chart sends",
        "there is no bound: segments lead from a junction back to it",
        "the bound is over 1,000,000",
    };
    return refusal < sizeof why / sizeof why[0] ? why[refusal] : "there is no such refusal";
}

/* What a trace item tells of: the number is a state's, a segment's or an output's. */
enum afraulenc_kind {
    AFRAULENC_ENTERED = 1,    /* a state, before its entry action */
    AFRAULENC_LEFT = 2,       /* a state, on becoming inactive */
    AFRAULENC_DURING = 3,     /* a state, before its during action */
    AFRAULENC_PASSED = 4,     /* a segment, before its condition action */
    AFRAULENC_TRANSITION = 5, /* a segment, before its transition action */
    AFRAULENC_RAISED = 6      /* an output */
};

struct afraulenc_item {
    unsigned kind;
    unsigned number;
};

/* The item at a place of the trace, counted from 0: for the places below `items` of the answer. */
static inline struct afraulenc_item afraulenc_item_at(const uint8_t *trace, unsigned place)
{
    const uint8_t *at = trace + AFRAULENC_ITEM * (size_t)place;
    struct afraulenc_item told;
    told.kind = at[2] + 256u * at[3];
    told.number = at[0] + 256u * at[1];
    return told;
}

#ifdef __cplusplus
}
#endif

#endif
