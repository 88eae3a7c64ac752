/* The shortest host: a chart from its input, and two steps of lift 5. */
#include <stdio.h>
#include "afraulenc.h"

int main(void)
{
    static uint8_t chart[AFRAULENC_CHART + 1], board[AFRAULENC_BOARD], trace[AFRAULENC_TRACE]; /* + 1: a longer file is refused */
    const uint32_t lift = 5, event = 1, allowance = AFRAULENC_UNITS;
    size_t length = fread(chart, 1, sizeof chart, stdin);
    unsigned refusal = (unsigned)fresh(chart, length, board, sizeof board, lift);
    for (int i = 0; i < 2 && refusal == 0; i++) { /* the first step starts the chart, the second runs it */
        struct afraulenc_answer told = afraulenc_unpack(
            step(chart, length, board, sizeof board, trace, sizeof trace, lift, event, allowance));
        printf("%u units, %u items\n", told.units, told.items);
        refusal = told.refusal;
    }
    printf("%s\n", afraulenc_why(refusal));
    return refusal != 0;
}
