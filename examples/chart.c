/* `chart FILE` prints the chart of a yard file's expression, a line for each transition: the number that refusal 44 has
 * for it, then from, action and to.
 *
 * Exit status: 0; 1 where the file is refused before its chart is looked at; 2 where it cannot be read. */
#include "sequence.h"

#include <inttypes.h>
#include <stdio.h>

/* Room for a byte too many, so that a file that is too long is refused. */
static uint8_t file[SEQ_LONGEST_FILE + 1];
static uint8_t chart[SEQ_LONGEST_CHART];

int main(int count, char **words)
{
    if (count != 2) {
        fprintf(stderr, "usage: chart FILE\n");
        return 2;
    }
    FILE *in = fopen(words[1], "rb");
    size_t len = in ? fread(file, 1, sizeof file, in) : 0;
    if (!in || ferror(in)) {
        fprintf(stderr, "chart: %s cannot be read\n", words[1]);
        return 2;
    }
    fclose(in);
    seq_numbers said = seq_check(file, len);
    if (said.n != 0 && said.n < SEQ_CHART_HEAD) {
        printf("refused %" PRIu64 " %" PRIu64 " %" PRIu64 " %" PRIu64 " (docs/REFUSALS.md)\n", said.n, said.p, said.q,
               said.r);
        return 1;
    }
    seq_slice nodes = seq_body(file, len, SEQ_EXPRESSION);
    uint64_t chart_len = seq_write_chart(nodes.bytes, nodes.len, chart, sizeof chart).p;
    for (uint64_t at = 4; at < chart_len; at += 4)
        printf("%" PRIu64 ": from %d by action %d to %d\n", at / 4 - 1, chart[at], chart[at + 1], chart[at + 2]);
    return 0;
}
