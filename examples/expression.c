/* `expression FILE` prints an expression for a yard file's chart, as a text and then its nodes, a line each: the number and
 * the four bytes. In the text x * y repeats x and leaves by y, x . y does x and then y, x + y does one of them; a number is
 * an action, and 0 deadlock. The file's own expression and relation are not looked at.
 *
 * Exit status: 0; 1 where the file, its chart or its labelling is refused, or the expression would be too long; 2 where
 * it cannot be read. */
#include "sequence.h"

#include <inttypes.h>
#include <stdio.h>

/* Room for a byte too many, so that a file that is too long is refused. */
static uint8_t file[SEQ_LONGEST_FILE + 1];
static uint8_t nodes[SEQ_LONGEST_EXPRESSION];

static int refused(seq_numbers said)
{
    printf("refused %" PRIu64 " %" PRIu64 " %" PRIu64 " %" PRIu64 " (docs/REFUSALS.md)\n", said.n, said.p, said.q,
           said.r);
    return 1;
}

/* The text of a node, within brackets where it is an operation and not the whole. */
static void print_text(size_t node, int whole)
{
    const uint8_t *bytes = nodes + 4 * node;
    if (bytes[0] < 2) {
        printf("%d", bytes[1]);
        return;
    }
    printf("%s", whole ? "" : "(");
    print_text(bytes[2], 0);
    printf(" %c ", "+.*"[bytes[0] - 2]);
    print_text(bytes[3], 0);
    printf("%s", whole ? "" : ")");
}

int main(int count, char **words)
{
    if (count != 2) {
        fprintf(stderr, "usage: expression FILE\n");
        return 2;
    }
    FILE *in = fopen(words[1], "rb");
    size_t len = in ? fread(file, 1, sizeof file, in) : 0;
    if (!in || ferror(in)) {
        fprintf(stderr, "expression: %s cannot be read\n", words[1]);
        return 2;
    }
    fclose(in);
    seq_numbers said = seq_check(file, len);
    if (said.n != 0 && said.n < SEQ_EXPRESSION_LENGTH)
        return refused(said);
    seq_slice chart = seq_body(file, len, SEQ_CHART);
    seq_slice labels = seq_body(file, len, SEQ_LABELLING);
    said = seq_write_expression(chart.bytes, chart.len, labels.bytes, labels.len, nodes, sizeof nodes);
    if (said.n != 0)
        return refused(said);
    print_text((size_t)said.p / 4 - 1, 1);
    printf("\n");
    for (size_t at = 0; at < said.p; at += 4)
        printf("%zu: %02X %02X %02X %02X\n", at / 4, nodes[at], nodes[at + 1], nodes[at + 2], nodes[at + 3]);
    return 0;
}
