/* The sequence desk for the panel's firmware, in libsequence.a: gcc panel.c libsequence.a.
 *
 * A slice is two arguments, a pointer and then its length in bytes; NULL with length 0 is an empty
 * slice. The slices of one call must not overlap. Whatever the bytes are, a call answers; it keeps no
 * pointer and no state, allocates nothing, and needs memcpy and memset. So calls are reentrant, and any
 * threads may make them at once: they may read the same bytes, and what one of them writes must not be lent
 * to another meanwhile. */
#ifndef SEQUENCE_H
#define SEQUENCE_H

#include <stddef.h>
#include <stdint.h>

#ifdef __cplusplus
extern "C" {
#endif

/* The version of this header. It goes to the next hundred where a program for the version before has to be
 * looked at again: a call takes or answers something else, or a length such as SEQ_STATE is another. It goes
 * up by one where something is only added. So a program for this version or a later one up to 299 may say
 * `#if SEQ_VERSION / 100 != 2`, `#error`.
 *
 * A program for 100 or 101 has to be changed where it follows events. After an event that is not possible only
 * a restart goes on. p of an event can be SEQ_SPOILT, which is not 0 and not taken either. A state has 17 bytes,
 * and one of 16 is refused by 53: lend SEQ_STATE bytes; put a byte 0 behind a state that was stored, or restart. */
#define SEQ_VERSION 200

/* n is the number of a refusal, as documents 01 and 02 have it, and p, q, r its places, unused ones 0.
 * Where nothing is refused n is 0 and p, q, r are what the call says below. */
typedef struct seq_numbers {
    uint64_t n;
    uint64_t p;
    uint64_t q;
    uint64_t r;
} seq_numbers;

/* The refusals by name: what n can be, besides 0. docs/REFUSALS.md has each in words, with an example and what
 * to mend. */
typedef enum seq_refusal {
    /* The transfer. */
    SEQ_FILE_TOO_LONG = 1,
    SEQ_RECORD_INCOMPLETE = 2,
    SEQ_RECORD_KIND = 3,
    SEQ_BYTES_AFTER = 4,
    /* The expression. */
    SEQ_EXPRESSION_LENGTH = 10,
    SEQ_NODE_MALFORMED = 11,
    SEQ_NODE_USES = 12,
    /* The chart. */
    SEQ_CHART_HEAD = 20,
    SEQ_TRANSITION_MALFORMED = 21,
    /* The labelling. */
    SEQ_LABELLING_LENGTH = 30,
    SEQ_VERTEX_UNREACHED = 31,
    SEQ_BRANCH_CYCLE = 32,
    SEQ_LOOP_NO_RETURN = 33,
    SEQ_LOOP_END_INSIDE = 34,
    SEQ_LOOP_NOT_LOWER = 35,
    /* The relation. */
    SEQ_RELATION_LENGTH = 40,
    SEQ_COLUMN_NO_VERTEX = 41,
    SEQ_STARTS_UNRELATED = 42,
    SEQ_END_RELATED = 43,
    SEQ_EXPRESSION_UNMATCHED = 44,
    SEQ_CHART_UNMATCHED = 45,
    /* The caller. */
    SEQ_STANDING_BYTES = 50,
    SEQ_NO_ENTRY = 51,
    SEQ_NOT_LOOP = 52,
    SEQ_FOLLOWER_SET = 53,
    SEQ_OUTPUT_TOO_SHORT = 54,
    SEQ_NO_WAY = 55,
    SEQ_LOOP_LIST = 56,
    SEQ_START_INSIDE = 57,
    /* The chart or the labelling, where an expression is to be written for them. */
    SEQ_TOO_MANY_NODES = 58
} seq_refusal;

/* The longest yard file, the longest chart of an expression, and the longest expression, in bytes. */
#define SEQ_LONGEST_FILE 43536
#define SEQ_LONGEST_CHART 32772
#define SEQ_LONGEST_EXPRESSION 508

/* The length of a follower's state, in bytes: a set of vertices, 16, and the mark. */
#define SEQ_STATE 17

/* The words of a follower's answer: p of seq_restart and seq_event, where n is 0. */
enum { SEQ_NOT_POSSIBLE = 0, SEQ_TAKEN = 1, SEQ_SPOILT = 2 };

/* The most loops that seq_remove_together takes out. */
#define SEQ_MOST_LOOPS 64

/* The longest list of events that seq_shortest_way writes. */
#define SEQ_LONGEST_WAY 127

/* The stack that each call needs, in bytes, as bench/stack.c measures it on x86-64 (tests/c/run builds and runs
 * it), rounded up to a KiB. The caller's own come on top. */
#define SEQ_STACK_CHECK 25600
#define SEQ_STACK_WRITE_CHART 8192
#define SEQ_STACK_WRITE_EXPRESSION 18432
#define SEQ_STACK_REMOVE 5120
#define SEQ_STACK_REMOVE_TOGETHER 5120
#define SEQ_STACK_RESTART 2048
#define SEQ_STACK_EVENT 3072
#define SEQ_STACK_SHORTEST_WAY 7168

/* A yard file is four records of the kinds 1 to 4, in this order, and nothing after them. A record is the
 * length of its body in two bytes, its kind in two, and the body; of two bytes the low one comes first.
 *
 * 1, expression: 1 to 127 nodes of four bytes, kind, action, left, right. Kind 0 is deadlock, 1 an action
 *    from 1 to 255; 2 is a sum, 3 a product and 4 a star (left is repeated, right leaves) of the nodes left
 *    and right, which have lower numbers. What a kind does not use is 0. The last node is the whole, and
 *    each other one is used once.
 * 2, chart: V, from 2 to 128, the start, from 1 to V - 1, and T in two bytes, at most 8,192; then T
 *    transitions of four bytes, from, action, to and 0, in rising order. Vertex 0 is the end.
 * 3, labelling: a byte for each transition, 0 for a branch, 1 to 255 for an entry of that level.
 * 4, relation: a row of 16 bytes for each vertex of the expression's chart, which are one more than the
 *    nodes. Row u has vertex v of the chart where byte v / 8 has the bit worth 2 to the power of v % 8. */
enum { SEQ_EXPRESSION = 1, SEQ_CHART = 2, SEQ_LABELLING = 3, SEQ_RELATION = 4 };

typedef struct seq_slice {
    const uint8_t *bytes;
    size_t len;
} seq_slice;

/* The body of record k of a file, k from 1 to 4: a part of the file's bytes. Any file will do, whether it
 * is accepted or not; where it ends before the body does, and for every other k, the answer is NULL with
 * length 0. The kinds in the headers are not looked at: seq_check does that. */
static inline seq_slice seq_body(const uint8_t *file, size_t file_len, unsigned k)
{
    seq_slice body = {NULL, 0};
    for (unsigned record = 1; record <= 4 && file_len >= 4; record++) {
        size_t len = file[0] + 256u * file[1];
        if (len > file_len - 4)
            break;
        if (record == k) {
            body.bytes = file + 4;
            body.len = len;
            break;
        }
        file += 4 + len;
        file_len -= 4 + len;
    }
    return body;
}

/* The verdict on a yard file.
 *
 * Accepted: n 0, p its vertices V, q its transitions T, r the number of its loops.
 * Refused: the first check that fails, n of 1 to 4, 10 to 12, 20, 21, 30 to 35 and 40 to 45.
 * The file is only read. */
seq_numbers seq_check(const uint8_t *file, size_t file_len);

/* Writes the chart of an expression, in the form of a chart body, to the beginning of out. nodes is
 * the body of a record of kind 1.
 *
 * Written: n 0, p its length in bytes, q and r 0. The bytes of out past that length are kept.
 * Refused: n 10, 11 or 12 for the nodes; n 54 where out is too short, p the bytes needed. No byte of
 * out is changed.
 * The nodes are only read. SEQ_LONGEST_CHART bytes are enough for every expression. */
seq_numbers seq_write_chart(const uint8_t *nodes, size_t nodes_len, uint8_t *out, size_t out_len);

/* Writes an expression for a chart, in the form of the body of a record of kind 1, to the beginning of
 * out. chart and labels are the bodies of records of kinds 2 and 3. Some relation of this expression and
 * the chart passes checks 40 to 45 of seq_check.
 *
 * The expression is the text of the start back to the end. The text of a vertex back to another is a
 * star: its left is the sum over the vertex's entries of the action, times the target's text back to the
 * vertex unless that is the target; its right is the sum over the vertex's branches of the action, times
 * the target's text back to the other unless that is the target. Sums nest to the left, in the order of
 * the transitions; a sum of nothing is deadlock, a sum of one is that one. The nodes of a left operand
 * come first, then those of the right one, then the node that has the two.
 *
 * Written: n 0, p its length in bytes, q and r 0. The bytes of out past that length are kept.
 * Refused: n 20 or 21 for the chart; n 30 to 35 for the labels; n 58 where the expression would have more
 * than 127 nodes; n 54 where out is too short, p the bytes needed. No byte of out is changed.
 * The chart and the labels are only read. SEQ_LONGEST_EXPRESSION bytes are enough for every chart. */
seq_numbers seq_write_expression(const uint8_t *chart, size_t chart_len, const uint8_t *labels, size_t labels_len,
                                 uint8_t *out, size_t out_len);

/* Takes out a loop: the transitions that leave vertex with the label level, its entries. chart and
 * labels are the bodies of records of kinds 2 and 3. standing has a byte for each transition, 1 where
 * it stands and 0 where it is gone: at first all are 1, and each call is lent what the one before left.
 *
 * Done: n 0, p, q and r 0. The bytes of the loop's entries are 0, all others of standing are kept.
 * Refused: n 20 or 21 for the chart, n 30 for the labels; n 50 where standing has another length or a
 * byte above 1; n 51 where no entry of the loop stands; n 52 where what stands of it is no loop. p is
 * the vertex and q the level of 51 and 52, whatever numbers they are. r of 52 is 1 where nothing goes
 * round, 2 where something goes round without coming back to vertex, 3 where the end is inside; the
 * first of these that holds. No byte of standing is changed.
 * The chart and the labels are only read. */
seq_numbers seq_remove(const uint8_t *chart, size_t chart_len, const uint8_t *labels, size_t labels_len,
                       size_t vertex, size_t level, uint8_t *standing, size_t standing_len);

/* Takes out several loops together. loops is a list of them, two bytes each, the vertex and then the
 * level. chart, labels and standing are as for seq_remove.
 *
 * Done: n 0, p, q and r 0. The bytes of the entries of all these loops are 0, all others of standing are
 * kept: what seq_remove leaves that takes out one after the other, in whatever order. An empty list
 * changes no byte.
 * Refused: n 20, 21, 30 and 50 as for seq_remove; n 56 where loops has an odd length, more than
 * SEQ_MOST_LOOPS loops, or one of them twice; n 51 or 52 as for seq_remove, of the first loop of the list
 * that it would refuse before any of them is taken out; n 57 where one starts inside another, p its place
 * in the list, from 0, the lowest of them. Inside a loop is what its entries lead to, followed by all that
 * stands, but not beyond its own vertex; this is not inside, so several loops may start there. No byte of
 * standing is changed.
 * The chart, the labels and the list are only read. */
seq_numbers seq_remove_together(const uint8_t *chart, size_t chart_len, const uint8_t *labels, size_t labels_len,
                                const uint8_t *loops, size_t loops_len, uint8_t *standing, size_t standing_len);

/* A follower of events. chart is the body of a record of kind 2, or what seq_write_chart has written.
 * state is SEQ_STATE bytes, a set of its vertices and then the mark. Vertex v is in the set where byte v / 8
 * has the bit worth 2 to the power of v % 8; byte 16 is the mark, 1 where the run is spoilt and else 0. A
 * restart comes first, and makes the set the chart's start alone and the mark 0, whatever they were; each
 * event after it is lent what the call before left, with the same chart.
 *
 * Taken: n 0, p SEQ_TAKEN, q 1 where the end is in the set and else 0, r the number of different actions that
 * the vertices of the set offer. The state is the new set, with mark 0.
 * Refused: n 20 or 21 for the chart; n 53 where state has another length. No byte of state is changed.
 * The chart is only read. */
seq_numbers seq_restart(const uint8_t *chart, size_t chart_len, uint8_t *state, size_t state_len);

/* An event: where some transition with this action leaves a vertex of the set, the set becomes all
 * that such transitions lead to; where none does, the run is spoilt until a restart. Action 0 is no
 * transition's.
 *
 * Taken: n 0, p SEQ_TAKEN, q and r as for seq_restart. The state is the new set, with mark 0.
 * Not possible: n 0, p SEQ_NOT_POSSIBLE, q and r as for seq_restart, of the set, which stays. The mark
 * becomes 1; no other byte of state is changed.
 * Spoilt, whatever the action, where the mark is 1 and nothing is refused: n 0, p SEQ_SPOILT, q and r 0. No
 * byte of state is changed.
 * Refused: n 20 or 21 for the chart; n 53 where state has another length, the set is empty, a vertex of it
 * is not below the chart's number of vertices, or the mark is above 1. No byte of state is changed.
 * The chart is only read. */
seq_numbers seq_event(const uint8_t *chart, size_t chart_len, uint8_t *state, size_t state_len, uint8_t action);

/* Writes the shortest list of events after which the end is in the set to the beginning of out, a byte
 * for each event; of several lists of that length, the one with the lower action where they first differ.
 * chart and state are as for seq_event. From a spoilt state no list leads to the end.
 *
 * Written: n 0, p the number of events, below the chart's number of vertices, q and r 0. p is 0 where the
 * end is in the set already. The bytes of out past p are kept.
 * Refused: n 20 or 21 for the chart; n 53 as for seq_event; n 55 where the mark is 1, also with the end in
 * the set, and where no list of events leads to the end; n 54 where out is too short, p the bytes needed.
 * No byte of out is changed.
 * The chart and the state are only read. SEQ_LONGEST_WAY bytes are enough for every chart. */
seq_numbers seq_shortest_way(const uint8_t *chart, size_t chart_len, const uint8_t *state, size_t state_len,
                             uint8_t *out, size_t out_len);

#ifdef __cplusplus
}
#endif

#endif
