/* Runs the C library: document 01's starred cases of the check, of the expression's chart, of the
 * removal and of the follower, expressions for charts, loops taken out together, shortest ways, spoilt runs,
 * the bodies of a file, empty slices, the limits, and lent buffers of each length that matters.
 * Prints what is wrong and, last, the count of cases; exits with 1 where something is wrong. */
#define _DEFAULT_SOURCE
#include "sequence.h"

#include <inttypes.h>
#include <stdio.h>
#include <stdlib.h>
#include <string.h>
#include <sys/mman.h>
#include <unistd.h>

static unsigned cases;
static unsigned wrong;

/* Slices that end where memory ends: a byte read or written past one stops the program. */

static uint8_t *file_end;
static uint8_t *labels_end;
static uint8_t *loops_end;
static uint8_t *out_end;

static uint8_t *end_of_memory(size_t longest)
{
    size_t page = (size_t)sysconf(_SC_PAGESIZE);
    size_t size = (longest + page - 1) / page * page;
    uint8_t *start = mmap(NULL, size + page, PROT_READ | PROT_WRITE, MAP_PRIVATE | MAP_ANONYMOUS, -1, 0);
    if (start == MAP_FAILED || mprotect(start + size, page, PROT_NONE) != 0) {
        perror("mmap");
        exit(2);
    }
    return start + size;
}

static uint8_t *copy_before(uint8_t *end, const uint8_t *bytes, size_t len)
{
    uint8_t *slice = end - len;
    memcpy(slice, bytes, len);
    return slice;
}

/* One call, and what is wrong with it. */

static void print_numbers(const char *whose, seq_numbers numbers)
{
    printf("  %s %" PRIu64 " %" PRIu64 " %" PRIu64 " %" PRIu64 "\n", whose, numbers.n, numbers.p, numbers.q,
           numbers.r);
}

static void expect_numbers(const char *name, seq_numbers got, seq_numbers want)
{
    if (got.n != want.n || got.p != want.p || got.q != want.q || got.r != want.r) {
        wrong++;
        printf("wrong: %s\n", name);
        print_numbers("answers", got);
        print_numbers("wanted ", want);
    }
}

static void expect_bytes(const char *name, const uint8_t *got, const uint8_t *want, size_t len)
{
    for (size_t i = 0; i < len; i++) {
        if (got[i] != want[i]) {
            wrong++;
            printf("wrong: %s\n  byte %zu is %02X, wanted %02X\n", name, i, got[i], want[i]);
            return;
        }
    }
}

static void expect_check(const char *name, const uint8_t *file, size_t len, seq_numbers want)
{
    const uint8_t *lent = copy_before(file_end, file, len);
    cases++;
    expect_numbers(name, seq_check(lent, len), want);
    expect_bytes(name, lent, file, len);
}

/* Lends output: bytes that differ at each place from those that are to be written, which p counts. */

static uint8_t out_left[SEQ_LONGEST_CHART + 16];

static uint8_t *lend_out(size_t lent, seq_numbers want, const uint8_t *bytes)
{
    size_t written = want.n == 0 ? (size_t)want.p : 0;
    uint8_t *out = out_end - lent;
    for (size_t i = 0; i < lent; i++) {
        out[i] = (uint8_t)(i < written ? 255u - bytes[i] : 0xC0 + i % 31);
        out_left[i] = i < written ? bytes[i] : out[i];
    }
    return out;
}

/* The answer and every byte of nodes and output are held to what is wanted. */
static void expect_chart(const char *name, const uint8_t *nodes, size_t nodes_len, size_t lent, seq_numbers want,
                         const uint8_t *chart)
{
    const uint8_t *given = copy_before(file_end, nodes, nodes_len);
    uint8_t *out = lend_out(lent, want, chart);
    cases++;
    expect_numbers(name, seq_write_chart(given, nodes_len, out, lent), want);
    expect_bytes(name, out, out_left, lent);
    expect_bytes(name, given, nodes, nodes_len);
}

static seq_numbers numbers(uint64_t n, uint64_t p, uint64_t q, uint64_t r)
{
    return (seq_numbers){n, p, q, r};
}

/* Yard files. */

typedef struct body {
    size_t len;
    uint8_t bytes[4 + 4 * 8193];
} body;

typedef struct yard {
    body bodies[4];
} yard;

enum { NODES, CHART, LABELS, RELATION };

static uint8_t file_bytes[65536];

static void put(body *body, uint8_t byte)
{
    body->bytes[body->len++] = byte;
}

static void put_four(body *body, unsigned a, unsigned b, unsigned c, unsigned d)
{
    put(body, (uint8_t)a);
    put(body, (uint8_t)b);
    put(body, (uint8_t)c);
    put(body, (uint8_t)d);
}

static void set_body(body *body, const uint8_t *bytes, size_t len)
{
    body->len = len;
    memcpy(body->bytes, bytes, len);
}

static void put_row(body *body, uint8_t first, uint8_t others)
{
    put(body, first);
    for (int i = 1; i < 16; i++)
        put(body, others);
}

static size_t write_file(const yard *yard)
{
    size_t at = 0;
    for (int k = 0; k < 4; k++) {
        const body *body = &yard->bodies[k];
        file_bytes[at++] = (uint8_t)(body->len % 256);
        file_bytes[at++] = (uint8_t)(body->len / 256);
        file_bytes[at++] = (uint8_t)(k + 1);
        file_bytes[at++] = 0;
        memcpy(file_bytes + at, body->bytes, body->len);
        at += body->len;
    }
    return at;
}

static void expect_yard(const char *name, const yard *yard, seq_numbers want)
{
    size_t len = write_file(yard);
    expect_check(name, file_bytes, len, want);
}

/* Document 01's file G. */

#define NONE 0, 0, 0, 0, 0, 0, 0, 0, 0, 0, 0, 0, 0, 0, 0
static const uint8_t G[106] = {
    0x0C, 0x00, 0x01, 0x00, 0x01, 0x01, 0x00, 0x00, 0x01, 0x02, 0x00, 0x00, 0x04, 0x00, 0x00, 0x01,
    0x0C, 0x00, 0x02, 0x00, 0x02, 0x01, 0x02, 0x00, 0x01, 0x01, 0x01, 0x00, 0x01, 0x02, 0x00, 0x00,
    0x02, 0x00, 0x03, 0x00, 0x01, 0x00,
    0x40, 0x00, 0x04, 0x00,
    0x01, NONE, 0x00, NONE, 0x00, NONE, 0x02, NONE,
};
static const uint8_t G_NODES[12] = {1, 1, 0, 0, 1, 2, 0, 0, 4, 0, 0, 1};
static const uint8_t G_CHART[20] = {4, 3, 4, 0, 1, 1, 3, 0, 2, 2, 0, 0, 3, 1, 3, 0, 3, 2, 0, 0};

enum { G_ROOT = 12, G_LABELS = 36, G_ROW_0 = 42, G_ROW_3 = 42 + 48 };

static void expect_g(const char *name, size_t at, const uint8_t *bytes, size_t len, seq_numbers want)
{
    memcpy(file_bytes, G, sizeof G);
    memcpy(file_bytes + at, bytes, len);
    expect_check(name, file_bytes, sizeof G, want);
}

/* Where its bodies begin, and their lengths. */
static const size_t G_STARTS[4] = {4, 20, G_LABELS, G_ROW_0};
static const size_t G_LENS[4] = {12, 12, 2, 64};

/* G's bodies, as a yard to change. */
static void g_yard(yard *yard)
{
    for (int k = 0; k < 4; k++)
        set_body(&yard->bodies[k], G + G_STARTS[k], G_LENS[k]);
}

/* Document 01's chart of two loops, one inside the other: vertex 1 enters vertex 2 or leaves to the
 * end, vertex 2 goes round by itself or back. */
static const uint8_t TWO_LOOPS[20] = {3, 1, 4, 0, 1, 1, 2, 0, 1, 3, 0, 0, 2, 1, 2, 0, 2, 2, 1, 0};
static const uint8_t TWO_LEVELS[4] = {2, 0, 1, 0};

static void starred_checks(void)
{
    expect_check("G", G, sizeof G, numbers(0, 2, 2, 1));
    memcpy(file_bytes, G, sizeof G);
    file_bytes[sizeof G] = 0;
    expect_check("G and a byte", file_bytes, sizeof G + 1, numbers(4, 106, 0, 0));
    expect_g("labels 00 00", G_LABELS, (uint8_t[]){0, 0}, 2, numbers(32, 1, 0, 0));
    expect_g("labels 01 01", G_LABELS, (uint8_t[]){1, 1}, 2, numbers(34, 1, 1, 0));
    expect_g("labels 01 02", G_LABELS, (uint8_t[]){1, 2}, 2, numbers(33, 1, 2, 0));
    expect_g("row 3 cleared", G_ROW_3, (uint8_t[]){0}, 1, numbers(42, 3, 1, 0));
    expect_g("row 0 cleared", G_ROW_0, (uint8_t[]){0}, 1, numbers(44, 3, 1, 3));
    expect_g("row 0 is 03", G_ROW_0, (uint8_t[]){3}, 1, numbers(43, 0, 1, 0));
    expect_g("root 04 00 00 00", G_ROOT, (uint8_t[]){4, 0, 0, 0}, 4, numbers(12, 0, 2, 0));
}

static void equal_levels_inside_each_other(void)
{
    static yard yard;
    g_yard(&yard);
    set_body(&yard.bodies[CHART], TWO_LOOPS, 20);
    set_body(&yard.bodies[LABELS], (uint8_t[]){1, 0, 1, 0}, 4);
    expect_yard("labels 1 0 1 0", &yard, numbers(35, 1, 1, 2));
    set_body(&yard.bodies[LABELS], TWO_LEVELS, 4);
    expect_yard("labels 2 0 1 0 against G's expression", &yard, numbers(44, 3, 1, 2));
}

/* Every beginning of G is refused by 2, at the record in which it ends. */
static void beginnings_of_g(void)
{
    for (size_t len = 0; len < sizeof G; len++) {
        uint64_t record = len < 16 ? 1 : len < 32 ? 2 : len < 38 ? 3 : 4;
        expect_check("a beginning of G", G, len, numbers(2, record, 0, 0));
    }
}

/* The body of a record of a file: where it begins, or NOWHERE, and its length. */
enum { NOWHERE = 0 };

static void expect_body(const char *name, const uint8_t *file, size_t len, unsigned k, size_t start, size_t body_len)
{
    const uint8_t *lent = copy_before(file_end, file, len);
    seq_slice body = seq_body(lent, len, k);
    const uint8_t *want = start == NOWHERE ? NULL : lent + start;
    cases++;
    if (body.bytes != want || body.len != body_len) {
        wrong++;
        printf("wrong: %s\n  body %u has %zu bytes, wanted %zu from %zu on\n", name, k, body.len, body_len, start);
    }
}

/* Of each beginning of G, and of G with more bytes, the bodies that are there. */
static void bodies_of_g(void)
{
    memcpy(file_bytes, G, sizeof G);
    memcpy(file_bytes + sizeof G, G, sizeof G);
    for (size_t len = 0; len <= 2 * sizeof G; len++) {
        for (unsigned k = 1; k <= 4; k++) {
            if (G_STARTS[k - 1] + G_LENS[k - 1] <= len)
                expect_body("a body of G", file_bytes, len, k, G_STARTS[k - 1], G_LENS[k - 1]);
            else
                expect_body("a body that G lacks", file_bytes, len, k, NOWHERE, 0);
        }
        expect_body("body 0", file_bytes, len, 0, NOWHERE, 0);
        expect_body("body 5", file_bytes, len, 5, NOWHERE, 0);
        expect_body("a body far off", file_bytes, len, (unsigned)-1, NOWHERE, 0);
    }
}

/* Bodies of no bytes, of the most that two bytes can say, and of one more than there are; kinds do not matter. */
static void bodies_of_other_files(void)
{
    memset(file_bytes, 0, 16);
    for (unsigned k = 1; k <= 4; k++)
        expect_body("an empty body", file_bytes, 16, k, 4 * k, 0);
    memset(file_bytes, 0xFF, sizeof file_bytes);
    for (unsigned k = 1; k <= 4; k++)
        expect_body("65,535 bytes of a longer body", file_bytes, sizeof file_bytes - 1, k, NOWHERE, 0);
    for (size_t len = 0; len < 300; len++) {
        uint8_t head[304] = {(uint8_t)(len % 256), (uint8_t)(len / 256), 9, 9};
        expect_body("a body of each length", head, len + 4, 1, 4, len);
        expect_body("no second record", head, len + 4, 2, NOWHERE, 0);
        if (len > 0)
            expect_body("a byte too few", head, len + 3, 1, NOWHERE, 0);
    }
    cases++;
    if (seq_body(NULL, 0, 1).bytes || seq_body(NULL, 0, 1).len != 0) {
        wrong++;
        printf("wrong: a body of no file\n");
    }
}

static void empty_slices(void)
{
    static const uint8_t no_transition[4] = {2, 1, 0, 0};
    static const uint8_t at_end[SEQ_STATE] = {1};
    static const uint8_t at_start[SEQ_STATE] = {8};
    static const uint8_t deadlocks[12] = {0, 0, 0, 0, 0, 0, 0, 0, 4, 0, 0, 1};
    uint8_t standing[2] = {1, 1};
    uint8_t nodes[12];
    uint8_t byte = 0xAB;
    cases += 35;
    expect_numbers("no file", seq_check(NULL, 0), numbers(2, 1, 0, 0));
    expect_numbers("a file of no bytes", seq_check(&byte, 0), numbers(2, 1, 0, 0));
    expect_numbers("no nodes, no output", seq_write_chart(NULL, 0, NULL, 0), numbers(10, 0, 0, 0));
    expect_numbers("no nodes", seq_write_chart(NULL, 0, &byte, 1), numbers(10, 0, 0, 0));
    expect_numbers("no output", seq_write_chart(G_NODES, 12, NULL, 0), numbers(54, 20, 0, 0));
    expect_numbers("nothing to write for", seq_write_expression(NULL, 0, NULL, 0, NULL, 0), numbers(20, 0, 0, 0));
    expect_numbers("nothing to write for, a byte", seq_write_expression(NULL, 0, NULL, 0, &byte, 1),
                   numbers(20, 0, 0, 0));
    expect_numbers("no labels to write by", seq_write_expression(G + 20, 12, NULL, 0, NULL, 0), numbers(30, 0, 0, 0));
    expect_numbers("labels of no bytes", seq_write_expression(G + 20, 12, &byte, 0, NULL, 0), numbers(30, 0, 0, 0));
    expect_numbers("no room for nodes", seq_write_expression(G + 20, 12, G + G_LABELS, 2, NULL, 0),
                   numbers(54, 12, 0, 0));
    expect_numbers("no transition, no room", seq_write_expression(no_transition, 4, NULL, 0, NULL, 0),
                   numbers(54, 12, 0, 0));
    expect_numbers("no transition to write for", seq_write_expression(no_transition, 4, NULL, 0, nodes, 12),
                   numbers(0, 12, 0, 0));
    expect_bytes("written with no labels", nodes, deadlocks, 12);
    expect_numbers("no chart", seq_remove(NULL, 0, NULL, 0, 1, 1, NULL, 0), numbers(20, 0, 0, 0));
    expect_numbers("no chart, a standing byte", seq_remove(NULL, 0, NULL, 0, 1, 1, &byte, 1), numbers(20, 0, 0, 0));
    expect_numbers("no labels", seq_remove(G_CHART, 20, NULL, 0, 1, 1, &byte, 1), numbers(30, 0, 0, 0));
    expect_numbers("no standing bytes", seq_remove(G_CHART, 20, G_CHART, 4, 1, 1, NULL, 0), numbers(50, 0, 0, 0));
    expect_numbers("no transition", seq_remove(no_transition, 4, NULL, 0, 1, 1, NULL, 0), numbers(51, 1, 1, 0));
    expect_numbers("no transition, a standing byte", seq_remove(no_transition, 4, NULL, 0, 1, 1, &byte, 1),
                   numbers(50, 0, 0, 0));
    expect_numbers("no chart, no loops", seq_remove_together(NULL, 0, NULL, 0, NULL, 0, NULL, 0), numbers(20, 0, 0, 0));
    expect_numbers("no labels, no loops", seq_remove_together(G_CHART, 20, NULL, 0, NULL, 0, NULL, 0),
                   numbers(30, 0, 0, 0));
    expect_numbers("no standing bytes, no loops", seq_remove_together(G_CHART, 20, G_CHART, 4, NULL, 0, NULL, 0),
                   numbers(50, 0, 0, 0));
    expect_numbers("no transition, no loops", seq_remove_together(no_transition, 4, NULL, 0, NULL, 0, NULL, 0),
                   numbers(0, 0, 0, 0));
    expect_numbers("no loops", seq_remove_together(G + 20, 12, G + G_LABELS, 2, NULL, 0, standing, 2),
                   numbers(0, 0, 0, 0));
    expect_numbers("a list of no bytes", seq_remove_together(G + 20, 12, G + G_LABELS, 2, &byte, 0, standing, 2),
                   numbers(0, 0, 0, 0));
    expect_bytes("lent with no loops", standing, (uint8_t[]){1, 1}, 2);
    expect_numbers("no transition, a loop", seq_remove_together(no_transition, 4, NULL, 0, at_end, 2, NULL, 0),
                   numbers(51, 1, 0, 0));
    expect_numbers("no chart to restart", seq_restart(NULL, 0, NULL, 0), numbers(20, 0, 0, 0));
    expect_numbers("no chart for an event", seq_event(NULL, 0, NULL, 0, 1), numbers(20, 0, 0, 0));
    expect_numbers("no state to restart", seq_restart(G_CHART, 20, NULL, 0), numbers(53, 0, 0, 0));
    expect_numbers("no state for an event", seq_event(G_CHART, 20, NULL, 0, 1), numbers(53, 0, 0, 0));
    expect_numbers("a state of no bytes, to restart", seq_restart(G_CHART, 20, &byte, 0), numbers(53, 0, 0, 0));
    expect_numbers("a state of no bytes", seq_event(G_CHART, 20, &byte, 0, 1), numbers(53, 0, 0, 0));
    expect_numbers("no chart, no way", seq_shortest_way(NULL, 0, NULL, 0, NULL, 0), numbers(20, 0, 0, 0));
    expect_numbers("no state, no way", seq_shortest_way(G_CHART, 20, NULL, 0, &byte, 1), numbers(53, 0, 0, 0));
    expect_numbers("no room for a way", seq_shortest_way(G_CHART, 20, at_start, SEQ_STATE, NULL, 0),
                   numbers(54, 1, 0, 0));
    expect_numbers("no room needed", seq_shortest_way(G_CHART, 20, at_end, SEQ_STATE, NULL, 0),
                   numbers(0, 0, 0, 0));
    expect_bytes("lent to what refuses", &byte, (uint8_t[]){0xAB}, 1);
}

/* Limits. */

/* 63 actions 1, summed, repeated until deadlock: 127 nodes. */
static void put_ones_for_ever(body *nodes)
{
    put_four(nodes, 1, 1, 0, 0);
    for (unsigned last = 0; last < 124; last += 2) {
        put_four(nodes, 1, 1, 0, 0);
        put_four(nodes, 2, 0, last, last + 1);
    }
    put_four(nodes, 0, 0, 0, 0);
    put_four(nodes, 4, 0, 124, 125);
}

/* V 128, T 8,192, action 1 alone: branches from each vertex to all lower ones, entries of level 1
 * from 2 to 65 each to itself, and from vertex 1 an entry of its own level to every vertex. */
static void put_full_chart(body *chart, body *labels)
{
    put_four(chart, 128, 127, 8192 % 256, 8192 / 256);
    for (unsigned to = 1; to < 128; to++) {
        put_four(chart, 1, 1, to, 0);
        put(labels, (uint8_t)(to + 1));
    }
    for (unsigned from = 2; from < 128; from++) {
        for (unsigned to = 1; to < from; to++) {
            put_four(chart, from, 1, to, 0);
            put(labels, 0);
        }
        if (from <= 65) {
            put_four(chart, from, 1, from, 0);
            put(labels, 1);
        }
    }
}

/* All but the ends and the deadlock related. */
static void put_full_relation(body *relation)
{
    for (int row = 0; row < 128; row++) {
        if (row == 0 || row == 126)
            put_row(relation, 0, 0);
        else
            put_row(relation, 0xFE, 0xFF);
    }
}

static void longest_file(void)
{
    static yard yard;
    put_ones_for_ever(&yard.bodies[NODES]);
    put_full_chart(&yard.bodies[CHART], &yard.bodies[LABELS]);
    put_full_relation(&yard.bodies[RELATION]);
    size_t len = write_file(&yard);
    cases++;
    if (len != SEQ_LONGEST_FILE) {
        wrong++;
        printf("wrong: the longest file has %zu bytes\n", len);
    }
    expect_check("43,536 bytes: 127 nodes, V 128, T 8,192", file_bytes, len, numbers(0, 128, 8192, 191));
    file_bytes[len] = 0;
    expect_check("43,537 bytes", file_bytes, len + 1, numbers(1, 0, 0, 0));
    expect_check("43,535 bytes", file_bytes, len - 1, numbers(2, 4, 0, 0));
    memset(file_bytes, 0xFF, len + 1);
    expect_check("43,537 bytes FF", file_bytes, len + 1, numbers(1, 0, 0, 0));
    expect_check("43,536 bytes FF", file_bytes, len, numbers(3, 1, 65535, 0));
    /* The last byte of the relation is read, and the last label. */
    yard.bodies[RELATION].bytes[127 * 16 + 15] = 0x7F;
    expect_yard("start's bit cleared", &yard, numbers(42, 127, 127, 0));
    yard.bodies[LABELS].bytes[8191] = 255;
    expect_yard("last label 255", &yard, numbers(35, 1, 128, 127));
}

static void past_the_limits_of_a_chart(void)
{
    static yard yard;
    g_yard(&yard);
    body *chart = &yard.bodies[CHART];
    chart->len = 0;
    yard.bodies[LABELS].len = 0;
    put_full_chart(chart, &yard.bodies[LABELS]);
    chart->bytes[0] = 129;
    expect_yard("V 129", &yard, numbers(20, 0, 0, 0));
    chart->bytes[0] = 128;
    chart->bytes[1] = 128;
    expect_yard("start 128 of 128", &yard, numbers(20, 0, 0, 0));
    chart->bytes[1] = 127;
    chart->bytes[2] = 1;
    expect_yard("T 8,193 of 8,192", &yard, numbers(20, 0, 0, 0));
    put_four(chart, 127, 2, 1, 0);
    expect_yard("T 8,193", &yard, numbers(20, 0, 0, 0));
}

static void past_the_limits_of_an_expression(void)
{
    static yard yard;
    static uint8_t nodes[512];
    g_yard(&yard);
    yard.bodies[NODES].len = 0;
    put_ones_for_ever(&yard.bodies[NODES]);
    put_four(&yard.bodies[NODES], 1, 1, 0, 0);
    memcpy(nodes, yard.bodies[NODES].bytes, 512);
    expect_yard("128 nodes", &yard, numbers(10, 512, 0, 0));
    expect_chart("128 nodes", nodes, 512, 600, numbers(10, 512, 0, 0), NULL);
    expect_chart("507 bytes", nodes, 507, 600, numbers(10, 507, 0, 0), NULL);
    expect_chart("127 nodes that are no expression", nodes + 4, 508, 600, numbers(11, 1, 0, 0), NULL);
}

/* Lent buffers. */

static void expect_chart_in_each_buffer(const char *name, const body *nodes, const body *chart)
{
    size_t len = chart->len;
    seq_numbers needed = numbers(54, len, 0, 0);
    seq_numbers written = numbers(0, len, 0, 0);
    expect_chart(name, nodes->bytes, nodes->len, 0, needed, chart->bytes);
    expect_chart(name, nodes->bytes, nodes->len, 1, needed, chart->bytes);
    expect_chart(name, nodes->bytes, nodes->len, len - 1, needed, chart->bytes);
    expect_chart(name, nodes->bytes, nodes->len, len, written, chart->bytes);
    expect_chart(name, nodes->bytes, nodes->len, len + 1, written, chart->bytes);
    expect_chart(name, nodes->bytes, nodes->len, SEQ_LONGEST_CHART, written, chart->bytes);
}

static void chart_of_g(void)
{
    static body nodes, chart;
    set_body(&nodes, G_NODES, sizeof G_NODES);
    set_body(&chart, G_CHART, sizeof G_CHART);
    expect_chart_in_each_buffer("G's expression chart", &nodes, &chart);
}

static void chart_of_one_node(void)
{
    static body deadlock, deadlock_chart, action, action_chart;
    put_four(&deadlock, 0, 0, 0, 0);
    put_four(&deadlock_chart, 2, 1, 0, 0);
    expect_chart_in_each_buffer("deadlock", &deadlock, &deadlock_chart);
    put_four(&action, 1, 255, 0, 0);
    put_four(&action_chart, 2, 1, 1, 0);
    put_four(&action_chart, 1, 255, 0, 0);
    expect_chart_in_each_buffer("action 255", &action, &action_chart);
}

/* 127 nodes: the sums of the first 2, 3, .. 64 of 64 different actions. All lead to the end. */
static void chart_of_sums(void)
{
    static body nodes, chart;
    put_four(&nodes, 1, 1, 0, 0);
    put_four(&chart, 128, 127, 2143 % 256, 2143 / 256);
    put_four(&chart, 1, 1, 0, 0);
    for (unsigned i = 1; i < 64; i++) {
        put_four(&nodes, 1, i + 1, 0, 0);
        put_four(&nodes, 2, 0, 2 * i - 2, 2 * i - 1);
        put_four(&chart, 2 * i, i + 1, 0, 0);
        for (unsigned action = 1; action <= i + 1; action++)
            put_four(&chart, 2 * i + 1, action, 0, 0);
    }
    expect_chart_in_each_buffer("sums of 64 actions, 127 nodes", &nodes, &chart);
}

/* 127 nodes of which each but the deadlock has the one transition to the star: a + a counts once. */
static void chart_of_ones_for_ever(void)
{
    static body nodes, chart;
    put_ones_for_ever(&nodes);
    put_four(&chart, 128, 127, 126, 0);
    for (unsigned vertex = 1; vertex < 128; vertex++)
        if (vertex != 126)
            put_four(&chart, vertex, 1, 127, 0);
    expect_chart_in_each_buffer("a + a .. for ever, 127 nodes", &nodes, &chart);
}

static void refused_nodes(void)
{
    static const uint8_t twice[12] = {1, 1, 0, 0, 1, 2, 0, 0, 4, 0, 0, 0};
    static const uint8_t no_kind[4] = {5, 0, 0, 0};
    static const uint8_t own_operand[8] = {1, 1, 0, 0, 2, 0, 0, 1};
    expect_chart("root 04 00 00 00", twice, 12, 40, numbers(12, 0, 2, 0), NULL);
    expect_chart("root 04 00 00 00, no room", twice, 12, 3, numbers(12, 0, 2, 0), NULL);
    expect_chart("kind 5", no_kind, 4, 40, numbers(11, 0, 0, 0), NULL);
    expect_chart("a node that is its own operand", own_operand, 8, 40, numbers(11, 1, 0, 0), NULL);
    for (size_t len = 0; len < sizeof G_NODES; len++)
        if (len % 4 != 0)
            expect_chart("a part of a node", G_NODES, len, 40, numbers(10, len, 0, 0), NULL);
}

/* Expressions for charts. */

typedef struct drawn {
    body chart;
    body labels;
} drawn;

static const seq_numbers TOO_MANY = {58, 0, 0, 0};

static void set_drawn(drawn *lent, const uint8_t *chart, size_t chart_len, const uint8_t *labels, size_t labels_len)
{
    set_body(&lent->chart, chart, chart_len);
    set_body(&lent->labels, labels, labels_len);
}

/* One call into so many lent bytes; its answer and every lent byte are held to what is wanted. */
static void expect_expression(const char *name, const drawn *lent, size_t out_len, seq_numbers want,
                              const uint8_t *nodes)
{
    size_t chart_len = lent->chart.len;
    size_t labels_len = lent->labels.len;
    const uint8_t *chart = copy_before(file_end, lent->chart.bytes, chart_len);
    const uint8_t *labels = copy_before(labels_end, lent->labels.bytes, labels_len);
    uint8_t *out = lend_out(out_len, want, nodes);
    cases++;
    expect_numbers(name, seq_write_expression(chart, chart_len, labels, labels_len, out, out_len), want);
    expect_bytes(name, chart, lent->chart.bytes, chart_len);
    expect_bytes(name, labels, lent->labels.bytes, labels_len);
    expect_bytes(name, out, out_left, out_len);
}

/* Refused, whether there is room or not. */
static void expect_no_expression(const char *name, const drawn *lent, seq_numbers want)
{
    expect_expression(name, lent, 0, want, NULL);
    expect_expression(name, lent, 3, want, NULL);
    expect_expression(name, lent, SEQ_LONGEST_EXPRESSION, want, NULL);
    expect_expression(name, lent, SEQ_LONGEST_CHART, want, NULL);
}

/* Vertices of the expression's chart, and of the chart, that are not told apart so far. */
static uint8_t alike[128][128];

/* Whether a transition of the one is matched by one that leaves v in the other. */
static int is_matched(const uint8_t *one, const body *other, unsigned v, int turned)
{
    for (size_t at = 4; at < other->len; at += 4) {
        const uint8_t *step = other->bytes + at;
        if (step[0] == v && step[1] == one[1] && (turned ? alike[step[2]][one[2]] : alike[one[2]][step[2]]))
            return 1;
    }
    return 0;
}

static int are_matched(const body *one, unsigned u, const body *other, unsigned v, int turned)
{
    for (size_t at = 4; at < one->len; at += 4)
        if (one->bytes[at] == u && !is_matched(one->bytes + at, other, v, turned))
            return 0;
    return 1;
}

/* Puts the largest relation of the two: pairs go until all that are left match each other. */
static void put_largest_relation(body *relation, const body *expression, const body *chart)
{
    unsigned rows = expression->bytes[0];
    unsigned columns = chart->bytes[0];
    int gone = 1;
    for (unsigned u = 0; u < rows; u++)
        for (unsigned v = 0; v < columns; v++)
            alike[u][v] = (u == 0) == (v == 0);
    while (gone) {
        gone = 0;
        for (unsigned u = 0; u < rows; u++)
            for (unsigned v = 0; v < columns; v++)
                if (alike[u][v] &&
                    !(are_matched(expression, u, chart, v, 0) && are_matched(chart, v, expression, u, 1))) {
                    alike[u][v] = 0;
                    gone = 1;
                }
    }
    relation->len = 0;
    for (unsigned u = 0; u < rows; u++) {
        put_row(relation, 0, 0);
        for (unsigned v = 0; v < columns; v++)
            relation->bytes[16 * u + v / 8] |= (uint8_t)(alike[u][v] << v % 8);
    }
}

/* The expression has a chart, and with the largest relation its file is accepted. */
static void expect_accepted(const char *name, const drawn *lent, const uint8_t *nodes, size_t len)
{
    static yard yard;
    static body chart;
    set_body(&yard.bodies[NODES], nodes, len);
    yard.bodies[CHART] = lent->chart;
    yard.bodies[LABELS] = lent->labels;
    seq_numbers written = seq_write_chart(nodes, len, chart.bytes, sizeof chart.bytes);
    chart.len = (size_t)written.p;
    cases++;
    expect_numbers(name, written, numbers(0, written.p, 0, 0));
    if (written.n != 0)
        return;
    put_largest_relation(&yard.bodies[RELATION], &chart, &lent->chart);
    size_t file_len = write_file(&yard);
    seq_numbers said = seq_check(file_bytes, file_len);
    cases++;
    expect_numbers(name, said, numbers(0, lent->chart.bytes[0], lent->labels.len, said.r));
}

/* An expression of so many bytes, into bytes enough and too few. */
static void expect_expression_in_each_buffer(const char *name, const drawn *lent, const uint8_t *nodes, size_t len)
{
    seq_numbers written = numbers(0, len, 0, 0);
    seq_numbers needed = numbers(54, len, 0, 0);
    expect_expression(name, lent, 0, needed, nodes);
    expect_expression(name, lent, 1, needed, nodes);
    expect_expression(name, lent, len - 4, needed, nodes);
    expect_expression(name, lent, len - 1, needed, nodes);
    expect_expression(name, lent, len, written, nodes);
    expect_expression(name, lent, len + 1, written, nodes);
    expect_expression(name, lent, SEQ_LONGEST_EXPRESSION, written, nodes);
    expect_expression(name, lent, SEQ_LONGEST_CHART, written, nodes);
    expect_accepted(name, lent, nodes, len);
}

static void expression_of_g(void)
{
    static drawn lent;
    set_drawn(&lent, G + 20, 12, G + G_LABELS, 2);
    expect_expression_in_each_buffer("G's chart", &lent, G_NODES, sizeof G_NODES);
    lent.labels.bytes[0] = 255;
    expect_expression_in_each_buffer("G's chart, level 255", &lent, G_NODES, sizeof G_NODES);
}

/* Sums of nothing. */
static void expressions_of_deadlocks(void)
{
    static drawn lent;
    static const uint8_t both[] = {0, 0, 0, 0, 0, 0, 0, 0, 4, 0, 0, 1};
    static const uint8_t for_ever[] = {1, 9, 0, 0, 0, 0, 0, 0, 4, 0, 0, 1};
    static const uint8_t to_end[] = {0, 0, 0, 0, 1, 9, 0, 0, 4, 0, 0, 1};
    static const uint8_t after_one[] = {0, 0, 0, 0, 1, 9, 0, 0, 0, 0, 0, 0, 0, 0, 0, 0,
                                        4, 0, 2, 3, 3, 0, 1, 4, 4, 0, 0, 5};
    set_drawn(&lent, (uint8_t[]){2, 1, 0, 0}, 4, (uint8_t[]){0}, 0);
    expect_expression_in_each_buffer("no transition", &lent, both, sizeof both);
    set_drawn(&lent, (uint8_t[]){2, 1, 1, 0, 1, 9, 1, 0}, 8, (uint8_t[]){1}, 1);
    expect_expression_in_each_buffer("no branch", &lent, for_ever, sizeof for_ever);
    set_drawn(&lent, (uint8_t[]){2, 1, 1, 0, 1, 9, 0, 0}, 8, (uint8_t[]){0}, 1);
    expect_expression_in_each_buffer("no entry", &lent, to_end, sizeof to_end);
    set_drawn(&lent, (uint8_t[]){3, 1, 1, 0, 1, 9, 2, 0}, 8, (uint8_t[]){0}, 1);
    expect_expression_in_each_buffer("to a deadlock", &lent, after_one, sizeof after_one);
}

/* Entries of all levels are one sum, branches the other, each in transition order. */
static void expression_of_sums(void)
{
    static drawn lent;
    static const uint8_t chart[] = {2, 1, 6, 0, 1, 1, 0, 0, 1, 2, 1, 0, 1, 3, 0, 0,
                                    1, 4, 1, 0, 1, 5, 1, 0, 1, 6, 0, 0};
    static const uint8_t nodes[] = {1, 2, 0, 0, 1, 4, 0, 0, 2, 0, 0, 1, 1, 5, 0, 0, 2, 0, 2, 3, 1, 1, 0, 0,
                                    1, 3, 0, 0, 2, 0, 5, 6, 1, 6, 0, 0, 2, 0, 7, 8, 4, 0, 4, 9};
    set_drawn(&lent, chart, sizeof chart, (uint8_t[]){0, 3, 0, 1, 2, 0}, 6);
    expect_expression_in_each_buffer("three entries, three branches", &lent, nodes, sizeof nodes);
}

/* The text of vertex 2 back to 1; from a start at 2, also the one back to the end. */
static void expressions_of_two_loops(void)
{
    static drawn lent;
    static const uint8_t from_1[] = {1, 1, 0, 0, 1, 1, 0, 0, 1, 2, 0, 0, 4, 0, 1, 2, 3, 0, 0, 3, 1, 3, 0, 0,
                                     4, 0, 4, 5};
    static const uint8_t from_2[] = {1, 1, 0, 0, 1, 2, 0, 0, 1, 1, 0, 0, 1, 1, 0, 0, 1, 2, 0, 0, 4, 0, 3, 4,
                                     3, 0, 2, 5, 1, 3, 0, 0, 4, 0, 6, 7, 3, 0, 1, 8, 4, 0, 0, 9};
    set_drawn(&lent, TWO_LOOPS, 20, TWO_LEVELS, 4);
    expect_expression_in_each_buffer("a loop inside", &lent, from_1, sizeof from_1);
    lent.chart.bytes[1] = 2;
    expect_expression_in_each_buffer("a start inside", &lent, from_2, sizeof from_2);
}

/* The chart and the labels of examples/weighbridge.yard: each ramp has its own weighing. */
static void expression_of_the_weighbridge(void)
{
    static drawn lent;
    static const uint8_t chart[] = {5, 1, 7, 0, 1, 1, 2, 0, 1, 2, 2, 0, 1, 7, 0, 0,
                                    2, 3, 2, 0, 2, 4, 3, 0, 3, 5, 4, 0, 4, 6, 1, 0};
    static const uint8_t nodes[] = {
        1, 1, 0, 0,                                                 /* north */
        1, 3, 0, 0, 1, 4, 0, 0,                                     /* weigh, steady */
        0, 0, 0, 0, 1, 5, 0, 0,                                     /* ticket */
        0, 0, 0, 0, 1, 6, 0, 0, 4, 0, 5, 6,                         /* off */
        3, 0, 4, 7, 4, 0, 3, 8, 3, 0, 2, 9, 4, 0, 1, 10, 3, 0, 0, 11,
        1, 2, 0, 0,                                                 /* south */
        1, 3, 0, 0, 1, 4, 0, 0, 0, 0, 0, 0, 1, 5, 0, 0, 0, 0, 0, 0, 1, 6, 0, 0, 4, 0, 18, 19,
        3, 0, 17, 20, 4, 0, 16, 21, 3, 0, 15, 22, 4, 0, 14, 23, 3, 0, 13, 24,
        2, 0, 12, 25, 1, 7, 0, 0, 4, 0, 26, 27,                     /* close */
    };
    set_drawn(&lent, chart, sizeof chart, (uint8_t[]){2, 2, 0, 1, 0, 0, 0}, 7);
    expect_expression_in_each_buffer("the weighbridge", &lent, nodes, sizeof nodes);
}

/* The next node, whose number is the answer. */
static unsigned put_node(body *nodes, unsigned kind, unsigned action, unsigned left, unsigned right)
{
    put_four(nodes, kind, action, left, right);
    return (unsigned)(nodes->len / 4 - 1);
}

/* The sum of so many actions from one on; of none, deadlock. */
static unsigned put_sum(body *nodes, unsigned first, unsigned count)
{
    unsigned sum = count == 0 ? put_node(nodes, 0, 0, 0, 0) : put_node(nodes, 1, first, 0, 0);
    for (unsigned i = 1; i < count; i++)
        sum = put_node(nodes, 2, 0, sum, put_node(nodes, 1, first + i, 0, 0));
    return sum;
}

/* Where the table that is put has 127 nodes at most, it is written, else refused by 58. */
static void expect_table(const char *name, const drawn *lent, const body *nodes)
{
    if (nodes->len <= SEQ_LONGEST_EXPRESSION)
        expect_expression_in_each_buffer(name, lent, nodes->bytes, nodes->len);
    else
        expect_no_expression(name, lent, TOO_MANY);
}

/* Vertex 1 alone, its first transitions entries, all others branches: 127 nodes of 64 transitions of both
 * kinds, or of 63 of one kind and a deadlock; of one transition more there are 129. */
static void longest_sums(void)
{
    static drawn lent;
    static body nodes;
    for (unsigned all = 62; all <= 66; all++) {
        for (unsigned entries = 0; entries <= all; entries++) {
            lent.chart.len = lent.labels.len = nodes.len = 0;
            put_four(&lent.chart, 2, 1, all, 0);
            for (unsigned i = 0; i < all; i++) {
                put_four(&lent.chart, 1, i + 1, i < entries, 0);
                put(&lent.labels, (uint8_t)(i < entries ? 1 + i % 3 : 0));
            }
            unsigned left = put_sum(&nodes, 1, entries);
            unsigned right = put_sum(&nodes, 1 + entries, all - entries);
            put_node(&nodes, 4, 0, left, right);
            expect_table("entries and branches of one vertex", &lent, &nodes);
        }
    }
}

/* A line: each vertex leads to the one below it, vertex v by action v. 32 of them are 127 nodes. */
static void lines_of_vertices(void)
{
    static drawn lent;
    static body nodes;
    for (unsigned count = 1; count < 128; count++) {
        lent.chart.len = lent.labels.len = nodes.len = 0;
        put_four(&lent.chart, count + 1, count, count, 0);
        for (unsigned v = 1; v <= count; v++) {
            put_four(&lent.chart, v, v, v - 1, 0);
            put(&lent.labels, 0);
        }
        for (unsigned v = count; v > 0; v--) {
            put_node(&nodes, 0, 0, 0, 0);
            put_node(&nodes, 1, v, 0, 0);
        }
        unsigned star = put_node(&nodes, 4, 0, 2 * count - 2, 2 * count - 1);
        for (unsigned at = 2 * count - 2; at > 0; at -= 2) {
            unsigned product = put_node(&nodes, 3, 0, at - 1, star);
            star = put_node(&nodes, 4, 0, at - 2, product);
        }
        expect_table("a line of vertices", &lent, &nodes);
    }
}

/* Loops in each other: vertex v enters the next one by action v, and leads to the one below it by action
 * 128. Transitions 2 v - 2 and 2 v - 1 are those of v; the last vertex has no entry. */
static void put_nest(drawn *lent, unsigned count)
{
    lent->chart.len = lent->labels.len = 0;
    put_four(&lent->chart, count + 1, 1, 2 * count - 1, 0);
    for (unsigned v = 1; v <= count; v++) {
        if (v < count) {
            put_four(&lent->chart, v, v, v + 1, 0);
            put(&lent->labels, (uint8_t)(count - v));
        }
        put_four(&lent->chart, v, 128, v - 1, 0);
        put(&lent->labels, 0);
    }
}

/* 32 loops in each other, the last one empty, are 127 nodes. */
static void nests_of_loops(void)
{
    static drawn lent;
    static body nodes;
    for (unsigned count = 1; count < 128; count++) {
        nodes.len = 0;
        put_nest(&lent, count);
        for (unsigned v = 1; v < count; v++)
            put_node(&nodes, 1, v, 0, 0);
        unsigned left = put_node(&nodes, 0, 0, 0, 0);
        for (unsigned v = count; v > 0; v--) {
            unsigned right = put_node(&nodes, 1, 128, 0, 0);
            left = put_node(&nodes, 4, 0, left, right);
            if (v > 1)
                left = put_node(&nodes, 3, 0, v - 2, left);
        }
        expect_table("loops in each other", &lent, &nodes);
    }
}

/* Two branches from each vertex to the next: of V 128 the text has more than 2 to the power of 127 nodes.
 * Of the full chart it is longer still. */
static void texts_far_too_long(void)
{
    static drawn lent;
    for (unsigned count = 5; count < 128; count++) {
        lent.chart.len = lent.labels.len = 0;
        put_four(&lent.chart, count + 1, count, 2 * count, 0);
        for (unsigned v = 1; v <= count; v++) {
            put_four(&lent.chart, v, 1, v - 1, 0);
            put_four(&lent.chart, v, 2, v - 1, 0);
        }
        lent.labels.len = 2 * count;
        memset(lent.labels.bytes, 0, lent.labels.len);
        expect_no_expression("two ways from each vertex", &lent, TOO_MANY);
    }
    lent.chart.len = lent.labels.len = 0;
    put_full_chart(&lent.chart, &lent.labels);
    expect_no_expression("the full chart", &lent, TOO_MANY);
    lent.labels.bytes[8191] = 255;
    expect_no_expression("last label 255", &lent, numbers(35, 1, 128, 127));
    lent.chart.bytes[4 + 4 * 8191 + 3] = 1;
    expect_no_expression("a last byte in the last transition", &lent, numbers(21, 8191, 0, 0));
}

/* Each refusal of a chart or of labels whose text would be short. */
static void refused_drawings(void)
{
    static drawn lent;
    set_drawn(&lent, TWO_LOOPS, 20, (uint8_t[]){1, 0, 1, 0}, 4);
    expect_no_expression("equal levels inside each other", &lent, numbers(35, 1, 1, 2));
    set_drawn(&lent, TWO_LOOPS, 20, (uint8_t[]){2, 2, 1, 0}, 4);
    expect_no_expression("the end inside", &lent, numbers(34, 1, 2, 0));
    set_drawn(&lent, TWO_LOOPS, 20, (uint8_t[]){2, 1, 1, 0}, 4);
    expect_no_expression("no way back", &lent, numbers(33, 1, 1, 0));
    set_drawn(&lent, TWO_LOOPS, 20, (uint8_t[]){2, 0, 0, 0}, 4);
    expect_no_expression("branches go round", &lent, numbers(32, 2, 0, 0));
    set_drawn(&lent, TWO_LOOPS, 20, TWO_LEVELS, 4);
    lent.chart.bytes[4 + 2] = 1;
    expect_no_expression("vertex 2 is not reached", &lent, numbers(31, 2, 0, 0));
    for (lent.labels.len = 0; lent.labels.len < 9; lent.labels.len++)
        if (lent.labels.len != 4)
            expect_no_expression("labels too many or too few", &lent, numbers(30, lent.labels.len, 0, 0));
    lent.labels.len = 4 + 65536 / 4;
    expect_no_expression("labels far too many", &lent, numbers(30, 16388, 0, 0));
    lent.chart.bytes[4 + 4 * 1] = 0;
    expect_no_expression("transition 1 of the end", &lent, numbers(21, 1, 0, 0));
    for (lent.chart.len = 0; lent.chart.len < 20; lent.chart.len++)
        expect_no_expression("a beginning of the chart", &lent, numbers(20, 0, 0, 0));
}

/* Of a text that is too long, one fault more each time: each comes before those that are there already. */
static void refused_before_58(void)
{
    static drawn lent;
    put_nest(&lent, 33);
    expect_no_expression("33 loops in each other", &lent, TOO_MANY);
    lent.labels.bytes[0] = 31;
    expect_no_expression("level 31 at vertex 1", &lent, numbers(35, 1, 31, 2));
    lent.labels.bytes[1] = 31;
    expect_no_expression("such, and the end inside", &lent, numbers(34, 1, 31, 0));
    lent.labels.bytes[1] = 1;
    expect_no_expression("35, and 33 at a lower level", &lent, numbers(33, 1, 1, 0));
    lent.labels.bytes[2 * 32 - 2] = 0;
    expect_no_expression("such, and 32 and 33 go round", &lent, numbers(32, 32, 0, 0));
    lent.chart.bytes[4 + 2] = 1;
    expect_no_expression("such, and 2 is not reached", &lent, numbers(31, 2, 0, 0));
    lent.labels.len++;
    expect_no_expression("such, and a label more", &lent, numbers(30, 66, 0, 0));
    lent.chart.bytes[4 + 4 * 64 + 3] = 1;
    expect_no_expression("such, and a last byte in the last transition", &lent, numbers(21, 64, 0, 0));
    lent.chart.bytes[1] = 0;
    expect_no_expression("such, and start 0", &lent, numbers(20, 0, 0, 0));
}

/* Removals. */

typedef struct removal {
    body chart;
    body labels;
    body standing;
} removal;

/* Lends the three slices, before a call on them. */
static void lend_removal(const removal *lent)
{
    copy_before(file_end, lent->chart.bytes, lent->chart.len);
    copy_before(labels_end, lent->labels.bytes, lent->labels.len);
    copy_before(out_end, lent->standing.bytes, lent->standing.len);
}

/* After it, every lent byte is held to what is wanted; without `left` the standing bytes are to be kept.
 * The next call goes on with what this one left. */
static void expect_left(const char *name, removal *lent, const uint8_t *left)
{
    size_t len = lent->standing.len;
    expect_bytes(name, file_end - lent->chart.len, lent->chart.bytes, lent->chart.len);
    expect_bytes(name, labels_end - lent->labels.len, lent->labels.bytes, lent->labels.len);
    expect_bytes(name, out_end - len, left ? left : lent->standing.bytes, len);
    memcpy(lent->standing.bytes, out_end - len, len);
}

static void expect_remove(const char *name, removal *lent, size_t vertex, size_t level, seq_numbers want,
                          const uint8_t *left)
{
    size_t chart = lent->chart.len;
    size_t labels = lent->labels.len;
    size_t len = lent->standing.len;
    lend_removal(lent);
    cases++;
    expect_numbers(name,
                   seq_remove(file_end - chart, chart, labels_end - labels, labels, vertex, level, out_end - len, len),
                   want);
    expect_left(name, lent, left);
}

/* The chart of two loops, all standing. */
static void two_loops(removal *lent, const uint8_t *labels)
{
    set_body(&lent->chart, TWO_LOOPS, 20);
    set_body(&lent->labels, labels, 4);
    set_body(&lent->standing, (uint8_t[]){1, 1, 1, 1}, 4);
}

static void starred_removals(void)
{
    static removal lent;
    two_loops(&lent, TWO_LEVELS);
    expect_remove("(1, 2) before (2, 1)", &lent, 1, 2, numbers(52, 1, 2, 2), NULL);
    expect_remove("(2, 1)", &lent, 2, 1, numbers(0, 0, 0, 0), (uint8_t[]){1, 1, 0, 1});
    expect_remove("(2, 1) again", &lent, 2, 1, numbers(51, 2, 1, 0), NULL);
    expect_remove("(1, 2) after (2, 1)", &lent, 1, 2, numbers(0, 0, 0, 0), (uint8_t[]){0, 1, 0, 1});
    expect_remove("(1, 2) again", &lent, 1, 2, numbers(51, 1, 2, 0), NULL);
}

/* A loop of vertex 1 with two entries that differ in their action only: two bytes. */
static void entries_one_by_one(void)
{
    static removal lent;
    static const uint8_t chart[16] = {2, 1, 3, 0, 1, 1, 1, 0, 1, 2, 1, 0, 1, 3, 0, 0};
    set_body(&lent.chart, chart, 16);
    set_body(&lent.labels, (uint8_t[]){1, 1, 0}, 3);
    set_body(&lent.standing, (uint8_t[]){1, 1, 1}, 3);
    expect_remove("two entries", &lent, 1, 1, numbers(0, 0, 0, 0), (uint8_t[]){0, 0, 1});
    set_body(&lent.standing, (uint8_t[]){0, 1, 1}, 3);
    expect_remove("two entries, one gone", &lent, 1, 1, numbers(0, 0, 0, 0), (uint8_t[]){0, 0, 1});
    set_body(&lent.standing, (uint8_t[]){0, 0, 0}, 3);
    expect_remove("nothing stands", &lent, 1, 1, numbers(51, 1, 1, 0), NULL);
    set_body(&lent.labels, (uint8_t[]){1, 255, 0}, 3);
    set_body(&lent.standing, (uint8_t[]){1, 1, 0}, 3);
    expect_remove("level 255", &lent, 1, 255, numbers(0, 0, 0, 0), (uint8_t[]){1, 0, 0});
}

/* Each number before 51, and which of two comes first. */
static void refused_removals(void)
{
    static removal lent;
    static const size_t other_lens[] = {0, 1, 3, 5, 8};
    two_loops(&lent, TWO_LEVELS);
    for (size_t k = 0; k < 5; k++) {
        lent.standing.len = other_lens[k];
        expect_remove("standing bytes too many or too few", &lent, 2, 1, numbers(50, 0, 0, 0), NULL);
        expect_remove("such, and no loop", &lent, 3, 0, numbers(50, 0, 0, 0), NULL);
    }
    for (size_t i = 0; i < 4; i++) {
        two_loops(&lent, TWO_LEVELS);
        lent.standing.bytes[i] = i % 2 == 0 ? 2 : 255;
        expect_remove("a standing byte of 2 or 255", &lent, 2, 1, numbers(50, 0, 0, 0), NULL);
    }
    for (size_t k = 0; k < 5; k++) {
        lent.labels.len = other_lens[k];
        expect_remove("labels too many or too few", &lent, 2, 1, numbers(30, other_lens[k], 0, 0), NULL);
    }
    lent.chart.bytes[4 + 4 * 3 + 3] = 1;
    expect_remove("transition 3 with a last byte", &lent, 2, 1, numbers(21, 3, 0, 0), NULL);
    lent.chart.bytes[4 + 4 * 1] = 0;
    expect_remove("transition 1 of the end", &lent, 2, 1, numbers(21, 1, 0, 0), NULL);
    lent.chart.bytes[0] = 129;
    expect_remove("V 129", &lent, 2, 1, numbers(20, 0, 0, 0), NULL);
    for (lent.chart.len = 0; lent.chart.len < 20; lent.chart.len++)
        expect_remove("a beginning of the chart", &lent, 2, 1, numbers(20, 0, 0, 0), NULL);
}

/* Vertices and levels of any size: each names its own loop or none. */
static void numbers_that_name_no_loop(void)
{
    static removal lent;
    static const size_t pairs[][2] = {
        {0, 0}, {1, 0}, {2, 0}, {0, 1}, {1, 1}, {2, 2},
        {3, 1}, {127, 1}, {128, 1}, {258, 1}, {65538, 1}, {SIZE_MAX / 2 + 3, 1}, {SIZE_MAX, 1},
        {2, 256}, {2, 257}, {1, 258}, {2, 65537}, {2, SIZE_MAX / 2 + 2}, {2, SIZE_MAX},
        {SIZE_MAX, SIZE_MAX},
    };
    two_loops(&lent, TWO_LEVELS);
    for (size_t i = 0; i < sizeof pairs / sizeof pairs[0]; i++)
        expect_remove("a pair that is no loop", &lent, pairs[i][0], pairs[i][1],
                      numbers(51, pairs[i][0], pairs[i][1], 0), NULL);
}

/* 52 with each r, and what is found where two of L1 to L3 are broken. */
static void no_loop_charts(void)
{
    static removal lent;
    two_loops(&lent, (uint8_t[]){0, 1, 1, 0});
    expect_remove("nothing goes round, to the end", &lent, 1, 1, numbers(52, 1, 1, 1), NULL);
    set_body(&lent.standing, (uint8_t[]){1, 1, 1, 0}, 4);
    expect_remove("the loop at its side", &lent, 2, 1, numbers(0, 0, 0, 0), (uint8_t[]){1, 1, 0, 0});
    two_loops(&lent, (uint8_t[]){1, 0, 1, 0});
    set_body(&lent.standing, (uint8_t[]){1, 0, 0, 0}, 4);
    expect_remove("nothing goes round", &lent, 1, 1, numbers(52, 1, 1, 1), NULL);
    two_loops(&lent, (uint8_t[]){1, 1, 1, 0});
    expect_remove("a loop inside, and the end", &lent, 1, 1, numbers(52, 1, 1, 2), NULL);
    set_body(&lent.standing, (uint8_t[]){1, 1, 0, 1}, 4);
    expect_remove("the end inside", &lent, 1, 1, numbers(52, 1, 1, 3), NULL);
    set_body(&lent.standing, (uint8_t[]){1, 0, 0, 1}, 4);
    expect_remove("its way to the end gone", &lent, 1, 1, numbers(0, 0, 0, 0), (uint8_t[]){0, 0, 0, 1});
    two_loops(&lent, (uint8_t[]){1, 0, 1, 2});
    expect_remove("the end further on", &lent, 2, 2, numbers(52, 2, 2, 3), NULL);
}

/* V 128, T 8,192: all loops, those of vertex 1 after those that are inside. */
static void all_loops_of_the_full_chart(void)
{
    static removal lent;
    static uint8_t left[8192];
    put_full_chart(&lent.chart, &lent.labels);
    lent.standing.len = sizeof left;
    memset(lent.standing.bytes, 1, sizeof left);
    memset(left, 1, sizeof left);
    expect_remove("(1, 128) too early", &lent, 1, 128, numbers(52, 1, 128, 2), NULL);
    for (size_t k = 0; k < 64 + 127; k++) {
        size_t vertex = k < 64 ? k + 2 : 1;
        size_t level = k < 64 ? 1 : k - 64 + 2;
        for (size_t i = 0; i < sizeof left; i++)
            if (lent.chart.bytes[4 + 4 * i] == vertex && lent.labels.bytes[i] == level)
                left[i] = 0;
        expect_remove("a loop of the full chart", &lent, vertex, level, numbers(0, 0, 0, 0), left);
        expect_remove("the same again", &lent, vertex, level, numbers(51, vertex, level, 0), NULL);
    }
    for (size_t i = 0; i < sizeof left; i++)
        left[i] = lent.labels.bytes[i] == 0;
    expect_bytes("branches are left", lent.standing.bytes, left, sizeof left);
    lent.standing.bytes[8191] = 2;
    expect_remove("last byte 2", &lent, 1, 1, numbers(50, 0, 0, 0), NULL);
}

/* Several loops together. */

static const seq_numbers DONE = {0, 0, 0, 0};
static const seq_numbers NO_LIST = {56, 0, 0, 0};

/* Where a list is done, each of its loops goes singly too, first to last and last to first, and the same
 * bytes are left. */
static void expect_singly(const char *name, const removal *lent, const uint8_t *loops, size_t len,
                          const uint8_t *left)
{
    static removal run;
    for (int backward = 0; backward < 2; backward++) {
        run = *lent;
        for (size_t at = 0; at < len; at += 2) {
            const uint8_t *loop = loops + (backward ? len - 2 - at : at);
            expect_numbers(name,
                           seq_remove(run.chart.bytes, run.chart.len, run.labels.bytes, run.labels.len, loop[0],
                                      loop[1], run.standing.bytes, run.standing.len),
                           DONE);
        }
        expect_bytes(name, run.standing.bytes, left ? left : lent->standing.bytes, run.standing.len);
    }
}

/* One call on a list of so many bytes. */
static void expect_together(const char *name, removal *lent, const uint8_t *loops, size_t loops_len,
                            seq_numbers want, const uint8_t *left)
{
    size_t chart = lent->chart.len;
    size_t labels = lent->labels.len;
    size_t len = lent->standing.len;
    const uint8_t *list = copy_before(loops_end, loops, loops_len);
    if (want.n == 0)
        expect_singly(name, lent, loops, loops_len, left);
    lend_removal(lent);
    cases++;
    expect_numbers(name,
                   seq_remove_together(file_end - chart, chart, labels_end - labels, labels, list, loops_len,
                                       out_end - len, len),
                   want);
    expect_bytes(name, list, loops, loops_len);
    expect_left(name, lent, left);
}

/* 51 and 52 are asked of each loop in the list's order, by what stands at the beginning. */
static void one_loop_inside_the_other(void)
{
    static removal lent;
    two_loops(&lent, TWO_LEVELS);
    expect_together("no loop", &lent, (uint8_t[]){0}, 0, DONE, NULL);
    expect_together("outer", &lent, (uint8_t[]){1, 2}, 2, numbers(52, 1, 2, 2), NULL);
    expect_together("inner, outer", &lent, (uint8_t[]){2, 1, 1, 2}, 4, numbers(52, 1, 2, 2), NULL);
    expect_together("outer, inner", &lent, (uint8_t[]){1, 2, 2, 1}, 4, numbers(52, 1, 2, 2), NULL);
    expect_together("inner, none", &lent, (uint8_t[]){2, 1, 2, 2}, 4, numbers(51, 2, 2, 0), NULL);
    expect_together("outer, none", &lent, (uint8_t[]){1, 2, 2, 2}, 4, numbers(52, 1, 2, 2), NULL);
    expect_together("none, outer", &lent, (uint8_t[]){2, 2, 1, 2}, 4, numbers(51, 2, 2, 0), NULL);
    expect_together("none, none", &lent, (uint8_t[]){255, 254, 0, 0}, 4, numbers(51, 255, 254, 0), NULL);
    expect_together("level 0", &lent, (uint8_t[]){2, 1, 2, 0}, 4, numbers(51, 2, 0, 0), NULL);
    expect_together("inner", &lent, (uint8_t[]){2, 1}, 2, DONE, (uint8_t[]){1, 1, 0, 1});
    expect_together("outer, inner again", &lent, (uint8_t[]){1, 2, 2, 1}, 4, numbers(51, 2, 1, 0), NULL);
    expect_together("then outer", &lent, (uint8_t[]){1, 2}, 2, DONE, (uint8_t[]){0, 1, 0, 1});
    expect_together("no loop, none left", &lent, (uint8_t[]){0}, 0, DONE, NULL);
}

/* V 128, T 254: each vertex goes to itself, an entry of level 1, and down to the next. Transition
 * 2 v - 2 is the entry of v. */
static void put_line_of_loops(removal *lent)
{
    lent->chart.len = 0;
    lent->labels.len = 0;
    lent->standing.len = 254;
    memset(lent->standing.bytes, 1, 254);
    put_four(&lent->chart, 128, 127, 254, 0);
    for (unsigned v = 1; v < 128; v++) {
        put_four(&lent->chart, v, 1, v, 0);
        put_four(&lent->chart, v, 2, v - 1, 0);
        put(&lent->labels, 1);
        put(&lent->labels, 0);
    }
}

/* So many loops of that line, 126 at most, in an order that goes to and fro. */
static void put_loops(body *loops, size_t count)
{
    loops->len = 0;
    for (size_t k = 1; k <= count; k++) {
        put(loops, (uint8_t)(k * 29 % 127 + 1));
        put(loops, 1);
    }
}

static void loops_of_a_line(void)
{
    static removal lent;
    static body loops;
    uint8_t left[254];
    for (size_t count = 0; count <= SEQ_MOST_LOOPS; count++) {
        put_line_of_loops(&lent);
        put_loops(&loops, count);
        memset(left, 1, sizeof left);
        for (size_t at = 0; at < loops.len; at += 2)
            left[2 * loops.bytes[at] - 2] = 0;
        expect_together("up to 64 loops", &lent, loops.bytes, loops.len, DONE, left);
        if (count > 0)
            expect_together("the same again", &lent, loops.bytes, loops.len, numbers(51, loops.bytes[0], 1, 0), NULL);
    }
}

/* Vertex 1 has loops of three levels, two of them by vertex 2. */
static void loops_of_one_start(void)
{
    static removal lent;
    static const uint8_t chart[] = {3, 1, 5, 0, 1, 1, 1, 0, 1, 2, 2, 0, 1, 3, 2, 0, 1, 4, 0, 0, 2, 1, 1, 0};
    set_body(&lent.chart, chart, sizeof chart);
    set_body(&lent.labels, (uint8_t[]){1, 2, 3, 0, 0}, 5);
    set_body(&lent.standing, (uint8_t[]){1, 1, 1, 1, 1}, 5);
    expect_together("two of three", &lent, (uint8_t[]){1, 3, 1, 1}, 4, DONE, (uint8_t[]){0, 1, 0, 1, 1});
    set_body(&lent.standing, (uint8_t[]){1, 1, 1, 1, 1}, 5);
    expect_together("all three", &lent, (uint8_t[]){1, 2, 1, 3, 1, 1}, 6, DONE, (uint8_t[]){0, 0, 0, 1, 1});
}

/* Of the first vertices, `ring`, each enters the next and the last one the first; all others go to
 * themselves. Every transition is an entry of level 1. */
static void put_ring(removal *lent, unsigned ring, unsigned vertices)
{
    lent->chart.len = 0;
    put_four(&lent->chart, vertices + 1, 1, vertices, 0);
    for (unsigned v = 1; v <= vertices; v++)
        put_four(&lent->chart, v, 1, v < ring ? v + 1 : v == ring ? 1 : v, 0);
    lent->labels.len = vertices;
    lent->standing.len = vertices;
    memset(lent->labels.bytes, 1, vertices);
    memset(lent->standing.bytes, 1, vertices);
}

/* 57: every two loops of a ring start inside each other, near or far. */
static void loops_of_a_ring(void)
{
    static removal lent;
    for (unsigned ring = 2; ring < 128; ring += 25) {
        uint8_t left[127];
        put_ring(&lent, ring, 127);
        for (unsigned v = 2; v <= ring; v++) {
            expect_together("1 and another", &lent, (uint8_t[]){1, 1, (uint8_t)v, 1}, 4, numbers(57, 0, 0, 0), NULL);
            expect_together("another and 1", &lent, (uint8_t[]){(uint8_t)v, 1, 1, 1}, 4, numbers(57, 0, 0, 0), NULL);
        }
        memset(left, 1, sizeof left);
        left[0] = 0;
        expect_together("1 alone", &lent, (uint8_t[]){1, 1}, 2, DONE, left);
        expect_together("another, 1 gone", &lent, (uint8_t[]){2, 1}, 2, numbers(52, 2, 1, 1), NULL);
    }
}

/* 64 loops, (1, 1) and (2, 1) at these places. */
static void put_one_and_two(body *loops, size_t one, size_t two)
{
    loops->len = 0;
    for (size_t k = 0; k < SEQ_MOST_LOOPS; k++) {
        put(loops, (uint8_t)(k == one ? 1 : k == two ? 2 : 127 - k));
        put(loops, 1);
    }
}

/* Vertices 1 and 2 are a ring: 57 has the lower of their places, and comes after 51 and 52. */
static void places_of_starts(void)
{
    static removal lent;
    static body loops;
    put_ring(&lent, 2, 127);
    for (size_t i = 0; i < SEQ_MOST_LOOPS; i++) {
        for (size_t j = 0; j < i; j++) {
            put_one_and_two(&loops, i, j);
            expect_together("2 before 1", &lent, loops.bytes, loops.len, numbers(57, j, 0, 0), NULL);
            put_one_and_two(&loops, j, i);
            expect_together("1 before 2", &lent, loops.bytes, loops.len, numbers(57, j, 0, 0), NULL);
        }
    }
    expect_together("51 after them", &lent, (uint8_t[]){1, 1, 2, 1, 3, 2}, 6, numbers(51, 3, 2, 0), NULL);
    lent.chart.bytes[4 + 4 * 2 + 2] = 0;
    expect_together("52 after them", &lent, (uint8_t[]){1, 1, 2, 1, 3, 1}, 6, numbers(52, 3, 1, 1), NULL);
}

/* Vertices 1 and 2 lead to themselves and to each other, all entries: what stands makes them no loops, a
 * ring, or two loops apart. */
static void bodies_by_what_stands(void)
{
    static removal lent;
    static const uint8_t chart[] = {3, 1, 4, 0, 1, 1, 1, 0, 1, 1, 2, 0, 2, 1, 1, 0, 2, 1, 2, 0};
    static const uint8_t both[4] = {1, 1, 2, 1};
    set_body(&lent.chart, chart, sizeof chart);
    set_body(&lent.labels, (uint8_t[]){1, 1, 1, 1}, 4);
    set_body(&lent.standing, (uint8_t[]){1, 1, 1, 1}, 4);
    expect_together("all stand", &lent, both, 4, numbers(52, 1, 1, 2), NULL);
    set_body(&lent.standing, (uint8_t[]){1, 0, 1, 1}, 4);
    expect_together("1 is a loop, 2 is none", &lent, both, 4, numbers(52, 2, 1, 2), NULL);
    set_body(&lent.standing, (uint8_t[]){0, 0, 1, 1}, 4);
    expect_together("nothing of 1", &lent, both, 4, numbers(51, 1, 1, 0), NULL);
    set_body(&lent.standing, (uint8_t[]){0, 1, 1, 0}, 4);
    expect_together("a ring", &lent, both, 4, numbers(57, 0, 0, 0), NULL);
    set_body(&lent.standing, (uint8_t[]){1, 0, 0, 1}, 4);
    expect_together("apart", &lent, both, 4, DONE, (uint8_t[]){0, 0, 0, 0});
}

/* The body of (1, 1) stops at 1, and does not have the loop of vertex 3, where 1 leads on. */
static void bodies_that_stop(void)
{
    static removal lent;
    static const uint8_t chart[] = {4, 1, 5, 0, 1, 1, 2, 0, 1, 2, 3, 0, 2, 1, 1, 0, 3, 1, 3, 0, 3, 2, 0, 0};
    static const uint8_t gone[5] = {0, 1, 1, 0, 1};
    set_body(&lent.chart, chart, sizeof chart);
    for (uint8_t label = 0; label < 3; label += 2) {
        set_body(&lent.labels, (uint8_t[]){1, label, 0, 1, 0}, 5);
        set_body(&lent.standing, (uint8_t[]){1, 1, 1, 1, 1}, 5);
        expect_together("1 and where it leads", &lent, (uint8_t[]){1, 1, 3, 1}, 4, DONE, gone);
        set_body(&lent.standing, (uint8_t[]){1, 1, 1, 1, 1}, 5);
        expect_together("the other order", &lent, (uint8_t[]){3, 1, 1, 1}, 4, DONE, gone);
    }
}

/* 56: lengths that are odd or too long, and a loop at any two places; of loops that there are and others. */
static void refused_lists(void)
{
    static removal lent;
    static body loops;
    put_line_of_loops(&lent);
    put_loops(&loops, 126);
    for (size_t len = 1; len <= 252; len++)
        if (len % 2 == 1 || len > 2 * SEQ_MOST_LOOPS)
            expect_together("a list odd or too long", &lent, loops.bytes, len, NO_LIST, NULL);
    for (size_t len = 256; len < sizeof loops.bytes; len *= 2)
        expect_together("a list far too long", &lent, loops.bytes, len, NO_LIST, NULL);
    for (size_t i = 0; i < 2 * SEQ_MOST_LOOPS; i += 2) {
        for (size_t j = i + 2; j < 2 * SEQ_MOST_LOOPS; j += 2) {
            put_loops(&loops, SEQ_MOST_LOOPS);
            loops.bytes[j] = loops.bytes[i];
            expect_together("a loop twice", &lent, loops.bytes, loops.len, NO_LIST, NULL);
        }
    }
    expect_together("no loop, twice", &lent, (uint8_t[]){0, 0, 0, 0}, 4, NO_LIST, NULL);
    expect_together("no vertex, twice", &lent, (uint8_t[]){1, 9, 255, 255, 255, 255}, 6, NO_LIST, NULL);
    expect_together("half a loop", &lent, (uint8_t[]){1, 9, 1}, 3, NO_LIST, NULL);
    expect_together("none twice", &lent, (uint8_t[]){2, 1, 2, 2, 1, 2}, 6, numbers(51, 2, 2, 0), NULL);
}

/* Before a list is looked at, 20, 21, 30 and 50 come, for every list. */
static void refused_before_their_list(void)
{
    static removal lent;
    static const uint8_t lists[][4] = {{0}, {2, 1}, {1, 2}, {2}, {2, 1, 2}, {2, 1, 2, 1}, {9, 9}};
    static const size_t lens[] = {0, 2, 2, 1, 3, 4, 2};
    for (size_t k = 0; k < 7; k++) {
        two_loops(&lent, TWO_LEVELS);
        lent.standing.bytes[3] = 2;
        expect_together("a standing byte of 2", &lent, lists[k], lens[k], numbers(50, 0, 0, 0), NULL);
        two_loops(&lent, TWO_LEVELS);
        lent.standing.len = 3;
        expect_together("3 standing bytes", &lent, lists[k], lens[k], numbers(50, 0, 0, 0), NULL);
        lent.labels.len = 5;
        expect_together("5 labels", &lent, lists[k], lens[k], numbers(30, 5, 0, 0), NULL);
        lent.chart.bytes[4 + 4 * 3 + 3] = 1;
        expect_together("transition 3 with a last byte", &lent, lists[k], lens[k], numbers(21, 3, 0, 0), NULL);
        lent.chart.bytes[0] = 129;
        expect_together("V 129", &lent, lists[k], lens[k], numbers(20, 0, 0, 0), NULL);
    }
}

/* The loops of a vertex at the levels from `low` to `high`; for vertex 0 those of level 1 at the vertices
 * from `low` to `high`. */
static void put_range(body *loops, unsigned vertex, unsigned low, unsigned high)
{
    loops->len = 0;
    for (unsigned k = low; k <= high; k++) {
        put(loops, (uint8_t)(vertex ? vertex : k));
        put(loops, (uint8_t)(vertex ? k : 1));
    }
}

/* Makes the bytes of the entries of these loops 0. */
static void clear(uint8_t *left, const removal *lent, const body *loops)
{
    for (size_t at = 0; at < loops->len; at += 2)
        for (size_t i = 0; i < lent->labels.len; i++)
            if (lent->chart.bytes[4 + 4 * i] == loops->bytes[at] && lent->labels.bytes[i] == loops->bytes[at + 1])
                left[i] = 0;
}

/* V 128, T 8,192: all loops in three lists, those of vertex 1 after those that are inside. */
static void all_lists_of_the_full_chart(void)
{
    static removal lent;
    static body loops;
    static uint8_t left[8192];
    static const unsigned lists[3][3] = {{0, 2, 65}, {1, 2, 65}, {1, 66, 128}};
    put_full_chart(&lent.chart, &lent.labels);
    lent.standing.len = sizeof left;
    memset(lent.standing.bytes, 1, sizeof left);
    memset(left, 1, sizeof left);
    put_range(&loops, 1, 2, 65);
    expect_together("(1, 2) goes, (1, 3) too early", &lent, loops.bytes, loops.len, numbers(52, 1, 3, 2), NULL);
    put_range(&loops, 0, 2, 66);
    expect_together("65 loops, the last one none", &lent, loops.bytes, loops.len, NO_LIST, NULL);
    for (size_t k = 0; k < 3; k++) {
        put_range(&loops, lists[k][0], lists[k][1], lists[k][2]);
        clear(left, &lent, &loops);
        expect_together("loops of the full chart", &lent, loops.bytes, loops.len, DONE, left);
    }
    for (size_t i = 0; i < sizeof left; i++)
        left[i] = lent.labels.bytes[i] == 0;
    expect_bytes("branches are left", lent.standing.bytes, left, sizeof left);
    lent.standing.bytes[8191] = 2;
    expect_together("last byte 2", &lent, loops.bytes, 1, numbers(50, 0, 0, 0), NULL);
}

/* The follower. */

typedef struct follower {
    body chart;
    body state;
} follower;

enum { RESTART = -1 };

/* The byte of a state that is 1 where the run is spoilt. */
enum { MARK = 16 };

/* One call, a restart or the event of an action; its answer and every lent byte are held to what is
 * wanted, and without `left` the state is to be kept. The next call goes on with what this one left. */
static void expect_follow(const char *name, follower *lent, int event, seq_numbers want, const uint8_t *left)
{
    size_t chart_len = lent->chart.len;
    size_t len = lent->state.len;
    const uint8_t *chart = copy_before(file_end, lent->chart.bytes, chart_len);
    uint8_t *state = copy_before(out_end, lent->state.bytes, len);
    cases++;
    expect_numbers(name,
                   event == RESTART ? seq_restart(chart, chart_len, state, len)
                                    : seq_event(chart, chart_len, state, len, (uint8_t)event),
                   want);
    expect_bytes(name, chart, lent->chart.bytes, chart_len);
    expect_bytes(name, state, left ? left : lent->state.bytes, len);
    memcpy(lent->state.bytes, state, len);
}

static seq_numbers taken(uint64_t end, uint64_t offered)
{
    return numbers(0, 1, end, offered);
}

static const seq_numbers SPOILT = {0, 2, 0, 0};
static const seq_numbers NO_SET = {53, 0, 0, 0};
static const seq_numbers NO_WAY = {55, 0, 0, 0};

/* Lengths that are no state's. */
static const size_t OTHER_LENS[6] = {0, 1, 15, 16, 18, 32};

/* An event that is not possible: of the state the mark alone becomes another. The same event then finds it spoilt. */
static void expect_spoiling(const char *name, follower *lent, int event, uint64_t end, uint64_t offered)
{
    uint8_t left[SEQ_STATE];
    memcpy(left, lent->state.bytes, SEQ_STATE);
    left[MARK] = 1;
    expect_follow(name, lent, event, numbers(0, 0, end, offered), left);
    expect_follow(name, lent, event, SPOILT, NULL);
}

static void set_chart(follower *lent, const uint8_t *bytes, size_t len)
{
    set_body(&lent->chart, bytes, len);
    lent->state.len = SEQ_STATE;
}

/* The set of the vertices from `low` to before `high`, and the mark. */
static void set_marked(follower *lent, unsigned low, unsigned high, uint8_t mark)
{
    lent->state.len = SEQ_STATE;
    memset(lent->state.bytes, 0, SEQ_STATE);
    for (unsigned v = low; v < high; v++)
        lent->state.bytes[v / 8] |= (uint8_t)(1u << v % 8);
    lent->state.bytes[MARK] = mark;
}

/* The same, not spoilt. */
static void set_vertices(follower *lent, unsigned low, unsigned high)
{
    set_marked(lent, low, high, 0);
}

/* Document 01's list, from a state of all bits, over a chart of G. */
static void starred_run(const char *name, const uint8_t *chart, size_t len)
{
    static follower lent;
    uint8_t start[SEQ_STATE] = {(uint8_t)(1u << chart[1])};
    uint8_t end[SEQ_STATE] = {1};
    set_chart(&lent, chart, len);
    memset(lent.state.bytes, 0xFF, SEQ_STATE);
    expect_follow(name, &lent, RESTART, taken(0, 2), start);
    expect_follow(name, &lent, 1, taken(0, 2), start);
    expect_follow(name, &lent, 2, taken(1, 0), end);
    expect_spoiling(name, &lent, 1, 1, 0);
    expect_follow(name, &lent, RESTART, taken(0, 2), start);
}

static void starred_runs(void)
{
    starred_run("G's chart", G + 20, 12);
    starred_run("G's expression chart", G_CHART, sizeof G_CHART);
}

/* Vertex 1 goes on by action 1 or to vertex 2, which goes on or ends: all targets of all vertices, and
 * an action that two of them offer counts once. */
static void sets_of_several_vertices(void)
{
    static follower lent;
    static const uint8_t chart[28] = {3, 1, 6, 0, 1, 1, 1, 0, 1, 1, 2, 0, 1, 2, 1, 0,
                                      2, 1, 0, 0, 2, 1, 2, 0, 2, 3, 2, 0};
    set_chart(&lent, chart, sizeof chart);
    expect_follow("the start alone", &lent, RESTART, taken(0, 2), (uint8_t[SEQ_STATE]){2});
    expect_follow("to vertices 1 and 2", &lent, 1, taken(0, 3), (uint8_t[SEQ_STATE]){6});
    expect_follow("to the end and 1 and 2", &lent, 1, taken(1, 3), (uint8_t[SEQ_STATE]){7});
    expect_spoiling("an action that none offers", &lent, 4, 1, 3);
    set_vertices(&lent, 0, 3);
    expect_follow("an action of vertex 2 alone", &lent, 3, taken(0, 2), (uint8_t[SEQ_STATE]){4});
    expect_spoiling("an action of vertex 1 alone", &lent, 2, 0, 2);
    /* Vertex 2 deadlocks: nothing is offered, and it is not the end. */
    set_chart(&lent, (uint8_t[]){3, 1, 1, 0, 1, 1, 2, 0}, 8);
    expect_follow("a start", &lent, RESTART, taken(0, 1), (uint8_t[SEQ_STATE]){2});
    expect_follow("to a deadlock", &lent, 1, taken(0, 0), (uint8_t[SEQ_STATE]){4});
    expect_spoiling("at a deadlock", &lent, 1, 0, 0);
    set_chart(&lent, (uint8_t[]){2, 1, 0, 0}, 4);
    expect_follow("a start that deadlocks", &lent, RESTART, taken(0, 0), (uint8_t[SEQ_STATE]){2});
    expect_spoiling("and an event", &lent, 1, 0, 0);
}

/* Of 1 to 255 vertex 1 has the actions that are no multiple of 7, and each leads to the vertex that is
 * what is left of it by 128; vertex 127 has action 255 alone, to the end. */
static void every_event(void)
{
    static follower lent;
    uint64_t offered = 0;
    for (unsigned action = 1; action < 256; action++)
        offered += action % 7 != 0;
    put_four(&lent.chart, 128, 1, (unsigned)offered + 1, 0);
    for (unsigned action = 1; action < 256; action++)
        if (action % 7 != 0)
            put_four(&lent.chart, 1, action, action % 128, 0);
    put_four(&lent.chart, 127, 255, 0, 0);
    for (unsigned action = 0; action < 256; action++) {
        unsigned to = action % 128;
        uint8_t left[SEQ_STATE] = {0};
        left[to / 8] = (uint8_t)(1u << to % 8);
        lent.state.len = SEQ_STATE;
        expect_follow("before each event", &lent, RESTART, taken(0, offered), (uint8_t[SEQ_STATE]){2});
        if (action % 7 == 0)
            expect_spoiling("an event of no transition", &lent, (int)action, 0, offered);
        else
            expect_follow("an event of a transition", &lent, (int)action,
                          taken(to == 0, to == 1 ? offered : to == 127), left);
    }
}

/* 53 for each of its causes but the mark, and 20 and 21 before it: whatever the mark is. */
static void refused_events(uint8_t mark)
{
    static follower lent;
    set_chart(&lent, G + 20, 12);
    set_marked(&lent, 1, 2, mark);
    for (size_t k = 0; k < 6; k++) {
        lent.state.len = OTHER_LENS[k];
        expect_follow("a state too long or too short", &lent, RESTART, NO_SET, NULL);
        expect_follow("such, and an event", &lent, 1, NO_SET, NULL);
    }
    set_marked(&lent, 0, 0, mark);
    for (int action = 0; action < 256; action++)
        expect_follow("the empty set", &lent, action, NO_SET, NULL);
    expect_follow("the empty set, restarted", &lent, RESTART, taken(0, 2), (uint8_t[SEQ_STATE]){2});
    for (unsigned v = 2; v < 128; v++) {
        set_marked(&lent, v, v + 1, mark);
        expect_follow("a vertex of V or above", &lent, 1, NO_SET, NULL);
        lent.state.bytes[0] |= 2;
        expect_follow("such, and the start", &lent, 1, NO_SET, NULL);
        expect_follow("such, and no action", &lent, 0, NO_SET, NULL);
    }
    expect_follow("such, restarted", &lent, RESTART, taken(0, 2), (uint8_t[SEQ_STATE]){2});
    for (size_t k = 0; k < 3; k++) {
        set_marked(&lent, 0, (unsigned)k, mark);
        lent.state.len = k == 1 ? 16 : SEQ_STATE;
        lent.chart.bytes[4 + 4 * 1 + 3] = 1;
        expect_follow("transition 1 with a last byte", &lent, RESTART, numbers(21, 1, 0, 0), NULL);
        expect_follow("such, and an event", &lent, 1, numbers(21, 1, 0, 0), NULL);
        lent.chart.bytes[0] = 129;
        expect_follow("V 129", &lent, RESTART, numbers(20, 0, 0, 0), NULL);
        expect_follow("V 129, and an event", &lent, 1, numbers(20, 0, 0, 0), NULL);
        set_body(&lent.chart, G + 20, 12);
    }
    for (lent.chart.len = 0; lent.chart.len < 12; lent.chart.len++) {
        expect_follow("a beginning of the chart", &lent, RESTART, numbers(20, 0, 0, 0), NULL);
        expect_follow("such, and an event", &lent, 2, numbers(20, 0, 0, 0), NULL);
    }
}

/* V 128, T 8,192: the last bit of a state and the last transition are read. */
static void following_the_full_chart(void)
{
    static follower lent;
    static body labels;
    uint8_t left[SEQ_STATE] = {0};
    put_full_chart(&lent.chart, &labels);
    lent.state.len = SEQ_STATE;
    left[15] = 0x80;
    expect_follow("start 127", &lent, RESTART, taken(0, 1), left);
    expect_spoiling("no such action", &lent, 255, 0, 1);
    expect_follow("start 127 again", &lent, RESTART, taken(0, 1), left);
    memset(left, 0xFF, MARK);
    left[0] = 0xFE;
    left[15] = 0x7F;
    expect_follow("to all lower ones", &lent, 1, taken(0, 1), left);
    left[15] = 0xFF;
    expect_follow("from 1 to all", &lent, 1, taken(0, 1), left);
    expect_follow("to all again", &lent, 1, taken(0, 1), left);
    set_vertices(&lent, 0, 128);
    expect_spoiling("all vertices, no such action", &lent, 2, 1, 1);
    lent.chart.bytes[4 + 4 * 8191 + 1] = 2;
    set_vertices(&lent, 0, 128);
    expect_spoiling("all vertices, the last transition", &lent, 0, 1, 2);
    set_vertices(&lent, 0, 128);
    memset(left, 0, SEQ_STATE);
    left[15] = 0x40;
    expect_follow("by the last transition", &lent, 2, taken(0, 1), left);
    lent.chart.bytes[0] = 127;
    expect_follow("V 127, start 127", &lent, 1, numbers(20, 0, 0, 0), NULL);
    lent.chart.bytes[0] = 128;
    lent.chart.bytes[4 + 4 * 8191 + 3] = 1;
    expect_follow("a last byte in the last transition", &lent, 1, numbers(21, 8191, 0, 0), NULL);
    expect_follow("such, restarted", &lent, RESTART, numbers(21, 8191, 0, 0), NULL);
}

/* The shortest way. */

/* Where a way is written, each of its events is taken, and the end is in the set after the last one only. */
static void expect_end_after(const char *name, const follower *lent, const uint8_t *way, uint64_t len)
{
    static follower run;
    run = *lent;
    for (uint64_t i = 0; i < len; i++) {
        seq_numbers said = seq_event(run.chart.bytes, run.chart.len, run.state.bytes, SEQ_STATE, way[i]);
        expect_numbers(name, said, taken(i + 1 == len, said.r));
    }
}

/* One call into so many lent bytes; its answer and every lent byte are held to what is wanted. */
static void expect_way(const char *name, const follower *lent, size_t out_len, seq_numbers want, const uint8_t *way)
{
    size_t chart_len = lent->chart.len;
    size_t len = lent->state.len;
    const uint8_t *chart = copy_before(file_end, lent->chart.bytes, chart_len);
    const uint8_t *state = copy_before(labels_end, lent->state.bytes, len);
    uint8_t *out = lend_out(out_len, want, way);
    cases++;
    expect_numbers(name, seq_shortest_way(chart, chart_len, state, len, out, out_len), want);
    expect_bytes(name, chart, lent->chart.bytes, chart_len);
    expect_bytes(name, state, lent->state.bytes, len);
    expect_bytes(name, out, out_left, out_len);
    if (want.n == 0)
        expect_end_after(name, lent, out, want.p);
}

/* A way of so many events, into bytes enough and too few. */
static void expect_way_in_each_buffer(const char *name, const follower *lent, const uint8_t *way, size_t len)
{
    seq_numbers written = numbers(0, len, 0, 0);
    seq_numbers needed = numbers(54, len, 0, 0);
    if (len > 0) {
        expect_way(name, lent, 0, needed, way);
        expect_way(name, lent, len - 1, needed, way);
    }
    expect_way(name, lent, len, written, way);
    expect_way(name, lent, len + 1, written, way);
    expect_way(name, lent, SEQ_LONGEST_WAY, written, way);
}

/* Refused, whether there is room or not. */
static void expect_no_way(const char *name, const follower *lent, seq_numbers want)
{
    expect_way(name, lent, 0, want, NULL);
    expect_way(name, lent, 1, want, NULL);
    expect_way(name, lent, SEQ_LONGEST_WAY + 1, want, NULL);
}

/* The chart of G's expression: vertices 2 and 3 leave by action 2, vertex 1 goes to 3. */
static void ways_of_g(void)
{
    static follower lent;
    set_chart(&lent, G_CHART, sizeof G_CHART);
    set_vertices(&lent, 0, 1);
    expect_way_in_each_buffer("the end", &lent, NULL, 0);
    set_vertices(&lent, 0, 4);
    expect_way_in_each_buffer("the end and all others", &lent, NULL, 0);
    set_vertices(&lent, 1, 2);
    expect_way_in_each_buffer("vertex 1", &lent, (uint8_t[]){1, 2}, 2);
    set_vertices(&lent, 3, 4);
    expect_way_in_each_buffer("the start", &lent, (uint8_t[]){2}, 1);
    set_vertices(&lent, 1, 4);
    expect_way_in_each_buffer("all but the end", &lent, (uint8_t[]){2}, 1);
}

/* V 128, one line: each vertex leads to the one below it, vertex v by action 2 v. */
static void ways_along_one_line(void)
{
    static follower lent;
    uint8_t way[SEQ_LONGEST_WAY];
    put_four(&lent.chart, 128, 127, 127, 0);
    for (unsigned v = 1; v < 128; v++) {
        put_four(&lent.chart, v, 2 * v, v - 1, 0);
        way[SEQ_LONGEST_WAY - v] = (uint8_t)(2 * v);
    }
    for (unsigned v = 0; v < 128; v++) {
        set_vertices(&lent, v, v + 1);
        expect_way_in_each_buffer("one vertex of a line", &lent, way + SEQ_LONGEST_WAY - v, v);
        set_vertices(&lent, v, 128);
        expect_way_in_each_buffer("that and all above", &lent, way + SEQ_LONGEST_WAY - v, v);
    }
}

/* From vertex 1 two events lead to the end by 2, by 3 and by 4; by action 1 it takes three. */
static void ways_of_equal_length(void)
{
    static follower lent;
    static const uint8_t chart[] = {7, 1, 11, 0, 1, 1, 5, 0, 1, 6, 2, 0, 1, 6, 3, 0, 1, 7, 4, 0,
                                    2, 8, 0, 0, 2, 9, 0, 0, 3, 1, 5, 0, 3, 5, 0, 0, 4, 1, 0, 0,
                                    5, 1, 4, 0, 6, 6, 1, 0};
    set_chart(&lent, chart, sizeof chart);
    set_vertices(&lent, 1, 2);
    expect_way_in_each_buffer("the lowest first event, then the lowest of 2 and 3", &lent, (uint8_t[]){6, 5}, 2);
    set_vertices(&lent, 2, 3);
    expect_way_in_each_buffer("the lower of two", &lent, (uint8_t[]){8}, 1);
    set_vertices(&lent, 2, 5);
    expect_way_in_each_buffer("the lowest of three vertices", &lent, (uint8_t[]){1}, 1);
    set_vertices(&lent, 5, 7);
    expect_way_in_each_buffer("the nearer of two", &lent, (uint8_t[]){1, 1}, 2);
    set_vertices(&lent, 6, 7);
    expect_way_in_each_buffer("three events", &lent, (uint8_t[]){6, 6, 5}, 3);
}

/* Vertex 1 stays by the actions below one, and leaves by that and all above: for each of 1 to 255. */
static void ways_by_every_action(void)
{
    static follower lent;
    for (unsigned to_end = 1; to_end < 256; to_end++) {
        uint8_t way = (uint8_t)to_end;
        lent.chart.len = 0;
        put_four(&lent.chart, 2, 1, 255, 0);
        for (unsigned action = 1; action < 256; action++)
            put_four(&lent.chart, 1, action, action < to_end, 0);
        set_vertices(&lent, 1, 2);
        expect_way("one action leads to the end", &lent, 1, numbers(0, 1, 0, 0), &way);
    }
}

/* 55: vertex 2 deadlocks, 3 and 4 go round; it comes before 54. */
static void no_way_to_the_end(void)
{
    static follower lent;
    static const uint8_t chart[] = {5, 1, 5, 0, 1, 1, 2, 0, 1, 2, 0, 0, 1, 3, 3, 0, 3, 2, 4, 0, 4, 2, 3, 0};
    set_chart(&lent, chart, sizeof chart);
    set_vertices(&lent, 2, 3);
    expect_no_way("a deadlock", &lent, NO_WAY);
    set_vertices(&lent, 3, 5);
    expect_no_way("round for ever", &lent, NO_WAY);
    set_vertices(&lent, 2, 5);
    expect_no_way("all of these", &lent, NO_WAY);
    set_vertices(&lent, 1, 5);
    expect_way_in_each_buffer("these and the start", &lent, (uint8_t[]){2}, 1);
    set_chart(&lent, (uint8_t[]){2, 1, 0, 0}, 4);
    set_vertices(&lent, 1, 2);
    expect_no_way("no transition", &lent, NO_WAY);
    set_vertices(&lent, 0, 2);
    expect_way_in_each_buffer("no transition, and the end", &lent, NULL, 0);
}

/* 53 for each of its causes but the mark, and 20 and 21 before it; all of them before 54 and 55, whatever the
 * mark is. */
static void refused_ways(uint8_t mark)
{
    static follower lent;
    set_chart(&lent, G + 20, 12);
    set_marked(&lent, 1, 2, mark);
    for (size_t k = 0; k < 6; k++) {
        lent.state.len = OTHER_LENS[k];
        expect_no_way("a state too long or too short", &lent, NO_SET);
    }
    set_marked(&lent, 0, 0, mark);
    expect_no_way("the empty set", &lent, NO_SET);
    for (unsigned v = 2; v < 128; v++) {
        set_marked(&lent, v, v + 1, mark);
        expect_no_way("a vertex of V or above", &lent, NO_SET);
        lent.state.bytes[0] |= 3;
        expect_no_way("such, and the end", &lent, NO_SET);
    }
    for (size_t k = 0; k < 4; k++) {
        set_marked(&lent, 0, (unsigned)k, mark);
        lent.state.len = k == 1 ? 16 : SEQ_STATE;
        lent.chart.bytes[4 + 4 * 1 + 3] = 1;
        expect_no_way("transition 1 with a last byte", &lent, numbers(21, 1, 0, 0));
        lent.chart.bytes[0] = 129;
        expect_no_way("V 129", &lent, numbers(20, 0, 0, 0));
        set_body(&lent.chart, G + 20, 12);
    }
    for (lent.chart.len = 0; lent.chart.len < 12; lent.chart.len++)
        expect_no_way("a beginning of the chart", &lent, numbers(20, 0, 0, 0));
}

/* V 128, T 8,192: no way, until transition 0 leads to the end, or the last one does. */
static void ways_over_the_full_chart(void)
{
    static follower lent;
    static body labels;
    put_full_chart(&lent.chart, &labels);
    set_vertices(&lent, 127, 128);
    expect_no_way("the full chart", &lent, NO_WAY);
    lent.chart.bytes[4 + 2] = 0;
    expect_way_in_each_buffer("by vertex 1", &lent, (uint8_t[]){1, 1}, 2);
    set_vertices(&lent, 1, 128);
    expect_way_in_each_buffer("from vertex 1", &lent, (uint8_t[]){1}, 1);
    lent.chart.bytes[4 + 2] = 1;
    expect_no_way("from all but the end", &lent, NO_WAY);
    lent.chart.bytes[4 + 4 * 8191 + 1] = 255;
    lent.chart.bytes[4 + 4 * 8191 + 2] = 0;
    expect_way_in_each_buffer("by the last transition", &lent, (uint8_t[]){255}, 1);
    set_vertices(&lent, 2, 3);
    expect_way_in_each_buffer("from 2 by 1 to the last vertex", &lent, (uint8_t[]){1, 1, 255}, 3);
    lent.chart.bytes[4 + 4 * 8191 + 3] = 1;
    expect_no_way("a last byte in the last transition", &lent, numbers(21, 8191, 0, 0));
}

/* Spoilt runs. */

/* Of each set of G's vertices: event 0 spoils it, then no event is looked at, and a restart goes on. */
static void spoilt_until_a_restart(void)
{
    static follower lent;
    set_chart(&lent, G + 20, 12);
    for (unsigned low = 0; low < 2; low++) {
        for (unsigned high = low + 1; high <= 2; high++) {
            set_vertices(&lent, low, high);
            expect_spoiling("event 0", &lent, 0, low == 0, high == 2 ? 2 : 0);
            for (int action = 0; action < 256; action++)
                expect_follow("an event of a spoilt run", &lent, action, SPOILT, NULL);
            expect_follow("a spoilt run, restarted", &lent, RESTART, taken(0, 2), (uint8_t[SEQ_STATE]){2});
            expect_follow("and an event", &lent, 2, taken(1, 0), (uint8_t[SEQ_STATE]){1});
        }
    }
}

/* 55 of a spoilt state over the chart of G's expression, also with the end in its set; from the same set, not
 * spoilt, a way. */
static void no_way_from_a_spoilt_state(void)
{
    static follower lent;
    static const uint8_t way[2] = {1, 2};
    set_chart(&lent, G_CHART, sizeof G_CHART);
    for (unsigned low = 0; low < 4; low++) {
        for (unsigned high = low + 1; high <= 4; high++) {
            size_t len = low == 0 ? 0 : high == 2 ? 2 : 1;
            set_marked(&lent, low, high, 1);
            expect_no_way("a spoilt state", &lent, NO_WAY);
            set_vertices(&lent, low, high);
            expect_way_in_each_buffer("the same, not spoilt", &lent, way + 2 - len, len);
        }
    }
}

/* 53 for each mark above 1, with the end in the set, until a restart. */
static void marks_above_1(void)
{
    static follower lent;
    set_chart(&lent, G + 20, 12);
    for (unsigned mark = 2; mark < 256; mark++) {
        set_marked(&lent, 0, 2, (uint8_t)mark);
        for (int action = 0; action < 4; action++)
            expect_follow("a mark above 1", &lent, action, NO_SET, NULL);
        expect_no_way("such, and a way", &lent, NO_SET);
        expect_follow("such, restarted", &lent, RESTART, taken(0, 2), (uint8_t[SEQ_STATE]){2});
    }
}

static void refused_with_each_mark(void)
{
    static const uint8_t marks[4] = {0, 1, 2, 255};
    for (size_t k = 0; k < 4; k++) {
        refused_events(marks[k]);
        refused_ways(marks[k]);
    }
}

int main(void)
{
    file_end = end_of_memory(sizeof file_bytes);
    labels_end = end_of_memory(sizeof file_bytes);
    loops_end = end_of_memory(sizeof file_bytes);
    out_end = end_of_memory(SEQ_LONGEST_CHART + 16);
    starred_checks();
    equal_levels_inside_each_other();
    beginnings_of_g();
    bodies_of_g();
    bodies_of_other_files();
    empty_slices();
    longest_file();
    past_the_limits_of_a_chart();
    past_the_limits_of_an_expression();
    chart_of_g();
    chart_of_one_node();
    chart_of_sums();
    chart_of_ones_for_ever();
    refused_nodes();
    expression_of_g();
    expressions_of_deadlocks();
    expression_of_sums();
    expressions_of_two_loops();
    expression_of_the_weighbridge();
    longest_sums();
    lines_of_vertices();
    nests_of_loops();
    texts_far_too_long();
    refused_drawings();
    refused_before_58();
    starred_removals();
    entries_one_by_one();
    refused_removals();
    numbers_that_name_no_loop();
    no_loop_charts();
    all_loops_of_the_full_chart();
    one_loop_inside_the_other();
    loops_of_a_line();
    loops_of_one_start();
    loops_of_a_ring();
    places_of_starts();
    bodies_by_what_stands();
    bodies_that_stop();
    refused_lists();
    refused_before_their_list();
    all_lists_of_the_full_chart();
    starred_runs();
    sets_of_several_vertices();
    every_event();
    following_the_full_chart();
    ways_of_g();
    ways_along_one_line();
    ways_of_equal_length();
    ways_by_every_action();
    no_way_to_the_end();
    ways_over_the_full_chart();
    spoilt_until_a_restart();
    no_way_from_a_spoilt_state();
    marks_above_1();
    refused_with_each_mark();
    printf("C: %u cases, %u wrong\n", cases, wrong);
    return wrong == 0 ? 0 : 1;
}
