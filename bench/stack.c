/* stack FILE..: how many bytes of stack each call uses, at most, over yard files, and how many sequence.h has for it. Exits
 * with 1 where that is less. A call is made on a thread whose stack below it was filled with a pattern; before that it is
 * made once, so that the linker's search for memcpy and memset is not counted. */
#include "sequence.h"
#include <pthread.h>
#include <stdio.h>
#include <stdlib.h>
#include <string.h>

enum { ROOM = 128 * 1024, OWN = 512, PATTERN = 0xA5 };

static uint8_t file[SEQ_LONGEST_FILE + 1];
static size_t length;
static seq_slice chart;
static seq_slice labels;

static void check(void) {
    seq_check(file, length);
}

static void write_chart(void) {
    static uint8_t out[SEQ_LONGEST_CHART];
    seq_slice nodes = seq_body(file, length, SEQ_EXPRESSION);
    seq_write_chart(nodes.bytes, nodes.len, out, sizeof out);
}

static uint8_t standing[SEQ_LONGEST_FILE];
/* The vertex and the level of the first loop; where there is none, no loop's. */
static uint8_t loop[2];

static void find_loop(void) {
    memset(standing, 1, sizeof standing);
    memset(loop, 0, sizeof loop);
    for (size_t i = 0; loop[1] == 0 && i < labels.len && 8 + 4 * i <= chart.len; i++) {
        loop[0] = chart.bytes[4 + 4 * i];
        loop[1] = labels.bytes[i];
    }
}

static void remove_one(void) {
    find_loop();
    seq_remove(chart.bytes, chart.len, labels.bytes, labels.len, loop[0], loop[1], standing, labels.len);
}

static void remove_together(void) {
    find_loop();
    seq_remove_together(chart.bytes, chart.len, labels.bytes, labels.len, loop, 2, standing, labels.len);
}

static uint8_t state[SEQ_STATE];

static void restart(void) {
    seq_restart(chart.bytes, chart.len, state, sizeof state);
}

static void press(uint8_t action) {
    seq_event(chart.bytes, chart.len, state, sizeof state, action);
}

/* An event that is taken, where the start has one; then one that spoils the run, since no transition has the action 0, and
 * one in the spoilt run. */
static void event(void) {
    restart();
    for (size_t at = 4; at + 4 <= chart.len; at += 4)
        if (chart.bytes[at] == chart.bytes[1]) {
            press(chart.bytes[at + 1]);
            break;
        }
    press(0);
    press(0);
}

static void way(void) {
    static uint8_t out[SEQ_LONGEST_WAY];
    seq_shortest_way(chart.bytes, chart.len, state, sizeof state, out, sizeof out);
}

/* From the start, and from there in a spoilt run. */
static void shortest_way(void) {
    restart();
    way();
    press(0);
    way();
}

/* A chart of 127 vertices, each of which branches to the next lower one. In a nest each has an entry to the next higher one
 * too, the last to itself; else each has one to itself. Each text then stands in another, in its left part or in its right
 * one, and the writing of the start's goes as deep as it can before it is refused 58. */
enum { TOP = 127, STEPS = 2 * TOP };
static uint8_t drawn[4 + 4 * STEPS];
static uint8_t drawn_labels[STEPS];

static void draw(int nest) {
    drawn[0] = TOP + 1;
    drawn[1] = nest ? 1 : TOP;
    drawn[2] = STEPS;
    for (int v = 1; v <= TOP; v++) {
        uint8_t *entry = drawn + 4 + 8 * (v - 1);
        uint8_t *branch = entry + 4;
        entry[0] = branch[0] = (uint8_t)v;
        entry[1] = 1;
        entry[2] = (uint8_t)(nest && v < TOP ? v + 1 : v);
        branch[1] = 2;
        branch[2] = (uint8_t)(v - 1);
        drawn_labels[2 * (v - 1)] = (uint8_t)(nest ? TOP + 1 - v : 1);
    }
}

/* The file's expression, then those of the deepest texts. */
static void write_expression(void) {
    static uint8_t out[4 * 127];
    seq_write_expression(chart.bytes, chart.len, labels.bytes, labels.len, out, sizeof out);
    for (int nest = 0; nest <= 1; nest++) {
        draw(nest);
        seq_write_expression(drawn, sizeof drawn, drawn_labels, sizeof drawn_labels, out, sizeof out);
    }
}

typedef struct measured {
    const char *name;
    void (*call)(void);
    size_t said;
    size_t most;
} measured;

static measured calls[] = {
    {"seq_check", check, SEQ_STACK_CHECK, 0},
    {"seq_write_chart", write_chart, SEQ_STACK_WRITE_CHART, 0},
    {"seq_remove", remove_one, SEQ_STACK_REMOVE, 0},
    {"seq_remove_together", remove_together, SEQ_STACK_REMOVE_TOGETHER, 0},
    {"seq_restart", restart, SEQ_STACK_RESTART, 0},
    {"seq_event", event, SEQ_STACK_EVENT, 0},
    {"seq_shortest_way", shortest_way, SEQ_STACK_SHORTEST_WAY, 0},
    {"seq_write_expression", write_expression, SEQ_STACK_WRITE_EXPRESSION, 0},
};
enum { CALLS = sizeof calls / sizeof calls[0] };

static uint8_t *stack;

/* The stack grows down from here. OWN bytes are kept for this function's own. */
static void *measure(void *given) {
    measured *row = given;
    uint8_t *here = __builtin_frame_address(0);
    row->call();
    for (volatile uint8_t *at = stack; at < here - OWN; at++)
        *at = PATTERN;
    row->call();
    uint8_t *lowest = stack;
    while (lowest < here && *lowest == PATTERN)
        lowest++;
    if ((size_t)(here - lowest) > row->most)
        row->most = (size_t)(here - lowest);
    return NULL;
}

static void measure_on_a_thread(measured *row) {
    pthread_attr_t attributes;
    pthread_t thread;
    if (pthread_attr_init(&attributes) || pthread_attr_setstack(&attributes, stack, ROOM)
        || pthread_create(&thread, &attributes, measure, row) || pthread_join(thread, NULL)) {
        fprintf(stderr, "stack: no thread\n");
        exit(2);
    }
    pthread_attr_destroy(&attributes);
}

static void read_file(const char *name) {
    FILE *in = fopen(name, "rb");
    if (!in) {
        perror(name);
        exit(2);
    }
    length = fread(file, 1, sizeof file, in);
    fclose(in);
    chart = seq_body(file, length, SEQ_CHART);
    labels = seq_body(file, length, SEQ_LABELLING);
}

int main(int count, char **names) {
    stack = aligned_alloc(4096, ROOM);
    if (count < 2 || !stack) {
        fprintf(stderr, "usage: stack FILE..\n");
        return 2;
    }
    for (int i = 1; i < count; i++) {
        read_file(names[i]);
        for (int k = 0; k < CALLS; k++)
            measure_on_a_thread(&calls[k]);
    }
    int more = 0;
    printf("| call | bytes of stack | sequence.h has |\n|---|---|---|\n");
    for (int k = 0; k < CALLS; k++) {
        printf("| %s | %zu | %zu |\n", calls[k].name, calls[k].most, calls[k].said);
        more |= calls[k].most > calls[k].said;
    }
    free(stack);
    return more;
}
