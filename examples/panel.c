/* A small panel: `panel FILE` has a yard file checked, restarts over its chart and follows the actions
 * whose numbers come in on standard input. For each it says whether it is taken, whether the end is
 * reached, and how many actions are offered next. An action that is not possible spoils the run. Where
 * the word `r` comes in, it restarts; where `?` does, it says which actions finish the run.
 *
 * Exit status: 0; 1 where something is refused; 2 where the file cannot be read. */
#include "sequence.h"

#include <ctype.h>
#include <inttypes.h>
#include <stdio.h>

/* Room for a byte too many, so that a file that is too long is refused. */
static uint8_t file[SEQ_LONGEST_FILE + 1];

/* What is wrong, by the number of the refusal. */
static const char *cause(uint64_t n)
{
    if (n <= SEQ_BYTES_AFTER)
        return "the file did not arrive as it was made";
    if (n <= SEQ_NODE_USES)
        return "the order of work, record 1, is malformed";
    if (n <= SEQ_TRANSITION_MALFORMED)
        return "the chart, record 2, is malformed";
    if (n <= SEQ_LOOP_NOT_LOWER)
        return "the chart's loops are not what the labels, record 3, say";
    if (n <= SEQ_CHART_UNMATCHED)
        return "by record 4 the chart does not do what the order of work says";
    return "the follower's state is not what the call before has left";
}

static int refused(const char *what, seq_numbers said)
{
    printf("%s: refused %" PRIu64 " %" PRIu64 " %" PRIu64 " %" PRIu64 ": %s (docs/REFUSALS.md)\n", what, said.n, said.p,
           said.q, said.r, cause(said.n));
    return 1;
}

static void print_followed(seq_numbers said)
{
    const char *word = said.p == SEQ_TAKEN ? "taken" : said.p == SEQ_SPOILT ? "spoilt" : "not possible";
    printf("%s, end %s, offered %" PRIu64 "\n", word, said.q ? "yes" : "no", said.r);
}

/* The shortest way to the end. After a call with the same chart and state, no refusal but SEQ_NO_WAY comes. */
static void print_way(const uint8_t *chart, size_t chart_len, const uint8_t *state)
{
    uint8_t way[SEQ_LONGEST_WAY];
    seq_numbers said = seq_shortest_way(chart, chart_len, state, SEQ_STATE, way, sizeof way);
    printf("way:%s", said.n == SEQ_NO_WAY ? " none" : said.p == 0 ? " at the end" : "");
    for (uint64_t i = 0; i < said.p; i++)
        printf(" %d", way[i]);
    printf("\n");
}

/* Where the next word of the input is no action, where there is none, and where it asks for the way or to restart. */
enum { NO_ACTION = 256, NO_WORD, ASKS_WAY, RESTART };

static int next_action(void)
{
    int action = 0;
    int c = getchar();
    while (isspace(c))
        c = getchar();
    if (c == EOF)
        return NO_WORD;
    if (c == '?')
        return ASKS_WAY;
    if (c == 'r') { /* a longer word is no action below */
        action = RESTART;
        c = getchar();
    }
    for (; c != EOF && !isspace(c); c = getchar()) {
        action = isdigit(c) ? 10 * action + (c - '0') : NO_ACTION;
        if (action > NO_ACTION)
            action = NO_ACTION;
    }
    return action;
}

static int follow(const uint8_t *chart, size_t chart_len)
{
    uint8_t state[SEQ_STATE];
    for (int action = RESTART; action != NO_WORD; action = next_action()) {
        if (action == ASKS_WAY) {
            print_way(chart, chart_len, state);
            continue;
        }
        if (action == NO_ACTION) {
            printf("no action: an action is a number from 0 to 255\n");
            continue;
        }
        int restarts = action == RESTART;
        seq_numbers said = restarts ? seq_restart(chart, chart_len, state, sizeof state)
                                    : seq_event(chart, chart_len, state, sizeof state, (uint8_t)action);
        if (said.n != 0)
            return refused(restarts ? "restart" : "event", said);
        if (restarts)
            printf("restart: ");
        else
            printf("event %d: ", action);
        print_followed(said);
    }
    return 0;
}

int main(int count, char **words)
{
    if (count != 2) {
        fprintf(stderr, "usage: panel FILE\n");
        return 2;
    }
    FILE *in = fopen(words[1], "rb");
    size_t len = in ? fread(file, 1, sizeof file, in) : 0;
    if (!in || ferror(in)) {
        fprintf(stderr, "panel: %s cannot be read\n", words[1]);
        return 2;
    }
    fclose(in);
    seq_numbers said = seq_check(file, len);
    if (said.n != 0)
        return refused(words[1], said);
    printf("accepted: vertices %" PRIu64 ", transitions %" PRIu64 ", loops %" PRIu64 "\n", said.p, said.q, said.r);
    seq_slice chart = seq_body(file, len, SEQ_CHART);
    return follow(chart.bytes, chart.len);
}
