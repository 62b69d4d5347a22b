// The header in C++: the names are C's.
#include "sequence.h"

int main()
{
    const seq_numbers checked = seq_check(nullptr, 0);
    const seq_numbers written = seq_write_chart(nullptr, 0, nullptr, 0);
    const seq_numbers drawn = seq_write_expression(nullptr, 0, nullptr, 0, nullptr, 0);
    const seq_numbers removed = seq_remove(nullptr, 0, nullptr, 0, 1, 1, nullptr, 0);
    const seq_numbers together = seq_remove_together(nullptr, 0, nullptr, 0, nullptr, 0, nullptr, 0);
    const seq_numbers restarted = seq_restart(nullptr, 0, nullptr, 0);
    const seq_numbers followed = seq_event(nullptr, 0, nullptr, 0, 1);
    const seq_numbers way = seq_shortest_way(nullptr, 0, nullptr, 0, nullptr, 0);
    const uint8_t file[] = {1, 0, SEQ_EXPRESSION, 0, 7};
    const seq_slice body = seq_body(file, sizeof file, SEQ_EXPRESSION);
    const bool read = checked.n == SEQ_RECORD_INCOMPLETE && checked.p == 1 && written.n == SEQ_EXPRESSION_LENGTH;
    const bool left = drawn.n == SEQ_CHART_HEAD && removed.n == SEQ_CHART_HEAD && together.n == SEQ_CHART_HEAD;
    const bool lent = restarted.n == SEQ_CHART_HEAD && followed.n == SEQ_CHART_HEAD && way.n == SEQ_CHART_HEAD;
    const bool found = body.bytes == file + 4 && body.len == 1 && SEQ_VERSION / 100 == 2;
    const uint8_t chart[] = {2, 1, 1, 0, 1, 1, 0, 0};
    uint8_t state[SEQ_STATE];
    const bool told = seq_restart(chart, sizeof chart, state, sizeof state).p == SEQ_TAKEN &&
                      seq_event(chart, sizeof chart, state, sizeof state, 2).p == SEQ_NOT_POSSIBLE &&
                      seq_event(chart, sizeof chart, state, sizeof state, 1).p == SEQ_SPOILT;
    return read && left && lent && found && told ? 0 : 1;
}
