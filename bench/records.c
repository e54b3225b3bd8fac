#include "records.h"
#include <string.h>

/* A node adds its bytes where it begins at or behind the farthest end of its symbol's nodes so far: else it is in one of them. */
void sum_nodes(const uint32_t *nodes, size_t count, gm_summary *records, size_t symbols)
{
    uint32_t farthest[GM_SYMBOLS_MOST] = {0};
    memset(records, 0, symbols * sizeof *records);
    for (size_t k = 0; k < count; k++) {
        const uint32_t *node = nodes + GM_NODE_WORDS * k;
        uint32_t symbol = node[0], start = node[1], end = node[2];
        gm_summary *record = records + symbol;
        if (!record->present) record->present = 1, record->first = k;
        record->nodes++;
        record->last = k;
        if (start >= farthest[symbol]) record->bytes += end - start;
        if (end > farthest[symbol]) farthest[symbol] = end;
    }
}

void find_place(const uint8_t *text, size_t position, uint64_t place[2])
{
    uint64_t line = 1, column = 1;
    for (size_t i = 0; i < position; i++) {
        column++;
        if (text[i] == '\n') line++, column = 1;
    }
    place[0] = line;
    place[1] = column;
}
