#include "print.h"

/* A string as JSON has it: what is not plain ASCII as \u00XX. */
static void print_string(FILE *to, const uint8_t *at, size_t n)
{
    for (size_t i = 0; i < n; i++) {
        int c = at[i];
        if (c == '"' || c == '\\') {
            putc('\\', to);
            putc(c, to);
        } else if (c < 32 || c > 126)
            fprintf(to, "\\u00%02X", c);
        else
            putc(c, to);
    }
}

static void print_closings(FILE *to, uint32_t n)
{
    for (uint32_t i = 0; i < n; i++) fputs("]}", to);
}

void print_tree(FILE *to, char (*names)[GM_NAME_MOST + 1], const uint8_t *text, const uint32_t *nodes, size_t count)
{
    for (size_t k = 0; k < count; k++) {
        const uint32_t *node = nodes + 4 * k;
        uint32_t depth = node[3], last = k ? node[-1] : 0;
        if (k && depth <= last) {
            print_closings(to, last - depth + 1);
            putc(',', to);
        }
        fprintf(to, "{\"name\":\"%s\",\"start\":%u,\"end\":%u,\"text\":\"", names[node[0]], node[1], node[2]);
        print_string(to, text + node[1], node[2] - node[1]);
        fputs("\",\"children\":[", to);
    }
    if (count) print_closings(to, nodes[4 * count - 1] + 1);
}
