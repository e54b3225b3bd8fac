/* sample GRAMMAR TEXT: the spans of a text, as `./run spans` prints them.
   ./build x86_64 && gcc -Itarget/library -o sample samples/sample.c target/library/x86_64/libgurkenmond.a   (on Arm: aarch64) */
#include <stdio.h>
#include <stdlib.h>
#include "gurkenmond.h"

enum { FILE_MOST = 1 << 21, NODES_MOST = 1 << 16 };

static uint8_t *load(const char *name, size_t *length) {
    FILE *file = fopen(name, "rb");
    uint8_t *bytes = malloc(FILE_MOST);
    if (!file || !bytes) exit(2);
    *length = fread(bytes, 1, FILE_MOST, file);
    fclose(file);
    return bytes;
}

/* The name of a symbol, a lake's with its brackets: asked once, then kept. */
static const char *name_of(const uint8_t *grammar, size_t length, size_t symbol) {
    static char names[64][GM_NAME_MOST + 1];
    uint64_t out[4];
    if (!*names[symbol]) gm_symbol_name(GM_LAKE, grammar, length, symbol, (uint8_t *)names[symbol], GM_NAME_MOST, out);
    return names[symbol];
}

int main(int count, char **words) {
    if (count != 3) return 2;
    size_t grammar_length, text_length;
    uint8_t *grammar = load(words[1], &grammar_length), *text = load(words[2], &text_length);
    uint64_t out[4], code = gm_read(GM_LAKE, grammar, grammar_length, out);
    if (code == 0) {
        size_t cells = text_length > GM_INPUT_MOST ? 0 : out[1] * (text_length + 1);
        uint32_t *work = malloc(4 * cells + 4), *nodes = malloc(4 * GM_NODE_WORDS * NODES_MOST);
        code = gm_match(GM_LAKE, grammar, grammar_length, text, text_length, work, cells, nodes, GM_NODE_WORDS * NODES_MOST, out);
        if (code == 0) {
            uint64_t listed = out[2];
            printf("match %llu\n", (unsigned long long)out[1]);
            for (uint32_t *node = nodes; node < nodes + GM_NODE_WORDS * listed; node += GM_NODE_WORDS)
                printf("%u %u %u %s\n", node[1], node[2], node[3], name_of(grammar, grammar_length, node[0]));
        }
    }
    if (code == GM_NO_MATCH) puts("none");
    else if (code) printf("refused %llu %llu\n", (unsigned long long)code, (unsigned long long)out[1]);
    return 0;
}
