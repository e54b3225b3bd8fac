/* A peer of our own: a table of cells filled by hand in C, for any accepted grammar that is given as plain PEG. */
#ifndef TABLE_H
#define TABLE_H
#include <stddef.h>
#include <stdint.h>

typedef struct Table Table;

/* The grammar of a plain text as gm_write_plain writes it; NULL where it cannot be read. */
Table *table_read(const uint8_t *plain, size_t plain_len);
size_t table_symbols(const Table *table);
size_t table_repeats(const Table *table);
void table_free(Table *table);

/* cells: symbols * (input_len + 1) words, filled as document 01 says; ends: repeats * (input_len + 1) words of work room.
   Nodes are four words each: symbol, start, end, depth. out: taken, nodes. Answers 0; 100 for no match; 11 or 12 as in document 01. */
int table_match(const Table *table, const uint8_t *input, size_t input_len, uint32_t *cells, uint32_t *ends,
                uint32_t *nodes, size_t nodes_len, uint64_t out[2]);
#endif
