/* The records of a node list, and the place of a position, as one writes them in C who needs them. */
#ifndef RECORDS_H
#define RECORDS_H
#include "gurkenmond.h"

/* One pass over the nodes, which are taken to be a list; records: one for each symbol. */
void sum_nodes(const uint32_t *nodes, size_t count, gm_summary *records, size_t symbols);

/* place: line, column, of a position that is taken to be one of the text. */
void find_place(const uint8_t *text, size_t position, uint64_t place[2]);
#endif
