/* A node list as JSON text with C's stdio: what one writes who needs it. */
#ifndef PRINT_H
#define PRINT_H
#include "gurkenmond.h"
#include <stdio.h>

void print_tree(FILE *to, char (*names)[GM_NAME_MOST + 1], const uint8_t *text, const uint32_t *nodes, size_t count);
#endif
