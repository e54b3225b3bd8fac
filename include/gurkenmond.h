/* The public calls of Gurkenmond for C: crate `library`, each of whose functions is proved to answer, in numbers, what the definition of its public call says,
   for all bytes, lengths and modes, every lent word included (crates/library_numbers/specs/Words.antt).

   Rules of the caller, which no proof checks:
   - a slice is a pointer and a length; the pointer is never NULL, also for length 0, and aligned to its element (1, 4 or 8 bytes);
   - `cells`, `nodes`, `room`, `records` and `out` overlap neither each other nor what is read;
   - of every record that is lent `present` is 0 or 1 already, as in one of zeros;
   - 360 KiB of stack are free (enough on the worst grammars; gurkenmond.wasm has 4 MiB of its own).
   No proof covers either: the compiler's back end, the change of target for wasm32, the wrappers. They are tested.

   No call allocates, keeps anything, reads a clock or a file, or fails in another way; calls from several threads at once are fine.
   The archive asks its linker for memcpy and memset, and for nothing else.
   Each fills `out` and returns out[0]: 0; a refusal's number 1 to 17, with its place in out[1]; or GM_NO_MATCH. Numbers not named here are 0.
   mode: GM_LAKE, every other byte is plain. A place is a byte's number, from 0. */
#ifndef GURKENMOND_H
#define GURKENMOND_H
#include <stddef.h>
#include <stdint.h>
#ifdef __cplusplus
extern "C" {
#endif
#define GM_LAKE 0
#define GM_PLAIN 1
#define GM_NO_MATCH 100
#define GM_INPUT_MOST 65535 /* bytes of input */
#define GM_NODE_WORDS 4     /* words of a node: symbol, start, end, depth */
#define GM_NAME_MOST 38     /* bytes of a symbol's name, brackets with it */
#define GM_SYMBOLS_MOST 64  /* symbols of a grammar: so many records are enough for each */

/* The record of a symbol: how many nodes it has, how many bytes its outermost ones cover, the numbers of its first and last in the list, from 0, and 1 for
   present. Of a symbol without a node all are 0. 40 bytes, of which the last 7 are no part of it */
typedef struct {
    uint64_t nodes, bytes, first, last;
    uint8_t present;
} gm_summary;

/* out: 0, symbols, terminals, expressions. Refusals 1 to 8 */
uint64_t gm_read(uint8_t mode, const uint8_t *text, size_t text_len, uint64_t out[4]);

/* out: 0, rounds, BEGINNING 0 and 1, SUCCEED 0 and 1, ALT 0 and 1, then 1 for epsilon. Word 0 has the symbols, word 1 the terminals, bit = number.
   expression: of the intermediate grammar, from 1. Refusals 1 to 8, 14 */
uint64_t gm_sets(uint8_t mode, const uint8_t *text, size_t text_len, size_t expression, uint64_t out[9]);

/* out: 0, the lakes that cannot skip, bit = symbol number. Refusals 1 to 8 */
uint64_t gm_cannot_skip(uint8_t mode, const uint8_t *text, size_t text_len, uint64_t out[4]);

/* out: 0, bytes taken, nodes. cells: symbols * (input_len + 1) words at least, else 10. Refusals 1 to 12; up to 10 cells and nodes stay as they were,
   at 11 and 12 the nodes; no match fills the cells and leaves the nodes */
uint64_t gm_match(uint8_t mode, const uint8_t *text, size_t text_len, const uint8_t *input, size_t input_len,
                  uint32_t *cells, size_t cells_len, uint32_t *nodes, size_t nodes_len, uint64_t out[4]);

/* out: 0, then 0 not, 1 by its rule, 2 by water, 3 by one skipped byte. lake: its symbol number. Refusals 1 to 10, 14 */
uint64_t gm_lake_at(uint8_t mode, const uint8_t *text, size_t text_len, const uint8_t *input, size_t input_len,
                    uint32_t *cells, size_t cells_len, size_t lake, size_t place, uint64_t out[4]);

/* out: 0, then 1 if node k lies whole in the words with start <= end <= n, else 0 */
uint64_t gm_node_sound(const uint32_t *nodes, size_t nodes_len, size_t k, size_t n, uint64_t out[4]);

/* out: 0, where the text of node k begins in the input, how many bytes it has; 0, 0, 0 for an unsound node */
uint64_t gm_node_text(const uint8_t *input, size_t input_len, const uint32_t *nodes, size_t nodes_len, size_t k, uint64_t out[4]);

/* out: 0, bytes written; or 13, bytes needed (room_len 0 asks for them). The grammar's own text, and its plain text. Refusals 1 to 8, 13 */
uint64_t gm_write_own(uint8_t mode, const uint8_t *text, size_t text_len, uint8_t *room, size_t room_len, uint64_t out[4]);
uint64_t gm_write_plain(uint8_t mode, const uint8_t *text, size_t text_len, uint8_t *room, size_t room_len, uint64_t out[4]);

/* out: 0, bytes written; or 13, bytes needed. The name of a symbol as it stands in the grammar, a lake's with its brackets. Refusals 1 to 8, 14, 13 */
uint64_t gm_symbol_name(uint8_t mode, const uint8_t *text, size_t text_len, size_t symbol, uint8_t *room, size_t room_len, uint64_t out[4]);

/* out: 0, bytes written; or 13, bytes needed. A node list as JSON text; nodes are all words of the list, 4 for each node. Refusals 1 to 9, 15, 13 */
uint64_t gm_write_json(uint8_t mode, const uint8_t *text, size_t text_len, const uint8_t *input, size_t input_len,
                       const uint32_t *nodes, size_t nodes_len, uint8_t *room, size_t room_len, uint64_t out[4]);

/* out: 0, nodes; or 12, the nodes that there is room for. The node list that a JSON text says, of this grammar and input; all of it is written or
   nothing. Refusals 1 to 9, 16, 12 */
uint64_t gm_read_json(uint8_t mode, const uint8_t *text, size_t text_len, const uint8_t *input, size_t input_len,
                      const uint8_t *json, size_t json_len, uint32_t *nodes, size_t nodes_len, uint64_t out[4]);

/* out: 0, symbols; or 17, records needed. A record of each symbol, by its number, of a node list; nodes are all words of the list. Records behind them,
   and all after a refusal, stay as they were. Refusals 1 to 9, 15, 17 */
uint64_t gm_summarise(uint8_t mode, const uint8_t *text, size_t text_len, const uint8_t *input, size_t input_len,
                      const uint32_t *nodes, size_t nodes_len, gm_summary *records, size_t records_len, uint64_t out[4]);

/* out: 0, line, column of a position of the input, both from 1 and in bytes. LF ends a line and stands on it; the end, input_len, is a position too.
   Refusals 9, 14 */
uint64_t gm_line_and_column(const uint8_t *input, size_t input_len, size_t position, uint64_t out[4]);
#ifdef __cplusplus
}
#endif
#endif
