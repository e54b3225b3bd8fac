/* measure LIST LUA SECONDS: runs every case of LIST, all peers by turns in this one process, and prints lines for report.py:
     same NAME SIZE TAKEN NODES              all peers answered that, with the same nodes; ours and the C table have the same cells too
     differs NAME SIZE WHAT                  they did not
     time NAME SIZE PEER SECONDS             the least CPU time of one call
     read NAME SIZE ANSWER PLACE             what gm_read answered
     tree NAME SIZE BYTES                    the nodes as JSON text, ours and stdio's alike; else differs. Times of both follow, of NAME:tree
     records NAME SIZE SYMBOLS               the records of the nodes, ours and C's alike; else differs. Times of both follow, of NAME:records, and of ours
                                             up to where the grammar is prepared
     place NAME SIZE LINE COLUMN             of the text's end, ours and C's alike; else differs. Times of both follow, of NAME:place
     over NAME SIZE                          not run: the sizes before it say that it would take longer than the case may
   LIST has lines `match NAME SIZE MODE GRAMMAR TEXT PEERS` and `read NAME SIZE MODE TEXT - o`, sizes of a name in ascending order. PEERS are of the letters
   o, t, l, f: ours, C table, LPeg with a tree of nodes, LPeg with a flat list. The time of ours is the whole call, reading and translating the grammar
   included; LPeg's pattern and the C table's grammar are made before. */
#include "gurkenmond.h"
#include "print.h"
#include "records.h"
#include "table.h"
#include <lauxlib.h>
#include <lua-lpeg.h>
#include <lualib.h>
#include <stdio.h>
#include <stdlib.h>
#include <string.h>
#include <time.h>

enum { OURS, TABLE, TREE, FLAT, PEERS };
static const char letters[] = "otlf";
static const char *const names[] = {"ours", "table", "lpeg", "flat"};
static const char *const forms[] = {"", "", "tree", "flat"}; /* of lpeg_peer.lua, whose answer is at 1 of Lua's stack */
enum { TEXT = PEERS }; /* where the text is there; a form's pattern is at the form's number */
enum { MOST_TURNS = 200, LEAST_TURNS = 5, MOST_PLAIN = 1 << 20, NODE_WORDS = 1 << 24, FEWER = 2 };

typedef struct {
    uint8_t *at;
    size_t len;
} Bytes;

typedef struct {
    int reads; /* gm_read alone */
    uint8_t mode;
    Bytes grammar, text;
    Table *table;
    uint32_t *cells[2], *ends, *nodes[PEERS];
    size_t cell_words;
    uint64_t answer[PEERS], taken[PEERS], count[PEERS];
} Case;

static lua_State *lua;

static void die(const char *what, const char *which)
{
    fprintf(stderr, "measure: %s %s\n", what, which);
    exit(2);
}

static void *words(size_t n)
{
    void *p = malloc(n * sizeof(uint32_t) + 4);
    if (!p) die("no memory for", "words");
    return p;
}

static Bytes contents(const char *path)
{
    FILE *f = fopen(path, "rb");
    if (!f) die("cannot open", path);
    fseek(f, 0, SEEK_END);
    Bytes b = {NULL, (size_t)ftell(f)};
    rewind(f);
    b.at = malloc(b.len + 1);
    if (!b.at || fread(b.at, 1, b.len, f) != b.len) die("cannot read", path);
    fclose(f);
    return b;
}

static double now(void)
{
    struct timespec t;
    clock_gettime(CLOCK_PROCESS_CPUTIME_ID, &t);
    return (double)t.tv_sec + (double)t.tv_nsec * 1e-9;
}

static void in_lua(int arguments, int results)
{
    if (lua_pcall(lua, arguments, results, 0) != LUA_OK) die("lua:", lua_tostring(lua, -1));
}

/* ---- one call of each, timed */

static double ours(Case *c)
{
    uint64_t out[4];
    double start = now();
    if (c->reads)
        gm_read(c->mode, c->text.at, c->text.len, out);
    else
        gm_match(c->mode, c->grammar.at, c->grammar.len, c->text.at, c->text.len, c->cells[0], c->cell_words, c->nodes[OURS], NODE_WORDS, out);
    double taken = now() - start;
    c->answer[OURS] = out[0];
    c->taken[OURS] = out[1];
    c->count[OURS] = out[2];
    return taken;
}

static double by_table(Case *c)
{
    uint64_t out[2];
    double start = now();
    c->answer[TABLE] = (uint64_t)table_match(c->table, c->text.at, c->text.len, c->cells[1], c->ends, c->nodes[TABLE], NODE_WORDS, out);
    double taken = now() - start;
    c->taken[TABLE] = out[0];
    c->count[TABLE] = out[1];
    return taken;
}

/* What it makes is left on top of Lua's stack. Garbage is collected outside the time. */
static double by_lpeg(int form)
{
    lua_getglobal(lua, "match");
    lua_pushvalue(lua, form);
    lua_pushvalue(lua, TEXT);
    lua_gc(lua, LUA_GCSTOP);
    double start = now();
    in_lua(2, 1);
    double taken = now() - start;
    lua_gc(lua, LUA_GCRESTART);
    return taken;
}

/* The answer of what is on top. */
static void lpeg_answer(Case *c, int form)
{
    c->answer[form] = lua_istable(lua, -1) ? 0 : GM_NO_MATCH;
    c->taken[form] = c->count[form] = 0;
    if (c->answer[form]) return;
    lua_getfield(lua, 1, forms[form]);
    lua_getfield(lua, -1, "words");
    lua_pushvalue(lua, -3);
    in_lua(1, 1);
    size_t n = (size_t)luaL_len(lua, -1);
    if (n > NODE_WORDS) die("too many nodes of", "LPeg");
    for (size_t i = 0; i < n; i++) {
        lua_rawgeti(lua, -1, (lua_Integer)i + 1);
        c->nodes[form][i] = (uint32_t)lua_tointeger(lua, -1);
        lua_pop(lua, 1);
    }
    lua_pop(lua, 2);
    c->count[form] = n / 4;
    c->taken[form] = n ? c->nodes[form][2] : 0;
}

static double once(Case *c, int peer, int look)
{
    if (peer == OURS) return ours(c);
    if (peer == TABLE) return by_table(c);
    double taken = by_lpeg(peer);
    if (look) lpeg_answer(c, peer);
    lua_pop(lua, 1);
    lua_gc(lua, LUA_GCCOLLECT);
    return taken;
}

/* ---- a case */

/* Where a peer differs from ours, and in what; NULL if nowhere. */
static const char *difference(const Case *c, const int *runs)
{
    static char said[64];
    const char *what = NULL;
    for (int peer = TABLE; peer < PEERS && !what; peer++) {
        if (!runs[peer]) continue;
        if (c->answer[peer] != c->answer[OURS])
            what = "answer";
        else if (c->taken[peer] != c->taken[OURS])
            what = "bytes taken";
        else if (c->count[peer] != c->count[OURS])
            what = "number of nodes";
        else if (memcmp(c->nodes[peer], c->nodes[OURS], c->count[OURS] * 16))
            what = "nodes";
        else if (peer == TABLE && memcmp(c->cells[0], c->cells[1], c->cell_words * sizeof(uint32_t)))
            what = "cells";
        if (what) snprintf(said, sizeof said, "%s: %s", names[peer], what);
    }
    return what ? said : NULL;
}

/* What the peers need besides the grammar: its plain text. */
static void prepare(Case *c, const int *runs, const char *name)
{
    uint64_t out[4];
    static uint8_t plain[MOST_PLAIN];
    if (gm_read(c->mode, c->grammar.at, c->grammar.len, out)) die("a grammar that is refused:", name);
    size_t symbols = out[1];
    c->cell_words = symbols * (c->text.len + 1);
    c->cells[0] = words(c->cell_words);
    if (gm_write_plain(c->mode, c->grammar.at, c->grammar.len, plain, sizeof plain, out)) die("a plain text that is too long:", name);
    if (runs[TABLE]) {
        c->table = table_read(plain, out[1]);
        if (!c->table || table_symbols(c->table) != symbols) die("the C table cannot read", name);
        c->cells[1] = words(c->cell_words);
        c->ends = words(table_repeats(c->table) * (c->text.len + 1));
    }
    lua_settop(lua, 1);
    for (int form = TREE; form < PEERS; form++) {
        lua_getfield(lua, 1, forms[form]);
        if (runs[form]) {
            lua_getfield(lua, -1, "pattern");
            lua_pushlstring(lua, (const char *)plain, out[1]);
            in_lua(1, 1);
            lua_replace(lua, -2);
        }
    }
    lua_pushlstring(lua, (const char *)c->text.at, c->text.len);
}

static void release(Case *c)
{
    free(c->cells[0]);
    free(c->cells[1]);
    free(c->ends);
    if (c->table) table_free(c->table);
    free(c->grammar.at);
    free(c->text.at);
}

/* Runs a case; `seconds` is what all its runs together should take, less than that and at least LEAST_TURNS turns, or what one long run leaves. */
static double run(Case *c, const int *runs, const char *name, const char *size, double seconds)
{
    double least[PEERS], spent = 0;
    for (int peer = 0; peer < PEERS; peer++)
        if (runs[peer]) spent += least[peer] = once(c, peer, 1);
    if (c->reads)
        printf("read %s %s %llu %llu\n", name, size, (unsigned long long)c->answer[OURS], (unsigned long long)c->taken[OURS]);
    else {
        const char *wrong = difference(c, runs);
        if (wrong)
            printf("differs %s %s %s\n", name, size, wrong);
        else
            printf("same %s %s %llu %llu\n", name, size, (unsigned long long)c->taken[OURS], (unsigned long long)c->count[OURS]);
    }
    double first = spent;
    for (int turn = 1; turn < MOST_TURNS; turn++) {
        int most = first > seconds ? FEWER : LEAST_TURNS;
        if (first > 4 * seconds || (turn >= most && spent > seconds)) break;
        for (int peer = 0; peer < PEERS; peer++) {
            if (!runs[peer]) continue;
            double taken = once(c, peer, 0);
            spent += taken;
            if (taken < least[peer]) least[peer] = taken;
        }
    }
    for (int peer = 0; peer < PEERS; peer++)
        if (runs[peer]) printf("time %s %s %s %.9f\n", name, size, names[peer], least[peer]);
    return least[OURS];
}

/* ---- the nodes of a match as JSON text */

enum { SYMBOLS = 64, TREE_TURNS = 20 };

static uint8_t *tree_room;
static size_t tree_bytes;

static double ours_writes(const Case *c)
{
    uint64_t out[4];
    double start = now();
    gm_write_json(c->mode, c->grammar.at, c->grammar.len, c->text.at, c->text.len, c->nodes[OURS], 4 * c->count[OURS], tree_room, tree_bytes, out);
    return now() - start;
}

static double stdio_prints(const Case *c, FILE *to, char (*names)[GM_NAME_MOST + 1])
{
    double start = now();
    print_tree(to, names, c->text.at, c->nodes[OURS], c->count[OURS]);
    fflush(to);
    return now() - start;
}

/* Ours writes to memory and stdio to nowhere, by turns; before that what stdio writes is compared with ours. */
static void tree(Case *c, const char *name, const char *size)
{
    static char names[SYMBOLS][GM_NAME_MOST + 1];
    uint64_t out[4];
    memset(names, 0, sizeof names);
    for (size_t r = 0; r < SYMBOLS; r++) gm_symbol_name(c->mode, c->grammar.at, c->grammar.len, r, (uint8_t *)names[r], GM_NAME_MOST, out);
    gm_write_json(c->mode, c->grammar.at, c->grammar.len, c->text.at, c->text.len, c->nodes[OURS], 4 * c->count[OURS], (uint8_t *)names, 0, out);
    tree_bytes = out[1];
    tree_room = malloc(tree_bytes + 1);
    char *printed = NULL;
    size_t length = 0;
    FILE *memory = open_memstream(&printed, &length), *nowhere = fopen("/dev/null", "w");
    if (!tree_room || !memory || !nowhere) die("no room for the tree of", name);
    print_tree(memory, names, c->text.at, c->nodes[OURS], c->count[OURS]);
    fclose(memory);
    double least[2] = {ours_writes(c), stdio_prints(c, nowhere, names)};
    if (length != tree_bytes || memcmp(printed, tree_room, length))
        printf("differs %s %s stdio: the tree as text\n", name, size);
    else
        printf("tree %s %s %zu\n", name, size, length);
    for (int turn = 1; turn < TREE_TURNS; turn++) {
        double taken[2] = {ours_writes(c), stdio_prints(c, nowhere, names)};
        for (int who = 0; who < 2; who++)
            if (taken[who] < least[who]) least[who] = taken[who];
    }
    printf("time %s:tree %s ours %.9f\ntime %s:tree %s stdio %.9f\n", name, size, least[0], name, size, least[1]);
    fclose(nowhere);
    free(printed);
    free(tree_room);
}

/* ---- the records of its nodes, and the place of the text's end */

enum { RECORD_TURNS = 50 };

/* Of no node words at all the call is refused once the grammar is prepared. */
static double ours_sums(const Case *c, size_t node_words, gm_summary *records, uint64_t out[4])
{
    double start = now();
    gm_summarise(c->mode, c->grammar.at, c->grammar.len, c->text.at, c->text.len, c->nodes[OURS], node_words, records, GM_SYMBOLS_MOST, out);
    return now() - start;
}

static double c_sums(const Case *c, gm_summary *records, size_t symbols)
{
    double start = now();
    sum_nodes(c->nodes[OURS], c->count[OURS], records, symbols);
    return now() - start;
}

/* But for what lies behind their last field. */
static int same_records(const gm_summary *a, const gm_summary *b, size_t count)
{
    for (size_t r = 0; r < count; r++)
        if (memcmp(a + r, b + r, offsetof(gm_summary, present) + sizeof a->present)) return 0;
    return 1;
}

static void lower(double *least, double taken)
{
    if (taken < *least) *least = taken;
}

static void records(const Case *c, const char *name, const char *size)
{
    static gm_summary ours[GM_SYMBOLS_MOST], theirs[GM_SYMBOLS_MOST];
    const size_t node_words = GM_NODE_WORDS * c->count[OURS], symbols = c->cell_words / (c->text.len + 1);
    uint64_t out[4], none[4];
    double least[3] = {ours_sums(c, node_words, ours, out), c_sums(c, theirs, symbols), ours_sums(c, 0, ours, none)};
    if (out[0] || out[1] != symbols || none[0] != 15 || !same_records(ours, theirs, symbols))
        printf("differs %s %s C: the records\n", name, size);
    else
        printf("records %s %s %zu\n", name, size, symbols);
    for (int turn = 1; turn < RECORD_TURNS; turn++) {
        lower(&least[0], ours_sums(c, node_words, ours, out));
        lower(&least[1], c_sums(c, theirs, symbols));
        lower(&least[2], ours_sums(c, 0, ours, none));
    }
    printf("time %s:records %s ours %.9f\ntime %s:records %s pass %.9f\n", name, size, least[0], name, size, least[1]);
    printf("time %s:records %s grammar %.9f\n", name, size, least[2]);
}

static double ours_finds(const Case *c, uint64_t out[4])
{
    double start = now();
    gm_line_and_column(c->text.at, c->text.len, c->text.len, out);
    return now() - start;
}

static double c_finds(const Case *c, uint64_t found[2])
{
    double start = now();
    find_place(c->text.at, c->text.len, found);
    return now() - start;
}

static void place(const Case *c, const char *name, const char *size)
{
    uint64_t out[4], found[2];
    double least[2] = {ours_finds(c, out), c_finds(c, found)};
    if (out[0] || out[1] != found[0] || out[2] != found[1])
        printf("differs %s %s C: line and column\n", name, size);
    else
        printf("place %s %s %llu %llu\n", name, size, (unsigned long long)found[0], (unsigned long long)found[1]);
    for (int turn = 1; turn < RECORD_TURNS; turn++) {
        lower(&least[0], ours_finds(c, out));
        lower(&least[1], c_finds(c, found));
    }
    printf("time %s:place %s ours %.9f\ntime %s:place %s loop %.9f\n", name, size, least[0], name, size, least[1]);
}

int main(int argc, char **argv)
{
    if (argc != 4) die("usage:", "measure LIST LUA SECONDS");
    const double seconds = atof(argv[3]), most = 20 * seconds;
    lua = luaL_newstate();
    luaL_openlibs(lua);
    luaL_requiref(lua, "lpeg", luaopen_lpeg, 0);
    lua_getfield(lua, -1, "match");
    lua_setglobal(lua, "match");
    lua_settop(lua, 0);
    if (luaL_loadfile(lua, argv[2]) != LUA_OK) die("lua:", lua_tostring(lua, -1));
    in_lua(0, 1);

    uint32_t *nodes[PEERS];
    for (int peer = 0; peer < PEERS; peer++) nodes[peer] = words(NODE_WORDS);
    FILE *list = fopen(argv[1], "r");
    if (!list) die("cannot open", argv[1]);
    char kind[8], name[64], size[16], mode[8], first[512], second[512], peers[8], last[64] = "";
    double before = 0, times = 1; /* of this name: the last size's time and its growth */
    while (fscanf(list, "%7s %63s %15s %7s %511s %511s %7s", kind, name, size, mode, first, second, peers) == 7) {
        if (strcmp(last, name)) before = 0, times = 16; /* a guess: quadratic in four times the text */
        strcpy(last, name);
        if (before < 0 || before * times > most) {
            printf("over %s %s\n", name, size);
            before = -1;
            continue;
        }
        Case c = {.reads = !strcmp(kind, "read"), .mode = strcmp(mode, "lake") ? GM_PLAIN : GM_LAKE};
        int runs[PEERS];
        for (int peer = 0; peer < PEERS; peer++) {
            runs[peer] = strchr(peers, letters[peer]) != NULL;
            c.nodes[peer] = nodes[peer];
        }
        if (c.reads)
            c.text = contents(first);
        else {
            c.grammar = contents(first);
            c.text = contents(second);
            prepare(&c, runs, name);
        }
        double taken = run(&c, runs, name, size, seconds);
        if (runs[FLAT] && !c.answer[OURS]) {
            tree(&c, name, size);
            records(&c, name, size);
            place(&c, name, size);
        }
        times = before > 0 ? taken / before : 16;
        before = taken;
        release(&c);
        fflush(stdout);
    }
    fclose(list);
    return 0;
}
