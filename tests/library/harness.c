/* harness [THREADS | paint] < QUESTIONS: answers replay's lines (crates/replay/src/main.rt) through the library, one line each; `unreadable` for what is no question.
   MODE may be a byte's number too, and there is one question more, of where the text of a node is:
     span INPUT WORDS NODE    span START LENGTH
   Guard bytes stand on both sides of everything lent and read; a call that changes one, or more of a room than it may, is answered by `broken`.
   With THREADS so many threads answer all the questions at once, each on STACK_KIB of stack; their answers must be the same.
   With `paint` one thread answers on a wide stack that is painted before each question; the most that each kind of question has used of it, in bytes, is
   printed on the error stream, with what the harness needs itself (some 2,000 bytes). */
#include <pthread.h>
#include <stdbool.h>
#include <stdio.h>
#include <stdlib.h>
#include <string.h>
#include "gurkenmond.h"

enum { STACK = STACK_KIB << 10, WIDE = 4 << 20, GUARD = 32, PAINT = 0x5A, KINDS = 16, GUARD_BYTE = 0xA5, ROOM_BYTE = 0xEE, FIELDS = 8, RECORDS = 96, BEHIND = offsetof(gm_summary, present) + 1 };
static const uint32_t FRESH = 3735928559u;
/* A record as it is lent: of one node and absent, which no symbol is. What lies behind `present` is no part of it. */
static const uint8_t MARK[sizeof(gm_summary)] = {1, [BEHIND] = ROOM_BYTE, ROOM_BYTE, ROOM_BYTE, ROOM_BYTE, ROOM_BYTE, ROOM_BYTE, ROOM_BYTE};
_Static_assert(sizeof(gm_summary) == 40 && BEHIND == 33, "a record has 40 bytes");

/* ── what is printed ── */
typedef struct { char *at; size_t length, room; } Text;
static void put(Text *t, const char *bytes, size_t n) {
    if (t->room < t->length + n) t->at = realloc(t->at, t->room = 2 * (t->length + n));
    memcpy(t->at + t->length, bytes, n), t->length += n;
}
static void say(Text *t, const char *word) { put(t, word, strlen(word)); }
static void number(Text *t, uint64_t n) { char s[24]; put(t, s, (size_t)sprintf(s, " %llu", (unsigned long long)n)); }

/* ── what is lent ── */
typedef struct { uint8_t *at; size_t bytes; } Lent;
static Lent lend(size_t bytes) {
    uint8_t *all = malloc(bytes + 2 * GUARD);
    memset(all, GUARD_BYTE, bytes + 2 * GUARD);
    return (Lent){all + GUARD, bytes};
}
static Lent lend_words(size_t count) {
    Lent l = lend(4 * count);
    for (size_t i = 0; i < count; i++) ((uint32_t *)l.at)[i] = FRESH;
    return l;
}
static Lent lend_records(size_t count) {
    Lent l = lend(sizeof MARK * count);
    for (size_t i = 0; i < count; i++) memcpy(l.at + sizeof MARK * i, MARK, sizeof MARK);
    return l;
}
static bool kept(Lent l) {
    for (size_t i = 0; i < GUARD; i++) if (l.at[-1 - (long)i] != GUARD_BYTE || l.at[l.bytes + i] != GUARD_BYTE) return false;
    return true;
}
static void take_back(Lent l) { free(l.at - GUARD); }
static void say_words(Text *t, const char *label, Lent l) {
    say(t, label);
    for (size_t i = 0; i < l.bytes / 4; i++) number(t, ((uint32_t *)l.at)[i]);
}
/* A record that is as it was lent, with what is no part of it, is `x`. */
static void say_records(Text *t, Lent l) {
    say(t, " ; records");
    for (size_t i = 0; i < l.bytes; i += sizeof MARK) {
        gm_summary r;
        if (!memcmp(l.at + i, MARK, sizeof MARK)) { say(t, " x"); continue; }
        memcpy(&r, l.at + i, sizeof r);
        const uint64_t rest[] = {r.bytes, r.first, r.last, r.present};
        number(t, r.nodes);
        for (int k = 0; k < 4; k++) { char s[24]; put(t, s, (size_t)sprintf(s, ":%llu", (unsigned long long)rest[k])); }
    }
}

/* ── fields ── */
static int digit(char c) { return c >= '0' && c <= '9' ? c - '0' : c >= 'a' && c <= 'f' ? c - 'a' + 10 : -1; }
static bool hex(const char *f, Lent *l) {
    size_t n = strcmp(f, "-") ? strlen(f) : 0;
    if (n % 2 || (!n && strcmp(f, "-"))) return false;
    for (size_t i = 0; i < n; i++) if (digit(f[i]) < 0) return false;
    *l = lend(n / 2);
    for (size_t i = 0; i < n / 2; i++) l->at[i] = (uint8_t)(16 * digit(f[2 * i]) + digit(f[2 * i + 1]));
    return true;
}
static bool decimal(const char *f, uint64_t *n) {
    if (!*f || strlen(f) > 20) return false;
    for (*n = 0; *f; f++) { if (*f < '0' || *f > '9') return false; *n = 10 * *n + (uint64_t)(*f - '0'); }
    return true;
}
/* As replay reads a number: any digits, up to the most. */
static bool at_most(const char *f, uint64_t most, uint64_t *n) {
    if (!*f) return false;
    for (*n = 0; *f; f++) { if (*f < '0' || *f > '9' || (*n = 10 * *n + (uint64_t)(*f - '0')) > most) return false; }
    return true;
}
static bool mode_of(const char *f, uint8_t *mode) {
    uint64_t n = 256;
    if (!strcmp(f, "lake")) n = GM_LAKE; else if (!strcmp(f, "plain")) n = GM_PLAIN; else if (!decimal(f, &n)) n = 256;
    return *mode = (uint8_t)n, n < 256;
}
static bool words(const char *f, Lent *l) {
    size_t n = strcmp(f, "-") != 0;
    for (const char *c = f; *c; c++) n += *c == ',';
    *l = lend_words(n);
    for (size_t i = 0; i < n; i++) {
        char *end;
        unsigned long long word = strtoull(f, &end, 10);
        if (digit(*f) < 0 || digit(*f) > 9 || word > UINT32_MAX || *end != (i + 1 < n ? ',' : 0)) return take_back(*l), false;
        ((uint32_t *)l->at)[i] = (uint32_t)word, f = end + 1;
    }
    return true;
}

/* A question: its kind and fields, what it lends, and the numbers that come back. */
typedef struct {
    char *field[FIELDS];
    int fields;
    uint8_t mode;
    uint64_t number[3], *out;
    Lent lent[4], before[4];
    int lents;
} Question;

/* Keeps what is only read, to compare it after the call. */
static void keep(Question *q) { Lent l = q->lent[q->lents - 1], copy = lend(l.bytes); memcpy(copy.at, l.at, l.bytes); q->before[q->lents - 1] = copy; }
/* How the fields behind the kind are read: m mode, b bytes, w words (both only read), c lent words, r lent bytes, s lent records, n a number, p a position. */
static bool fields(Question *q, const char *shape) {
    int numbers = 0;
    if (q->fields != (int)strlen(shape) + 1) return false;
    for (int i = 0; shape[i]; i++) {
        const char *f = q->field[i + 1];
        uint64_t n = 0;
        Lent *next = &q->lent[q->lents];
        bool good = shape[i] == 'm' ? mode_of(f, &q->mode) : shape[i] == 'b' ? hex(f, next) : shape[i] == 'w' ? words(f, next)
            : shape[i] == 's' ? at_most(f, RECORDS, &n) : shape[i] == 'p' ? at_most(f, UINT32_MAX, &n) : decimal(f, &n);
        if (!good) return false;
        if (strchr("np", shape[i])) q->number[numbers++] = n;
        if (shape[i] == 'c') *next = lend_words(n);
        if (shape[i] == 'r') *next = lend(n), memset(next->at, ROOM_BYTE, n);
        if (shape[i] == 's') *next = lend_records(n);
        if (strchr("bwcrs", shape[i])) q->lents++;
        if (strchr("bw", shape[i])) keep(q);
    }
    return true;
}
static bool whole(const Question *q) {
    for (int i = 0; i < q->lents; i++) {
        if (!kept(q->lent[i])) return false;
        if (q->before[i].at && memcmp(q->lent[i].at, q->before[i].at, q->lent[i].bytes)) return false;
    }
    return true;
}
static void refused(Text *t, const uint64_t *out) { say(t, "refused"), number(t, out[0]), number(t, out[1]); }

#define BYTES(i) q->lent[i].at, q->lent[i].bytes
#define WORDS(i) (uint32_t *)q->lent[i].at, q->lent[i].bytes / 4
#define SUMMARIES(i) (gm_summary *)q->lent[i].at, q->lent[i].bytes / sizeof(gm_summary)

static void say_bytes(Text *t, const uint8_t *bytes, size_t n) {
    say(t, n ? "text " : "text -");
    for (size_t i = 0; i < n; i++) { char s[3]; sprintf(s, "%02x", bytes[i]), put(t, s, 2); }
}
static bool written(Text *t, Question *q, uint64_t code) {
    Lent room = q->lent[q->lents - 1];
    size_t n = code ? 0 : q->out[1];
    for (size_t i = n; i < room.bytes; i++) if (room.at[i] != ROOM_BYTE) return false;
    if (code) refused(t, q->out); else say_bytes(t, room.at, n);
    return true;
}
/* Whether the line is a question; its answer is put behind the text. `same` is false where a call returned something else than out[0], or touched too much. */
static bool ask(Text *t, Question *q, bool *same) {
    const char *kind = q->field[0];
    uint64_t *out = q->out, code;
    if (!strcmp(kind, "read") && fields(q, "mb")) {
        if ((code = gm_read(q->mode, BYTES(0), out))) refused(t, out);
        else { say(t, "read"); for (int i = 1; i < 4; i++) number(t, out[i]); }
    } else if (!strcmp(kind, "sets") && fields(q, "mbn")) {
        if ((code = gm_sets(q->mode, BYTES(0), q->number[0], out))) refused(t, out);
        else { say(t, "sets"); for (int i = 2; i < 9; i++) number(t, out[i]); number(t, out[1]); }
    } else if (!strcmp(kind, "skip") && fields(q, "mb")) {
        if ((code = gm_cannot_skip(q->mode, BYTES(0), out))) refused(t, out);
        else { say(t, "skip"); for (uint64_t i = 0; i < 64; i++) if (out[1] >> i & 1) number(t, i); }
    } else if (!strcmp(kind, "match") && fields(q, "mbbcc")) {
        code = gm_match(q->mode, BYTES(0), BYTES(1), WORDS(2), WORDS(3), out);
        if (code == GM_NO_MATCH) say(t, "none"); else if (code) refused(t, out); else say(t, "match"), number(t, out[1]);
        say_words(t, " ; cells", q->lent[2]), say_words(t, " ; nodes", q->lent[3]);
    } else if (!strcmp(kind, "lake") && fields(q, "mbbcnn")) {
        code = gm_lake_at(q->mode, BYTES(0), BYTES(1), WORDS(2), q->number[0], q->number[1], out);
        if (code) refused(t, out); else say(t, "value"), number(t, out[1]);
        say_words(t, " ; cells", q->lent[2]);
    } else if (!strcmp(kind, "own") && fields(q, "mbr")) {
        code = gm_write_own(q->mode, BYTES(0), BYTES(1), out);
        if (!written(t, q, code)) *same = false;
    } else if (!strcmp(kind, "plain") && fields(q, "mbr")) {
        code = gm_write_plain(q->mode, BYTES(0), BYTES(1), out);
        if (!written(t, q, code)) *same = false;
    } else if (!strcmp(kind, "name") && fields(q, "mbnr")) {
        code = gm_symbol_name(q->mode, BYTES(0), q->number[0], BYTES(1), out);
        if (!written(t, q, code)) *same = false;
    } else if (!strcmp(kind, "json") && fields(q, "mbbwr")) {
        code = gm_write_json(q->mode, BYTES(0), BYTES(1), WORDS(2), BYTES(3), out);
        if (!written(t, q, code)) *same = false;
    } else if (!strcmp(kind, "unjson") && fields(q, "mbbbc")) {
        code = gm_read_json(q->mode, BYTES(0), BYTES(1), BYTES(2), WORDS(3), out);
        if (code) refused(t, out); else say(t, "nodes"), number(t, out[1]);
        say_words(t, " ; nodes", q->lent[3]);
    } else if (!strcmp(kind, "summary") && fields(q, "mbbws")) {
        code = gm_summarise(q->mode, BYTES(0), BYTES(1), WORDS(2), SUMMARIES(3), out);
        if (code) refused(t, out); else say(t, "summary"), number(t, out[1]);
        say_records(t, q->lent[3]);
    } else if (!strcmp(kind, "where") && fields(q, "bp")) {
        if ((code = gm_line_and_column(BYTES(0), q->number[0], out))) refused(t, out);
        else say(t, "at"), number(t, out[1]), number(t, out[2]);
    } else if (!strcmp(kind, "sound") && fields(q, "wnn")) {
        code = gm_node_sound(WORDS(0), q->number[0], q->number[1], out);
        say(t, "sound"), number(t, out[1]);
    } else if (!strcmp(kind, "text") && fields(q, "bwn")) {
        code = gm_node_text(BYTES(0), WORDS(1), q->number[0], out);
        if (out[1] > q->lent[0].bytes || out[2] > q->lent[0].bytes - out[1]) *same = false; else say_bytes(t, q->lent[0].at + out[1], out[2]);
    } else if (!strcmp(kind, "span") && fields(q, "bwn")) {
        code = gm_node_text(BYTES(0), WORDS(1), q->number[0], out);
        say(t, "span"), number(t, out[1]), number(t, out[2]);
    } else return false;
    if (code != out[0]) *same = false;
    return true;
}
static void answer(Text *t, char *line) {
    Question q = {0};
    for (char *f = line; f && q.fields < FIELDS; f = strchr(f, ' '), f = f ? (*f = 0, f + 1) : f) q.field[q.fields++] = f;
    Lent out = lend(8 * (strcmp(line, "sets") ? 4 : 9));
    q.out = (uint64_t *)out.at;
    size_t start = t->length;
    bool same = true, question = ask(t, &q, &same);
    if (question && !(same && whole(&q) && kept(out))) t->length = start, say(t, "broken");
    if (!question) say(t, "unreadable");
    say(t, "\n");
    for (int i = 0; i < q.lents; i++) { take_back(q.lent[i]); if (q.before[i].at) take_back(q.before[i]); }
    take_back(out);
}

/* ── the stack ── */
static uint8_t *painted;
static struct { char kind[16]; size_t most; } used[KINDS];
/* All below the frame that asks; the call's own frames are built on it. */
static void __attribute__((noinline)) paint(void) {
    uint8_t here;
    memset(painted, PAINT, (size_t)(&here - painted) - 1024);
}
static void look(const char *kind) {
    uint8_t here, *low = painted;
    int i = 0;
    while (*low == PAINT) low++;
    while (used[i].kind[0] && strcmp(used[i].kind, kind)) i++;
    strcpy(used[i].kind, kind);
    if (used[i].most < (size_t)(&here - low)) used[i].most = (size_t)(&here - low);
}

static Text questions;
static void *answer_all(void *into) {
    Text *t = into;
    char *copy = malloc(questions.length + 1), *line = copy;
    memcpy(copy, questions.at, questions.length), copy[questions.length] = 0;
    for (char *end; (end = strchr(line, '\n')); line = end + 1) {
        *end = 0;
        if (painted) paint();
        answer(t, line);
        if (painted) look(line);
    }
    return free(copy), NULL;
}
int main(int count, char **words) {
    char chunk[65536];
    for (size_t n; (n = fread(chunk, 1, sizeof chunk, stdin));) put(&questions, chunk, n);
    bool paints = count > 1 && !strcmp(words[1], "paint");
    int threads = count > 1 && !paints ? atoi(words[1]) : 1;
    pthread_t id[16];
    Text said[16] = {{0}};
    pthread_attr_t narrow;
    pthread_attr_init(&narrow), pthread_attr_setstacksize(&narrow, STACK);
    if (paints) painted = aligned_alloc(4096, WIDE), pthread_attr_setstack(&narrow, painted, WIDE);
    if (threads < 1 || threads > 16) return 2;
    for (int i = 0; i < threads; i++) if (pthread_create(&id[i], &narrow, answer_all, &said[i])) return 2;
    for (int i = 0; i < threads; i++) pthread_join(id[i], NULL);
    for (int i = 1; i < threads; i++)
        if (said[i].length != said[0].length || memcmp(said[i].at, said[0].at, said[0].length)) return puts("threads differ"), 1;
    fwrite(said[0].at, 1, said[0].length, stdout);
    for (int i = 0; i < KINDS && used[i].kind[0]; i++) fprintf(stderr, "%s %zu\n", used[i].kind, used[i].most);
    return 0;
}
