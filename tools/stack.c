/* Measures the stack that each exported call takes. The calls are made on a thread whose stack this program lends and
 * has filled with a pattern: what differs from it afterwards was touched. Then they are made once more with no more
 * stack left than the header says, and memory below it that may not be touched. Prints a line for each call, the most
 * bytes touched and those that the header allows, and a last line; messages go to the error stream. */
#define _DEFAULT_SOURCE
#include <pthread.h>
#include <stdio.h>
#include <stdlib.h>
#include <string.h>
#include <sys/mman.h>

#include "boltmarrow.h"

/* The lent stack, and the fence below it, memory that may not be touched; what a thread uses up before it makes a call,
 * so that what the C library does on the stack at a thread's start and end is not counted. */
enum { STACK = 512 * 1024, FENCE = 64 * 1024, SPARE = 64 * 1024, ADDRESS = 8, ALIGNED = 16 };
enum { RULES = 512, TOKENS = 512, PRODS = 4096, SYMBOLS = 16384, ROOM = 65536, RULE = 32768 };

static void fail(const char *what) {
    fprintf(stderr, "stack: %s\n", what);
    exit(2);
}

/* A grammar, well formed or not. */
typedef struct {
    uint16_t rules;
    size_t prods, symbols_len, tokens;
    uint16_t owners[PRODS], starts[PRODS + 1], symbols[SYMBOLS];
    uint8_t costs[TOKENS];
} grammar;

/* What a call is asked: the grammar and all numbers that some call takes. `cut` is what each table lacks. */
typedef struct {
    const grammar *g;
    uint16_t rule, token, prod, kind, mode, version;
    uint32_t k, n;
    size_t cut, marks, row, entries, room, file;
} ask;

/* The lent lists. `file` is the block file that is read, into the lists of `got`; `bytes` is where one is written. */
static uint32_t first[RULES * 16], follow[RULES * 16], empty[16], reached[16], productive[16];
static uint32_t cost[RULES], lengths[RULES], counts[RULES];
static uint16_t out[ROOM];
static uint8_t file[98 * 512], bytes[98 * 512];
static grammar got;

/* Each call twice, as function make_NAME and none_NAME: with the library's function, and with one in its place that
 * returns at once. The two have the same frame and the same arguments, so that what they touch differs by what the
 * library takes. The empty function returns its first argument, where a caller may look for an answer that is long. */
#define CALL(NAME, ...)                                                                                                \
    __asm__(".text\nempty_" #NAME ":\n\tmovq %rdi, %rax\n\tret\n");                                                    \
    __typeof__(boltmarrow_##NAME) empty_##NAME __asm__("empty_" #NAME);                                                \
    static uint32_t make_##NAME(const ask *a) {                                                                        \
        (void)a;                                                                                                       \
        return boltmarrow_##NAME(__VA_ARGS__).refusal;                                                                 \
    }                                                                                                                  \
    static uint32_t none_##NAME(const ask *a) {                                                                        \
        (void)a;                                                                                                       \
        return empty_##NAME(__VA_ARGS__).refusal;                                                                      \
    }

#define G                                                                                                              \
    a->g->rules, a->g->owners, a->g->prods, a->g->starts, a->g->prods + 1, a->g->symbols, a->g->symbols_len,           \
        a->g->costs, a->g->tokens
#define R (boltmarrow_ridx){a->rule}
#define T (boltmarrow_tidx){a->token}
#define P (boltmarrow_pidx){a->prod}
#define FIRST first, a->marks, empty, a->row
#define FOLLOW follow, a->marks
#define REACHED reached, a->row
#define COST cost, a->entries
#define LENGTHS lengths, a->entries
#define COUNTS counts, a->entries
#define JOB (&(boltmarrow_job){.kind = a->kind})
#define READ got.owners, PRODS - a->cut, got.starts, PRODS + 1, got.symbols, SYMBOLS, got.costs, TOKENS
#define HOUSE(NAME) BOLTMARROW_HOUSE_##NAME - a->cut

CALL(check, G)
CALL(production, G, P)
CALL(mark, G, first, a->marks, R, T)
CALL(rule_mark, G, empty, a->row, R)
CALL(first_clear, G, FIRST)
CALL(first_visit, G, P, FIRST)
CALL(first_fill, G, FIRST)
CALL(has_path, G, R, (boltmarrow_ridx){a->token})
CALL(productive_clear, G, productive, a->row)
CALL(productive_visit, G, P, productive, a->row)
CALL(productive_fill, G, productive, a->row)
CALL(cost_clear, G, COST)
CALL(cost_visit, G, P, COST)
CALL(cost_fill, G, COST)
CALL(min_sentence_cost, G, R, COST)
CALL(dearest_fill, G, COST)
CALL(reached_fill, G, REACHED)
CALL(follow_clear, G, FOLLOW)
CALL(follow_visit, G, a->mode, P, FOLLOW, FIRST, REACHED)
CALL(follow_fill, G, a->mode, FOLLOW, FIRST, REACHED)
CALL(profile, G, FOLLOW, FIRST, REACHED)
CALL(slice, JOB, G, a->n, FIRST, FOLLOW, productive, a->row, COST, REACHED)
CALL(min_sentence, G, R, COST, LENGTHS, out, a->room)
CALL(count_min_sentences, G, R, COST, LENGTHS, COUNTS)
CALL(min_sentence_at, G, R, a->k, COST, LENGTHS, COUNTS, out, a->room)
CALL(read_blocks, file, a->file, READ)
CALL(write_blocks, G, a->version, bytes, a->room < sizeof bytes ? a->room : sizeof bytes)
CALL(house_check, )
CALL(house_first_fill, first, HOUSE(FIRST_WORDS), empty, HOUSE(EMPTY_WORDS))
CALL(house_first, first, HOUSE(FIRST_WORDS), R, T)
CALL(house_empty, empty, HOUSE(EMPTY_WORDS), R)
CALL(house_cost_fill, cost, HOUSE(RULES))
CALL(house_cost, R, cost, HOUSE(RULES))
CALL(house_row, cost, HOUSE(RULES), lengths, HOUSE(RULES), out, a->room)

/* The calls, and how many bytes the header allows each; a KB is taken for 1000. */
#define ROW(NAME, ALLOWED) {#NAME, ALLOWED, make_##NAME, none_##NAME}
static const struct {
    const char *name;
    size_t allowed;
    uint32_t (*make)(const ask *), (*none)(const ask *);
} calls[] = {
    ROW(check, 1000),
    ROW(production, 1000),
    ROW(mark, 1000),
    ROW(rule_mark, 1000),
    ROW(first_clear, 1000),
    ROW(first_visit, 1000),
    ROW(first_fill, 1500),
    ROW(has_path, 12000),
    ROW(productive_clear, 1000),
    ROW(productive_visit, 1000),
    ROW(productive_fill, 1500),
    ROW(cost_clear, 1000),
    ROW(cost_visit, 1000),
    ROW(cost_fill, 1500),
    ROW(min_sentence_cost, 1500),
    ROW(dearest_fill, 1000),
    ROW(reached_fill, 12000),
    ROW(follow_clear, 1000),
    ROW(follow_visit, 1000),
    ROW(follow_fill, 12000),
    ROW(profile, 47000),
    ROW(slice, 1250),
    ROW(min_sentence, 125000),
    ROW(count_min_sentences, 165000),
    ROW(min_sentence_at, 290000),
    ROW(read_blocks, 1000),
    ROW(write_blocks, 1000),
    ROW(house_check, 2000),
    ROW(house_first_fill, 2000),
    ROW(house_first, 2000),
    ROW(house_empty, 2000),
    ROW(house_cost_fill, 2000),
    ROW(house_cost, 2000),
    ROW(house_row, 17000),
};
enum { CALLS = sizeof calls / sizeof calls[0] };

/* Grammars are built production by production, rule 0's first; each token costs 1, and eof nothing. */
static grammar *begin(uint16_t rules, size_t tokens) {
    grammar *g = calloc(1, sizeof *g);
    if (!g) fail("no memory");
    g->rules = rules, g->tokens = tokens;
    memset(g->costs, 1, tokens - 1);
    return g;
}

static void add(grammar *g, unsigned owner, size_t len, const uint16_t *form) {
    memcpy(g->symbols + g->symbols_len, form, 2 * len);
    g->symbols_len += len;
    g->owners[g->prods++] = (uint16_t)owner;
    g->starts[g->prods] = (uint16_t)g->symbols_len;
}

#define ADD(g, owner, ...) add(g, owner, sizeof((uint16_t[]){__VA_ARGS__}) / 2, (uint16_t[]){__VA_ARGS__})

/* Rules 0 up to `end`, each the next rule and then so many tokens; rule 0 is the next alone. */
static grammar *chain(unsigned end, size_t tokens) {
    uint16_t form[32] = {0};
    grammar *g = begin(RULES, TOKENS);
    for (unsigned r = 0; r < end; r++) {
        form[0] = (uint16_t)(RULE + r + 1);
        add(g, r, r ? 1 + tokens : 1, form);
    }
    return g;
}

/* 512 levels: one sentence; with 30 tokens at each level; the last 15 rules doubled, which are copied. */
static grammar *plain_chain(size_t tokens) {
    grammar *g = chain(RULES - 1, tokens);
    ADD(g, RULES - 1, 0);
    return g;
}

static grammar *doubled(void) {
    grammar *g = chain(RULES - 16, 0);
    for (unsigned r = RULES - 16; r < RULES - 1; r++) ADD(g, r, (uint16_t)(RULE + r + 1), (uint16_t)(RULE + r + 1));
    ADD(g, RULES - 1, 0);
    return g;
}

/* 512 levels, the last rule with two sentences: a choice at each level; the last but one a form of that twice over, so
 * that its number 2 asks for the last rule's number 0; the last but one with 15 places, 32768 sentences. */
static grammar *choices(void) {
    grammar *g = plain_chain(0);
    ADD(g, RULES - 1, 1);
    return g;
}

static grammar *forked(void) {
    grammar *g = choices();
    ADD(g, RULES - 2, RULE + RULES - 1);
    return g;
}

static grammar *places(void) {
    uint16_t form[15];
    grammar *g = chain(RULES - 2, 0);
    for (int i = 0; i < 15; i++) form[i] = RULE + RULES - 1;
    add(g, RULES - 2, 15, form);
    ADD(g, RULES - 1, 0);
    ADD(g, RULES - 1, 1);
    return g;
}

/* Rule 1 is itself or a token: its count is looked for through all levels. The other rules are a token. */
static grammar *circular(void) {
    grammar *g = begin(RULES, TOKENS);
    ADD(g, 0, RULE + 1);
    ADD(g, 1, RULE + 1);
    for (unsigned r = 1; r < RULES; r++) ADD(g, r, 0);
    return g;
}

/* At all limits, the symbols by a generator with a fixed seed. */
static grammar *largest(void) {
    uint32_t seed = 2463534242u;
    uint16_t form[5];
    grammar *g = begin(RULES, TOKENS);
    ADD(g, 0, RULE + 1);
    while (g->prods < PRODS) {
        for (int i = 0; i < 5; i++) {
            seed ^= seed << 13, seed ^= seed >> 17, seed ^= seed << 5;
            form[i] = (uint16_t)(seed & 64 ? RULE + 1 + (seed >> 8) % (RULES - 1) : (seed >> 8) % (TOKENS - 1));
        }
        add(g, (unsigned)(1 + g->prods % (RULES - 1)), g->prods < 4 ? 5 : 4, form);
    }
    return g;
}

/* Each rule is nothing, or a token, or the next 30 rules: all can vanish. */
static grammar *vanishing(void) {
    uint16_t form[30];
    grammar *g = begin(RULES, TOKENS);
    ADD(g, 0, RULE + 1);
    for (unsigned r = 1; r < RULES; r++) {
        for (unsigned i = 0; i < 30; i++) form[i] = (uint16_t)(RULE + 1 + (r + i) % (RULES - 1));
        add(g, r, 0, form);
        ADD(g, r, (uint16_t)(r - 1));
        add(g, r, 30, form);
    }
    return g;
}

/* Two rules, the fewest. */
static grammar *smallest(void) {
    grammar *g = begin(2, 2);
    ADD(g, 0, RULE + 1);
    ADD(g, 1, 0);
    return g;
}

/* A chain that is refused with 1, 2 and so on up to 6. */
static grammar *refused(int with) {
    grammar *g = plain_chain(0);
    if (with == 1) g->rules = 1;
    if (with == 2) g->starts[0] = 1;
    if (with == 3) g->owners[PRODS / 16] = RULES;
    if (with == 4) g->owners[RULES - 1] = 1;
    if (with == 5) g->symbols[RULES - 1] = TOKENS - 1;
    if (with == 6) g->symbols[0] = 0;
    return g;
}

enum { WELL = 10, GRAMMARS = WELL + 6 };
static grammar *grammars[GRAMMARS];

/* The grammars; each has to be refused, or not, as it is meant to be. */
static void build(void) {
    grammar *well[WELL] = {plain_chain(0), plain_chain(30), doubled(), choices(),   forked(),
                           places(),       circular(),      largest(), vanishing(), smallest()};
    memcpy(grammars, well, sizeof well);
    for (int i = 0; i < 6; i++) grammars[WELL + i] = refused(i + 1);
    for (int i = 0; i < GRAMMARS; i++) {
        ask a = {.g = grammars[i]};
        if (make_check(&a) != (uint32_t)(i < WELL ? 0 : i - WELL + 1)) fail("a grammar is not what it should be");
    }
}

/* What each call is asked on each grammar. A number's place is 0, 1, in the middle, the last or behind it. */
enum { MIDDLE = 2, LAST = 3, BEHIND = 4 };
static const struct {
    int rule, token, prod;
    uint16_t kind, mode, version;
    uint32_t k, n;
    size_t cut, room;
} ways[] = {
    {0, 0, 0, 0, 2, 1, 0, 100000, 0, ROOM},
    {0, 1, 1, 2, 2, 2, 1, 100000, 0, ROOM},
    {0, MIDDLE, MIDDLE, 3, 2, 1, 2, 100000, 0, ROOM},
    {0, LAST, LAST, 4, 2, 2, 3, 100000, 0, ROOM},
    {0, 0, 0, 0, 2, 1, 32766, 1, 0, ROOM},
    {0, 1, 1, 2, 2, 2, 32767, 0, 0, 0},
    {1, 1, 1, 3, 2, 1, 65535, 1, 0, 1},
    {MIDDLE, 0, MIDDLE, 4, 2, 2, 1, 1, 0, ROOM},
    {LAST, 0, LAST, 0, 2, 1, 1, 1, 0, ROOM},
    {BEHIND, 0, BEHIND, 1, 1, 3, 0, 1, 0, ROOM},
    {0, BEHIND, 0, 5, 0, 0, 4294967295, 4294967295, 0, ROOM},
    {0, 0, 0, 0, 2, 1, 0, 1, 1, ROOM},
};
enum { WAYS = sizeof ways / sizeof ways[0] };

static uint16_t at(int place, size_t n) {
    return (uint16_t)(place < MIDDLE ? (size_t)place : place == MIDDLE ? n / 2 : place == LAST ? n - 1 : n);
}

static ask asked(const grammar *g, int way, size_t file_len) {
    size_t cut = ways[way].cut;
    ask a = {.g = g, .kind = ways[way].kind, .mode = ways[way].mode, .version = ways[way].version};
    a.rule = at(ways[way].rule, g->rules), a.token = at(ways[way].token, g->tokens);
    a.prod = at(ways[way].prod, g->prods);
    a.k = ways[way].k, a.n = ways[way].n, a.cut = cut, a.room = ways[way].room;
    a.marks = g->rules * ((g->tokens + 31) / 32) - cut, a.row = (g->rules + 31u) / 32 - cut;
    a.entries = g->rules - cut, a.file = file_len - (file_len ? cut : 0);
    return a;
}

/* The lent stack, from its lowest byte on; and what a thread does on it: all ways of one call on one grammar, with so
 * many bytes used up before. */
static uint8_t *lent;
typedef struct {
    uint32_t (*make)(const ask *);
    const ask *asks;
    size_t used;
} run;

static void *on_lent(void *arg) {
    const run *r = arg;
    volatile uint8_t used[r->used];
    used[0] = 0;
    for (int i = 0; i < WAYS; i++) r->make(r->asks + i);
    return used[0] ? arg : NULL;
}

static void lend(void) {
    uint8_t *from = mmap(NULL, FENCE + STACK, PROT_READ | PROT_WRITE, MAP_PRIVATE | MAP_ANONYMOUS, -1, 0);
    if (from == MAP_FAILED || mprotect(from, FENCE, PROT_NONE)) fail("no memory to lend");
    lent = from + FENCE;
}

/* How many bytes at the low end a thread left as the pattern is. */
static size_t kept(run r, uint8_t pattern) {
    pthread_t thread;
    pthread_attr_t attributes;
    size_t n = 0;
    memset(lent, pattern, STACK);
    if (pthread_attr_init(&attributes) || pthread_attr_setstack(&attributes, lent, STACK)) fail("no thread of its own");
    if (pthread_create(&thread, &attributes, on_lent, &r) || pthread_join(thread, NULL)) fail("no thread of its own");
    pthread_attr_destroy(&attributes);
    while (n < STACK && lent[n] == pattern) n++;
    return n;
}

/* How many bytes at the low end a thread did not touch. It may write a byte that is equal to one pattern, not both. */
static size_t untouched(uint32_t (*make)(const ask *), const ask *asks, size_t used) {
    run r = {make, asks, used};
    size_t one = kept(r, 0xA5), two = kept(r, 0x5A);
    return one < two ? one : two;
}

/* The most bytes that a call touched, its return address included, which an empty call has too. */
static size_t touched(int call, const ask *asks) {
    return untouched(calls[call].none, asks, SPARE) + ADDRESS - untouched(calls[call].make, asks, SPARE);
}

/* Makes the call with as many bytes left as the header allows, or up to 15 more: an empty call shows how many. */
static void limited(int call, const ask *asks) {
    size_t allowed = calls[call].allowed;
    size_t left = untouched(calls[call].none, asks, SPARE) + ADDRESS;
    size_t used = SPARE + (left - allowed) / ALIGNED * ALIGNED;
    left = untouched(calls[call].none, asks, used) + ADDRESS;
    if (left < allowed || left >= allowed + ALIGNED) fail("the stack is not limited as it should be");
    untouched(calls[call].make, asks, used);
}

/* The asks on a grammar, the tables filled and its block file written. */
static void prepare(const grammar *g, ask *asks) {
    ask a = asked(g, 0, 0);
    make_cost_fill(&a), make_productive_fill(&a), make_follow_fill(&a);
    boltmarrow_answer written =
        boltmarrow_write_blocks(g->rules, g->owners, g->prods, g->starts, g->prods + 1, g->symbols, g->symbols_len,
                                g->costs, g->tokens, 1, file, sizeof file);
    for (int i = 0; i < WAYS; i++) asks[i] = asked(g, i, written.value);
}

int main(void) {
    static size_t most[CALLS];
    static ask asks[WAYS];
    int over = 0;
    lend(), build();
    for (int c = 0; c < CALLS; c++) {
        for (int i = 0; i < GRAMMARS; i++) {
            prepare(grammars[i], asks);
            size_t n = touched(c, asks);
            if (n > most[c]) most[c] = n;
        }
        printf("%s %zu of %zu\n", calls[c].name, most[c], calls[c].allowed);
        over |= most[c] > calls[c].allowed;
    }
    if (over) {
        fputs("stack: a call takes more than the header says\n", stderr);
        return 1;
    }
    for (int c = 0; c < CALLS; c++)
        for (int i = 0; i < GRAMMARS; i++) prepare(grammars[i], asks), limited(c, asks);
    puts("all went through with the stack limited to what the header says");
    return 0;
}
