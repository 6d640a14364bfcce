/* Calls every exported function with good and bad input. Each call is made twice, by the library on lists with guard
 * bytes around them and by the plain model: the answers and every byte lent must be the same, and the guards whole.
 * Document 01's own numbers stand here as literals besides. Prints one line; messages go to the error stream. */
#include <stdio.h>
#include <string.h>
#include <sys/mman.h>

#include "boltmarrow.h"
#include "model.h"

enum { WORDS = 1000000, GUARD = 64, PATTERN = 0xA5, LENT = 4 + TABLES, SLOTS = LENT + 1, FENCE = 65536 };

static unsigned long calls, checks, wrong;

static void expect(const char *what, uint64_t got, uint64_t want) {
    checks++;
    if (got == want) return;
    if (wrong++ < 20)
        fprintf(stderr, "test: %s: %llu, not %llu\n", what, (unsigned long long)got, (unsigned long long)want);
}

/* A generator with a fixed seed (xorshift). */
static uint64_t seed = 88172645463325252u;

static uint32_t next(void) {
    seed ^= seed << 13;
    seed ^= seed >> 7;
    seed ^= seed << 17;
    return (uint32_t)(seed >> 16);
}

static uint32_t below(uint32_t n) { return next() % n; }

/* Lent lists: each slot has room for the longest list and ends in a fence, memory that may not be touched. A list
 * stands either between two guards, shifted by up to seven elements, or with a guard before it and the fence behind,
 * so that a read past its end is seen too. */
static uint8_t rooms[SLOTS][4 * WORDS + 3 * FENCE];
static struct {
    uint8_t *fence, *at;
    size_t bytes;
} lent[SLOTS];

static int build_fences(void) {
    for (int i = 0; i < SLOTS; i++) {
        uint8_t *last = rooms[i] + sizeof rooms[i] - FENCE;
        lent[i].fence = last - (size_t)last % FENCE;
        if (mprotect(lent[i].fence, FENCE, PROT_NONE)) return 0;
    }
    return 1;
}

static void *lend(int slot, const void *from, size_t count, size_t size) {
    uint8_t *fence = lent[slot].fence, *low = fence - 4 * WORDS - FENCE / 2;
    uint8_t *at = below(2) ? fence - count * size : low + GUARD + size * below(8);
    lent[slot].at = at;
    lent[slot].bytes = count * size;
    memset(at - GUARD, PATTERN, GUARD);
    if (count) memcpy(at, from, count * size);
    if (at + count * size != fence) memset(at + count * size, PATTERN, GUARD);
    return at;
}

static void returned(const char *what, int slot, const void *want) {
    static uint8_t guard[GUARD];
    memset(guard, PATTERN, GUARD);
    uint8_t *at = lent[slot].at;
    size_t bytes = lent[slot].bytes;
    expect(what, memcmp(at - GUARD, guard, GUARD) == 0, 1);
    expect(what, at + bytes == lent[slot].fence || memcmp(at + bytes, guard, GUARD) == 0, 1);
    expect(what, bytes == 0 || memcmp(at, want, bytes) == 0, 1);
}

static const char *const names[OPS] = {
    "check",        "production",       "mark",             "rule_mark",       "first_clear",
    "first_visit",  "first_fill",       "has_path",         "productive_clear", "productive_visit",
    "productive_fill", "cost_clear",    "cost_visit",       "cost_fill",       "min_sentence_cost",
    "dearest_fill", "reached_fill",     "follow_clear",     "follow_visit",    "follow_fill",
    "profile",      "slice",            "min_sentence",     "count_min_sentences", "min_sentence_at",
    "write_blocks"};

static result pack(boltmarrow_answer a) {
    result r = {a.refusal, {a.value}};
    return r;
}

static result stretch(boltmarrow_stretch s) {
    result r = {s.refusal, {s.from, s.len}};
    return r;
}

static result verdict(boltmarrow_verdict v) {
    result r = {v.refusal, {v.clash, v.rule, v.lower, v.higher, v.token}};
    return r;
}

/* The lent copies of a call's lists. */
typedef struct {
    uint16_t *owners, *starts, *symbols, *out;
    uint8_t *costs, *bytes;
    uint32_t *table[TABLES];
    boltmarrow_job *job;
} copies;

static boltmarrow_job job_of(record job) {
    boltmarrow_job j = {job.kind, {job.next}, job.changed, job.done};
    return j;
}

static copies lend_all(const call *c) {
    const grammar *g = &c->g;
    copies l = {0};
    boltmarrow_job job = job_of(c->job);
    l.owners = lend(0, g->owners, g->prods, 2), l.starts = lend(1, g->starts, g->starts_len, 2);
    l.symbols = lend(2, g->symbols, g->symbols_len, 2), l.costs = lend(3, g->costs, g->tokens, 1);
    for (int i = 0; i < (int)strlen(tables_of[c->op]); i++) l.table[i] = lend(4 + i, c->table[i], c->table_len[i], 4);
    if (c->op == MIN_SENTENCE || c->op == MIN_SENTENCE_AT) l.out = lend(LENT, c->out, c->out_len, 2);
    if (c->op == WRITE_BLOCKS) l.bytes = lend(LENT, c->bytes, c->bytes_len, 1);
    if (c->op == SLICE) l.job = lend(LENT, &job, sizeof job / 2, 2);
    return l;
}

#define LISTS                                                                                                          \
    l.owners, c->g.prods, l.starts, c->g.starts_len, l.symbols, c->g.symbols_len, l.costs, c->g.tokens
#define G c->g.rules, LISTS
#define T(i) l.table[i], c->table_len[i]

/* The library's call. */
static result library(const call *c, copies l) {
    boltmarrow_ridx rule = {c->rule}, to = {c->to};
    boltmarrow_tidx token = {c->token};
    boltmarrow_pidx prod = {c->prod};
    switch (c->op) {
    case CHECK:
        return pack(boltmarrow_check(G));
    case PRODUCTION:
        return stretch(boltmarrow_production(G, prod));
    case MARK:
        return pack(boltmarrow_mark(G, T(0), rule, token));
    case RULE_MARK:
        return pack(boltmarrow_rule_mark(G, T(0), rule));
    case FIRST_CLEAR:
        return pack(boltmarrow_first_clear(G, T(0), T(1)));
    case FIRST_VISIT:
        return pack(boltmarrow_first_visit(G, prod, T(0), T(1)));
    case FIRST_FILL:
        return pack(boltmarrow_first_fill(G, T(0), T(1)));
    case HAS_PATH:
        return pack(boltmarrow_has_path(G, rule, to));
    case PRODUCTIVE_CLEAR:
        return pack(boltmarrow_productive_clear(G, T(0)));
    case PRODUCTIVE_VISIT:
        return pack(boltmarrow_productive_visit(G, prod, T(0)));
    case PRODUCTIVE_FILL:
        return pack(boltmarrow_productive_fill(G, T(0)));
    case COST_CLEAR:
        return pack(boltmarrow_cost_clear(G, T(0)));
    case COST_VISIT:
        return pack(boltmarrow_cost_visit(G, prod, T(0)));
    case COST_FILL:
        return pack(boltmarrow_cost_fill(G, T(0)));
    case MIN_SENTENCE_COST:
        return pack(boltmarrow_min_sentence_cost(G, rule, T(0)));
    case DEAREST_FILL:
        return pack(boltmarrow_dearest_fill(G, T(0)));
    case REACHED_FILL:
        return pack(boltmarrow_reached_fill(G, T(0)));
    case FOLLOW_CLEAR:
        return pack(boltmarrow_follow_clear(G, T(0)));
    case FOLLOW_VISIT:
        return pack(boltmarrow_follow_visit(G, c->mode, prod, T(0), T(1), T(2), T(3)));
    case FOLLOW_FILL:
        return pack(boltmarrow_follow_fill(G, c->mode, T(0), T(1), T(2), T(3)));
    case PROFILE:
        return verdict(boltmarrow_profile(G, T(0), T(1), T(2), T(3)));
    case SLICE:
        return pack(boltmarrow_slice(l.job, G, c->n, T(0), T(1), T(2), T(3), T(4), T(5)));
    case MIN_SENTENCE:
        return pack(boltmarrow_min_sentence(G, rule, T(0), T(1), l.out, c->out_len));
    case COUNT_MIN_SENTENCES:
        return pack(boltmarrow_count_min_sentences(G, rule, T(0), T(1), T(2)));
    case MIN_SENTENCE_AT:
        return pack(boltmarrow_min_sentence_at(G, rule, c->k, T(0), T(1), T(2), l.out, c->out_len));
    case WRITE_BLOCKS:
        return pack(boltmarrow_write_blocks(G, c->version, l.bytes, c->bytes_len));
    case OPS:
        break;
    }
    return refused(0);
}

/* The calls that take a number of a type of its own, once more, with all of the number's slot of eight bytes to set: a
 * caller fills 16 bits of it and may leave anything in the rest, so no call may read that. */
#define LIST(type) type *, size_t
#define WIDE(answer, name, ...)                                                                                        \
    answer wide_##name(uint64_t, LIST(const uint16_t), LIST(const uint16_t), LIST(const uint16_t),                    \
                       LIST(const uint8_t), __VA_ARGS__) __asm__("boltmarrow_" #name)

WIDE(boltmarrow_stretch, production, uint64_t);
WIDE(boltmarrow_answer, mark, LIST(const uint32_t), uint64_t, uint64_t);
WIDE(boltmarrow_answer, rule_mark, LIST(const uint32_t), uint64_t);
WIDE(boltmarrow_answer, first_visit, uint64_t, LIST(uint32_t), LIST(uint32_t));
WIDE(boltmarrow_answer, has_path, uint64_t, uint64_t);
WIDE(boltmarrow_answer, productive_visit, uint64_t, LIST(uint32_t));
WIDE(boltmarrow_answer, cost_visit, uint64_t, LIST(uint32_t));
WIDE(boltmarrow_answer, min_sentence_cost, uint64_t, LIST(uint32_t));
WIDE(boltmarrow_answer, follow_visit, uint64_t, uint64_t, LIST(uint32_t), LIST(const uint32_t), LIST(const uint32_t),
     LIST(const uint32_t));
WIDE(boltmarrow_answer, follow_fill, uint64_t, LIST(uint32_t), LIST(uint32_t), LIST(uint32_t), LIST(uint32_t));
WIDE(boltmarrow_answer, min_sentence, uint64_t, LIST(uint32_t), LIST(uint32_t), LIST(uint16_t));
WIDE(boltmarrow_answer, count_min_sentences, uint64_t, LIST(uint32_t), LIST(uint32_t), LIST(uint32_t));
WIDE(boltmarrow_answer, min_sentence_at, uint64_t, uint64_t, LIST(uint32_t), LIST(uint32_t), LIST(uint32_t),
     LIST(uint16_t));
WIDE(boltmarrow_answer, write_blocks, uint64_t, LIST(uint8_t));
boltmarrow_answer wide_slice(boltmarrow_job *, uint64_t, LIST(const uint16_t), LIST(const uint16_t),
                             LIST(const uint16_t), LIST(const uint8_t), uint64_t, LIST(uint32_t), LIST(uint32_t),
                             LIST(uint32_t), LIST(uint32_t), LIST(uint32_t),
                             LIST(const uint32_t)) __asm__("boltmarrow_slice");

static uint64_t slot(uint16_t number) { return (uint64_t)next() << 32 | (uint64_t)(1 + below(65535)) << 16 | number; }

/* The same for a number of 32 bits. */
static uint64_t slot_32(uint32_t number) { return (uint64_t)(1 + below(65535)) << 32 | number; }

static result wide(const call *c, copies l) {
    uint64_t rules = slot(c->g.rules), rule = slot(c->rule), to = slot(c->to), token = slot(c->token);
    uint64_t prod = slot(c->prod), mode = slot(c->mode), version = slot(c->version);
    switch (c->op) {
    case PRODUCTION:
        return stretch(wide_production(rules, LISTS, prod));
    case MARK:
        return pack(wide_mark(rules, LISTS, T(0), rule, token));
    case RULE_MARK:
        return pack(wide_rule_mark(rules, LISTS, T(0), rule));
    case FIRST_VISIT:
        return pack(wide_first_visit(rules, LISTS, prod, T(0), T(1)));
    case HAS_PATH:
        return pack(wide_has_path(rules, LISTS, rule, to));
    case PRODUCTIVE_VISIT:
        return pack(wide_productive_visit(rules, LISTS, prod, T(0)));
    case COST_VISIT:
        return pack(wide_cost_visit(rules, LISTS, prod, T(0)));
    case MIN_SENTENCE_COST:
        return pack(wide_min_sentence_cost(rules, LISTS, rule, T(0)));
    case FOLLOW_VISIT:
        return pack(wide_follow_visit(rules, LISTS, mode, prod, T(0), T(1), T(2), T(3)));
    case FOLLOW_FILL:
        return pack(wide_follow_fill(rules, LISTS, mode, T(0), T(1), T(2), T(3)));
    case SLICE:
        return pack(wide_slice(l.job, rules, LISTS, slot_32(c->n), T(0), T(1), T(2), T(3), T(4), T(5)));
    case MIN_SENTENCE:
        return pack(wide_min_sentence(rules, LISTS, rule, T(0), T(1), l.out, c->out_len));
    case COUNT_MIN_SENTENCES:
        return pack(wide_count_min_sentences(rules, LISTS, rule, T(0), T(1), T(2)));
    case MIN_SENTENCE_AT:
        return pack(wide_min_sentence_at(rules, LISTS, rule, slot_32(c->k), T(0), T(1), T(2), l.out, c->out_len));
    case WRITE_BLOCKS:
        return pack(wide_write_blocks(rules, LISTS, version, l.bytes, c->bytes_len));
    default:
        return library(c, l);
    }
}

/* The house calls, by the call that each is on the house's grammar; the sentence is the start's. */
enum { HOUSE_CALLS = 7 };
static const op house_ops[HOUSE_CALLS] = {CHECK,     FIRST_FILL,        MARK,        RULE_MARK,
                                          COST_FILL, MIN_SENTENCE_COST, MIN_SENTENCE};
static const char *const house_names[OPS] = {
    [CHECK] = "house_check",         [FIRST_FILL] = "house_first_fill", [MARK] = "house_first",
    [RULE_MARK] = "house_empty",     [COST_FILL] = "house_cost_fill",   [MIN_SENTENCE_COST] = "house_cost",
    [MIN_SENTENCE] = "house_row"};

static result house(const call *c, copies l) {
    boltmarrow_ridx rule = {c->rule};
    boltmarrow_tidx token = {c->token};
    switch (c->op) {
    case CHECK:
        return pack(boltmarrow_house_check());
    case FIRST_FILL:
        return pack(boltmarrow_house_first_fill(T(0), T(1)));
    case MARK:
        return pack(boltmarrow_house_first(T(0), rule, token));
    case RULE_MARK:
        return pack(boltmarrow_house_empty(T(0), rule));
    case COST_FILL:
        return pack(boltmarrow_house_cost_fill(T(0)));
    case MIN_SENTENCE_COST:
        return pack(boltmarrow_house_cost(rule, T(0)));
    default:
        return pack(boltmarrow_house_row(T(0), T(1), l.out, c->out_len));
    }
}

boltmarrow_answer wide_first(LIST(const uint32_t), uint64_t, uint64_t) __asm__("boltmarrow_house_first");
boltmarrow_answer wide_empty(LIST(const uint32_t), uint64_t) __asm__("boltmarrow_house_empty");
boltmarrow_answer wide_cost(uint64_t, LIST(uint32_t)) __asm__("boltmarrow_house_cost");

static result wide_house(const call *c, copies l) {
    switch (c->op) {
    case MARK:
        return pack(wide_first(T(0), slot(c->rule), slot(c->token)));
    case RULE_MARK:
        return pack(wide_empty(T(0), slot(c->rule)));
    case MIN_SENTENCE_COST:
        return pack(wide_cost(slot(c->rule), T(0)));
    default:
        return house(c, l);
    }
}
#undef LISTS
#undef G
#undef T
#undef LIST
#undef WIDE

/* Compares what the library answered and left with the model; the call's own lists then hold what the model left. */
static result compared(const char *what, call *c, result got) {
    result want = model(c);
    boltmarrow_job job = job_of(c->job);
    calls++;
    expect(what, got.refusal, want.refusal);
    for (int i = 0; i < 5; i++) expect(what, got.field[i], want.field[i]);
    returned(what, 0, c->g.owners);
    returned(what, 1, c->g.starts);
    returned(what, 2, c->g.symbols);
    returned(what, 3, c->g.costs);
    for (int i = 0; i < (int)strlen(tables_of[c->op]); i++) returned(what, 4 + i, c->table[i]);
    if (c->op == MIN_SENTENCE || c->op == MIN_SENTENCE_AT) returned(what, LENT, c->out);
    if (c->op == WRITE_BLOCKS) returned(what, LENT, c->bytes);
    if (c->op == SLICE) returned(what, LENT, &job);
    return got;
}

/* Makes a call both ways and compares. */
static result run(call *c) {
    copies l = lend_all(c);
    return compared(names[c->op], c, below(4) ? library(c, l) : wide(c, l));
}

/* The same for a house call: to the model it is the call that it names, on the house's grammar. */
static result run_house(call *c) {
    copies l = lend_all(c);
    return compared(house_names[c->op], c, below(4) ? house(c, l) : wide_house(c, l));
}

/* A grammar being written down. */
static uint16_t owners[100001], starts[100001], symbols[100001];
static uint8_t costs[100001];
static grammar g;

static void begin(uint16_t rules, size_t tokens, uint8_t cost) {
    memset(costs, cost, sizeof costs);
    starts[0] = 0;
    grammar fresh = {rules, owners, starts, symbols, costs, 0, 1, 0, tokens};
    g = fresh;
}

static void add(uint16_t symbol) { symbols[g.symbols_len++] = symbol; }

static void add_times(uint16_t symbol, size_t times) {
    for (size_t i = 0; i < times; i++) add(symbol);
}

static void end(uint16_t owner) {
    owners[g.prods++] = owner;
    starts[g.starts_len++] = (uint16_t)g.symbols_len;
}

static void prod(uint16_t owner, const uint16_t *list, size_t count) {
    for (size_t i = 0; i < count; i++) add(list[i]);
    end(owner);
}

#define PROD(owner, ...) prod(owner, (const uint16_t[]){__VA_ARGS__}, sizeof((const uint16_t[]){__VA_ARGS__}) / 2)
#define R(n) (RULE + (n))

static uint32_t words[TABLES][WORDS];
static uint16_t output[100000];
static uint8_t bytes[100000];

/* Words of every kind: sparse, dense, none, all, and numbers near COST's ends. */
static uint32_t word(void) {
    static const uint32_t some[] = {0, 0xFFFFFFFF, 65535, 65536, 65537, 65538, 65534, 0x80000000};
    switch (below(5)) {
    case 0:
        return next();
    case 1:
        return next() & next() & next();
    case 2:
        return below(70000);
    case 3:
        return below(300);
    default:
        return some[below(8)];
    }
}

/* The largest file, and some bytes more. */
enum { ROOM = 98 * BLOCK + 100 };

/* The kinds of jobs. */
enum { JOBS = 4 };
static const uint16_t job_kinds[JOBS] = {JOB_FIRST, JOB_FOLLOW, JOB_PRODUCTIVE, JOB_COST};

/* A call on the grammar at hand, its tables of the right lengths and full of random words, version 1, room for any
 * file, and a slice of a new job of any kind. */
static call make(op which) {
    call c = {.op = which, .g = g, .mode = 2, .version = 1, .out = output, .out_len = 100, .bytes = bytes};
    c.bytes_len = ROOM, c.job.kind = job_kinds[below(JOBS)], c.n = below(20);
    for (size_t i = 0; i < strlen(tables_of[which]); i++) {
        c.table[i] = words[i];
        c.table_len[i] = length_of(tables_of[which][i], &g);
        for (size_t j = 0; j < c.table_len[i]; j++) words[i][j] = word();
    }
    for (size_t i = 0; i < 100; i++) output[i] = (uint16_t)next();
    for (size_t i = 0; i < ROOM && which == WRITE_BLOCKS; i++) bytes[i] = (uint8_t)next();
    return c;
}

static void fill(op which) {
    call c = make(which);
    run(&c);
}

/* The tokens that a filled table has for a rule, as bits; by queries. */
static uint32_t row(uint16_t rule) {
    uint32_t bits = 0;
    for (uint16_t t = 0; t < g.tokens; t++) {
        call c = {.op = MARK, .g = g, .rule = rule, .token = t, .table = {words[0]}};
        c.table_len[0] = length_of('T', &g);
        bits |= run(&c).field[0] << t;
    }
    return bits;
}

static uint32_t rule_row(int table) {
    uint32_t bits = 0;
    for (uint16_t r = 0; r < g.rules; r++) {
        call c = {.op = RULE_MARK, .g = g, .rule = r, .table = {words[table]}};
        c.table_len[0] = length_of('E', &g);
        bits |= run(&c).field[0] << r;
    }
    return bits;
}

static void follow_is(uint16_t rule, uint32_t bits) {
    fill(FOLLOW_FILL);
    expect("FOLLOW", row(rule), bits);
}

static void reached_is(uint32_t bits) {
    fill(REACHED_FILL);
    expect("reached", words[0][0], bits);
    expect("reached", rule_row(0), bits);
    fill(FOLLOW_FILL);
    expect("reached by FOLLOW's fill", words[3][0], bits);
}

/* The profile of the grammar at hand. It leaves its tables as FOLLOW's fill does. */
static result profiled(void) {
    enum { OWN = 4 };
    static uint32_t left[OWN][512 * 16];
    call c = make(PROFILE);
    result r = run(&c);
    for (int i = 0; i < OWN; i++) memcpy(left[i], words[i], 4 * c.table_len[i]);
    expect("profile's refusal", r.refusal, 0);
    fill(FOLLOW_FILL);
    for (int i = 0; i < OWN; i++) expect("profile's tables", memcmp(left[i], words[i], 4 * c.table_len[i]) == 0, 1);
    return r;
}

static void passes(void) {
    result r = profiled();
    for (int i = 0; i < 5; i++) expect("a profile that passes", r.field[i], 0);
}

static void clash_is(uint32_t rule, uint32_t lower, uint32_t higher, uint32_t token) {
    result r = profiled();
    expect("a profile that clashes", r.field[0], 1);
    expect("the rule of a clash", r.field[1], rule);
    expect("its lower production", r.field[2], lower);
    expect("its higher production", r.field[3], higher);
    expect("its token", r.field[4], token);
}

static void first_is(uint16_t rule, uint32_t bits) {
    fill(FIRST_FILL);
    expect("FIRST", row(rule), bits);
}

/* The cost query, and the same from a filled table. */
static void cost_is(uint16_t rule, uint32_t refusal, uint32_t value) {
    call c = make(MIN_SENTENCE_COST);
    c.rule = rule;
    result r = run(&c);
    expect("cost", r.refusal, refusal);
    expect("cost", r.field[0], value);
    fill(COST_FILL);
    expect("COST", words[0][rule], refusal == 12 ? BOLTMARROW_COST_UNKNOWN : refusal ? BOLTMARROW_COST_DEAR : value);
}

/* DEAREST of the grammar at hand, of each rule. */
static void dearest_is(const uint32_t *entries) {
    call c = make(DEAREST_FILL);
    expect("DEAREST's refusal", run(&c).refusal, 0);
    for (size_t r = 0; r < g.rules; r++) expect("DEAREST", words[0][r], entries[r]);
}

#define DEAREST_IS(...) dearest_is((const uint32_t[]){__VA_ARGS__})

static void sentence_is(uint16_t rule, size_t room, uint32_t refusal, uint32_t length) {
    call c = make(MIN_SENTENCE);
    c.rule = rule;
    c.out_len = room;
    result r = run(&c);
    expect("sentence", r.refusal, refusal);
    expect("sentence", r.field[0], length);
}

/* How many cheapest sentences a rule has, by the call and by its entry. */
static void count_is(uint16_t rule, uint32_t refusal, uint32_t value, uint32_t entry) {
    call c = make(COUNT_MIN_SENTENCES);
    c.rule = rule;
    result r = run(&c);
    expect("count", r.refusal, refusal);
    expect("count", r.field[0], value);
    expect("count's entry", words[2][rule], entry);
}

static void row_refused(uint16_t rule, uint32_t k, size_t room, uint32_t refusal) {
    call c = make(MIN_SENTENCE_AT);
    c.rule = rule, c.k = k, c.out_len = room;
    expect("row refused", run(&c).refusal, refusal);
}

/* Number k of a rule's list, in exact room. */
static void row_is(uint16_t rule, uint32_t k, const uint16_t *tokens, size_t len) {
    call c = make(MIN_SENTENCE_AT);
    c.rule = rule, c.k = k, c.out_len = len;
    result r = run(&c);
    expect("row's refusal", r.refusal, 0);
    expect("row's length", r.field[0], len);
    for (size_t i = 0; i < len; i++) expect("row", output[i], tokens[i]);
    if (len) row_refused(rule, k, len - 1, 15);
}

#define ROW_IS(rule, k, ...)                                                                                           \
    row_is(rule, k, (const uint16_t[]){__VA_ARGS__}, sizeof((const uint16_t[]){__VA_ARGS__}) / 2)

static void path_is(uint16_t from, uint16_t to, uint32_t yes) {
    call c = make(HAS_PATH);
    c.rule = from;
    c.to = to;
    expect("path", run(&c).field[0], yes);
}

/* A clear or a fill of a kind, on those of a slice's tables that are its. */
static void own(op which, uint16_t kind, uint32_t *const *tables) {
    call c = {.op = which, .g = g, .mode = 2};
    for (size_t i = 0; i < strlen(tables_of[which]); i++) {
        c.table[i] = tables[kind_tables[kind][i] - '0'];
        c.table_len[i] = length_of(tables_of[which][i], &g);
    }
    expect("clear or fill of a kind", run(&c).refusal, 0);
}

static const op clear_of[KINDS] = {
    [JOB_FIRST] = FIRST_CLEAR, [JOB_FOLLOW] = FOLLOW_CLEAR,
    [JOB_PRODUCTIVE] = PRODUCTIVE_CLEAR, [JOB_COST] = COST_CLEAR};
static const op fill_of[KINDS] = {
    [JOB_FIRST] = FIRST_FILL, [JOB_FOLLOW] = FOLLOW_FILL,
    [JOB_PRODUCTIVE] = PRODUCTIVE_FILL, [JOB_COST] = COST_FILL};

/* The tables of a kind as its fill leaves them. */
static uint32_t full[TABLES][512 * 16];
static uint32_t *const full_tables[TABLES] = {full[0], full[1], full[2], full[3], full[4], full[5]};

/* A slice of a job on tables of random words; those of other kinds have any length. */
static call make_slice(record job, uint32_t n) {
    call c = make(SLICE);
    c.job = job, c.n = n;
    for (size_t i = 0; i < TABLES; i++)
        if (!due(&c, i) && below(4)) c.table_len[i] = below(2) ? below(2 * (uint32_t)c.table_len[i] + 2) : 0;
    return c;
}

/* A new job of a kind on cleared tables; what FOLLOW reads is finished. */
static call new_job(uint16_t kind, uint32_t n) {
    call c = make_slice((record){kind, 0, 0, 0}, n);
    own(fill_of[kind], kind, full_tables);
    for (size_t i = 0; i < TABLES; i++)
        if (due(&c, i)) memcpy(words[i], full[i], 4 * c.table_len[i]);
    own(clear_of[kind], kind, c.table);
    return c;
}

/* Whether the tables of the job's kind are the fill's, word for word. */
static int is_full(const call *c) {
    for (size_t i = 0; i < TABLES; i++)
        if (due(c, i) && memcmp(c->table[i], full[i], 4 * c->table_len[i])) return 0;
    return 1;
}

/* Whether they hold no mark that the fill's do not, and no cost below the fill's. */
static int is_true(const call *c) {
    for (size_t i = 0; i < TABLES; i++)
        for (size_t j = 0; due(c, i) && j < c->table_len[i]; j++) {
            uint32_t held = c->table[i][j], all = full[i][j];
            if (tables_of[SLICE][i] == 'C' ? held < all : held & ~all) return 0;
        }
    return 1;
}

/* A slice that makes no visit and leaves the record as found, of any n. */
static void idle(call *c, uint32_t n) {
    record before = c->job;
    c->n = n;
    result r = run(c);
    expect("an idle slice", r.refusal, 0);
    expect("its visits", r.field[0], 0);
    expect("its record", memcmp(&c->job, &before, sizeof before), 0);
}

/* The rounds within which a job from cleared tables is done, one more than demand 3's number: rules times tokens, and
 * for PRODUCTIVE and COST the rules. */
static uint64_t rounds_of(uint16_t kind) {
    return 1 + (kind < JOB_PRODUCTIVE ? (uint64_t)g.rules * g.tokens : g.rules);
}

/* A job from cleared tables by slices of n until it is done; how many visits it made. */
static uint64_t drive(uint16_t kind, uint32_t n) {
    call c = new_job(kind, n);
    uint64_t visits = 0, most = rounds_of(kind) * g.prods;
    while (!c.job.done && visits < most) {
        idle(&c, 0), c.n = n;
        result r = run(&c);
        expect("a slice", r.refusal, 0);
        expect("its visits", c.job.done ? r.field[0] <= n : r.field[0] == n, 1);
        expect("marks and costs under way", (uint64_t)is_true(&c), 1);
        visits += r.field[0];
        if (r.field[0] == 0) break;
    }
    expect("a job's rounds", visits <= most, 1);
    expect("a done job's tables", (uint64_t)is_full(&c), 1);
    expect("a done job's record", c.job.done == 1 && c.job.next == 0 && c.job.changed == 0, 1);
    idle(&c, 0), idle(&c, 1), idle(&c, n), idle(&c, UINT32_MAX);
    return visits;
}

/* Records that no slice left, on any tables. */
static void odd_jobs(uint16_t kind, int count) {
    static const uint16_t yes[] = {0, 1, 2, 65535};
    for (int i = 0; i < count; i++) {
        record job = {kind, (uint16_t)below((uint32_t)g.prods), yes[below(4)], yes[below(4)]};
        uint32_t some[] = {0, 1, 2, (uint32_t)g.prods - job.next, below(3 * (uint32_t)g.prods), UINT32_MAX};
        call c = make_slice(job, some[below(6)]);
        int none = job.done || c.n == 0;
        result r = run(&c);
        expect("a slice of any record", r.refusal, 0);
        expect("no visit", r.field[0] == 0, (uint64_t)none);
        if (job.done) expect("a record that is done", memcmp(&c.job, &job, sizeof job), 0);
        /* on from there, also where the record now says that it is done */
        c.n = below(2 * (uint32_t)g.prods), run(&c);
        c.job.done = 0, run(&c);
    }
}

/* Every kind of job on the grammar at hand. However it is sliced, a job makes the same visits, whole rounds of them. In
 * a large grammar slices of 7 and 1 would be too many. */
static void jobs(void) {
    uint32_t prods = (uint32_t)g.prods;
    int small = prods < 200;
    uint32_t some[] = {prods, prods + 1, small ? 7 : prods * 2 / 3, small ? 1 : prods * 2 - 1};
    for (int k = 0; k < JOBS; k++) {
        uint64_t visits = drive(job_kinds[k], UINT32_MAX);
        expect("whole rounds", visits % prods, 0);
        for (int i = 0; i < 4; i++) expect("visits of a job", drive(job_kinds[k], some[i]), visits);
        odd_jobs(job_kinds[k], 8);
    }
}

static void begin_g1(void) {
    begin(4, 4, 1);
    PROD(1, R(2), 0, R(3));
    PROD(2, 2);
    prod(2, NULL, 0);
    PROD(3, 1, 0);
    prod(3, NULL, 0);
    PROD(0, R(1));
}

static void g1(void) {
    static const uint32_t follow[] = {8, 8, 1, 8}, first[] = {5, 5, 4, 2}, cost[] = {1, 1, 0, 0};
    static const uint16_t order[] = {5, 0, 1, 2, 3, 4};
    begin_g1();
    jobs();
    passes();
    call c = make(CHECK);
    expect("G1 check", run(&c).refusal, 0);
    for (uint16_t r = 0; r < 4; r++) {
        first_is(r, first[r]);
        expect("G1 EMPTY", rule_row(1), 12);
        follow_is(r, follow[r]);
        cost_is(r, 0, cost[r]);
    }
    fill(PRODUCTIVE_FILL);
    expect("G1 PRODUCTIVE", rule_row(0), 15);
    DEAREST_IS(4, 4, 1, 2);
    sentence_is(0, 100, 0, 1);
    expect("G1 sentence", output[0], 0);
    sentence_is(2, 0, 0, 0);
    sentence_is(0, 0, 15, 0);
    c = make(PRODUCTION);
    c.prod = 3;
    result r = run(&c);
    expect("G1 production", r.field[0] * 10 + r.field[1], 42);
    fill(FIRST_CLEAR);
    for (int round = 0; round < 2; round++) {
        for (int i = 0; i < 6; i++) {
            call v = {.op = FIRST_VISIT, .g = g, .prod = order[i], .table = {words[0], words[1]}, .table_len = {4, 1}};
            run(&v);
        }
        expect("G1 rounds", row(1), round ? 5 : 0);
    }
}

static void g2(void) {
    begin(4, 4, 1);
    PROD(0, R(1));
    PROD(1, R(2), R(3), 2);
    PROD(2, 0);
    PROD(3, 1);
    prod(3, NULL, 0);
    follow_is(2, 6);
    DEAREST_IS(3, 3, 1, 1);
    passes();
    jobs();
}

static void g3_and_g4(void) {
    begin(2, 2, 1);
    PROD(0, R(1));
    PROD(1, R(1));
    PROD(1, 0);
    cost_is(1, 0, 1);
    sentence_is(1, 100, 14, 0);
    expect("G3 length", words[1][1], UNGROUNDED);
    path_is(1, 1, 1);
    path_is(0, 0, 0);
    path_is(0, 1, 1);
    DEAREST_IS(1, 1);
    clash_is(1, 1, 2, 0);
    jobs();

    begin(2, 2, 1);
    PROD(0, R(1));
    PROD(1, R(1), 0);
    first_is(1, 0);
    cost_is(1, 12, 0);
    DEAREST_IS(BOLTMARROW_DEAREST_NONE, BOLTMARROW_DEAREST_NONE);
    sentence_is(1, 100, 12, 0);
    passes();
    jobs();
}

static void g5_and_g6(void) {
    for (int which = 0; which < 3; which++) {
        begin(2, 3, 255);
        costs[1] = 1;
        PROD(0, R(1));
        add_times(0, which ? 258 : 257), end(1);
        if (which == 2) PROD(1, 1);
        cost_is(1, which == 1 ? 13 : 0, which == 0 ? 65535 : which == 1 ? 0 : 1);
        sentence_is(1, 300, which == 1 ? 13 : 0, which == 0 ? 257 : which == 1 ? 0 : 1);
        sentence_is(1, 256, which == 0 ? 15 : which == 1 ? 13 : 0, which == 2);
        DEAREST_IS(BOLTMARROW_DEAREST_ABOVE, BOLTMARROW_DEAREST_ABOVE);
        passes();
        jobs();
    }

    begin(2, 3, 1);
    PROD(0, R(1));
    PROD(1, 0, R(1));
    PROD(1, 1);
    cost_is(1, 0, 1);
    sentence_is(1, 100, 0, 1);
    expect("G6 sentence", output[0], 1);
    DEAREST_IS(BOLTMARROW_DEAREST_UNBOUNDED, BOLTMARROW_DEAREST_UNBOUNDED);
    passes();
    jobs();
}

/* A visit of COST on the grammar at hand, from these entries of its rules: whether it changed something, and the owner's
 * entry then. */
static void cost_visit(const uint32_t *entries, uint16_t prod, uint32_t changed, uint32_t after) {
    call c = make(COST_VISIT);
    c.prod = prod;
    for (size_t r = 0; r < g.rules; r++) words[0][r] = entries[r];
    expect("visit of COST", run(&c).field[0], changed);
    expect("the owner's entry", words[0][owners[prod]], after);
}

/* Dear and unknown entries: A: B C; A: C B; A: 258 tokens of cost 255, then C; A: 257 of them. */
static void dear_and_unknown(void) {
    enum { MAX = BOLTMARROW_COST_MAX, DEAR_ONE = BOLTMARROW_COST_DEAR, UNKNOWN_ONE = BOLTMARROW_COST_UNKNOWN };
    static const uint32_t unknowns[] = {UNKNOWN_ONE, 65538, 70000, 0x80000000, 0xFFFFFFFF};
    begin(4, 2, 255);
    PROD(0, R(1)), PROD(1, R(2), R(3)), PROD(1, R(3), R(2));
    add_times(0, 258), add(R(3)), end(1);
    add_times(0, 257), end(1), PROD(2, 0), PROD(3, 0);
    clash_is(1, 1, 2, 0);
    jobs();
    for (int i = 0; i < 5; i++) {
        uint32_t u = unknowns[i];
        for (uint16_t p = 1; p < 4; p++) {
            cost_visit((uint32_t[]){9, u, DEAR_ONE, u}, p, 0, u); /* unknown beside dear */
            cost_visit((uint32_t[]){9, 5, 1, u}, p, 0, 5);
            cost_visit((uint32_t[]){9, DEAR_ONE, 1, u}, p, 0, DEAR_ONE);
        }
        cost_visit((uint32_t[]){9, u, DEAR_ONE, 1}, 1, 1, DEAR_ONE); /* a dear part */
        cost_visit((uint32_t[]){9, u, 1, DEAR_ONE}, 1, 1, DEAR_ONE);
        cost_visit((uint32_t[]){9, u, MAX, 1}, 2, 1, DEAR_ONE); /* a total above 65535 */
        cost_visit((uint32_t[]){9, u, MAX, 0}, 2, 1, MAX);
        cost_visit((uint32_t[]){9, u, u, 0}, 3, 1, DEAR_ONE);
        cost_visit((uint32_t[]){9, u, u, u}, 4, 1, MAX);
    }
    cost_visit((uint32_t[]){9, DEAR_ONE, DEAR_ONE, 1}, 1, 0, DEAR_ONE);
    cost_visit((uint32_t[]){9, DEAR_ONE, MAX, 0}, 1, 1, MAX); /* a dear entry is lowered */
    cost_visit((uint32_t[]){9, DEAR_ONE, 3, 4}, 2, 1, 7);
    cost_visit((uint32_t[]){9, MAX, DEAR_ONE, 0}, 1, 0, MAX);
}

/* Two exports: start: Daily; start: Weekly; Daily: day Num Unit comma; Weekly: week Num; Num: digits; Unit: unit;
 * Unit: nothing. The costs of the tokens are 3 2 1 1 1, and eof's is 1. */
static void begin_exports(void) {
    begin(5, 6, 1);
    costs[0] = 3, costs[1] = 2;
    PROD(0, R(1));
    PROD(1, 0, R(3), R(4), 4);
    PROD(2, 1, R(3));
    PROD(3, 2);
    PROD(4, 3);
    prod(4, NULL, 0);
    PROD(0, R(2));
}

static void exports(void) {
    static const uint32_t first[] = {3, 1, 2, 4, 8}, follow[] = {32, 32, 32, 56, 16};
    static const uint32_t cost[] = {3, 5, 3, 1, 0}, length[] = {2, 3, 2, 1, 0};
    begin_exports();
    passes();
    jobs();
    call c = make(CHECK);
    expect("exports: check", run(&c).refusal, 0);
    for (uint16_t r = 0; r < 5; r++) {
        first_is(r, first[r]);
        expect("exports: EMPTY", rule_row(1), 16);
        follow_is(r, follow[r]);
        cost_is(r, 0, cost[r]);
        sentence_is(r, 100, 0, length[r]);
        path_is(0, r, r > 0);
        path_is(1, r, r > 2);
        path_is(2, r, r == 3);
    }
    fill(PRODUCTIVE_FILL);
    expect("exports: PRODUCTIVE", rule_row(0), 31);
    DEAREST_IS(6, 6, 3, 1, 1);
    sentence_is(0, 2, 0, 2);
    expect("exports: sentence", output[0] * 10 + output[1], 12);
    sentence_is(0, 1, 15, 0);
}

/* The same export twice; then all productions but one are rule 0's. */
static void more_exports(void) {
    begin_exports(), symbols[9] = R(1);
    call c = make(CHECK);
    expect("the same export twice", run(&c).refusal, 0);
    cost_is(0, 0, 5);
    clash_is(0, 0, 6, 0);
    jobs();
    begin(2, 2, 1);
    for (int p = 0; p < 4095; p++) PROD(0, R(1));
    PROD(1, 0);
    first_is(0, 1);
    follow_is(1, 2);
    sentence_is(0, 1, 0, 1);
    clash_is(0, 0, 1, 0);
    jobs();
}

/* Document 02's dead rule: start: S; S: A; A: a; U: A z. Rules 1 S, 2 A, 3 U; tokens 0 a, 1 z, 2 eof. */
static void begin_dead(void) {
    begin(4, 3, 1);
    PROD(0, R(1));
    PROD(1, R(2));
    PROD(2, 0);
    PROD(3, R(2), 1);
}

/* A visit of a production where FIRST and EMPTY are finished, start and S have eof in FOLLOW, and A and the reached row
 * are as given: whether it changed something, and what A then has. */
static void dead_visit(uint16_t prod, uint32_t reached, uint32_t a, uint32_t changed, uint32_t after) {
    call c = make(FOLLOW_VISIT);
    c.prod = prod;
    words[0][0] = 4, words[0][1] = 4, words[0][2] = a, words[0][3] = 0;
    for (int r = 0; r < 4; r++) words[1][r] = 1;
    words[2][0] = 0, words[3][0] = reached;
    expect("visit of a dead rule", run(&c).field[0], changed);
    expect("after it", words[0][2], after);
    expect("the reached row", words[3][0], reached);
}

static void dead(void) {
    static const uint32_t follow[] = {4, 4, 4, 0};
    begin_dead();
    DEAREST_IS(1, 1, 1, 2);
    passes();
    jobs();
    reached_is(7);
    for (uint16_t r = 0; r < 4; r++) {
        follow_is(r, follow[r]);
        path_is(0, r, r == 1 || r == 2);
    }
    /* what counts is the lent row; spare bits and the bits of other rules say nothing */
    for (uint32_t row = 0; row < 16; row++) {
        dead_visit(3, row, 4, row >> 3, row & 8 ? 6 : 4);
        dead_visit(3, row | 0xFFFFFFF0, 4, row >> 3, row & 8 ? 6 : 4);
        dead_visit(1, row, 0, row >> 1 & 1, row & 2 ? 4 : 0);
    }
    /* with rule 0's bit clear its production changes nothing */
    for (uint32_t row = 0; row < 16; row++) {
        call c = make(FOLLOW_VISIT);
        words[0][0] = 4, words[0][1] = 0, words[0][2] = 0, words[0][3] = 0, words[3][0] = row;
        expect("visit of rule 0's production", run(&c).field[0], row & 1);
        expect("after it", words[0][1], row & 1 ? 4 : 0);
    }
    /* two exports, U one of them */
    begin_dead(), PROD(0, R(3));
    reached_is(15);
    follow_is(2, 6);
    follow_is(3, 4);
    clash_is(0, 0, 4, 0);
    jobs();
    /* a ring of dead rules that holds a reached one: start: A; A: a; B: C A; C: B */
    begin(4, 2, 1), PROD(0, R(1)), PROD(1, 0), PROD(2, R(3), R(1)), PROD(3, R(2));
    reached_is(3);
    follow_is(1, 2);
    follow_is(2, 0);
    passes();
    jobs();
}

/* The house export, as examples/house.txt says it: rules 0 start, 1 Row, 2 to 13 the rooms, 14 to 49 temperature,
 * humidity and carbon dioxide room by room, 50 Stamp, 51 Date, 52 Time, 53 Degrees, 54 Percent, 55 Parts, 56 Sign,
 * 57 Fraction; tokens 0 digits, 1 decimal comma, 2 semicolon, 3 minus, 4 dot, 5 colon, 6 newline, 7 eof. */
static void begin_house(void) {
    begin(58, 8, 1), costs[7] = 0;
    PROD(0, R(1));
    PROD(1, R(50), R(2), R(3), R(4), R(5), R(6), R(7), R(8), R(9), R(10), R(11), R(12), R(13), 6);
    for (uint16_t i = 0; i < 12; i++) PROD((uint16_t)(2 + i), 2, R(14 + 3 * i), 2, R(15 + 3 * i), 2, R(16 + 3 * i));
    for (uint16_t value = 14; value < 50; value++) {
        PROD(value, (uint16_t)R(53 + (value - 14) % 3));
        prod(value, NULL, 0);
    }
    PROD(50, R(51), 2, R(52)), PROD(51, 0, 4, 0, 4, 0), PROD(52, 0, 5, 0);
    PROD(53, R(56), 0, R(57)), PROD(54, 0, R(57)), PROD(55, 0);
    PROD(56, 3), prod(56, NULL, 0), PROD(57, 1, 0), prod(57, NULL, 0);
}

/* What a rule of the house has in a table, by the rule's kind. */
static uint32_t house_entry(uint16_t rule, uint32_t row, uint32_t room, const uint32_t *fields, const uint32_t *rest) {
    return rule < 2 ? row : rule < 14 ? room : rule < 50 ? fields[(rule - 14) % 3] : rest[rule - 50];
}

static uint32_t house_first_of(uint16_t rule) {
    static const uint32_t fields[] = {9, 1, 1}, rest[] = {1, 1, 1, 9, 1, 1, 8, 2};
    return house_entry(rule, 1, 4, fields, rest);
}

/* All tokens but eof cost 1, and no sentence has eof: a rule's cost is the length of its sentence too. */
static uint32_t house_cost_of(uint16_t rule) {
    static const uint32_t fields[] = {0, 0, 0}, rest[] = {9, 5, 3, 1, 1, 1, 0, 0};
    return house_entry(rule, 46, 3, fields, rest);
}

/* Every value that there can be: 9 of the stamp, 11 of each room, the newline. */
static uint32_t house_dearest_of(uint16_t rule) {
    static const uint32_t fields[] = {4, 3, 1}, rest[] = {9, 5, 3, 4, 3, 1, 1, 2};
    return house_entry(rule, 142, 11, fields, rest);
}

/* The header's numbers, and the grammar through the calls on any. */
static void house_grammar(void) {
    static const uint32_t rules[] = {BOLTMARROW_HOUSE_STAMP, BOLTMARROW_HOUSE_DATE, BOLTMARROW_HOUSE_TIME,
                                     BOLTMARROW_HOUSE_DEGREES, BOLTMARROW_HOUSE_PERCENT, BOLTMARROW_HOUSE_PARTS,
                                     BOLTMARROW_HOUSE_SIGN, BOLTMARROW_HOUSE_FRACTION};
    static const uint32_t tokens[] = {BOLTMARROW_HOUSE_DIGITS, BOLTMARROW_HOUSE_DECIMAL_COMMA,
                                      BOLTMARROW_HOUSE_SEMICOLON, BOLTMARROW_HOUSE_MINUS, BOLTMARROW_HOUSE_DOT,
                                      BOLTMARROW_HOUSE_COLON, BOLTMARROW_HOUSE_NEWLINE, BOLTMARROW_HOUSE_EOF};
    begin_house();
    expect("house: rules", g.rules, BOLTMARROW_HOUSE_RULES);
    expect("house: tokens", g.tokens, BOLTMARROW_HOUSE_TOKENS);
    expect("house: productions and symbols", g.prods * 1000 + g.symbols_len, 96143);
    expect("house: words of FIRST", length_of('T', &g), BOLTMARROW_HOUSE_FIRST_WORDS);
    expect("house: words of EMPTY", length_of('E', &g), BOLTMARROW_HOUSE_EMPTY_WORDS);
    for (uint32_t i = 0; i < 8; i++) expect("house: a rule", rules[i], 50 + i), expect("house: a token", tokens[i], i);
    expect("house: Row", BOLTMARROW_HOUSE_ROW, 1);
    for (uint32_t i = 1; i <= 12; i++) {
        expect("house: a room", BOLTMARROW_HOUSE_ROOM(i), 1 + i);
        expect("house: a temperature", BOLTMARROW_HOUSE_TEMPERATURE(i), 14 + 3 * (i - 1));
        expect("house: a humidity", BOLTMARROW_HOUSE_HUMIDITY(i), 15 + 3 * (i - 1));
        expect("house: carbon dioxide", BOLTMARROW_HOUSE_CARBON(i), 16 + 3 * (i - 1));
    }
    passes();
    jobs();
    sentence_is(0, BOLTMARROW_HOUSE_ROW_LENGTH, 0, 46);
    count_is(0, 0, 1, 1);
    fill(DEAREST_FILL);
    for (uint16_t r = 0; r < 58; r++) expect("house: DEAREST", words[0][r], house_dearest_of(r));
}

/* FIRST and EMPTY, by words and by queries. */
static void house_marks(void) {
    call c = make(FIRST_FILL);
    expect("house: FIRST and EMPTY", run_house(&c).refusal, 0);
    for (uint16_t r = 0; r < 58; r++) expect("house: FIRST", words[0][r], house_first_of(r));
    expect("house: EMPTY", words[1][0], 0xFFFFC000);
    expect("house: EMPTY", words[1][1], 0x0303FFFF);
    for (uint16_t r = 0; r < 58; r++) {
        for (uint16_t t = 0; t < 8; t++) {
            call mark = {.op = MARK, .g = g, .rule = r, .token = t, .table = {words[0]}, .table_len = {58}};
            expect("house: a mark", run_house(&mark).field[0], house_first_of(r) >> t & 1);
        }
        call empty = {.op = RULE_MARK, .g = g, .rule = r, .table = {words[1]}, .table_len = {2}};
        expect("house: a rule that vanishes", run_house(&empty).field[0], (r >= 14 && r < 50) || r >= 56);
    }
}

static void house_costs(void) {
    call c = make(COST_FILL);
    expect("house: COST", run_house(&c).refusal, 0);
    for (uint16_t r = 0; r < 58; r++) expect("house: COST", words[0][r], house_cost_of(r));
    for (uint16_t r = 0; r < 58; r++) {
        c = make(MIN_SENTENCE_COST), c.rule = r;
        expect("house: a cost", run_house(&c).field[0], house_cost_of(r));
    }
}

/* The row in so much room. */
static void house_row_is(size_t room) {
    static const uint16_t stamp[] = {0, 4, 0, 4, 0, 2, 0, 5, 0};
    call c = make(MIN_SENTENCE);
    c.out_len = room;
    result r = run_house(&c);
    expect("house: the row's refusal", r.refusal, room < 46 ? 15 : 0);
    expect("house: the row's length", r.field[0], room < 46 ? 0 : 46);
    for (uint16_t k = 0; k < 58; k++) {
        expect("house: the row's COST", words[0][k], house_cost_of(k));
        expect("house: the row's lengths", words[1][k], house_cost_of(k));
    }
    for (size_t i = 0; i < 46 && room >= 46; i++)
        expect("house: the row", output[i], i < 9 ? stamp[i] : i < 45 ? 2 : 6);
}

/* In room of none to 99, and around that which is 46 in 16 bits. */
static void house_rows(void) {
    for (size_t room = 0; room < 100; room++) house_row_is(room);
    for (size_t room = 65536 + 44; room < 65536 + 48; room++) house_row_is(room);
}

/* 7 for each table of each call, before 9, 10 and 15; then 9, then 10. */
static void house_refusals(void) {
    for (int k = 0; k < HOUSE_CALLS; k++) {
        op o = house_ops[k];
        int rule = o == MARK || o == RULE_MARK || o == MIN_SENTENCE_COST;
        for (size_t i = 0; i < strlen(tables_of[o]); i++)
            for (int how = 0; how < 10; how++) {
                call c = make(o);
                size_t right = c.table_len[i], bad[] = {0, right - 1, right + 1, right + 65536, WORDS};
                c.table_len[i] = bad[how / 2];
                if (how % 2 && rule) c.rule = 58;
                if (how % 2) c.token = 8, c.out_len = 45;
                expect("house: length of a table", run_house(&c).refusal, 7);
            }
        for (int how = 0; how < 4 && rule; how++) {
            call c = make(o);
            c.rule = how % 2 ? 65535 : 58, c.token = how / 2 ? 8 : 7;
            expect("house: rule number", run_house(&c).refusal, 9);
            c = make(o), c.rule = 57, c.token = how % 2 ? 65535 : 8;
            expect("house: token number", run_house(&c).refusal, o == MARK ? 10 : 0);
        }
    }
}

/* Random house calls, some upon what earlier ones left. */
static void house_random(int count) {
    for (int n = 0; n < count; n++) {
        call c = make(house_ops[below(HOUSE_CALLS)]);
        for (int i = 0; i < 4; i++) {
            if (c.op != MIN_SENTENCE) c.rule = (uint16_t)(below(8) ? below(59) : next());
            c.token = (uint16_t)(below(8) ? below(9) : next());
            c.out_len = below(below(4) ? 100 : 100000);
            size_t *len = &c.table_len[below(2)], right = *len;
            if (below(6) == 0) *len = below(2) ? right + below(3) - (right > 0) : below(200);
            run_house(&c);
            *len = right;
        }
    }
}

static void house_export(void) {
    house_grammar();
    call c = make(CHECK);
    expect("house: check", run_house(&c).refusal, 0);
    house_marks();
    house_costs();
    house_rows();
    house_refusals();
    house_random(1000);
}

/* Doubling rules: lengths 65535 and 65536, and sixty that come to nothing. */
static void lengths(void) {
    begin(19, 2, 0);
    PROD(0, R(18));
    for (uint16_t r = 1; r < 17; r++) PROD(r, R(r + 1), R(r + 1));
    PROD(17, 0);
    for (uint16_t r = 2; r < 18; r++) add((uint16_t)R(r));
    end(18);
    sentence_is(18, 65535, 0, 65535);
    sentence_is(18, 65534, 15, 0);
    sentence_is(18, 100000, 0, 65535);
    sentence_is(1, 100000, 15, 0);
    expect("length", words[1][1], BOLTMARROW_LENGTH_LONG);
    passes();
    jobs();

    begin(61, 1, 0);
    PROD(0, R(1));
    for (uint16_t r = 1; r < 60; r++) PROD(r, R(r + 1), R(r + 1));
    prod(60, NULL, 0);
    sentence_is(0, 0, 0, 0);
    passes();
    jobs();
    for (uint16_t rules = 512; rules < 514; rules++) {
        begin(rules, 512, 1);
        for (uint16_t r = 0; r + 1 < rules; r++) PROD(r, R(r + 1));
        PROD((uint16_t)(rules - 1), 510);
        for (int o = 0; o < OPS; o++) {
            call c = make((op)o);
            expect("R", run(&c).refusal, rules == 513);
        }
        if (rules == 512) passes(), jobs();
    }
}

/* The dearest sentences, where the source settles too early, counts productions without a sentence, or takes a loop of
 * no cost for one without bound. Tokens cost 1 where nothing is said. */
static void dearest_differences(void) {
    enum { UNBOUNDED_ONE = BOLTMARROW_DEAREST_UNBOUNDED, NO_ONE = BOLTMARROW_DEAREST_NONE };
    /* A: a; A: B; B: a a; then S: x; S: B; B: y y y, with S below B and above it */
    begin(3, 2, 1), PROD(0, R(1)), PROD(1, 0), PROD(1, R(2)), PROD(2, 0, 0), DEAREST_IS(2, 2, 2);
    begin(3, 3, 1), PROD(0, R(1)), PROD(1, 0), PROD(1, R(2)), PROD(2, 1, 1, 1), DEAREST_IS(3, 3, 3);
    begin(3, 3, 1), PROD(0, R(2)), PROD(2, 0), PROD(2, R(1)), PROD(1, 1, 1, 1), DEAREST_IS(3, 3, 3);
    /* A: A; then A: a a; A: a B a; B: B a */
    begin(2, 2, 1), PROD(0, R(1)), PROD(1, R(1)), DEAREST_IS(NO_ONE, NO_ONE);
    begin(3, 2, 1), PROD(0, R(1)), PROD(1, 0, 0), PROD(1, 0, R(2), 0), PROD(2, R(2), 0), DEAREST_IS(2, 2, NO_ONE);
    /* A: A; A: nothing; then A: A x; A: x and A: A A; A: x, x being free, and not */
    begin(2, 2, 1), PROD(0, R(1)), PROD(1, R(1)), prod(1, NULL, 0), DEAREST_IS(0, 0);
    begin(2, 2, 0), PROD(0, R(1)), PROD(1, R(1), 0), PROD(1, 0), DEAREST_IS(0, 0);
    costs[0] = 1, DEAREST_IS(UNBOUNDED_ONE, UNBOUNDED_ONE);
    begin(2, 2, 0), PROD(0, R(1)), PROD(1, R(1), R(1)), PROD(1, 0), DEAREST_IS(0, 0);
    costs[0] = 1, DEAREST_IS(UNBOUNDED_ONE, UNBOUNDED_ONE);
    /* A: nothing; B: C; C: B A; C: nothing: as long as A cannot cost something */
    begin(4, 2, 1), PROD(0, R(2)), prod(1, NULL, 0), PROD(2, R(3)), PROD(3, R(2), R(1)), prod(3, NULL, 0);
    DEAREST_IS(0, 0, 0, 0);
    PROD(1, 0), DEAREST_IS(UNBOUNDED_ONE, 1, UNBOUNDED_ONE, UNBOUNDED_ONE);
    /* the way round through a production without a sentence: A: a; A: B a; B: A N; B: a a; N: N */
    begin(4, 2, 1), PROD(0, R(1)), PROD(1, 0), PROD(1, R(2), 0), PROD(2, R(1), R(3)), PROD(2, 0, 0), PROD(3, R(3));
    DEAREST_IS(3, 3, 2, NO_ONE);
    /* two exports, and what is dearer is the second */
    begin(3, 2, 1), PROD(0, R(1)), PROD(0, R(2)), PROD(1, 0), PROD(2, 0, 0), DEAREST_IS(2, 1, 2);
}

/* Sums around 65534. */
static void dearest_sums(void) {
    enum { MAX = BOLTMARROW_DEAREST_MAX, ABOVE_ONE = BOLTMARROW_DEAREST_ABOVE };
    for (uint32_t ones = 253; ones < 257; ones++) {
        /* A: 256 tokens of 255 and so many of 1 */
        uint32_t due = ones < 255 ? 65280 + ones : ABOVE_ONE;
        begin(2, 3, 1), costs[0] = 255, PROD(0, R(1)), add_times(0, 256), add_times(1, ones), end(1);
        DEAREST_IS(due, due);
    }
    for (uint32_t ones = 127; ones < 129; ones++) {
        /* A: B B; B: 128 tokens of 255 and so many of 1 */
        uint32_t due = ones < 128 ? MAX : ABOVE_ONE;
        begin(3, 3, 1), costs[0] = 255, PROD(0, R(1)), PROD(1, R(2), R(2));
        add_times(0, 128), add_times(1, ones), end(2), DEAREST_IS(due, due, 32640 + ones);
    }
    /* A: B b; B: 65534, and b is free, and not */
    begin(3, 4, 1), costs[0] = 255, costs[2] = 0, PROD(0, R(1)), PROD(1, R(2), 2);
    add_times(0, 256), add_times(1, 254), end(2), DEAREST_IS(MAX, MAX, MAX);
    costs[2] = 1, DEAREST_IS(ABOVE_ONE, ABOVE_ONE, MAX);
    /* A: B 16127 times, the most that finds room; B: 256 tokens of 255 */
    begin(3, 2, 255), PROD(0, R(1)), add_times(R(2), 16127), end(1), add_times(0, 256), end(2);
    expect("symbols", g.symbols_len, 16384);
    DEAREST_IS(ABOVE_ONE, ABOVE_ONE, 65280);
}

/* A: nothing; B: 257 tokens of 255, so above; C: C a; C: a, without bound; N: N, no sentence. */
static void begin_beaten(void) {
    begin(5, 2, 255), PROD(0, R(1)), prod(1, NULL, 0), add_times(0, 257), end(2);
    PROD(3, R(3), 0), PROD(3, 0), PROD(4, R(4));
}

/* A has this by what it was given besides. */
static void beaten_is(uint32_t due) {
    DEAREST_IS(due, due, BOLTMARROW_DEAREST_ABOVE, BOLTMARROW_DEAREST_UNBOUNDED, BOLTMARROW_DEAREST_NONE);
}

/* In a sum no sentence beats no bound, and no bound beats above; a production without a sentence does not count. */
static void dearest_orders(void) {
    enum { UNBOUNDED_ONE = BOLTMARROW_DEAREST_UNBOUNDED, ABOVE_ONE = BOLTMARROW_DEAREST_ABOVE };
    begin_beaten(), beaten_is(0);
    begin_beaten(), PROD(1, R(2)), beaten_is(ABOVE_ONE);
    PROD(1, R(3)), beaten_is(UNBOUNDED_ONE);
    begin_beaten(), PROD(1, R(3)), PROD(1, R(2)), beaten_is(UNBOUNDED_ONE);
    begin_beaten(), PROD(1, R(2), R(3)), beaten_is(UNBOUNDED_ONE);
    begin_beaten(), PROD(1, R(3), R(2)), beaten_is(UNBOUNDED_ONE);
    begin_beaten(), PROD(1, R(2), R(3), R(4)), PROD(1, R(4), R(3), R(2)), PROD(1, R(3), R(4), R(2)), beaten_is(0);
    PROD(1, R(2)), beaten_is(ABOVE_ONE);
    /* however slowly, C comes to more than B: A: B; A: C; B: 256 tokens of 255; C: C b; C: b, and b costs 1 */
    begin(4, 3, 1), costs[0] = 255, PROD(0, R(1)), PROD(1, R(2)), PROD(1, R(3)), add_times(0, 256), end(2);
    PROD(3, R(3), 1), PROD(3, 1), DEAREST_IS(UNBOUNDED_ONE, UNBOUNDED_ONE, 65280, UNBOUNDED_ONE);
    costs[1] = 0, DEAREST_IS(65280, 65280, 65280, 0);
}

/* 500 rules, each twice the next, and behind them a token, the first rule again, or both. */
static void dearest_doublings(void) {
    static uint32_t due[512];
    for (int how = 0; how < 4; how++) {
        begin(502, 2, how != 1), PROD(0, R(1));
        for (uint16_t r = 1; r < 501; r++) PROD(r, R(r + 1), R(r + 1));
        if (how < 3) PROD(501, 0);
        if (how > 1) PROD(501, R(1));
        for (uint32_t r = 0; r < 502; r++) {
            uint32_t once = r > 485 ? 1u << (501 - r) : BOLTMARROW_DEAREST_ABOVE;
            uint32_t some[] = {once, 0, BOLTMARROW_DEAREST_UNBOUNDED, BOLTMARROW_DEAREST_NONE};
            due[r] = some[how];
        }
        dearest_is(due);
    }
}

/* 511 rules in a row, each of them a and the next one, the last a; some with a way out too, of nothing. */
static void dearest_row(uint8_t cost, int down, int outs) {
    static uint32_t due[512];
    begin(512, 2, cost), PROD(0, R(down ? 511 : 1));
    for (uint16_t r = 1; r < 512; r++) {
        uint32_t left = down ? r : 512u - r;
        add(0);
        if (left > 1) add((uint16_t)R(down ? r - 1 : r + 1));
        end(r);
        if (outs) prod(r, NULL, 0);
        due[r] = left * cost < BOLTMARROW_DEAREST_UNBOUNDED ? left * cost : BOLTMARROW_DEAREST_ABOVE;
    }
    due[0] = due[down ? 511 : 1];
    dearest_is(due);
}

/* 511 rules in a ring, each the next one; one has a way out besides, and then goes on to the next one at a cost. */
static void dearest_ring(int down) {
    static uint32_t due[512];
    begin(512, 2, 1), PROD(0, R(1));
    for (uint16_t r = 1; r < 512; r++) PROD(r, (uint16_t)R(down ? (r + 509) % 511 + 1 : r % 511 + 1));
    clear(due, 512, BOLTMARROW_DEAREST_NONE), dearest_is(due);
    PROD(300, 0, 0, 0), clear(due, 512, 3), dearest_is(due);
    PROD(300, (uint16_t)R(down ? 299 : 301), 0), clear(due, 512, BOLTMARROW_DEAREST_UNBOUNDED), dearest_is(due);
}

/* Rows and rings numbered up and down. In a row of cost 1 each rule's entry is one above the next one's. */
static void dearest_rows_and_rings(void) {
    for (int how = 0; how < 8; how++) dearest_row(how & 4 ? 255 : 1, how & 1, how & 2);
    dearest_ring(0);
    dearest_ring(1);
}

/* The least clash by rule, lower production, higher production, token. */
static void profile_orders(void) {
    /* A: a; A: b; A: b; A: c; A: d; A: a; start: A: 0 and 5 before 1 and 2, whatever their tokens */
    begin(2, 5, 1), PROD(1, 0), PROD(1, 1), PROD(1, 1), PROD(1, 2), PROD(1, 3), PROD(1, 0), PROD(0, R(1));
    clash_is(1, 0, 5, 0);
    begin(2, 5, 1), PROD(1, 3), PROD(1, 0), PROD(1, 0), PROD(1, 1), PROD(1, 2), PROD(1, 3), PROD(0, R(1));
    clash_is(1, 0, 5, 3);
    /* A: X; A: c; A: b; A: a; X: a; X: b; start: A: 0 and 2 by b before 0 and 3 by a */
    begin(3, 4, 1), PROD(1, R(2)), PROD(1, 2), PROD(1, 1), PROD(1, 0), PROD(2, 0), PROD(2, 1), PROD(0, R(1));
    clash_is(1, 0, 2, 1);
    /* B: a; B: a; A: b; A: b; S: A B; start: S: the least rule, though its productions come later */
    begin(4, 3, 1), PROD(3, 0), PROD(3, 0), PROD(2, 1), PROD(2, 1), PROD(1, R(2), R(3)), PROD(0, R(1));
    clash_is(2, 2, 3, 1);
    /* A: a; B: a; B: b; A: b; start: A; A: b: other rules' productions between, B dead */
    begin(3, 3, 1), PROD(1, 0), PROD(2, 0), PROD(2, 1), PROD(1, 1), PROD(0, R(1)), PROD(1, 1);
    clash_is(1, 3, 5, 1);
    /* A: X; A: Y; X: c, b or a; Y: b or c: the least of the tokens shared */
    begin(4, 4, 1), PROD(0, R(1)), PROD(1, R(2)), PROD(1, R(3));
    PROD(2, 2), PROD(2, 1), PROD(2, 0), PROD(3, 1), PROD(3, 2), clash_is(1, 1, 2, 1);
}

/* Productions that vanish: FOLLOW of the owner is added, and two of them clash. */
static void profile_vanishing(void) {
    /* S: A b; A: b; A: nothing; with c behind A it passes */
    begin(3, 3, 1), PROD(0, R(1)), PROD(1, R(2), 0), PROD(2, 0), prod(2, NULL, 0), clash_is(2, 2, 3, 0);
    symbols[2] = 1, passes();
    /* S: a; U: nothing; U: b; W: U b: b follows U only where W is an export */
    begin(4, 3, 1), PROD(0, R(1)), PROD(1, 0), prod(2, NULL, 0), PROD(2, 1), PROD(3, R(2), 1), passes();
    PROD(0, R(3)), clash_is(2, 2, 3, 1);
    /* S: A B c; A: c; A: nothing; B: b; B: nothing: c follows A past B */
    begin(4, 3, 1), PROD(0, R(1)), PROD(1, R(2), R(3), 1), PROD(2, 1), prod(2, NULL, 0), PROD(3, 0), prod(3, NULL, 0);
    clash_is(2, 2, 3, 1);
    /* S: A B; A: nothing twice; B: B: A is reached and nothing follows it, so T is named */
    begin(4, 1, 1), PROD(0, R(1)), PROD(1, R(2), R(3)), prod(2, NULL, 0), prod(2, NULL, 0), PROD(3, R(3));
    clash_is(2, 2, 3, 1);
    /* S: a; dead U: E; U: nothing; U: a; E: a; E: nothing: T of the first two before a of the first and third */
    begin(4, 2, 1), PROD(0, R(1)), PROD(1, 0), PROD(2, R(3)), prod(2, NULL, 0), PROD(2, 0);
    PROD(3, 0), prod(3, NULL, 0), clash_is(2, 2, 3, 2);
    /* the same with U in the place of S: they share eof */
    symbols[0] = R(2), clash_is(2, 2, 3, 1);
}

/* T around the bits of a word: nothing twice, in a dead rule and in the start's; then a production for each token. */
static void profile_tokens(void) {
    static const uint16_t some[] = {1, 2, 31, 32, 33, 63, 64, 65, 512};
    for (int i = 0; i < 9; i++) {
        uint16_t tokens = some[i];
        begin(3, tokens, 1), PROD(0, R(1)), prod(1, NULL, 0), prod(2, NULL, 0), prod(2, NULL, 0);
        clash_is(2, 2, 3, tokens);
        symbols[0] = R(2), clash_is(2, 2, 3, tokens - 1u);
        if (tokens == 1) continue;
        begin(2, tokens, 1), PROD(0, R(1));
        for (uint16_t t = 0; t + 1 < tokens; t++) PROD(1, t);
        prod(1, NULL, 0), passes();
        PROD(1, tokens - 2), clash_is(1, tokens - 1u, tokens + 1u, tokens - 2u);
    }
    /* the most rules and productions: rules 1 to 511 are tokens 0 to 7, the last one 8 to 14 too */
    begin(512, 16, 1), PROD(0, R(1));
    for (uint16_t p = 0; p < 8 * 511; p++) PROD((uint16_t)(1 + p % 511), (uint16_t)(p / 511));
    for (uint16_t t = 8; t < 15; t++) PROD(511, t);
    passes();
    symbols[4095] = 0, clash_is(511, 511, 4095, 0);
}

/* Lists of all cheapest sentences; tokens cost 1 where nothing is said. */
static void lists_of_rules(void) {
    begin_g1();
    for (uint16_t r = 0; r < 4; r++) count_is(r, 0, 1, 1), row_refused(r, 1, 100, 16);
    ROW_IS(0, 0, 0);
    row_is(2, 0, NULL, 0);

    /* A: X Y; A: b b; X: a; X: b; Y: a; Y: c: the last place turns fastest, then comes the next production */
    begin(4, 4, 1);
    PROD(0, R(1)), PROD(1, R(2), R(3)), PROD(2, 0), PROD(2, 1), PROD(3, 0), PROD(3, 2), PROD(1, 1, 1);
    count_is(1, 0, 5, 5), count_is(0, 0, 5, 5), count_is(2, 0, 2, 2);
    ROW_IS(1, 0, 0, 0), ROW_IS(1, 1, 0, 2), ROW_IS(1, 2, 1, 0), ROW_IS(1, 3, 1, 2), ROW_IS(0, 4, 1, 1);
    row_refused(1, 5, 100, 16), row_refused(1, 65536, 100, 16), row_refused(1, 0xFFFFFFFF, 0, 16);

    /* a sentence with two derivations: A: a; A: X; X: a */
    begin(3, 2, 1), PROD(0, R(1)), PROD(1, 0), PROD(1, R(2)), PROD(2, 0);
    count_is(1, 0, 2, 2), ROW_IS(1, 0, 0), ROW_IS(1, 1, 0);

    /* A: a; A: A has a sentence and 14 here; so has B: a; B: A, by a cheapest production that is not its first choice */
    begin(3, 2, 1), PROD(0, R(2)), PROD(1, 0), PROD(1, R(1)), PROD(2, 0), PROD(2, R(1));
    for (uint16_t r = 0; r < 3; r++) {
        sentence_is(r, 1, 0, 1);
        count_is(r, 14, 0, CIRCULAR), row_refused(r, 0, 100, 14), row_refused(r, 9, 0, 14);
    }
    /* with B: A a in the place of B: A, which is dearer, B does not come to the circle */
    begin(3, 2, 1), PROD(0, R(2)), PROD(1, 0), PROD(1, R(1)), PROD(2, 0), PROD(2, R(1), 0);
    count_is(2, 0, 1, 1), count_is(1, 14, 0, CIRCULAR);

    /* no sentence, and too dear */
    begin(3, 2, 255), PROD(0, R(1)), PROD(1, R(1)), PROD(2, R(1));
    count_is(2, 12, 0, CIRCULAR), row_refused(2, 0, 0, 12);
    begin(2, 2, 255), PROD(0, R(1));
    add_times(0, 258), end(1), count_is(1, 13, 0, CIRCULAR), row_refused(1, 0, 0, 13);
}

/* A: B C, of so many rows by productions of nothing, and one row of f more, f being free. */
static void begin_product(int first, int second, int more) {
    begin(4, 2, 0);
    PROD(0, R(1)), PROD(1, R(2), R(3));
    for (int i = 0; i < first; i++) prod(2, NULL, 0);
    for (int i = 0; i < second; i++) prod(3, NULL, 0);
    if (more) PROD(1, 0);
}

static void long_lists(void) {
    begin_product(255, 257, 0);
    count_is(1, 0, 65535, 65535), row_is(1, 65534, NULL, 0), row_refused(1, 65535, 0, 16);
    begin_product(255, 257, 1);
    count_is(1, 16, 0, MANY), count_is(2, 0, 255, 255), row_refused(1, 0, 100, 16);
    begin_product(256, 256, 0), count_is(0, 16, 0, MANY), row_refused(0, 0, 0, 16);
    begin_product(254, 258, 1), count_is(1, 0, 65533, 65533);
    ROW_IS(1, 65532, 0), row_refused(1, 65532, 0, 15), row_refused(1, 65533, 0, 16), row_is(1, 65531, NULL, 0);

    /* two rows below 511 levels: each rule is the next one, the last is a or b */
    begin(512, 3, 1);
    for (uint16_t r = 0; r < 511; r++) PROD(r, R(r + 1));
    PROD(511, 0), PROD(511, 1);
    count_is(0, 0, 2, 2), ROW_IS(0, 1, 1);

    /* sixty doublings: of nothing 1 row, of two nothings 2, 4, 16, 256, 65536 and more */
    for (int twice = 0; twice < 2; twice++) {
        begin(61, 1, 0);
        PROD(0, R(1));
        for (uint16_t r = 1; r < 60; r++) PROD(r, R(r + 1), R(r + 1));
        for (int i = 0; i <= twice; i++) prod(60, NULL, 0);
        count_is(57, 0, twice ? 256 : 1, twice ? 256 : 1);
        count_is(0, twice ? 16 : 0, !twice, twice ? MANY : 1);
    }
    /* of a free token: none, 131072 of it, which is too long, and 65535 */
    begin(20, 2, 0);
    PROD(0, R(1)), prod(1, NULL, 0), PROD(1, R(2));
    for (uint16_t r = 2; r < 19; r++) PROD(r, R(r + 1), R(r + 1));
    PROD(19, 0);
    for (uint16_t r = 4; r < 20; r++) add((uint16_t)R(r));
    end(1);
    count_is(1, 0, 3, 3), row_is(1, 0, NULL, 0), row_refused(1, 1, 100000, 15), row_refused(2, 0, 100000, 15);
    row_refused(1, 2, 65534, 15), row_refused(1, 3, 0, 16);
    call c = make(MIN_SENTENCE_AT);
    c.rule = 1, c.k = 2, c.out_len = 65535;
    expect("row of 65535", run(&c).field[0], 65535);
}

/* Every call on the grammar at hand gives this refusal. */
static void all_refuse(uint32_t number) {
    for (int o = 0; o < OPS; o++) {
        call c = make((op)o);
        expect("refusal of a grammar", run(&c).refusal, number);
        expect("value beside it", run(&c).field[0], 0);
    }
    call c = make_slice((record){65535, 65535, 1, 65535}, below(2));
    memset(c.table_len, 0, sizeof c.table_len);
    expect("refusal of a grammar before 17 and 7", run(&c).refusal, number);
}

/* The slice is refused so: with this record and with each done one, of each n. */
static void slice_refused(call *c, uint32_t refusal) {
    static const uint16_t done[] = {0, 1, 2, 65535};
    static const uint32_t visits[] = {0, 1, 6, UINT32_MAX};
    for (int i = 0; i < 16; i++) {
        c->job.done = done[i / 4], c->n = visits[i % 4];
        result r = run(c);
        expect("refusal of a slice", r.refusal, refusal);
        expect("value beside it", r.field[0], 0);
    }
}

/* 17 for each kind and next production that is none, on tables that are right and on such as would be 7. */
static void bad_records(void) {
    begin_g1();
    for (int k = 0; k < JOBS; k++)
        for (int how = 0; how < 2; how++) {
            call c = make_slice((record){job_kinds[k], how ? 65535 : 6, (uint16_t)below(3), 0}, 0);
            slice_refused(&c, 17);
            memset(c.table_len, 0, sizeof c.table_len), slice_refused(&c, 17);
        }
    static const uint16_t none[] = {1, 5, 6, 256, 257, 258, 32768, 65535}, nexts[] = {0, 5, 6, 65535};
    for (int i = 0; i < 32; i++) {
        call c = make(SLICE);
        c.job = (record){none[i / 4], nexts[i % 4], (uint16_t)below(3), 0};
        slice_refused(&c, 17);
        memset(c.table_len, 0, sizeof c.table_len), slice_refused(&c, 17);
    }
}

/* 7 for each table of the kind; a table of another kind may be so long. */
static void tables_of_kinds(void) {
    begin_g1();
    for (int k = 0; k < JOBS; k++)
        for (size_t i = 0; i < TABLES; i++)
            for (int how = 0; how < 4; how++) {
                call c = make_slice((record){job_kinds[k], (uint16_t)below(6), (uint16_t)below(3), 0}, 20);
                size_t right = length_of(tables_of[SLICE][i], &g), bad[] = {0, right - 1, right + 1, right + 65536};
                c.table_len[i] = bad[how];
                if (due(&c, i))
                    slice_refused(&c, 7);
                else
                    expect("a table of another kind", run(&c).refusal, 0);
            }
}

static void bad_grammars(void) {
    begin_g1(), g.rules = 1, all_refuse(1);
    begin_g1(), g.rules = 0, all_refuse(1);
    begin_g1(), g.rules = 65535, all_refuse(1);
    begin_g1(), starts[0] = 1, all_refuse(2);
    begin_g1(), starts[6] = 6, all_refuse(2);
    begin_g1(), starts[2] = 2, all_refuse(2);
    begin_g1(), g.starts_len = 6, all_refuse(2);
    begin_g1(), g.starts_len = 8, all_refuse(2);
    begin_g1(), owners[1] = 4, all_refuse(3);
    begin_g1(), owners[1] = 65535, all_refuse(3);
    begin_g1(), owners[1] = owners[2] = 1, all_refuse(4);
    begin_g1(), symbols[1] = 3, all_refuse(5);
    begin_g1(), symbols[1] = R(4), all_refuse(5);
    begin_g1(), symbols[1] = 65535, all_refuse(5);
    begin_g1(), symbols[6] = 0, all_refuse(6);
    begin_g1(), symbols[0] = R(0), all_refuse(6);
    begin_g1(), owners[2] = 0, all_refuse(6);
    begin_g1(), starts[5] = 7, all_refuse(6);
    begin_g1(), starts[4] = starts[5] = 5, all_refuse(6);
    begin_g1(), prod(0, NULL, 0), all_refuse(6);
    begin_g1(), PROD(0, R(1), R(2)), all_refuse(6);
    begin_g1(), PROD(0, R(1), 0), all_refuse(6);
    begin_g1(), PROD(0, 0), all_refuse(6);
    begin_g1(), PROD(0, R(0)), all_refuse(6);
    begin_g1(), PROD(0, R(1)), symbols[6] = 0, all_refuse(6);
    begin_g1(), PROD(0, 3), all_refuse(5);
    begin_g1(), PROD(0, R(4)), all_refuse(5);
}

/* Every list of every call empty, too long by one, and far too long, also by 65536: no length is cut to 16 bits. */
static void list_lengths(void) {
    static const size_t far[] = {70000, 100000, 65536};
    for (int o = 0; o < OPS; o++) {
        for (int list = 0; list < 4; list++)
            for (int how = 0; how < 4; how++) {
                begin_g1();
                size_t *of[4] = {&g.prods, &g.starts_len, &g.symbols_len, &g.tokens}, *len = of[list];
                *len = how == 0 ? 0 : far[how - 1] + (how == 3 ? *len : 0);
                call c = make((op)o);
                expect("length of a grammar's list", run(&c).refusal, list == 1 ? 2 : 1);
            }
        for (size_t i = 0; i < strlen(tables_of[o]); i++)
            for (int how = 0; how < 5; how++) {
                begin_g1();
                call c = make((op)o);
                size_t right = c.table_len[i], bad[] = {0, right - 1, right + 1, right + 65536, WORDS};
                c.table_len[i] = bad[how];
                expect("length of a table", run(&c).refusal, due(&c, i) ? 7 : 0);
            }
    }
    begin_g1();
    g.prods = 70000, g.starts_len = 70001;
    all_refuse(1);
}

/* Numbers just past their ends and far past them. */
static void numbers(void) {
    for (int o = 0; o < OPS; o++)
        for (int far = 0; far < 2; far++) {
            int rule = o == MARK || o == RULE_MARK || o == HAS_PATH || o == MIN_SENTENCE_COST || o == MIN_SENTENCE ||
                       o == COUNT_MIN_SENTENCES || o == MIN_SENTENCE_AT;
            int visit = o == FIRST_VISIT || o == PRODUCTIVE_VISIT || o == COST_VISIT || o == FOLLOW_VISIT;
            call c;
            begin_g1();
            c = make((op)o), c.rule = far ? 65535 : 4;
            expect("rule number", run(&c).refusal, rule ? 9 : 0);
            c = make((op)o), c.to = far ? 65535 : 4;
            expect("second rule number", run(&c).refusal, o == HAS_PATH ? 9 : 0);
            c = make((op)o), c.token = far ? 65535 : 4;
            expect("token number", run(&c).refusal, o == MARK ? 10 : 0);
            c = make((op)o), c.prod = far ? 65535 : 6;
            expect("production number", run(&c).refusal, visit || o == PRODUCTION ? 11 : 0);
            c = make((op)o), c.mode = far ? 65535 : 0;
            expect("mode", run(&c).refusal, o == FOLLOW_VISIT || o == FOLLOW_FILL ? 8 : 0);
            c = make((op)o), c.version = far ? 65535 : 0;
            expect("version", run(&c).refusal, o == WRITE_BLOCKS ? 26 : 0);
            c = make((op)o), c.mode = far ? 3 : 1, c.prod = 6;
            expect("mode and production", run(&c).refusal,
                   o == FOLLOW_VISIT || o == FOLLOW_FILL ? 8 : visit || o == PRODUCTION ? 11 : 0);
            c = make((op)o), c.rule = 4, c.token = 4;
            expect("rule and token", run(&c).refusal, rule ? 9 : 0);
        }
}

/* 8 for each mode but 2, behind 7 and before 11. */
static void modes(void) {
    static const uint16_t other[] = {0, 1, 3, 257, 258, 32769, 32770, 65535};
    begin_g1();
    for (int i = 0; i < 8; i++)
        for (int visit = 0; visit < 2; visit++) {
            call c = make(visit ? FOLLOW_VISIT : FOLLOW_FILL);
            c.mode = other[i];
            for (c.prod = 0; c.prod < 8; c.prod++) expect("a mode that there is not", run(&c).refusal, 8);
            for (size_t t = 0; t < 4; t++) {
                size_t right = c.table_len[t];
                c.table_len[t] = below(2) ? right + 1 : right - 1;
                expect("a table's length before the mode", run(&c).refusal, 7);
                c.table_len[t] = right;
            }
        }
}

/* The reader on lent lists full of random numbers. */
static uint8_t file[300 * BLOCK];
static size_t file_len;
static uint16_t read_owners[70000], read_starts[70000], read_symbols[70000];
static uint8_t read_costs[70000];

static result read_into(size_t a, size_t b, size_t c, size_t d) {
    lists to = {read_owners, read_starts, read_symbols, read_costs, a, b, c, d};
    for (size_t i = 0; i < 70000; i += 1 + below(200)) {
        read_owners[i] = (uint16_t)next(), read_starts[i] = (uint16_t)next(), read_symbols[i] = (uint16_t)next();
        read_costs[i] = (uint8_t)next();
    }
    uint8_t *f = lend(0, file, file_len, 1);
    uint16_t *o = lend(1, to.owners, a, 2), *s = lend(2, to.starts, b, 2), *y = lend(3, to.symbols, c, 2);
    uint8_t *k = lend(4, to.costs, d, 1);
    boltmarrow_counts n = boltmarrow_read_blocks(f, file_len, o, a, s, b, y, c, k, d);
    result got = {n.refusal, {n.rules, n.tokens, n.prods, n.symbols, n.version}};
    result want = read_model(file, file_len, &to);
    calls++;
    expect("reader's refusal", got.refusal, want.refusal);
    for (int i = 0; i < 5; i++) expect("reader's count", got.field[i], want.field[i]);
    returned("reader's file", 0, file);
    returned("reader's owners", 1, to.owners);
    returned("reader's starts", 2, to.starts);
    returned("reader's symbols", 3, to.symbols);
    returned("reader's costs", 4, to.costs);
    return got;
}

static uint32_t read_refusal(void) { return read_into(4096, 4097, 16384, 512).refusal; }

static void seal(void) { put_checks(file, file_len); }

/* Makes the block file of the grammar at hand, of version 1 or 2. */
static void make_version(int version) {
    memset(file, 0, sizeof file);
    file_len = write_file(&g, version, file);
}

static void make_file(void) { make_version(1); }

static void g1_file(void) {
    begin_g1();
    make_file();
}

/* A grammar at the limits. */
static void limits(void) {
    begin(512, 512, 7);
    PROD(0, R(1));
    for (uint32_t p = 1; p < 4096; p++) {
        for (int i = 0; i < 4 && g.symbols_len < 16384; i++) add((uint16_t)below(511));
        end((uint16_t)(1 + p % 511));
    }
    while (g.symbols_len < 16384) add(3), starts[4096]++;
}

static void reader(void) {
    g1_file();
    expect("G1's length", file_len, 512);
    expect("G1's check", pair(file + 510), 459);
    result r = read_into(4096, 4097, 16384, 512);
    expect("G1's counts", r.field[0] * 1000 + r.field[1] * 100 + r.field[2] * 10 + r.field[3], 4467);
    expect("G1's lists", !memcmp(read_owners, owners, 12) && !memcmp(read_starts, starts, 14) &&
                             !memcmp(read_symbols, symbols, 14) && !memcmp(read_costs, costs, 4), 1);
    static const size_t right[4] = {4096, 4097, 16384, 512}, bad[] = {0, 1, 65536, 70000};
    for (int list = 0; list < 4; list++)
        for (int how = 0; how < 6; how++) {
            size_t n[4];
            memcpy(n, right, sizeof n);
            n[list] = how < 4 ? bad[how] : how == 4 ? right[list] - 1 : right[list] + 1;
            expect("reader's lists", read_into(n[0], n[1], n[2], n[3]).refusal, 7);
        }
    for (file_len = 0; file_len < 1100; file_len++)
        if (file_len != 512 && file_len != 1024) expect("file's length", read_refusal(), 20);
    file_len = 99 * BLOCK, expect("99 blocks", read_refusal(), 20);
    file_len = 65536 + 512, expect("129 blocks", read_refusal(), 20);
    file_len = sizeof file, expect("300 blocks", read_refusal(), 20);
    for (size_t at = 0; at < 512; at++) {
        g1_file(), file[at] ^= 1, expect("a flipped bit", read_refusal(), 21);
        /* past the number, the four counts, 20 numbers and 4 costs, all is spare */
        if (at >= 2 + 8 + 40 + 4 && at < 510) seal(), expect("a spare byte", read_refusal(), 23);
    }
    g1_file(), file[0] = 1, seal(), expect("block number", read_refusal(), 22);
    g1_file(), file[1] = 1, seal(), expect("block number", read_refusal(), 22);
    for (int i = 0; i < 4; i++) {
        g1_file(), file[2 + 2 * i] = 0, seal(), expect("a count of 0", read_refusal(), 1);
        g1_file(), file[3 + 2 * i] = 255, seal(), expect("a count past its limit", read_refusal(), 1);
    }
    g1_file(), file_len = 1024, file[512] = 1, seal(), expect("a block too many", read_refusal(), 23);
    g1_file(), file[7] = 2, seal(), expect("blocks missing", read_refusal(), 23);
    begin_g1(), starts[2] = 2, make_file(), expect("file", read_refusal(), 2);
    begin_g1(), owners[1] = 4, make_file(), expect("file", read_refusal(), 3);
    begin_g1(), owners[1] = owners[2] = 1, make_file(), expect("file", read_refusal(), 4);
    begin_g1(), symbols[1] = 3, make_file(), expect("file", read_refusal(), 5);
    begin_g1(), symbols[0] = R(0), make_file(), expect("file", read_refusal(), 6);
    limits();
    make_file();
    expect("the largest file", file_len, 98 * BLOCK);
    expect("the largest file", read_refusal(), 0);
}

/* The file of G1 in version 2, with a token that costs nothing. */
static void free_file(size_t token) {
    begin_g1();
    costs[token] = 0;
    make_version(2);
}

/* Version 2: its counts, the numbers that its R field has besides, and 25 in its place. */
static void reader_versions(void) {
    begin_g1(), make_version(2);
    expect("version 2's field", file[2] + 256 * file[3], 32772);
    expect("version 2's check", pair(file + 510), 587);
    result r = read_into(4096, 4097, 16384, 512);
    expect("version 2's R", r.field[0], 4);
    expect("version 2", r.field[4], 2);
    g1_file(), r = read_into(4096, 4097, 16384, 512);
    expect("version 1", r.field[4], 1);
    static const uint16_t out[] = {0, 1, 513, 600, 16384, 32767};
    for (int i = 0; i < 6; i++)
        g1_file(), put_pair(file + 2, out[i] + VERSION_2), seal(), expect("version 2, R out", read_refusal(), 1);
    for (size_t token = 0; token < 4; token++) {
        free_file(token), expect("a free token", read_refusal(), token < 3 ? 25 : 0);
        make_version(1), expect("a free token in version 1", read_refusal(), 0);
    }
    free_file(0), expect("7 before 25", read_into(4096, 4097, 16384, 511).refusal, 7);
    free_file(0), file_len = 513, expect("20 before 25", read_refusal(), 20);
    free_file(0), file[510] ^= 1, expect("21 before 25", read_refusal(), 21);
    free_file(0), file[0] = 1, seal(), expect("22 before 25", read_refusal(), 22);
    free_file(0), file[2] = 0, seal(), expect("1 before 25", read_refusal(), 1);
    free_file(0), file[54] = 1, seal(), expect("23 before 25", read_refusal(), 23);
    for (int free = 0; free < 2; free++) {
        begin_g1(), costs[1] = !free, starts[2] = 2, make_version(2), expect("25 and 2", read_refusal(), free ? 25 : 2);
        begin_g1(), costs[1] = !free, owners[1] = 4, make_version(2), expect("25 and 3", read_refusal(), free ? 25 : 3);
        begin_g1(), costs[1] = !free, owners[1] = owners[2] = 1, make_version(2);
        expect("25 and 4", read_refusal(), free ? 25 : 4);
        begin_g1(), costs[1] = !free, symbols[1] = 3, make_version(2), expect("25 and 5", read_refusal(), free ? 25 : 5);
        begin_g1(), costs[1] = !free, symbols[0] = R(0), make_version(2);
        expect("25 and 6", read_refusal(), free ? 25 : 6);
    }
    begin(2, 1, 0), PROD(0, R(1)), prod(1, NULL, 0), make_version(2), expect("one token, free", read_refusal(), 0);
}

static void write_version(uint16_t version, size_t room, uint32_t refusal, uint32_t value) {
    call c = make(WRITE_BLOCKS);
    c.version = version;
    c.bytes_len = room;
    result r = run(&c);
    expect("writer's refusal", r.refusal, refusal);
    expect("writer's bytes", r.field[0], value);
}

static void write_is(size_t room, uint32_t refusal, uint32_t value) { write_version(1, room, refusal, value); }

/* What was written last is read as the grammar at hand, in that version. */
static void reads_back(uint32_t version) {
    file_len = file_bytes(8 + 2 * (g.prods + g.starts_len + g.symbols_len) + g.tokens);
    memcpy(file, bytes, file_len);
    result r = read_into(4096, 4097, 16384, 512);
    expect("read again: rules", r.field[0], g.rules);
    expect("read again: tokens", r.field[1], g.tokens);
    expect("read again: productions", r.field[2], g.prods);
    expect("read again: symbols", r.field[3], g.symbols_len);
    expect("read again: version", r.field[4], version);
    expect("read again: owners", !memcmp(read_owners, owners, 2 * g.prods), 1);
    expect("read again: starts", !memcmp(read_starts, starts, 2 * g.starts_len), 1);
    expect("read again: symbols", !memcmp(read_symbols, symbols, 2 * g.symbols_len), 1);
    expect("read again: costs", !memcmp(read_costs, costs, g.tokens), 1);
}

static void writer(void) {
    begin_g1();
    for (size_t room = 0; room < 1100; room++) write_is(room, room < 512 ? 24 : 0, room < 512 ? 0 : 512);
    expect("G1's check", pair(bytes + 510), 459);
    reads_back(1);
    begin_exports(), write_is(512, 0, 512);
    expect("two exports' check", pair(bytes + 510), 763);
    reads_back(1);
    /* 1 to 6 come before 24 */
    static const size_t some[] = {0, 511, 600};
    for (int i = 0; i < 3; i++) {
        begin_g1(), g.rules = 1, write_is(some[i], 1, 0);
        begin_g1(), starts[2] = 2, write_is(some[i], 2, 0);
        begin_g1(), owners[1] = 4, write_is(some[i], 3, 0);
        begin_g1(), owners[1] = owners[2] = 1, write_is(some[i], 4, 0);
        begin_g1(), symbols[1] = 3, write_is(some[i], 5, 0);
        begin_g1(), symbols[0] = R(0), write_is(some[i], 6, 0);
    }
    /* G1 with other than 4 tokens: 48 bytes of numbers and so many costs, so that 460 fill a block */
    for (size_t tokens = 459; tokens < 462; tokens++) {
        size_t len = tokens < 461 ? 512 : 1024;
        begin_g1(), g.tokens = tokens;
        write_is(len - 1, 24, 0);
        write_is(len + 1, 0, (uint32_t)len);
        write_is(len, 0, (uint32_t)len);
        reads_back(1);
    }
    limits();
    write_is(98 * BLOCK - 1, 24, 0);
    write_is(98 * BLOCK + 1, 0, 98 * BLOCK);
    write_is(98 * BLOCK, 0, 98 * BLOCK);
    reads_back(1);
}

/* 26 before all others, 1 to 6 before 25, 25 before 24. */
static void writer_versions(void) {
    static const uint16_t other[] = {0, 3, 257, 258, 32769, 32770, 65535};
    for (int i = 0; i < 7; i++) {
        begin_g1(), write_version(other[i], 512, 26, 0);
        begin_g1(), costs[0] = 0, g.rules = 1, write_version(other[i], 511, 26, 0);
    }
    for (size_t room = 500; room < 600; room++) {
        begin_g1(), write_version(2, room, room < 512 ? 24 : 0, room < 512 ? 0 : 512);
        begin_g1(), costs[2] = 0, write_version(2, room, 25, 0);
    }
    begin_g1(), write_version(2, 512, 0, 512);
    expect("version 2's check", pair(bytes + 510), 587);
    reads_back(2);
    for (int token = 0; token < 4; token++) {
        begin_g1(), costs[token] = 0, write_version(2, 600, token < 3 ? 25 : 0, token < 3 ? 0 : 512);
        if (token == 3) reads_back(2);
        write_version(1, 600, 0, 512);
        reads_back(1);
    }
    begin_g1(), costs[0] = 0, g.rules = 1, write_version(2, 511, 1, 0);
    begin_g1(), costs[0] = 0, starts[2] = 2, write_version(2, 511, 2, 0);
    begin_g1(), costs[0] = 0, owners[1] = 4, write_version(2, 511, 3, 0);
    begin_g1(), costs[0] = 0, owners[1] = owners[2] = 1, write_version(2, 511, 4, 0);
    begin_g1(), costs[0] = 0, symbols[1] = 3, write_version(2, 511, 5, 0);
    begin_g1(), costs[0] = 0, symbols[0] = R(0), write_version(2, 511, 6, 0);
    begin(2, 1, 0), PROD(0, R(1)), prod(1, NULL, 0), write_version(2, 512, 0, 512);
    reads_back(2);
    limits();
    write_version(2, 98 * BLOCK - 1, 24, 0);
    write_version(2, 98 * BLOCK, 0, 98 * BLOCK);
    reads_back(2);
}

/* A well-formed grammar, small or with rows of several words; in some rule 0 owns several productions, in some all
 * tokens cost the same, so that many productions are cheapest. In a layered one a rule holds only the next three rules,
 * so that sentences grow long and dear. */
static void random_grammar(void) {
    uint16_t rules = (uint16_t)(2 + below(below(4) ? 7 : 69));
    size_t tokens = 1 + below(below(4) ? 6 : 70), extra = below(rules + 4);
    int layered = below(3) == 0;
    begin(rules, tokens, 0);
    for (size_t i = 0; i < tokens; i++) costs[i] = (uint8_t)(below(3) ? below(4) : below(256));
    if (below(4) == 0) memset(costs, (int)below(2), tokens);
    for (size_t p = 0; p < rules + extra; p++) {
        uint16_t owner = (uint16_t)(p < rules ? (p + 1) % rules : below(8) ? 1 + below(rules - 1u) : 0);
        uint16_t from = layered ? (uint16_t)(owner + 1) : 1;
        size_t len = owner == 0 ? 1 : layered ? 1 + below(4) : below(5);
        for (size_t i = 0; i < len; i++) {
            uint32_t rest = (uint32_t)rules - from, near = layered && rest > 3 ? 3 : rest;
            int token = owner != 0 && tokens > 1 && (rest == 0 || below(layered ? 8 : 2) == 0);
            if (token)
                add((uint16_t)below((uint32_t)tokens - 1));
            else if (rest)
                add((uint16_t)R(from + below(near)));
        }
        end(owner);
    }
}

static void damage(void) {
    switch (below(5)) {
    case 0:
        owners[below((uint32_t)g.prods)] = (uint16_t)below(g.rules + 2u);
        break;
    case 1:
        starts[below((uint32_t)g.starts_len)] = (uint16_t)below((uint32_t)g.symbols_len + 2);
        break;
    case 2:
        symbols[below((uint32_t)g.symbols_len)] =
            (uint16_t)(below(2) ? R(below(g.rules + 2u)) : below((uint32_t)g.tokens + 2));
        break;
    case 3:
        g.rules = (uint16_t)(g.rules + below(3) - 1);
        break;
    default:
        g.tokens = below(2) ? g.tokens + 1 : g.tokens - 1;
    }
}

/* No token but eof costs nothing, so that version 2 takes the grammar at hand. */
static void costly(void) {
    for (size_t t = 0; t + 1 < g.tokens; t++) costs[t] |= 1;
}

/* Room for the file of the grammar at hand, a byte less or more, or any. */
static size_t any_room(void) {
    size_t len = file_bytes(8 + 2 * (g.prods + g.starts_len + g.symbols_len) + g.tokens);
    return below(3) && len < ROOM ? len - 1 + below(3) : below(below(2) ? 2000 : ROOM);
}

/* Any record: most are good. */
static record any_record(void) {
    record job = {job_kinds[below(JOBS)], (uint16_t)below((uint32_t)g.prods + 1), (uint16_t)below(3), 0};
    if (below(8) == 0) job.kind = (uint16_t)(below(2) ? below(KINDS + 1) : next());
    if (below(16) == 0) job.next = (uint16_t)next();
    if (below(8) == 0) job.done = (uint16_t)below(3), job.changed = (uint16_t)next();
    return job;
}

/* Random calls: tables of random words, then calls of one kind upon what earlier ones left. */
static void random_calls(int grammars) {
    for (int n = 0; n < grammars; n++) {
        random_grammar();
        if (below(3) == 0) costly();
        if (below(4) == 0) damage();
        call c = make((op)below(OPS));
        /* visits of FOLLOW read any row, and in half of the cases the finished one */
        if (c.op == FOLLOW_VISIT && below(2) && check_of(&g) == 0) fill_reached(&g, words[3]);
        for (int i = 0; i < 12; i++) {
            c.rule = (uint16_t)below(g.rules + 1u), c.to = (uint16_t)below(g.rules + 1u);
            c.token = (uint16_t)below((uint32_t)g.tokens + 1), c.prod = (uint16_t)below((uint32_t)g.prods + 1);
            c.mode = (uint16_t)(below(8) ? 2 : below(4)), c.out_len = below(below(8) ? 60 : 100000);
            c.bytes_len = any_room(), c.version = (uint16_t)(below(8) ? 1 + below(2) : below(4));
            c.k = below(4) ? below(below(2) ? 4 : 40) : below(2) ? 65530 + below(12) : next();
            c.n = below(8) ? below(below(2) ? 4 : 200) : UINT32_MAX;
            if (below(3) == 0) c.job = any_record();
            size_t *len = &c.table_len[below(TABLES)], right = *len;
            if (below(12) == 0) *len = right + below(3) - (right > 0);
            run(&c);
            *len = right;
        }
        if (g.rules && g.tokens < 60000 && below(3) == 0) {
            if (below(3) == 0) costly();
            make_version(1 + (int)below(2));
            if (below(2)) file[below((uint32_t)file_len)] ^= (uint8_t)(1u << below(8));
            if (below(2)) seal();
            if (below(8) == 0) file_len += BLOCK;
            read_refusal();
        }
    }
}

/* Jobs on random grammars, and on one at the limits. */
static void random_jobs(int grammars) {
    for (int n = 0; n < grammars; n++) {
        random_grammar();
        if (check_of(&g) == 0) jobs();
    }
    limits();
    jobs();
    profiled();
}

/* A well-formed grammar in which most productions start with a token that is their rule's own; some vanish, some start
 * with a rule, and in some grammars rule 0 owns two productions or a rule is dead. */
static void random_reader(void) {
    static const size_t some[] = {8, 20, 31, 32, 33, 64, 65};
    uint16_t rules = (uint16_t)(3 + below(5)), count = (uint16_t)(rules * (1 + below(6)));
    begin(rules, some[below(7)], 1);
    PROD(0, (uint16_t)R(1 + below(rules - 1u)));
    if (below(3) == 0) PROD(0, (uint16_t)R(1 + below(rules - 1u)));
    for (uint16_t p = 0; p < count; p++) {
        uint16_t owner = (uint16_t)(1 + p % (rules - 1)), token = (uint16_t)(p * 5 % (g.tokens - 1));
        uint32_t how = below(20);
        if (how == 1) add((uint16_t)R(1 + below(rules - 1u)));
        if (how > 0) add(how == 2 ? (uint16_t)below((uint32_t)g.tokens - 1) : token);
        if (below(2)) add((uint16_t)(below(2) ? below((uint32_t)g.tokens - 1) : R(1 + below(rules - 1u))));
        end(owner);
    }
}

/* The profile of random grammars: many pass, many clash, and in some T is named. */
static void random_profiles(int grammars) {
    int pass = 0, clash = 0, none_shared = 0;
    for (int n = 0; n < grammars; n++) {
        if (n % 2)
            random_reader();
        else
            random_grammar();
        if (check_of(&g)) continue;
        result r = profiled();
        pass += r.field[0] == 0;
        clash += r.field[0] == 1;
        none_shared += r.field[0] == 1 && r.field[4] == g.tokens;
    }
    expect("profiles that pass", pass > grammars / 8, 1);
    expect("profiles that clash", clash > grammars / 8, 1);
    expect("profiles that name T", none_shared > 0, 1);
}

/* Which of four an entry of DEAREST is: a cost, without bound, no sentence, above. */
static int dearest_kind(uint32_t entry) {
    return entry == BOLTMARROW_DEAREST_UNBOUNDED ? 1
           : entry == BOLTMARROW_DEAREST_NONE    ? 2
           : entry == BOLTMARROW_DEAREST_ABOVE   ? 3
                                                 : 0;
}

/* DEAREST of random grammars, entries of each kind, filled again over what it left; and of a grammar at the limits. */
static void random_dearest(int grammars) {
    int seen[4] = {0};
    for (int n = 0; n < grammars; n++) {
        random_grammar();
        if (check_of(&g)) continue;
        call c = make(DEAREST_FILL);
        run(&c);
        for (size_t r = 0; r < g.rules; r++) seen[dearest_kind(words[0][r])]++;
        run(&c);
    }
    for (int kind = 0; kind < 4; kind++) expect("entries of a kind", seen[kind] > grammars / 8, 1);
    limits();
    fill(DEAREST_FILL);
    for (size_t r = 0; r < g.rules; r++) expect("DEAREST at the limits", words[0][r] <= BOLTMARROW_DEAREST_MAX, 1);
}

int main(void) {
    expect("fences", (uint64_t)build_fences(), 1);
    g1();
    g2();
    g3_and_g4();
    g5_and_g6();
    exports();
    more_exports();
    dear_and_unknown();
    dead();
    house_export();
    lengths();
    dearest_differences();
    dearest_sums();
    dearest_orders();
    dearest_doublings();
    dearest_rows_and_rings();
    profile_orders();
    profile_vanishing();
    profile_tokens();
    lists_of_rules();
    long_lists();
    bad_grammars();
    list_lengths();
    numbers();
    modes();
    bad_records();
    tables_of_kinds();
    reader();
    reader_versions();
    writer();
    writer_versions();
    random_calls(4000);
    random_jobs(100);
    random_profiles(1000);
    random_dearest(1000);
    printf("test: %lu calls, %lu checks, %lu wrong\n", calls, checks, wrong);
    return wrong != 0;
}
