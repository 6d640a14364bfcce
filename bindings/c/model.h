/* Document 01 once more in C, with the file writer, the versions, the several exports, the reached rules, the lists of
 * cheapest sentences, the dear entries, the slices, the profile and the dearest sentences of document 02, plain and
 * slow, to compare the library with. It is written from those texts, with the readings of their open points in
 * docs/DECISIONS.md, and from no crate; but the slices' crate had been read before. A call names an exported function
 * and holds what it is lent; `model` makes the call on those lists. */
#include <stddef.h>
#include <stdint.h>
#include <string.h>

enum { RULE = 32768, MOST = 65535 };
enum { DEAR = 65536, UNKNOWN = 65537, LONG_ONE = 65536, UNGROUNDED = 65537, MANY = 65536, CIRCULAR = 65537 };
enum { UNBOUNDED = 65535, NO_SENTENCE = 65536, ABOVE = 65537 }; /* in DEAREST, where costs go up to 65534 */
enum { VERSION_2 = 32768 }; /* what a version 2 file has added to its R field */

typedef struct {
    uint16_t rules;
    const uint16_t *owners, *starts, *symbols;
    const uint8_t *costs;
    size_t prods, starts_len, symbols_len, tokens;
} grammar;

typedef enum {
    CHECK,
    PRODUCTION,
    MARK,
    RULE_MARK,
    FIRST_CLEAR,
    FIRST_VISIT,
    FIRST_FILL,
    HAS_PATH,
    PRODUCTIVE_CLEAR,
    PRODUCTIVE_VISIT,
    PRODUCTIVE_FILL,
    COST_CLEAR,
    COST_VISIT,
    COST_FILL,
    MIN_SENTENCE_COST,
    DEAREST_FILL,
    REACHED_FILL,
    FOLLOW_CLEAR,
    FOLLOW_VISIT,
    FOLLOW_FILL,
    PROFILE,
    SLICE,
    MIN_SENTENCE,
    COUNT_MIN_SENTENCES,
    MIN_SENTENCE_AT,
    WRITE_BLOCKS,
    OPS
} op;

/* The tables that a call is lent, in order: T a row of tokens a rule, E one row of rules, C a number a rule. A slice is
 * lent FIRST, EMPTY, FOLLOW, PRODUCTIVE, COST and the reached row. */
enum { TABLES = 6 };
static const char *const tables_of[OPS] = {
    "",  "",  "T", "E", "TE", "TE",   "TE",   "",     "E",      "E",  "E",   "C",   "C",
    "C", "C", "C", "E", "T",  "TTEE", "TTEE", "TTEE", "TETECE", "CC", "CCC", "CCC", ""};

/* What a job fills, and the tables of a slice that are of each kind, in the order of that kind's own calls. A number
 * without tables is no kind. */
enum { JOB_FIRST = 0, JOB_FOLLOW = 2, JOB_PRODUCTIVE = 3, JOB_COST = 4, KINDS };
static const char *const kind_tables[KINDS] = {
    [JOB_FIRST] = "01", [JOB_FOLLOW] = "2015", [JOB_PRODUCTIVE] = "3", [JOB_COST] = "4"};

/* A job: its kind, its next production, whether this round changed anything, whether it is done. */
typedef struct {
    uint16_t kind, next, changed, done;
} record;

typedef struct {
    op op;
    grammar g;
    uint16_t rule, token, prod, mode, to, version; /* those that the call takes, and k */
    uint32_t k;
    uint32_t *table[TABLES];
    size_t table_len[TABLES];
    uint16_t *out;
    size_t out_len;
    uint8_t *bytes;
    size_t bytes_len;
    record job;
    uint32_t n;
} call;

/* What any call answers: the refusal, then the other fields of its struct. */
typedef struct {
    uint32_t refusal, field[5];
} result;

static result refused(uint32_t number) {
    result r = {number, {0}};
    return r;
}

static result answered(uint32_t value) {
    result r = {0, {value}};
    return r;
}

static int in_limits(size_t rules, size_t tokens, size_t prods, size_t symbols) {
    return rules >= 2 && rules <= 512 && tokens >= 1 && tokens <= 512 && prods >= 2 && prods <= 4096 && symbols >= 1 &&
           symbols <= 16384;
}

/* The lowest refusal due of 1 to 6, or 0. */
static uint32_t check_of(const grammar *g) {
    size_t p, i, r;
    if (!in_limits(g->rules, g->tokens, g->prods, g->symbols_len)) return 1;
    if (g->starts_len != g->prods + 1 || g->starts[0] != 0 || g->starts[g->prods] != g->symbols_len) return 2;
    for (p = 0; p < g->prods; p++)
        if (g->starts[p] > g->starts[p + 1]) return 2;
    for (p = 0; p < g->prods; p++)
        if (g->owners[p] >= g->rules) return 3;
    for (r = 0; r < g->rules; r++) {
        for (p = 0; p < g->prods && g->owners[p] != r; p++)
            ;
        if (p == g->prods) return 4;
    }
    for (i = 0; i < g->symbols_len; i++) {
        uint16_t s = g->symbols[i];
        if (s < RULE ? s + 1u >= g->tokens : s - RULE >= g->rules) return 5;
    }
    for (p = 0; p < g->prods; p++)
        if (g->owners[p] == 0 && (g->starts[p + 1] - g->starts[p] != 1 || g->symbols[g->starts[p]] < RULE)) return 6;
    for (i = 0; i < g->symbols_len; i++)
        if (g->symbols[i] == RULE) return 6;
    return 0;
}

static size_t width(const grammar *g) { return (g->tokens + 31) / 32; }

static size_t length_of(char table, const grammar *g) {
    return table == 'T' ? g->rules * width(g) : table == 'E' ? (g->rules + 31u) / 32 : g->rules;
}

static int marked(const uint32_t *row, size_t i) { return row[i / 32] >> i % 32 & 1; }

/* Sets a mark; whether it was not set. */
static int mark(uint32_t *row, size_t i) {
    int was = marked(row, i);
    row[i / 32] |= (uint32_t)1 << i % 32;
    return !was;
}

static int join(uint32_t *to, const uint32_t *from, size_t bits) {
    int changed = 0;
    for (size_t i = 0; i < bits; i++)
        if (marked(from, i)) changed |= mark(to, i);
    return changed;
}

static int visit_first(const grammar *g, size_t p, uint32_t *first, uint32_t *empty) {
    size_t w = width(g), r = g->owners[p];
    int changed = 0;
    for (size_t i = g->starts[p]; i < g->starts[p + 1]; i++) {
        uint16_t s = g->symbols[i];
        if (s < RULE) return mark(first + r * w, s) | changed;
        changed |= join(first + r * w, first + (s - RULE) * w, g->tokens);
        if (!marked(empty, s - RULE)) return changed;
    }
    return mark(empty, r) | changed;
}

/* FOLLOW's rule for the rule symbol at place i of production p. */
static int step_follow(const grammar *g, size_t p, size_t i, uint32_t *follow, const uint32_t *first,
                       const uint32_t *empty) {
    size_t w = width(g), end = g->starts[p + 1], last = i + 1;
    uint32_t *to = follow + (g->symbols[i] - RULE) * w;
    int changed = 0;
    while (last < end && g->symbols[last] >= RULE && marked(empty, g->symbols[last] - RULE)) last++;
    if (last == end) changed |= join(to, follow + g->owners[p] * w, g->tokens);
    /* the walk adds places i+1 up to and with `last` */
    for (size_t j = i + 1; j <= last && j < end; j++) {
        uint16_t s = g->symbols[j];
        changed |= s < RULE ? mark(to, s) : join(to, first + (s - RULE) * w, g->tokens);
    }
    return changed;
}

/* A production of a rule that the reached row does not mark changes nothing. */
static int visit_follow(const grammar *g, size_t p, uint32_t *follow, const uint32_t *first, const uint32_t *empty,
                        const uint32_t *reached) {
    int changed = 0;
    if (!marked(reached, g->owners[p])) return 0;
    for (size_t i = g->starts[p + 1]; i-- > g->starts[p];)
        if (g->symbols[i] >= RULE) changed |= step_follow(g, p, i, follow, first, empty);
    return changed;
}

/* Whether every rule in a production is marked. */
static int all_marked(const grammar *g, size_t p, const uint32_t *row) {
    for (size_t i = g->starts[p]; i < g->starts[p + 1]; i++)
        if (g->symbols[i] >= RULE && !marked(row, g->symbols[i] - RULE)) return 0;
    return 1;
}

static int visit_productive(const grammar *g, size_t p, uint32_t *productive) {
    return all_marked(g, p, productive) && mark(productive, g->owners[p]);
}

/* A production's sum by the entries of a COST table: an unknown part makes it unknown; otherwise a dear part, or a
 * total above 65535, makes it dear. */
static uint32_t price(const grammar *g, size_t p, const uint32_t *cost) {
    uint64_t sum = 0;
    int dear = 0;
    for (size_t i = g->starts[p]; i < g->starts[p + 1]; i++) {
        uint16_t s = g->symbols[i];
        uint32_t one = s < RULE ? g->costs[s] : cost[s - RULE];
        if (one >= UNKNOWN) return UNKNOWN;
        dear |= one == DEAR;
        sum += one;
    }
    return dear || sum > MOST ? DEAR : (uint32_t)sum;
}

static int visit_cost(const grammar *g, size_t p, uint32_t *cost) {
    uint32_t sum = price(g, p, cost), r = g->owners[p];
    if (sum == UNKNOWN || sum >= cost[r]) return 0;
    cost[r] = sum;
    return 1;
}

static void clear(uint32_t *table, size_t len, uint32_t word) {
    for (size_t i = 0; i < len; i++) table[i] = word;
}

static void clear_follow(const grammar *g, uint32_t *follow) {
    clear(follow, length_of('T', g), 0);
    mark(follow, g->tokens - 1);
}

static void fill_first(const grammar *g, uint32_t *first, uint32_t *empty) {
    clear(first, length_of('T', g), 0);
    clear(empty, length_of('E', g), 0);
    for (int again = 1; again;) {
        again = 0;
        for (size_t p = 0; p < g->prods; p++) again |= visit_first(g, p, first, empty);
    }
}

static void fill_productive(const grammar *g, uint32_t *productive) {
    clear(productive, length_of('E', g), 0);
    for (int again = 1; again;) {
        again = 0;
        for (size_t p = 0; p < g->prods; p++) again |= visit_productive(g, p, productive);
    }
}

static void fill_cost(const grammar *g, uint32_t *cost) {
    clear(cost, g->rules, UNKNOWN);
    for (int again = 1; again;) {
        again = 0;
        for (size_t p = 0; p < g->prods; p++) again |= visit_cost(g, p, cost);
    }
}

/* 12 for a rule without a sentence, by its own marks and not by COST; 13 for one with a sentence and no cost; or 0. */
static uint32_t without_cost(const grammar *g, size_t rule, const uint32_t *cost) {
    uint32_t productive[16];
    fill_productive(g, productive);
    if (!marked(productive, rule)) return 12;
    return cost[rule] > MOST ? 13 : 0;
}

/* Sets, of bytes that are 0, those of the rules that stand in some form which `from` derives in one or more steps. */
static void reach(const grammar *g, size_t from, uint8_t *held) {
    for (int again = 1; again;) {
        again = 0;
        for (size_t p = 0; p < g->prods; p++) {
            if (g->owners[p] != from && !held[g->owners[p]]) continue;
            for (size_t i = g->starts[p]; i < g->starts[p + 1]; i++)
                if (g->symbols[i] >= RULE && !held[g->symbols[i] - RULE]) again = held[g->symbols[i] - RULE] = 1;
        }
    }
}

/* Whether `to` is among them. */
static int path(const grammar *g, size_t from, size_t to) {
    uint8_t held[512] = {0};
    reach(g, from, held);
    return held[to];
}

/* The reached rules: rule 0, and each that has a path from it. */
static void fill_reached(const grammar *g, uint32_t *reached) {
    clear(reached, length_of('E', g), 0);
    for (size_t r = 0; r < g->rules; r++)
        if (r == 0 || path(g, 0, r)) mark(reached, r);
}

static void fill_follow(const grammar *g, uint32_t *follow, uint32_t *first, uint32_t *empty, uint32_t *reached) {
    fill_reached(g, reached);
    fill_first(g, first, empty);
    clear_follow(g, follow);
    for (int again = 1; again;) {
        again = 0;
        for (size_t p = 0; p < g->prods; p++) again |= visit_follow(g, p, follow, first, empty, reached);
    }
}

/* The productions that derive a sentence, as a grammar of their own, in which a rule may own none. */
static grammar with_sentence(const grammar *g, const uint32_t *productive) {
    static uint16_t owners[4096], starts[4097], symbols[16384];
    grammar own = {g->rules, owners, starts, symbols, g->costs, 0, 1, 0, g->tokens};
    for (size_t p = 0; p < g->prods; p++) {
        if (!all_marked(g, p, productive)) continue;
        for (size_t i = g->starts[p]; i < g->starts[p + 1]; i++) symbols[own.symbols_len++] = g->symbols[i];
        owners[own.prods++] = g->owners[p];
        starts[own.starts_len++] = (uint16_t)own.symbols_len;
    }
    return own;
}

/* By rules: which ones a rule reaches, itself by no step; whether it can cost something; whether it is unbounded; its
 * greatest cost, or UNBOUNDED for one above 65534, or OPEN. */
enum { OPEN = 65538 };
static struct {
    uint8_t below[512][512], costly[512], unbounded[512];
    uint32_t greatest[512];
} ends;

/* Marks each rule that reaches a marked one too. */
static void spread(const grammar *g, uint8_t *marks) {
    uint8_t found[512] = {0};
    for (size_t r = 0; r < g->rules; r++)
        for (size_t q = 0; q < g->rules; q++) found[r] |= ends.below[r][q] && marks[q];
    memcpy(marks, found, g->rules);
}

static int can_cost(const grammar *g, uint16_t s) { return s < RULE ? g->costs[s] > 0 : ends.costly[s - RULE]; }

/* Whether a production's rule comes back to itself through a rule in it, at a place beside which another can cost
 * something. */
static int gains(const grammar *g, size_t p) {
    size_t costly = 0;
    for (size_t i = g->starts[p]; i < g->starts[p + 1]; i++) costly += (size_t)can_cost(g, g->symbols[i]);
    for (size_t i = g->starts[p]; i < g->starts[p + 1]; i++) {
        uint16_t s = g->symbols[i];
        if (s >= RULE && ends.below[s - RULE][g->owners[p]] && costly > (size_t)can_cost(g, s)) return 1;
    }
    return 0;
}

/* Of the productions that derive a sentence: fills all but the greatest costs. */
static void find_unbounded(const grammar *g) {
    memset(&ends, 0, sizeof ends);
    for (size_t r = 0; r < g->rules; r++) reach(g, r, ends.below[r]), ends.below[r][r] = 1;
    for (size_t p = 0; p < g->prods; p++)
        for (size_t i = g->starts[p]; i < g->starts[p + 1]; i++)
            if (g->symbols[i] < RULE && g->costs[g->symbols[i]]) ends.costly[g->owners[p]] = 1;
    spread(g, ends.costly);
    for (size_t p = 0; p < g->prods; p++)
        if (gains(g, p)) ends.unbounded[g->owners[p]] = 1;
    spread(g, ends.unbounded);
}

/* Whether two rules reach each other. */
static int one_ring(size_t a, size_t b) { return ends.below[a][b] && ends.below[b][a]; }

static uint32_t greatest(const grammar *g, size_t rule);

/* A production's greatest cost; 0 if it holds a rule of the ring of `rule`, since it adds nothing to that one's. */
static uint32_t greatest_of(const grammar *g, size_t p, size_t rule) {
    uint32_t sum = 0;
    for (size_t i = g->starts[p]; i < g->starts[p + 1]; i++) {
        uint16_t s = g->symbols[i];
        if (s >= RULE && one_ring(rule, s - RULE)) return 0;
        sum += s < RULE ? g->costs[s] : greatest(g, s - RULE);
        if (sum > UNBOUNDED) sum = UNBOUNDED;
    }
    return sum;
}

/* The greatest cost of a rule that has a bound: rules of one ring have the same. */
static uint32_t greatest(const grammar *g, size_t rule) {
    uint32_t most = 0;
    if (ends.greatest[rule] != OPEN) return ends.greatest[rule];
    for (size_t p = 0; p < g->prods; p++) {
        uint32_t one = one_ring(rule, g->owners[p]) ? greatest_of(g, p, rule) : 0;
        if (one > most) most = one;
    }
    return ends.greatest[rule] = most;
}

static void fill_dearest(const grammar *g, uint32_t *dearest) {
    uint32_t productive[16];
    fill_productive(g, productive);
    grammar own = with_sentence(g, productive);
    find_unbounded(&own);
    clear(ends.greatest, 512, OPEN);
    for (size_t r = 0; r < g->rules; r++)
        if (!marked(productive, r))
            dearest[r] = NO_SENTENCE;
        else if (ends.unbounded[r])
            dearest[r] = UNBOUNDED;
        else
            dearest[r] = greatest(&own, r) == UNBOUNDED ? ABOVE : greatest(&own, r);
}

/* Sets the row to the tokens by which a reader takes production p: those that it may start with, and FOLLOW of its
 * owner where it can vanish; answers whether it can. The tables are those that FOLLOW's fill leaves. */
static int taken_by(const grammar *g, size_t p, uint32_t *const *tables, uint32_t *row) {
    const uint32_t *follow = tables[0], *first = tables[1], *empty = tables[2];
    size_t w = width(g), i = g->starts[p], end = g->starts[p + 1];
    clear(row, w, 0);
    for (; i < end && g->symbols[i] >= RULE; i++) {
        join(row, first + (g->symbols[i] - RULE) * w, g->tokens);
        if (!marked(empty, g->symbols[i] - RULE)) return 0;
    }
    if (i < end)
        mark(row, g->symbols[i]);
    else
        join(row, follow + g->owners[p] * w, g->tokens);
    return i == end;
}

/* The token by which two productions clash: the least that they share, else T if both vanish. T+1 if they do not. */
static size_t clash_by(const grammar *g, size_t p, size_t q, uint32_t *const *tables) {
    uint32_t of_p[16], of_q[16];
    int both = taken_by(g, p, tables, of_p) & taken_by(g, q, tables, of_q);
    for (size_t t = 0; t < g->tokens; t++)
        if (marked(of_p, t) && marked(of_q, t)) return t;
    return both ? g->tokens : g->tokens + 1;
}

/* The lowest production above p of the same rule that clashes with it; the number of productions if there is none. */
static size_t clashing(const grammar *g, size_t p, uint32_t *const *tables) {
    size_t q = p + 1;
    while (q < g->prods && (g->owners[q] != g->owners[p] || clash_by(g, p, q, tables) > g->tokens)) q++;
    return q;
}

/* The profile, over the tables that FOLLOW's fill leaves: the first clash by rule, lower and higher production. */
static result profile(const grammar *g, uint32_t *const *tables) {
    for (size_t r = 0; r < g->rules; r++)
        for (size_t p = 0; p < g->prods; p++) {
            size_t q = g->owners[p] == r ? clashing(g, p, tables) : g->prods;
            if (q == g->prods) continue;
            result named = {0, {1, (uint32_t)r, (uint32_t)p, (uint32_t)q, (uint32_t)clash_by(g, p, q, tables)}};
            return named;
        }
    return answered(0);
}

/* A rule's lowest-numbered production whose cost equals the rule's; the number of productions if it has no cost. */
static size_t choice(const grammar *g, size_t rule, const uint32_t *cost) {
    size_t p;
    if (cost[rule] > MOST) return g->prods;
    for (p = 0; g->owners[p] != rule || price(g, p, cost) != cost[rule]; p++)
        ;
    return p;
}

/* A production's token count by the rules' lengths, 65536 if above 65535; 65537 if it holds an ungrounded rule. */
static uint32_t count(const grammar *g, size_t p, const uint32_t *lengths) {
    uint64_t sum = 0;
    for (size_t i = g->starts[p]; i < g->starts[p + 1]; i++) {
        uint16_t s = g->symbols[i];
        if (s >= RULE && lengths[s - RULE] == UNGROUNDED) return UNGROUNDED;
        sum += s < RULE ? 1 : lengths[s - RULE];
    }
    return sum > MOST ? LONG_ONE : (uint32_t)sum;
}

static void fill_lengths(const grammar *g, const uint32_t *cost, uint32_t *lengths) {
    clear(lengths, g->rules, UNGROUNDED);
    for (int again = 1; again;) {
        again = 0;
        for (size_t r = 0; r < g->rules; r++) {
            size_t p = choice(g, r, cost);
            if (lengths[r] != UNGROUNDED || p == g->prods) continue;
            lengths[r] = count(g, p, lengths);
            again |= lengths[r] != UNGROUNDED;
        }
    }
}

static size_t expand(const grammar *g, size_t rule, const uint32_t *cost, const uint32_t *lengths, uint16_t *out,
                     size_t at) {
    size_t p = choice(g, rule, cost);
    for (size_t i = g->starts[p]; i < g->starts[p + 1]; i++) {
        uint16_t s = g->symbols[i];
        if (s < RULE)
            out[at++] = s;
        else if (lengths[s - RULE])
            at = expand(g, s - RULE, cost, lengths, out, at);
    }
    return at;
}

static result sentence(call *c) {
    const grammar *g = &c->g;
    uint32_t *cost = c->table[0], *lengths = c->table[1];
    fill_cost(g, cost);
    fill_lengths(g, cost, lengths);
    if (without_cost(g, c->rule, cost)) return refused(without_cost(g, c->rule, cost));
    if (lengths[c->rule] == UNGROUNDED) return refused(14);
    if (lengths[c->rule] > MOST || lengths[c->rule] > c->out_len) return refused(15);
    return answered(lengths[c->rule] ? (uint32_t)expand(g, c->rule, cost, lengths, c->out, 0) : 0);
}

/* Whether a production's cost is its owner's. */
static int is_cheapest(const grammar *g, size_t p, const uint32_t *cost) {
    return cost[g->owners[p]] <= MOST && price(g, p, cost) == cost[g->owners[p]];
}

static uint32_t count_rule(const grammar *g, size_t rule, const uint32_t *cost, uint32_t *known, uint8_t *visiting);

/* How many derivations a production has: the product of those of its rules, or MANY, or CIRCULAR. */
static uint32_t count_prod(const grammar *g, size_t p, const uint32_t *cost, uint32_t *known, uint8_t *visiting) {
    uint64_t product = 1;
    int circular = 0;
    for (size_t i = g->starts[p]; i < g->starts[p + 1]; i++) {
        if (g->symbols[i] < RULE) continue;
        uint32_t one = count_rule(g, g->symbols[i] - RULE, cost, known, visiting);
        circular |= one == CIRCULAR;
        product = one * product > MOST ? MANY : one * product;
    }
    return circular ? CIRCULAR : (uint32_t)product;
}

/* The sum over the rule's cheapest productions. A rule that is come to again while it is visited reaches itself; so a
 * rule that comes to one under way is circular, as is each under way above it. What is known is kept. */
static uint32_t count_rule(const grammar *g, size_t rule, const uint32_t *cost, uint32_t *known, uint8_t *visiting) {
    uint64_t sum = 0;
    int circular = 0;
    if (visiting[rule]) return CIRCULAR;
    if (known[rule]) return known[rule];
    visiting[rule] = 1;
    for (size_t p = 0; p < g->prods; p++) {
        if (g->owners[p] != rule || !is_cheapest(g, p, cost)) continue;
        uint32_t one = count_prod(g, p, cost, known, visiting);
        circular |= one == CIRCULAR;
        sum += one;
    }
    visiting[rule] = 0;
    return known[rule] = circular ? CIRCULAR : sum > MOST ? MANY : (uint32_t)sum;
}

static void fill_counts(const grammar *g, const uint32_t *cost, uint32_t *counts) {
    uint8_t visiting[512] = {0};
    clear(counts, g->rules, 0);
    for (size_t r = 0; r < g->rules; r++)
        counts[r] = cost[r] > MOST ? CIRCULAR : count_rule(g, r, cost, counts, visiting);
}

/* How many rows a production of a rule with a list has. */
static uint32_t rows_of(const grammar *g, size_t p, const uint32_t *counts) {
    uint32_t product = 1;
    for (size_t i = g->starts[p]; i < g->starts[p + 1]; i++)
        if (g->symbols[i] >= RULE) product *= counts[g->symbols[i] - RULE];
    return product;
}

/* The token count of number k of a rule's list, 65536 if above 65535; it is written from `at` on unless `out` is null.
 * The production is found by counting the rows before it, the number of each place by division by the rows of the
 * places behind it. Number 0 of a rule is its sentence by first choices. */
static uint32_t list_row(const grammar *g, size_t rule, uint32_t k, uint32_t *const *table, uint16_t *out, size_t at) {
    const uint32_t *cost = table[0], *lengths = table[1], *counts = table[2];
    uint32_t total = 0;
    size_t p = 0;
    for (;; p++) {
        if (g->owners[p] != rule || !is_cheapest(g, p, cost)) continue;
        if (k < rows_of(g, p, counts)) break;
        k -= rows_of(g, p, counts);
    }
    uint32_t behind = rows_of(g, p, counts);
    for (size_t i = g->starts[p]; i < g->starts[p + 1]; i++) {
        uint16_t s = g->symbols[i];
        uint32_t one = 1, number = 0;
        if (s < RULE) {
            if (out) out[at + total] = s;
        } else {
            behind /= counts[s - RULE];
            number = k / behind;
            k %= behind;
            one = number ? list_row(g, s - RULE, number, table, out, at + total) : lengths[s - RULE];
            if (out && !number && one) expand(g, s - RULE, cost, lengths, out, at + total);
        }
        total = total + one > MOST ? LONG_ONE : total + one;
    }
    return total;
}

/* The two calls on all cheapest sentences; the first writes none. */
static result listing(call *c, int writes) {
    const grammar *g = &c->g;
    uint32_t *cost = c->table[0], *lengths = c->table[1], *counts = c->table[2];
    fill_cost(g, cost);
    fill_lengths(g, cost, lengths);
    fill_counts(g, cost, counts);
    if (without_cost(g, c->rule, cost)) return refused(without_cost(g, c->rule, cost));
    if (counts[c->rule] == CIRCULAR) return refused(14);
    if (counts[c->rule] == MANY || (writes && c->k >= counts[c->rule])) return refused(16);
    if (!writes) return answered(counts[c->rule]);
    uint32_t length = list_row(g, c->rule, c->k, c->table, NULL, 0);
    if (length > MOST || length > c->out_len) return refused(15);
    return answered(list_row(g, c->rule, c->k, c->table, c->out, 0));
}

enum { BLOCK = 512, PAYLOAD = 508 };

static uint32_t pair(const uint8_t *low) { return low[0] + 256u * low[1]; }

/* Where in a file byte i of the payload stands. */
static size_t place(size_t i) { return i / PAYLOAD * BLOCK + 2 + i % PAYLOAD; }

static uint32_t payload_byte(const uint8_t *file, size_t i) { return file[place(i)]; }

static uint32_t payload_number(const uint8_t *file, size_t i) {
    return payload_byte(file, i) + 256u * payload_byte(file, i + 1);
}

static uint32_t block_sum(const uint8_t *block) {
    uint32_t sum = 0;
    for (size_t i = 0; i < 510; i++) sum += block[i];
    return sum % 65536;
}

static void put_pair(uint8_t *low, uint32_t n) { low[0] = (uint8_t)n, low[1] = (uint8_t)(n >> 8); }

/* Puts numbers from payload byte `at` on; where the next one begins. */
static size_t put_numbers(uint8_t *file, size_t at, const uint16_t *list, size_t count) {
    for (size_t i = 0; i < count; i++, at += 2) {
        file[place(at)] = (uint8_t)list[i];
        file[place(at + 1)] = (uint8_t)(list[i] >> 8);
    }
    return at;
}

/* The bytes of a file whose payload has so many: whole blocks. */
static size_t file_bytes(size_t payload) { return (payload + PAYLOAD - 1) / PAYLOAD * BLOCK; }

static void put_checks(uint8_t *file, size_t len) {
    for (uint8_t *b = file; b < file + len; b += BLOCK) put_pair(b + 510, block_sum(b));
}

/* Whether a token other than eof, the last, costs nothing. */
static int has_free_token(const uint8_t *costs, size_t tokens) {
    for (size_t t = 0; t + 1 < tokens; t++)
        if (costs[t] == 0) return 1;
    return 0;
}

/* The block file of a grammar, well formed or not, of which starts has P+1 numbers, in version 1 or 2; its length. */
static size_t write_file(const grammar *g, int version, uint8_t *file) {
    uint16_t field = (uint16_t)(version == 2 ? g->rules + VERSION_2 : g->rules);
    uint16_t head[] = {field, (uint16_t)g->tokens, (uint16_t)g->prods, (uint16_t)g->symbols_len};
    size_t len = file_bytes(8 + 2 * (g->prods + g->prods + 1 + g->symbols_len) + g->tokens), at;
    memset(file, 0, len);
    for (size_t b = 0; b < len / BLOCK; b++) put_pair(file + b * BLOCK, (uint32_t)b);
    at = put_numbers(file, 0, head, 4);
    at = put_numbers(file, at, g->owners, g->prods);
    at = put_numbers(file, at, g->starts, g->prods + 1);
    at = put_numbers(file, at, g->symbols, g->symbols_len);
    for (size_t i = 0; i < g->tokens; i++) file[place(at + i)] = g->costs[i];
    put_checks(file, len);
    return len;
}

static result write_model(call *c) {
    static uint8_t file[98 * BLOCK];
    if (c->version == 2 && has_free_token(c->g.costs, c->g.tokens)) return refused(25);
    size_t len = write_file(&c->g, c->version, file);
    if (c->bytes_len < len) return refused(24);
    memcpy(c->bytes, file, len);
    return answered((uint32_t)len);
}

/* One visit of a job, of its next production; whether it changed anything. */
static int visit_of(const grammar *g, const record *job, uint32_t *const *t) {
    switch (job->kind) {
    case JOB_FIRST:
        return visit_first(g, job->next, t[0], t[1]);
    case JOB_FOLLOW:
        return visit_follow(g, job->next, t[2], t[0], t[1], t[5]);
    case JOB_PRODUCTIVE:
        return visit_productive(g, job->next, t[3]);
    default:
        return visit_cost(g, job->next, t[4]);
    }
}

/* Behind the last production a round ends: the job is done if it changed nothing, and the next one begins. A record
 * that a visit leaves says 0 or 1; without a visit it is as found. */
static result slice(call *c) {
    record *job = &c->job;
    uint32_t made = 0;
    for (; made < c->n && !job->done; made++) {
        int changed = visit_of(&c->g, job, c->table) || job->changed;
        int last = job->next + 1u == c->g.prods;
        job->next = last ? 0 : (uint16_t)(job->next + 1);
        job->changed = !last && changed;
        job->done = last && !changed;
    }
    return answered(made);
}

static int is_kind(uint16_t kind) { return kind < KINDS && kind_tables[kind]; }

/* Whether table i of a call has to be of its exact length: of a slice those of the job's kind, of other calls all. */
static int due(const call *c, size_t i) {
    if (c->op != SLICE) return 1;
    if (!is_kind(c->job.kind)) return 0;
    for (const char *of = kind_tables[c->job.kind]; *of; of++)
        if (*of == (char)('0' + i)) return 1;
    return 0;
}

/* The first refusal of a call that stands before its work, or 0. */
static uint32_t refusal_of(const call *c) {
    const grammar *g = &c->g;
    uint32_t number = check_of(g);
    int rule = c->op == MARK || c->op == RULE_MARK || c->op == HAS_PATH || c->op == MIN_SENTENCE_COST ||
               c->op == MIN_SENTENCE || c->op == COUNT_MIN_SENTENCES || c->op == MIN_SENTENCE_AT;
    int prod = c->op == PRODUCTION || c->op == FIRST_VISIT || c->op == PRODUCTIVE_VISIT || c->op == COST_VISIT ||
               c->op == FOLLOW_VISIT;
    if (c->op == WRITE_BLOCKS && c->version != 1 && c->version != 2) return 26;
    if (number) return number;
    if (c->op == SLICE && (!is_kind(c->job.kind) || c->job.next >= g->prods)) return 17;
    for (size_t i = 0; i < strlen(tables_of[c->op]); i++)
        if (due(c, i) && c->table_len[i] != length_of(tables_of[c->op][i], g)) return 7;
    if ((c->op == FOLLOW_VISIT || c->op == FOLLOW_FILL) && c->mode != 2) return 8;
    if (rule && c->rule >= g->rules) return 9;
    if (c->op == HAS_PATH && c->to >= g->rules) return 9;
    if (c->op == MARK && c->token >= g->tokens) return 10;
    if (prod && c->prod >= g->prods) return 11;
    return 0;
}

static result model(call *c) {
    const grammar *g = &c->g;
    uint32_t *a = c->table[0], *b = c->table[1], *d = c->table[2], *e = c->table[3], number = refusal_of(c);
    result r = {0, {0}};
    if (number) return refused(number);
    switch (c->op) {
    case CHECK:
        return r;
    case PRODUCTION:
        r.field[0] = g->starts[c->prod];
        r.field[1] = (uint32_t)(g->starts[c->prod + 1] - g->starts[c->prod]);
        return r;
    case MARK:
        return answered((uint32_t)marked(a + c->rule * width(g), c->token));
    case RULE_MARK:
        return answered((uint32_t)marked(a, c->rule));
    case FIRST_CLEAR:
        clear(a, c->table_len[0], 0);
        clear(b, c->table_len[1], 0);
        return r;
    case FIRST_VISIT:
        return answered((uint32_t)visit_first(g, c->prod, a, b));
    case FIRST_FILL:
        fill_first(g, a, b);
        return r;
    case HAS_PATH:
        return answered((uint32_t)path(g, c->rule, c->to));
    case PRODUCTIVE_CLEAR:
        clear(a, c->table_len[0], 0);
        return r;
    case PRODUCTIVE_VISIT:
        return answered((uint32_t)visit_productive(g, c->prod, a));
    case PRODUCTIVE_FILL:
        fill_productive(g, a);
        return r;
    case COST_CLEAR:
        clear(a, c->table_len[0], UNKNOWN);
        return r;
    case COST_VISIT:
        return answered((uint32_t)visit_cost(g, c->prod, a));
    case COST_FILL:
        fill_cost(g, a);
        return r;
    case MIN_SENTENCE_COST:
        fill_cost(g, a);
        number = without_cost(g, c->rule, a);
        return number ? refused(number) : answered(a[c->rule]);
    case DEAREST_FILL:
        fill_dearest(g, a);
        return r;
    case REACHED_FILL:
        fill_reached(g, a);
        return r;
    case FOLLOW_CLEAR:
        clear_follow(g, a);
        return r;
    case FOLLOW_VISIT:
        return answered((uint32_t)visit_follow(g, c->prod, a, b, d, e));
    case FOLLOW_FILL:
        fill_follow(g, a, b, d, e);
        return r;
    case PROFILE:
        fill_follow(g, a, b, d, e);
        return profile(g, c->table);
    case SLICE:
        return slice(c);
    case MIN_SENTENCE:
        return sentence(c);
    case COUNT_MIN_SENTENCES:
        return listing(c, 0);
    case MIN_SENTENCE_AT:
        return listing(c, 1);
    case WRITE_BLOCKS:
        return write_model(c);
    case OPS:
        break;
    }
    return r;
}

/* The four lists that the reader is lent. */
typedef struct {
    uint16_t *owners, *starts, *symbols;
    uint8_t *costs;
    size_t owners_len, starts_len, symbols_len, costs_len;
} lists;

static result read_model(const uint8_t *file, size_t len, lists *to) {
    size_t blocks = len / BLOCK, at = 8, i;
    if (to->owners_len != 4096 || to->starts_len != 4097 || to->symbols_len != 16384 || to->costs_len != 512)
        return refused(7);
    if (len == 0 || len % BLOCK || blocks > 98) return refused(20);
    for (i = 0; i < blocks; i++)
        if (block_sum(file + i * BLOCK) != pair(file + i * BLOCK + 510)) return refused(21);
    for (i = 0; i < blocks; i++)
        if (pair(file + i * BLOCK) != i) return refused(22);
    uint32_t n[4], version = 1;
    for (i = 0; i < 4; i++) n[i] = payload_number(file, 2 * i);
    if (n[0] >= VERSION_2) version = 2, n[0] -= VERSION_2;
    if (!in_limits(n[0], n[1], n[2], n[3])) return refused(1);
    size_t due = 8 + 2 * (n[2] + n[2] + 1 + n[3]) + n[1];
    if (len != file_bytes(due)) return refused(23);
    for (i = due; i < blocks * PAYLOAD; i++)
        if (payload_byte(file, i)) return refused(23);
    for (i = due - n[1]; i + 1 < due && version == 2; i++)
        if (payload_byte(file, i) == 0) return refused(25);
    for (i = 0; i < n[2]; i++, at += 2) to->owners[i] = (uint16_t)payload_number(file, at);
    for (i = 0; i <= n[2]; i++, at += 2) to->starts[i] = (uint16_t)payload_number(file, at);
    for (i = 0; i < n[3]; i++, at += 2) to->symbols[i] = (uint16_t)payload_number(file, at);
    for (i = 0; i < n[1]; i++) to->costs[i] = (uint8_t)payload_byte(file, at + i);
    grammar g = {(uint16_t)n[0], to->owners, to->starts, to->symbols, to->costs, n[2], n[2] + 1, n[3], n[1]};
    uint32_t number = check_of(&g);
    if (number) return refused(number);
    result r = {0, {n[0], n[1], n[2], n[3], version}};
    return r;
}
