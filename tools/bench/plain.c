/* The same fills as a good engineer would write them by hand: the check of 1 to 6, then rounds, one up and the next down,
 * until one changes nothing; rows are joined a word at a time. The tables are the caller's and of the right lengths. */
#include "plain.h"

#include <string.h>

#define RULE 32768u
#define DEAR 65536u
#define UNKNOWN 65537u

static int falls(const struct plain_grammar *g)
{
    if (g->starts[0] != 0 || g->starts[g->prods] != g->symbol_count)
        return 1;
    for (size_t p = 0; p < g->prods; p++)
        if (g->starts[p + 1] < g->starts[p])
            return 1;
    return 0;
}

static int owner_out(const struct plain_grammar *g)
{
    for (size_t p = 0; p < g->prods; p++)
        if (g->owners[p] >= g->rules)
            return 1;
    return 0;
}

static int unowned(const struct plain_grammar *g)
{
    uint8_t owned[512] = {0};
    for (size_t p = 0; p < g->prods; p++)
        owned[g->owners[p]] = 1;
    return memchr(owned, 0, g->rules) != NULL;
}

static int symbol_out(const struct plain_grammar *g)
{
    for (size_t k = 0; k < g->symbol_count; k++) {
        unsigned s = g->symbols[k];
        if (s < RULE ? s + 1 >= g->tokens : s - RULE >= g->rules)
            return 1;
    }
    return 0;
}

static int start_wrong(const struct plain_grammar *g)
{
    for (size_t p = 0; p < g->prods; p++)
        if (g->owners[p] == 0 && (g->starts[p + 1] - g->starts[p] != 1 || g->symbols[g->starts[p]] < RULE))
            return 1;
    for (size_t k = 0; k < g->symbol_count; k++)
        if (g->symbols[k] == RULE)
            return 1;
    return 0;
}

unsigned plain_check(const struct plain_grammar *g)
{
    if (g->rules < 2 || g->rules > 512 || g->tokens < 1 || g->tokens > 512 || g->prods < 2 || g->prods > 4096
        || g->symbol_count < 1 || g->symbol_count > 16384)
        return 1;
    if (falls(g))
        return 2;
    if (owner_out(g))
        return 3;
    if (unowned(g))
        return 4;
    if (symbol_out(g))
        return 5;
    return start_wrong(g) ? 6 : 0;
}

static size_t words(size_t bits)
{
    return (bits + 31) / 32;
}

static int is_set(const uint32_t *row, size_t bit)
{
    return row[bit / 32] >> bit % 32 & 1;
}

static int set(uint32_t *row, size_t bit)
{
    uint32_t old = row[bit / 32];
    row[bit / 32] = old | 1u << bit % 32;
    return !(old >> bit % 32 & 1);
}

static int join(uint32_t *to, const uint32_t *from, size_t width)
{
    uint32_t new = 0;
    for (size_t i = 0; i < width; i++) {
        uint32_t all = to[i] | from[i];
        new |= all ^ to[i];
        to[i] = all;
    }
    return new != 0;
}

static int first_step(const struct plain_grammar *g, size_t p, uint32_t *first, uint32_t *empty)
{
    size_t width = words(g->tokens);
    uint32_t *own = first + g->owners[p] * width;
    int new = 0;
    for (size_t k = g->starts[p]; k < g->starts[p + 1]; k++) {
        unsigned s = g->symbols[k];
        if (s < RULE)
            return new | set(own, s);
        new |= join(own, first + (s - RULE) * width, width);
        if (!is_set(empty, s - RULE))
            return new;
    }
    return new | set(empty, g->owners[p]);
}

static void fill_first(const struct plain_grammar *g, uint32_t *first, uint32_t *empty)
{
    memset(first, 0, g->rules * words(g->tokens) * sizeof *first);
    memset(empty, 0, words(g->rules) * sizeof *empty);
    for (int down = 0, changed = 1; changed; down = !down) {
        changed = 0;
        for (size_t i = 0; i < g->prods; i++)
            changed |= first_step(g, down ? g->prods - 1 - i : i, first, empty);
    }
}

unsigned plain_first_fill(const struct plain_grammar *g, uint32_t *first, uint32_t *empty)
{
    unsigned refused = plain_check(g);
    if (refused == 0)
        fill_first(g, first, empty);
    return refused;
}

/* Rule 0, and what the rules reached so far have in their productions: each rule is done once. */
static void fill_reached(const struct plain_grammar *g, uint32_t *reached)
{
    uint16_t head[512], next[4096], todo[512];
    size_t count = 0;
    memset(head, 255, sizeof head);
    for (size_t p = g->prods; p-- > 0;) {
        next[p] = head[g->owners[p]];
        head[g->owners[p]] = (uint16_t)p;
    }
    memset(reached, 0, words(g->rules) * sizeof *reached);
    set(reached, 0);
    todo[count++] = 0;
    while (count > 0)
        for (size_t p = head[todo[--count]]; p < g->prods; p = next[p])
            for (size_t k = g->starts[p]; k < g->starts[p + 1]; k++) {
                unsigned s = g->symbols[k];
                if (s >= RULE && set(reached, s - RULE))
                    todo[count++] = (uint16_t)(s - RULE);
            }
}

unsigned plain_reached_fill(const struct plain_grammar *g, uint32_t *reached)
{
    unsigned refused = plain_check(g);
    if (refused == 0)
        fill_reached(g, reached);
    return refused;
}

static int follow_step(const struct plain_grammar *g, size_t p, uint32_t *follow, const uint32_t *first,
                       const uint32_t *empty, const uint32_t *reached)
{
    if (!is_set(reached, g->owners[p]))
        return 0;
    size_t width = words(g->tokens);
    uint32_t ahead[16];
    int new = 0, null = 1;
    memset(ahead, 0, width * sizeof *ahead);
    for (size_t k = g->starts[p + 1]; k-- > g->starts[p];) {
        unsigned s = g->symbols[k];
        if (s < RULE) {
            memset(ahead, 0, width * sizeof *ahead);
            set(ahead, s);
            null = 0;
            continue;
        }
        if (null)
            new |= join(follow + (s - RULE) * width, follow + g->owners[p] * width, width);
        new |= join(follow + (s - RULE) * width, ahead, width);
        if (is_set(empty, s - RULE)) {
            join(ahead, first + (s - RULE) * width, width);
        } else {
            memcpy(ahead, first + (s - RULE) * width, width * sizeof *ahead);
            null = 0;
        }
    }
    return new;
}

unsigned plain_follow_fill(const struct plain_grammar *g, uint32_t *follow, uint32_t *first, uint32_t *empty,
                           uint32_t *reached)
{
    unsigned refused = plain_check(g);
    if (refused != 0)
        return refused;
    fill_reached(g, reached);
    fill_first(g, first, empty);
    memset(follow, 0, g->rules * words(g->tokens) * sizeof *follow);
    set(follow, g->tokens - 1);
    for (int down = 0, changed = 1; changed; down = !down) {
        changed = 0;
        for (size_t i = 0; i < g->prods; i++)
            changed |= follow_step(g, down ? g->prods - 1 - i : i, follow, first, empty, reached);
    }
    return 0;
}

static int cost_step(const struct plain_grammar *g, size_t p, uint32_t *cost)
{
    uint32_t sum = 0;
    for (size_t k = g->starts[p]; k < g->starts[p + 1]; k++) {
        unsigned s = g->symbols[k];
        uint32_t part = s < RULE ? g->costs[s] : cost[s - RULE];
        if (part > DEAR)
            return 0;
        sum = sum + part < DEAR ? sum + part : DEAR;
    }
    if (sum >= cost[g->owners[p]])
        return 0;
    cost[g->owners[p]] = sum;
    return 1;
}

unsigned plain_cost_fill(const struct plain_grammar *g, uint32_t *cost)
{
    unsigned refused = plain_check(g);
    if (refused != 0)
        return refused;
    for (size_t r = 0; r < g->rules; r++)
        cost[r] = UNKNOWN;
    for (int down = 0, changed = 1; changed; down = !down) {
        changed = 0;
        for (size_t i = 0; i < g->prods; i++)
            changed |= cost_step(g, down ? g->prods - 1 - i : i, cost);
    }
    return 0;
}
