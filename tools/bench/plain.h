/* The fills in plain C, to be timed beside the library's. */
#ifndef PLAIN_H
#define PLAIN_H

#include <stddef.h>
#include <stdint.h>

struct plain_grammar {
    size_t rules, tokens, prods, symbol_count;
    const uint16_t *owners, *starts, *symbols;
    const uint8_t *costs;
};

/* 0, or the lowest refusal due of 1 to 6. A fill that is refused leaves the tables as they were. */
unsigned plain_check(const struct plain_grammar *g);
unsigned plain_first_fill(const struct plain_grammar *g, uint32_t *first, uint32_t *empty);
unsigned plain_reached_fill(const struct plain_grammar *g, uint32_t *reached);
unsigned plain_follow_fill(const struct plain_grammar *g, uint32_t *follow, uint32_t *first, uint32_t *empty,
                           uint32_t *reached);
unsigned plain_cost_fill(const struct plain_grammar *g, uint32_t *cost);

#endif
