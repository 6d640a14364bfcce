/* Asks the library about flat grammars: standard input has one a line, and standard output a line of JSON for each.
 * Both have the form of tools/oracle/oracle.rs, with these differences: "costs" has an outcome for each rule,
 * "dearest" is a number for each rule, as DEAREST has it, "reached" is the reached row, "profile" the five numbers of
 * the verdict, "counts" has an outcome for each rule, how many cheapest sentences it has, and an outcome is
 * {"returned": [number..]} or {"refused": number}. A refused grammar has the outcome of boltmarrow_check alone.
 */
#include <stdio.h>

#include "boltmarrow.h"

enum { RULES = 1024, PRODS = 8192, SYMBOLS = 32768, TOKENS = 1024, ROOM = 65535 };

static uint32_t rules, tokens, prods, length; /* R, T, P, N */
static uint16_t owners[PRODS], starts[PRODS + 1], symbols[SYMBOLS];
static uint8_t costs[TOKENS];
static uint32_t first[RULES * TOKENS / 32], follow[RULES * TOKENS / 32];
static uint32_t empty[RULES / 32], reached[RULES / 32];
static uint32_t prices[RULES], dearest[RULES], lengths[RULES], counts[RULES];
static uint16_t sentence[ROOM];
static uint32_t listed; /* so many rules have their lists asked for */
static uint16_t lists[RULES];

#define GRAMMAR (uint16_t)rules, owners, prods, starts, prods + 1, symbols, length, costs, tokens
#define MARKS ((size_t)rules * ((tokens + 31) / 32))
#define ROW ((size_t)(rules + 31) / 32)
#define RIDX(number) ((boltmarrow_ridx){(uint16_t)(number)})
#define TIDX(number) ((boltmarrow_tidx){(uint16_t)(number)})
#define PIDX(number) ((boltmarrow_pidx){(uint16_t)(number)})

/* The next number on standard input, -1 at its end. */
static long number(void) {
    unsigned found;
    return scanf("%u", &found) == 1 ? (long)found : -1;
}

static int numbers(uint16_t *to, size_t count) {
    for (size_t k = 0; k < count; k++) {
        long found = number();
        if (found < 0 || found > 65535) return 0;
        to[k] = (uint16_t)found;
    }
    return 1;
}

/* Reads a grammar: 1 if there is one, 0 at the end of the input, -1 if a line is no grammar. */
static int read_grammar(void) {
    static uint16_t sizes[4], bytes[TOKENS];
    long next = number();
    if (next < 0) return 0;
    rules = (uint32_t)next;
    if (!numbers(sizes, 3)) return -1;
    tokens = sizes[0], prods = sizes[1], length = sizes[2];
    if (rules > RULES || tokens > TOKENS || prods > PRODS || length > SYMBOLS) return -1;
    if (!numbers(owners, prods) || !numbers(starts, prods + 1) || !numbers(symbols, length) || !numbers(bytes, tokens))
        return -1;
    for (uint32_t t = 0; t < tokens; t++) {
        if (bytes[t] > 255) return -1;
        costs[t] = (uint8_t)bytes[t];
    }
    if (!numbers(sizes, 1) || sizes[0] > RULES) return -1;
    listed = sizes[0];
    return numbers(lists, listed) ? 1 : -1;
}

static const char *comma(uint32_t k) { return k ? "," : ""; }

static void refused(uint32_t refusal) { printf("{\"refused\":%u}", refusal); }

static void outcome(boltmarrow_answer answer) {
    if (answer.refusal)
        refused(answer.refusal);
    else
        printf("{\"returned\":[%u]}", answer.value);
}

static void print_marks(const char *name, const uint32_t *table) {
    printf("\"%s\":[", name);
    for (uint16_t r = 0; r < rules; r++) {
        printf("%s[", comma(r));
        uint32_t shown = 0;
        for (uint16_t t = 0; t < tokens; t++)
            if (boltmarrow_mark(GRAMMAR, table, MARKS, RIDX(r), TIDX(t)).value) printf("%s%u", comma(shown++), t);
        printf("]");
    }
    printf("],");
}

static void print_row(const char *name, const uint32_t *row) {
    printf("\"%s\":[", name);
    for (uint16_t r = 0; r < rules; r++)
        printf("%s%u", comma(r), boltmarrow_rule_mark(GRAMMAR, row, ROW, RIDX(r)).value);
    printf("],");
}

static void print_profile(void) {
    boltmarrow_verdict v = boltmarrow_profile(GRAMMAR, follow, MARKS, first, MARKS, empty, ROW, reached, ROW);
    printf("\"profile\":[%u,%u,%u,%u,%u],", v.clash, v.rule, v.lower, v.higher, v.token);
}

static void print_paths(void) {
    printf("\"path\":[");
    for (uint16_t from = 0; from < rules; from++) {
        printf("%s[", comma(from));
        for (uint16_t to = 0; to < rules; to++)
            printf("%s%u", comma(to), boltmarrow_has_path(GRAMMAR, RIDX(from), RIDX(to)).value);
        printf("]");
    }
    printf("],");
}

static void print_beyond(void) {
    boltmarrow_stretch stretch = boltmarrow_production(GRAMMAR, PIDX(prods));
    printf("\"beyond\":[");
    outcome((boltmarrow_answer){stretch.refusal, stretch.len});
    printf(",");
    outcome(boltmarrow_has_path(GRAMMAR, RIDX(rules), RIDX(0)));
    printf(",");
    outcome(boltmarrow_has_path(GRAMMAR, RIDX(0), RIDX(rules)));
    printf("],");
}

static void print_costs(void) {
    printf("\"costs\":[");
    for (uint16_t r = 0; r < rules; r++) {
        printf("%s", comma(r));
        outcome(boltmarrow_min_sentence_cost(GRAMMAR, RIDX(r), prices, rules));
    }
    printf("],");
}

static void print_dearest(void) {
    boltmarrow_dearest_fill(GRAMMAR, dearest, rules);
    printf("\"dearest\":[");
    for (uint32_t r = 0; r < rules; r++) printf("%s%u", comma(r), dearest[r]);
    printf("],");
}

static void print_tokens(uint32_t length) {
    printf("[");
    for (uint32_t k = 0; k < length; k++) printf("%s%u", comma(k), sentence[k]);
    printf("]");
}

static void print_sentence(uint16_t rule) {
    boltmarrow_answer answer = boltmarrow_min_sentence(GRAMMAR, RIDX(rule), prices, rules, lengths, rules,
                                                       sentence, ROOM);
    if (answer.refusal) {
        refused(answer.refusal);
        return;
    }
    printf("{\"returned\":");
    print_tokens(answer.value);
    printf("}");
}

static void print_sentences(void) {
    printf("\"sentences\":[");
    for (uint16_t r = 0; r < rules; r++) {
        printf("%s", comma(r));
        print_sentence(r);
    }
    printf("],");
}

#define WORKING prices, rules, lengths, rules, counts, rules

static void print_counts(void) {
    printf("\"counts\":[");
    for (uint16_t r = 0; r < rules; r++) {
        printf("%s", comma(r));
        outcome(boltmarrow_count_min_sentences(GRAMMAR, RIDX(r), WORKING));
    }
    printf("],");
}

/* All rows of a rule; those that are refused end the program, since a list that is asked for has none. */
static int print_list(uint16_t rule) {
    boltmarrow_answer count = boltmarrow_count_min_sentences(GRAMMAR, RIDX(rule), WORKING);
    if (count.refusal) {
        refused(count.refusal);
        return 1;
    }
    printf("{\"returned\":[");
    for (uint32_t k = 0; k < count.value; k++) {
        boltmarrow_answer row = boltmarrow_min_sentence_at(GRAMMAR, RIDX(rule), k, WORKING, sentence, ROOM);
        if (row.refusal) return 0;
        printf("%s", comma(k));
        print_tokens(row.value);
    }
    printf("]}");
    return 1;
}

static int print_lists(void) {
    printf("\"lists\":[");
    for (uint32_t k = 0; k < listed; k++) {
        printf("%s", comma(k));
        if (!print_list(lists[k])) return 0;
    }
    printf("]");
    return 1;
}

static int answer(void) {
    boltmarrow_answer check = boltmarrow_check(GRAMMAR);
    if (check.refusal) {
        outcome(check);
        printf("\n");
        return 1;
    }
    printf("{");
    boltmarrow_first_fill(GRAMMAR, first, MARKS, empty, ROW);
    print_marks("first", first);
    print_row("empty", empty);
    boltmarrow_follow_fill(GRAMMAR, 2, follow, MARKS, first, MARKS, empty, ROW, reached, ROW);
    print_marks("follow", follow);
    boltmarrow_reached_fill(GRAMMAR, reached, ROW);
    print_row("reached", reached);
    print_profile();
    print_paths();
    print_beyond();
    print_costs();
    print_dearest();
    print_sentences();
    print_counts();
    int whole = print_lists();
    printf("}\n");
    return whole;
}

int main(void) {
    int found;
    while ((found = read_grammar()) > 0) {
        if (!answer()) {
            fprintf(stderr, "ask: a row of a list is refused\n");
            return 2;
        }
        fflush(stdout);
    }
    if (found < 0) fprintf(stderr, "ask: a line is no grammar\n");
    return found < 0 ? 2 : 0;
}
