/* Boltmarrow: FIRST, EMPTY, FOLLOW, paths, minimum costs, the cheapest sentences and the cost of the
 * dearest ones of a flat grammar, and whether one token is enough to read it. One grammar is built
 * in, the house export's: its calls, boltmarrow_house_.., stand at the end.
 *
 * A grammar is R rules (`rules`); owners (P numbers); starts (P+1 numbers); symbols (N numbers);
 * token costs (T bytes). P, N and T are the lists' lengths. Production p is symbols starts[p] up
 * to, without, starts[p+1]. A symbol below 32768 is a token, otherwise rule (value - 32768).
 * Token T-1 is eof, rule 0 the start: it has a production for each export.
 *
 * Every call takes arbitrary lists and numbers, checks them itself, ends, and answers or refuses.
 * The lists of one call must not overlap where the call writes; a list of length 0 may have any
 * pointer that is not null and is aligned.
 *
 * Numbers. A rule's, a token's and a production's number are types of their own, so that none can
 * be passed for another: boltmarrow_has_path(.., (boltmarrow_ridx){1}, (boltmarrow_ridx){2}). All
 * numbers have 16 bits, but for `k`, the number of a sentence in a list, and `n`, the visits of a
 * slice, which have 32. A wider one that is put into such a type, or handed over as `rules`, `mode`
 * or `version`, is cut to 16 bits before the call sees it: 65537 asks about rule 1. Check it before.
 *
 * Tables. A mark table (FIRST, FOLLOW) has R rows of (T+31)/32 words: token t of rule r is bit t%32
 * of word r*((T+31)/32) + t/32. EMPTY, PRODUCTIVE and the reached row are one row of (R+31)/32
 * words: rule r is bit r%32 of word r/32. To go through the marks that a fill left read the bits: a
 * mark query checks the whole grammar each time.
 *
 * Spare bits, those of a row's last word behind its last mark: no visit or query reads or changes
 * them; clear and fill leave them zero.
 *
 * COST is R numbers: the cost, 0 to 65535; 65536 where the rule is dear: it has a sentence, and none
 * at 65535 or less has been found; 65537 where no sentence is known. A larger number counts as
 * unknown. The lengths are R numbers, the count of tokens of each rule's sentence: 65536 if it is
 * longer than 65535, 65537 if the rule is ungrounded (its choice is circular) or has no cost. The
 * counts are R numbers, how many cheapest sentences each rule has: 65536 for more than 65535, 65537
 * if the rule is circular through cheapest productions (14 of the calls on all cheapest sentences)
 * or has no cost. DEAREST is R numbers, the greatest cost of a sentence of each rule, 0 to 65534; or
 * 65535 where the costs of its sentences are without bound, 65536 where it has no sentence, 65537
 * where the greatest cost is above 65534: not what these three are in COST. The constants below name
 * these numbers.
 *
 * Stack. boltmarrow_min_sentence takes up to 125 KB: 224 bytes for each level of rules in rules, of
 * which there are at most 512. boltmarrow_count_min_sentences takes up to 165 KB, 288 bytes a level,
 * and boltmarrow_min_sentence_at up to 290 KB, 528 bytes a level. boltmarrow_has_path,
 * boltmarrow_reached_fill and boltmarrow_follow_fill take 12 KB, boltmarrow_house_row 17 KB,
 * boltmarrow_profile 47 KB, boltmarrow_slice takes 1.25 KB, boltmarrow_first_fill,
 * boltmarrow_productive_fill, boltmarrow_cost_fill and boltmarrow_min_sentence_cost take 1.5 KB, the
 * other house calls take 2 KB, every other call at most 1 KB. A KB is 1000 bytes here, and arguments
 * on the stack are counted. Where the C library's memset is bound at its first call, not at the
 * program's start, a call of up to 2 KB that makes it takes the linker's stack too, some 3 KB. No
 * call takes other memory than its stack and its lists.
 *
 * Refusals:
 *   1  R, T, P or N outside its limits (R 2..512, T 1..512, P 2..4096, N 1..16384)
 *   2  starts not P+1 long, first not 0, last not N, or falling somewhere
 *   3  an owner is R or more
 *   4  a rule owns no production
 *   5  a token symbol is T-1 or more, or a rule symbol's rule is R or more
 *   6  some production of rule 0 is not exactly one rule symbol, or some production holds rule 0
 *   7  a lent table is not of its exact length
 *   8  FOLLOW mode other than 2
 *   9, 10, 11  rule number R or more, token number T or more, production number P or more
 *  12  the rule asked for has no sentence
 *  13  it has one, but none costs 65535 or less
 *  14  the choice is circular: the first choice, the lowest-numbered cheapest production, of the
 *      rule or of one that it comes to leads back to that rule itself; in the calls on all cheapest
 *      sentences: some cheapest production, the first or another, does
 *  15  the sentence is longer than 65535 or than the room lent
 *  16  the rule has more than 65535 cheapest sentences, or not so many that there is a number k
 *  17  a job's kind is 1 or above 4, or its next production is P or more
 *  20  file empty, not whole blocks, or over 98 blocks
 *  21  a block's check differs
 *  22  a block's number is not its place
 *  23  other than the blocks due, or a spare payload byte not zero
 *  24  the buffer is too short for the grammar's block file
 *  25  a token other than eof costs nothing, in a file of version 2
 *  26  a file version other than 1 or 2
 *
 * The lowest number due is given; but 16 comes before 15, 17 of a slice before 7, the file reader's
 * order is 7, 20, 21, 22, 1, 23, 25, 2 to 6, and the file writer's 26, 1 to 6, 25, 24. A refusal
 * leaves lent memory as found, but for what a call's line says.
 */
#ifndef BOLTMARROW_H
#define BOLTMARROW_H

#include <stddef.h>
#include <stdint.h>

#ifdef __cplusplus
extern "C" {
#endif

/* The number of a rule, of a token, of a production, as the source's RIdx, TIdx and PIdx: in C
 * (boltmarrow_ridx){1}, in C++ boltmarrow_ridx{1}. They are passed as numbers of 16 bits are. */
typedef struct {
    uint16_t number;
} boltmarrow_ridx;
typedef struct {
    uint16_t number;
} boltmarrow_tidx;
typedef struct {
    uint16_t number;
} boltmarrow_pidx;

/* refusal 0: answered; value 0 for done, 1 or 0 for yes or no and for changed or same, else the
 * number. Beside a refusal the value is 0. */
typedef struct {
    uint32_t refusal;
    uint32_t value;
} boltmarrow_answer;

/* where a production's symbols stand in the symbol list, and how many; all 0 beside a refusal */
typedef struct {
    uint32_t refusal;
    uint32_t from;
    uint32_t len;
} boltmarrow_stretch;

/* the counts of a grammar read from a file, and the file's version, 1 or 2; all 0 beside a refusal */
typedef struct {
    uint32_t refusal;
    uint32_t rules;
    uint32_t tokens;
    uint32_t prods;
    uint32_t symbols;
    uint32_t version;
} boltmarrow_counts;

/* what the profile says: clash is 0 where the grammar passes, 1 where it clashes; then rule, lower,
 * higher and token name the least clash, two productions of a rule by their numbers and a token that
 * they share, or T, the number of tokens, where both can vanish and they share none. All are 0 where
 * it passes and beside a refusal. */
typedef struct {
    uint32_t refusal;
    uint32_t clash;
    uint32_t rule;
    uint32_t lower;
    uint32_t higher;
    uint32_t token;
} boltmarrow_verdict;

/* a job, which fills a table by slices: what it fills (one of the kinds below), the production that
 * the next visit is of, whether this round over the productions changed anything, and whether the job
 * is done; 0 for no, any other number for yes, and a slice that makes visits leaves 0 or 1. A new job
 * has its kind and is 0 otherwise. */
typedef struct {
    uint16_t kind;
    boltmarrow_pidx next;
    uint16_t changed;
    uint16_t done;
} boltmarrow_job;

/* a job's kind: FIRST and EMPTY, FOLLOW, PRODUCTIVE, COST */
#define BOLTMARROW_JOB_FIRST 0u
#define BOLTMARROW_JOB_FOLLOW 2u
#define BOLTMARROW_JOB_PRODUCTIVE 3u
#define BOLTMARROW_JOB_COST 4u

/* an entry of COST: up to MAX a cost; DEAR; UNKNOWN */
#define BOLTMARROW_COST_MAX 65535u
#define BOLTMARROW_COST_DEAR 65536u
#define BOLTMARROW_COST_UNKNOWN 65537u

/* a length: up to MAX the token count of the rule's sentence; LONG; NONE: ungrounded or without cost */
#define BOLTMARROW_LENGTH_MAX 65535u
#define BOLTMARROW_LENGTH_LONG 65536u
#define BOLTMARROW_LENGTH_NONE 65537u

/* a count: up to MAX that of the rule's cheapest sentences; MANY; NONE: circular or without cost */
#define BOLTMARROW_COUNT_MAX 65535u
#define BOLTMARROW_COUNT_MANY 65536u
#define BOLTMARROW_COUNT_NONE 65537u

/* an entry of DEAREST: up to MAX the greatest cost; UNBOUNDED: whatever the number, some sentence
 * costs as much; NONE: no sentence; ABOVE: the greatest cost is above MAX */
#define BOLTMARROW_DEAREST_MAX 65534u
#define BOLTMARROW_DEAREST_UNBOUNDED 65535u
#define BOLTMARROW_DEAREST_NONE 65536u
#define BOLTMARROW_DEAREST_ABOVE 65537u

/* the five parameters of a grammar */
#define BOLTMARROW_GRAMMAR                                                                         \
    uint16_t rules, const uint16_t *owners, size_t owners_len, const uint16_t *starts,             \
        size_t starts_len, const uint16_t *symbols, size_t symbols_len, const uint8_t *costs,      \
        size_t costs_len

/* The lowest refusal due of 1 to 6. */
boltmarrow_answer boltmarrow_check(BOLTMARROW_GRAMMAR);

/* A production's stretch of the symbol list. Refusals 1 to 6, 11. */
boltmarrow_stretch boltmarrow_production(BOLTMARROW_GRAMMAR, boltmarrow_pidx prod);

/* Whether a rule is marked for a token in FIRST or FOLLOW. Refusals 1 to 7, 9, 10. */
boltmarrow_answer boltmarrow_mark(BOLTMARROW_GRAMMAR, const uint32_t *table, size_t table_len,
                                  boltmarrow_ridx rule, boltmarrow_tidx token);

/* Whether a rule is marked in EMPTY, PRODUCTIVE or the reached row. Refusals 1 to 7, 9. */
boltmarrow_answer boltmarrow_rule_mark(BOLTMARROW_GRAMMAR, const uint32_t *table, size_t table_len,
                                       boltmarrow_ridx rule);

/* FIRST and EMPTY: set to zero; one production's step (changed or same); the defined tables,
 * whatever was there. Refusals 1 to 7; visit 11 too. */
boltmarrow_answer boltmarrow_first_clear(BOLTMARROW_GRAMMAR, uint32_t *first, size_t first_len,
                                         uint32_t *empty, size_t empty_len);
boltmarrow_answer boltmarrow_first_visit(BOLTMARROW_GRAMMAR, boltmarrow_pidx prod, uint32_t *first,
                                         size_t first_len, uint32_t *empty, size_t empty_len);
boltmarrow_answer boltmarrow_first_fill(BOLTMARROW_GRAMMAR, uint32_t *first, size_t first_len,
                                        uint32_t *empty, size_t empty_len);

/* Whether there is a path, of at least one production step, between two rules. Refusals 1 to 6, 9. */
boltmarrow_answer boltmarrow_has_path(BOLTMARROW_GRAMMAR, boltmarrow_ridx from,
                                      boltmarrow_ridx to);

/* PRODUCTIVE, as for FIRST. Refusals 1 to 7; visit 11 too. */
boltmarrow_answer boltmarrow_productive_clear(BOLTMARROW_GRAMMAR, uint32_t *productive,
                                              size_t productive_len);
boltmarrow_answer boltmarrow_productive_visit(BOLTMARROW_GRAMMAR, boltmarrow_pidx prod,
                                              uint32_t *productive, size_t productive_len);
boltmarrow_answer boltmarrow_productive_fill(BOLTMARROW_GRAMMAR, uint32_t *productive,
                                             size_t productive_len);

/* COST: cleared is 65537, none known; else as for FIRST. A visit adds up its production: unknown if
 * some rule in it is, else dear if one is or the total is above 65535. An unknown sum changes
 * nothing, else the owner's entry becomes the smaller of itself and the sum. While a table is being
 * filled a dear entry may still be lowered to a cost. Refusals 1 to 7; visit 11 too. */
boltmarrow_answer boltmarrow_cost_clear(BOLTMARROW_GRAMMAR, uint32_t *cost, size_t cost_len);
boltmarrow_answer boltmarrow_cost_visit(BOLTMARROW_GRAMMAR, boltmarrow_pidx prod, uint32_t *cost,
                                        size_t cost_len);
boltmarrow_answer boltmarrow_cost_fill(BOLTMARROW_GRAMMAR, uint32_t *cost, size_t cost_len);

/* The least cost of a sentence of a rule. Refusals 1 to 7, 9; then COST is filled, and 12 or 13 may
 * follow: its entry is BOLTMARROW_COST_UNKNOWN or BOLTMARROW_COST_DEAR. */
boltmarrow_answer boltmarrow_min_sentence_cost(BOLTMARROW_GRAMMAR, boltmarrow_ridx rule,
                                               uint32_t *cost, size_t cost_len);

/* DEAREST: the greatest cost of a sentence of each rule, whatever was there. Productions that derive
 * no sentence do not count, and a loop that adds no cost does not make a rule unbounded: A: A;
 * A: nothing has 0. It has no visits, and no job fills it. Refusals 1 to 7. */
boltmarrow_answer boltmarrow_dearest_fill(BOLTMARROW_GRAMMAR, uint32_t *dearest,
                                          size_t dearest_len);

/* The reached row: rule 0 and the rules that have a path from it, whatever was there. All other
 * rules are dead: they stand in no form that rule 0 derives. Refusals 1 to 7. */
boltmarrow_answer boltmarrow_reached_fill(BOLTMARROW_GRAMMAR, uint32_t *reached,
                                          size_t reached_len);

/* FOLLOW: token t for rule A where A t stands in some form that start eof derives; so the productions
 * of reached rules count. `mode` is 2, and nothing else is taken: 8. A clear leaves rule 0 with eof. A
 * visit reads FIRST, EMPTY and the reached row, which should be filled; a production of a rule that
 * the reached row does not mark changes nothing. A fill fills the reached row, FIRST and EMPTY too.
 * Refusals 1 to 7; visit 8 and 11, fill 8 too. 7 is for the reached row too. */
boltmarrow_answer boltmarrow_follow_clear(BOLTMARROW_GRAMMAR, uint32_t *follow, size_t follow_len);
boltmarrow_answer boltmarrow_follow_visit(BOLTMARROW_GRAMMAR, uint16_t mode, boltmarrow_pidx prod,
                                          uint32_t *follow, size_t follow_len,
                                          const uint32_t *first, size_t first_len,
                                          const uint32_t *empty, size_t empty_len,
                                          const uint32_t *reached, size_t reached_len);
boltmarrow_answer boltmarrow_follow_fill(BOLTMARROW_GRAMMAR, uint16_t mode, uint32_t *follow,
                                         size_t follow_len, uint32_t *first, size_t first_len,
                                         uint32_t *empty, size_t empty_len, uint32_t *reached,
                                         size_t reached_len);

/* The profile: whether a reader can decide by the next token which production of a rule to take. A
 * grammar passes where no two productions of one rule share a token, and at most one of a rule's can
 * vanish (derive the form of no symbols). A production's tokens are those that it may start with, and
 * FOLLOW of its owner where it can vanish. All rules take part: rule 0, and dead ones too, which
 * nothing follows. Otherwise the grammar clashes, and the least clash is named: by rule, lower
 * production, higher production, token. The tables are filled, passes or clashes, as
 * boltmarrow_follow_fill fills them, whatever was there. Refusals 1 to 7; 7 is for each of the four
 * tables. */
boltmarrow_verdict boltmarrow_profile(BOLTMARROW_GRAMMAR, uint32_t *follow, size_t follow_len,
                                      uint32_t *first, size_t first_len, uint32_t *empty,
                                      size_t empty_len, uint32_t *reached, size_t reached_len);

/* A slice of a job: n visits of its kind, from its next production on, rising, and from 0 again behind
 * the last; fewer only where the job is done or becomes so. The answer is how many were made, and the
 * job says where it stands then: it is done once a whole round changed nothing. A job that began with
 * cleared tables, FOLLOW with FIRST, EMPTY and the reached row filled, has then left what the fill
 * would; before, each mark and cost that it holds is true. The record is taken at its word, also one
 * that no slice left so. Only the tables of the kind are looked at: FIRST and EMPTY; FOLLOW, which is
 * changed, FIRST, EMPTY and the reached row, which are read; PRODUCTIVE; COST. The others may be of any
 * length, 0 too. Refusals 1 to 6, 17, then 7, also where no visit is asked for; a refusal, and a slice
 * without a visit, leave the record as found. Each slice checks the grammar first, so lend it hundreds
 * of visits; and a job goes up in every round, where a fill goes up and down, so it may make more
 * rounds. */
boltmarrow_answer boltmarrow_slice(boltmarrow_job *job, BOLTMARROW_GRAMMAR, uint32_t n,
                                   uint32_t *first, size_t first_len, uint32_t *empty,
                                   size_t empty_len, uint32_t *follow, size_t follow_len,
                                   uint32_t *productive, size_t productive_len, uint32_t *cost,
                                   size_t cost_len, const uint32_t *reached, size_t reached_len);

/* Writes the cheapest sentence of a rule, each rule replaced by its first choice, to the front of
 * `out`; the answer is its length. Refusals 1 to 7, 9; then both tables are filled, and 12 to 15 may
 * follow, which leave `out` as found. `out` is room of any length. */
boltmarrow_answer boltmarrow_min_sentence(BOLTMARROW_GRAMMAR, boltmarrow_ridx rule,
                                          uint32_t *cost, size_t cost_len, uint32_t *lengths,
                                          size_t lengths_len, uint16_t *out, size_t out_len);

/* How many cheapest sentences a rule has: its derivations through cheapest productions only, those
 * whose cost is their rule's. A sentence with two derivations counts twice. Refusals 1 to 7, 9; then
 * the three tables are filled, and 12, 13, 14 or 16 may follow. */
boltmarrow_answer boltmarrow_count_min_sentences(BOLTMARROW_GRAMMAR, boltmarrow_ridx rule,
                                                 uint32_t *cost, size_t cost_len,
                                                 uint32_t *lengths, size_t lengths_len,
                                                 uint32_t *counts, size_t counts_len);

/* Writes cheapest sentence number k of a rule, from 0, to the front of `out`; the answer is its
 * length. Productions rise, and within one the last place turns fastest; number 0 is what
 * boltmarrow_min_sentence writes. Refusals 1 to 7, 9; then the three tables are filled, and 12, 13,
 * 14, 16 and 15 may follow, in this order, which leave `out` as found. `out` is room of any length;
 * `k` has 32 bits. */
boltmarrow_answer boltmarrow_min_sentence_at(BOLTMARROW_GRAMMAR, boltmarrow_ridx rule, uint32_t k,
                                             uint32_t *cost, size_t cost_len, uint32_t *lengths,
                                             size_t lengths_len, uint32_t *counts,
                                             size_t counts_len, uint16_t *out, size_t out_len);

/* Reads a block file, of version 1 or 2, into lists of 4096, 4097, 16384 and 512, else 7. Fills the
 * front of each and keeps the rest, also when 2 to 6 follow; with 7, 20, 21, 22, 1, 23 and 25 all is
 * as found. */
boltmarrow_counts boltmarrow_read_blocks(const uint8_t *file, size_t file_len, uint16_t *owners,
                                         size_t owners_len, uint16_t *starts, size_t starts_len,
                                         uint16_t *symbols, size_t symbols_len, uint8_t *costs,
                                         size_t costs_len);

/* Writes the grammar's block file, whole blocks of 512 bytes, to the front of `out` and keeps the
 * rest; the answer is the number of bytes. `version` is 1 or 2, else 26, before all others. In
 * version 2 every token but eof costs at least 1, else 25; version 1 takes any costs. `out` is room
 * of any length; the largest file has 98 * 512 bytes, so that much is room for every grammar.
 * Refusals 26, 1 to 6, 25, then 24 where `out` is too short; with each nothing is written. Reading
 * the file gives the same grammar and version, and a file that was read is written, in its version,
 * with the same bytes. */
boltmarrow_answer boltmarrow_write_blocks(BOLTMARROW_GRAMMAR, uint16_t version, uint8_t *out,
                                          size_t out_len);

/* The house export, built in: the grammar of the controller's own CSV, a row with date and time and,
 * of each of twelve rooms, temperature, humidity and carbon dioxide, any of which may be missing:
 *
 *     14.11.2026;06:15;17,4;91,5;1240;18,9;;650; .. ;-2,1;88;410
 *
 * examples/house.txt has it as a text. A house call takes no grammar, and is otherwise the call above
 * that it names, on this one; so none of 1 to 6 is given, and none of 12 to 14: every rule has a
 * sentence, and no choice is circular. A token's cost is the characters that it takes at least; eof
 * costs nothing.
 *
 * The lengths: of FIRST and EMPTY in words, and the tokens of the cheapest row. COST and the lengths
 * of sentences are BOLTMARROW_HOUSE_RULES numbers. */
#define BOLTMARROW_HOUSE_RULES 58u
#define BOLTMARROW_HOUSE_TOKENS 8u
#define BOLTMARROW_HOUSE_FIRST_WORDS 58u
#define BOLTMARROW_HOUSE_EMPTY_WORDS 2u
#define BOLTMARROW_HOUSE_ROW_LENGTH 46u

/* its tokens */
#define BOLTMARROW_HOUSE_DIGITS 0u
#define BOLTMARROW_HOUSE_DECIMAL_COMMA 1u
#define BOLTMARROW_HOUSE_SEMICOLON 2u
#define BOLTMARROW_HOUSE_MINUS 3u
#define BOLTMARROW_HOUSE_DOT 4u
#define BOLTMARROW_HOUSE_COLON 5u
#define BOLTMARROW_HOUSE_NEWLINE 6u
#define BOLTMARROW_HOUSE_EOF 7u

/* its rules behind the start, which is rule 0: the row; of room i, from 1 to 12, the three fields and
 * each of them, which may be empty; date and time, and what the fields are made of */
#define BOLTMARROW_HOUSE_ROW 1u
#define BOLTMARROW_HOUSE_ROOM(i) ((uint16_t)(1u + (i)))
#define BOLTMARROW_HOUSE_TEMPERATURE(i) ((uint16_t)(11u + 3u * (i)))
#define BOLTMARROW_HOUSE_HUMIDITY(i) ((uint16_t)(12u + 3u * (i)))
#define BOLTMARROW_HOUSE_CARBON(i) ((uint16_t)(13u + 3u * (i)))
#define BOLTMARROW_HOUSE_STAMP 50u
#define BOLTMARROW_HOUSE_DATE 51u
#define BOLTMARROW_HOUSE_TIME 52u
#define BOLTMARROW_HOUSE_DEGREES 53u
#define BOLTMARROW_HOUSE_PERCENT 54u
#define BOLTMARROW_HOUSE_PARTS 55u
#define BOLTMARROW_HOUSE_SIGN 56u
#define BOLTMARROW_HOUSE_FRACTION 57u

/* boltmarrow_check: it is well formed, so this always answers. */
boltmarrow_answer boltmarrow_house_check(void);

/* boltmarrow_first_fill: FIRST and EMPTY, whatever was there. Refusal 7. */
boltmarrow_answer boltmarrow_house_first_fill(uint32_t *first, size_t first_len, uint32_t *empty,
                                              size_t empty_len);

/* boltmarrow_mark: whether a rule is marked for a token in FIRST. Refusals 7, 9, 10. */
boltmarrow_answer boltmarrow_house_first(const uint32_t *first, size_t first_len,
                                         boltmarrow_ridx rule, boltmarrow_tidx token);

/* boltmarrow_rule_mark: whether a rule is marked in EMPTY. Refusals 7, 9. */
boltmarrow_answer boltmarrow_house_empty(const uint32_t *empty, size_t empty_len,
                                         boltmarrow_ridx rule);

/* boltmarrow_cost_fill: COST, whatever was there. Refusal 7. */
boltmarrow_answer boltmarrow_house_cost_fill(uint32_t *cost, size_t cost_len);

/* boltmarrow_min_sentence_cost: the least cost of a rule. Refusals 7, 9; then COST is filled. */
boltmarrow_answer boltmarrow_house_cost(boltmarrow_ridx rule, uint32_t *cost, size_t cost_len);

/* boltmarrow_min_sentence of the start: writes the cheapest row, with every value missing, to the
 * front of `out` and keeps the rest; the answer is its length, BOLTMARROW_HOUSE_ROW_LENGTH. Refusal 7;
 * then both tables are filled, and 15 follows where `out` is shorter, which leaves it as found. */
boltmarrow_answer boltmarrow_house_row(uint32_t *cost, size_t cost_len, uint32_t *lengths,
                                       size_t lengths_len, uint16_t *out, size_t out_len);

#ifdef __cplusplus
}
#endif

#endif
