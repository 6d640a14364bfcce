/* Prints, for each rule of a block file, the tokens that can follow it (FOLLOW):
 *
 *     example FILE
 */
#include <stdio.h>

#include "boltmarrow.h"

static uint8_t file[98 * 512 + 1]; /* one byte more than the longest file: a longer one is refused */
static uint16_t owners[4096], starts[4097], symbols[16384];
static uint8_t costs[512];
static uint32_t follow[512 * 16], first[512 * 16], empty[16], reached[16];

int main(int argc, char **argv) {
    if (argc != 2) {
        fprintf(stderr, "use: example FILE\n");
        return 2;
    }
    FILE *in = fopen(argv[1], "rb");
    if (!in) {
        perror(argv[1]);
        return 2;
    }
    size_t bytes = fread(file, 1, sizeof file, in);
    if (ferror(in)) {
        perror(argv[1]);
        return 2;
    }
    fclose(in);
    boltmarrow_counts n =
        boltmarrow_read_blocks(file, bytes, owners, 4096, starts, 4097, symbols, 16384, costs, 512);
    if (n.refusal) {
        fprintf(stderr, "%s: refused %u (boltmarrow.h lists the refusals)\n", argv[1], n.refusal);
        return 1;
    }
    /* the grammar is the front of each list; each table has its exact length */
    uint16_t rules = (uint16_t)n.rules;
    size_t width = (n.tokens + 31) / 32, marks = n.rules * width, row = (n.rules + 31) / 32;
    boltmarrow_answer done =
        boltmarrow_follow_fill(rules, owners, n.prods, starts, n.prods + 1, symbols, n.symbols, costs,
                               n.tokens, 2, follow, marks, first, marks, empty, row, reached, row);
    if (done.refusal) {
        fprintf(stderr, "%s: FOLLOW refused %u\n", argv[1], done.refusal);
        return 1;
    }
    /* the marks are read from the table: boltmarrow_mark would check the grammar for each */
    for (uint32_t r = 0; r < n.rules; r++) {
        const uint32_t *marked = follow + r * width;
        printf("%u:", r);
        for (uint32_t t = 0; t < n.tokens; t++)
            if (marked[t / 32] >> t % 32 & 1) printf(" %u", t);
        printf("\n");
    }
    return 0;
}
