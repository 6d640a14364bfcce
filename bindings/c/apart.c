/* Calls with a rule's, a token's and a production's number. bin/test-c compiles it as it stands, and with each kind of
 * number in the place of each other, which must be refused. */
#include "boltmarrow.h"

#ifndef RULE
#define RULE boltmarrow_ridx
#endif
#ifndef TOKEN
#define TOKEN boltmarrow_tidx
#endif
#ifndef PROD
#define PROD boltmarrow_pidx
#endif
#ifndef NEXT
#define NEXT boltmarrow_pidx
#endif

#define G rules, owners, owners_len, starts, starts_len, symbols, symbols_len, costs, costs_len

boltmarrow_answer asked(BOLTMARROW_GRAMMAR, const uint32_t *table, size_t len, RULE rule, TOKEN token) {
    return boltmarrow_mark(G, table, len, rule, token);
}

boltmarrow_stretch told(BOLTMARROW_GRAMMAR, PROD prod) { return boltmarrow_production(G, prod); }

void moved(boltmarrow_job *job, NEXT next) { job->next = next; }
