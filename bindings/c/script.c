/* Makes the calls that a script on standard input says (bindings/scripts/README.md has the form), and writes the script
 * with their answers: what is read is written again, and behind a call stands its answer, on a line that begins with
 * `=`. Such lines are passed over when read, so a stored script with its answers is its own input, and what is written
 * must be the same. A script that is not in the form ends the program, with the line and the case on the error stream.
 *
 * Each list is lent with its exact length, between a guard, bytes that no call may change, and a fence, memory that may
 * not be touched: a write or a read past a list's end stops the program. What was written until then is not lost, so it
 * shows which call it was. */
#include <stdio.h>
#include <stdlib.h>
#include <string.h>
#include <sys/mman.h>

#include "boltmarrow.h"

enum { TEXT = 1 << 20, MOST = 70000, GUARD = 64, PATTERN = 0xA5, FENCE = 65536, NAMED = 8, LONG = 600, FRONT = 16 };

/* The script; the part of it that is not read yet, the line at hand, and the part of this that is not read yet. */
static char text[TEXT + 1], *rest = text, *line = text, *here = text;
static const char *title = "no case";
static unsigned long line_number;

static _Noreturn void fail(const char *what, const char *which) {
    fflush(stdout);
    fprintf(stderr, "script: line %lu, in the case '%s': %s: '%s'\n", line_number, title, what, which);
    exit(2);
}

static void read_script(void) {
    size_t bytes = fread(text, 1, TEXT, stdin);
    if (bytes == TEXT) fail("the script is too long", "");
    if (strlen(text) != bytes) fail("the script has a byte 0", "");
    if (bytes == 0 || text[bytes - 1] != '\n') fail("the script's last line has no end", "");
}

/* Goes on to the next line that is no answer, and writes it; 0 at the script's end. */
static int next_line(void) {
    do {
        if (*rest == 0) return 0;
        line = here = rest;
        while (*rest != '\n') rest++;
        *rest++ = 0;
        line_number++;
    } while (*line == '=');
    printf("%s\n", line);
    fflush(stdout);
    return 1;
}

static void need_line(void) {
    if (!next_line()) fail("the script is cut short behind", line);
}

/* The byte that must come next in the line; 0 is its end. */
static void need(char byte) {
    if (*here != byte) fail("this cannot be read from here on", here);
    if (byte) here++;
}

/* A list as it is read or made. */
static uint32_t numbers[MOST];
static size_t count;

static int is_digit(void) { return *here >= '0' && *here <= '9'; }

static uint32_t read_number(uint32_t highest) {
    const char *from = here;
    uint64_t n = 0;
    if (!is_digit()) fail("a number is due here", here);
    while (is_digit()) {
        n = n * 10 + (uint64_t)(*here++ - '0');
        if (n > highest) fail("this number is too high", from);
    }
    return (uint32_t)n;
}

static void add(int64_t n, uint32_t highest) {
    if (n < 0 || n > highest) fail("this run leaves its numbers' range before", here);
    if (count == MOST) fail("this list is too long before", here);
    numbers[count++] = (uint32_t)n;
}

/* A number, or a run of them: 7x4, 7+4, 7-4, 7+4*2 or 7-4*2. */
static void read_run(uint32_t highest) {
    int64_t n = read_number(highest), length = 1, step = 0;
    char kind = *here;
    if (kind == 'x' || kind == '+' || kind == '-') {
        here++;
        length = read_number(UINT32_MAX);
        if (length == 0) fail("a run has no numbers before", here);
    }
    if (kind == '+' || kind == '-') step = 1;
    if (step == 1 && *here == '*') here++, step = read_number(UINT16_MAX);
    for (; length > 0; length--, n += kind == '-' ? -step : step) add(n, highest);
}

/* A list, up to what ends it. */
static void read_numbers(uint32_t highest) {
    count = 0;
    if (*here == ';' || *here == ')' || *here == 0) return;
    read_run(highest);
    while (*here == ' ') here++, read_run(highest);
}

/* Lent lists: a case's grammar, its tables and room, a file or room for one, what a file is read into, a job's record,
 * and none, which is always of length 0. D is of length 0 in a case that has none. */
enum {
    OWNERS, STARTS, SYMBOLS, COSTS, A, B, C, OUT, D, BYTES, READ_OWNERS, READ_STARTS, READ_SYMBOLS, READ_COSTS,
    JOB, NONE, LISTS
};
static const size_t size[LISTS] = {2, 2, 2, 1, 4, 4, 4, 2, 4, 1, 2, 2, 2, 1, 2, 4};
static uint8_t rooms[LISTS][GUARD + 4 * MOST + 2 * FENCE], guard[GUARD];
static struct {
    uint8_t *fence, *at;
    size_t len;
} lent[LISTS];
static uint16_t rules;
static int has_d;

/* Puts the list that was read or made where it is lent. Numbers stand low byte first, here as in the library. */
static void lend(int list) {
    uint8_t *at = lent[list].fence - count * size[list];
    memcpy(at - GUARD, guard, GUARD);
    for (size_t i = 0; i < count; i++) memcpy(at + i * size[list], &numbers[i], size[list]);
    lent[list].at = at;
    lent[list].len = count;
}

static void lend_same(int list, size_t len, uint32_t number) {
    for (count = 0; count < len; count++) numbers[count] = number;
    lend(list);
}

static void lend_read(int list) {
    read_numbers((uint32_t)(((uint64_t)1 << 8 * size[list]) - 1));
    lend(list);
}

static void build_fences(void) {
    memset(guard, PATTERN, GUARD);
    for (int list = 0; list < LISTS; list++) {
        uint8_t *last = rooms[list] + sizeof rooms[list] - FENCE;
        lent[list].fence = last - (size_t)last % FENCE;
        if (mprotect(lent[list].fence, FENCE, PROT_NONE)) fail("memory cannot be fenced", "");
        lend_same(list, 0, 0);
    }
}

static void check_guards(void) {
    for (int list = 0; list < LISTS; list++)
        if (memcmp(lent[list].at - GUARD, guard, GUARD)) fail("bytes before a lent list were changed", line);
}

static uint32_t item(int list, size_t i) {
    uint32_t n = 0;
    memcpy(&n, lent[list].at + i * size[list], size[list]);
    return n;
}

/* What a step has in its brackets. */
static uint32_t given[MOST];
static size_t given_len;

/* Numbers and refusals are said in runs, 7x4 for 7 7 7 7: a run is said when it ends. Refusals stand above all
 * numbers. */
static const uint64_t REFUSED = (uint64_t)1 << 32;
static uint64_t said;
static size_t times;

static void end_run(void) {
    if (times > 0) printf(said < REFUSED ? " %llu" : " refused %llu", (unsigned long long)(said % REFUSED));
    if (times > 1) printf("x%zu", times);
    times = 0;
}

static void say(uint64_t n) {
    if (n != said) end_run();
    said = n;
    times++;
}

static void say_list(int list, size_t len) {
    for (size_t i = 0; i < len; i++) say(item(list, i));
    end_run();
}

static void say_answer(boltmarrow_answer a) { say(a.refusal ? REFUSED + a.refusal : a.value); }

static void say_stretch(boltmarrow_stretch s) {
    if (s.refusal)
        printf(" refused %u", s.refusal);
    else
        printf(" %u %u", s.from, s.len);
}

/* A clash is 0 or 1, and beside a pass and a refusal none is named. */
static void say_verdict(boltmarrow_verdict v) {
    int named = v.rule || v.lower || v.higher || v.token;
    if (v.clash > 1 || (v.clash && v.refusal) || (named && !v.clash)) fail("its answer is no verdict", line);
    if (v.refusal)
        printf(" refused %u", v.refusal);
    else if (v.clash)
        printf(" clash %u %u %u %u", v.rule, v.lower, v.higher, v.token);
    else
        printf(" passes");
}

#define SAY(answer)                                                                                                    \
    _Generic((answer), boltmarrow_answer: say_answer, boltmarrow_stretch: say_stretch,                                 \
             boltmarrow_verdict: say_verdict)(answer)

/* The calls on a grammar and those on the built-in one, a line each: ONE has so many numbers in its brackets, WIDE too,
 * and the last of these has 32 bits; EACH is made for every number behind the first so many. */
#define LIST(type, list) (type *)(void *)lent[list].at, lent[list].len
#define G                                                                                                              \
    rules, LIST(const uint16_t, OWNERS), LIST(const uint16_t, STARTS), LIST(const uint16_t, SYMBOLS),                  \
        LIST(const uint8_t, COSTS)
#define T(list) LIST(uint32_t, list)
#define N(i) (uint16_t)given[i]
#define K(i) given[i]
#define RULE(i) ((boltmarrow_ridx){(uint16_t)given[i]})
#define TOKEN(i) ((boltmarrow_tidx){(uint16_t)given[i]})
#define PROD(i) ((boltmarrow_pidx){(uint16_t)given[i]})
#define CALLS                                                                                                          \
    ONE(check, 0, G)                                                                                                   \
    ONE(production, 1, G, PROD(0))                                                                                     \
    ONE(mark, 2, G, T(A), RULE(0), TOKEN(1))                                                                           \
    ONE(rule_mark, 1, G, T(B), RULE(0))                                                                                \
    ONE(first_clear, 0, G, T(A), T(B))                                                                                 \
    EACH(first_visit, 0, G, PROD(i), T(A), T(B))                                                                       \
    ONE(first_fill, 0, G, T(A), T(B))                                                                                  \
    ONE(has_path, 2, G, RULE(0), RULE(1))                                                                              \
    ONE(productive_clear, 0, G, T(A))                                                                                  \
    EACH(productive_visit, 0, G, PROD(i), T(A))                                                                        \
    ONE(productive_fill, 0, G, T(A))                                                                                   \
    ONE(cost_clear, 0, G, T(A))                                                                                        \
    EACH(cost_visit, 0, G, PROD(i), T(A))                                                                              \
    ONE(cost_fill, 0, G, T(A))                                                                                         \
    ONE(min_sentence_cost, 1, G, RULE(0), T(A))                                                                        \
    ONE(dearest_fill, 0, G, T(A))                                                                                      \
    ONE(reached_fill, 0, G, T(D))                                                                                      \
    ONE(follow_clear, 0, G, T(A))                                                                                      \
    EACH(follow_visit, 1, G, N(0), PROD(i), T(A), T(B), T(C), T(D))                                                    \
    ONE(follow_fill, 1, G, N(0), T(A), T(B), T(C), T(D))                                                               \
    ONE(profile, 0, G, T(A), T(B), T(C), T(D))                                                                         \
    ONE(min_sentence, 1, G, RULE(0), T(A), T(B), LIST(uint16_t, OUT))                                                  \
    ONE(count_min_sentences, 1, G, RULE(0), T(A), T(B), T(C))                                                          \
    WIDE(min_sentence_at, 2, G, RULE(0), K(1), T(A), T(B), T(C), LIST(uint16_t, OUT))                                  \
    ONE(house_check, 0, )                                                                                              \
    ONE(house_first_fill, 0, T(A), T(B))                                                                               \
    EACH(house_first, 1, T(A), RULE(0), TOKEN(i))                                                                      \
    EACH(house_empty, 0, T(B), RULE(i))                                                                                \
    ONE(house_cost_fill, 0, T(A))                                                                                      \
    EACH(house_cost, 0, RULE(i), T(A))                                                                                 \
    ONE(house_row, 0, T(A), T(B), LIST(uint16_t, OUT))

#define ONE(name, numbers, ...)                                                                                        \
    static void name(void) { SAY(boltmarrow_##name(__VA_ARGS__)); }
#define EACH(name, before, ...)                                                                                        \
    static void name(void) {                                                                                           \
        for (size_t i = before; i < given_len; i++) SAY(boltmarrow_##name(__VA_ARGS__));                               \
    }
#define WIDE ONE
CALLS
#undef ONE
#undef WIDE
#undef EACH

/* A job's record: the numbers of boltmarrow_job. */
enum { KIND, NEXT, CHANGED, DONE, RECORD };

static void job(void) {
    for (count = 0; count < RECORD; count++) numbers[count] = given[count];
    lend(JOB);
}

static void say_job(void) {
    printf(";");
    say_list(JOB, RECORD);
}

/* By the kind of a job, the lists that are lent as FIRST, EMPTY, FOLLOW, PRODUCTIVE, COST and the reached row: its own
 * tables, in the order of its visit; of the others none. Kind 1, which is refused, has those of FOLLOW, which a saved
 * job of it comes with; any other that there is not has those of the last. */
enum { KINDS = 5, TABLES = 6 };
static const int tables[KINDS][TABLES] = {
    {A, B, NONE, NONE, NONE, NONE},
    {B, C, A, NONE, NONE, D},
    {B, C, A, NONE, NONE, D},
    {NONE, NONE, NONE, A, NONE, NONE},
    {NONE, NONE, NONE, NONE, A, NONE},
};

static boltmarrow_answer make_slice(void) {
    uint32_t kind = item(JOB, KIND);
    const int *t = tables[kind < KINDS ? kind : KINDS - 1];
    return boltmarrow_slice((boltmarrow_job *)(void *)lent[JOB].at, G, K(0), T(t[0]), T(t[1]), T(t[2]), T(t[3]),
                            T(t[4]), T(t[5]));
}

static void slice(void) {
    SAY(make_slice());
    end_run();
    say_job();
}

/* Slices until the job says that it is done, one refuses, or one makes no visit: how many, and their visits. */
static void slices(void) {
    unsigned long long made = 0, visits = 0;
    boltmarrow_answer a;
    do {
        a = make_slice();
        made++;
        visits += a.value;
    } while (a.value > 0 && item(JOB, DONE) == 0);
    if (a.refusal)
        printf(" refused %u", a.refusal);
    else
        printf(" %llu %llu", made, visits);
    say_job();
}

static void show(void) {
    for (int list = A; list < OUT; list++) {
        say_list(list, lent[list].len);
        printf(";");
    }
    say_list(OUT, lent[OUT].len < LONG ? lent[OUT].len : FRONT);
    if (lent[OUT].len >= LONG) printf(" ..");
    if (has_d) {
        printf(";");
        say_list(D, lent[D].len);
    }
}

static void at(void) {
    if (given[0] >= lent[OUT].len) fail("out has no such place", line);
    say(item(OUT, given[0]));
}

static void count_of(void) {
    uint64_t found = 0;
    for (size_t i = 0; i < lent[OUT].len; i++) found += item(OUT, i) == given[0];
    say(found);
}

/* A block file: blocks of 512 bytes, each its number, 508 bytes of payload, and as its check the sum of all before it,
 * modulo 65536. A version 2 file has 32768 added to its R field, the first number of the payload. */
enum { BLOCK = 512, PAYLOAD = 508, CHECK = 510, R_FIELD = 2, VERSION_2 = 32768 };
static int file_made;

static void put(size_t at, uint32_t byte) {
    if (at < lent[BYTES].len) lent[BYTES].at[at] = (uint8_t)byte;
}

static void put_number(size_t at, uint32_t n) {
    put(at, n);
    put(at + 1, n >> 8);
}

/* A number of one or two bytes from payload byte `from` on; where the next one begins. */
static size_t put_payload(size_t from, uint32_t n, size_t bytes) {
    for (; bytes > 0; bytes--, from++, n >>= 8) put(from / PAYLOAD * BLOCK + 2 + from % PAYLOAD, n);
    return from;
}

/* R, T, P, N and the four lists, as far as the file goes. */
static void put_grammar(void) {
    const size_t counts[] = {rules, lent[COSTS].len, lent[OWNERS].len, lent[SYMBOLS].len};
    size_t from = 0;
    for (int i = 0; i < 4; i++) from = put_payload(from, (uint32_t)counts[i], 2);
    for (int list = OWNERS; list <= COSTS; list++)
        for (size_t i = 0; i < lent[list].len; i++) from = put_payload(from, item(list, i), size[list]);
}

static void put_block_numbers(void) {
    for (size_t b = 0; b < lent[BYTES].len / BLOCK; b++) put_number(b * BLOCK, (uint32_t)b);
}

static void put_checks(void) {
    for (size_t b = 0; b < lent[BYTES].len / BLOCK; b++) {
        uint32_t sum = 0;
        for (size_t k = 0; k < CHECK; k++) sum += lent[BYTES].at[b * BLOCK + k];
        put_number(b * BLOCK + CHECK, sum);
    }
}

/* The grammar's file, of so many bytes. */
static void make_file(size_t len) {
    lend_same(BYTES, len, 0);
    put_grammar();
    put_block_numbers();
    put_checks();
}

static void put_changes(void) {
    for (size_t i = 1; i < given_len; i += 2) put_number(given[i], given[i + 1]);
}

/* The same with numbers changed: before the checks, so that these are right for any other change, and after them, so
 * that a check changed stays so. */
static void file(void) {
    if (given_len % 2 == 0) fail("a changed number is due, behind its place", line);
    for (size_t i = 1; i < given_len; i += 2)
        if (given[i] + 2 > given[0]) fail("a changed number stands past the file's end", line);
    make_file(given[0]);
    put_changes();
    put_checks();
    put_changes();
    file_made = 1;
}

/* The lists that a file is read into are full of a number which no file here has, so it shows what was kept; so is the
 * room that a file is written to. */
static uint32_t old(int list) { return size[list] == 1 ? 99 : 9999; }

/* The first place from there on that is kept, or that is not. */
static size_t next_place(int list, size_t i, int kept) {
    while (i < lent[list].len && (item(list, i) == old(list)) != kept) i++;
    return i;
}

static uint64_t sum(int list, size_t len) {
    uint64_t sum = 0;
    for (size_t i = 0; i < len; i++) sum += item(list, i);
    return sum;
}

/* The length of a list's front, its numbers or, of many, their sum; and whether the rest is kept. */
static void say_front(int list, const char *name) {
    size_t len = next_place(list, 0, 1);
    printf("; %s %zu%s", name, len, len > NAMED ? ", sum" : ":");
    if (len > NAMED) printf(" %llu", (unsigned long long)sum(list, len));
    for (size_t i = 0; i < len && len <= NAMED; i++) printf(" %u", item(list, i));
    printf(next_place(list, len, 0) == lent[list].len ? ", rest kept" : ", rest lost");
}

static void say_fronts(void) {
    static const char *const names[] = {"owners", "starts", "symbols", "costs"};
    int kept = 1;
    for (int i = 0; i < 4; i++) kept &= next_place(READ_OWNERS + i, 0, 0) == lent[READ_OWNERS + i].len;
    if (kept) printf(", kept");
    for (int i = 0; i < 4 && !kept; i++) say_front(READ_OWNERS + i, names[i]);
}

static void read_blocks(void) {
    if (!file_made) fail("the case has made no file before", line);
    for (int i = 0; i < 4; i++) lend_same(READ_OWNERS + i, given[i], old(READ_OWNERS + i));
    boltmarrow_counts n = boltmarrow_read_blocks(LIST(const uint8_t, BYTES), LIST(uint16_t, READ_OWNERS),
                                                 LIST(uint16_t, READ_STARTS), LIST(uint16_t, READ_SYMBOLS),
                                                 LIST(uint8_t, READ_COSTS));
    if (n.refusal)
        printf(" refused %u", n.refusal);
    else
        printf(" %u %u %u %u %u", n.rules, n.tokens, n.prods, n.symbols, n.version);
    say_fronts();
}

/* The check of each block, of many their sum. */
static void say_checks(const uint8_t *bytes, size_t blocks) {
    uint64_t sum = 0;
    printf("; checks %zu%s", blocks, blocks > NAMED ? ", sum" : ":");
    for (size_t b = 0; b < blocks; b++) {
        const uint8_t *check = bytes + b * BLOCK + CHECK;
        uint32_t n = check[0] + 256u * check[1];
        if (blocks <= NAMED) printf(" %u", n);
        sum += n;
    }
    if (blocks > NAMED) printf(" %llu", (unsigned long long)sum);
}

/* Writes the grammar's file in a version to room full of 99. What was written is then the case's file, once it has been
 * held to what the step `file` makes, of version 2 with the R field changed; with a refusal there is none. */
static void write_blocks(void) {
    static uint8_t written[MOST];
    uint16_t version = (uint16_t)given[1];
    lend_same(BYTES, given[0], old(BYTES));
    boltmarrow_answer a = boltmarrow_write_blocks(G, version, LIST(uint8_t, BYTES));
    size_t room = lent[BYTES].len, len = a.refusal ? 0 : a.value;
    if (len > room) fail("it says more bytes than there is room", line);
    int kept = next_place(BYTES, len, 0) == room;
    check_guards();
    memcpy(written, lent[BYTES].at, len);
    make_file(len);
    if (version == 2) {
        put_number(R_FIELD, VERSION_2 + rules);
        put_checks();
    }
    if (a.refusal) {
        printf(" refused %u", a.refusal);
    } else {
        printf(" %zu", len);
        say_checks(written, len / BLOCK);
        printf("; %s file(%zu", memcmp(written, lent[BYTES].at, len) ? "other than" : "as", len);
        if (version == 2) printf(" %d %d", R_FIELD, VERSION_2 + rules);
        printf(")");
    }
    printf("; %zu %s", room - len, kept ? "kept" : "lost");
    memcpy(lent[BYTES].at, written, len);
    file_made = !a.refusal;
}

/* Every step: its name, how many numbers it has in its brackets, at least and at most, whether it has an answer, and the
 * place of the number that may have 32 bits, 0 for none. */
static const struct step {
    const char *name;
    size_t least, most;
    int answers;
    void (*make)(void);
    size_t wide;
} steps[] = {
#define ONE(name, numbers, ...) {#name, numbers, numbers, 1, name, 0},
#define WIDE(name, numbers, ...) {#name, numbers, numbers, 1, name, numbers},
#define EACH(name, before, ...) {#name, before + 1, MOST, 1, name, 0},
    CALLS
    {"read_blocks", 4, 4, 1, read_blocks, 0},
    {"write_blocks", 2, 2, 1, write_blocks, 0},
    {"job", RECORD, RECORD, 0, job, 0},
    {"slice", 1, 1, 1, slice, 1},
    {"slices", 1, 1, 1, slices, 1},
    {"file", 1, MOST, 0, file, 0},
    {"show", 0, 0, 1, show, 0},
    {"at", 1, 1, 1, at, 0},
    {"count", 1, 1, 1, count_of, 0},
};

/* The step that the line names; what stands in its brackets comes next. */
static const struct step *read_name(void) {
    for (size_t i = 0; i < sizeof steps / sizeof *steps; i++) {
        size_t len = strlen(steps[i].name);
        if (strncmp(line, steps[i].name, len) || line[len] != '(') continue;
        here = line + len + 1;
        return &steps[i];
    }
    fail("there is no such call", line);
}

static void read_given(const struct step *step) {
    read_numbers(UINT32_MAX);
    need(')');
    need(0);
    for (size_t i = 0; i < count; i++) {
        if (numbers[i] > UINT16_MAX && i + 1 != step->wide) fail("a number is too high", line);
        given[i] = numbers[i];
    }
    given_len = count;
}

static void make_step(void) {
    const struct step *step = read_name();
    read_given(step);
    if (given_len < step->least || given_len > step->most) fail("it takes other than so many numbers", line);
    if (step->answers) printf("=");
    step->make();
    end_run();
    if (step->answers) printf("\n");
    check_guards();
}

/* The lists of a line, with a semicolon between two. */
static void lend_lists(int first, int last) {
    for (int list = first; list <= last; list++) {
        lend_read(list);
        if (list < last) need(';');
    }
}

/* The lent tables: a, b, c and out, and behind them d where a case has it. */
static void lend_tables(void) {
    lend_lists(A, OUT);
    lend_same(D, 0, 0);
    has_d = *here == ';';
    if (has_d) {
        need(';');
        lend_read(D);
    }
    need(0);
}

static void make_case(void) {
    if (*line == 0) fail("a title is due here", line);
    title = line;
    file_made = 0;
    lend_same(JOB, RECORD, 0);
    need_line();
    rules = (uint16_t)read_number(UINT16_MAX);
    need(';');
    lend_lists(OWNERS, COSTS);
    need(0);
    need_line();
    lend_tables();
    need_line();
    if (*line == 0) fail("the case asks nothing", line);
    for (; *line; need_line()) make_step();
}

int main(void) {
    build_fences();
    read_script();
    while (next_line()) make_case();
    return fflush(stdout) != 0;
}
