/* Makes the calls that standard input tells of, and writes what each leaves. Both are 32-bit numbers, low byte first.
 * A call is its number in the table below, then its parameters as in boltmarrow.h: a number is one word, a list is its
 * length and then each element as one word. But a job's record comes behind the grammar, as a list of four numbers of
 * 16 bits. For each call come out the answer's words and then every element of every list, of the record too. Each list
 * stands between bytes that no call may change.
 */
#include <stdio.h>
#include <string.h>

#include "boltmarrow.h"

enum { NUMBERS = 3, LISTS = 11, ROOM = 1 << 20, GUARD = 64, GUARDED = 0xa5 };

struct list {
    char kind; /* b, h or w: of 8, 16 or 32 bits */
    uint8_t *at;
    size_t len;
};

struct call {
    uint32_t number[NUMBERS];
    struct list list[LISTS];
    size_t numbers, lists;
    uint32_t answer[6];
    size_t answers;
};

static _Alignas(8) uint8_t room[ROOM];

static void says(struct call *c, boltmarrow_answer said) {
    memcpy(c->answer, &said, sizeof said);
    c->answers = 2;
}

#define BYTES(k) c->list[k].at, c->list[k].len
#define HALVES(k) (uint16_t *)(void *)c->list[k].at, c->list[k].len
#define WORDS(k) (uint32_t *)(void *)c->list[k].at, c->list[k].len
#define NUMBER(k) (uint16_t)c->number[k]
#define JOB(k) (boltmarrow_job *)(void *)c->list[k].at
#define RIDX(k) ((boltmarrow_ridx){NUMBER(k)})
#define TIDX(k) ((boltmarrow_tidx){NUMBER(k)})
#define PIDX(k) ((boltmarrow_pidx){NUMBER(k)})
#define GRAMMAR NUMBER(0), HALVES(0), HALVES(1), HALVES(2), BYTES(3)
#define CALL(name, ...)                                                                                                \
    static void name(struct call *c) { says(c, boltmarrow_##name(__VA_ARGS__)); }

CALL(check, GRAMMAR)
CALL(mark, GRAMMAR, WORDS(4), RIDX(1), TIDX(2))
CALL(rule_mark, GRAMMAR, WORDS(4), RIDX(1))
CALL(first_clear, GRAMMAR, WORDS(4), WORDS(5))
CALL(first_visit, GRAMMAR, PIDX(1), WORDS(4), WORDS(5))
CALL(first_fill, GRAMMAR, WORDS(4), WORDS(5))
CALL(has_path, GRAMMAR, RIDX(1), RIDX(2))
CALL(productive_clear, GRAMMAR, WORDS(4))
CALL(productive_visit, GRAMMAR, PIDX(1), WORDS(4))
CALL(productive_fill, GRAMMAR, WORDS(4))
CALL(cost_clear, GRAMMAR, WORDS(4))
CALL(cost_visit, GRAMMAR, PIDX(1), WORDS(4))
CALL(cost_fill, GRAMMAR, WORDS(4))
CALL(min_sentence_cost, GRAMMAR, RIDX(1), WORDS(4))
CALL(dearest_fill, GRAMMAR, WORDS(4))
CALL(reached_fill, GRAMMAR, WORDS(4))
CALL(follow_clear, GRAMMAR, WORDS(4))
CALL(follow_visit, GRAMMAR, NUMBER(1), PIDX(2), WORDS(4), WORDS(5), WORDS(6), WORDS(7))
CALL(follow_fill, GRAMMAR, NUMBER(1), WORDS(4), WORDS(5), WORDS(6), WORDS(7))
CALL(slice, JOB(4), GRAMMAR, c->number[1], WORDS(5), WORDS(6), WORDS(7), WORDS(8), WORDS(9), WORDS(10))
CALL(min_sentence, GRAMMAR, RIDX(1), WORDS(4), WORDS(5), HALVES(6))
CALL(count_min_sentences, GRAMMAR, RIDX(1), WORDS(4), WORDS(5), WORDS(6))
CALL(min_sentence_at, GRAMMAR, RIDX(1), c->number[2], WORDS(4), WORDS(5), WORDS(6), HALVES(7))
CALL(write_blocks, GRAMMAR, NUMBER(1), BYTES(4))
CALL(house_check, )
CALL(house_first_fill, WORDS(0), WORDS(1))
CALL(house_first, WORDS(0), RIDX(0), TIDX(1))
CALL(house_empty, WORDS(0), RIDX(0))
CALL(house_cost_fill, WORDS(0))
CALL(house_cost, RIDX(0), WORDS(0))
CALL(house_row, WORDS(0), WORDS(1), HALVES(2))

static void production(struct call *c) {
    boltmarrow_stretch said = boltmarrow_production(GRAMMAR, PIDX(1));
    memcpy(c->answer, &said, sizeof said);
    c->answers = 3;
}

static void profile(struct call *c) {
    boltmarrow_verdict said = boltmarrow_profile(GRAMMAR, WORDS(4), WORDS(5), WORDS(6), WORDS(7));
    memcpy(c->answer, &said, sizeof said);
    c->answers = 6;
}

static void read_blocks(struct call *c) {
    boltmarrow_counts said = boltmarrow_read_blocks(BYTES(0), HALVES(1), HALVES(2), HALVES(3), BYTES(4));
    memcpy(c->answer, &said, sizeof said);
    c->answers = 6;
}

/* n: a number of 16 bits, k one of 32; else a list */
static const struct {
    void (*make)(struct call *);
    const char *kinds;
} calls[] = {
    {check, "nhhhb"},
    {production, "nhhhbn"},
    {mark, "nhhhbwnn"},
    {rule_mark, "nhhhbwn"},
    {first_clear, "nhhhbww"},
    {first_visit, "nhhhbnww"},
    {first_fill, "nhhhbww"},
    {has_path, "nhhhbnn"},
    {productive_clear, "nhhhbw"},
    {productive_visit, "nhhhbnw"},
    {productive_fill, "nhhhbw"},
    {cost_clear, "nhhhbw"},
    {cost_visit, "nhhhbnw"},
    {cost_fill, "nhhhbw"},
    {min_sentence_cost, "nhhhbnw"},
    {dearest_fill, "nhhhbw"},
    {reached_fill, "nhhhbw"},
    {follow_clear, "nhhhbw"},
    {follow_visit, "nhhhbnnwwww"},
    {follow_fill, "nhhhbnwwww"},
    {profile, "nhhhbwwww"},
    {slice, "nhhhbhkwwwwww"},
    {min_sentence, "nhhhbnwwh"},
    {count_min_sentences, "nhhhbnwww"},
    {min_sentence_at, "nhhhbnkwwwh"},
    {write_blocks, "nhhhbnb"},
    {read_blocks, "bhhhb"},
    {house_check, ""},
    {house_first_fill, "ww"},
    {house_first, "wnn"},
    {house_empty, "wn"},
    {house_cost_fill, "w"},
    {house_cost, "nw"},
    {house_row, "wwh"},
};

static int word(uint32_t *to) { return fread(to, sizeof *to, 1, stdin) == 1; }

static size_t width(char kind) { return kind == 'b' ? 1 : kind == 'h' ? 2 : 4; }

static size_t bytes(const struct list *list) { return list->len * width(list->kind); }

static int fits(uint32_t value, char kind) { return kind == 'w' || value >> 8 * width(kind) == 0; }

/* Puts a list's elements where it stands; 0 if one does not fit. */
static int read_elements(const struct list *list) {
    for (size_t k = 0; k < list->len; k++) {
        uint32_t element;
        if (!word(&element) || !fits(element, list->kind)) return 0;
        memcpy(list->at + k * width(list->kind), &element, width(list->kind));
    }
    return 1;
}

/* Where the guard behind the lists so far begins. */
static uint8_t *behind(const struct call *c) {
    return c->lists ? c->list[c->lists - 1].at + bytes(&c->list[c->lists - 1]) : room;
}

static int read_list(struct call *c, char kind) {
    uint32_t len;
    if (!word(&len)) return 0;
    size_t from = ((size_t)(behind(c) - room) + GUARD + 7) / 8 * 8;
    struct list list = {kind, room + from, len};
    if (len > ROOM || from + bytes(&list) + GUARD > ROOM) return 0;
    c->list[c->lists++] = list;
    return read_elements(&list);
}

static int read_call(struct call *c, const char *kinds) {
    for (; *kinds; kinds++) {
        uint32_t number;
        if (*kinds != 'n' && *kinds != 'k') {
            if (!read_list(c, *kinds)) return 0;
        } else if (!word(&number) || (*kinds == 'n' && !fits(number, 'h'))) {
            return 0;
        } else {
            c->number[c->numbers++] = number;
        }
    }
    return 1;
}

static int guarded(const uint8_t *from, const uint8_t *to) {
    while (from < to)
        if (*from++ != GUARDED) return 0;
    return 1;
}

/* Whether the bytes around the lists are as they were. */
static int kept(const struct call *c) {
    const uint8_t *from = room;
    for (size_t k = 0; k < c->lists; k++) {
        if (!guarded(from, c->list[k].at)) return 0;
        from = c->list[k].at + bytes(&c->list[k]);
    }
    return guarded(from, from + GUARD);
}

static void write_list(const struct list *list) {
    for (size_t k = 0; k < list->len; k++) {
        uint32_t element = 0;
        memcpy(&element, list->at + k * width(list->kind), width(list->kind));
        fwrite(&element, sizeof element, 1, stdout);
    }
}

static int fail(const char *what) {
    fprintf(stderr, "calls: %s\n", what);
    return 2;
}

int main(void) {
    uint32_t number;
    memset(room, GUARDED, sizeof room);
    while (word(&number)) {
        struct call c = {0};
        if (number >= sizeof calls / sizeof *calls) return fail("no such call");
        if (!read_call(&c, calls[number].kinds)) return fail("a call is cut short, or does not fit");
        calls[number].make(&c);
        if (!kept(&c)) return fail("a call wrote outside its lists");
        fwrite(c.answer, sizeof *c.answer, c.answers, stdout);
        for (size_t k = 0; k < c.lists; k++) write_list(&c.list[k]);
        memset(room, GUARDED, (size_t)(behind(&c) - room));
    }
    return 0;
}
