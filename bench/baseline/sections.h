/*
 * The lines of a text, section by section, in one pass. Spelling and order (2) are answered by the place behind the
 * last line; limits (3), names (4), attributes (5), kernel rules (7) and n0 in a go line (8) are noted on the way,
 * since all that a line may name stands before it. Lines that there is no room for are read all the same.
 */
#ifndef BASELINE_SECTIONS_H
#define BASELINE_SECTIONS_H

#include "book.h"
#include "expression.h"
#include "scan.h"

static inline uint32_t smaller(uint32_t x, uint32_t y)
{
    return x < y ? x : y;
}

/* (book T N Q) */
static const uint8_t *scan_header(struct book *b, const uint8_t *at)
{
    uint32_t T, N, Q;
    if (!begins(at, "(book ", 6))
        return LOST;
    at = scan_line_end(scan_spaced_number(scan_spaced_number(scan_number(at + 6, &T), &N), &Q));
    if (at == LOST)
        return LOST;
    breaks(b, 3, T - 1 >= MAX_TERMINALS || N - 1 >= MAX_NONTERMINALS || Q - 1 >= MAX_STATES);
    b->terminals = smaller(T, MAX_TERMINALS);
    b->nonterminals = smaller(N, MAX_NONTERMINALS);
    b->states = smaller(Q, MAX_STATES);
    return at;
}

/* How many attributes have an owner of this name, whatever it is. */
static uint32_t namesakes(const struct attributes *s, uint32_t count, uint32_t name)
{
    uint32_t found = 0;
    for (uint32_t k = 0; k < count; k++)
        found += s->name[k] == name;
    return found;
}

static void own_attribute(struct book *b, struct attributes *s, uint32_t K, uint32_t A)
{
    bool declared = A - 1 < b->nonterminals;
    breaks(b, 4, !declared);
    s->name[K] = A;
    s->owner[K] = declared ? (uint8_t)A : 0;
    if (A <= MAX_NONTERMINALS) {
        uint32_t rank = s->owned[A]++;
        breaks(b, 3, rank >= MAX_OWNED);
        s->rank[K] = (uint8_t)(rank % MAX_OWNED);
        s->of[A][rank % MAX_OWNED] = (uint8_t)K;
    } else {
        s->rank[K] = 0;
        breaks(b, 3, namesakes(s, K, A) >= MAX_OWNED);
    }
}

/* (inh iK nA) or (syn sK nA) */
static const uint8_t *scan_attributes(struct book *b, struct attributes *s, const char *word, uint32_t limit,
                                      const uint8_t *at)
{
    s->count = 0;
    memset(s->owned, 0, sizeof s->owned);
    while (begins(at, word, 6)) {
        uint32_t K, A;
        at = scan_line_end(scan_name(scan_number(at + 6, &K), 'n', &A));
        if (at == LOST || K != s->count)
            return LOST;
        if (K < limit)
            own_attribute(b, s, K, A);
        s->count++;
    }
    breaks(b, 3, s->count > limit);
    return at;
}

/* A space and a symbol; the number of its name, and whether it is a nonterminal. */
static inline const uint8_t *scan_symbol(const uint8_t *at, bool *nonterminal, uint32_t *number)
{
    at = scan_byte(at, ' ');
    *nonterminal = *at == 'n';
    return scan_number(LIKELY(*at == 't' || *at == 'n') ? at + 1 : LOST, number);
}

/* A right symbol: not t0, not n0. */
static inline uint8_t right_symbol(struct book *b, bool nonterminal, uint32_t number)
{
    uint32_t largest = nonterminal ? b->nonterminals : b->terminals;
    if (number - 1 < largest)
        return (uint8_t)((nonterminal ? NONTERMINAL : 0) + number);
    breaks(b, 4, true);
    return 0;
}

static const uint8_t *scan_right_side(struct book *b, struct rule *r, const uint8_t *at)
{
    r->length = 0;
    while (*at == ' ') {
        bool nonterminal;
        uint32_t number;
        at = scan_symbol(at, &nonterminal, &number);
        uint8_t symbol = right_symbol(b, nonterminal, number);
        if (LIKELY(r->length < MAX_RIGHT))
            r->right[r->length++] = symbol;
        else
            breaks(b, 3, true);
    }
    return at;
}

static inline void check_left_side(struct book *b, struct rule *r, uint32_t K, uint32_t A)
{
    bool declared = K == 0 ? A == 0 : A - 1 < b->nonterminals;
    breaks(b, 4, !declared);
    r->left = declared ? (uint8_t)A : 0;
    if (K == 0)
        breaks(b, 4, r->length != 1 || !is_nonterminal(r->right[0]));
}

/* (rule K nA X1 .. Xm) */
static const uint8_t *scan_rules(struct book *b, const uint8_t *at)
{
    b->rules = 0;
    b->rule[MAX_RULES].length = 0;
    b->rule[MAX_RULES].left = 0;
    while (begins(at, "(rule ", 6)) {
        uint32_t K, A;
        struct rule *r = &b->rule[smaller(b->rules, MAX_RULES)];
        at = scan_name(scan_number(at + 6, &K), 'n', &A);
        at = scan_line_end(scan_right_side(b, r, at));
        if (at == LOST || K != b->rules)
            return LOST;
        check_left_side(b, r, K, A);
        b->rules++;
    }
    breaks(b, 3, b->rules - 1 >= MAX_RULES);
    return at;
}

/* The rule of a definition or kernel line; one without right symbols where there is none. */
static inline const struct rule *rule_at(struct book *b, uint32_t P)
{
    bool there = P < b->rules && P < MAX_RULES;
    breaks(b, 4, !there);
    return &b->rule[there ? P : MAX_RULES];
}

static inline struct definition *next_definition(struct book *b)
{
    return &b->definition[smaller(b->definitions++, MAX_DEFINITIONS)];
}

static inline void finish_definition(struct definition *d, uint32_t attribute, uint32_t owner, uint32_t dot)
{
    d->attribute = (uint8_t)attribute;
    d->owner = (uint8_t)owner;
    d->dot = (uint8_t)dot;
    d->copies = d->nodes == 1 && d->node[0].operation == OWN && d->node[0].attribute == attribute;
}

static void check_inherited_target(struct book *b, struct definition *d, const struct rule *r, uint32_t J, uint32_t K)
{
    bool position = J - 1 < r->length, attribute = K < b->inherited.count && K < MAX_INHERITED;
    uint32_t owner = attribute ? b->inherited.owner[K] : 0;
    breaks(b, 4, !position || !attribute);
    breaks(b, 5, position && r->right[J - 1] != NONTERMINAL + owner);
    finish_definition(d, K, owner, J - 1);
}

/* (x1, x2, x3) stands strictly before (y1, y2, y3) */
static inline bool before(uint32_t x1, uint32_t x2, uint32_t x3, uint32_t y1, uint32_t y2, uint32_t y3)
{
    return x1 != y1 ? x1 < y1 : x2 != y2 ? x2 < y2 : x3 < y3;
}

/* (inhdef P J iK e) */
static const uint8_t *scan_inherited_definitions(struct book *b, const uint8_t *at)
{
    uint32_t P = 0, J = 0, K = 0;
    b->definitions = 0;
    while (begins(at, "(inhde", 6)) {
        uint32_t lastP = P, lastJ = J, lastK = K;
        struct definition *d = next_definition(b);
        at = scan_spaced_number(scan_number(scan_two(at + 6, 'f', ' '), &P), &J);
        at = scan_byte(scan_name(at, 'i', &K), ' ');
        if (at == LOST || (b->definitions > 1 && !before(lastP, lastJ, lastK, P, J, K)))
            return LOST;
        struct scope in = {rule_at(b, P), J};
        at = scan_line_end(scan_expression(b, d, &in, at));
        check_inherited_target(b, d, in.rule, J, K);
    }
    b->inherited_definitions = b->definitions;
    return at;
}

static void check_synthesized_target(struct book *b, struct definition *d, const struct rule *r, uint32_t K)
{
    bool attribute = K < b->synthesized.count && K < MAX_SYNTHESIZED;
    uint32_t owner = attribute ? b->synthesized.owner[K] : 0;
    breaks(b, 4, !attribute);
    breaks(b, 5, owner != r->left);
    finish_definition(d, K, owner, r->length);
    d->copies = false;
}

/* (syndef P sK e) */
static const uint8_t *scan_synthesized_definitions(struct book *b, const uint8_t *at)
{
    uint32_t P = 0, K = 0;
    while (begins(at, "(synde", 6)) {
        uint32_t lastP = P, lastK = K;
        struct definition *d = next_definition(b);
        at = scan_byte(scan_name(scan_number(scan_two(at + 6, 'f', ' '), &P), 's', &K), ' ');
        bool ascends = b->definitions == b->inherited_definitions + 1 || before(0, lastP, lastK, 0, P, K);
        if (at == LOST || !ascends)
            return LOST;
        struct scope in = {rule_at(b, P), UINT32_MAX};
        at = scan_line_end(scan_expression(b, d, &in, at));
        check_synthesized_target(b, d, in.rule, K);
    }
    breaks(b, 3, b->definitions > MAX_DEFINITIONS);
    return at;
}

/* One or more lookaheads, strictly ascending. */
static inline const uint8_t *scan_lookaheads(struct book *b, const uint8_t *at, uint32_t *set)
{
    uint32_t a;
    at = scan_name(at, 't', &a);
    uint32_t found = 1u << (a % 32);
    while (*at == ' ') {
        uint32_t last = a;
        at = scan_name(at, 't', &a);
        if (UNLIKELY(a <= last))
            return LOST;
        found |= 1u << (a % 32);
    }
    breaks(b, 4, a > b->terminals);
    *set = found;
    return at;
}

/* The state whose kernel lines are read: how many so far, and the symbol before their dots. */
struct kernel_state {
    uint32_t state, lines, symbol;
};

/* What is asked of a kernel line (7), where r is its rule. */
static inline bool kernel_right(struct kernel_state *of, const struct rule *r, uint32_t P, uint32_t D, uint32_t set)
{
    if (P == 0 && set != 1)
        return false;
    if (of->state == 0)
        return of->lines == 1 && P == 0 && D == 0;
    if (D - 1 >= r->length)
        return false;
    if (of->lines == 1)
        of->symbol = r->right[D - 1];
    return of->symbol == r->right[D - 1];
}

/* The line's state: the last one, or the one after it, from 0 on. */
static inline void enter_state(struct book *b, struct kernel_state *of, uint32_t S)
{
    if (b->kernels > 0 && S == of->state) {
        of->lines++;
        return;
    }
    breaks(b, 7, S != (b->kernels == 0 ? 0 : of->state + 1));
    b->kernel_start[S % MAX_STATES] = (uint16_t)smaller(b->kernels, MAX_KERNELS);
    *of = (struct kernel_state){.state = S, .lines = 1, .symbol = 0};
}

static inline void put_kernel(struct book *b, struct kernel_state *of, uint32_t P, uint32_t D, uint32_t set)
{
    const struct rule *r = rule_at(b, P);
    uint32_t i = smaller(b->kernels, MAX_KERNELS);
    breaks(b, 3, of->lines > MAX_STATE_KERNELS);
    breaks(b, 4, of->state >= b->states || D > r->length);
    breaks(b, 7, !kernel_right(of, r, P, D, set));
    b->kernel_key[i] = kernel_key(of->state % MAX_STATES, P % MAX_RULES, D % 16);
    b->kernel_set[i] = set;
    b->kernels++;
}

static void finish_kernels(struct book *b, uint32_t last)
{
    uint32_t count = smaller(b->kernels, MAX_KERNELS);
    breaks(b, 3, b->kernels > MAX_KERNELS);
    breaks(b, 7, b->kernels == 0 || last != b->states - 1);
    b->kernel_start[b->states] = (uint16_t)count;
    b->kernel_key[count] = UINT32_MAX;
}

/* (kernel S P D t..) */
static const uint8_t *scan_kernels(struct book *b, const uint8_t *at)
{
    uint32_t S = 0, P = 0, D = 0, set = 0;
    struct kernel_state of = {0, 0, 0};
    b->kernels = 0;
    while (begins(at, "(kerne", 6)) {
        uint32_t lastS = S, lastP = P, lastD = D;
        at = scan_spaced_number(scan_spaced_number(scan_number(scan_two(at + 6, 'l', ' '), &S), &P), &D);
        at = scan_line_end(scan_lookaheads(b, at, &set));
        if (at == LOST || (b->kernels > 0 && !before(lastS, lastP, lastD, S, P, D)))
            return LOST;
        enter_state(b, &of, S);
        put_kernel(b, &of, P, D, set);
    }
    finish_kernels(b, S);
    return at;
}

/* A go line's symbol: not t0; n0 is after no dot (8). */
static inline uint32_t go_symbol(struct book *b, bool nonterminal, uint32_t number)
{
    breaks(b, 4, nonterminal ? number > b->nonterminals : number - 1 >= b->terminals);
    breaks(b, 8, nonterminal && number == 0);
    return (nonterminal ? NONTERMINAL : 0) + number % 32;
}

/* (go S X M) */
static const uint8_t *scan_goes(struct book *b, const uint8_t *at)
{
    uint32_t S = 0, X = 0, M;
    bool nonterminal = false;
    b->goes = 0;
    memset(b->go_symbols, 0, sizeof b->go_symbols);
    while (begins(at, "(go ", 4)) {
        uint32_t lastS = S, lastX = X;
        bool last_nonterminal = nonterminal;
        at = scan_symbol(scan_number(at + 4, &S), &nonterminal, &X);
        at = scan_line_end(scan_spaced_number(at, &M));
        if (at == LOST || (b->goes > 0 && !before(lastS, last_nonterminal, lastX, S, nonterminal, X)))
            return LOST;
        uint32_t symbol = go_symbol(b, nonterminal, X);
        breaks(b, 4, S >= b->states || M >= b->states);
        b->go_symbols[S % MAX_STATES] |= 1ull << symbol;
        b->go_target[S % MAX_STATES][symbol] = (uint8_t)(M % MAX_STATES);
        b->goes++;
    }
    breaks(b, 3, b->goes > MAX_GOES);
    return at;
}

/* The whole text; whether it is spelled right (2). */
static bool scan_book(struct book *b, const uint8_t *text, size_t length)
{
    if (length < 6 || !begins(text + (length - 6), "(end)\n", 6))
        return false;
    b->broken = 0;
    const uint8_t *at = scan_header(b, text);
    if (at == LOST)
        return false;
    at = scan_attributes(b, &b->inherited, "(inh i", MAX_INHERITED, at);
    at = scan_attributes(b, &b->synthesized, "(syn s", MAX_SYNTHESIZED, at);
    at = scan_rules(b, at);
    at = scan_inherited_definitions(b, at);
    at = scan_synthesized_definitions(b, at);
    at = scan_kernels(b, at);
    at = scan_goes(b, at);
    return at == text + (length - 6);
}

#endif
