/*
 * The rules of a book: definitions all there (6), nullable, FIRST, and what one nonterminal after a dot brings into a
 * closure. Sets of terminals and of nonterminals are bits of a 32-bit word, sets of rules and of symbols of a 64-bit
 * one.
 */
#ifndef BASELINE_GRAMMAR_H
#define BASELINE_GRAMMAR_H

#include "book.h"
#include <string.h>

/* In a lookahead set of a derivation: the lookaheads that the derivation starts with. */
#define PASSED (1ull << 32)

struct grammar {
    const struct book *book;
    uint32_t nullable;
    uint32_t with_inherited; /* nonterminals that have inherited attributes */
    uint32_t first[32];
    uint64_t empty_rules;
    uint64_t rules_of[32]; /* by left side, as are the next two */
    uint64_t first_symbols[32];
    uint64_t givers[32]; /* rules whose first symbol has inherited attributes */

    /* behind symbol D of rule P: FIRST, and whether all that is left is nullable (bit D) */
    uint32_t rest_first[MAX_RULES][MAX_RIGHT];
    uint8_t rest_nullable[MAX_RULES];

    /* B directly derives rules of C: whether, with which lookaheads, and whether also with its own */
    uint32_t derives[32];
    uint32_t hands_on[32];
    uint32_t gives[32][32];

    /* zero or more direct derivations from B: which nonterminals, with which lookaheads; worked out when asked for */
    uint32_t derived;
    uint32_t brings[32];
    uint64_t brought[32][32];

    /* what the rules of a nonterminal reach before they are complete; worked out when asked for */
    bool reach_known;
    uint32_t reach[32];
};

/* 6: every definition is of an attribute that its symbol has (5), no two are the same (2): so it is a matter of
 * numbers. */
static bool all_defined(struct book *b)
{
    uint32_t inherited = 0, synthesized = b->inherited_definitions;
    for (uint32_t P = 0; P < b->rules; P++) {
        const struct rule *r = &b->rule[P];
        for (uint32_t D = 0; D < r->length; D++) {
            b->first_inherited[P][D] = (uint8_t)inherited;
            if (is_nonterminal(r->right[D]))
                inherited += b->inherited.owned[r->right[D] - NONTERMINAL];
        }
        b->first_synthesized[P] = (uint8_t)synthesized;
        synthesized += b->synthesized.owned[r->left];
    }
    return inherited == b->inherited_definitions && synthesized == b->definitions;
}

/* Which nonterminals have which rules, and how these begin. */
static void sort_rules(struct grammar *g)
{
    const struct book *b = g->book;
    for (uint32_t A = 1; A <= MAX_NONTERMINALS; A++)
        g->with_inherited |= (uint32_t)(b->inherited.owned[A] > 0) << A;
    for (uint32_t P = 0; P < b->rules; P++) {
        const struct rule *r = &b->rule[P];
        g->rules_of[r->left] |= 1ull << P;
        if (r->length == 0) {
            g->empty_rules |= 1ull << P;
            continue;
        }
        g->first_symbols[r->left] |= 1ull << r->right[0];
        if (is_nonterminal(r->right[0]) && has(g->with_inherited, r->right[0] - (uint32_t)NONTERMINAL))
            g->givers[r->left] |= 1ull << P;
    }
}

/* The right side has nothing but nullable nonterminals. */
static inline bool vanishes(const struct rule *r, uint32_t nullable)
{
    uint32_t D = 0;
    while (D < r->length && is_nonterminal(r->right[D]) && has(nullable, r->right[D] - (uint32_t)NONTERMINAL))
        D++;
    return D == r->length;
}

static void find_nullable(struct grammar *g)
{
    const struct book *b = g->book;
    uint32_t before;
    if (g->empty_rules == 0)
        return;
    do {
        before = g->nullable;
        for (uint32_t P = 0; P < b->rules; P++)
            g->nullable |= (uint32_t)vanishes(&b->rule[P], g->nullable) << b->rule[P].left;
    } while (g->nullable != before);
}

/* What a rule begins with: terminals go to FIRST of its left side, nonterminals to the set that is handed back. */
static uint32_t leading(struct grammar *g, const struct rule *r)
{
    uint32_t found = 0;
    for (uint32_t D = 0; D < r->length; D++) {
        uint32_t X = r->right[D];
        if (!is_nonterminal(X)) {
            g->first[r->left] |= 1u << X;
            break;
        }
        found |= 1u << (X - NONTERMINAL);
        if (!has(g->nullable, X - NONTERMINAL))
            break;
    }
    return found;
}

static void find_first(struct grammar *g)
{
    const struct book *b = g->book;
    uint32_t begin[32] = {0};
    bool changed = true;
    for (uint32_t P = 0; P < b->rules; P++)
        begin[b->rule[P].left] |= leading(g, &b->rule[P]);
    while (changed) {
        changed = false;
        for (uint32_t A = b->nonterminals; A > 0; A--) {
            uint32_t set = g->first[A];
            for (uint32_t left = begin[A]; left != 0; left &= left - 1)
                set |= g->first[lowest(left)];
            changed |= set != g->first[A];
            g->first[A] = set;
        }
    }
}

/* FIRST and nullability behind each right symbol. */
static void find_rests(struct grammar *g, uint32_t P)
{
    const struct rule *r = &g->book->rule[P];
    uint32_t first = 0, nullable = 1;
    g->rest_nullable[P] = 0;
    for (uint32_t D = r->length; D-- > 0;) {
        uint32_t X = r->right[D];
        g->rest_first[P][D] = first;
        g->rest_nullable[P] |= (uint8_t)(nullable << D);
        if (!is_nonterminal(X)) {
            first = 1u << X;
            nullable = 0;
        } else if (has(g->nullable, X - NONTERMINAL)) {
            first |= g->first[X - NONTERMINAL];
        } else {
            first = g->first[X - NONTERMINAL];
            nullable = 0;
        }
    }
}

/* The lookaheads that the item (P, D) with lookaheads `set` hands to the rules of its next symbol. */
static inline uint32_t handed(const struct grammar *g, uint32_t P, uint32_t D, uint32_t set)
{
    return g->rest_first[P][D] | (has(g->rest_nullable[P], D) ? set : 0);
}

/* The direct derivation from rule P at its start. Where nothing can follow, nothing is derived. */
static void find_derivation(struct grammar *g, uint32_t P)
{
    const struct rule *r = &g->book->rule[P];
    if (r->length == 0 || !is_nonterminal(r->right[0]) || handed(g, P, 0, 1) == 0)
        return;
    uint32_t B = r->left, C = r->right[0] - (uint32_t)NONTERMINAL;
    g->gives[B][C] = g->rest_first[P][0] | (has(g->derives[B], C) ? g->gives[B][C] : 0);
    g->derives[B] |= 1u << C;
    g->hands_on[B] |= (uint32_t)(g->rest_nullable[P] & 1) << C;
}

static void prepare_grammar(struct grammar *g, const struct book *b)
{
    memset(g, 0, offsetof(struct grammar, rest_first));
    memset(g->derives, 0, sizeof g->derives);
    memset(g->hands_on, 0, sizeof g->hands_on);
    g->derived = 0;
    g->reach_known = false;
    g->book = b;
    sort_rules(g);
    find_nullable(g);
    find_first(g);
    for (uint32_t P = 0; P < b->rules; P++) {
        find_rests(g, P);
        find_derivation(g, P);
    }
}

/* All that the rules of B bring into a closure: lookaheads flow along derivations until nothing changes. */
static void find_brought(struct grammar *g, uint32_t B)
{
    uint64_t *brought = g->brought[B];
    uint32_t found = 1u << B, due = found;
    brought[B] = PASSED;
    while (due != 0) {
        uint32_t D = lowest(due);
        due &= due - 1;
        for (uint32_t left = g->derives[D]; left != 0; left &= left - 1) {
            uint32_t E = lowest(left);
            uint64_t set = g->gives[D][E] | (has(g->hands_on[D], E) ? brought[D] : 0);
            uint64_t old = has(found, E) ? brought[E] : 0;
            if (!has(found, E) || (set & ~old) != 0)
                due |= 1u << E;
            found |= 1u << E;
            brought[E] = old | set;
        }
    }
    g->brings[B] = found;
    g->derived |= 1u << B;
}

#endif
