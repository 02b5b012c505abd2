/* The states of a book: closures, go rules (8), actions and conflicts (9). The kernel rules (7) hold. */
#ifndef BASELINE_STATES_H
#define BASELINE_STATES_H

#include "book.h"
#include "grammar.h"

/* A state with its closure: nonterminals whose rules are in it, their lookaheads, and the symbols after its dots. */
struct closure {
    uint32_t state, kernel, kernel_end;
    uint32_t present;
    uint32_t lookaheads[32];
    uint64_t rules;
    uint64_t symbols;
};

/* The rules that follow the next symbol B of an item, where it hands on the lookaheads `set`. */
static inline void bring(struct grammar *g, struct closure *c, uint32_t B, uint32_t set)
{
    if (!has(g->derived, B))
        find_brought(g, B);
    for (uint32_t left = g->brings[B]; left != 0; left &= left - 1) {
        uint32_t C = lowest(left);
        uint64_t brought = g->brought[B][C];
        uint32_t add = (uint32_t)brought | ((brought & PASSED) != 0 ? set : 0);
        c->lookaheads[C] = add | (has(c->present, C) ? c->lookaheads[C] : 0);
        c->present |= 1u << C;
    }
}

static void close_state(struct grammar *g, struct closure *c, uint32_t S)
{
    const struct book *b = g->book;
    c->state = S;
    c->kernel = b->kernel_start[S];
    c->kernel_end = b->kernel_start[S + 1];
    c->present = 0;
    c->rules = c->symbols = 0;
    for (uint32_t k = c->kernel; k < c->kernel_end; k++) {
        uint32_t P = key_rule(b->kernel_key[k]), D = key_dot(b->kernel_key[k]);
        const struct rule *r = &b->rule[P];
        if (D == r->length)
            continue;
        uint32_t X = r->right[D], set = handed(g, P, D, b->kernel_set[k]);
        c->symbols |= 1ull << X;
        if (is_nonterminal(X) && set != 0)
            bring(g, c, X - NONTERMINAL, set);
    }
    for (uint32_t left = c->present; left != 0; left &= left - 1) {
        c->rules |= g->rules_of[lowest(left)];
        c->symbols |= g->first_symbols[lowest(left)];
    }
}

/* Where the targets of a state's go lines are compared, by symbol. */
struct targets {
    uint16_t at[SYMBOLS];
};

/* The item (P, D) with its lookaheads, advanced, is the target's next kernel line. */
static inline bool advances(const struct book *b, struct targets *t, uint32_t S, uint32_t P, uint32_t D, uint32_t set)
{
    uint32_t X = b->rule[P].right[D], k = t->at[X]++;
    return b->kernel_key[k] == kernel_key(b->go_target[S][X], P, D + 1) && (set & ~b->kernel_set[k]) == 0;
}

/* Items in the order of kernel lines, by rule and dot, each against its target. */
static bool all_advance(const struct grammar *g, const struct closure *c, struct targets *t)
{
    const struct book *b = g->book;
    uint32_t k = c->kernel;
    uint64_t rules = c->rules & ~g->empty_rules;
    for (;;) {
        uint32_t Q = rules != 0 ? lowest(rules) : MAX_RULES;
        for (; k < c->kernel_end && key_rule(b->kernel_key[k]) < Q; k++) {
            uint32_t P = key_rule(b->kernel_key[k]), D = key_dot(b->kernel_key[k]);
            if (D < b->rule[P].length && !advances(b, t, c->state, P, D, b->kernel_set[k]))
                return false;
        }
        if (rules == 0)
            return true;
        if (!advances(b, t, c->state, Q, 0, c->lookaheads[b->rule[Q].left]))
            return false;
        rules &= rules - 1;
    }
}

/* 8 */
static bool goes_right(const struct grammar *g, const struct closure *c)
{
    const struct book *b = g->book;
    const uint8_t *target = b->go_target[c->state];
    struct targets t;
    if (c->symbols != b->go_symbols[c->state])
        return false;
    for (uint64_t left = c->symbols; left != 0; left &= left - 1)
        t.at[lowest(left)] = b->kernel_start[target[lowest(left)]];
    if (!all_advance(g, c, &t))
        return false;
    for (uint64_t left = c->symbols; left != 0; left &= left - 1)
        if (t.at[lowest(left)] != b->kernel_start[target[lowest(left)] + 1])
            return false;
    return true;
}

/* A rule that is complete with these lookaheads, where `taken` already have an action. */
static inline bool put_reducer(struct book *b, uint32_t *taken, uint32_t P, uint32_t set)
{
    if ((*taken & set) != 0)
        return false;
    *taken |= set;
    b->reducer_rule[b->reducers] = (uint8_t)P;
    b->reducer_set[b->reducers++] = set;
    return true;
}

/* 9: the sets of complete items are not empty and share nothing, so a state has at most 32 of them. */
static bool actions_right(struct book *b, const struct grammar *g, const struct closure *c)
{
    uint32_t taken = (uint32_t)c->symbols;
    b->shifts[c->state] = taken;
    b->reducer_start[c->state] = (uint16_t)b->reducers;
    for (uint32_t k = c->kernel; k < c->kernel_end; k++) {
        uint32_t P = key_rule(b->kernel_key[k]);
        if (key_dot(b->kernel_key[k]) == b->rule[P].length && !put_reducer(b, &taken, P, b->kernel_set[k]))
            return false;
    }
    for (uint64_t left = c->rules & g->empty_rules; left != 0; left &= left - 1) {
        uint32_t P = lowest(left);
        if (!put_reducer(b, &taken, P, c->lookaheads[b->rule[P].left]))
            return false;
    }
    b->reducer_start[c->state + 1] = (uint16_t)b->reducers;
    return true;
}

#endif
