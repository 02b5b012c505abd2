/*
 * One formula for each inherited attribute in each partial state (10), and the plans by which the evaluator fills a
 * cell.
 *
 * An item whose next symbol has inherited attributes gives all of them their formulas. In a partial state the first
 * item that can gives, and its definitions go into the plan; the others must give the same. First the whole state is
 * tried, with all items of its closure: if they agree, so do those of every partial state. Only where they do not, the
 * terminals are sorted into classes with the same items, and each class is tried.
 *
 * Formulas are compared by number: equal nodes have equal numbers (struct interned).
 */
#ifndef BASELINE_FORMULAS_H
#define BASELINE_FORMULAS_H

#include "book.h"
#include "grammar.h"
#include "states.h"
#include <string.h>

enum { HASHES = 1024, MAX_INTERNED = 4096, MOST_NODES = MAX_DEFINITIONS * MAX_NODES };

/* A node is one number: operation, then its operands' numbers, or a leaf's offset and attribute, or a written number.
 */
struct interned {
    uint32_t count; /* 0 is no node */
    uint16_t head[HASHES];
    uint16_t next[MAX_INTERNED];
    uint64_t node[MAX_INTERNED];
};

static void clear_interned(struct interned *t)
{
    t->count = 1;
    memset(t->head, 0, sizeof t->head);
}

static inline uint32_t intern(struct interned *t, uint64_t node)
{
    uint16_t *head = &t->head[node * 0x9e3779b97f4a7c15ull >> 54];
    for (uint32_t i = *head; i != 0; i = t->next[i])
        if (t->node[i] == node)
            return i;
    t->node[t->count] = node;
    t->next[t->count] = *head;
    *head = (uint16_t)t->count;
    return t->count++;
}

/* The items of a state that give: kernel lines and rules at their start, by bits; and the formulas that stand. */
struct giving {
    const struct grammar *grammar;
    const struct closure *closure;
    struct interned *interned;
    uint32_t kernels; /* bit i: kernel line i of the state */
    uint64_t rules;
    struct plan plan; /* those that gave, by their first definitions */
    uint32_t planned_kernels;
    uint32_t others;
    uint8_t other[MAX_STATE_KERNELS + MAX_RULES]; /* those that must agree, kernel lines first */
    uint32_t other_kernels;
    uint16_t slot[MAX_INHERITED];
};

/* A leaf or operator of a definition as a number. Where the dot is 0, own is what stands in the slot. */
static inline uint32_t intern_node(struct giving *v, const struct definition *d, const struct node *n, uint16_t *top,
                                   bool kernel)
{
    uint64_t offset = (uint64_t)(d->dot - n->position) << 16, part = (uint64_t)n->attribute << 32;
    switch (n->operation) {
    case NUMBER:
        return intern(v->interned, NUMBER | (uint64_t)n->number << 16);
    case OWN:
        return kernel ? intern(v->interned, OWN | (uint64_t)d->dot << 16 | part) : v->slot[n->attribute];
    case AT:
        return intern(v->interned, AT | offset | part);
    case VAL:
        return intern(v->interned, VAL | offset);
    case PICK:
        return intern(v->interned, PICK | (uint64_t)top[-3] << 16 | (uint64_t)top[-2] << 32 | (uint64_t)top[-1] << 48);
    default:
        return intern(v->interned, n->operation | (uint64_t)top[-2] << 16 | (uint64_t)top[-1] << 32);
    }
}

static uint32_t intern_definition(struct giving *v, const struct definition *d, bool kernel)
{
    static const uint8_t operands[] = {0, 0, 0, 0, 2, 2, 2, 2, 3};
    uint16_t stack[MAX_NODES + 1], *top = stack;
    for (uint32_t i = 0; i < d->nodes; i++) {
        uint32_t formula = intern_node(v, d, &d->node[i], top, kernel);
        top -= operands[d->node[i].operation];
        *top++ = (uint16_t)formula;
    }
    return stack[0];
}

/* An item's next symbol B: its first giver goes into the plan, any other must agree. */
static inline void note_giver(struct giving *v, uint32_t *settled, uint32_t B, uint8_t first)
{
    if (has(*settled, B))
        v->other[v->others++] = first;
    else
        v->plan.first[v->plan.count++] = first;
    *settled |= 1u << B;
}

static uint32_t note_kernels(struct giving *v, uint32_t settled)
{
    const struct book *b = v->grammar->book;
    for (uint32_t left = v->kernels; left != 0; left &= left - 1) {
        uint32_t key = b->kernel_key[v->closure->kernel + lowest(left)], P = key_rule(key), D = key_dot(key);
        note_giver(v, &settled, b->rule[P].right[D] - (uint32_t)NONTERMINAL, b->first_inherited[P][D]);
    }
    v->planned_kernels = v->plan.count;
    v->other_kernels = v->others;
    return settled;
}

/* Who gives first: kernel lines, then rules whose left side is settled or has nothing to settle. */
static void note_givers(struct giving *v)
{
    const struct grammar *g = v->grammar;
    const struct book *b = g->book;
    v->plan.count = 0;
    v->others = 0;
    uint32_t settled = note_kernels(v, 0), due = v->closure->present & (settled | ~g->with_inherited);
    while (due != 0) {
        uint32_t B = lowest(due), before = settled;
        due &= due - 1;
        for (uint64_t left = g->givers[B] & v->rules; left != 0; left &= left - 1) {
            uint32_t P = lowest(left);
            note_giver(v, &settled, b->rule[P].right[0] - (uint32_t)NONTERMINAL, b->first_inherited[P][0]);
        }
        due |= settled & ~before;
    }
}

static void set_slots(struct giving *v, uint32_t first, bool kernel)
{
    const struct book *b = v->grammar->book;
    uint32_t count = b->inherited.owned[b->definition[first].owner];
    for (const struct definition *d = &b->definition[first]; count > 0; count--, d++)
        v->slot[d->attribute] = (uint16_t)intern_definition(v, d, kernel);
}

static bool agrees(struct giving *v, uint32_t first, bool kernel)
{
    const struct book *b = v->grammar->book;
    uint32_t count = b->inherited.owned[b->definition[first].owner];
    for (const struct definition *d = &b->definition[first]; count > 0; count--, d++)
        if ((kernel || !d->copies) && v->slot[d->attribute] != intern_definition(v, d, kernel))
            return false;
    return true;
}

/* An item that copies every attribute to itself agrees, whatever stands. */
static bool only_copies(const struct giving *v)
{
    const struct book *b = v->grammar->book;
    if (v->other_kernels > 0)
        return false;
    for (uint32_t i = 0; i < v->others; i++) {
        const struct definition *d = &b->definition[v->other[i]];
        for (uint32_t count = b->inherited.owned[d->owner]; count > 0; count--, d++)
            if (!d->copies)
                return false;
    }
    return true;
}

/* The items give one formula to each attribute; the plan is then theirs. */
static bool one_plan(struct giving *v)
{
    note_givers(v);
    if (only_copies(v))
        return true;
    if (v->interned->count + MOST_NODES > MAX_INTERNED)
        clear_interned(v->interned);
    for (uint32_t i = 0; i < v->plan.count; i++)
        set_slots(v, v->plan.first[i], i < v->planned_kernels);
    for (uint32_t i = 0; i < v->others; i++)
        if (!agrees(v, v->other[i], i < v->other_kernels))
            return false;
    return true;
}

/* The items of a state that give at all. */
static void find_givers(struct giving *v)
{
    const struct book *b = v->grammar->book;
    const struct closure *c = v->closure;
    v->kernels = 0;
    v->rules = c->rules;
    for (uint32_t k = c->kernel; k < c->kernel_end; k++) {
        const struct rule *r = &b->rule[key_rule(b->kernel_key[k])];
        uint32_t D = key_dot(b->kernel_key[k]);
        if (D < r->length && is_nonterminal(r->right[D]) && b->inherited.owned[r->right[D] - NONTERMINAL] > 0)
            v->kernels |= 1u << (k - c->kernel);
    }
}

/* What rule P reaches from dot D on before it is complete. */
static uint32_t reach_from(const struct grammar *g, uint32_t P, uint32_t D)
{
    const struct rule *r = &g->book->rule[P];
    if (D == r->length)
        return 0;
    uint32_t X = r->right[D];
    if (!is_nonterminal(X))
        return 1u << X;
    if (handed(g, P, D, 1) == 0)
        return 0;
    return g->reach[X - NONTERMINAL] | (has(g->nullable, X - NONTERMINAL) ? g->rest_first[P][D] : 0);
}

static void find_reach(struct grammar *g)
{
    bool changed = true;
    memset(g->reach, 0, sizeof g->reach);
    while (changed) {
        changed = false;
        for (uint32_t P = g->book->rules; P-- > 0;) {
            uint32_t A = g->book->rule[P].left, set = g->reach[A] | reach_from(g, P, 0);
            changed |= set != g->reach[A];
            g->reach[A] = set;
        }
    }
    g->reach_known = true;
}

/* The terminals of the partial states that have the item (P, D), where `set` are its lookaheads. */
static uint32_t reached(const struct grammar *g, uint32_t P, uint32_t D, uint32_t set)
{
    const struct rule *r = &g->book->rule[P];
    bool vanishing = D == r->length;
    if (!vanishing)
        vanishing = has(g->rest_nullable[P], D) && is_nonterminal(r->right[D]) &&
                    has(g->nullable, r->right[D] - (uint32_t)NONTERMINAL);
    return reach_from(g, P, D) | (vanishing ? set : 0);
}

/* The items that give, with the terminals of their partial states. */
struct members {
    uint32_t kernel[MAX_STATE_KERNELS];
    uint32_t rule[MAX_RULES];
    uint64_t givers;
};

static void find_members(const struct giving *v, struct members *m)
{
    const struct grammar *g = v->grammar;
    const struct book *b = g->book;
    for (uint32_t left = v->kernels; left != 0; left &= left - 1) {
        uint32_t i = lowest(left), k = v->closure->kernel + i;
        m->kernel[i] = reached(g, key_rule(b->kernel_key[k]), key_dot(b->kernel_key[k]), b->kernel_set[k]);
    }
    m->givers = 0;
    for (uint32_t left = v->closure->present; left != 0; left &= left - 1)
        m->givers |= g->givers[lowest(left)];
    for (uint64_t left = m->givers; left != 0; left &= left - 1) {
        uint32_t P = lowest(left);
        m->rule[P] = reached(g, P, 0, v->closure->lookaheads[b->rule[P].left]);
    }
}

/* The items of the partial state at terminal a, and the terminals of `among` that have the same. */
static uint32_t choose_members(struct giving *v, const struct members *m, uint32_t kernels, uint32_t a, uint32_t among)
{
    v->kernels = 0;
    v->rules = 0;
    for (uint32_t left = kernels; left != 0; left &= left - 1) {
        uint32_t i = lowest(left), set = m->kernel[i];
        v->kernels |= (uint32_t)has(set, a) << i;
        among &= has(set, a) ? set : ~set;
    }
    for (uint64_t left = m->givers; left != 0; left &= left - 1) {
        uint32_t P = lowest(left), set = m->rule[P];
        v->rules |= (uint64_t)has(set, a) << P;
        among &= has(set, a) ? set : ~set;
    }
    return among;
}

static void keep_plan(struct book *b, const struct giving *v)
{
    b->plan[b->plans++] = v->plan;
}

/* Every partial state by itself, those with the same items once. */
static bool partial_plans(struct book *b, struct grammar *g, struct giving *v)
{
    struct members m;
    uint32_t S = v->closure->state, kernels = v->kernels;
    uint32_t left = (uint32_t)((1ull << (b->terminals + 1)) - 1);
    if (!g->reach_known)
        find_reach(g);
    find_members(v, &m);
    b->plan_of[S] = NO_PLAN;
    while (left != 0) {
        uint32_t alike = choose_members(v, &m, kernels, lowest(left), left);
        if (!one_plan(v))
            return false;
        for (uint32_t each = alike; each != 0; each &= each - 1)
            b->plan_at[S][lowest(each)] = (uint16_t)b->plans;
        keep_plan(b, v);
        left &= ~alike;
    }
    return true;
}

/* 10, of one state */
static bool one_formula(struct book *b, struct grammar *g, const struct closure *c, struct interned *t)
{
    struct giving v;
    v.grammar = g;
    v.closure = c;
    v.interned = t;
    find_givers(&v);
    if (!one_plan(&v))
        return partial_plans(b, g, &v);
    b->plan_of[c->state] = (uint16_t)b->plans;
    keep_plan(b, &v);
    return true;
}

#endif
