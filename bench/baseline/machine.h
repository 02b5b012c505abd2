/* The stack evaluator of a taken book. A symbol on the stack stands for the row that was written when it was pushed. */
#ifndef BASELINE_MACHINE_H
#define BASELINE_MACHINE_H

#include "book.h"
#include "scan.h"
#include <string.h>

enum { START = 1, INHERITED = 2, SYNTHESIZED = 6, TOKEN = 64, NO_RULE = 64 };

struct machine {
    const struct book *book;
    uint32_t *rows;
    uint32_t count;    /* rows */
    uint32_t depth;    /* symbols */
    uint32_t position; /* tokens shifted */
    uint8_t state[MAX_STACK + 1];
    uint32_t *row[MAX_STACK + 1];                /* of each symbol, from 1 on */
    uint32_t cell[MAX_STACK + 1][MAX_INHERITED]; /* inherited values, by attribute */
};

static inline uint32_t operate(uint32_t operation, uint32_t x, uint32_t y)
{
    switch (operation) {
    case ADD:
        return x + y;
    case SUB:
        return x - y;
    case MIN:
        return x < y ? x : y;
    default:
        return x > y ? x : y;
    }
}

/* A leaf's value, where `base` symbols stand below the rule. */
static inline uint32_t leaf_value(const struct machine *m, const struct node *n, uint32_t base)
{
    switch (n->operation) {
    case NUMBER:
        return n->number;
    case OWN:
        return m->cell[base][n->attribute];
    default:
        return m->row[base + n->position][SYNTHESIZED + n->rank];
    }
}

static inline uint32_t value(const struct machine *m, const struct definition *d, uint32_t base)
{
    uint32_t stack[MAX_NODES + 1], *top = stack;
    if (LIKELY(d->nodes == 1))
        return leaf_value(m, &d->node[0], base);
    for (const struct node *n = d->node; n < d->node + d->nodes; n++) {
        if (n->operation < ADD) {
            *top++ = leaf_value(m, n, base);
        } else if (n->operation < PICK) {
            top--;
            top[-1] = operate(n->operation, top[-1], top[0]);
        } else {
            top -= 2;
            top[-1] = top[-1] != 0 ? top[0] : top[1];
        }
    }
    return stack[0];
}

/* The inherited values of the top cell, by the plan of the partial state. */
static inline void set_cell(struct machine *m, uint32_t S, uint32_t a)
{
    const struct book *b = m->book;
    uint32_t which = b->plan_of[S] != NO_PLAN ? b->plan_of[S] : b->plan_at[S][a], *cell = m->cell[m->depth];
    const struct plan *plan = &b->plan[which];
    memset(cell, 0, sizeof m->cell[0]);
    for (uint32_t i = 0; i < plan->count; i++) {
        const struct definition *d = &b->definition[plan->first[i]];
        for (uint32_t count = b->inherited.owned[d->owner]; count > 0; count--, d++)
            cell[d->attribute] = value(m, d, m->depth - d->dot);
    }
}

static inline void push(struct machine *m, uint32_t *row, uint32_t symbol)
{
    uint32_t below = m->state[m->depth++];
    m->row[m->depth] = row;
    m->state[m->depth] = m->book->go_target[below][symbol];
    m->count++;
}

static inline uint32_t shift(struct machine *m, uint32_t a, uint32_t value_of_token)
{
    uint32_t *row = m->rows + m->count * ROW_WORDS;
    if (m->count == MAX_ROWS)
        return 16;
    if (m->depth == MAX_STACK)
        return 17;
    set_cell(m, m->state[m->depth], a);
    memset(row, 0, ROW_WORDS * sizeof *row);
    row[0] = TOKEN + a;
    row[START] = m->position++;
    row[SYNTHESIZED] = value_of_token;
    push(m, row, a);
    return 0;
}

/* The row of rule P over the symbols above `base`. */
static inline void write_node(struct machine *m, uint32_t *row, uint32_t P, uint32_t base)
{
    const struct book *b = m->book;
    uint32_t left = b->rule[P].left;
    const struct definition *d = &b->definition[b->first_synthesized[P]];
    memset(row, 0, ROW_WORDS * sizeof *row);
    row[0] = P;
    row[START] = base < m->depth ? m->row[base + 1][START] : m->position;
    for (uint32_t i = 0; i < b->inherited.owned[left]; i++)
        row[INHERITED + i] = m->cell[base][b->inherited.of[left][i]];
    for (uint32_t i = 0; i < b->synthesized.owned[left]; i++)
        row[SYNTHESIZED + i] = value(m, &d[i], base);
}

/* A cell that is popped at once is not set: nothing reads it. */
static inline uint32_t reduce(struct machine *m, uint32_t P, uint32_t a)
{
    const struct rule *r = &m->book->rule[P];
    uint32_t *row = m->rows + m->count * ROW_WORDS, base = m->depth - r->length;
    if (m->count == MAX_ROWS)
        return 16;
    if (r->length == 0) {
        if (m->depth == MAX_STACK)
            return 17;
        set_cell(m, m->state[m->depth], a);
    }
    write_node(m, row, P, base);
    m->depth = base;
    push(m, row, NONTERMINAL + (uint32_t)r->left);
    return 0;
}

/* The rule that is reduced at a state and a terminal. */
static inline uint32_t reducer(const struct book *b, uint32_t S, uint32_t a)
{
    for (uint32_t i = b->reducer_start[S]; i < b->reducer_start[S + 1]; i++)
        if (has(b->reducer_set[i], a))
            return b->reducer_rule[i];
    return NO_RULE;
}

/* 0 where the tokens are accepted, with the row count; else 15, 16 or 17. */
static uint32_t run(const struct book *b, const uint32_t *tokens, uint32_t tokens_count, uint32_t *rows,
                    uint32_t *count)
{
    struct machine m;
    uint32_t refusal = 0;
    m.book = b;
    m.rows = rows;
    m.count = m.depth = m.position = 0;
    m.state[0] = 0;
    while (refusal == 0) {
        uint32_t S = m.state[m.depth], a = m.position < tokens_count ? tokens[2 * m.position] : 0;
        if (has(b->shifts[S], a)) {
            refusal = shift(&m, a, tokens[2 * m.position + 1]);
            continue;
        }
        uint32_t P = reducer(b, S, a);
        if (P == 0)
            break;
        refusal = P == NO_RULE ? 15 : reduce(&m, P, a);
    }
    *count = m.count;
    return refusal;
}

#endif
