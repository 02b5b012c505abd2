/* Expressions: spelling at any depth, nodes in postfix order, names (4) and attributes (5) of their leaves. */
#ifndef BASELINE_EXPRESSION_H
#define BASELINE_EXPRESSION_H

#include "book.h"
#include "scan.h"

/* An operator takes five bytes of the text or more. */
enum { MAX_DEPTH = MAX_TEXT / 5 + 1 };

/* Where a definition's leaves may point: in the rule, to symbols before a position. */
struct scope {
    const struct rule *rule;
    uint32_t before;
};

static inline void breaks(struct book *b, uint32_t condition, bool broken)
{
    b->broken |= (uint32_t)broken << condition;
}

static inline void put_node(struct book *b, struct definition *d, struct node node)
{
    if (UNLIKELY(d->nodes == MAX_NODES)) {
        breaks(b, 3, true);
        return;
    }
    d->node[d->nodes++] = node;
}

/* own iK: an inherited attribute of the left side. */
static const uint8_t *scan_own(struct book *b, struct definition *d, const struct scope *in, const uint8_t *at)
{
    uint32_t K;
    at = scan_byte(scan_number(at, &K), ')');
    if (at == LOST)
        return LOST;
    if (K < b->inherited.count && K < MAX_INHERITED)
        breaks(b, 5, b->inherited.owner[K] != in->rule->left);
    else
        breaks(b, 4, true);
    put_node(b, d, (struct node){.operation = OWN, .attribute = (uint8_t)K});
    return at;
}

/* The right symbol J of the rule; 0 where there is none. */
static inline uint32_t symbol_at(struct book *b, const struct scope *in, uint32_t J)
{
    bool there = J - 1 < in->rule->length;
    breaks(b, 4, !there);
    breaks(b, 5, J >= in->before);
    return there ? in->rule->right[J - 1] : 0;
}

/* at J sK: a synthesized attribute of right symbol J. */
static const uint8_t *scan_at(struct book *b, struct definition *d, const struct scope *in, const uint8_t *at)
{
    uint32_t J, K;
    at = scan_byte(scan_name(scan_number(at, &J), 's', &K), ')');
    if (at == LOST)
        return LOST;
    uint32_t symbol = symbol_at(b, in, J);
    uint8_t rank = 0;
    if (K < b->synthesized.count && K < MAX_SYNTHESIZED) {
        breaks(b, 5, symbol != (uint32_t)NONTERMINAL + b->synthesized.owner[K]);
        rank = b->synthesized.rank[K];
    } else {
        breaks(b, 4, true);
    }
    put_node(b, d, (struct node){.operation = AT, .position = (uint8_t)J, .attribute = (uint8_t)K, .rank = rank});
    return at;
}

/* val J: the value of right symbol J, a token. */
static const uint8_t *scan_val(struct book *b, struct definition *d, const struct scope *in, const uint8_t *at)
{
    uint32_t J;
    at = scan_byte(scan_number(at, &J), ')');
    if (at == LOST)
        return LOST;
    breaks(b, 5, is_nonterminal(symbol_at(b, in, J)));
    put_node(b, d, (struct node){.operation = VAL, .position = (uint8_t)J});
    return at;
}

/* A number or a bracket without expressions in it. */
static inline const uint8_t *scan_leaf(struct book *b, struct definition *d, const struct scope *in, const uint8_t *at)
{
    if (begins(at, "(", 1)) {
        if (begins(at, "(own i", 6))
            return scan_own(b, d, in, at + 6);
        if (begins(at, "(at ", 4))
            return scan_at(b, d, in, at + 4);
        if (begins(at, "(val ", 5))
            return scan_val(b, d, in, at + 5);
        return LOST;
    }
    uint32_t number;
    at = scan_number(at, &number);
    put_node(b, d, (struct node){.operation = NUMBER, .number = number});
    return at;
}

/* The operator whose bracket opens here, or NUMBER, which is none. */
static inline enum operation operator_at(const uint8_t *at)
{
    if (*at != '(')
        return NUMBER;
    if (begins(at, "(add ", 5))
        return ADD;
    if (begins(at, "(sub ", 5))
        return SUB;
    if (begins(at, "(min ", 5))
        return MIN;
    if (begins(at, "(max ", 5))
        return MAX;
    return begins(at, "(pick ", 6) ? PICK : NUMBER;
}

/* An expression of any depth; open operators wait on a stack, with the number of operands that are to come. */
static const uint8_t *scan_expression(struct book *b, struct definition *d, const struct scope *in, const uint8_t *at)
{
    uint8_t operation[MAX_DEPTH], operands[MAX_DEPTH];
    uint32_t depth = 0;
    d->nodes = 0;
    for (;;) {
        enum operation opened = operator_at(at);
        if (opened != NUMBER) {
            operation[depth] = (uint8_t)opened;
            operands[depth++] = opened == PICK ? 3 : 2;
            at += opened == PICK ? 6 : 5;
            continue;
        }
        at = scan_leaf(b, d, in, at);
        while (depth > 0 && at != LOST && --operands[depth - 1] == 0) {
            at = scan_byte(at, ')');
            put_node(b, d, (struct node){.operation = operation[--depth]});
        }
        if (depth == 0 || at == LOST)
            return at;
        at = scan_byte(at, ' ');
    }
}

#endif
