/* The limits of a book, and a book as the baseline holds it: arrays of fixed size, no heap. */
#ifndef BASELINE_BOOK_H
#define BASELINE_BOOK_H

#include <stdbool.h>
#include <stdint.h>

enum {
    MAX_TERMINALS = 31,
    MAX_NONTERMINALS = 31,
    MAX_STATES = 128,
    MAX_INHERITED = 16,
    MAX_SYNTHESIZED = 32,
    MAX_OWNED = 4,
    MAX_RULES = 64,
    MAX_RIGHT = 8,
    MAX_DEFINITIONS = 128,
    MAX_NODES = 15,
    MAX_KERNELS = 512,
    MAX_STATE_KERNELS = 16,
    MAX_GOES = 1024,
    MAX_TEXT = 65536,
    BOOK_WORDS = 16384,
    MAX_TOKENS = 255,
    MAX_ROWS = 512,
    ROW_WORDS = 10,
    PAGE_WORDS = 5120,
    MAX_STACK = 128
};

/* A symbol is one number: terminal K is K, nonterminal K is NONTERMINAL + K. t0 stands for what is not declared. */
enum { NONTERMINAL = 32, SYMBOLS = 64 };

/* Nodes of an expression; operators after the leaves. */
enum operation { NUMBER, OWN, AT, VAL, ADD, SUB, MIN, MAX, PICK };

struct node {
    uint8_t operation;
    uint8_t position;  /* J of at and val */
    uint8_t attribute; /* K of own and at */
    uint8_t rank;      /* of at: the attribute's place among those of its nonterminal; of val: 0 */
    uint32_t number;
};

/* A definition's expression in postfix order. The dot stands before the symbol that it is of, or behind the rule. */
struct definition {
    uint8_t attribute;
    uint8_t owner; /* the nonterminal that has the attribute */
    uint8_t dot;
    uint8_t nodes;
    bool copies; /* the expression is own of the attribute itself */
    struct node node[MAX_NODES];
};

struct rule {
    uint8_t left;
    uint8_t length;
    uint8_t right[MAX_RIGHT];
};

/* The attributes of one sort: owners by number, and for each nonterminal its attributes in order. */
struct attributes {
    uint32_t count;
    uint8_t owner[MAX_SYNTHESIZED];
    uint8_t rank[MAX_SYNTHESIZED];
    uint32_t name[MAX_SYNTHESIZED];       /* the owner as written */
    uint32_t owned[MAX_NONTERMINALS + 1]; /* how many each nonterminal has */
    uint8_t of[MAX_NONTERMINALS + 1][MAX_OWNED];
};

/* What is given to the cell of a partial state: the first definitions of the items that give, in order of giving. */
struct plan {
    uint8_t count;
    uint8_t first[MAX_INHERITED];
};

enum { NO_PLAN = 0xffff, MAX_REDUCERS = MAX_STATES * 32, MAX_PLANS = MAX_STATES * 32 };

struct book {
    uint32_t broken; /* bit n: condition n is broken (2 to 8) */
    uint32_t terminals, nonterminals, states;
    struct attributes inherited, synthesized;

    uint32_t rules;
    struct rule rule[MAX_RULES + 1]; /* the last takes what there is no room for */

    uint32_t inherited_definitions, definitions;
    struct definition definition[MAX_DEFINITIONS + 1];
    uint8_t first_inherited[MAX_RULES][MAX_RIGHT]; /* by rule and dot: the next symbol's first definition */
    uint8_t first_synthesized[MAX_RULES];

    /* kernel lines: (state, rule, dot) as one number, and the lookaheads */
    uint32_t kernels;
    uint32_t kernel_key[MAX_KERNELS + 1];
    uint32_t kernel_set[MAX_KERNELS + 1];
    uint16_t kernel_start[MAX_STATES + 1];

    /* go lines: the symbols of a state, and the targets of those */
    uint32_t goes;
    uint64_t go_symbols[MAX_STATES];
    uint8_t go_target[MAX_STATES][SYMBOLS];

    /* actions: terminals that are shifted; rules that are reduced, with their lookaheads (rule 0: accept) */
    uint32_t shifts[MAX_STATES];
    uint32_t reducers;
    uint16_t reducer_start[MAX_STATES + 1];
    uint8_t reducer_rule[MAX_REDUCERS];
    uint32_t reducer_set[MAX_REDUCERS];

    /* plans: one for the whole state, or NO_PLAN and one for each terminal */
    uint32_t plans;
    uint16_t plan_of[MAX_STATES];
    uint16_t plan_at[MAX_STATES][32];
    struct plan plan[MAX_PLANS];
};

static inline uint32_t kernel_key(uint32_t state, uint32_t rule, uint32_t dot)
{
    return state << 16 | rule << 4 | dot;
}

static inline uint32_t key_rule(uint32_t key)
{
    return key >> 4 & 63;
}

static inline uint32_t key_dot(uint32_t key)
{
    return key & 15;
}

static inline bool has(uint32_t set, uint32_t element)
{
    return set >> element & 1;
}

static inline bool is_nonterminal(uint32_t symbol)
{
    return symbol >= NONTERMINAL;
}

/* The lowest element of a set that is not empty. */
static inline uint32_t lowest(uint64_t set)
{
    return (uint32_t)__builtin_ctzll(set);
}

#endif
