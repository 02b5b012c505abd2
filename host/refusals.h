/* The refusal numbers in words. */
#ifndef REFUSALS_H
#define REFUSALS_H

#include <stdint.h>

static inline const char *refusal_in_words(uint32_t number)
{
    static const char *const words[] = {
        "taken",
        "the text is longer than 65,536 bytes, or the lent words are not 16,384",
        "misspelt: a line's spelling, the order of the kinds of lines, or the order of lines of one kind",
        "a limit is passed: of terminals, states, attributes, rules, definitions, nodes or lines",
        "a name, rule, position or state is not declared, or stands where it may not",
        "an attribute is not its symbol's, val is of a nonterminal, or a definition reads what is not to its left",
        "a rule leaves an attribute without a definition",
        "the kernel lines of a state do not keep the rules for kernels",
        "the go lines do not agree with the items of the states",
        "a conflict: two different actions in one state before one terminal",
        "two formulas for one inherited attribute in one partial state",
        "the stored words are not those of a taken book",
        "the lent rows are not 5,120 words",
        "the token numbers are odd in number, or more than 510",
        "a token's kind is 0, or higher than the book's terminals",
        "the tokens are no message of this book",
        "the message has more than 512 rows",
        "the message needs more than 128 symbols on the stack",
    };
    return number < sizeof words / sizeof words[0] ? words[number] : "a number that no engine answers";
}

#endif
