/* The transition rules of the five atoms. */
#ifndef ATOM_H
#define ATOM_H

#include <stdbool.h>

enum { SUBSET, SING, FIRST, SECOND, ROOT, ATOMS };

/* The state of a node, from the bits of X and Y and the states of its branches. */
static inline unsigned atom_step(unsigned op, bool x, bool y, unsigned first, unsigned second)
{
    unsigned sum = first + second + x;
    switch (op) {
    case SUBSET:
        return first == 1 || second == 1 || (x && !y);
    case SING:
        return sum < 2 ? sum : 2;
    case ROOT:
        return first == 0 && second == 0 ? x : 2;
    }
    unsigned branch = op == FIRST ? first : second, other = op == FIRST ? second : first;
    if (!x && !y && first == 0 && second == 0)
        return 0;
    if (!x && !y && ((first == 2 && second == 0) || (first == 0 && second == 2)))
        return 2;
    if (x && !y && first == 0 && second == 0)
        return 1;
    if (!x && y && branch == 1 && other == 0)
        return 2;
    return 3;
}

#endif
