/* A tree strip as an outline and as pictures. */
#ifndef DRAWING_H
#define DRAWING_H

#include "words.h"

/* A tree strip that ws2s_check_tree accepts, and how many entries a stack needs that
 * walks it: of a tree that ws2s_decide shows the states that it tells, of any other
 * WS2S_MAX_POSITIONS. */
struct tree {
    const uint8_t *byte;
    size_t length, stack;
};

/* A place on each line, with what is inside it below it and further in, and then
 * what is beside it. */
void put_outline(FILE *to, const struct tree *tree, const struct names *names);

/* For Graphviz: solid to the first part inside, dashed to the next beside. */
void put_dot(FILE *to, const struct tree *tree, const struct names *names);

/* The same, drawn: what is inside a part stands below it, what is beside it to
 * its right. */
void put_svg(FILE *to, const struct tree *tree, const struct names *names);

#endif
