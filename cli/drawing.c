#include "drawing.h"

#include <string.h>

static const char empty_tree[] = "(the empty tree)", no_kind[] = "(no kind)";

/* The kinds of the walk's node, each as "put" has it. Returns how many characters
 * there are, if each byte that begins one counts. */
static size_t put_kinds(FILE *to, const ws2s_walk *walk, const struct names *names, void (*put)(FILE *, const char *))
{
    size_t characters = 0;
    unsigned kinds = 0;
    for (unsigned variable = 0; variable < walk->variables; variable++) {
        char number[16];
        if (!ws2s_walk_has(walk, variable))
            continue;
        snprintf(number, sizeof number, "X%u", variable);
        const char *name = variable < names->count ? names->name[variable] : number;
        if (kinds++ > 0) {
            put(to, " + ");
            characters += 3;
        }
        put(to, name);
        for (; *name; name++)
            characters += (*name & 0xC0) != 0x80;
    }
    if (kinds == 0)
        put(to, no_kind);
    return kinds == 0 ? strlen(no_kind) : characters;
}

static void put_plain(FILE *to, const char *text)
{
    fputs(text, to);
}

static void put_nothing(FILE *to, const char *text)
{
    (void)to, (void)text;
}

static void put_in_dot(FILE *to, const char *text)
{
    for (; *text; text++) {
        if (*text == '"' || *text == '\\')
            fputc('\\', to);
        fputc(*text, to);
    }
}

static void put_in_xml(FILE *to, const char *text)
{
    for (; *text; text++)
        switch (*text) {
        case '&': fputs("&amp;", to); break;
        case '<': fputs("&lt;", to); break;
        case '>': fputs("&gt;", to); break;
        default: fputc(*text, to);
        }
}

void put_outline(FILE *to, const struct tree *tree, const struct names *names)
{
    uint8_t stack[tree->stack];
    unsigned places = 0;
    ws2s_walk walk;
    ws2s_walk_begin(&walk, tree->byte, tree->length, stack);
    for (; ws2s_walk_next(&walk); places++) {
        fprintf(to, "%*s", (int)(2 * walk.inside), "");
        put_kinds(to, &walk, names, put_plain);
        fputs("\n", to);
    }
    if (places == 0)
        fprintf(to, "%s\n", empty_tree);
}

/* The number of the node above the walk's, which is the number'th. "last" has the
 * last node of each depth. */
static unsigned above(const ws2s_walk *walk, unsigned number, unsigned *last)
{
    last[walk->depth] = number;
    return walk->depth > 0 ? last[walk->depth - 1] : 0;
}

void put_dot(FILE *to, const struct tree *tree, const struct names *names)
{
    uint8_t stack[tree->stack];
    unsigned last[tree->stack], number = 0;
    ws2s_walk walk;
    fputs("digraph tree {\n    node [shape=box, style=rounded, fontname=\"sans-serif\"];\n", to);
    ws2s_walk_begin(&walk, tree->byte, tree->length, stack);
    for (; ws2s_walk_next(&walk); number++) {
        unsigned from = above(&walk, number, last);
        fprintf(to, "    n%u [label=\"", number);
        put_kinds(to, &walk, names, put_in_dot);
        fputs("\"];\n", to);
        if (walk.branch == 1)
            fprintf(to, "    n%u -> n%u;\n", from, number);
        if (walk.branch == 2)
            fprintf(to, "    n%u -> n%u [style=dashed];\n    { rank=same; n%u; n%u; }\n", from, number, from, number);
    }
    if (number == 0)
        fprintf(to, "    n0 [shape=plaintext, label=\"%s\"];\n", empty_tree);
    fputs("}\n", to);
}

/* ---- SVG ---- */

enum { TEXT = 9, PAD = 12, HIGH = 32, GAP = 36, MARGIN = 12 }; /* in pixels; TEXT for a character */

/* Where everything stands: columns from the left, rows from the top. */
struct layout {
    unsigned nodes, columns, rows;
    size_t width; /* of a box; a name in a text may have any length */
    struct node {
        unsigned from, branch, column, row, columns; /* columns: that it takes with all inside it */
    } node[WS2S_MAX_POSITIONS];
};

static void lay_out(struct layout *l, const struct tree *tree, const struct names *names)
{
    size_t characters = 0;
    uint8_t stack[tree->stack];
    unsigned last[tree->stack];
    unsigned inside[WS2S_MAX_POSITIONS] = { 0 }, beside[WS2S_MAX_POSITIONS] = { 0 }; /* columns of the branches */
    ws2s_walk walk;
    l->nodes = l->rows = 0;
    ws2s_walk_begin(&walk, tree->byte, tree->length, stack);
    for (; ws2s_walk_next(&walk); l->nodes++) {
        size_t here = put_kinds(NULL, &walk, names, put_nothing);
        l->node[l->nodes] = (struct node){ .from = above(&walk, l->nodes, last), .branch = walk.branch,
                                           .row = walk.inside };
        if (here > characters)
            characters = here;
        if (walk.inside >= l->rows)
            l->rows = walk.inside + 1;
    }
    /* a branch comes after its node, so backwards every branch is known first */
    for (unsigned i = l->nodes; i-- > 0;) {
        struct node *n = &l->node[i];
        n->columns = inside[i] > 0 ? inside[i] : 1;
        if (n->branch != 0)
            (n->branch == 1 ? inside : beside)[n->from] = n->columns + beside[i];
    }
    for (unsigned i = 1; i < l->nodes; i++) {
        struct node *n = &l->node[i], *from = &l->node[n->from];
        n->column = from->column + (n->branch == 1 ? 0 : from->columns);
    }
    l->columns = l->nodes > 0 ? l->node[0].columns + beside[0] : 0;
    l->width = TEXT * characters + 2 * PAD;
}

static size_t left_of(const struct layout *l, const struct node *n)
{
    return MARGIN + n->column * (l->width + GAP);
}

static unsigned top_of(const struct node *n)
{
    return MARGIN + n->row * (HIGH + GAP);
}

static void put_line(FILE *to, const struct layout *l, const struct node *n)
{
    const struct node *from = &l->node[n->from];
    if (n->branch == 1)
        fprintf(to, "<line x1=\"%zu\" y1=\"%u\" x2=\"%zu\" y2=\"%u\"/>\n", left_of(l, from) + l->width / 2,
                top_of(from) + HIGH, left_of(l, n) + l->width / 2, top_of(n));
    if (n->branch == 2)
        fprintf(to, "<line x1=\"%zu\" y1=\"%u\" x2=\"%zu\" y2=\"%u\" stroke-dasharray=\"5 4\"/>\n",
                left_of(l, from) + l->width, top_of(from) + HIGH / 2, left_of(l, n), top_of(n) + HIGH / 2);
}

void put_svg(FILE *to, const struct tree *tree, const struct names *names)
{
    struct layout l;
    uint8_t stack[tree->stack];
    ws2s_walk walk;
    lay_out(&l, tree, names);
    size_t width = l.nodes > 0 ? l.columns * (l.width + GAP) - GAP : TEXT * strlen(empty_tree);
    unsigned height = l.nodes > 0 ? l.rows * (HIGH + GAP) - GAP : HIGH;
    fprintf(to, "<svg xmlns=\"http://www.w3.org/2000/svg\" width=\"%zu\" height=\"%u\" font-family=\"sans-serif\" "
                "font-size=\"15\" text-anchor=\"middle\">\n", width + 2 * MARGIN, height + 2 * MARGIN);
    fputs("<title>a tree: solid to the first part inside, dashed to the next part beside</title>\n"
          "<rect width=\"100%\" height=\"100%\" fill=\"white\"/>\n<g stroke=\"black\" fill=\"white\">\n", to);
    for (unsigned i = 0; i < l.nodes; i++) {
        put_line(to, &l, &l.node[i]);
        fprintf(to, "<rect x=\"%zu\" y=\"%u\" width=\"%zu\" height=\"%u\" rx=\"6\"/>\n", left_of(&l, &l.node[i]),
                top_of(&l.node[i]), l.width, (unsigned)HIGH);
    }
    fputs("</g>\n", to);
    ws2s_walk_begin(&walk, tree->byte, tree->length, stack);
    for (unsigned i = 0; ws2s_walk_next(&walk); i++) {
        fprintf(to, "<text x=\"%zu\" y=\"%u\">", left_of(&l, &l.node[i]) + l.width / 2, top_of(&l.node[i]) + 21);
        put_kinds(to, &walk, names, put_in_xml);
        fputs("</text>\n", to);
    }
    if (l.nodes == 0)
        fprintf(to, "<text x=\"%zu\" y=\"%u\">%s</text>\n", width / 2 + MARGIN, (unsigned)MARGIN + 21, empty_tree);
    fputs("</svg>\n", to);
}
