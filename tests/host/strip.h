/* Rule and tree strips: written bit by bit, made to measure, made at random. */
#ifndef STRIP_H
#define STRIP_H

#include "chance.h"

#include <stddef.h>

enum { MOST_STRIP = 2048, MOST_NODES = 512, MOST_JOINED = 16 };

struct strip {
    uint8_t byte[MOST_STRIP];
    size_t length;
};

/* Writes a number's lowest bits, most significant first, at a bit place and moves
 * the place on; the strip ends there. */
static inline void put(struct strip *s, size_t *at, unsigned bits, unsigned value)
{
    for (; bits && *at < 8 * MOST_STRIP; bits--, ++*at) {
        if (*at % 8 == 0)
            s->byte[*at / 8] = 0;
        s->byte[*at / 8] |= (uint8_t)((value >> (bits - 1) & 1) << (7 - *at % 8));
    }
    s->length = (*at + 7) / 8;
}

static inline unsigned bits_at(const struct strip *s, size_t at, unsigned bits)
{
    unsigned value = 0;
    for (; bits; bits--, at++)
        value = value << 1 | (s->byte[at / 8] >> (7 - at % 8) & 1u);
    return value;
}

/* ---- Rules ---- */

struct record {
    unsigned op, first, second;
};

/* Rule strips that were accepted have their n and m at the front. */
static inline unsigned variables(const struct strip *s) { return s->byte[0] & 15; }
static inline unsigned records(const struct strip *s) { return s->byte[1]; }
static inline size_t record_at(unsigned number) { return 16 + 18 * (size_t)number; }

/* The heading of a rule strip, at its front. */
static inline void put_heading(struct strip *s, size_t *at, unsigned n, unsigned m)
{
    *at = 0;
    put(s, at, 4, 1);
    put(s, at, 4, n);
    put(s, at, 8, m);
}

static inline void put_record(struct strip *s, size_t *at, unsigned op, unsigned first, unsigned second)
{
    put(s, at, 4, op);
    put(s, at, 7, first);
    put(s, at, 7, second);
}

static inline bool names_second_variable(unsigned op)
{
    return op == 0 || op == 2 || op == 3;
}

/* Each record has the op if it can, and names variables in turn and the record before;
 * the first is X0 subset X0. With a last record given it ends in that. Returns the bit
 * where the records end. */
static inline size_t make_plain_rule(struct strip *s, unsigned n, unsigned m, unsigned op, const struct record *last)
{
    size_t at;
    put_heading(s, &at, n, m);
    for (unsigned i = 0; i < m; i++) {
        struct record r = { i ? op : 0, i % n, i % n };
        if (r.op >= 5 && r.op <= 7)
            r.first = i - 1;
        if (!names_second_variable(r.op))
            r.second = r.op >= 6 ? i - 1 : 0;
        if (last && i == m - 1)
            r = *last;
        put_record(s, &at, r.op, r.first, r.second);
    }
    return at;
}

/* A rule that reaches the records of another, an accepted one, up to the last of these
 * parts, and joins all of them but one from left to right. There is at least one; whether
 * there is room for the records. */
static inline bool make_conjunction(struct strip *s, const struct strip *rule, const uint64_t *part, unsigned count, unsigned without)
{
    size_t at;
    unsigned m = 0, left[MOST_JOINED], joined = 0;
    for (unsigned i = 0; i < count; i++) {
        m = part[i] + 1 > m ? (unsigned)part[i] + 1 : m;
        if (i != without)
            left[joined++] = (unsigned)part[i];
    }
    unsigned more = joined > 1 ? joined - 1 : 1; /* one alone is joined with itself */
    if (m + more > 128)
        return false;
    put_heading(s, &at, variables(rule), m + more);
    for (unsigned i = 0; i < m; i++)
        put_record(s, &at, bits_at(rule, record_at(i), 4), bits_at(rule, record_at(i) + 4, 7), bits_at(rule, record_at(i) + 11, 7));
    for (unsigned i = 0; i < more; i++)
        put_record(s, &at, 7, i ? m + i - 1 : left[0], left[joined > 1 ? i + 1 : 0]);
    return true;
}

/* One of the records below this one, late ones more often. */
static inline unsigned some_record(unsigned below_this)
{
    return once_in(2) ? below(below_this) : below_this - 1 - below(below_this < 3 ? below_this : 3);
}

/* A valid record after so many others. */
static inline struct record make_record(unsigned n, unsigned number)
{
    struct record r = { .op = number == 0 || below(100) < 35 ? below(5) : 5 + below(4) };
    if (r.op == 5 && once_in(2))
        r.op = 6 + below(3);
    r.first = r.op <= 4 || r.op == 8 ? below(n) : some_record(number);
    r.second = names_second_variable(r.op) ? below(n) : r.op >= 6 ? some_record(number) : 0;
    return r;
}

static inline unsigned some_variables(void)
{
    return once_in(6) ? 1 + below(8) : 1 + below(3);
}

static inline unsigned some_records(void)
{
    return once_in(60) ? 1 + below(128) : once_in(3) ? 1 + below(32) : 1 + below(10);
}

/* A rule strip of so many valid records. */
static inline void make_valid_rule(struct strip *s, unsigned n, unsigned m)
{
    size_t at;
    put_heading(s, &at, n, m);
    for (unsigned i = 0; i < m; i++) {
        struct record r = make_record(n, i);
        put_record(s, &at, r.op, r.first, r.second);
    }
}

/* A rule strip of valid records; at times one record has fields of any kind. */
static inline void make_any_rule(struct strip *s)
{
    size_t at;
    unsigned n = some_variables(), m = some_records();
    unsigned odd = once_in(8) ? below(m) : m;
    put_heading(s, &at, n, m);
    for (unsigned i = 0; i < m; i++) {
        struct record r = make_record(n, i);
        if (i == odd) {
            if (once_in(3))
                r.op = below(16);
            if (once_in(2))
                r.first = once_in(2) ? below(128) : below(2 * n + 1);
            if (once_in(2))
                r.second = once_in(2) ? below(128) : i + below(2);
        }
        put_record(s, &at, r.op, r.first, r.second);
    }
}

/* A rule strip with many states: several atoms joined one after the other, at
 * times under a "not" or "exists". */
static inline void make_broad_rule(struct strip *s)
{
    size_t at;
    unsigned n = 2 + below(4), atoms = 2 + below(5), more = below(3), m = 2 * atoms - 1 + more;
    unsigned kind = below(8); /* 5 and above: mixed atoms */
    put_heading(s, &at, n, m);
    for (unsigned i = 0; i < atoms; i++) {
        unsigned op = kind < 5 ? kind : below(5);
        unsigned first = (i + below(2)) % n, second = (first + 1 + below(n - 1)) % n;
        put_record(s, &at, op, first, names_second_variable(op) ? second : 0);
    }
    for (unsigned i = 1; i < atoms; i++)
        put_record(s, &at, 6 + below(2), i == 1 ? 0 : atoms + i - 2, i);
    for (unsigned i = m - more; i < m; i++)
        if (once_in(3))
            put_record(s, &at, 5, i - 1, 0);
        else
            put_record(s, &at, 8, below(n), i - 1);
}

/* One of the first records, which are atoms, or its "not". */
static inline unsigned put_literal(struct strip *s, size_t *at, unsigned atoms, unsigned *number)
{
    unsigned literal = below(atoms);
    if (once_in(2))
        return literal;
    put_record(s, at, 5, literal, 0);
    return (*number)++;
}

/* A rule strip whose states are many and behave alike: a few atoms over few variables, and
 * then, over and over, the record before twice negated, below "exists", with itself, with
 * one of the atoms or its "not", with two of these joined by "or", or with any before it. */
static inline void make_alike_rule(struct strip *s)
{
    size_t at;
    unsigned n = once_in(6) ? 4 : 1 + below(3), atoms = 2 + below(3), number = atoms, last = 0;
    put_heading(s, &at, n, 0);
    for (unsigned i = 0; i < atoms; i++) {
        unsigned op = below(5);
        put_record(s, &at, op, below(n), names_second_variable(op) ? below(n) : 0);
    }
    for (unsigned steps = 1 + below(9); steps; steps--) {
        unsigned op = 6 + below(2), other = last;
        switch (below(8)) {
        case 0:
            put_record(s, &at, 5, last, 0);
            put_record(s, &at, 5, number++, 0);
            last = number++;
            continue;
        case 1:
            put_record(s, &at, 8, below(n), last);
            last = number++;
            continue;
        case 2:
            break;
        case 3:
            other = below(number);
            break;
        case 4:
        case 5:
            other = put_literal(s, &at, atoms, &number);
            break;
        default: {
            unsigned one = put_literal(s, &at, atoms, &number), two = put_literal(s, &at, atoms, &number);
            put_record(s, &at, 6, one, two);
            op = 7;
            other = number++;
        }
        }
        bool before = once_in(2);
        put_record(s, &at, op, before ? other : last, before ? last : other);
        last = number++;
    }
    s->byte[1] = (uint8_t)number;
}

/* A rule strip whose states are told apart one after the other: that one set has at least
 * so many members, each a set with one more than another; or that it is so many steps below
 * the root. */
static inline void make_chain_rule(struct strip *s)
{
    size_t at;
    bool counted = once_in(2);
    unsigned steps = 1 + below(once_in(8) ? 20 : 6), relation[2] = { counted ? 4 : 0, counted ? 5 : 1 }, number = counted ? 6 : 3;
    put_heading(s, &at, 2, 0);
    for (unsigned i = 0; i < 2; i++)
        put_record(s, &at, counted ? 0 : 2 + below(2), counted ? i : 1 - i, counted ? 1 - i : i);
    if (!counted)
        put_record(s, &at, 4, 0, 0);
    for (unsigned i = 0; i < 2 && counted; i++)
        put_record(s, &at, 5, i, 0);
    for (unsigned i = 0; i < 2 && counted; i++)
        put_record(s, &at, 7, i, 3 - i);
    for (unsigned i = 0; i < steps; i++) {
        unsigned of = relation[i % 2];
        if (i || !counted) {
            put_record(s, &at, 7, number - 1, of);
            of = number++;
        }
        put_record(s, &at, 8, i % 2, of);
        number++;
    }
    s->byte[1] = (uint8_t)number;
}

/* A rule strip that says of the places next to the members of a set, above them or below,
 * that they are members of it, or of another; at times with an atom. In such a rule a node
 * of label 0 above empty branches can tell a state apart from that of the empty tree. */
static inline void make_closed_rule(struct strip *s)
{
    size_t at;
    unsigned above = below(2), other = once_in(4) ? 3 : 0, op = below(5), number = 10;
    put_heading(s, &at, other ? 4 : 3, 0);
    for (unsigned i = 0; i < 2; i++)
        put_record(s, &at, 2 + below(2), 1, 2);
    put_record(s, &at, 6, 0, 1);
    put_record(s, &at, 0, above ? 1 : 2, 0);
    put_record(s, &at, 7, 2, 3);
    put_record(s, &at, 0, above ? 2 : 1, other);
    put_record(s, &at, 5, 5, 0);
    put_record(s, &at, 7, 4, 6);
    put_record(s, &at, 8, 1, 7);
    put_record(s, &at, 8, 2, 8);
    if (!once_in(4))
        put_record(s, &at, 5, number++ - 1, 0);
    if (once_in(2)) {
        put_record(s, &at, op, 0, names_second_variable(op) ? other : 0);
        put_record(s, &at, 6 + below(2), number - 1, number);
        number += 2;
    }
    s->byte[1] = (uint8_t)number;
}

/* Three atoms joined from the right. A trial joins the first two, which the rule does not. */
static inline void make_three_parts(struct strip *s)
{
    size_t at;
    put_heading(s, &at, 3, 5);
    for (unsigned i = 0; i < 3; i++) {
        unsigned op = once_in(4) ? 4 : once_in(3) ? 0 : 2 + below(2), first = below(3), second = (first + 1 + below(2)) % 3;
        put_record(s, &at, op, first, names_second_variable(op) ? second : 0);
    }
    put_record(s, &at, 7, 1, 2);
    put_record(s, &at, 7, 0, 3);
}

/* A rule strip of an atom and its "not", and parts that are joined to these two: it has few
 * states, for nothing is left after the first two, but without one of them it may have many. */
static inline void make_broad_trials(struct strip *s)
{
    size_t at;
    unsigned n = 2 + below(2), parts = 2 + below(3), number = 0;
    put_heading(s, &at, n, 0);
    for (unsigned i = 0; i <= parts; i++, number++) {
        unsigned op = below(5);
        put_record(s, &at, op, below(n), names_second_variable(op) ? below(n) : 0);
    }
    bool atom_first = once_in(2);
    put_record(s, &at, 5, 0, 0);
    put_record(s, &at, 7, atom_first ? 0 : number, atom_first ? number : 0);
    number += 2;
    for (unsigned i = 1; i <= parts; i++, number++)
        put_record(s, &at, 7, number - 1, i);
    s->byte[1] = (uint8_t)number;
}

/* What the parts of a rule that may clash are made of: at most three atoms, mostly
 * inclusions, each with its "not", from record 0 on. */
struct literals {
    unsigned variables, atoms;
};

static inline struct literals put_literals(struct strip *s, size_t *at)
{
    struct literals l = { 1 + below(3), 1 + below(3) };
    put_heading(s, at, l.variables, 0);
    for (unsigned i = 0; i < l.atoms; i++) {
        unsigned op = once_in(4) ? below(5) : 0;
        put_record(s, at, op, below(l.variables), names_second_variable(op) ? below(l.variables) : 0);
        put_record(s, at, 5, 2 * i, 0);
    }
    return l;
}

/* A part: an atom or its "not", or some of them joined by "or". Returns its number. */
static inline unsigned put_part(struct strip *s, size_t *at, const struct literals *l, unsigned *number)
{
    unsigned part = below(2 * l->atoms);
    for (unsigned i = 0; i < l->atoms; i++)
        if (i != part / 2 && !once_in(3)) {
            put_record(s, at, 6, part, 2 * i + below(2));
            part = (*number)++;
        }
    return part;
}

/* A rule strip that joins such parts by "and": from the left, from the right, or any
 * two neighbours. Now and then what was met before is met again. */
static inline void make_clashing_rule(struct strip *s)
{
    size_t at = 0;
    unsigned count = once_in(4) ? 15 + below(4) : 1 + below(12), order = below(3), held[18];
    struct literals l = put_literals(s, &at);
    unsigned number = 2 * l.atoms;
    for (unsigned i = 0; i < count; i++)
        held[i] = put_part(s, &at, &l, &number);
    while (count > 1) {
        unsigned one = order == 0 ? 0 : order == 1 ? count - 2 : below(count - 1), two = one + 1;
        if (once_in(8)) {
            put_record(s, &at, 7, held[one], below(number));
            held[one] = number++;
        }
        put_record(s, &at, 7, held[one], held[two]);
        held[one] = number++;
        held[two] = held[--count];
    }
    s->byte[1] = (uint8_t)number;
}

/* Puts records that the last one does not reach among those of an accepted rule
 * strip: valid ones, that name any before them. */
static inline void add_leftovers(struct strip *s)
{
    struct strip old = *s;
    size_t at;
    unsigned n = variables(&old), m = records(&old), room = 128 - m, number_of[128];
    unsigned more = once_in(20) ? room : 1 + below(6);
    if (more > room)
        more = room;
    put_heading(s, &at, n, m + more);
    for (unsigned i = 0, number = 0; i < m; number++) {
        struct record r;
        if (more && below(more + m - 1 - i) < more) {
            r = make_record(n, number);
            more--;
        } else {
            r = (struct record){ bits_at(&old, record_at(i), 4), bits_at(&old, record_at(i) + 4, 7),
                                 bits_at(&old, record_at(i) + 11, 7) };
            if (r.op >= 5 && r.op <= 7)
                r.first = number_of[r.first];
            if (r.op >= 6)
                r.second = number_of[r.second];
            number_of[i++] = number;
        }
        put_record(s, &at, r.op, r.first, r.second);
    }
}

/* ---- Trees ---- */

enum shape { ANY_SHAPE, BY_FIRST, BY_SECOND, BY_CHANCE, BY_TURNS, BROAD };

/* A tree to be made. Its labels are any, and then one bare leaf in so many is left bare,
 * none with 0; or they have all their bits, and the last node has none if it is to be
 * bare. */
struct tree_plan {
    unsigned n, nodes;
    enum shape shape;
    bool full;
    unsigned bare;
};

/* The nodes of the tree made last, in the order of its strip: the place of the node
 * bit, the label, below which node it hangs by which branch (0 for the root), and how
 * deep. */
static struct node {
    size_t at;
    unsigned label, above, branch, depth;
} node[MOST_NODES];
static unsigned nodes;

static inline unsigned some_label(const struct tree_plan *t, bool leaf)
{
    unsigned all = (1u << t->n) - 1;
    if (t->full)
        return t->bare && nodes == t->nodes - 1 ? 0 : all;
    unsigned label = below(all + UINT64_C(1));
    if (once_in(3))
        label &= below(all + UINT64_C(1));
    return leaf && label == 0 && (t->bare == 0 || !once_in(t->bare)) ? 1 + below(all) : label;
}

/* How many of the nodes below one are below its first branch. */
static inline unsigned some_first(enum shape shape, unsigned rest)
{
    switch (shape) {
    case BY_FIRST: return rest;
    case BY_SECOND: return 0;
    case BY_CHANCE: return once_in(2) ? rest : 0;
    case BY_TURNS: return rest % 2 ? rest : 0;
    case BROAD: return rest / 2;
    default: return below(rest + UINT64_C(1));
    }
}

static inline void put_tree(struct strip *s, size_t *at, const struct tree_plan *t, unsigned left, unsigned above, unsigned branch)
{
    unsigned here = nodes;
    put(s, at, 1, left > 0);
    if (left == 0)
        return;
    unsigned label = some_label(t, left == 1), first = some_first(t->shape, left - 1);
    node[nodes++] = (struct node){ *at - 1, label, above, branch, branch ? node[above].depth + 1 : 0 };
    put(s, at, t->n, label);
    put_tree(s, at, t, first, here, 1);
    put_tree(s, at, t, left - 1 - first, here, 2);
}

/* Returns the bit where the tree ends. */
static inline size_t make_tree(struct strip *s, const struct tree_plan *t)
{
    size_t at = 0;
    nodes = 0;
    put(s, &at, 4, 1);
    put(s, &at, 4, t->n);
    put_tree(s, &at, t, t->nodes, 0, 0);
    return at;
}

/* A tree strip; at times it has bare leaves or too many nodes, and may then end
 * in the byte with the node bit that is one too many, or just before it. */
static inline void make_any_tree(struct strip *s, unsigned n)
{
    struct tree_plan t = { .n = n };
    t.nodes = once_in(12) ? 250 + below(10) : once_in(5) ? below(256) : below(9);
    t.bare = once_in(8) ? 4 : 1u << 20;
    t.shape = below(4); /* those that are made at random and the chains */
    make_tree(s, &t);
    if (t.nodes > 255 && once_in(2))
        s->length = node[255].at / 8 + !once_in(3);
}

/* Puts one tree of a strip, from this bit on, into another of fewer or more variables:
 * labels lose those beyond, and a node that becomes bare is left out; or they get more,
 * each in one node of so many, in none with 0. */
static inline void put_recut(struct strip *s, size_t *at, unsigned n, const struct strip *from, size_t *from_at, unsigned one_in)
{
    size_t begin = *at;
    unsigned old = variables(from), there = bits_at(from, (*from_at)++, 1), label = 0;
    put(s, at, 1, there);
    if (!there)
        return;
    for (unsigned i = 0; i < old; i++, ++*from_at)
        if (i < n)
            label = 2 * label + bits_at(from, *from_at, 1);
    for (unsigned i = old; i < n; i++)
        label = 2 * label + (one_in && once_in(one_in));
    put(s, at, n, label);
    put_recut(s, at, n, from, from_at, one_in);
    put_recut(s, at, n, from, from_at, one_in);
    if (label == 0 && *at == begin + 1 + n + 2) { /* bare: all bits after the first are 0 */
        s->byte[begin / 8] &= (uint8_t)~(0x80u >> begin % 8);
        *at = begin + 1;
    }
}

/* An accepted tree strip with so many variables: its first ones, or more. */
static inline void recut_tree(struct strip *s, unsigned n, const struct strip *from, unsigned one_in)
{
    size_t at = 0, from_at = 8;
    put(s, &at, 4, 1);
    put(s, &at, 4, n);
    put_recut(s, &at, n, from, &from_at, one_in);
    s->length = (at + 7) / 8;
}

/* ---- Any bytes ---- */

/* Bytes of any kind, at times with a heading and length that fit. */
static inline void make_bytes(struct strip *s)
{
    s->length = once_in(4) ? below(330) : below(24);
    for (size_t i = 0; i < s->length; i++)
        s->byte[i] = (uint8_t)(once_in(8) ? 0 : once_in(8) ? 255 : any());
    if (s->length >= 1 && !once_in(4))
        s->byte[0] = (uint8_t)(16 + below(10));
    if (s->length >= 2 && !once_in(4)) {
        s->byte[1] = (uint8_t)below(12);
        if (!once_in(4))
            s->length = (16 + 18 * (size_t)s->byte[1] + 7) / 8;
        if (!once_in(4))
            s->byte[s->length - 1] &= 0xC0;
    }
}

/* Alters a strip; more: how many bytes may follow it at most. */
static inline void damage(struct strip *s, unsigned more)
{
    switch (below(6)) {
    case 0:
        for (unsigned times = 1 + below(4); times && s->length; times--)
            s->byte[below(s->length)] ^= (uint8_t)(1u << below(8));
        break;
    case 1:
        if (s->length)
            s->byte[below(s->length < 3 ? s->length : 3)] = (uint8_t)any();
        break;
    case 2:
        s->length = below(s->length + 1);
        break;
    case 3:
        s->length -= s->length > 0;
        break;
    case 4:
        for (unsigned times = 1 + below(more); times && s->length < MOST_STRIP; times--)
            s->byte[s->length++] = (uint8_t)(once_in(2) ? 0 : any());
        break;
    case 5:
        if (s->length)
            s->byte[s->length - 1] |= (uint8_t)(1u << below(8));
        break;
    }
}

#endif
