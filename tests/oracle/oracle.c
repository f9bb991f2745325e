#include "oracle.h"
#include "atom.h"

#include <stdbool.h>
#include <string.h>

enum { NOT = ATOMS, OR, AND, EXISTS, OPS };
enum { MOST_STATES = 64, MOST_RECORDS = 128, MOST_POSITIONS = 255 };
enum { MOST_PARTS = 16, MORE_SHARES = 15 };
enum { SHOWN = 0, NONE = 1, LARGER = 2, KEPT = 0, REFUSED = 3 };

#define BIT(state) (UINT64_C(1) << (state))

/* Calls the loop body with "member" running through a set of states. */
#define EACH(member, set) \
    for (uint64_t left_ = (set), member; \
         left_ && (member = (uint64_t)__builtin_ctzll(left_), true); left_ &= left_ - 1)

/* ---- Rule strips ---- */

struct record {
    unsigned op, first, second;
};

struct rule {
    unsigned variables, records;
    struct record record[MOST_RECORDS];
};

static unsigned field(const uint8_t *strip, size_t at, unsigned bits)
{
    unsigned value = 0;
    for (; bits; bits--, at++)
        value = value << 1 | (strip[at / 8] >> (7 - at % 8) & 1u);
    return value;
}

static bool names_variable_first(unsigned op)
{
    return op <= ROOT || op == EXISTS;
}

static bool names_variable_second(unsigned op)
{
    return op == SUBSET || op == FIRST || op == SECOND;
}

static bool names_record_first(unsigned op)
{
    return op == NOT || op == OR || op == AND;
}

static bool names_record_second(unsigned op)
{
    return op == OR || op == AND || op == EXISTS;
}

/* A refusal, 0 for none, and the bit that it is told of. */
struct fault {
    unsigned refusal;
    uint64_t place;
};

static const struct fault no_fault;

static struct fault fault_at(unsigned refusal, uint64_t place)
{
    return (struct fault){ refusal, place };
}

/* The bit length of so many bytes; a number of 64 bits has no more. */
static uint64_t bit_length(size_t bytes)
{
    return bytes > UINT64_MAX / 8 ? UINT64_MAX : 8 * (uint64_t)bytes;
}

/* The first set bit of those from one place up to another; the latter if none is. */
static size_t first_set(const uint8_t *strip, size_t from, size_t to)
{
    while (from < to && field(strip, from, 1) == 0)
        from++;
    return from;
}

/* The record starts at bit "at". */
static struct fault refuse_record(const struct record *r, unsigned number, unsigned variables, size_t at)
{
    bool unary = !names_variable_second(r->op) && !names_record_second(r->op);
    size_t first = at + 4, second = at + 11;
    if (r->op >= OPS)
        return fault_at(7, at);
    if (names_variable_first(r->op) && r->first >= variables)
        return fault_at(8, first);
    if (names_variable_second(r->op) && r->second >= variables)
        return fault_at(8, second);
    if (names_record_first(r->op) && r->first >= number)
        return fault_at(9, first);
    if (names_record_second(r->op) && r->second >= number)
        return fault_at(9, second);
    if (unary && r->second != 0)
        return fault_at(10, second);
    return no_fault;
}

/* Reads a rule strip. */
static struct fault read_rule(struct rule *rule, const uint8_t *strip, size_t length)
{
    if (length < 2)
        return fault_at(1, bit_length(length));
    if (strip[0] >> 4 != 1)
        return fault_at(2, 0);
    rule->variables = strip[0] & 15;
    if (rule->variables < 1 || rule->variables > 8)
        return fault_at(3, 4);
    rule->records = strip[1];
    if (rule->records < 1 || rule->records > MOST_RECORDS)
        return fault_at(4, 8);
    size_t bits = 16 + 18 * (size_t)rule->records;
    if (length != (bits + 7) / 8)
        return fault_at(5, bit_length(length));
    size_t set = first_set(strip, bits, 8 * length);
    if (set < 8 * length)
        return fault_at(6, set);
    for (unsigned i = 0; i < rule->records; i++) {
        size_t at = 16 + 18 * (size_t)i;
        struct record *r = &rule->record[i];
        *r = (struct record){ field(strip, at, 4), field(strip, at + 4, 7),
                              field(strip, at + 11, 7) };
        struct fault fault = refuse_record(r, i, rule->variables, at);
        if (fault.refusal)
            return fault;
    }
    return no_fault;
}

/* ---- Machines ---- */

/* The table has one byte for each label and pair of states, c states to a row.
 * Labels that agree on the bits of the mask share their entries. */
struct machine {
    uint8_t *table;
    unsigned states, mask;
    uint64_t accepting;
};

/* What one call builds: the machines of reached records in the workspace, each in
 * its record's share of it; and behind them those of a trial's joins. */
struct build {
    struct rule rule;
    unsigned c, labels;
    size_t share; /* bytes of one machine's table */
    struct machine machine[MOST_RECORDS + MORE_SHARES];
};

static const uint8_t *row(const struct build *b, const struct machine *m, unsigned label,
                          uint64_t state)
{
    return m->table + ((size_t)label * b->c + state) * b->c;
}

/* The label with this variable's bit alone; variable 0 is most significant. */
static unsigned label_bit(const struct build *b, unsigned variable)
{
    return 1u << (b->rule.variables - 1 - variable);
}

/* States found so far: an atom's own number, a pair of states or a set of
 * states, whichever the record's machine runs. */
struct found {
    unsigned count, ceiling;
    uint64_t value[MOST_STATES];
    uint8_t slot[256]; /* one more than the state with a value, by its hash */
};

/* The state with this value, a new one if need be; -1 if there is no room. */
static int number(struct found *f, uint64_t value)
{
    unsigned at = (unsigned)(value * UINT64_C(0x9E3779B97F4A7C15) >> 56);
    for (; f->slot[at]; at = (at + 1) % 256)
        if (f->value[f->slot[at] - 1] == value)
            return f->slot[at] - 1;
    if (f->count == f->ceiling)
        return -1;
    f->value[f->count] = value;
    f->slot[at] = (uint8_t)++f->count;
    return (int)f->count - 1;
}

static uint64_t atom_accepting(unsigned op)
{
    return op == SUBSET ? BIT(0) : op == FIRST || op == SECOND ? BIT(2) : BIT(1);
}

/* The smallest set that contains 0 and is closed under nodes whose label is 0
 * except, freely, for the bound variable. */
static uint64_t closed_start(const struct build *b, const struct machine *part, unsigned bound)
{
    uint64_t set = BIT(0), before;
    do {
        before = set;
        EACH(first, before) {
            const uint8_t *without = row(b, part, 0, first), *with = row(b, part, bound, first);
            EACH(second, before)
                set |= BIT(without[second]) | BIT(with[second]);
        }
    } while (set != before);
    return set;
}

/* For a state s, a label and all states j up to s: the values of a node with
 * branches s, j and of one with branches j, s. */
static void atom_rows(const struct build *b, const struct record *r, const struct found *f,
                      unsigned s, unsigned label, uint64_t *with_first, uint64_t *with_second)
{
    bool x = label & label_bit(b, r->first);
    bool y = names_variable_second(r->op) && (label & label_bit(b, r->second));
    for (unsigned j = 0; j <= s; j++) {
        unsigned mine = (unsigned)f->value[s], other = (unsigned)f->value[j];
        with_first[j] = atom_step(r->op, x, y, mine, other);
        with_second[j] = atom_step(r->op, x, y, other, mine);
    }
}

static void pair_rows(const struct build *b, const struct record *r, const struct found *f,
                      unsigned s, unsigned label, uint64_t *with_first, uint64_t *with_second)
{
    const struct machine *one = &b->machine[r->first], *two = &b->machine[r->second];
    uint64_t p = f->value[s] / MOST_STATES, q = f->value[s] % MOST_STATES;
    const uint8_t *row_p = row(b, one, label, p), *row_q = row(b, two, label, q);
    const uint8_t *col_p = row(b, one, label, 0) + p, *col_q = row(b, two, label, 0) + q;
    for (unsigned j = 0; j <= s; j++) {
        uint64_t t = f->value[j] / MOST_STATES, u = f->value[j] % MOST_STATES;
        with_first[j] = (uint64_t)row_p[t] * MOST_STATES + row_q[u];
        with_second[j] = (uint64_t)col_p[t * b->c] * MOST_STATES + col_q[u * b->c];
    }
}

static void set_rows(const struct build *b, const struct record *r, const struct found *f,
                     unsigned s, unsigned label, uint64_t *with_first, uint64_t *with_second)
{
    const struct machine *part = &b->machine[r->second];
    uint64_t one_first[MOST_STATES] = { 0 }, one_second[MOST_STATES] = { 0 };
    for (unsigned step = 0; step < 2; step++) { /* the bound bit 0, then 1 */
        unsigned at = step ? label | label_bit(b, r->first) : label;
        EACH(member, f->value[s]) {
            const uint8_t *across = row(b, part, at, member);
            const uint8_t *down = row(b, part, at, 0) + member;
            for (unsigned q = 0; q < part->states; q++) {
                one_first[q] |= BIT(across[q]);
                one_second[q] |= BIT(down[q * b->c]);
            }
        }
    }
    for (unsigned j = 0; j <= s; j++) {
        uint64_t first = 0, second = 0;
        EACH(q, f->value[j]) {
            first |= one_first[q];
            second |= one_second[q];
        }
        with_first[j] = first;
        with_second[j] = second;
    }
}

static bool is_atom(const struct record *r)
{
    return r->op <= ROOT;
}

static bool accepts(const struct build *b, const struct record *r, uint64_t value)
{
    if (is_atom(r))
        return atom_accepting(r->op) >> value & 1;
    if (r->op == EXISTS)
        return (value & b->machine[r->second].accepting) != 0;
    bool one = b->machine[r->first].accepting >> (value / MOST_STATES) & 1;
    bool two = b->machine[r->second].accepting >> (value % MOST_STATES) & 1;
    return r->op == OR ? one || two : one && two;
}

/* The variables, as label bits, that a record looks at. */
static unsigned record_mask(const struct build *b, const struct record *r)
{
    if (is_atom(r))
        return label_bit(b, r->first)
             | (names_variable_second(r->op) ? label_bit(b, r->second) : 0);
    if (r->op == EXISTS)
        return b->machine[r->second].mask & ~label_bit(b, r->first);
    return b->machine[r->first].mask | b->machine[r->second].mask;
}

static uint64_t start(const struct build *b, const struct record *r)
{
    if (r->op == EXISTS)
        return closed_start(b, &b->machine[r->second], label_bit(b, r->first));
    return 0;
}

/* Finds all states of an atom's, a pair's or a set's machine, and their entries at the
 * labels of its mask; false if there are more than c. */
static bool explore(const struct build *b, const struct record *r, struct machine *m)
{
    struct found f = { .ceiling = b->c };
    number(&f, start(b, r));
    m->mask = record_mask(b, r);
    for (unsigned s = 0; s < f.count; s++) {
        for (unsigned label = 0; label < b->labels; label++) {
            uint64_t with_first[MOST_STATES], with_second[MOST_STATES];
            if (label & ~m->mask)
                continue;
            if (is_atom(r))
                atom_rows(b, r, &f, s, label, with_first, with_second);
            else if (r->op == EXISTS)
                set_rows(b, r, &f, s, label, with_first, with_second);
            else
                pair_rows(b, r, &f, s, label, with_first, with_second);
            uint8_t *at = m->table + (size_t)label * b->c * b->c;
            for (unsigned j = 0; j <= s; j++) {
                int one = number(&f, with_first[j]), two = number(&f, with_second[j]);
                if (one < 0 || two < 0)
                    return false;
                at[s * b->c + j] = (uint8_t)one;
                at[j * b->c + s] = (uint8_t)two;
            }
        }
    }
    m->states = f.count;
    m->accepting = 0;
    for (unsigned s = 0; s < f.count; s++)
        if (accepts(b, r, f.value[s]))
            m->accepting |= BIT(s);
    return true;
}

/* ---- States that behave alike ---- */

/* A hash of some bytes, after others with this one. */
static uint64_t hash_on(uint64_t hash, const uint8_t *at, size_t length)
{
    uint64_t word = 0;
    for (; length >= sizeof word; at += sizeof word, length -= sizeof word) {
        memcpy(&word, at, sizeof word);
        hash = (hash + word) * UINT64_C(0x9E3779B97F4A7C15);
        hash ^= hash >> 32;
    }
    for (word = 0; length; length--)
        word = word << 8 | *at++;
    hash = (hash + word) * UINT64_C(0x9E3779B97F4A7C15);
    return hash ^ hash >> 32;
}

/* Whether two labels lead all states to the same ones. */
static bool alike(const struct build *b, const struct machine *m, unsigned one, unsigned two)
{
    unsigned s = 0;
    while (s < m->states && memcmp(row(b, m, one, s), row(b, m, two, s), m->states) == 0)
        s++;
    return s == m->states;
}

/* Lists the labels of the mask, one of all that are alike. */
static unsigned list_labels(const struct build *b, const struct machine *m, unsigned *listed)
{
    uint64_t hash[256];
    unsigned count = 0;
    for (unsigned label = 0; label < b->labels; label++) {
        unsigned i = 0;
        if (label & ~m->mask)
            continue;
        hash[count] = 0;
        for (unsigned s = 0; s < m->states; s++)
            hash[count] = hash_on(hash[count], row(b, m, label, s), m->states);
        while (i < count && (hash[i] != hash[count] || !alike(b, m, listed[i], label)))
            i++;
        if (i == count)
            listed[count++] = label;
    }
    return count;
}

/* What a node of some label with some state in one branch makes of the state in its
 * other branch. States are told apart by where these lead. */
struct column {
    uint8_t to[MOST_STATES];
    uint64_t hash, range; /* the set of states that it leads to */
};

enum { MOST_COLUMNS = 2 * 256 * MOST_STATES };

/* The columns of a machine, each once. They are no part of a call's frame, for their size. */
static struct {
    unsigned count;
    struct column column[MOST_COLUMNS];
    uint16_t slot[2 * MOST_COLUMNS]; /* one more than the number of a column, by its hash */
} columns;

/* Adds the column of this number, if it is not there before. */
static void add_column(const struct machine *m, size_t slots)
{
    struct column *new = &columns.column[columns.count];
    size_t at;
    new->hash = hash_on(0, new->to, m->states);
    for (at = new->hash & (slots - 1); columns.slot[at]; at = (at + 1) & (slots - 1)) {
        const struct column *old = &columns.column[columns.slot[at] - 1];
        if (old->hash == new->hash && memcmp(old->to, new->to, m->states) == 0)
            return;
    }
    columns.slot[at] = (uint16_t)++columns.count;
    new->range = 0;
    for (unsigned p = 0; p < m->states; p++)
        new->range |= BIT(new->to[p]);
}

static void find_columns(const struct build *b, const struct machine *m)
{
    unsigned listed[256], labels = list_labels(b, m, listed);
    size_t slots = 4;
    while (slots < 4 * (size_t)labels * m->states)
        slots *= 2;
    memset(columns.slot, 0, slots * sizeof columns.slot[0]);
    columns.count = 0;
    for (unsigned i = 0; i < labels; i++)
        for (unsigned s = 0; s < m->states; s++) {
            memcpy(columns.column[columns.count].to, row(b, m, listed[i], s), m->states);
            add_column(m, slots);
            for (unsigned p = 0; p < m->states; p++)
                columns.column[columns.count].to[p] = row(b, m, listed[i], p)[s];
            add_column(m, slots);
        }
}

/* Which states are told apart from each, and which of these pairs are still to be
 * followed back to those that lead to them. */
struct pairs {
    uint64_t apart[MOST_STATES], fresh[MOST_STATES];
};

/* Tells each state of one set apart from each of another. */
static void tell_apart(struct pairs *t, uint64_t some, uint64_t others)
{
    EACH(p, some) {
        t->fresh[p] |= others & ~t->apart[p];
        t->apart[p] |= others;
    }
    EACH(q, others) {
        t->fresh[q] |= some & ~t->apart[q];
        t->apart[q] |= some;
    }
}

/* Follows all pairs of one set and another back. */
static void follow_back(const struct machine *m, struct pairs *t, uint64_t some, uint64_t others)
{
    for (const struct column *f = columns.column; f < columns.column + columns.count; f++) {
        uint64_t to_some = 0, to_others = 0;
        if (!(f->range & some) || !(f->range & others))
            continue;
        for (unsigned p = 0; p < m->states; p++) {
            to_some |= (some >> f->to[p] & 1) << p;
            to_others |= (others >> f->to[p] & 1) << p;
        }
        tell_apart(t, to_some, to_others);
    }
}

/* Takes up one state that is fresh from some others, with all that are fresh from these
 * too; false if there is none, or nothing left to be told apart. */
static bool take_fresh(const struct machine *m, struct pairs *t, uint64_t all, uint64_t *some, uint64_t *others)
{
    unsigned p = 0, lone = 0;
    while (lone < m->states && t->apart[lone] == (all & ~BIT(lone)))
        lone++;
    while (p < m->states && !t->fresh[p])
        p++;
    if (lone == m->states || p == m->states)
        return false;
    *some = 0;
    *others = t->fresh[p];
    for (; p < m->states; p++)
        if (!(*others & ~t->fresh[p]))
            *some |= BIT(p);
    EACH(q, *some)
        t->fresh[q] &= ~*others;
    EACH(q, *others)
        t->fresh[q] &= ~*some;
    return true;
}

/* Tells apart the states of which one accepts and the other does not, and from then on
 * those that some column leads to states told apart. */
static void tell_states_apart(const struct build *b, const struct machine *m, struct pairs *t)
{
    uint64_t all = ~UINT64_C(0) >> (MOST_STATES - m->states), some = m->accepting, others = all & ~some;
    tell_apart(t, some, others);
    if (some && others && m->states > 2)
        find_columns(b, m);
    while (take_fresh(m, t, all, &some, &others))
        follow_back(m, t, some, others);
}

/* Makes one state of all that are not told apart, with the number that the first of
 * them has among such; the empty tree's stays 0. */
static void join_states(const struct build *b, struct machine *m)
{
    struct pairs t = { .apart = { 0 } };
    unsigned joined[MOST_STATES], first[MOST_STATES], count = 0;
    uint64_t accepting = 0;
    tell_states_apart(b, m, &t);
    for (unsigned p = 0; p < m->states; p++) {
        unsigned like = (unsigned)__builtin_ctzll(~t.apart[p]); /* itself, if no earlier one is */
        joined[p] = like < p ? joined[like] : count;
        if (like == p)
            first[count++] = p;
    }
    for (unsigned i = 0; i < count; i++)
        accepting |= (m->accepting >> first[i] & 1) << i;
    /* entries move towards the front alone, so none is written over before it is read */
    for (unsigned label = 0; label < b->labels && count < m->states; label++)
        for (unsigned i = 0; i < count && !(label & ~m->mask); i++)
            for (unsigned j = 0; j < count; j++)
                m->table[((size_t)label * b->c + i) * b->c + j] = (uint8_t)joined[row(b, m, label, first[i])[first[j]]];
    m->states = count;
    m->accepting = accepting;
}

/* Copies the entries of the labels of the mask to all others. */
static void fill_labels(const struct build *b, struct machine *m)
{
    for (unsigned label = 0; label < b->labels; label++)
        if (label & ~m->mask)
            memcpy(m->table + (size_t)label * b->c * b->c,
                   m->table + (size_t)(label & m->mask) * b->c * b->c,
                   (size_t)m->states * b->c);
}

/* Builds a machine of as few states as can be; false if there are more than c before
 * those that behave alike are joined. */
static bool build_machine(const struct build *b, const struct record *r, struct machine *m)
{
    if (!explore(b, r, m))
        return false;
    join_states(b, m);
    fill_labels(b, m);
    return true;
}

/* ---- Reached records ---- */

/* Marks a record and all that it stands on. Each is gone into once, and names
 * earlier ones alone, so this goes no deeper than there are records. */
static void reach(const struct rule *rule, unsigned number, bool *reached)
{
    const struct record *r = &rule->record[number];
    if (reached[number])
        return;
    reached[number] = true;
    if (names_record_first(r->op))
        reach(rule, r->first, reached);
    if (names_record_second(r->op))
        reach(rule, r->second, reached);
}

/* Builds the records reached from the last one, in strip order; the number of the
 * first with more than c states, or the number of records if none has. */
static unsigned build_reached(struct build *b, uint8_t *workspace)
{
    bool reached[MOST_RECORDS] = { false };
    reach(&b->rule, b->rule.records - 1, reached);
    for (unsigned i = 0; i < b->rule.records; i++) {
        const struct record *r = &b->rule.record[i];
        struct machine *m = &b->machine[i];
        if (!reached[i])
            continue;
        m->table = workspace + i * b->share;
        if (r->op == NOT) {
            const struct machine *part = &b->machine[r->first];
            memcpy(m->table, part->table, b->share);
            m->states = part->states;
            m->mask = part->mask;
            m->accepting = part->accepting ^ (~UINT64_C(0) >> (MOST_STATES - part->states));
        } else if (!build_machine(b, r, m)) {
            return i;
        }
    }
    return b->rule.records;
}

/* Sets the ceiling and sizes; the number of workspace bytes asked for, with so many
 * shares more than there are records. */
static size_t size_up(struct build *b, uint64_t c, unsigned more)
{
    b->c = (unsigned)c;
    b->labels = 1u << b->rule.variables;
    b->share = (size_t)b->labels * b->c * b->c;
    return (b->rule.records + more) * b->share;
}

/* ---- Trees ---- */

struct walk {
    const uint8_t *strip;
    size_t length, at; /* bytes, bits */
    unsigned variables, positions;
    struct fault fault;
    const struct build *build; /* NULL if the tree is only checked */
    const struct machine *machine;
};

static unsigned take(struct walk *w, unsigned bits)
{
    unsigned value = 0;
    for (; bits; bits--, w->at++) {
        if (w->at / 8 >= w->length) {
            w->fault = fault_at(18, bit_length(w->length));
            return 0;
        }
        value = value << 1 | field(w->strip, w->at, 1);
    }
    return value;
}

/* Reads one tree and returns the machine's state for it, if there is one. It
 * goes no deeper than there are positions. */
static unsigned walk_tree(struct walk *w)
{
    size_t node = w->at;
    if (!take(w, 1) || w->fault.refusal)
        return 0;
    if (w->positions == MOST_POSITIONS) {
        w->fault = fault_at(20, node);
        return 0;
    }
    unsigned so_far = ++w->positions, first = 0, second = 0;
    unsigned label = take(w, w->variables);
    if (!w->fault.refusal)
        first = walk_tree(w);
    if (!w->fault.refusal)
        second = walk_tree(w);
    if (!w->fault.refusal && label == 0 && w->positions == so_far)
        w->fault = fault_at(19, node);
    if (w->fault.refusal || !w->machine)
        return 0;
    return row(w->build, w->machine, label, first)[second];
}

static ws2s_tree refuse_tree(struct fault fault)
{
    return (ws2s_tree){ .refusal = fault.refusal, .place = fault.place };
}

static ws2s_tree read_tree(const uint8_t *strip, size_t length)
{
    if (length < 1)
        return refuse_tree(fault_at(15, 0));
    if (strip[0] >> 4 != 1)
        return refuse_tree(fault_at(16, 0));
    unsigned n = strip[0] & 15;
    if (n < 1 || n > 8)
        return refuse_tree(fault_at(17, 4));
    struct walk w = { .strip = strip, .length = length, .at = 8, .variables = n };
    walk_tree(&w);
    if (w.fault.refusal)
        return refuse_tree(w.fault);
    /* a set padding bit, or else the first byte left over */
    size_t whole = (w.at + 7) / 8, left_over = first_set(strip, w.at, 8 * whole);
    if (left_over < 8 * whole || length != whole)
        return refuse_tree(fault_at(21, left_over));
    return (ws2s_tree){ .variables = n, .positions = w.positions };
}

/* ---- Search ---- */

/* States are settled in the order of their earliest trees; a state's rank is its
 * place in that order. The tree of a rank is packed into one number that orders
 * as trees do: positions, root label, ranks of both branches. */
struct search {
    unsigned count;
    unsigned state[MOST_STATES];
    uint64_t tree[MOST_STATES];
};

static uint64_t positions_of(uint64_t tree)
{
    return tree >> 24;
}

static void offer(const struct build *b, const struct machine *m, const struct search *s,
                  uint64_t *best, unsigned label, uint64_t first, uint64_t second)
{
    unsigned target = row(b, m, label, s->state[first])[s->state[second]];
    uint64_t size = positions_of(s->tree[first]) + positions_of(s->tree[second]) + 1;
    uint64_t tree = size << 24 | (uint64_t)label << 16 | first << 8 | second;
    if (tree < best[target])
        best[target] = tree;
}

/* Settles states until one accepts, whose rank is the last; false if none does
 * with at most p positions. A node of label 0 above two empty branches is in
 * state 0, which the empty tree has settled, so it never becomes part of a tree;
 * and any label is preceded by the one without the bits outside the mask. */
static bool settle(const struct build *b, const struct machine *m, uint64_t p, struct search *s)
{
    uint64_t best[MOST_STATES], settled = 0;
    for (unsigned q = 0; q < MOST_STATES; q++)
        best[q] = UINT64_MAX;
    best[0] = 0;
    for (s->count = 0; s->count < m->states;) {
        unsigned next = MOST_STATES;
        for (unsigned q = 0; q < m->states; q++)
            if (!(settled >> q & 1) && (next == MOST_STATES || best[q] < best[next]))
                next = q;
        if (positions_of(best[next]) > p)
            return false;
        unsigned rank = s->count++;
        s->state[rank] = next;
        s->tree[rank] = best[next];
        settled |= BIT(next);
        if (m->accepting >> next & 1)
            return true;
        for (unsigned label = 0; label < b->labels; label++) {
            if (label & ~m->mask)
                continue;
            for (unsigned other = 0; other <= rank; other++) {
                offer(b, m, s, best, label, rank, other);
                offer(b, m, s, best, label, other, rank);
            }
        }
    }
    return false;
}

static size_t put(uint8_t *out, size_t at, unsigned bits, unsigned value)
{
    for (; bits; bits--, at++) {
        if (at % 8 == 0)
            out[at / 8] = 0;
        out[at / 8] |= (uint8_t)((value >> (bits - 1) & 1) << (7 - at % 8));
    }
    return at;
}

static size_t put_tree(uint8_t *out, size_t at, unsigned variables, const struct search *s,
                       uint64_t rank)
{
    if (rank == 0)
        return put(out, at, 1, 0);
    at = put(out, at, 1, 1);
    at = put(out, at, variables, (unsigned)(s->tree[rank] >> 16 & 255));
    at = put_tree(out, at, variables, s, s->tree[rank] >> 8 & 255);
    return put_tree(out, at, variables, s, s->tree[rank] & 255);
}

/* ---- Check, judge, decide ---- */

ws2s_rule oracle_check_rule(const uint8_t *rule, size_t rule_len)
{
    struct rule r;
    struct fault fault = read_rule(&r, rule, rule_len);
    if (fault.refusal)
        return (ws2s_rule){ .refusal = fault.refusal, .place = fault.place };
    return (ws2s_rule){ .variables = r.variables, .records = r.records };
}

ws2s_tree oracle_check_tree(const uint8_t *tree, size_t tree_len)
{
    return read_tree(tree, tree_len);
}

static ws2s_judgement refuse_to_judge(unsigned refusal, uint64_t place)
{
    return (ws2s_judgement){ .kind = REFUSED, .refusal = refusal, .place = place };
}

ws2s_judgement oracle_judge(const uint8_t *rule, size_t rule_len, uint64_t c,
                            uint8_t *workspace, size_t workspace_len,
                            const uint8_t *tree, size_t tree_len)
{
    struct build b;
    struct fault fault = read_rule(&b.rule, rule, rule_len);
    if (fault.refusal)
        return refuse_to_judge(fault.refusal, fault.place);
    if (c < 1 || c > MOST_STATES)
        return refuse_to_judge(11, 0);
    size_t asked = size_up(&b, c, 0);
    if (workspace_len < asked)
        return refuse_to_judge(12, 0);
    ws2s_tree checked = read_tree(tree, tree_len);
    if (checked.refusal)
        return refuse_to_judge((unsigned)checked.refusal, checked.place);
    if (checked.variables != b.rule.variables)
        return refuse_to_judge(22, 0);
    unsigned over = build_reached(&b, workspace);
    ws2s_judgement answer = { .kind = REFUSED, .refusal = 14, .record = over };
    if (over == b.rule.records) {
        const struct machine *last = &b.machine[b.rule.records - 1];
        struct walk w = { .strip = tree, .length = tree_len, .at = 8,
                          .variables = b.rule.variables, .build = &b, .machine = last };
        answer = (ws2s_judgement){ .kind = last->accepting >> walk_tree(&w) & 1 };
    }
    memset(workspace, 0, asked);
    return answer;
}

static ws2s_verdict refuse_to_decide(unsigned refusal, uint64_t place)
{
    return (ws2s_verdict){ .kind = REFUSED, .refusal = refusal, .place = place };
}

ws2s_verdict oracle_decide(const uint8_t *rule, size_t rule_len, uint64_t c, uint64_t p,
                           uint8_t *workspace, size_t workspace_len,
                           uint8_t *out, size_t out_len)
{
    struct build b;
    struct fault fault = read_rule(&b.rule, rule, rule_len);
    if (fault.refusal)
        return refuse_to_decide(fault.refusal, fault.place);
    if (c < 1 || c > MOST_STATES || p > MOST_POSITIONS)
        return refuse_to_decide(11, 0);
    size_t asked = size_up(&b, c, 0);
    if (workspace_len < asked)
        return refuse_to_decide(12, 0);
    if (out_len < (8 + p * (b.rule.variables + 1) + p + 1 + 7) / 8)
        return refuse_to_decide(13, 0);
    unsigned over = build_reached(&b, workspace);
    ws2s_verdict answer = { .kind = REFUSED, .refusal = 14, .record = over };
    if (over == b.rule.records) {
        const struct machine *last = &b.machine[b.rule.records - 1];
        struct search s;
        answer = (ws2s_verdict){ .kind = NONE, .states = last->states };
        if (last->accepting && settle(&b, last, p, &s)) {
            size_t bits = put(out, 0, 4, 1);
            bits = put(out, bits, 4, b.rule.variables);
            bits = put_tree(out, bits, b.rule.variables, &s, s.count - 1);
            answer.kind = SHOWN;
            answer.positions = positions_of(s.tree[s.count - 1]);
            answer.length = (bits + 7) / 8;
        } else if (last->accepting) {
            answer.kind = LARGER;
        }
    }
    memset(workspace, 0, asked);
    return answer;
}

/* ---- Which requirements clash ---- */

struct parts {
    unsigned count; /* may be more than are kept here */
    unsigned record[MOST_PARTS];
};

/* Lists the parts of a record in the order in which they are met. What was met before
 * has its parts in the list already, so each record is gone into once. */
static void list_parts(const struct rule *rule, unsigned number, bool *met, struct parts *parts)
{
    const struct record *r = &rule->record[number];
    if (met[number])
        return;
    met[number] = true;
    if (r->op == AND) {
        list_parts(rule, r->first, met, parts);
        list_parts(rule, r->second, met, parts);
        return;
    }
    if (parts->count < MOST_PARTS)
        parts->record[parts->count] = number;
    parts->count++;
}

/* A conjunction of parts: the number of its machine, which is its one part's own, or
 * that of a join. */
enum { EMPTY = MOST_RECORDS + MORE_SHARES };

/* Joins a part to what stands before it, in the share of this number behind the
 * rule's own; false if there are more than c states. */
static bool join(struct build *b, uint8_t *workspace, unsigned *before, unsigned part, unsigned share)
{
    struct record both = { AND, *before, part };
    struct machine *m = &b->machine[MOST_RECORDS + share];
    if (*before == EMPTY) {
        *before = part;
        return true;
    }
    m->table = workspace + (b->rule.records + share) * b->share;
    *before = MOST_RECORDS + share;
    return build_machine(b, &both, m);
}

static ws2s_clash_list refuse_to_list(unsigned refusal, uint64_t record, uint64_t place)
{
    return (ws2s_clash_list){ .kind = REFUSED, .refusal = refusal, .record = record, .place = place };
}

/* Tries the parts, one after the other. Those kept are joined as far as the next trial
 * asks for them, by turns in shares 0 and 1; what is not yet tried is joined to them
 * for each trial anew, by turns in shares 2 and 3. */
static ws2s_clash_list try_parts(struct build *b, uint8_t *workspace, const struct parts *parts)
{
    ws2s_clash_list list = { .kind = KEPT };
    unsigned kept = EMPTY, joined = 0;
    for (unsigned i = 0; i < parts->count; i++) {
        for (; joined < list.count; joined++)
            if (!join(b, workspace, &kept, (unsigned)list.parts[joined], joined % 2))
                return refuse_to_list(14, list.parts[joined], 0);
        unsigned rest = kept;
        for (unsigned k = i + 1; k < parts->count; k++)
            if (!join(b, workspace, &rest, parts->record[k], 2 + k % 2))
                return refuse_to_list(14, parts->record[k], 0);
        if (rest == EMPTY || b->machine[rest].accepting)
            list.parts[list.count++] = parts->record[i];
    }
    return list;
}

ws2s_clash_list oracle_clash(const uint8_t *rule, size_t rule_len, uint64_t c,
                             uint8_t *workspace, size_t workspace_len)
{
    struct build b;
    struct parts parts = { .count = 0 };
    bool met[MOST_RECORDS] = { false };
    struct fault fault = read_rule(&b.rule, rule, rule_len);
    if (fault.refusal)
        return refuse_to_list(fault.refusal, 0, fault.place);
    if (c < 1 || c > MOST_STATES)
        return refuse_to_list(11, 0, 0);
    size_t asked = size_up(&b, c, MORE_SHARES);
    if (workspace_len < asked)
        return refuse_to_list(12, 0, 0);
    list_parts(&b.rule, b.rule.records - 1, met, &parts);
    if (parts.count > MOST_PARTS)
        return refuse_to_list(28, 0, 0);
    unsigned over = build_reached(&b, workspace);
    ws2s_clash_list answer = refuse_to_list(14, over, 0);
    if (over == b.rule.records)
        answer = b.machine[over - 1].accepting ? refuse_to_list(29, 0, 0) : try_parts(&b, workspace, &parts);
    memset(workspace, 0, asked);
    return answer;
}
