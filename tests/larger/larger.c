/* Looks for a rule that the verdict program answers "larger":
 *
 *     larger [-c CEILING] [-s SEED] [-t SECONDS] N RECORDS
 *
 * Rules of N variables and at most RECORDS records grow at random, by one record at a
 * time, out of the atoms; what has more than CEILING (16) states before they are joined
 * is dropped, as refusal 14 has it. Of all rules with one machine, joined, the one of
 * fewest records is kept. A record is added to a rule that is kept, over any two of its
 * own records, an atom or another rule that is kept; rules that need many positions are
 * taken up more often. It prints each rule that needs more positions than all before it
 * of no more records, for itself or for its "not", and after SECONDS (60), or when its
 * memory is full, how many rules were built, how many machines they have, and the most
 * positions. The status is 1 if that is more than 60. This is a search: what it does
 * not find may be there. */
#include "atom.h"
#include "chance.h"

#include <limits.h>
#include <stddef.h>
#include <stdio.h>
#include <stdlib.h>
#include <string.h>
#include <time.h>

enum { NOT = ATOMS, OR, AND, EXISTS };
enum { MOST_STATES = 16, MOST_VARIABLES = 7, MOST_LABELS = 1 << MOST_VARIABLES, MOST_RECORDS = 64, MOST_KEPT = 1 << 21, VERDICT_P = 60 };
static const size_t MOST_BYTES = (size_t)3 << 29;

/* ---- Machines ---- */

/* State 0 is that of the empty tree. */
struct machine {
    unsigned states, accepting;
    uint8_t step[MOST_LABELS][MOST_STATES][MOST_STATES];
};

static unsigned variables, labels, ceiling = MOST_STATES;

/* A record, over variables or machines. */
struct recipe {
    unsigned op, x, y; /* x and y: label bits */
    const struct machine *one, *two;
};

/* All steps from members of the two sets, with the bound bit 0 or 1. */
static unsigned set_step(const struct machine *part, unsigned bound, unsigned label, unsigned first, unsigned second)
{
    unsigned set = 0;
    for (unsigned s = 0; first >> s; s++)
        for (unsigned t = 0; first >> s & 1 && second >> t; t++)
            if (second >> t & 1)
                set |= 1u << part->step[label & ~bound][s][t] | 1u << part->step[label | bound][s][t];
    return set;
}

static unsigned closed_start(const struct machine *part, unsigned bound)
{
    unsigned set = 1, before;
    do {
        before = set;
        set |= set_step(part, bound, 0, before, before);
    } while (set != before);
    return set;
}

/* The value of a node: an atom's state, a pair of states or a set of states. */
static unsigned node_value(const struct recipe *r, unsigned label, unsigned first, unsigned second)
{
    if (r->op < ATOMS)
        return atom_step(r->op, label & r->x, label & r->y, first, second);
    if (r->op == EXISTS)
        return set_step(r->one, r->x, label, first, second);
    return MOST_STATES * r->one->step[label][first / MOST_STATES][second / MOST_STATES]
         + r->two->step[label][first % MOST_STATES][second % MOST_STATES];
}

static bool accepts(const struct recipe *r, unsigned value)
{
    if (r->op < ATOMS)
        return value == (r->op == SUBSET ? 0u : r->op == FIRST || r->op == SECOND ? 2u : 1u);
    if (r->op == EXISTS)
        return value & r->one->accepting;
    bool one = r->one->accepting >> value / MOST_STATES & 1, two = r->two->accepting >> value % MOST_STATES & 1;
    return r->op == OR ? one || two : one && two;
}

/* Finds all states, in an order that the steps alone fix; false if there are too many. */
static bool explore(const struct recipe *r, struct machine *m)
{
    unsigned value[MOST_STATES + 1], count = 1;
    value[0] = r->op == EXISTS ? closed_start(r->one, r->x) : 0;
    for (unsigned s = 0; s < count; s++)
        for (unsigned label = 0; label < labels; label++)
            for (unsigned k = 0; k < 2 * (s + 1); k++) {
                unsigned a = k % 2 ? k / 2 : s, b = k % 2 ? s : k / 2, i = 0;
                value[count] = node_value(r, label, value[a], value[b]);
                while (value[i] != value[count])
                    i++;
                if (i == count && count++ == ceiling)
                    return false;
                m->step[label][a][b] = (uint8_t)i;
            }
    m->states = count;
    m->accepting = 0;
    for (unsigned s = 0; s < count; s++)
        m->accepting |= (unsigned)accepts(r, value[s]) << s;
    return true;
}

static bool same_class(const struct machine *m, const unsigned *class, unsigned p, unsigned q)
{
    bool same = class[p] == class[q];
    for (unsigned label = 0; label < labels && same; label++)
        for (unsigned s = 0; s < m->states && same; s++)
            same = class[m->step[label][p][s]] == class[m->step[label][q][s]] && class[m->step[label][s][p]] == class[m->step[label][s][q]];
    return same;
}

/* Joins states, by rounds over classes from acceptance on. */
static void join(const struct machine *m, struct machine *joined)
{
    unsigned class[MOST_STATES], next[MOST_STATES], first[MOST_STATES], count = 0, before;
    for (unsigned s = 0; s < m->states; s++)
        class[s] = m->accepting >> s & 1;
    do {
        before = count;
        count = 0;
        for (unsigned s = 0; s < m->states; s++) {
            unsigned i = 0;
            while (i < count && !same_class(m, class, first[i], s))
                i++;
            if (i == count)
                first[count++] = s;
            next[s] = i;
        }
        memcpy(class, next, sizeof class);
    } while (count > before);
    joined->states = count;
    joined->accepting = 0;
    for (unsigned i = 0; i < count; i++) {
        joined->accepting |= (m->accepting >> first[i] & 1) << i;
        for (unsigned label = 0; label < labels; label++)
            for (unsigned j = 0; j < count; j++)
                joined->step[label][i][j] = (uint8_t)class[m->step[label][first[i]][first[j]]];
    }
}

/* Numbers states in the order in which they are found, as a form without names. */
static void order_states(const struct machine *m, struct machine *ordered)
{
    unsigned state[MOST_STATES] = { 0 }, number[MOST_STATES] = { 0 }, count = 1;
    for (unsigned s = 0; s < count; s++)
        for (unsigned label = 0; label < labels; label++)
            for (unsigned k = 0; k < 2 * (s + 1); k++) {
                unsigned a = k % 2 ? k / 2 : s, b = k % 2 ? s : k / 2, to = m->step[label][state[a]][state[b]];
                if (to && !number[to]) {
                    number[to] = count;
                    state[count++] = to;
                }
                ordered->step[label][a][b] = (uint8_t)number[to];
            }
    ordered->states = count;
    ordered->accepting = 0;
    for (unsigned s = 0; s < count; s++)
        ordered->accepting |= (m->accepting >> state[s] & 1) << s;
}

static bool build(const struct recipe *r, struct machine *m)
{
    static struct machine built, joined;
    if (r->op == NOT) {
        *m = *r->one;
        m->accepting ^= (1u << m->states) - 1;
        return true;
    }
    if (!explore(r, &built))
        return false;
    join(&built, &joined);
    order_states(&joined, m);
    return true;
}

/* The fewest positions of a tree that is accepted, or of one that is not if there are more. */
static unsigned positions_needed(const struct machine *m)
{
    unsigned fewest[MOST_STATES] = { 0 }, least[2] = { UINT_MAX, UINT_MAX };
    for (unsigned s = 1; s < m->states; s++)
        fewest[s] = UINT_MAX / 4;
    for (bool changed = true; changed;) {
        changed = false;
        for (unsigned label = 0; label < labels; label++)
            for (unsigned s = 0; s < m->states; s++)
                for (unsigned t = 0; t < m->states; t++) {
                    unsigned *target = &fewest[m->step[label][s][t]];
                    if (fewest[s] + fewest[t] + 1 < *target) {
                        *target = fewest[s] + fewest[t] + 1;
                        changed = true;
                    }
                }
    }
    for (unsigned s = 0; s < m->states; s++) {
        unsigned *of = &least[m->accepting >> s & 1];
        *of = fewest[s] < *of ? fewest[s] : *of;
    }
    return least[0] == UINT_MAX ? least[1] : least[1] == UINT_MAX ? least[0] : least[0] > least[1] ? least[0] : least[1];
}

/* ---- Rules that are kept ---- */

/* A record of a rule: the machine that it has, by its number, and how it is made. */
struct line {
    unsigned machine, op, first, second;
};

/* A machine, packed, and the shortest rule known for it, whose last record has it. */
struct kept {
    uint8_t *bytes;
    unsigned length, positions, records;
    struct line *rule;
};

static struct kept kept[MOST_KEPT];
static unsigned kept_count, slot[2 * MOST_KEPT]; /* one more than a number, by hash */
static unsigned *of_length[MOST_RECORDS + 1], lengths[MOST_RECORDS + 1], rooms[MOST_RECORDS + 1], most[MOST_RECORDS + 1];
static size_t bytes_used;

static void *take(size_t bytes)
{
    void *taken = malloc(bytes);
    bytes_used += bytes + 16;
    if (!taken) {
        fprintf(stderr, "larger: out of memory\n");
        exit(2);
    }
    return taken;
}

static unsigned pack(const struct machine *m, uint8_t *bytes)
{
    unsigned length = 0;
    bytes[length++] = (uint8_t)m->states;
    bytes[length++] = (uint8_t)(m->accepting >> 8);
    bytes[length++] = (uint8_t)m->accepting;
    for (unsigned label = 0; label < labels; label++)
        for (unsigned s = 0; s < m->states; s++, length += m->states)
            memcpy(bytes + length, m->step[label][s], m->states);
    return length;
}

static void unpack(unsigned number, struct machine *m)
{
    const uint8_t *bytes = kept[number].bytes;
    m->states = *bytes++;
    m->accepting = (unsigned)(bytes[0] << 8 | bytes[1]);
    bytes += 2;
    for (unsigned label = 0; label < labels; label++)
        for (unsigned s = 0; s < m->states; s++, bytes += m->states)
            memcpy(m->step[label][s], bytes, m->states);
}

/* The number of a machine, a new one if it is not kept. */
static unsigned find(const struct machine *m)
{
    static uint8_t bytes[3 + MOST_LABELS * MOST_STATES * MOST_STATES];
    unsigned length = pack(m, bytes);
    uint64_t hash = length;
    for (unsigned i = 0; i < length; i++)
        hash = (hash + bytes[i] + 1) * UINT64_C(0x9E3779B97F4A7C15);
    size_t at = hash >> 20 & (2 * MOST_KEPT - 1);
    for (; slot[at]; at = (at + 1) & (2 * MOST_KEPT - 1)) {
        const struct kept *k = &kept[slot[at] - 1];
        if (k->length == length && memcmp(k->bytes, bytes, length) == 0)
            return slot[at] - 1;
    }
    struct kept *k = &kept[kept_count];
    *k = (struct kept){ .bytes = take(length), .length = length, .positions = positions_needed(m) };
    memcpy(k->bytes, bytes, length);
    slot[at] = ++kept_count;
    return kept_count - 1;
}

static unsigned record_of(const struct kept *k, unsigned machine)
{
    unsigned i = 0;
    while (k->rule[i].machine != machine)
        i++;
    return i;
}

static void say(const struct kept *k)
{
    static const char *const forms[] = { "X%u sub X%u", "Sing(X%u)", "X%u = X%u 1", "X%u = X%u 2", "X%u = root", "not %u", "%u or %u", "%u and %u", "exists X%u: %u" };
    printf("%u positions, %u states, %u records: n=%u", k->positions, k->bytes[0], k->records, variables);
    for (unsigned i = 0; i < k->records; i++) {
        const struct line *l = &k->rule[i];
        unsigned first = l->op < ATOMS || l->op == EXISTS ? l->first : record_of(k, l->first);
        printf("; %u: ", i);
        printf(forms[l->op], first, l->op == OR || l->op == AND || l->op == EXISTS ? record_of(k, l->second) : l->second);
    }
    printf("\n");
    fflush(stdout);
}

/* Keeps a rule for its machine, if none as short is known. */
static void keep(unsigned number, const struct line *rule, unsigned records)
{
    struct kept *k = &kept[number];
    bool more = true;
    if (k->rule && k->records <= records)
        return;
    for (unsigned i = 0; i + 1 < records; i++)
        if (rule[i].machine == number)
            return;
    if (!k->rule)
        k->rule = take(records * sizeof *rule); /* a later one is shorter */
    memcpy(k->rule, rule, records * sizeof *rule);
    k->records = records;
    if (lengths[records] == rooms[records]) {
        rooms[records] = rooms[records] ? 2 * rooms[records] : 64;
        of_length[records] = realloc(of_length[records], rooms[records] * sizeof **of_length);
        bytes_used += rooms[records] / 2 * sizeof **of_length;
        if (!of_length[records])
            exit(2);
    }
    of_length[records][lengths[records]++] = number;
    for (unsigned i = 0; i <= records; i++)
        more = more && k->positions > most[i];
    if (k->positions > most[records])
        most[records] = k->positions;
    if (more && k->positions > 3)
        say(k);
}

/* ---- Growing ---- */

/* How much may come of it: many positions with few states. */
static unsigned promise(unsigned number)
{
    return 1000 * kept[number].positions / (10 + kept[number].bytes[0]);
}

/* One that is kept with a rule of so many records, of a few the most promising. */
static bool some_kept(unsigned records, unsigned few, unsigned *number)
{
    bool there = false;
    for (unsigned i = 0; i < few && lengths[records]; i++) {
        unsigned other = of_length[records][below(lengths[records])];
        if (kept[other].records == records && (!there || promise(other) > promise(*number))) {
            *number = other;
            there = true;
        }
    }
    return there;
}

static void add_record(unsigned records)
{
    static struct machine one, two, result;
    struct line rule[2 * MOST_RECORDS];
    unsigned base, other, count, way = below(10);
    if (!some_kept(1 + below(records - 1), 1 + below(12), &base))
        return;
    struct line last = { 0, way == 0 ? NOT : way < 4 ? EXISTS : OR + below(2), base, 0 };
    struct recipe r = { .op = last.op, .one = &one, .two = &two };
    memcpy(rule, kept[base].rule, (count = kept[base].records) * sizeof *rule);
    unpack(base, &one);
    if (last.op == EXISTS) {
        last.first = below(variables);
        last.second = base;
        r.x = 1u << (variables - 1 - last.first);
    } else if (last.op != NOT) {
        if (once_in(3))
            other = rule[below(count)].machine;
        else if (!some_kept(once_in(2) ? 1 : 1 + below(records - 1), 1, &other))
            return;
        unpack(other, &two);
        last.second = other;
        for (unsigned i = 0; i < kept[other].records; i++) {
            const struct line *l = &kept[other].rule[i];
            unsigned k = 0;
            while (k < count && rule[k].machine != l->machine)
                k++;
            if (k == count)
                rule[count++] = *l;
        }
    }
    if (count >= records || !build(&r, &result))
        return;
    last.machine = find(&result);
    rule[count++] = last;
    keep(last.machine, rule, count);
}

static void make_atoms(void)
{
    for (unsigned op = 0; op < ATOMS; op++)
        for (unsigned x = 0; x < variables; x++)
            for (unsigned y = 0; y < variables; y++) {
                static struct machine m;
                struct recipe r = { .op = op, .x = 1u << (variables - 1 - x), .y = 1u << (variables - 1 - y) };
                if (((op == SING || op == ROOT) && y) || !build(&r, &m))
                    continue;
                struct line line = { find(&m), op, x, y };
                keep(line.machine, &line, 1);
            }
}

static unsigned read_number(const char *word, unsigned most_of_it)
{
    char *end;
    unsigned long value = strtoul(word, &end, 10);
    if (word[0] < '0' || word[0] > '9' || *end || value < 1 || value > most_of_it) {
        fprintf(stderr, "larger: %s: not a number from 1 to %u\n", word, most_of_it);
        exit(2);
    }
    return (unsigned)value;
}

int main(int argc, char **argv)
{
    unsigned seconds = 60, best = 0;
    unsigned long built = 0;
    int at = 1;
    for (; at + 1 < argc && argv[at][0] == '-'; at += 2)
        switch (argv[at][1]) {
        case 'c': ceiling = read_number(argv[at + 1], MOST_STATES); break;
        case 's': chance_state = read_number(argv[at + 1], INT_MAX); break;
        default: seconds = read_number(argv[at + 1], INT_MAX);
        }
    if (argc - at != 2) {
        fprintf(stderr, "usage: larger [-c CEILING] [-s SEED] [-t SECONDS] N RECORDS\n");
        return 2;
    }
    variables = read_number(argv[at], MOST_VARIABLES);
    labels = 1u << variables;
    unsigned records = read_number(argv[at + 1], MOST_RECORDS);
    make_atoms();
    for (time_t begin = time(NULL); records > 1 && difftime(time(NULL), begin) < seconds && kept_count < MOST_KEPT - 1000 && bytes_used < MOST_BYTES;)
        for (unsigned i = 0; i < 1000; i++, built++)
            add_record(records);
    for (unsigned i = 0; i <= records; i++)
        best = most[i] > best ? most[i] : best;
    printf("n = %u, %u records: %lu tries, %u machines of at most %u states, none needs more than %u positions\n", variables, records, built, kept_count,
           ceiling, best);
    return best > VERDICT_P;
}
