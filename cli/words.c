#include "words.h"

#include <inttypes.h>
#include <string.h>

enum { HEADING = 16, RECORD = 18, FIRST_FIELD = 4, SECOND_FIELD = 11 }; /* bits; a record's fields from its start */
enum op { SUBSET, SING, FIRST_BRANCH, SECOND_BRANCH, ROOT, NOT, OR, AND, EXISTS };

static unsigned bits_at(const struct strip *strip, size_t at, unsigned count)
{
    unsigned value = 0;
    for (; count > 0; count--, at++)
        value = 2 * value + (strip->byte[at / 8] >> (7 - at % 8) & 1u);
    return value;
}

static size_t end_of(unsigned record)
{
    return HEADING + RECORD * ((size_t)record + 1);
}

struct record {
    unsigned op, first, second;
};

static struct record record_of(const struct strip *rule, unsigned record)
{
    size_t at = end_of(record) - RECORD;
    return (struct record){ bits_at(rule, at, 4), bits_at(rule, at + FIRST_FIELD, 7), bits_at(rule, at + SECOND_FIELD, 7) };
}

const char *plural(uint64_t count)
{
    return count == 1 ? "" : "s";
}

/* Whether another variable has this one's name too. */
static bool has_namesake(const struct names *names, const struct bound *bound)
{
    for (unsigned i = 0; i < names->count; i++)
        if (strcmp(names->name[i], bound->name) == 0)
            return true;
    for (unsigned i = 0; i < names->bounds; i++)
        if (names->bound[i].variable != bound->variable && strcmp(names->bound[i].name, bound->name) == 0)
            return true;
    return false;
}

/* A variable of a record. One with a namesake has its number behind its name, after
 * a sign that no name of a text has. */
static void put_name(FILE *to, const struct names *names, unsigned record, unsigned variable)
{
    const struct bound *bound = names->bound, *end = bound + names->bounds;
    if (variable < names->count) {
        fputs(names->name[variable], to);
        return;
    }
    while (bound < end && (bound->variable != variable || record < bound->first || record > bound->last))
        bound++;
    if (bound == end)
        fprintf(to, "X%u", variable);
    else if (has_namesake(names, bound))
        fprintf(to, "%s_%u", bound->name, variable);
    else
        fputs(bound->name, to);
}

/* Records of a text that are about one thing stand together, its last record at the
 * end. So a quantifier stands before another if what it is about begins earlier, or
 * with the same record and ends later. */
static bool opens_before(const struct bound *one, const struct bound *other)
{
    return one->first != other->first ? one->first < other->first : one->last > other->last;
}

unsigned bound_variables(const struct strip *rule, struct bound *bound)
{
    unsigned begins[WS2S_MAX_RECORDS], count = 0; /* the first record of what a record is about */
    for (unsigned record = 0; record < rule->byte[1] && record < WS2S_MAX_RECORDS; record++) {
        struct record r = record_of(rule, record);
        unsigned place = count;
        switch (r.op) {
        case NOT: begins[record] = begins[r.first]; continue;
        case OR:
        case AND: begins[record] = begins[r.first] < begins[r.second] ? begins[r.first] : begins[r.second]; continue;
        case EXISTS: begins[record] = begins[r.second]; break;
        default: begins[record] = record; continue;
        }
        struct bound here = { NULL, r.first, begins[record], record };
        for (; place > 0 && opens_before(&here, &bound[place - 1]); place--)
            bound[place] = bound[place - 1];
        bound[place] = here;
        count++;
    }
    return count;
}

void put_record(FILE *to, const struct strip *rule, unsigned record, const struct names *names)
{
    if (end_of(record) > 8 * rule->length)
        return;
    struct record r = record_of(rule, record);
    switch (r.op) {
    case SUBSET:
        put_name(to, names, record, r.first);
        fputs(" ⊆ ", to);
        put_name(to, names, record, r.second);
        return;
    case SING:
        fputs("Sing(", to);
        put_name(to, names, record, r.first);
        fputs(")", to);
        break;
    case FIRST_BRANCH:
    case SECOND_BRANCH:
        put_name(to, names, record, r.first);
        fputs(" = ", to);
        put_name(to, names, record, r.second);
        fputs(r.op == FIRST_BRANCH ? " 1" : " 2", to);
        return;
    case ROOT:
        put_name(to, names, record, r.first);
        fputs(" = ε", to);
        break;
    case NOT:
        fprintf(to, "not %u", r.first);
        break;
    case OR:
    case AND:
        fprintf(to, "%u %s %u", r.first, r.op == OR ? "or" : "and", r.second);
        return;
    case EXISTS:
        fputs("exists ", to);
        put_name(to, names, record, r.first);
        fprintf(to, ": %u", r.second);
        return;
    default:
        fprintf(to, "op %u, fields %u and %u", r.op, r.first, r.second);
        return;
    }
    if (r.second != 0) /* of the ops that leave it unused */
        fprintf(to, ", unused field %u", r.second);
}

/* ---- The whole sense of a record ---- */

/* How a record is read: by its op, or with those below it as what a text's "=>",
 * "<=>", "ex1", "all2" and "all1" are written as. Rank is how closely what is written
 * holds together. */
enum reading { AN_ATOM, A_COUNT, A_NOT, AN_OR, AN_AND, AN_IF, AN_EXACTLY, AN_EXISTS, EXISTS_ONE, FOR_ALL, FOR_EACH };
static const unsigned rank[] = { [AN_ATOM] = 3, [A_COUNT] = 4, [A_NOT] = 3, [AN_OR] = 1, [AN_AND] = 2, [FOR_EACH] = 0 };

/* The records that are left to be read, and the "exists" that binds a variable there. */
struct sense {
    enum reading reading;
    unsigned one, two, exists;
};

static bool is(const struct strip *rule, unsigned record, unsigned op, unsigned first)
{
    struct record r = record_of(rule, record);
    return r.op == op && r.first == first;
}

/* "exists", or "not" of it. */
static struct sense read_bound(const struct strip *rule, unsigned exists, bool not)
{
    struct record r = record_of(rule, exists), body = record_of(rule, r.second);
    bool one = body.op == AND && is(rule, body.first, SING, r.first);
    unsigned rest = one ? body.second : r.second;
    struct record last = record_of(rule, rest);
    if (!not)
        return (struct sense){ one ? EXISTS_ONE : AN_EXISTS, rest, 0, exists };
    if (last.op == NOT)
        return (struct sense){ one ? FOR_EACH : FOR_ALL, last.first, 0, exists };
    return (struct sense){ A_NOT, exists, 0, 0 };
}

static struct sense read_sense(const struct strip *rule, unsigned record)
{
    struct record r = record_of(rule, record), one, two;
    switch (r.op) {
    case NOT:
        if (record_of(rule, r.first).op == EXISTS)
            return read_bound(rule, r.first, true);
        return (struct sense){ A_NOT, r.first, 0, 0 };
    case OR:
        one = record_of(rule, r.first);
        return one.op == NOT ? (struct sense){ AN_IF, one.first, r.second, 0 } : (struct sense){ AN_OR, r.first, r.second, 0 };
    case AND:
        one = record_of(rule, r.first), two = record_of(rule, r.second);
        if (one.op == OR && two.op == OR && is(rule, one.first, NOT, two.second) && is(rule, two.first, NOT, one.second))
            return (struct sense){ AN_EXACTLY, two.second, one.second, 0 };
        return (struct sense){ AN_AND, r.first, r.second, 0 };
    case EXISTS:
        return read_bound(rule, record, false);
    default:
        return (struct sense){ r.op == SING ? A_COUNT : AN_ATOM, 0, 0, 0 };
    }
}

static bool has_two(enum reading reading)
{
    return reading >= AN_OR && reading <= AN_EXACTLY;
}

/* Whether a record takes at most MOST_SAID to be read. */
static bool short_enough(const struct strip *rule, unsigned record)
{
    unsigned taken[WS2S_MAX_RECORDS];
    for (unsigned i = 0; i <= record; i++) {
        struct sense s = read_sense(rule, i);
        taken[i] = 1 + (s.reading > A_COUNT ? taken[s.one] : 0) + (has_two(s.reading) ? taken[s.two] : 0);
        if (taken[i] > MOST_SAID)
            taken[i] = MOST_SAID + 1;
    }
    return taken[record] <= MOST_SAID;
}

static void put_whole(FILE *to, const struct strip *rule, unsigned record, const struct names *names);

/* In brackets, unless it holds together as closely as this, or is joined alike. */
static void put_within(FILE *to, const struct strip *rule, unsigned record, const struct names *names, unsigned least, enum reading around)
{
    enum reading here = read_sense(rule, record).reading;
    bool bare = rank[here] >= least || (here == around && (here == AN_OR || here == AN_AND));
    fputs(bare ? "" : "(", to);
    put_whole(to, rule, record, names);
    fputs(bare ? "" : ")", to);
}

/* It calls itself on earlier records, so no deeper than there are. */
static void put_whole(FILE *to, const struct strip *rule, unsigned record, const struct names *names)
{
    static const char *const before[] = { [A_NOT] = "not ", [AN_IF] = "if ", [AN_EXISTS] = "exists ", [EXISTS_ONE] = "exists one ",
                                          [FOR_ALL] = "for all ", [FOR_EACH] = "for each " };
    static const char *const between[] = { [AN_OR] = " or ", [AN_AND] = " and ", [AN_IF] = " then ", [AN_EXACTLY] = " exactly if " };
    struct sense s = read_sense(rule, record);
    if (s.reading <= A_COUNT) {
        put_record(to, rule, record, names);
        return;
    }
    if (before[s.reading])
        fputs(before[s.reading], to);
    if (s.reading >= AN_EXISTS) { /* what is bound reaches to the end */
        put_name(to, names, s.exists, record_of(rule, s.exists).first);
        fputs(": ", to);
        put_whole(to, rule, s.one, names);
        return;
    }
    unsigned least = s.reading == A_NOT ? 4 : s.reading == AN_IF ? 1 : 3;
    put_within(to, rule, s.one, names, least, s.reading);
    if (has_two(s.reading)) {
        fputs(between[s.reading], to);
        put_within(to, rule, s.two, names, least, s.reading);
    }
}

void put_sense(FILE *to, const struct strip *rule, unsigned record, const struct names *names)
{
    if (short_enough(rule, record)) {
        put_whole(to, rule, record, names);
        return;
    }
    put_record(to, rule, record, names);
    fputs(" (too long to be written whole; ws2s print has the records)", to);
}

static bool of_a_record(const struct refusal *r)
{
    return r->number >= WS2S_REFUSED_OP && r->number <= WS2S_REFUSED_UNUSED;
}

/* The record that a place is in, and what starts there. */
static unsigned record_at(uint64_t place)
{
    return (unsigned)((place - HEADING) / RECORD);
}

static const char *part_at(uint64_t place)
{
    switch ((place - HEADING) % RECORD) {
    case FIRST_FIELD: return "first field";
    case SECOND_FIELD: return "second field";
    default: return "op";
    }
}

void put_rule(FILE *to, const struct strip *rule, const struct refusal *refusal, const struct names *names)
{
    if (refusal->number >= WS2S_REFUSED_RULE_SHORT && refusal->number <= WS2S_REFUSED_RULE_RECORDS)
        return;
    unsigned records = rule->byte[1], bad = of_a_record(refusal) ? record_at(refusal->place) : records;
    fprintf(to, "n=%u\n", bits_at(rule, 4, 4));
    for (unsigned record = 0; record < records && end_of(record) <= 8 * rule->length; record++) {
        fprintf(to, "%u: ", record);
        put_record(to, rule, record, names);
        if (record == bad)
            fprintf(to, "   <- refused %" PRIu64 " at bit %" PRIu64 " (%s)", refusal->number, refusal->place,
                    part_at(refusal->place));
        fputs("\n", to);
    }
}

/* Whether the bit length told may be that of a beginning alone. Of trees it never
 * is: in as many bytes as are read every tree has ended, or has too many nodes. */
static bool may_go_on(const struct refusal *r, const struct strip *strip)
{
    return r->number == WS2S_REFUSED_RULE_LENGTH && strip->length > WS2S_MAX_RULE_BYTES;
}

static void put_place(FILE *to, const struct refusal *r, const struct strip *strip)
{
    bool of_rule = r->number <= WS2S_REFUSED_UNUSED;
    if (of_rule || (r->number >= WS2S_REFUSED_TREE_SHORT && r->number <= WS2S_REFUSED_TREE_LEFT_OVER))
        fprintf(to, " at bit %" PRIu64 "%s", r->place, may_go_on(r, strip) ? " or later" : "");
}

/* A place for a reader of bytes in hexadecimal. */
static void put_byte_and_bit(FILE *to, uint64_t place)
{
    fprintf(to, "byte %" PRIu64 ", bit %" PRIu64 ", counted from 0 and from the left", place / 8, place % 8);
}

static void put_lengths(FILE *to, const struct refusal *r, const struct strip *rule)
{
    unsigned records = rule->byte[1];
    fprintf(to, "%u record%s take%s %u bytes, and there are ", records, plural(records), records == 1 ? "s" : "",
            (unsigned)((end_of(records) - RECORD + 7) / 8));
    if (may_go_on(r, rule))
        fprintf(to, "more than %d", WS2S_MAX_RULE_BYTES);
    else
        fprintf(to, "%u", (unsigned)rule->length);
}

static void put_numbered(FILE *to, const struct strip *rule, unsigned record, const char *part, const struct names *names)
{
    fprintf(to, "record %u%s%s: ", record, *part ? ", " : "", part);
    put_record(to, rule, record, names);
}

/* Where it is, in words, and what was found there. */
static void put_found(FILE *to, const struct refusal *r, const struct strip *strip, const struct names *names)
{
    switch (r->number) {
    case WS2S_REFUSED_RULE_SHORT:
        fputs(strip->length == 0 ? "there is none" : "there is 1", to);
        break;
    case WS2S_REFUSED_RULE_LENGTH:
        put_lengths(to, r, strip);
        break;
    case WS2S_REFUSED_TREE_CUT:
        fprintf(to, "after %u byte%s", (unsigned)strip->length, plural(strip->length));
        break;
    case WS2S_REFUSED_RULE_VERSION:
    case WS2S_REFUSED_TREE_VERSION:
    case WS2S_REFUSED_RULE_VARIABLES:
    case WS2S_REFUSED_TREE_VARIABLES:
    case WS2S_REFUSED_RULE_RECORDS:
        put_byte_and_bit(to, r->place);
        fprintf(to, ": it says %u", bits_at(strip, r->place, r->number == WS2S_REFUSED_RULE_RECORDS ? 8 : 4));
        break;
    case WS2S_REFUSED_OP:
        put_numbered(to, strip, record_at(r->place), "", names);
        break;
    case WS2S_REFUSED_VARIABLE:
    case WS2S_REFUSED_RECORD:
    case WS2S_REFUSED_UNUSED:
        put_numbered(to, strip, record_at(r->place), part_at(r->place), names);
        break;
    case WS2S_REFUSED_STATES:
        fputs(r->in_trial ? "in a trial, joining " : "", to);
        put_numbered(to, strip, (unsigned)r->record, "", names);
        break;
    case WS2S_REFUSED_TREE_LEFT_OVER: /* padding never starts a byte */
        if (r->place % 8 == 0) {
            fprintf(to, "byte %" PRIu64 ", counted from 0, is the first left over", r->place / 8);
            break;
        } /* fall through */
    default:
        put_byte_and_bit(to, r->place);
    }
}

/* Of these the number says it all. */
static bool nothing_to_find(uint64_t number)
{
    return (number >= WS2S_REFUSED_CEILING && number <= WS2S_REFUSED_OUT) || number == WS2S_REFUSED_TREE_SHORT
        || number == WS2S_REFUSED_TREE_OTHER || number == WS2S_REFUSED_PARTS || number == WS2S_REFUSED_SATISFIABLE;
}

void put_refusal(FILE *to, const struct refusal *refusal, const struct strip *strip, const struct names *names)
{
    fprintf(to, "refused %" PRIu64, refusal->number);
    put_place(to, refusal, strip);
    fprintf(to, ": %s", ws2s_refusal_text(refusal->number));
    if (!nothing_to_find(refusal->number)) {
        fputs(" (", to);
        put_found(to, refusal, strip, names);
        fputs(")", to);
    }
    fprintf(to, "; %s\n", ws2s_refusal_help(refusal->number));
}
