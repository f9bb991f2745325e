/* Compares the library with the oracle on requests made at random:
 *
 *     attack [SEED [CALLS]]
 *
 * Strips are made from valid records and trees or from bytes, and damaged, cut
 * and extended; rules at times get records that the last one does not reach;
 * ceilings are in and out of range; buffers fit, are a byte short, have room to
 * spare or are not there. Rules with many states that behave alike are made too, and
 * asked with ceilings around the number of states that refusal 14 compares, which is
 * found by trying; clash is asked of some of which only a trial has more states than
 * the ceiling. Both get the same buffers, with the same bytes in and
 * around them; their results and all these bytes must agree after the call, and
 * whatever is shown must check, be walked with a stack of as many bytes as states
 * are told, and be judged as satisfying the rule; a rule with itself, by "and" or by
 * "or", must have the same answer, with as many states; of parts that are said to clash the
 * library must decide that there is none, and without any one of them that there is.
 * One call in three is of a text
 * (typed.h); strips that were imported must check, and are decided and judged at
 * times. One call in twelve joins two rules, which may be the same bytes or overlap; the
 * result must check, and mean what both mean: where the library decides all three,
 * there is none if either has none, and a tree, shown or at random, is judged to satisfy
 * it exactly if, cut to the variables of each, it is judged to satisfy each; a record of
 * more than c states is one of theirs, or the last. The same seed makes the same requests. Differences are printed as vector
 * lines; the status is then 1. How often each answer came is printed too, and at how
 * many places a strip or text was refused; of many calls none of them may be missing,
 * nor may texts be accepted seldom, or none that reaches a limit, nor may records of
 * more than c states be missing that the last one does not reach, nor rules with just as
 * many states as the ceiling and with one more, nor trials with more, nor lists of three
 * parts and more, of fewer parts than there are, and of a rule with sixteen, nor, of two
 * rules joined, any fault in either, or anything else that is counted of them. */
#define _DEFAULT_SOURCE
#include "both.h"
#include "lent.h"
#include "typed.h"

enum { MOST_MADE_OUT = 1024, MOST_SECONDS = 120, MOST_DIFFERENCES = 10, MANY_CALLS = 100000 };
enum { SMALL_SPACE = 1 << 16, MIDDLE_SPACE = 1 << 21, LARGE_SPACE = 1 << 24 };

/* ---- Requests ---- */

/* What is made for the request at hand. */
static struct {
    struct strip rule, second, tree;
    struct typed text;
    bool same;    /* the rule's bytes are lent as the tree too */
    bool overlap; /* both rules are parts of these bytes, and lent so */
    struct strip both;
    size_t rule_from, second_from;
    bool null; /* buffers of no bytes come as NULL */
    enum lent_place place;
} made;

/* The last rule that a tree was shown for, with that tree. */
static struct {
    bool there;
    struct strip rule, tree;
    uint64_t c;
} kept;

/* The last rule that was imported. */
static struct strip imported;

static bool is_rule(const struct strip *s)
{
    return oracle_check_rule(s->byte, s->length).refusal == 0;
}

static uint64_t huge(uint64_t small)
{
    switch (below(4)) {
    case 0:
        return UINT64_MAX;
    case 1:
        return (UINT64_C(1) << (8 + below(56))) + small;
    case 2:
        return 0 - small;
    default:
        return any();
    }
}

/* A state ceiling for which an accepted rule needs no more than this space. */
static uint64_t some_states(enum operation o, const struct strip *rule, bool accepted, size_t most)
{
    uint64_t c = once_in(3) ? 64 : once_in(3) ? 1 + below(64) : 1 + below(16);
    while (accepted && c > 1 && space_asked(o, rule->byte, c) > most)
        c -= (c + 3) / 4;
    if (once_in(30))
        return once_in(3) ? 0 : once_in(2) ? 65 + below(3) : huge(c);
    return c;
}

/* Room of this program's own. */
static uint8_t space[MIDDLE_SPACE];

/* Whether the oracle refuses a rule for more than c states. */
static bool refuses_states(enum operation o, const struct strip *rule, uint64_t c)
{
    const uint8_t tree[] = { rule->byte[0], 0 }; /* the empty one */
    size_t asked = space_asked(o, rule->byte, c);
    return asked <= sizeof space
        && (o == OP_clash ? oracle_clash(rule->byte, rule->length, c, space, asked).refusal
                          : oracle_judge(rule->byte, rule->length, c, space, asked, tree, sizeof tree).refusal) == 14;
}

/* The fewest states with which it does not, of an accepted rule; 64 if there are none. */
static uint64_t least_states(enum operation o, const struct strip *rule)
{
    uint64_t over = 0, least = 4;
    while (least < WS2S_MAX_STATES && refuses_states(o, rule, least)) {
        over = least;
        least *= 2;
    }
    while (over + 1 < least) {
        uint64_t between = (over + least) / 2;
        if (refuses_states(o, rule, between))
            over = between;
        else
            least = between;
    }
    return least;
}

/* That number, one less or one more. */
static uint64_t near_least(enum operation o, const struct strip *rule)
{
    uint64_t c = least_states(o, rule) + below(3);
    return c < 2 ? 1 : c > WS2S_MAX_STATES ? WS2S_MAX_STATES : c - 1;
}

static uint64_t some_places(void)
{
    if (once_in(30))
        return once_in(2) ? 256 + below(2) : huge(below(256));
    return once_in(3) ? 255 : once_in(3) ? below(256) : below(8);
}

static size_t some_length(size_t asked, size_t most)
{
    size_t length = asked;
    switch (below(16)) {
    case 0:
        length -= length > 0;
        break;
    case 1:
        length = below(length + 1);
        break;
    case 2:
        length = 0;
        break;
    case 3:
    case 4:
    case 5:
        length += 1 + below(300);
        break;
    }
    return length < most ? length : most;
}

/* Operations come in groups, by what they are handed: a text, two rules, a workspace, or
 * one strip alone. */
static enum argument group_of(enum operation o)
{
    return has(o, TEXT) ? TEXT : has(o, SECOND) ? SECOND : has(o, WORKSPACE) ? WORKSPACE : NO_ARGUMENT;
}

/* One of a group at random. */
static enum operation some_operation(enum argument group)
{
    enum operation those[KINDS];
    unsigned count = 0;
    for (enum operation o = 1; o < KINDS; o++)
        if (group_of(o) == group)
            those[count++] = o;
    return those[below(count)];
}

/* A text; at times it is the one before. */
static void make_text_request(struct request *r)
{
    r->operation = some_operation(TEXT);
    if (has(r->operation, OUT))
        r->number[OUT] = some_length(WS2S_MAX_RULE_BYTES, MOST_MADE_OUT);
    if (!once_in(8) || made.text.length == 0)
        make_typed(&made.text);
}

/* A rule with states to be joined, or, if parts are to clash, with trials that have more. */
static void make_joined_rule(struct strip *s, bool clashing)
{
    if (clashing && once_in(2))
        make_three_parts(s);
    else if (clashing && once_in(2))
        make_broad_trials(s);
    else if (once_in(6))
        make_chain_rule(s);
    else if (once_in(6))
        make_closed_rule(s);
    else
        make_alike_rule(s);
}

/* A rule, or one that is damaged, or bytes; a new one, if it is not there again. */
static void make_some_rule(struct strip *s, bool again, bool alike, bool clashing)
{
    if (again)
        *s = kept.rule;
    else if (alike)
        make_joined_rule(s, clashing);
    else if (imported.length && once_in(20))
        *s = imported;
    else if (once_in(12))
        make_bytes(s);
    else if (clashing && !once_in(4))
        make_clashing_rule(s);
    else if (once_in(4))
        make_broad_rule(s);
    else
        make_any_rule(s);
    if (once_in(3) && is_rule(s))
        add_leftovers(s);
    if (once_in(12))
        damage(s, 4);
}

static void make_rule_and_tree(struct request *r)
{
    bool again = kept.there && once_in(4), alike = once_in(6);
    make_some_rule(&made.rule, again, alike, r->operation == OP_clash);
    bool accepted = is_rule(&made.rule), near = accepted && (again ? once_in(4) : alike && !once_in(4));
    r->number[C] = near ? near_least(r->operation, &made.rule) : again && !once_in(3) ? kept.c
                 : some_states(r->operation, &made.rule, accepted, once_in(2000) ? LARGE_SPACE : once_in(20) ? MIDDLE_SPACE : SMALL_SPACE);
    r->number[P] = some_places();
    bool sized = accepted && r->number[C] <= 64;
    r->number[WORKSPACE] = some_length(sized ? space_asked(r->operation, made.rule.byte, r->number[C]) : below(2000), LARGE_SPACE);
    r->number[OUT] = some_length(sized && r->number[P] <= 255
                                 ? (8 + r->number[P] * (variables(&made.rule) + 1) + r->number[P] + 1 + 7) / 8 : below(400),
                                 MOST_MADE_OUT);
    unsigned n = accepted && !once_in(16) ? variables(&made.rule) : 1 + below(8);
    if (again && once_in(2))
        made.tree = kept.tree;
    else if (once_in(16))
        make_bytes(&made.tree);
    else
        make_any_tree(&made.tree, n);
    if (once_in(12))
        damage(&made.tree, 4);
    if (made.same)
        made.tree = made.rule;
}

/* A part of some bytes. */
static void take_part(struct strip *s, const struct strip *of, size_t from, size_t length)
{
    s->length = length;
    memcpy(s->byte, of->byte + from, length);
}

/* A rule, if there is luck, with another in the midst of its bytes: its length, and where
 * that begins. About one try in 500 makes one. */
static size_t make_nested(struct strip *s, size_t *from)
{
    static struct strip outer, inner;
    for (unsigned tries = 0; tries < 2000; tries++) {
        if (tries % 40 == 0)
            make_valid_rule(&outer, 8, 14 + below(8));
        make_valid_rule(&inner, 1 + below(8), 1 + below(6));
        *s = outer;
        *from = 2 + below(outer.length - inner.length - 1);
        memcpy(s->byte + *from, inner.byte, inner.length);
        if (is_rule(s))
            break;
    }
    return inner.length;
}

/* Two rules that share bytes: the same ones, one inside the other, or any parts. */
static void make_overlapping(void)
{
    size_t length, from = 0;
    make_some_rule(&made.both, false, once_in(8), false);
    length = made.both.length;
    if (once_in(12)) {
        length = make_nested(&made.both, &from);
    } else if (once_in(4)) {
        from = below(made.both.length + 1);
        length = below(made.both.length - from + 1);
    }
    bool inner_first = once_in(2);
    made.rule_from = inner_first ? from : 0;
    made.second_from = inner_first ? 0 : from;
    take_part(&made.rule, &made.both, made.rule_from, inner_first ? length : made.both.length);
    take_part(&made.second, &made.both, made.second_from, inner_first ? made.both.length : length);
}

/* Two rules with nearly as many records together as there may be. */
static void make_long_pair(void)
{
    unsigned together = 125 + below(6), least = together > 128 ? together - 128 : 1;
    unsigned m = once_in(4) ? least : once_in(3) ? together - least : least + below(together - 2 * least + 1);
    make_valid_rule(&made.rule, some_variables(), m);
    make_valid_rule(&made.second, some_variables(), together - m);
}

static void make_pair_request(struct request *r)
{
    r->operation = some_operation(SECOND);
    r->number[OUT] = some_length(WS2S_MAX_RULE_BYTES, MOST_MADE_OUT);
    made.overlap = once_in(8);
    if (made.overlap) {
        make_overlapping();
        return;
    }
    if (once_in(12)) {
        make_long_pair();
    } else {
        make_some_rule(&made.rule, kept.there && once_in(4), once_in(8), once_in(4));
        make_some_rule(&made.second, kept.there && once_in(8), once_in(8), once_in(4));
    }
    if (once_in(16))
        damage(once_in(2) ? &made.rule : &made.second, 4);
}

/* All arguments are made that some operation has, whichever is asked. */
static void make_request(struct request *r)
{
    *r = (struct request){ 0 };
    made.place = below(LENT_PLACES);
    made.null = once_in(2);
    made.same = made.overlap = false;
    if (once_in(3)) {
        make_text_request(r);
    } else if (once_in(8)) {
        make_pair_request(r);
    } else {
        r->operation = some_operation(once_in(8) ? NO_ARGUMENT : WORKSPACE);
        made.same = once_in(200);
        make_rule_and_tree(r);
    }
    r->byte[RULE] = made.rule.byte;
    r->number[RULE] = made.rule.length;
    r->byte[SECOND] = made.second.byte;
    r->number[SECOND] = made.second.length;
    r->byte[TREE] = made.tree.byte;
    r->number[TREE] = made.tree.length;
    r->byte[TEXT] = made.text.byte;
    r->number[TEXT] = made.text.length;
}

/* ---- Calls ---- */

static struct lent ours[ARGUMENTS], theirs[ARGUMENTS];
static struct lent stack; /* for a walk */

static void run(bool library, const struct request *r, struct lent *lent, union result *result)
{
    uint8_t *at[ARGUMENTS] = { NULL };
    lend_request(lent, r, made.place, made.null, at);
    if (made.same && at[RULE])
        at[TREE] = at[RULE];
    if (made.overlap) {
        lend_bytes(&lent[RULE], made.both.byte, made.both.length, made.place);
        at[RULE] = lent[RULE].at + made.rule_from;
        at[SECOND] = lent[RULE].at + made.second_from;
    }
    call(library, r, at, result);
}

static const char *differs(const struct request *r, const union result *one, const union result *two)
{
    const struct answer *a = operations[r->operation].answer;
    for (unsigned i = 1; i <= a->numbers; i++)
        if (number_at(one, i) != number_at(two, i))
            return i == a->place ? "another place" : i == a->whose ? "another strip" : "another result";
    for (enum argument b = WORKSPACE; b <= OUT; b++) {
        size_t length = (size_t)(ours[b].guarded_end - ours[b].guarded);
        if (has(r->operation, b) && memcmp(ours[b].guarded, theirs[b].guarded, length) != 0)
            return b == WORKSPACE ? "another workspace" : "another out";
    }
    if (made.overlap)
        return lent_holds(&ours[RULE], made.both.byte, made.both.length) ? NULL : "a strip altered";
    enum argument altered = lent_altered(ours, r);
    return altered == TEXT ? "the text altered" : altered ? "a strip altered" : NULL;
}

/* What is kept of it has as many nodes as are told, met with a stack that ends before
 * a page that may not be touched. */
static bool walked(const ws2s_verdict *v)
{
    ws2s_walk w;
    uint64_t met = 0;
    lend(&stack, v->states, LENT_AT_END);
    ws2s_walk_begin(&w, kept.tree.byte, kept.tree.length, stack.at);
    while (ws2s_walk_next(&w))
        met++;
    return met == v->positions;
}

/* What is shown checks, can be walked, and is judged as satisfying the rule; it is kept. */
static const char *shown_wrong(const struct request *r, const ws2s_verdict *v)
{
    kept.there = true;
    kept.rule = made.rule;
    kept.c = r->number[C];
    kept.tree.length = v->length;
    memcpy(kept.tree.byte, ours[OUT].at, v->length);
    ws2s_tree t = ws2s_check_tree(kept.tree.byte, kept.tree.length);
    if (t.refusal || t.variables != variables(&kept.rule) || t.positions != v->positions || t.positions > r->number[P])
        return "shown tree does not check";
    if (!walked(v))
        return "shown tree is not walked";
    ws2s_judgement j = ws2s_judge(kept.rule.byte, kept.rule.length, r->number[C], ours[WORKSPACE].at, r->number[WORKSPACE],
                                  kept.tree.byte, kept.tree.length);
    return j.kind == 1 ? NULL : "shown tree is not judged to satisfy the rule";
}

/* A rule joined with itself has the same answer: its machine has no states to join, and
 * those of the two are always the same. */
static const char *twice_wrong(const struct request *r, const ws2s_verdict *v)
{
    static struct strip twice;
    uint8_t out[WS2S_MAX_TREE_BYTES];
    unsigned m = records(&made.rule);
    size_t at = record_at(m);
    if (m == WS2S_MAX_RECORDS)
        return NULL;
    twice = made.rule;
    put_record(&twice, &at, 6 + below(2), m - 1, m - 1);
    twice.byte[1] = (uint8_t)(m + 1);
    if (space_asked(OP_decide, twice.byte, r->number[C]) > sizeof space)
        return NULL;
    ws2s_verdict w = ws2s_decide(twice.byte, twice.length, r->number[C], r->number[P], space, sizeof space, out, sizeof out);
    return memcmp(&w, v, sizeof w) == 0 && memcmp(out, ours[OUT].at, w.length) == 0 ? NULL : "a rule with itself has another answer";
}

/* Whether the library decides that nothing satisfies the parts listed, one left out if
 * it is among them; a conjunction that has no answer is as it should be. */
static bool decides(const struct request *r, const ws2s_clash_list *list, unsigned without, uint64_t none)
{
    static struct strip rule;
    uint8_t out[WS2S_MAX_TREE_BYTES];
    if (!make_conjunction(&rule, &made.rule, list->parts, (unsigned)list->count, without))
        return true;
    ws2s_verdict v = ws2s_decide(rule.byte, rule.length, r->number[C], WS2S_MAX_POSITIONS, ours[WORKSPACE].at, r->number[WORKSPACE], out, sizeof out);
    return v.kind == WS2S_REFUSED || (v.kind == WS2S_NONE) == none;
}

static const char *list_wrong(const struct request *r, const ws2s_clash_list *list)
{
    if (!decides(r, list, WS2S_MAX_PARTS, true))
        return "parts listed are decided to be satisfied together";
    for (unsigned i = 0; list->count > 1 && i < list->count; i++)
        if (!decides(r, list, i, false))
            return "parts listed are decided to clash without one of them";
    return NULL;
}

/* A strip that was imported checks, with the numbers told; it is kept. */
static const char *imported_wrong(const ws2s_written *w)
{
    imported.length = w->length;
    memcpy(imported.byte, ours[OUT].at, w->length);
    ws2s_rule c = ws2s_check_rule(imported.byte, imported.length);
    return c.refusal == 0 && c.variables == w->variables && c.records == w->records ? NULL : "imported strip does not check";
}

/* ---- Two rules joined ---- */

/* What came of them: the result's n against that of each rule, the most records there
 * may be, rules that share bytes; faults by strip; and of those whose meaning was tried,
 * verdicts, judged trees, and trees from which cutting took nodes. */
static struct {
    unsigned long below, equal, above, longest, same, nested;
    unsigned long fault[2][WS2S_REFUSED_UNUSED + 1];
    unsigned long shown, none, none_of_both, over[3], yes, no_by_first, no_by_second, cut;
} joins;

static struct strip joined;
static uint8_t shown[WS2S_MAX_TREE_BYTES];

static ws2s_verdict decide_in_space(const struct strip *rule, uint64_t c)
{
    return ws2s_decide(rule->byte, rule->length, c, WS2S_MAX_POSITIONS, space, SMALL_SPACE, shown, sizeof shown);
}

/* Whether a tree with the result's variables, or others, cut to these of a rule, is judged
 * to satisfy it; false too if it is refused, which is then told. */
static bool satisfies(const struct strip *rule, uint64_t c, const struct strip *tree, bool *refused)
{
    static struct strip own;
    recut_tree(&own, variables(rule), tree, 0);
    ws2s_judgement j = ws2s_judge(rule->byte, rule->length, c, space, SMALL_SPACE, own.byte, own.length);
    joins.cut += ws2s_check_tree(own.byte, own.length).positions < ws2s_check_tree(tree->byte, tree->length).positions;
    *refused = *refused || j.kind == WS2S_REFUSED;
    return j.kind == WS2S_YES;
}

/* The tree satisfies the result exactly if its first sets satisfy each rule. */
static const char *tree_wrong(const struct strip *tree, uint64_t c, bool expected)
{
    bool refused = false, all = satisfies(&joined, c, tree, &refused);
    bool one = satisfies(&made.rule, c, tree, &refused), two = satisfies(&made.second, c, tree, &refused);
    joins.yes += all;
    joins.no_by_first += !one && two;
    joins.no_by_second += one && !two;
    if (refused)
        return "a tree cut to a rule's variables is refused";
    if (expected && !all)
        return "the tree shown for two rules joined does not satisfy them";
    return all == (one && two) ? NULL : "a tree satisfies two rules joined, and not each, or each, and not these";
}

/* Trees that may satisfy the result: some at random, and one shown for a rule, with more
 * variables at random. */
static const char *trees_wrong(uint64_t c)
{
    static struct strip tree, part;
    const char *wrong = NULL;
    for (unsigned i = 0; i < 3 && !wrong; i++) {
        struct tree_plan plan = { .n = variables(&joined), .nodes = below(i == 2 ? 20 : 5), .shape = ANY_SHAPE };
        make_tree(&tree, &plan);
        wrong = tree_wrong(&tree, c, false);
    }
    for (unsigned i = 0; i < 2 && !wrong; i++) {
        ws2s_verdict v = decide_in_space(i ? &made.second : &made.rule, c);
        if (v.kind != WS2S_SHOWN)
            continue;
        part.length = v.length;
        memcpy(part.byte, shown, v.length);
        recut_tree(&tree, variables(&joined), &part, once_in(2) ? 3 : 0);
        wrong = tree_wrong(&tree, c, false);
    }
    return wrong;
}

/* What is decided of the result follows from both rules as far as it can: the records of
 * more than c states are theirs, or the last; there is none if one has none, and what is
 * shown satisfies both, so that these are shown no more positions. */
static const char *meaning_wrong(uint64_t c)
{
    unsigned before = records(&made.rule), last = records(&joined) - 1;
    static struct strip tree;
    ws2s_verdict one = decide_in_space(&made.rule, c), two = decide_in_space(&made.second, c), both = decide_in_space(&joined, c);
    if ((one.refusal && one.refusal != 14) || (two.refusal && two.refusal != 14) || (both.refusal && both.refusal != 14))
        return "rules joined, or one of them, refused for more than their states";
    if (one.refusal || two.refusal || both.refusal) {
        uint64_t record = one.refusal ? one.record : two.refusal ? before + two.record : last;
        joins.over[one.refusal ? 0 : two.refusal ? 1 : 2]++;
        return both.refusal && both.record == record ? NULL : "another record of more than c states than in the rules joined";
    }
    joins.none += both.kind == WS2S_NONE;
    joins.none_of_both += both.kind == WS2S_NONE && one.kind != WS2S_NONE && two.kind != WS2S_NONE;
    if (both.kind != WS2S_NONE && (one.kind == WS2S_NONE || two.kind == WS2S_NONE))
        return "rules joined are satisfied, though one of them is not";
    if (both.kind == WS2S_SHOWN) {
        joins.shown++;
        tree.length = both.length;
        memcpy(tree.byte, shown, both.length);
        if (one.kind != WS2S_SHOWN || two.kind != WS2S_SHOWN || one.positions > both.positions || two.positions > both.positions)
            return "rules joined are shown fewer positions than one of them";
        const char *wrong = tree_wrong(&tree, c, true);
        if (wrong)
            return wrong;
    }
    return trees_wrong(c);
}

/* A strip that joins two rules checks, with the numbers told; at times its meaning is tried. */
static const char *joined_wrong(const ws2s_written *w)
{
    unsigned n1 = variables(&made.rule), n2 = variables(&made.second);
    joined.length = w->length;
    memcpy(joined.byte, ours[OUT].at, w->length);
    ws2s_rule c = ws2s_check_rule(joined.byte, joined.length);
    if (c.refusal || c.variables != w->variables || c.records != w->records)
        return "rules joined do not check";
    if (w->variables != (n1 > n2 ? n1 : n2) || w->records != records(&made.rule) + records(&made.second) + 1u)
        return "rules joined have another n, or another number of records";
    uint64_t states = once_in(2) ? 64 : 1 + below(32);
    while (states > 1 && space_asked(OP_decide, joined.byte, states) > SMALL_SPACE)
        states -= (states + 3) / 4;
    return once_in(3) && space_asked(OP_decide, joined.byte, states) <= SMALL_SPACE ? meaning_wrong(states) : NULL;
}

static void count_join(const ws2s_written *w)
{
    if (w->refusal && w->refusal <= WS2S_REFUSED_UNUSED && (w->strip == 1 || w->strip == 2))
        joins.fault[w->strip - 1][w->refusal]++;
    if (w->refusal)
        return;
    unsigned n1 = variables(&made.rule), n2 = variables(&made.second);
    joins.below += n1 < n2;
    joins.equal += n1 == n2;
    joins.above += n1 > n2;
    joins.longest += w->records == WS2S_MAX_RECORDS;
    joins.same += made.overlap && made.rule_from == made.second_from;
    joins.nested += made.overlap && made.rule_from != made.second_from;
}

static void say_joins(void)
{
    printf("joined: n below %lu, equal %lu, above %lu; of %d records %lu; the same bytes %lu, one in the other %lu\n", joins.below, joins.equal,
           joins.above, WS2S_MAX_RECORDS, joins.longest, joins.same, joins.nested);
    printf("joined, by meaning: shown %lu, none %lu, though each has some %lu; more than c states in the first %lu, the second %lu, the last record %lu; "
           "trees yes %lu, no by the first alone %lu, by the second alone %lu, nodes cut off %lu\n",
           joins.shown, joins.none, joins.none_of_both, joins.over[0], joins.over[1], joins.over[2], joins.yes, joins.no_by_first, joins.no_by_second,
           joins.cut);
}

static bool all_joins_met(void)
{
    bool all = joins.below && joins.equal && joins.above && joins.longest && joins.same && joins.nested && joins.shown && joins.none
            && joins.none_of_both && joins.over[0] && joins.over[1] && joins.over[2] && joins.yes && joins.no_by_first && joins.no_by_second && joins.cut;
    if (!all)
        printf("something that is counted of rules joined never came\n");
    for (int strip = 0; strip < 2; strip++)
        for (int refusal = 1; refusal <= WS2S_REFUSED_UNUSED; refusal++)
            if (!joins.fault[strip][refusal]) {
                printf("join was never refused with %d for strip %d\n", refusal, strip + 1);
                all = false;
            }
    return all;
}

/* ---- Telling ---- */

static void say_bytes(const uint8_t *byte, size_t length)
{
    putchar(' ');
    if (length == 0)
        putchar('-');
    for (size_t i = 0; i < length; i++)
        printf("%02X", byte[i]);
}

/* The request as a vector line, and both results number by number. */
static void say(const struct request *r, const char *what, const union result *one, const union result *two)
{
    const struct operation_row *o = &operations[r->operation];
    printf("%s: %s\n  %s", lent_doing, what, o->name);
    for (const enum argument *a = o->word; *a; a++)
        if (is_read(*a))
            say_bytes(r->byte[*a], r->number[*a]);
        else
            printf(" %" PRIu64, r->number[*a]);
    for (int who = 0; who < 2; who++) {
        printf("\n  %s", who ? "oracle " : "library");
        for (unsigned i = 1; i <= o->answer->numbers; i++)
            printf(" %" PRIu64, number_at(who ? two : one, i));
    }
    printf("\n");
}

/* How often each answer came, 0 to 2 by kind, refusals from 3 on; and where strips and
 * texts were refused. */
enum { REFUSALS = 64, MOST_PLACE = 8 * MOST_STRIP };
static unsigned long answers[KINDS][3 + REFUSALS];
static bool refused_at[KINDS][REFUSALS][MOST_PLACE + 1];

/* What accepted texts came to: how often to the most of each, and the ops of their records. */
static unsigned long most_levels, most_variables, most_records, ops[9];
/* And how often one level more than there may be was all that was wrong. */
static unsigned long level_too_many;

static void count_text(const ws2s_written *w)
{
    level_too_many += made.text.levels == LEVELS + 1 && w->refusal == 23;
    if (w->refusal)
        return;
    most_levels += made.text.levels == LEVELS;
    most_variables += w->variables == TRACKS;
    most_records += w->records == RECORDS;
    for (unsigned i = 0; i < w->records; i++) {
        unsigned op = bits_at(&imported, record_at(i), 4);
        if (op < 9)
            ops[op]++;
    }
}

/* Lists: of three parts and more, of fewer than there are, and of a rule with as many as
 * there may be. */
static struct {
    unsigned long long_ones, some_dropped, of_most;
} lists;

/* How many parts a rule has, by the marks of all records from the last down: a part is a
 * marked record that is no "and". */
static unsigned parts_of(const struct strip *rule)
{
    bool marked[WS2S_MAX_RECORDS] = { false };
    unsigned count = 0;
    marked[records(rule) - 1] = true;
    for (unsigned i = records(rule); i-- > 0;) {
        if (!marked[i])
            continue;
        if (bits_at(rule, record_at(i), 4) != 7)
            count++;
        else
            marked[bits_at(rule, record_at(i) + 4, 7)] = marked[bits_at(rule, record_at(i) + 11, 7)] = true;
    }
    return count;
}

static void count_list(const ws2s_clash_list *list)
{
    unsigned parts = parts_of(&made.rule);
    lists.long_ones += list->count >= 3;
    lists.some_dropped += list->count < parts;
    lists.of_most += parts == WS2S_MAX_PARTS;
}

/* Rules with records of more than c states: how often a record left over had more
 * and the rule was answered; how often one did before the record that 14 named; how
 * often a later record that is reached did, and the first was named; how often a rule
 * had one state more than c before they were joined, how often just as many, and how
 * often fewer were told of such; and how often 14 named a part in a trial, and one
 * that is not the second field of the last "and". */
static struct {
    unsigned long answered, passed_over, first_named, one_more, as_many, fewer_told;
} over[KINDS];
static unsigned long trials_over, trials_over_before;

/* Whether a rule is refused for more than the request's c states, and for which record. */
static bool is_over(const struct request *r, const struct strip *rule, uint64_t *record)
{
    const uint8_t tree[] = { rule->byte[0], 0 }; /* the empty one */
    ws2s_judgement j = oracle_judge(rule->byte, rule->length, r->number[C], theirs[WORKSPACE].at, r->number[WORKSPACE], tree, sizeof tree);
    *record = j.record;
    return j.refusal == 14;
}

/* The same for the rule that ends with this record. */
static bool is_over_at(const struct request *r, unsigned last, uint64_t *record)
{
    struct strip front = made.rule;
    size_t end = record_at(last + 1);
    front.byte[1] = (uint8_t)(last + 1);
    front.length = (end + 7) / 8;
    if (end % 8)
        front.byte[end / 8] &= (uint8_t)(0xFF00 >> end % 8);
    return is_over(r, &front, record);
}

/* The ceiling against the fewest states with which there is an answer. */
static void count_near(const struct request *r, const union result *o, bool answered)
{
    uint64_t c = r->number[C];
    if (!once_in(4) || (answered ? c > 1 && !refuses_states(r->operation, &made.rule, c - 1)
                                 : c == WS2S_MAX_STATES || refuses_states(r->operation, &made.rule, c + 1)))
        return;
    over[r->operation].one_more += !answered;
    over[r->operation].as_many += answered;
    over[r->operation].fewer_told += answered && r->operation == OP_decide && o->verdict.states < c;
}

static void count_over(const struct request *r, const union result *o)
{
    uint64_t other, again;
    bool left_over = false;
    uint64_t refusal = refusal_of(r->operation, o);
    if (!has(r->operation, WORKSPACE) || (refusal && !is_of_machines(refusal)))
        return;
    /* none that is reached has more if there is an answer, nor before the one named */
    bool answered = refusal != 14;
    if (r->operation == OP_clash && !answered && !is_over(r, &made.rule, &other)) {
        trials_over++;
        trials_over_before += bits_at(&made.rule, record_at(records(&made.rule) - 1) + 11, 7) != o->clash_list.record;
        return;
    }
    count_near(r, o, answered);
    unsigned named = (unsigned)number_at(o, operations[r->operation].answer->record), end = answered ? records(&made.rule) : named;
    for (unsigned i = 0; i < end && !left_over; i++)
        left_over = is_over_at(r, i, &other);
    over[r->operation].answered += answered && left_over;
    over[r->operation].passed_over += !answered && left_over;
    if (answered)
        return;
    struct strip without = made.rule; /* for the one named, X0 subset X0, whose bits are all 0 */
    for (size_t at = record_at(named); at < record_at(named + 1); at++)
        without.byte[at / 8] &= (uint8_t)~(0x80u >> at % 8);
    if (is_over(r, &without, &other) && is_over_at(r, (unsigned)other, &again))
        over[r->operation].first_named += again == other;
}

static void count_answer(const struct request *r, const union result *o)
{
    const struct answer *a = operations[r->operation].answer;
    uint64_t refusal = number_at(o, a->refusal), place = number_at(o, a->place), at = refusal ? 3 + refusal : number_at(o, a->kind);
    if (at < 3 + REFUSALS)
        answers[r->operation][at]++;
    if (refusal < REFUSALS && place <= MOST_PLACE)
        refused_at[r->operation][refusal][place] = true;
}

static unsigned places_of(int kind, int refusal)
{
    unsigned places = 0;
    for (unsigned at = 0; at <= MOST_PLACE; at++)
        places += refused_at[kind][refusal][at];
    return places;
}

static void say_answers(void)
{
    for (int kind = 1; kind < KINDS; kind++) {
        printf("%s:", operations[kind].name);
        for (int i = 0; i < 3; i++)
            if (answers[kind][i])
                printf(" %s %lu", operations[kind].answer->form[i].word, answers[kind][i]);
        for (int refusal = 1; refusal < REFUSALS; refusal++) {
            if (answers[kind][3 + refusal] == 0)
                continue;
            unsigned places = places_of(kind, refusal);
            printf(" %d: %lu", refusal, answers[kind][3 + refusal]);
            if (places > 1)
                printf(" at %u places", places);
        }
        printf("\n");
    }
    printf("accepted texts: %lu of %d levels, %lu of %d variables, %lu of %d records; records of each op:", most_levels, LEVELS, most_variables, TRACKS,
           most_records, RECORDS);
    for (int op = 0; op < 9; op++)
        printf(" %lu", ops[op]);
    printf("\n");
    for (enum operation o = 1; o < KINDS; o++)
        if (has(o, WORKSPACE))
            printf("%s with records of more than c states: %lu answered, as they are left over, %lu refused after such, %lu refused for the first of several reached; "
                   "one state more than c: %lu, as many: %lu\n",
                   operations[o].name, over[o].answered, over[o].passed_over, over[o].first_named, over[o].one_more, over[o].as_many);
    printf("as many states as c, and fewer told: %lu; trials with more than c states: %lu, for a part before the last: %lu\n", over[OP_decide].fewer_told,
           trials_over, trials_over_before);
    printf("lists: %lu of three parts and more, %lu of fewer than there are, %lu of %d parts\n", lists.long_ones, lists.some_dropped,
           lists.of_most, WS2S_MAX_PARTS);
    say_joins();
}

/* Whether the strips above still reach every refusal. */
static bool all_met(void)
{
    bool all = all_joins_met();
    for (int kind = 1; kind < KINDS; kind++)
        for (int refusal = 1; refusal < REFUSALS; refusal++)
            if (operations[kind].refusals >> refusal & 1 && answers[kind][3 + refusal] == 0) {
                printf("%s was never refused with %d\n", operations[kind].name, refusal);
                all = false;
            }
    for (int op = 0; op < 9; op++)
        all = all && ops[op] > 0;
    if (!most_levels || !most_variables || !most_records || !level_too_many || !all)
        printf("a limit, a refusal or an op was not met\n");
    all = all && most_levels && most_variables && most_records && level_too_many;
    if (!lists.long_ones || !lists.some_dropped || !lists.of_most) {
        printf("no list of three parts, of fewer parts than there are, or of as many parts as there may be\n");
        all = false;
    }
    if (!over[OP_decide].fewer_told || !trials_over || !trials_over_before) {
        printf("no rule of as many states as c that told fewer, or no trial with more than c states, or none for a part before the last\n");
        all = false;
    }
    for (enum operation o = 1; o < KINDS; o++) {
        if (has(o, WORKSPACE) && (!over[o].answered || !over[o].passed_over || !over[o].first_named)) {
            printf("%s met no records of more than c states left over, or no several reached\n", operations[o].name);
            all = false;
        }
        if (has(o, WORKSPACE) && (!over[o].one_more || !over[o].as_many)) {
            printf("%s met no rule of as many states as c before they are joined, or of one more\n", operations[o].name);
            all = false;
        }
        unsigned long asked = 0;
        for (int i = 0; i < 3 + REFUSALS; i++)
            asked += answers[o][i];
        if (has(o, TEXT) && 10 * answers[o][0] < asked) {
            printf("%s seldom accepted a text\n", operations[o].name);
            all = false;
        }
    }
    return all;
}

int main(int argc, char **argv)
{
    struct request r;
    union result one, two;
    uint64_t seed = argc > 1 ? strtoull(argv[1], NULL, 10) : 1;
    unsigned long calls = argc > 2 ? strtoul(argv[2], NULL, 10) : 200000, failed = 0, done = 0;
    chance_state = seed;
    lent_watch();
    lent_open_all(ours, MOST_TYPED, LARGE_SPACE);
    lent_open_all(theirs, MOST_TYPED, LARGE_SPACE);
    lent_open(&stack, WS2S_MAX_STATES);
    while (done < calls && failed < MOST_DIFFERENCES) {
        snprintf(lent_doing, sizeof lent_doing, "seed %" PRIu64 " call %lu", seed, done++);
        alarm(MOST_SECONDS);
        make_request(&r);
        run(true, &r, ours, &one);
        run(false, &r, theirs, &two);
        const char *what = differs(&r, &one, &two);
        if (!what && r.operation == OP_decide && two.verdict.kind == 0)
            what = shown_wrong(&r, &one.verdict);
        if (!what && r.operation == OP_decide && two.verdict.kind != WS2S_REFUSED && once_in(4))
            what = twice_wrong(&r, &one.verdict);
        if (!what && r.operation == OP_clash && two.clash_list.refusal == 0) {
            what = list_wrong(&r, &one.clash_list);
            count_list(&two.clash_list);
        }
        if (!what && r.operation == OP_import && two.written.refusal == 0)
            what = imported_wrong(&one.written);
        if (!what && r.operation == OP_import)
            count_text(&two.written);
        if (!what && r.operation == OP_join && two.written.refusal == 0)
            what = joined_wrong(&one.written);
        if (r.operation == OP_join)
            count_join(&two.written);
        if (what) {
            failed++;
            say(&r, what, &one, &two);
        }
        count_answer(&r, &two);
        if (once_in(3)) /* it asks the oracle again and again */
            count_over(&r, &two);
    }
    say_answers();
    if (done >= MANY_CALLS && !all_met())
        failed++;
    printf("seed %" PRIu64 ": %lu passed, %lu failed\n", seed, done - failed, failed);
    return failed || !done;
}
