/* Holds what the header defines itself, which no proof covers, to what the library
 * does: header
 *
 * - the sizes: with that many bytes a call is not refused for its buffer, with one
 *   less it is, for every number of variables and records and every ceiling (of a
 *   clash with few records, which is then built, for some ceilings);
 * - the names of kinds and refusals: a request that has just this answer, at the
 *   place that the header states, of two rules in the strip that has it, and a text's at
 *   the token;
 * - the texts: one for every refusal, no two alike;
 * - the limits: accepted, and one more refused;
 * - the walk: over all small trees, and over large ones of many shapes, it tells
 *   the nodes that the tree was made of, with a stack of just the bytes that it takes;
 *   over any bytes it ends, and with a stack for the deepest tree touches nothing
 *   outside both.
 *
 * It prints what fails and a count, and ends with status 1 if anything did. */
#define _DEFAULT_SOURCE
#include "lent.h"
#include "typed.h"

static unsigned long passed, failed;

static void count(bool right, const char *what, unsigned long a, unsigned long b)
{
    if (right) {
        passed++;
        return;
    }
    if (failed++ < 20)
        printf("header: %s (%lu, %lu)\n", what, a, b);
}

static struct lent lent, lent_stack;

/* ---- Sizes ---- */

static uint64_t decide_refusal(const struct strip *rule, uint64_t c, uint64_t p, uint8_t *workspace, size_t size,
                               uint8_t *out, size_t out_size)
{
    return ws2s_decide(rule->byte, rule->length, c, p, workspace, size, out, out_size).refusal;
}

/* Neither call builds anything: with 13 to come, 12 is the only other refusal. */
static void try_sizes(uint8_t *workspace)
{
    static struct strip rule;
    uint8_t out[WS2S_MAX_TREE_BYTES];
    size_t most = 0, most_out = 0;
    for (unsigned n = 1; n <= WS2S_MAX_VARIABLES; n++)
        for (unsigned m = 1; m <= WS2S_MAX_RECORDS; m++) {
            make_plain_rule(&rule, n, m, 0, NULL);
            ws2s_rule checked = ws2s_check_rule(rule.byte, rule.length);
            for (unsigned c = 1; c <= WS2S_MAX_STATES; c++) {
                size_t size = ws2s_workspace_size(checked, c);
                most = size > most ? size : most;
                count(decide_refusal(&rule, c, 0, workspace, size, out, 0) == WS2S_REFUSED_OUT
                          && decide_refusal(&rule, c, 0, workspace, size - 1, out, 0) == WS2S_REFUSED_WORKSPACE,
                      "size of the workspace", n, c);
            }
            count(ws2s_workspace_size(checked, 0) == 0 && ws2s_workspace_size(checked, WS2S_MAX_STATES + 1) == 0
                      && ws2s_workspace_size(checked, UINT64_MAX) == 0, "workspace of a ceiling out of range", n, m);
        }
    for (unsigned n = 1; n <= WS2S_MAX_VARIABLES; n++) {
        make_plain_rule(&rule, n, 1, 0, NULL);
        ws2s_rule checked = ws2s_check_rule(rule.byte, rule.length);
        for (unsigned p = 0; p <= WS2S_MAX_POSITIONS; p++) {
            size_t size = ws2s_out_size(checked, p);
            most_out = size > most_out ? size : most_out;
            count(decide_refusal(&rule, 1, p, workspace, WS2S_MAX_WORKSPACE, out, size) == 0
                      && decide_refusal(&rule, 1, p, workspace, WS2S_MAX_WORKSPACE, out, size - 1) == WS2S_REFUSED_OUT,
                  "size of out", n, p);
        }
        count(ws2s_out_size(checked, WS2S_MAX_POSITIONS + 1) == 0 && ws2s_out_size(checked, UINT64_MAX) == 0,
              "out of a ceiling out of range", n, 0);
    }
    count(most == WS2S_MAX_WORKSPACE && most_out == WS2S_MAX_TREE_BYTES, "largest sizes", most, most_out);
    count(rule.length == 5 && (make_plain_rule(&rule, 8, WS2S_MAX_RECORDS, 0, NULL), rule.length == WS2S_MAX_RULE_BYTES),
          "longest rule", rule.length, 0);
    ws2s_rule refused = ws2s_check_rule(rule.byte, 1), odd = { 0, 64, 1, 0 }, many = { 0, 1, UINT64_MAX, 0 };
    count(ws2s_workspace_size(refused, 1) == 0 && ws2s_out_size(refused, 1) == 0, "sizes of a refused rule", 0, 0);
    count(ws2s_workspace_size(odd, 1) == 0 && ws2s_out_size(odd, 1) == 0 && ws2s_workspace_size(many, 1) == 0,
          "sizes of what is no check's result", 0, 0);
}

/* Rules of 17 parts and more, which are refused for them once 12 is past, and of fewer,
 * which are built and can be satisfied. */
static void try_clash_sizes(uint8_t *workspace)
{
    static struct strip rule;
    size_t at, most = 0;
    for (unsigned n = 1; n <= WS2S_MAX_VARIABLES; n++)
        for (unsigned m = 1; m <= WS2S_MAX_RECORDS; m++) {
            unsigned parts = (m + 1) / 2; /* in a chain; with an even m the first is met again */
            put_heading(&rule, &at, n, m);
            for (unsigned i = 0; i < m; i++)
                put_record(&rule, &at, i < parts ? 0 : 7, i < parts ? 0 : i == parts ? 0 : i - 1, i < parts ? 0 : (i - parts + 1) % parts);
            ws2s_rule checked = ws2s_check_rule(rule.byte, rule.length);
            for (unsigned c = 1; c <= WS2S_MAX_STATES; c += m > 32 ? 1 : 21) {
                size_t size = ws2s_clash_workspace_size(checked, c);
                ws2s_clash_list enough = ws2s_clash(rule.byte, rule.length, c, workspace, size);
                ws2s_clash_list less = ws2s_clash(rule.byte, rule.length, c, workspace, size - 1);
                most = size > most ? size : most;
                count(enough.refusal == (parts > WS2S_MAX_PARTS ? WS2S_REFUSED_PARTS : WS2S_REFUSED_SATISFIABLE)
                          && less.refusal == WS2S_REFUSED_WORKSPACE, "size of a clash's workspace", n, c);
            }
            count(ws2s_clash_workspace_size(checked, 0) == 0 && ws2s_clash_workspace_size(checked, WS2S_MAX_STATES + 1) == 0
                      && ws2s_clash_workspace_size(checked, UINT64_MAX) == 0, "a clash's workspace of a ceiling out of range", n, m);
        }
    ws2s_rule refused = ws2s_check_rule(rule.byte, 1), odd = { 0, 64, 1, 0 }, many = { 0, 1, UINT64_MAX, 0 };
    count(most == WS2S_MAX_CLASH_WORKSPACE, "largest size of a clash's workspace", most, 0);
    count(ws2s_clash_workspace_size(refused, 1) == 0 && ws2s_clash_workspace_size(odd, 1) == 0 && ws2s_clash_workspace_size(many, 1) == 0,
          "a clash's workspace of what is no check's result", 0, 0);
}

/* ---- Names ---- */

/* A request that has this refusal, and where. "more" bytes follow the strip as it is written, all zero. */
static const struct {
    uint64_t refusal, place;
    const char *rule, *tree; /* hex; a tree is judged */
    size_t more;
    uint64_t c, p;
    size_t workspace, out;
} refusals[] = {
    { WS2S_REFUSED_RULE_SHORT, 8, "12", NULL, 0, 64, 255, 1 << 16, 320 },
    { WS2S_REFUSED_RULE_VERSION, 0, "2201200040", NULL, 0, 64, 255, 1 << 16, 320 },
    { WS2S_REFUSED_RULE_VARIABLES, 4, "1901200040", NULL, 0, 64, 255, 1 << 16, 320 },
    { WS2S_REFUSED_RULE_RECORDS, 8, "1200200040", NULL, 0, 64, 255, 1 << 16, 320 },
    { WS2S_REFUSED_RULE_LENGTH, 48, "1201200040", NULL, 1, 64, 255, 1 << 16, 320 },
    { WS2S_REFUSED_RULE_PADDING, 39, "1201200041", NULL, 0, 64, 255, 1 << 16, 320 },
    { WS2S_REFUSED_OP, 16, "1201900000", NULL, 0, 64, 255, 1 << 16, 320 },
    { WS2S_REFUSED_VARIABLE, 27, "1201200080", NULL, 0, 64, 255, 1 << 16, 320 },
    { WS2S_REFUSED_VARIABLE, 20, "1201204080", NULL, 0, 64, 255, 1 << 16, 320 },
    { WS2S_REFUSED_RECORD, 20, "1201500000", NULL, 0, 64, 255, 1 << 16, 320 },
    { WS2S_REFUSED_UNUSED, 27, "1201100040", NULL, 0, 64, 255, 1 << 16, 320 },
    { WS2S_REFUSED_CEILING, 0, "1201200040", NULL, 0, WS2S_MAX_STATES + 1, 255, 1 << 16, 320 },
    { WS2S_REFUSED_CEILING, 0, "1201200040", NULL, 0, 64, WS2S_MAX_POSITIONS + 1, 1 << 16, 320 },
    { WS2S_REFUSED_WORKSPACE, 0, "1201200040", NULL, 0, 64, 255, 1 << 10, 320 },
    { WS2S_REFUSED_OUT, 0, "1201200040", NULL, 0, 64, 255, 1 << 16, 2 },
    { WS2S_REFUSED_STATES, 0, "1201200040", NULL, 0, 3, 255, 1 << 16, 320 },
    { WS2S_REFUSED_TREE_SHORT, 0, "1201200040", "", 0, 64, 255, 1 << 16, 0 },
    { WS2S_REFUSED_TREE_VERSION, 0, "1201200040", "22B800", 0, 64, 255, 1 << 16, 0 },
    { WS2S_REFUSED_TREE_VARIABLES, 4, "1201200040", "19B800", 0, 64, 255, 1 << 16, 0 },
    { WS2S_REFUSED_TREE_CUT, 16, "1201200040", "12B8", 0, 64, 255, 1 << 16, 0 },
    { WS2S_REFUSED_TREE_BARE, 8, "1201200040", "1280", 0, 64, 255, 1 << 16, 0 },
    { WS2S_REFUSED_TREE_BARE, 11, "1201200040", "12B000", 0, 64, 255, 1 << 16, 0 },
    { WS2S_REFUSED_TREE_LEFT_OVER, 24, "1201200040", "12B80000", 0, 64, 255, 1 << 16, 0 },
    { WS2S_REFUSED_TREE_LEFT_OVER, 22, "1201200040", "12B80200", 0, 64, 255, 1 << 16, 0 },
    { WS2S_REFUSED_TREE_OTHER, 0, "1201200040", "11C0", 0, 64, 255, 1 << 16, 0 },
};

static void read_strip(struct strip *s, const char *hex, size_t more)
{
    uint64_t length;
    if (!read_hex(hex, s->byte, &length))
        exit(2);
    memset(s->byte + length, 0, more);
    s->length = length + more;
}

/* What is refused of a strip is told by its check too, with the same place. */
static void try_check(const struct strip *rule, const struct strip *tree, uint64_t refusal, uint64_t place)
{
    ws2s_rule r = ws2s_check_rule(rule->byte, rule->length);
    bool of_rule = refusal <= WS2S_REFUSED_UNUSED;
    count(r.refusal == (of_rule ? refusal : 0) && r.place == (of_rule ? place : 0), "place of a rule's check", refusal, r.place);
    if (tree) {
        ws2s_tree t = ws2s_check_tree(tree->byte, tree->length);
        bool of_tree = refusal >= WS2S_REFUSED_TREE_SHORT && refusal <= WS2S_REFUSED_TREE_LEFT_OVER;
        count(t.refusal == (of_tree ? refusal : 0) && t.place == (of_tree ? place : 0), "place of a tree's check", refusal, t.place);
    }
}

/* Lengths whose bits are more than a number of 64 bits can tell. There is no such
 * memory: the heading is all that a rule of the wrong length is asked for. */
static void try_lengths(void)
{
    static const uint8_t heading[] = { 0x12, 0x01 }, good[] = { 0x12, 0x01, 0x20, 0x00, 0x40 };
    static const size_t lengths[] = { 3, 291, SIZE_MAX / 8, SIZE_MAX / 8 + 1, SIZE_MAX / 2, SIZE_MAX };
    for (size_t i = 0; i < sizeof lengths / sizeof lengths[0]; i++) {
        size_t length = lengths[i];
        uint64_t bits = length > SIZE_MAX / 8 ? UINT64_MAX : 8 * (uint64_t)length;
        lend_bytes(&lent, heading, sizeof heading, LENT_AT_END);
        ws2s_rule r = ws2s_check_rule(lent.at, length);
        ws2s_verdict v = ws2s_decide(lent.at, length, 1, 0, NULL, 0, NULL, 0);
        ws2s_judgement j = ws2s_judge(lent.at, length, 1, NULL, 0, NULL, 0);
        ws2s_clash_list l = ws2s_clash(lent.at, length, 1, NULL, 0);
        count(r.refusal == WS2S_REFUSED_RULE_LENGTH && v.refusal == r.refusal && j.refusal == r.refusal && l.refusal == r.refusal,
              "refusal of a length", length, r.refusal);
        count(r.place == bits && v.place == bits && j.place == bits && l.place == bits, "place of a length", length, r.place);
        ws2s_written one = ws2s_join(lent.at, length, NULL, 0, NULL, 0), both = ws2s_join(lent.at, length, lent.at, length, NULL, 0);
        ws2s_written two = ws2s_join(good, sizeof good, lent.at, length, NULL, 0);
        count(one.refusal == r.refusal && both.refusal == r.refusal && two.refusal == r.refusal, "refusal of a length of two rules joined", length, two.refusal);
        count(one.place == bits && both.place == bits && two.place == bits, "place of a length of two rules joined", length, two.place);
        count(one.strip == 1 && both.strip == 1 && two.strip == 2, "strip with a length", one.strip, two.strip);
    }
}

static void try_names(uint8_t *workspace)
{
    static struct strip rule, tree;
    uint8_t out[WS2S_MAX_TREE_BYTES];
    for (size_t i = 0; i < sizeof refusals / sizeof refusals[0]; i++) {
        uint64_t kind, refusal, place;
        read_strip(&rule, refusals[i].rule, refusals[i].more);
        if (refusals[i].tree) {
            read_strip(&tree, refusals[i].tree, 0);
            ws2s_judgement j = ws2s_judge(rule.byte, rule.length, refusals[i].c, workspace, refusals[i].workspace,
                                          tree.byte, tree.length);
            kind = j.kind, refusal = j.refusal, place = j.place;
        } else {
            ws2s_verdict v = ws2s_decide(rule.byte, rule.length, refusals[i].c, refusals[i].p, workspace,
                                         refusals[i].workspace, out, refusals[i].out);
            kind = v.kind, refusal = v.refusal, place = v.place;
        }
        count(kind == WS2S_REFUSED && refusal == refusals[i].refusal, "name of a refusal", refusals[i].refusal, refusal);
        count(place == refusals[i].place, "place of a refusal", refusals[i].refusal, place);
        try_check(&rule, refusals[i].tree ? &tree : NULL, refusal, place);
    }
    struct tree_plan chain = { .n = 1, .nodes = WS2S_MAX_POSITIONS + 1, .shape = BY_FIRST, .full = true };
    make_tree(&tree, &chain); /* 20: one node too many */
    ws2s_tree many = ws2s_check_tree(tree.byte, tree.length);
    count(many.refusal == WS2S_REFUSED_TREE_POSITIONS && many.place == node[WS2S_MAX_POSITIONS].at, "name of a refusal", 20, many.place);

    static const struct {
        const char *rule;
        uint64_t p, kind;
    } kinds[] = { { "1201200040", 2, WS2S_SHOWN }, { "1201200040", 1, WS2S_LARGER }, { "1101200000", 255, WS2S_NONE } };
    for (size_t i = 0; i < sizeof kinds / sizeof kinds[0]; i++) {
        read_strip(&rule, kinds[i].rule, 0);
        count(ws2s_decide(rule.byte, rule.length, 64, kinds[i].p, workspace, 1 << 16, out, sizeof out).kind == kinds[i].kind,
              "name of a verdict", i, 0);
    }
    read_strip(&rule, "1101100000", 0); /* one X0 */
    read_strip(&tree, "11C0", 0);
    count(ws2s_judge(rule.byte, rule.length, 64, workspace, 1 << 16, tree.byte, tree.length).kind == WS2S_YES, "name of yes", 0, 0);
    read_strip(&tree, "1100", 0);
    count(ws2s_judge(rule.byte, rule.length, 64, workspace, 1 << 16, tree.byte, tree.length).kind == WS2S_NO, "name of no", 0, 0);
}

/* What no tree is asked for is refused by a clash as by decide, but that P is not asked
 * for and the workspace is longer; then the names that are a clash's own. */
static void try_clash_names(uint8_t *workspace)
{
    static struct strip rule;
    size_t at;
    for (size_t i = 0; i < sizeof refusals / sizeof refusals[0]; i++) {
        if (refusals[i].tree || refusals[i].p > WS2S_MAX_POSITIONS || refusals[i].refusal == WS2S_REFUSED_OUT)
            continue;
        read_strip(&rule, refusals[i].rule, refusals[i].more);
        ws2s_clash_list l = ws2s_clash(rule.byte, rule.length, refusals[i].c, workspace, 16 * refusals[i].workspace);
        count(l.kind == WS2S_REFUSED && l.refusal == refusals[i].refusal, "name of a clash's refusal", refusals[i].refusal, l.refusal);
        count(l.place == refusals[i].place && l.record == 0 && l.count == 0, "place of a clash's refusal", refusals[i].refusal, l.place);
    }
    read_strip(&rule, "1201200040", 0);
    count(ws2s_clash(rule.byte, rule.length, 64, workspace, 1 << 20).refusal == WS2S_REFUSED_SATISFIABLE, "name of a refusal",
          WS2S_REFUSED_SATISFIABLE, 0);
    read_strip(&rule, "1101200000", 0); /* X0 = X0 1 */
    ws2s_clash_list one = ws2s_clash(rule.byte, rule.length, 64, workspace, 1 << 20);
    count(one.kind == WS2S_KEPT && one.count == 1 && one.parts[0] == 0, "name of a list", one.kind, one.count);
    for (unsigned parts = WS2S_MAX_PARTS; parts <= WS2S_MAX_PARTS + 1; parts++) { /* all of them X0 = X0 1, so the last is kept */
        put_heading(&rule, &at, 1, 2 * parts - 1);
        for (unsigned i = 0; i < 2 * parts - 1; i++)
            put_record(&rule, &at, i < parts ? 2 : 7, i <= parts ? 0 : i - 1, i < parts ? 0 : i - parts + 1);
        ws2s_clash_list l = ws2s_clash(rule.byte, rule.length, 2, workspace, 1 << 20);
        count(parts > WS2S_MAX_PARTS ? l.refusal == WS2S_REFUSED_PARTS : l.kind == WS2S_KEPT && l.count == 1 && l.parts[0] == parts - 1,
              "most parts", parts, l.refusal);
    }
}

/* Two rules joined: this refusal, of this strip, at this place; all else is 0, and out is
 * as it was. */
static void try_join(const struct strip *one, const struct strip *two, size_t out_size, uint64_t refusal, uint64_t strip, uint64_t place)
{
    lend(&lent, out_size, LENT_AT_END);
    ws2s_written w = ws2s_join(one->byte, one->length, two->byte, two->length, out_size ? lent.at : NULL, out_size);
    count(w.refusal == refusal, "name of a refusal of two rules joined", refusal, w.refusal);
    count(w.strip == strip && w.place == place, "strip and place of two rules joined", w.strip, w.place);
    count(w.variables == 0 && w.records == 0 && w.length == 0 && lent_kept_after(&lent, 0), "what is left by a refusal of two rules joined", refusal, 0);
}

/* What is refused of a rule is refused of either of two; then the names that are a join's
 * own, and its limit. */
static void try_join_names(void)
{
    static struct strip rule, other, bad;
    for (size_t i = 0; i < sizeof refusals / sizeof refusals[0]; i++) {
        uint64_t refusal = refusals[i].refusal, place = refusals[i].place;
        if (refusal > WS2S_REFUSED_UNUSED)
            continue;
        read_strip(&rule, "1201200040", 0);
        read_strip(&bad, refusals[i].rule, refusals[i].more);
        for (size_t out = 0; out <= WS2S_MAX_RULE_BYTES; out += WS2S_MAX_RULE_BYTES) {
            try_join(&bad, &rule, out, refusal, 1, place);
            try_join(&rule, &bad, out, refusal, 2, place);
            try_join(&bad, &bad, out, refusal, 1, place);
            for (size_t k = 0; k < i; k++) { /* the first's, whichever number is lower */
                read_strip(&other, refusals[k].rule, refusals[k].more);
                try_join(&bad, &other, out, refusal, 1, place);
                try_join(&other, &bad, out, refusals[k].refusal, 1, refusals[k].place);
            }
        }
    }
    for (unsigned m = 1; m < WS2S_MAX_RECORDS; m++) {
        make_plain_rule(&rule, 1 + m % 8, m, m % 9, NULL);
        make_plain_rule(&other, 1 + m / 16, WS2S_MAX_RECORDS - m, m % 5, NULL);
        try_join(&rule, &other, m % 2 ? WS2S_MAX_RULE_BYTES : 0, WS2S_REFUSED_JOINED_RECORDS, 0, 0);
        if (m == WS2S_MAX_RECORDS - 1)
            break;
        make_plain_rule(&other, 1 + m / 16, WS2S_MAX_RECORDS - 1 - m, m % 5, NULL);
        try_join(&rule, &other, m % 2 ? WS2S_MAX_RULE_BYTES - 1 : 0, WS2S_REFUSED_RULE_OUT, 0, 0);
        lend(&lent, WS2S_MAX_RULE_BYTES, LENT_AT_END);
        ws2s_written w = ws2s_join(rule.byte, rule.length, other.byte, other.length, lent.at, WS2S_MAX_RULE_BYTES);
        ws2s_rule c = ws2s_check_rule(lent.at, w.length);
        count(w.refusal == 0 && w.place == 0 && w.strip == 0 && w.records == WS2S_MAX_RECORDS && w.length == WS2S_MAX_RULE_BYTES,
              "most records of two rules joined", m, w.records);
        count(c.refusal == 0 && c.variables == w.variables && c.records == w.records, "check of two rules joined", m, c.refusal);
    }
    ws2s_written none = ws2s_join(NULL, 0, NULL, 0, NULL, 0);
    count(none.refusal == WS2S_REFUSED_RULE_SHORT && none.strip == 1 && none.place == 0, "no rules", none.refusal, none.strip);
}

/* ---- Texts ---- */

static struct typed typed;

static void type(const char *words)
{
    typed.length = 0;
    put_text(&typed, words);
}

/* What is typed has this refusal, at this token; with 0 so many variables and records. */
static void try_typed(uint64_t refusal, uint64_t start, uint64_t length, uint64_t variables, uint64_t records)
{
    size_t size = typed.length;
    uint8_t out[WS2S_MAX_RULE_BYTES];
    lend_bytes(&lent, typed.byte, size, LENT_AT_END);
    ws2s_written w = ws2s_import(lent.at, size, out, sizeof out), cut = ws2s_import(lent.at, size, out, sizeof out - 1);
    ws2s_fault f = ws2s_text_fault(lent.at, size);
    count(w.refusal == refusal && f.refusal == refusal, "name of a text's refusal", refusal, w.refusal);
    count(f.start == start && f.length == length, "token of a text's refusal", f.start, f.length);
    count(w.variables == variables && w.records == records && w.length == (refusal ? 0 : (16 + 18 * records + 7) / 8),
          "numbers of a text", w.variables, w.records);
    count(w.place == 0 && w.strip == 0, "place and strip of a text", w.place, w.strip);
    count(cut.refusal == WS2S_REFUSED_RULE_OUT && cut.variables == 0 && cut.records == 0 && cut.length == 0, "name of a refusal",
          WS2S_REFUSED_RULE_OUT, cut.refusal);
}

/* Each limit reached, and passed by one. */
static void try_typed_limits(void)
{
    for (unsigned more = 0; more <= 1; more++) {
        type("ws2s;var2 X;");
        for (unsigned i = 0; i < WS2S_MAX_LEVELS + more; i++)
            put_text(&typed, "~");
        put_text(&typed, "X sub X;");
        try_typed(more ? WS2S_REFUSED_TEXT_GRAMMAR : 0, more ? 12 + WS2S_MAX_LEVELS : 0, more, more ? 0 : 1, more ? 0 : WS2S_MAX_LEVELS + 1);

        type("ws2s;var2 ");
        for (unsigned i = 0; i < WS2S_MAX_VARIABLES + more; i++) {
            char name[3] = { (char)('A' + i), i + 1 < WS2S_MAX_VARIABLES + more ? ',' : ';', 0 };
            put_text(&typed, name);
        }
        put_text(&typed, "A sub A;");
        try_typed(more ? WS2S_REFUSED_TEXT_VARIABLES : 0, more ? 10 + 2 * WS2S_MAX_VARIABLES : 0, more, more ? 0 : WS2S_MAX_VARIABLES, !more);

        type(more ? "ws2s;var2 X;~~X sub X" : "ws2s;var2 X;~X sub X"); /* and each "&" with its atom makes two records */
        for (unsigned i = 1; i < WS2S_MAX_RECORDS / 2; i++)
            put_text(&typed, "&X sub X");
        put_text(&typed, ";");
        try_typed(more ? WS2S_REFUSED_TEXT_RECORDS : 0, 0, 0, more ? 0 : 1, more ? 0 : WS2S_MAX_RECORDS);
    }
    type("ws2s;var2 X;X sub Seat;");
    try_typed(WS2S_REFUSED_TEXT_NAME, 18, 4, 0, 0);
    type("ws2s;var2 X;X sub X");
    try_typed(WS2S_REFUSED_TEXT_GRAMMAR, 19, 0, 0, 0);
    type("");
    try_typed(WS2S_REFUSED_TEXT_GRAMMAR, 0, 0, 0, 0);
    ws2s_written none = ws2s_import(NULL, 0, NULL, 0);
    count(none.refusal == WS2S_REFUSED_RULE_OUT && ws2s_text_fault(NULL, 0).refusal == WS2S_REFUSED_TEXT_GRAMMAR, "no text", none.refusal, 0);
}

static void try_texts(void)
{
    const char *none = ws2s_refusal_text(0);
    for (uint64_t k = 1; k <= WS2S_REFUSED_JOINED_RECORDS; k++) {
        bool alone = strcmp(ws2s_refusal_text(k), none) != 0 && *ws2s_refusal_help(k);
        for (uint64_t other = 1; other < k; other++)
            alone = alone && strcmp(ws2s_refusal_text(k), ws2s_refusal_text(other)) != 0;
        count(alone, "text of a refusal", k, 0);
    }
    count(ws2s_refusal_text(WS2S_REFUSED_JOINED_RECORDS + 1) == none && ws2s_refusal_text(UINT64_MAX) == none
              && !*ws2s_refusal_help(0) && !*ws2s_refusal_help(UINT64_MAX), "text of what is no refusal", 0, 0);
}

/* ---- The walk ---- */

/* Whether the walk is at this node, with the way up from there as its path. */
static bool same_node(const ws2s_walk *w, unsigned number, unsigned variables)
{
    const struct node *here = &node[number], *up = here;
    unsigned inside = 0, label = 0;
    for (unsigned v = 0; v < variables; v++)
        label = 2 * label + (unsigned)ws2s_walk_has(w, v);
    for (; up->depth && w->depth == here->depth && w->path[up->depth - 1] == up->branch; up = &node[up->above])
        inside += up->branch == 1;
    return up->depth == 0 && w->depth == here->depth && w->inside == inside && w->label == here->label && label == here->label
        && !ws2s_walk_has(w, variables) && w->branch == here->branch;
}

/* The tree is walked with a stack that has no more bytes than there are nodes on its longest way down. */
static void try_walk(unsigned n, unsigned left, enum shape shape, unsigned more)
{
    static struct strip s;
    struct tree_plan plan = { .n = n, .nodes = left, .shape = shape };
    ws2s_walk w;
    unsigned met = 0, deep = 0;
    bool right = true;
    make_tree(&s, &plan);
    count(ws2s_check_tree(s.byte, s.length).positions == left, "a tree to walk over", n, left);
    lend_bytes(&lent, s.byte, s.length, LENT_AT_END);
    for (unsigned i = 0; i < nodes; i++)
        deep = node[i].depth + 1 > deep ? node[i].depth + 1 : deep;
    lend(&lent_stack, deep, LENT_AT_END);
    ws2s_walk_begin(&w, lent.at, s.length, lent_stack.at);
    while (ws2s_walk_next(&w) && met < left)
        right = same_node(&w, met++, n) && right;
    count(right && met == left && !ws2s_walk_next(&w) && !ws2s_walk_next(&w), "walk", n, left);
    /* and a strip that was cut: a beginning of the same nodes */
    for (size_t length = 0; more && length < s.length; length++) {
        lend_bytes(&lent, s.byte, length, LENT_AT_END);
        ws2s_walk_begin(&w, length ? lent.at : NULL, length, lent_stack.at);
        for (met = 0, right = true; ws2s_walk_next(&w) && met < left; met++)
            right = same_node(&w, met, n) && right;
        count(right && met <= left, "walk over a strip that was cut", n, length);
    }
}

/* Bytes of any kind, which stand before a page that may not be touched, as the stack does. */
static void try_bytes(size_t length)
{
    ws2s_walk w;
    unsigned met = 0;
    lend(&lent, length, LENT_AT_END);
    for (size_t i = 0; i < length; i++)
        lent.at[i] = below(3) == 0 ? 0xFF : below(2) == 0 ? 0 : (uint8_t)below(256);
    if (length && below(4))
        lent.at[0] = (uint8_t)(16 + below(16));
    lend(&lent_stack, WS2S_MAX_POSITIONS, LENT_AT_END);
    ws2s_walk_begin(&w, length ? lent.at : NULL, length, lent_stack.at);
    while (ws2s_walk_next(&w) && met <= WS2S_MAX_POSITIONS)
        met++;
    count(met <= WS2S_MAX_POSITIONS, "walk over any bytes", length, met);
    ws2s_tree checked = ws2s_check_tree(lent.at, length);
    count(checked.refusal != 0 || checked.positions == met, "walk over what is a tree", length, met);
}

int main(void)
{
    uint8_t *workspace = malloc(WS2S_MAX_CLASH_WORKSPACE);
    if (!workspace)
        return 2;
    lent_watch();
    lent_open(&lent, MOST_STRIP);
    lent_open(&lent_stack, WS2S_MAX_POSITIONS);
    snprintf(lent_doing, sizeof lent_doing, "header");
    try_sizes(workspace);
    try_clash_sizes(workspace);
    try_names(workspace);
    try_clash_names(workspace);
    try_join_names();
    try_lengths();
    try_typed_limits();
    try_texts();
    for (unsigned n = 1; n <= WS2S_MAX_VARIABLES; n++) {
        for (unsigned left = 0; left <= WS2S_MAX_POSITIONS; left++)
            for (enum shape shape = ANY_SHAPE; shape <= BY_SECOND; shape++)
                try_walk(n, left, shape, left < 20);
        for (unsigned i = 0; i < 2000; i++)
            try_walk(n, below(12), ANY_SHAPE, 1);
    }
    for (unsigned i = 0; i < 200000; i++)
        try_bytes(below(i % 5 ? 24 : 2 * WS2S_MAX_TREE_BYTES));
    free(workspace);
    printf("header: %lu passed, %lu failed\n", passed, failed);
    return failed != 0;
}
