/* Runs the library on a stack of 64 KiB:
 *
 *     stack FILE...
 *
 * Every call is made in a thread of its own with just that much stack, below
 * which nothing may be touched. The calls are the lines of the vector files,
 * those of the verdict program aside, and what goes deepest: the longest rule
 * strips, trees of 255 nodes in several shapes, whole and refused late, these
 * trees judged by the files' rules, conjunctions of as many records and parts as
 * there may be, rules joined to as many records as there may be and refused late, and
 * texts that nest as deep as they may and
 * deeper, with and without a long way to go on each level. For calls that are no vectors the
 * oracle must give the same answer, which is mostly stated here too. It prints
 * what fails, the most bytes of stack that each function used, counted from the
 * frame of its caller, and a count, and ends with status 1 if anything failed. */
#define _DEFAULT_SOURCE
#include "both.h"
#include "lent.h"
#include "typed.h"

#include <pthread.h>

enum { STACK = 1 << 16, GUARD = 1 << 16, MOST_SECONDS = 600 };

static uint8_t *stack, *workspace;
static struct lent lent[ARGUMENTS];

/* The most that each function used, and where; how often it was called. */
static struct {
    size_t used;
    char what[200];
    unsigned long calls;
} most[KINDS];
static unsigned long passed, failed;

/* ---- The small stack ---- */

struct call {
    const struct request *request;
    uint8_t *at[ARGUMENTS];
    union result result;
    size_t used;
};

static void open_all(void)
{
    uint8_t *all = mmap(NULL, GUARD + STACK, PROT_NONE, MAP_PRIVATE | MAP_ANONYMOUS, -1, 0);
    workspace = malloc(WS2S_MAX_CLASH_WORKSPACE);
    if (!workspace || all == MAP_FAILED || mprotect(all + GUARD, STACK, PROT_READ | PROT_WRITE) != 0) {
        perror("stack");
        exit(2);
    }
    stack = all + GUARD;
    lent_open_all(lent, MOST_TYPED, 0); /* of the workspace no test here looks at a byte */
}

/* The use counts from the frame that calls the library down to the lowest byte
 * that no longer has the pattern. */
__attribute__((noinline)) static void call_measured(struct call *c)
{
    const uint8_t *frame = __builtin_frame_address(0), *pattern = lent_pattern(0);
    size_t untouched = 0;
    call_library(c->request, c->at, &c->result);
    while (untouched < LENT_CHUNK && stack[untouched] == pattern[untouched])
        untouched++;
    c->used = (size_t)(frame - (stack + untouched));
}

static void *run_thread(void *call)
{
    lent_watch_thread();
    call_measured(call);
    return NULL;
}

/* The bytes that the pattern leaves over are at the upper end, and the thread's
 * own. */
static void run_on_stack(struct call *c)
{
    pthread_attr_t attributes;
    pthread_t thread;
    memcpy(stack, lent_pattern(0), LENT_CHUNK);
    if (pthread_attr_init(&attributes) != 0 || pthread_attr_setstack(&attributes, stack, STACK) != 0
        || pthread_create(&thread, &attributes, run_thread, c) != 0
        || pthread_join(thread, NULL) != 0) {
        fprintf(stderr, "no thread with a stack of %d bytes\n", STACK);
        exit(2);
    }
    pthread_attr_destroy(&attributes);
}

/* ---- Trying ---- */

static void lend_all(struct call *c)
{
    lend_request(lent, c->request, LENT_AT_END, false, c->at);
    c->at[WORKSPACE] = workspace;
}

static void fails(const struct request *r, const char *what, const char *fault, const char *answer)
{
    failed++;
    printf("ws2s_%s, %s: %s\n  expected %s\n  answer   %s\n", operations[r->operation].name, what, fault, r->expected, answer);
}

static void try_request(const struct request *r, const char *what)
{
    static char answer[2 * MOST_LINE];
    struct call c = { .request = r };
    snprintf(lent_doing, sizeof lent_doing, "ws2s_%s, %s, on a stack of %d bytes", operations[r->operation].name, what, STACK);
    alarm(MOST_SECONDS);
    lend_all(&c);
    run_on_stack(&c);
    bool idle = tell(r->operation, &c.result, lent[OUT].at, r->number[OUT], answer);
    if (strcmp(answer, r->expected) != 0)
        fails(r, what, "another answer", answer);
    else if (!idle)
        fails(r, what, "a field that does not apply is not 0", answer);
    else
        passed++;
    most[r->operation].calls++;
    if (c.used > most[r->operation].used) {
        most[r->operation].used = c.used;
        snprintf(most[r->operation].what, sizeof most[r->operation].what, "%s", what);
    }
}

/* Asks the oracle too, on the stack that this program has. Its answer is the
 * expected one if none is stated. */
static void try_both(struct request *r, const char *what, const char *stated)
{
    static char answer[2 * MOST_LINE];
    struct call c = { .request = r };
    lend_all(&c);
    call(false, r, c.at, &c.result);
    tell(r->operation, &c.result, lent[OUT].at, r->number[OUT], answer);
    r->expected = stated ? stated : answer;
    if (strcmp(answer, r->expected) != 0)
        fails(r, what, "another answer of the oracle", answer);
    try_request(r, what);
}

/* ---- What goes deepest ---- */

enum { NODES = 255 };
static const struct {
    enum shape shape;
    const char *name;
} shapes[] = { { BY_FIRST, "a chain by the first branch" }, { BY_SECOND, "a chain by the second branch" },
               { BY_TURNS, "a chain by turns" }, { BROAD, "a broad tree" } };
enum { SHAPES = sizeof shapes / sizeof shapes[0] };

static struct strip rule, second, tree;
static struct typed text;
static struct request made;
static char what[200];

/* Tries what was made. */
static void try_made(enum operation operation, const char *stated)
{
    made.operation = operation;
    made.byte[RULE] = rule.byte;
    made.number[RULE] = rule.length;
    made.byte[SECOND] = second.byte;
    made.number[SECOND] = second.length;
    made.byte[TREE] = tree.byte;
    made.number[TREE] = tree.length;
    made.byte[TEXT] = text.byte;
    made.number[TEXT] = text.length;
    try_both(&made, what, stated);
}

static void try_rules(void)
{
    static const struct {
        struct record last;
        const char *stated;
    } bad[] = {
        { { 9, 0, 0 }, "refused 7 2302" }, { { 15, 127, 127 }, "refused 7 2302" }, { { 0, 8, 0 }, "refused 8 2306" },
        { { 3, 0, 127 }, "refused 8 2313" }, { { 8, 8, 0 }, "refused 8 2306" }, { { 6, 127, 0 }, "refused 9 2306" },
        { { 7, 0, 127 }, "refused 9 2313" }, { { 8, 0, 127 }, "refused 9 2313" }, { { 1, 0, 1 }, "refused 10 2313" },
        { { 5, 0, 127 }, "refused 10 2313" } };
    static const struct {
        uint8_t heading, records;
        size_t length;
        const char *stated;
    } heads[] = {
        { 0x18, 128, 0, "refused 1 0" }, { 0x18, 128, 1, "refused 1 8" }, { 0x28, 128, 290, "refused 2 0" },
        { 0x10, 128, 290, "refused 3 4" }, { 0x19, 128, 290, "refused 3 4" }, { 0x18, 0, 290, "refused 4 8" },
        { 0x18, 129, 290, "refused 4 8" }, { 0x18, 128, 289, "refused 5 2312" }, { 0x18, 128, 291, "refused 5 2328" } };
    for (unsigned op = 0; op <= 8; op++) {
        make_plain_rule(&rule, 8, 128, op, NULL);
        snprintf(what, sizeof what, "128 records of op %u", op);
        try_made(OP_check_rule, "ok 8 128");
    }
    for (size_t i = 0; i < sizeof bad / sizeof bad[0]; i++) {
        make_plain_rule(&rule, 8, 128, 7, &bad[i].last);
        snprintf(what, sizeof what, "a last record %u %u %u", bad[i].last.op, bad[i].last.first,
                 bad[i].last.second);
        try_made(OP_check_rule, bad[i].stated);
    }
    for (size_t i = 0; i < sizeof heads / sizeof heads[0]; i++) {
        make_plain_rule(&rule, 8, 128, 7, NULL);
        rule.byte[0] = heads[i].heading;
        rule.byte[1] = heads[i].records;
        rule.byte[290] = 0;
        rule.length = heads[i].length;
        snprintf(what, sizeof what, "a strip %02X%02X... of %zu bytes", heads[i].heading,
                 heads[i].records, heads[i].length);
        try_made(OP_check_rule, heads[i].stated);
    }
    size_t end = make_plain_rule(&rule, 8, 127, 7, NULL);
    put(&rule, &end, 1, 1);
    snprintf(what, sizeof what, "127 records and a padding bit");
    try_made(OP_check_rule, "refused 6 2302");
}

/* Trees of as many nodes as there may be, and what is refused only after them. */
enum { WHOLE, LEFT_OVER, PADDED, BARE, TOO_MANY, CUT, CUT_DEEP, TREES };
static const struct {
    const char *how;
    unsigned refusal;
} trees[TREES] = {
    [WHOLE] = { "whole", 0 }, [LEFT_OVER] = { "and a byte left over", 21 }, [PADDED] = { "and a padding bit", 21 },
    [BARE] = { "with a bare last node", 19 }, [TOO_MANY] = { "of 256 nodes", 20 },
    [CUT] = { "without its last byte", 18 }, [CUT_DEEP] = { "cut where a chain is deepest", 18 } };

/* Returns the place of its refusal. */
static size_t make_deep(unsigned n, enum shape shape, int which)
{
    struct tree_plan plan = { .n = n, .nodes = which == TOO_MANY ? NODES + 1 : NODES, .shape = shape, .full = true, .bare = which == BARE };
    size_t end = make_tree(&tree, &plan), place = end;
    switch (which) {
    case LEFT_OVER:
        place = 8 * tree.length;
        tree.byte[tree.length++] = 0;
        break;
    case PADDED:
        put(&tree, &end, 1, 1); /* neither with 1 nor with 8 variables does a tree fill its last byte */
        break;
    case BARE:
    case TOO_MANY:
        place = node[nodes - 1].at;
        break;
    case CUT:
        place = 8 * --tree.length;
        break;
    case CUT_DEEP:
        tree.length = (8 + NODES * ((size_t)n + 1)) / 8;
        place = 8 * tree.length;
        break;
    }
    return place;
}

/* Lends what a rule needs, if the state ceiling is within range. */
static void set_ceilings(uint64_t c)
{
    made.number[C] = c;
    made.number[P] = NODES;
    made.number[WORKSPACE] = space_asked(OP_clash, rule.byte, c); /* the most that is asked for */
    made.number[OUT] = WS2S_MAX_TREE_BYTES;
}

static const struct {
    unsigned records, op;
    uint64_t c;
    const char *answer; /* for trees whose labels have all their bits */
} rules[] = {
    { 1, 0, 1, "yes" }, { 1, 0, 64, "yes" }, { 128, 0, 1, "yes" }, { 128, 0, 64, "yes" },
    { 128, 7, 64, "yes" }, { 128, 8, 1, "yes" }, { 128, 8, 64, "yes" }, { 128, 1, 64, "no" },
    { 128, 1, 1, "refused 14 127" } };
enum { RULES = sizeof rules / sizeof rules[0] };

static void try_trees(unsigned n)
{
    char ok[40], refused[60];
    snprintf(ok, sizeof ok, "ok %u %d", n, NODES);
    for (int shape = 0; shape < SHAPES; shape++)
        for (int which = WHOLE; which < TREES; which++) {
            size_t place = make_deep(n, shapes[shape].shape, which);
            snprintf(refused, sizeof refused, "refused %u %zu", trees[which].refusal, place);
            int used = snprintf(what, sizeof what, "n = %u, %s %s", n, shapes[shape].name, trees[which].how);
            try_made(OP_check_tree, which == WHOLE ? ok : refused);
            for (int i = 0; i < RULES; i++) {
                make_plain_rule(&rule, n, rules[i].records, rules[i].op, NULL);
                set_ceilings(rules[i].c);
                snprintf(what + used, sizeof what - (size_t)used, ", records %u, op %u, c = %d",
                         rules[i].records, rules[i].op, (int)rules[i].c);
                try_made(OP_judge, which == WHOLE ? rules[i].answer : refused);
            }
            make_plain_rule(&rule, 9 - n, 128, 0, NULL);
            set_ceilings(1);
            snprintf(what + used, sizeof what - (size_t)used, ", a rule of another n");
            try_made(OP_judge, which == WHOLE ? "refused 22" : refused);
        }
}

static void try_decide(unsigned n)
{
    for (int i = 0; i < RULES; i++) {
        make_plain_rule(&rule, n, rules[i].records, rules[i].op, NULL);
        set_ceilings(rules[i].c);
        snprintf(what, sizeof what, "n = %u, records %u, op %u, c = %d", n, rules[i].records,
                 rules[i].op, (int)rules[i].c);
        try_made(OP_decide, NULL);
    }
}

/* The deepest tree to be shown: a chain of so many nodes, for a rule that says of
 * the last, by "exists" of the one before and so on, how it is reached. With 31
 * nodes a record has more than 64 states. */
static void try_shown(unsigned nodes)
{
    size_t at;
    unsigned last = 0;
    put_heading(&rule, &at, 2, 3 * nodes - 2);
    put_record(&rule, &at, 4, 0, 0);
    for (unsigned i = 1; i < nodes; i++, last += 3) {
        put_record(&rule, &at, 2, i % 2, (i - 1) % 2);
        put_record(&rule, &at, 7, last, last + 1);
        put_record(&rule, &at, 8, (i - 1) % 2, last + 2);
    }
    set_ceilings(64);
    snprintf(what, sizeof what, "a chain of %u nodes to be shown", nodes);
    try_made(OP_decide, NULL);
}

/* X0 = X0 1, which clashes by itself, below "and" as far as there are records: of the
 * record before twice, of it and the first, and of the first and it. */
static void try_crowded(unsigned n)
{
    static const char *const chains[] = { "the record before, twice", "the record before and the first", "the first and the record before" };
    size_t at;
    for (unsigned chain = 0; chain < 3; chain++) {
        put_heading(&rule, &at, n, WS2S_MAX_RECORDS);
        put_record(&rule, &at, 2, 0, 0);
        for (unsigned i = 1; i < WS2S_MAX_RECORDS; i++)
            put_record(&rule, &at, 7, chain == 2 ? 0 : i - 1, chain == 1 ? 0 : i - 1);
        set_ceilings(64);
        snprintf(what, sizeof what, "n = %u, 127 \"and\" of %s", n, chains[chain]);
        try_made(OP_clash, "kept 1 0");
    }
}

/* So many parts in a chain, of which the last clashes by itself. */
static void try_chain(unsigned n, unsigned parts, bool right)
{
    size_t at;
    put_heading(&rule, &at, n, 2 * parts - 1);
    for (unsigned i = 0; i < parts; i++)
        put_record(&rule, &at, i + 1 < parts ? 0 : 2, 0, 0);
    for (unsigned i = 1; i < parts; i++) {
        unsigned before = i > 1 ? parts + i - 2 : right ? parts - 1 : 0, part = right ? parts - 1 - i : i;
        put_record(&rule, &at, 7, right ? part : before, right ? before : part);
    }
    set_ceilings(64);
    snprintf(what, sizeof what, "n = %u, %u parts in a chain to the %s", n, parts, right ? "right" : "left");
    try_made(OP_clash, parts > WS2S_MAX_PARTS ? "refused 28" : "kept 1 15");
}

static void try_clash(unsigned n)
{
    static const unsigned parts[] = { WS2S_MAX_PARTS, WS2S_MAX_PARTS + 1, WS2S_MAX_RECORDS / 2 };
    try_crowded(n);
    for (unsigned i = 0; i < sizeof parts / sizeof parts[0]; i++) {
        try_chain(n, parts[i], false);
        try_chain(n, parts[i], true);
    }
    for (int i = 0; i < RULES; i++) {
        make_plain_rule(&rule, n, rules[i].records, rules[i].op, NULL);
        set_ceilings(rules[i].c);
        snprintf(what, sizeof what, "n = %u, records %u, op %u, c = %d", n, rules[i].records, rules[i].op, (int)rules[i].c);
        try_made(OP_clash, NULL);
    }
}

/* Joins the rules made, of so many records; of out the strip alone may be altered. */
static void join_made(unsigned one, unsigned two, size_t out, const char *stated)
{
    made.number[OUT] = out;
    snprintf(what, sizeof what, "%u records, op %u, and %u, op %u, out of %zu bytes", one, bits_at(&rule, record_at(one - 1), 4), two,
             bits_at(&second, record_at(two - 1), 4), out);
    try_made(OP_join, stated);
    if (!lent_kept_after(&lent[OUT], stated ? 0 : (record_at(one + two + 1) + 7) / 8))
        fails(&made, what, "out not as it must be left", "");
}

/* The longest rules that can be joined, of every op, with the fewer variables on either
 * side; and what is refused only after both are read. */
static void try_joins(void)
{
    static const struct {
        unsigned one, two;
    } longest[] = { { 63, 64 }, { 64, 63 }, { 1, 126 }, { 126, 1 } };
    static const struct record bad = { 7, 0, 64 };
    for (size_t i = 0; i < sizeof longest / sizeof longest[0]; i++)
        for (unsigned op = 0; op <= 8; op++)
            for (unsigned other = 0; other <= 8; other++) {
                make_plain_rule(&rule, op < other ? 1 : 8, longest[i].one, op, NULL);
                make_plain_rule(&second, op > other ? 1 : 8, longest[i].two, other, NULL);
                join_made(longest[i].one, longest[i].two, other % 2 ? WS2S_MAX_RULE_BYTES : MOST_OUT, NULL);
                join_made(longest[i].one, longest[i].two, WS2S_MAX_RULE_BYTES - 1, "refused 27");
            }
    make_plain_rule(&rule, 8, 63, 7, NULL);
    make_plain_rule(&second, 8, 65, 7, NULL);
    join_made(63, 65, WS2S_MAX_RULE_BYTES, "refused 30");
    make_plain_rule(&second, 8, 65, 7, &bad); /* the last record names itself */
    join_made(63, 65, WS2S_MAX_RULE_BYTES, "refused 9 1179");
    make_plain_rule(&rule, 8, 128, 8, NULL);
    make_plain_rule(&second, 8, 128, 8, NULL);
    join_made(128, 128, WS2S_MAX_RULE_BYTES, "refused 30");
    join_made(128, 128, 0, "refused 30");
}

/* Judges the deepest trees by a rule that has an answer. */
static void judge_by(const struct request *decide, const char *name)
{
    rule.length = decide->number[RULE];
    memcpy(rule.byte, decide->byte[RULE], rule.length);
    set_ceilings(decide->number[C]);
    for (int shape = 0; shape < SHAPES; shape++) {
        make_deep(variables(&rule), shapes[shape].shape, WHOLE);
        snprintf(what, sizeof what, "%s, %s", name, shapes[shape].name);
        try_made(OP_judge, NULL);
    }
}

/* ---- Texts ---- */

static void try_text(const char *stated)
{
    made.number[OUT] = WS2S_MAX_RULE_BYTES;
    try_made(OP_import, stated);
    try_made(OP_text_fault, NULL);
}

/* What opens a level or more, what closes it, and the answer to as many as make 32
 * levels, or nearly, around an atom. */
static const struct {
    const char *opens, *closes;
    unsigned levels;
    const char *stated;
} nests[] = {
    { "(", ")", 1, "ok 1 1" },
    { "~", "", 1, "ok 1 33" },
    { "X sub X=>", "", 1, "ok 1 97" },
    { "~(", ")", 2, "ok 1 17" },
    { "(~", ")", 2, "ok 1 17" },
    { "X sub X=>(", ")", 2, "ok 1 49" },
    { "(X sub X=>", ")", 2, "ok 1 49" },
    { "X sub X=>~~(", ")", 4, "ok 1 41" },
    { "((X sub X=>X sub X=>", "))", 4, "ok 1 49" },
    { "X sub X&(", ")", 1, "ok 1 65" },
    { "X sub X|X sub X&(", ")", 1, "refused 26" },
    { "X sub X<=>X sub X=>X sub X|X sub X&(", ")", 2, "refused 26" },
    { "X sub X<=>X sub X=>X sub X|X sub X&~(", ")", 3, "refused 26" },
    { "(X sub X)&(X sub X)&(", ")", 1, "refused 26" },
};

/* So many levels, at least; the quantifiers, if any, are outermost. Without an end
 * the text stops where it is deepest. */
static void make_nest(size_t kind, unsigned levels, const char *quantifier, unsigned quantifiers, bool end)
{
    unsigned times = (levels - quantifiers + nests[kind].levels - 1) / nests[kind].levels;
    text.length = 0;
    put_text(&text, "ws2s;var2 X;");
    for (unsigned i = 0; i < quantifiers; i++)
        put_text(&text, quantifier);
    for (unsigned i = 0; i < times; i++)
        put_text(&text, nests[kind].opens);
    if (!end)
        return;
    put_text(&text, "X sub X");
    for (unsigned i = 0; i < times; i++)
        put_text(&text, nests[kind].closes);
    put_text(&text, ";");
}

static void try_nests(void)
{
    static const char *const quantifiers[] = { "ex1 y:", "ex2 Y:", "all1 y:", "all2 Y:", "(X sub X)&ex1 y:", "X sub X|X sub X&~all2 Y:" };
    enum { QUANTIFIERS = WS2S_MAX_VARIABLES - 1 };
    for (size_t kind = 0; kind < sizeof nests / sizeof nests[0]; kind++) {
        unsigned whole = LEVELS / nests[kind].levels * nests[kind].levels; /* as many as fit */
        int used = snprintf(what, sizeof what, "levels of %s", nests[kind].opens);
        make_nest(kind, whole, "", 0, true);
        try_text(nests[kind].stated);
        snprintf(what + used, sizeof what - (size_t)used, ", one too many");
        make_nest(kind, LEVELS + 1, "", 0, true);
        try_text("refused 23");
        snprintf(what + used, sizeof what - (size_t)used, ", cut");
        make_nest(kind, whole, "", 0, false);
        try_text("refused 23");
        for (size_t q = 0; q < sizeof quantifiers / sizeof quantifiers[0]; q++) {
            snprintf(what + used, sizeof what - (size_t)used, " in %s", quantifiers[q]);
            for (unsigned levels = whole - 6; levels <= LEVELS + 1; levels++) {
                make_nest(kind, levels, quantifiers[q], QUANTIFIERS, true);
                try_text(NULL);
            }
        }
    }
}

/* Long texts. Their operators, names and brackets follow each other: they are not deep. */
static void try_long_texts(void)
{
    static const struct {
        const char *again, *end, *stated;
    } chains[] = {
        { "(X sub X)&", "X sub X;", "refused 26" }, { "X sub X|", "X sub X;", "refused 26" },
        { "X sub X<=>", "X sub X;", "refused 26" }, { "~X sub X&", "X sub X", "refused 23" },
        { "X sub X=>X sub X<=>", "X sub X;", "refused 26" }, { "(ex1 y:all2 Z:X sub Z)|", "X sub X;", "refused 26" },
        { "(ex1 y:all2 Z:X sub Z)|", "Z sub X;", "refused 24" }, { " \t\r\n", "X sub X;", "ok 1 1" },
        { "(", "", "refused 23" }, { "~", "", "refused 23" }, { "X sub X=>", "", "refused 23" }, { "ex1 x:", "", "refused 25" },
        { "LongName", " sub X;", "refused 24" }, { ".0", "", "refused 23" }, { ";", "", "refused 23" } };
    for (size_t i = 0; i < sizeof chains / sizeof chains[0]; i++) {
        text.length = 0;
        put_text(&text, "ws2s;var2 X;");
        while (text.length < MOST_TYPED / 2)
            put_text(&text, chains[i].again);
        put_text(&text, chains[i].end);
        snprintf(what, sizeof what, "64 KiB of %s", chains[i].again[0] == ' ' ? "separators" : chains[i].again);
        try_text(chains[i].stated);
    }
    /* so many records, one and six for each, that a count of one byte or two would come to 3 */
    static const unsigned wraps[] = { 43, 10923 };
    for (size_t i = 0; i < sizeof wraps / sizeof wraps[0]; i++) {
        text.length = 0;
        put_text(&text, "ws2s;var2 X;X sub X");
        for (unsigned times = 0; times < wraps[i]; times++)
            put_text(&text, "<=>X sub X");
        put_text(&text, ";");
        snprintf(what, sizeof what, "%u records", 1 + 6 * wraps[i]);
        try_text("refused 26");
    }
}

static void run_file(const char *name)
{
    static char line[MOST_LINE];
    static struct request r;
    char place[100];
    FILE *file = fopen(name, "r");
    if (!file) {
        perror(name);
        exit(2);
    }
    for (unsigned long number = 1; fgets(line, sizeof line, file); number++) {
        line[strcspn(line, "\r\n")] = 0;
        snprintf(place, sizeof place, "%s:%lu", name, number);
        r = (struct request){ .expected = "" };
        if (!read_request(line, &r)) {
            fails(&r, place, "not a line of this form", "");
        } else if (r.then || r.strip) {
            try_both(&r, place, NULL);
        } else if (!r.program) {
            try_request(&r, place);
            if (r.operation == OP_decide && strncmp(r.expected, "refused ", 8) != 0)
                judge_by(&r, place);
        }
    }
    fclose(file);
}

int main(int argc, char **argv)
{
    lent_watch();
    open_all();
    try_rules();
    for (unsigned n = 1; n <= 8; n += 7) {
        try_trees(n);
        try_decide(n);
        try_clash(n);
    }
    try_joins();
    for (unsigned nodes = 1; nodes <= 31; nodes++)
        try_shown(nodes);
    try_nests();
    try_long_texts();
    for (int i = 1; i < argc; i++)
        run_file(argv[i]);
    for (int kind = 1; kind < KINDS; kind++)
        printf("ws2s_%s: at most %zu bytes of stack in %lu calls (%s)\n", operations[kind].name, most[kind].used,
               most[kind].calls, most[kind].what);
    printf("stack of %d bytes: %lu passed, %lu failed\n", STACK, passed, failed);
    return failed || !passed;
}
