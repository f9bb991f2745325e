/* Has the example host walk the trees that the library shows:
 *
 *     depth HOST FOLDER FILE...
 *
 * HOST is examples/host.c with the address sanitizer, which watches its stack of as
 * many entries as states are told. A FILE is a rule strip (.rul), or has vectors,
 * whose rules and texts are taken. Each rule is decided with c = 64 and P = 255, as
 * the host does; of a tree that is shown the nodes on its longest downward path are
 * counted here, from the bits of the strip alone. They must be fewer than the states
 * told, and the host must end well and write a line for each node. The rule of the
 * deepest tree that has just one node fewer is left in FOLDER/deepest.rul. It prints
 * what fails and a count, and ends with status 1 if anything failed. */
#define _DEFAULT_SOURCE
#include "request.h"

enum { MOST_RULES = 1 << 14 };
static struct strip *tried[MOST_RULES];
static unsigned rules, trees, reached, failed, deepest, deepest_reached;
static const char *host, *folder;
static uint8_t *workspace;

static unsigned take_bit(const uint8_t *tree, size_t *at)
{
    unsigned bit = tree[*at / 8] >> (7 - *at % 8) & 1u;
    ++*at;
    return bit;
}

/* The nodes on the longest downward path of the tree at a bit place, which moves
 * behind the tree. */
static unsigned deep_at(const uint8_t *tree, size_t *at, unsigned n)
{
    if (take_bit(tree, at) == 0)
        return 0;
    *at += n;
    unsigned first = deep_at(tree, at, n), second = deep_at(tree, at, n);
    return 1 + (first > second ? first : second);
}

static bool write_rule(const char *name, const struct strip *rule, char *path, size_t room)
{
    snprintf(path, room, "%s/%s", folder, name);
    FILE *to = fopen(path, "wb");
    bool written = to && fwrite(rule->byte, 1, rule->length, to) == rule->length;
    return to && fclose(to) == 0 && written;
}

/* Whether the host ends well, and writes how many places there are and a line for each. */
static bool host_walks(const struct strip *rule, uint64_t positions)
{
    char path[1000], command[3000], line[1000];
    int told = -1;
    uint64_t lines = 0;
    if (!write_rule("rule.rul", rule, path, sizeof path))
        return false;
    snprintf(command, sizeof command, "'%s' '%s'", host, path);
    FILE *from = popen(command, "r");
    if (!from || fscanf(from, "shown, places: %d\n", &told) != 1)
        told = -1;
    while (from && fgets(line, sizeof line, from))
        lines++;
    return from && pclose(from) == 0 && told == (int)positions && lines == positions;
}

static bool is_new(const struct strip *rule)
{
    for (unsigned i = 0; i < rules; i++)
        if (tried[i]->length == rule->length && memcmp(tried[i]->byte, rule->byte, rule->length) == 0)
            return false;
    if (rules == MOST_RULES || !(tried[rules] = malloc(sizeof *rule)))
        exit(2);
    *tried[rules++] = *rule;
    return true;
}

static void try_rule(const struct strip *rule, const char *file, unsigned long number)
{
    uint8_t out[WS2S_MAX_TREE_BYTES];
    char path[1000];
    size_t at = 8;
    ws2s_rule checked = ws2s_check_rule(rule->byte, rule->length);
    if (checked.refusal || !is_new(rule))
        return;
    ws2s_verdict v = ws2s_decide(rule->byte, rule->length, WS2S_MAX_STATES, WS2S_MAX_POSITIONS, workspace,
                                 ws2s_workspace_size(checked, WS2S_MAX_STATES), out, sizeof out);
    if (v.kind != WS2S_SHOWN)
        return;
    trees++;
    unsigned deep = deep_at(out, &at, (unsigned)checked.variables);
    if (deep >= v.states || !host_walks(rule, v.positions)) {
        failed++;
        printf("depth: %s, line %lu: %u nodes on a path, %u states\n", file, number, deep, (unsigned)v.states);
    }
    if (deep > deepest)
        deepest = deep;
    if (deep + 1 != v.states)
        return;
    reached++;
    if (deep > deepest_reached) {
        deepest_reached = deep;
        if (!write_rule("deepest.rul", rule, path, sizeof path))
            exit(2);
    }
}

static void try_file(const char *file)
{
    static char line[MOST_LINE];
    static struct strip rule;
    struct request r;
    FILE *from = fopen(file, "rb");
    size_t name = strlen(file);
    if (!from) {
        perror(file);
        exit(2);
    }
    if (name > 4 && strcmp(file + name - 4, ".rul") == 0) {
        rule.length = fread(rule.byte, 1, sizeof rule.byte, from);
        try_rule(&rule, file, 0);
    } else
        for (unsigned long number = 1; fgets(line, sizeof line, from); number++) {
            line[strcspn(line, "\n")] = 0;
            if (!read_request(line, &r)) {
                printf("depth: %s, line %lu: not a request\n", file, number);
                exit(2);
            }
            rule.length = r.number[RULE];
            if (has(r.operation, TEXT))
                rule.length = ws2s_import(r.byte[TEXT], r.number[TEXT], rule.byte, sizeof rule.byte).length;
            else if (has(r.operation, RULE))
                memcpy(rule.byte, r.byte[RULE], rule.length);
            try_rule(&rule, file, number); /* no bytes are none */
        }
    fclose(from);
}

int main(int argc, char **argv)
{
    if (argc < 4 || !(workspace = malloc(WS2S_MAX_WORKSPACE)))
        return 2;
    host = argv[1];
    folder = argv[2];
    for (int i = 3; i < argc; i++)
        try_file(argv[i]);
    printf("depth: of %u rules %u are shown, all walked by the host but for %u; the deepest has %u nodes on a path; "
           "%u have one node fewer than states, the deepest of them %u\n", rules, trees, failed, deepest, reached, deepest_reached);
    return failed != 0 || reached == 0;
}
