/* Times the library beside the oracle, an unproved C implementation of the same
 * ideas:
 *
 *     bench [-c C] [-p P] [-t SECONDS] [-v VECTORS] [-l VECTORS] [RULE|TEXT...]
 *
 * Each RULE, a file with one rule strip, is decided with the ceilings C (64) and
 * P (255) and makes a row of the table. A TEXT, a file whose name ends in .mona or
 * one of the texts made here (made:longest, made:chain, made:nests, made:open), is
 * imported. -v makes one row of all decide, judge, clash and join lines of a vector
 * file together, -l a row of each such line. Options, rules and texts count from left to
 * right. A row is run until SECONDS (0.3) have passed for each side, three times at
 * least; the shortest time counts. Both sides must answer alike, and to the texts
 * made here as they are made to be answered.
 *
 *     bench -o library|oracle [-c C] [-p P] NAME
 *
 * makes one call for a single row, a rule file, a text or a vector line given as
 * FILE:LINE, and prints nothing: a program to count instructions of. */
#define _DEFAULT_SOURCE
#include "both.h"
#include "typed.h"

#include <errno.h>
#include <sys/mman.h>
#include <time.h>
#include <unistd.h>

enum { MOST_REQUESTS = 4096, LONG_TEXT = 1 << 16, LONG_NAME = 64, LEAST_RUNS = 3 };
static const double LEAST_TIMED = 1e-3;

/* The result of a request, and the strip in out. */
struct reply {
    union result result;
    uint8_t out[WS2S_MAX_TREE_BYTES];
};

static const char *const sides[] = { "library", "oracle" };

static struct request requests[MOST_REQUESTS];
static struct strip rule;
static struct typed text; /* what is imported */
static uint8_t *workspace, out[MOST_OUT];
static uint64_t c_given = 64, p_given = 255;
static double seconds_given = 0.3;
static bool apart; /* some row's answers differed */

static void stop(const char *what, const char *why)
{
    fprintf(stderr, "bench: %s: %s\n", what, why);
    exit(2);
}

static double now(void)
{
    struct timespec t;
    clock_gettime(CLOCK_MONOTONIC, &t);
    return (double)t.tv_sec + 1e-9 * (double)t.tv_nsec;
}

/* ---- Requests ---- */

/* Whether a line is a decide, judge, clash or join request, which it then becomes. */
static bool read_line(char *line, struct request *r)
{
    line[strcspn(line, "\r\n")] = 0;
    if (strncmp(line, "decide ", 7) != 0 && strncmp(line, "judge ", 6) != 0 && strncmp(line, "clash ", 6) != 0 && strncmp(line, "join ", 5) != 0)
        return false;
    char *own = strdup(line); /* which the request needs as long as the program runs */
    return own && read_request(own, r);
}

/* The requests of a vector file, or of one line if it is not 0. */
static size_t read_vectors(const char *name, unsigned long only)
{
    static char line[MOST_LINE];
    size_t count = 0;
    FILE *file = fopen(name, "r");
    if (!file)
        stop(name, strerror(errno));
    for (unsigned long number = 1; fgets(line, sizeof line, file); number++)
        if ((only == 0 || number == only) && count < MOST_REQUESTS && read_line(line, &requests[count]))
            count++;
    fclose(file);
    return count;
}

static size_t read_rule(const char *name)
{
    FILE *file = fopen(name, "rb");
    if (!file)
        stop(name, strerror(errno));
    rule.length = fread(rule.byte, 1, sizeof rule.byte, file);
    fclose(file);
    requests[0] = (struct request){ .operation = OP_decide, .byte = { [RULE] = rule.byte },
                                    .number = { [RULE] = rule.length, [C] = c_given, [P] = p_given,
                                                [WORKSPACE] = WS2S_MAX_WORKSPACE, [OUT] = WS2S_MAX_TREE_BYTES } };
    return 1;
}

/* ---- Texts ---- */

/* A name that agrees with the others up to its last byte. */
static void put_long_name(unsigned number)
{
    char name[LONG_NAME + 1];
    memset(name, 'n', LONG_NAME - 1);
    name[LONG_NAME - 1] = (char)('a' + number);
    name[LONG_NAME] = 0;
    put_text(&text, name);
}

/* The name declared first: a search from the latest on compares all eight. */
static void put_long_atom(void)
{
    put_long_name(0);
    put_text(&text, " sub ");
    put_long_name(0);
}

/* 128 records in 32 levels, with eight long names. */
static void make_longest(void)
{
    enum { BRACKETS = WS2S_MAX_LEVELS - 1 };
    put_text(&text, "ws2s;\nvar2 ");
    for (unsigned i = 0; i < WS2S_MAX_VARIABLES; i++) {
        put_text(&text, i ? ", " : "");
        put_long_name(i);
    }
    put_text(&text, ";\n~");
    for (unsigned i = 0; i < BRACKETS; i++) {
        put_text(&text, "(");
        put_long_atom();
        put_text(&text, " & ");
    }
    put_long_atom();
    for (unsigned i = 0; i < BRACKETS; i++) {
        put_text(&text, ")");
        put_text(&text, i % 2 ? " & " : " | ");
        put_long_atom();
    }
    put_text(&text, " & ");
    put_long_atom();
    put_text(&text, ";\n");
}

static void make_chain(void)
{
    put_text(&text, "ws2s;var2 X;(X sub X)");
    while (text.length < LONG_TEXT)
        put_text(&text, "&(X sub X)");
    put_text(&text, ";");
}

static void make_nests(void)
{
    put_text(&text, "ws2s;var2 X;X sub X");
    while (text.length < LONG_TEXT) {
        put_text(&text, "&");
        for (unsigned i = 0; i < WS2S_MAX_LEVELS; i++)
            put_text(&text, "(");
        put_text(&text, "X sub X");
        for (unsigned i = 0; i < WS2S_MAX_LEVELS; i++)
            put_text(&text, ")");
    }
    put_text(&text, ";");
}

static void make_open(void)
{
    put_text(&text, "ws2s;var2 X;");
    while (text.length < LONG_TEXT)
        put_text(&text, "(");
}

static const struct {
    const char *name;
    void (*make)(void);
    uint64_t refusal, records;
} made[] = {
    { "made:longest", make_longest, 0, WS2S_MAX_RECORDS },
    { "made:chain", make_chain, WS2S_REFUSED_TEXT_RECORDS, 0 },
    { "made:nests", make_nests, WS2S_REFUSED_TEXT_RECORDS, 0 },
    { "made:open", make_open, WS2S_REFUSED_TEXT_GRAMMAR, 0 },
};

static bool is_text(const char *name)
{
    size_t length = strlen(name);
    return strncmp(name, "made:", 5) == 0 || (length > 5 && strcmp(name + length - 5, ".mona") == 0);
}

static void read_text(const char *name)
{
    text.length = 0;
    for (size_t i = 0; i < sizeof made / sizeof made[0]; i++)
        if (strcmp(name, made[i].name) == 0) {
            made[i].make();
            return;
        }
    FILE *file = fopen(name, "rb");
    if (!file)
        stop(name, strerror(errno));
    text.length = fread(text.byte, 1, sizeof text.byte, file);
    fclose(file);
}

/* The one request of a rule's or a text's name. */
static size_t read_name(const char *name)
{
    if (!is_text(name))
        return read_rule(name);
    read_text(name);
    requests[0] = (struct request){ .operation = OP_import, .byte = { [TEXT] = text.byte },
                                    .number = { [TEXT] = text.length, [OUT] = WS2S_MAX_RULE_BYTES } };
    return 1;
}

/* ---- Rows ---- */

static void ask(int side, const struct request *r, struct reply *a)
{
    uint8_t *at[ARGUMENTS] = { [WORKSPACE] = workspace, [OUT] = out };
    for (enum argument i = RULE; i <= TEXT; i++)
        at[i] = (uint8_t *)(uintptr_t)r->byte[i]; /* only read */
    memset(a, 0, sizeof *a);
    call(side == 0, r, at, &a->result);
    uint64_t length = number_at(&a->result, operations[r->operation].answer->length);
    if (length <= sizeof a->out)
        memcpy(a->out, out, length);
}

/* Whether the answer is the one that a text was made for, if it was made here. */
static bool as_made(const char *name, const ws2s_written *w)
{
    for (size_t i = 0; i < sizeof made / sizeof made[0]; i++)
        if (strcmp(name, made[i].name) == 0)
            return w->refusal == made[i].refusal && w->records == made[i].records;
    return true;
}

/* The seconds that all requests take, so many times over. */
static double time_all(int side, size_t count, unsigned times)
{
    struct reply answer;
    double begin = now();
    for (unsigned k = 0; k < times; k++)
        for (size_t i = 0; i < count; i++)
            ask(side, &requests[i], &answer);
    return now() - begin;
}

static void run_row(const char *name, size_t count)
{
    double best[2], spent[2] = { 0, 0 };
    unsigned times[2] = { 1, 1 }; /* so many that the clock's steps do not show */
    bool alike = true;
    struct reply answer[2];
    for (int i = 0; i < 2; i++)
        while ((best[i] = time_all(i, count, times[i]) / times[i]) * times[i] < LEAST_TIMED)
            times[i] *= 2;
    for (int runs = 1; runs < LEAST_RUNS || spent[0] < seconds_given || spent[1] < seconds_given; runs++)
        for (int i = 0; i < 2; i++) {
            double taken = time_all(i, count, times[i]);
            spent[i] += taken;
            if (taken / times[i] < best[i])
                best[i] = taken / times[i];
        }
    for (size_t i = 0; i < count; i++) {
        ask(0, &requests[i], &answer[0]);
        ask(1, &requests[i], &answer[1]);
        alike = alike && memcmp(&answer[0], &answer[1], sizeof answer[0]) == 0 && as_made(name, &answer[0].result.written);
    }
    const char *slash = strrchr(name, '/');
    printf("%-28s %6zu %14.2f %14.2f %8.2f%s\n", slash ? slash + 1 : name, count, 1e6 * best[0],
           1e6 * best[1], best[0] / best[1], alike ? "" : "  ANSWERS DIFFER");
    fflush(stdout);
    apart = apart || !alike;
}

static void run_lines(const char *file)
{
    static char line[MOST_LINE], name[MOST_LINE];
    unsigned long lines = 0;
    FILE *f = fopen(file, "r");
    if (!f)
        stop(file, strerror(errno));
    while (fgets(line, sizeof line, f))
        lines++;
    fclose(f);
    for (unsigned long number = 1; number <= lines; number++) {
        size_t count = read_vectors(file, number);
        snprintf(name, sizeof name, "%.*s:%lu", MOST_LINE - 32, file, number);
        if (count)
            run_row(name, count);
    }
}

/* One call for a rule file, a text or a vector line. */
static int run_once(const char *who, const char *name)
{
    char file[MOST_LINE];
    struct reply answer;
    const char *colon = is_text(name) ? NULL : strrchr(name, ':');
    size_t count;
    if (colon) {
        snprintf(file, sizeof file, "%.*s", (int)(colon - name), name);
        count = read_vectors(file, strtoul(colon + 1, NULL, 10));
    } else {
        count = read_name(name);
    }
    if (count != 1)
        stop(name, "not one decide, judge, clash or join line");
    for (int i = 0; i < 2; i++)
        if (strcmp(who, sides[i]) == 0) {
            ask(i, &requests[0], &answer);
            return 0;
        }
    stop(who, "neither library nor oracle");
    return 2;
}

int main(int argc, char **argv)
{
    const char *once = NULL;
    bool heading = false;
    workspace = mmap(NULL, WS2S_MAX_CLASH_WORKSPACE, PROT_READ | PROT_WRITE, MAP_PRIVATE | MAP_ANONYMOUS, -1, 0);
    if (workspace == MAP_FAILED)
        stop("workspace", strerror(errno));
    for (int i = 1; i < argc; i++) {
        const char *option = argv[i];
        if (option[0] == '-') {
            if (!option[1] || option[2] || ++i == argc)
                stop(option, "not an option with its value");
            switch (option[1]) {
            case 'c':
                c_given = strtoull(argv[i], NULL, 10);
                continue;
            case 'p':
                p_given = strtoull(argv[i], NULL, 10);
                continue;
            case 't':
                seconds_given = strtod(argv[i], NULL);
                continue;
            case 'o':
                once = argv[i];
                continue;
            case 'v':
            case 'l':
                break;
            default:
                stop(option, "no such option");
            }
        }
        if (once)
            return run_once(once, argv[i]);
        if (!heading) {
            memset(workspace, 1, WS2S_MAX_CLASH_WORKSPACE); /* so that no row pays for its pages */
            printf("%-28s %6s %14s %14s %8s\n", "", "calls", "library us", "oracle us", "ratio");
            heading = true;
        }
        if (option[0] != '-')
            run_row(option, read_name(option));
        else if (option[1] == 'v')
            run_row(argv[i], read_vectors(argv[i], 0));
        else
            run_lines(argv[i]);
    }
    return apart;
}
