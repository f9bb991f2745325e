/* The command ws2s: decides, judges, checks, joins and shows rule and tree strips, and
 * rules typed as text, and tells what clashes in them, by libws2s. See man/ws2s.1. */
#define _DEFAULT_SOURCE
#include "drawing.h"
#include "text.h"
#include "words.h"

#include <errno.h>
#include <getopt.h>
#include <signal.h>
#include <stdarg.h>
#include <stdbool.h>
#include <stdlib.h>
#include <string.h>
#include <sys/stat.h>

enum status { GOOD = 0, BAD = 1, LARGER = 2, REFUSED = 3, USAGE = 64, TROUBLE = 74 };

static const char help[] =
    "usage: ws2s decide [-c N] [-p N] [--outline|--hex|--strip|--dot|--svg] RULE [NAME...]\n"
    "       ws2s clash [-c N] RULE [NAME...]\n"
    "       ws2s judge [-c N] RULE TREE\n"
    "       ws2s check rule|tree FILE\n"
    "       ws2s print RULE [NAME...]\n"
    "       ws2s tree [--outline|--hex|--dot|--svg] TREE [NAME...]\n"
    "       ws2s import TEXT [-o RULE]\n"
    "       ws2s join FIRST SECOND [-o RULE]\n"
    "       ws2s --help | --version\n"
    "\n"
    "decide  show the earliest tree that satisfies a rule, or say that there is none\n"
    "clash   list requirements of a rule that nothing satisfies: together they clash,\n"
    "        and without any one of them the others can be satisfied\n"
    "judge   say whether a tree satisfies a rule\n"
    "check   say whether a file is a rule strip or a tree strip, or where it is at fault\n"
    "print   write each record of a rule in words, and mark the first bad one\n"
    "tree    show a tree\n"
    "import  write the strip of a rule typed as text, or say where the text is at fault\n"
    "join    write one strip of two rules, satisfied by what satisfies both: variables\n"
    "        with the same number are the same\n"
    "\n"
    "TREE and FILE are strips, RULE, FIRST and SECOND are strips or texts; - is\n"
    "standard input. NAMEs are what the variables are called, in order, instead of\n"
    "the names in the text or X0, X1, ...\n"
    "\n"
    "  -c N       the most states that a record may need, 1 to 64 (64)\n"
    "  -p N       the most places that the tree may have, 0 to 255 (255)\n"
    "  --outline  a place on each line, what is inside it further in (this is the default)\n"
    "  --hex      the tree strip, in hexadecimal digits\n"
    "  --strip    the tree strip itself\n"
    "  --dot      a picture for Graphviz: inside solid, beside dashed\n"
    "  --svg      the picture itself\n"
    "  -o RULE    the file that the strip is written to, instead of standard output\n"
    "\n"
    "Status: 0 shown, listed, yes or accepted; 1 none or no; 2 larger; 3 refused; 64 a\n"
    "wrong command line; 74 trouble with files, output that could not be written\n"
    "included.\n";

/* ---- What goes wrong ---- */

static enum status say(enum status status, const char *format, ...)
{
    va_list words;
    va_start(words, format);
    fputs("ws2s: ", stderr);
    vfprintf(stderr, format, words);
    fputs("\n", stderr);
    va_end(words);
    return status;
}

static enum status usage(const char *what)
{
    return say(USAGE, "%s; ws2s --help says how it is used", what);
}

static const char *title(const char *file)
{
    return strcmp(file, "-") == 0 ? "standard input" : file;
}

static enum status trouble(const char *with)
{
    return say(TROUBLE, "%s: %s", with, strerror(errno));
}

static enum status refuse(const char *file, struct refusal refusal, const struct strip *strip, const struct names *names)
{
    fprintf(stderr, "ws2s: %s: ", title(file));
    put_refusal(stderr, &refusal, strip, names);
    return REFUSED;
}

/* ---- The command line ---- */

enum form { OUTLINE = 256, HEX, STRIP, DOT, SVG, HELP };
enum { MOST_OPERANDS = 2 + WS2S_MAX_VARIABLES };

struct arguments {
    uint64_t c, p;
    enum form form;
    const char *output;
    char *operand[MOST_OPERANDS];
    unsigned operands;
};

static bool read_number(const char *word, uint64_t *value)
{
    char *end;
    *value = strtoull(word, &end, 10); /* too large a number is the largest, and refused as that */
    return word[0] >= '0' && word[0] <= '9' && *end == 0;
}

static enum status add_operand(struct arguments *a, char *word)
{
    if (a->operands == MOST_OPERANDS)
        return usage("there are too many words");
    a->operand[a->operands++] = word;
    return GOOD;
}

/* Takes the command line apart, from the word after the subcommand; options may
 * stand anywhere before "--". Those allowed are the letters c, p, o, and f for the
 * forms, with s for the strip itself. GOOD, or the status to end with; asked for
 * help, the form is HELP. */
static enum status read_arguments(struct arguments *a, int argc, char **argv, const char *allowed)
{
    static const struct option forms[] = {
        { "outline", no_argument, NULL, OUTLINE }, { "hex", no_argument, NULL, HEX },
        { "strip", no_argument, NULL, STRIP }, { "dot", no_argument, NULL, DOT },
        { "svg", no_argument, NULL, SVG }, { "help", no_argument, NULL, HELP }, { NULL, 0, NULL, 0 } };
    enum status status = GOOD;
    int option;
    opterr = 0;
    *a = (struct arguments){ .c = WS2S_MAX_STATES, .p = WS2S_MAX_POSITIONS };
    while (status == GOOD && (option = getopt_long(argc, argv, "-c:p:o:h", forms, NULL)) != -1) {
        if (option == 1)
            status = add_operand(a, optarg);
        else if (option == 'h' || option == HELP) {
            a->form = HELP;
            return GOOD;
        } else if (option == 'c' || option == 'p') {
            if (!strchr(allowed, option))
                status = usage("-c or -p is for another subcommand");
            else if (!read_number(optarg, option == 'c' ? &a->c : &a->p))
                status = usage("-c and -p take a number");
        } else if (option == 'o') {
            if (!strchr(allowed, option))
                status = usage("-o is for another subcommand");
            else if (a->output)
                status = usage("one file can be written at a time");
            a->output = optarg;
        } else if (option == '?')
            status = usage(optopt == 'c' || optopt == 'p' ? "-c and -p take a number"
                           : optopt == 'o' ? "-o takes a file" : "there is no such option");
        else if (!strchr(allowed, option == STRIP ? 's' : 'f'))
            status = usage("the form is for another subcommand");
        else if (a->form != 0)
            status = usage("one form can be had at a time");
        else
            a->form = (enum form)option;
    }
    for (; status == GOOD && optind < argc; optind++)
        status = add_operand(a, argv[optind]);
    if (a->form == 0)
        a->form = OUTLINE;
    return status;
}

/* Whether a name can stand in a picture and on a terminal. */
static bool good_name(const char *name)
{
    const uint8_t *at = (const uint8_t *)name, *end = at + strlen(name);
    bool good = at < end;
    while (good && at < end)
        good = printable(take_character(&at, end));
    return good;
}

/* The names, which are the words from this one on. */
static enum status read_names(const struct arguments *a, unsigned from, struct names *names)
{
    names->bounds = 0;
    for (names->count = 0; names->count < WS2S_MAX_VARIABLES && from < a->operands; names->count++, from++) {
        if (!good_name(a->operand[from]))
            return usage("a name must be text that can be printed");
        names->name[names->count] = a->operand[from];
    }
    return GOOD;
}

static enum status too_many_names(const struct names *names, uint64_t variables)
{
    return names->count > variables ? usage("there are more names than variables") : GOOD;
}

/* ---- Files ---- */

static FILE *open_file(const char *file)
{
    return strcmp(file, "-") == 0 ? stdin : fopen(file, "rb");
}

static void close_file(FILE *from)
{
    if (from != stdin)
        fclose(from);
}

/* Reads a strip that may have so many bytes. Of a longer one a byte more is read,
 * which is enough for its refusal. */
static enum status read_strip(const char *file, size_t most, uint8_t *bytes, struct strip *strip)
{
    FILE *from = open_file(file);
    if (!from)
        return trouble(file);
    *strip = (struct strip){ bytes, fread(bytes, 1, most + 1, from) };
    enum status status = ferror(from) ? trouble(title(file)) : GOOD;
    close_file(from);
    return status;
}

static enum status read_strip_of_rule(const char *file, struct strip *rule)
{
    static uint8_t bytes[WS2S_MAX_RULE_BYTES + 1];
    return read_strip(file, WS2S_MAX_RULE_BYTES, bytes, rule);
}

static enum status read_tree(const char *file, struct strip *tree)
{
    static uint8_t bytes[WS2S_MAX_TREE_BYTES + 1];
    return read_strip(file, WS2S_MAX_TREE_BYTES, bytes, tree);
}

/* ---- Rules, as strips and as text ---- */

/* A file with a rule: what was read of it, and the rule's strip, which is that or what
 * was written for it. */
struct source {
    const char *file;
    struct text text;
    struct strip rule;
    uint8_t beginning[WS2S_MAX_RULE_BYTES + 1], imported[WS2S_MAX_RULE_BYTES];
};

/* Whether an accepted text may begin so: with blanks and the word ws2s, or with a
 * part of that if there is no more of it. */
static bool begins_a_text(const struct text *text)
{
    static const char heading[] = "ws2s";
    size_t at = 0, same = 0;
    while (at < text->length && blank(text->byte[at]))
        at++;
    for (; at < text->length && same < strlen(heading) && text->byte[at] == heading[same]; at++)
        same++;
    return same == strlen(heading) || at == text->length;
}

/* Whether a file that begins so is taken for a text, and not for a strip. No strip
 * that is accepted is: its first byte is a control character. What is neither is
 * taken for what it looks like, so that its refusal speaks of that: for a strip if
 * it is empty or has a control character, which a text that somebody typed has not
 * unless it is in UTF-16. */
static bool looks_like_text(const struct text *text)
{
    static const uint8_t marks[] = { 0xFF, 0xFE, 0xFF };
    bool typed = text->length > 0;
    for (size_t i = 0; i < text->length; i++)
        if ((text->byte[i] < 0x20 && !blank(text->byte[i])) || text->byte[i] == 0x7F)
            typed = false;
    return typed || (text->length > 0 && begins_a_text(text))
        || (text->length > 1 && (memcmp(text->byte, marks, 2) == 0 || memcmp(text->byte, marks + 1, 2) == 0));
}

/* Reads the rest of a text, however long it is. */
static enum status read_on(FILE *from, const char *file, struct text *text)
{
    size_t room = text->length;
    uint8_t *bytes = NULL;
    do {
        uint8_t *more = room <= SIZE_MAX / 2 ? realloc(bytes, room = 2 * room) : NULL;
        if (!more) {
            free(bytes);
            errno = ENOMEM;
            return trouble(title(file));
        }
        if (!bytes)
            memcpy(more, text->byte, text->length);
        bytes = more;
        text->length += fread(bytes + text->length, 1, room - text->length, from);
    } while (text->length == room);
    *text = (struct text){ bytes, text->length, true };
    return ferror(from) ? trouble(title(file)) : GOOD;
}

/* Reads the beginning of a file, and all of it if it begins a text: of anything else
 * the beginning has what it is refused for. */
static enum status read_file(struct source *source, const char *file)
{
    struct text *text = &source->text;
    FILE *from = open_file(file);
    enum status status = GOOD;
    if (!from)
        return trouble(file);
    source->file = file;
    *text = (struct text){ source->beginning, fread(source->beginning, 1, sizeof source->beginning, from), false };
    text->whole = text->length < sizeof source->beginning;
    if (ferror(from))
        status = trouble(title(file));
    else if (!text->whole && begins_a_text(text))
        status = read_on(from, file, text);
    close_file(from);
    return status;
}

/* The strip of a text. */
static enum status import_text(struct source *source)
{
    const struct text *text = &source->text;
    ws2s_written written = ws2s_import(text->byte, text->length, source->imported, sizeof source->imported);
    source->rule = (struct strip){ source->imported, (size_t)written.length };
    if (written.refusal == 0)
        return GOOD;
    ws2s_fault fault = ws2s_text_fault(text->byte, text->length);
    fprintf(stderr, "ws2s: %s: ", title(source->file));
    put_text_refusal(stderr, text, &fault);
    return REFUSED;
}

/* A rule's strip, from a file of either kind. Of a text the names are added to those
 * given. */
static enum status read_rule(struct source *source, const char *file, struct names *names)
{
    enum status status;
    if ((status = read_file(source, file)))
        return status;
    if (!looks_like_text(&source->text)) {
        source->rule = (struct strip){ source->text.byte, source->text.length };
        return GOOD;
    }
    if ((status = import_text(source)))
        return status;
    add_names(names, &source->text, &source->rule);
    return GOOD;
}

/* ---- The subcommands ---- */

/* A rule and what its variables are called, from the words RULE [NAME...]. */
static enum status read_named_rule(const struct arguments *a, struct strip *rule, struct names *names, ws2s_rule *checked)
{
    static struct source source;
    enum status status;
    if ((status = read_names(a, 1, names)) || (status = read_rule(&source, a->operand[0], names)))
        return status;
    *rule = source.rule;
    *checked = ws2s_check_rule(rule->byte, rule->length);
    return checked->refusal == 0 ? too_many_names(names, checked->variables) : GOOD;
}

static void put_tree(const struct tree *tree, enum form form, const struct names *names)
{
    switch (form) {
    case HEX:
        for (size_t i = 0; i < tree->length; i++)
            printf("%02X", tree->byte[i]);
        printf("\n");
        break;
    case STRIP:
        fwrite(tree->byte, 1, tree->length, stdout);
        break;
    case DOT:
        put_dot(stdout, tree, names);
        break;
    case SVG:
        put_svg(stdout, tree, names);
        break;
    default:
        put_outline(stdout, tree, names);
    }
}

/* A word of a command line, as a shell takes it. */
static void put_word(FILE *to, const char *word)
{
    static const char plain[] = "ABCDEFGHIJKLMNOPQRSTUVWXYZabcdefghijklmnopqrstuvwxyz0123456789_./+,:=@%-";
    if (*word && word[strspn(word, plain)] == 0) {
        fputs(word, to);
        return;
    }
    fputc('\'', to);
    for (; *word; word++)
        fputs(*word == '\'' ? "'\\''" : (char[]){ *word, 0 }, to);
    fputc('\'', to);
}

/* How to ask what clashes in the rule that was decided. */
static void tell_clash(const struct arguments *a)
{
    bool dash = false;
    for (unsigned i = 0; i < a->operands; i++)
        dash = dash || (a->operand[i][0] == '-' && a->operand[i][1]);
    if (fflush(stdout) != 0) /* the answer comes first where both go to one file; main tells that it was not written */
        return;
    fputs("ws2s: to see which requirements clash: ws2s clash", stderr);
    if (a->c != WS2S_MAX_STATES)
        fprintf(stderr, " -c %u", (unsigned)a->c);
    if (dash)
        fputs(" --", stderr);
    for (unsigned i = 0; i < a->operands; i++) {
        fputc(' ', stderr);
        put_word(stderr, a->operand[i]);
    }
    fputc('\n', stderr);
}

static enum status decide(const struct arguments *a)
{
    uint8_t out[WS2S_MAX_TREE_BYTES];
    FILE *words = a->form == OUTLINE ? stdout : stderr; /* in other forms standard output has trees alone */
    struct strip rule;
    struct names names;
    ws2s_rule checked;
    enum status status;
    if ((status = read_named_rule(a, &rule, &names, &checked)))
        return status;
    size_t size = ws2s_workspace_size(checked, a->c);
    uint8_t *workspace = malloc(size > 0 ? size : 1);
    if (!workspace)
        return trouble("workspace");
    ws2s_verdict v = ws2s_decide(rule.byte, rule.length, a->c, a->p, workspace, size, out, sizeof out);
    free(workspace);
    switch (v.kind) {
    case WS2S_SHOWN:
        if (a->form == OUTLINE)
            printf("shown: %u place%s, %u state%s\n", (unsigned)v.positions, plural(v.positions), (unsigned)v.states,
                   plural(v.states));
        put_tree(&(struct tree){ out, v.length, v.states }, a->form, &names);
        return GOOD;
    case WS2S_NONE:
        fprintf(words, "none: no finite sets satisfy the rule\n");
        tell_clash(a);
        return BAD;
    case WS2S_LARGER:
        fprintf(words, "larger: finite sets satisfy the rule, but all of them take more than %u place%s\n", (unsigned)a->p,
                plural(a->p));
        return LARGER;
    default:
        return refuse(a->operand[0], (struct refusal){ v.refusal, v.record, v.place, false }, &rule, &names);
    }
}

static enum status clash(const struct arguments *a)
{
    struct strip rule;
    struct names names;
    ws2s_rule checked;
    enum status status;
    if ((status = read_named_rule(a, &rule, &names, &checked)))
        return status;
    size_t size = ws2s_clash_workspace_size(checked, a->c);
    uint8_t *workspace = malloc(size > 0 ? size : 1);
    if (!workspace)
        return trouble("workspace");
    ws2s_clash_list l = ws2s_clash(rule.byte, rule.length, a->c, workspace, size);
    uint8_t out[WS2S_MAX_TREE_BYTES]; /* 14 is a trial's if the rule itself is not refused so */
    bool in_trial = l.refusal == WS2S_REFUSED_STATES
                 && ws2s_decide(rule.byte, rule.length, a->c, 0, workspace, size, out, sizeof out).refusal == 0;
    free(workspace);
    if (l.kind == WS2S_REFUSED)
        return refuse(a->operand[0], (struct refusal){ l.refusal, l.record, l.place, in_trial }, &rule, &names);
    for (unsigned i = 0; i < l.count && i < WS2S_MAX_PARTS; i++) {
        printf("%u: ", (unsigned)l.parts[i]);
        put_sense(stdout, &rule, (unsigned)l.parts[i], &names);
        printf("\n");
    }
    return GOOD;
}

static bool both_standard_input(const struct arguments *a)
{
    return strcmp(a->operand[0], "-") == 0 && strcmp(a->operand[1], "-") == 0;
}

static enum status judge(const struct arguments *a)
{
    static struct names names;
    static struct source source;
    struct strip report;
    enum status status;
    if (both_standard_input(a))
        return usage("rule and tree cannot both be standard input");
    if ((status = read_rule(&source, a->operand[0], &names)) || (status = read_tree(a->operand[1], &report)))
        return status;
    struct strip rule = source.rule;
    size_t size = ws2s_workspace_size(ws2s_check_rule(rule.byte, rule.length), a->c);
    uint8_t *workspace = malloc(size > 0 ? size : 1);
    if (!workspace)
        return trouble("workspace");
    ws2s_judgement j = ws2s_judge(rule.byte, rule.length, a->c, workspace, size, report.byte, report.length);
    bool of_tree = j.refusal >= WS2S_REFUSED_TREE_SHORT;
    free(workspace);
    switch (j.kind) {
    case WS2S_YES:
        printf("yes: the tree satisfies the rule\n");
        return GOOD;
    case WS2S_NO:
        printf("no: the tree does not satisfy the rule\n");
        return BAD;
    default:
        return refuse(a->operand[of_tree], (struct refusal){ j.refusal, j.record, j.place, false }, of_tree ? &report : &rule,
                      &names);
    }
}

static enum status check(const struct arguments *a)
{
    static const struct names names;
    struct strip strip;
    struct refusal refusal = { 0, 0, 0, false };
    enum status status;
    if (strcmp(a->operand[0], "rule") == 0) {
        if ((status = read_strip_of_rule(a->operand[1], &strip)))
            return status;
        ws2s_rule r = ws2s_check_rule(strip.byte, strip.length);
        refusal.number = r.refusal, refusal.place = r.place;
        if (r.refusal == 0)
            printf("accepted: %u variable%s, %u record%s\n", (unsigned)r.variables, plural(r.variables),
                   (unsigned)r.records, plural(r.records));
    } else if (strcmp(a->operand[0], "tree") == 0) {
        if ((status = read_tree(a->operand[1], &strip)))
            return status;
        ws2s_tree t = ws2s_check_tree(strip.byte, strip.length);
        refusal.number = t.refusal, refusal.place = t.place;
        if (t.refusal == 0)
            printf("accepted: %u variable%s, %u place%s\n", (unsigned)t.variables, plural(t.variables),
                   (unsigned)t.positions, plural(t.positions));
    } else {
        return usage("check is of a rule or of a tree");
    }
    return refusal.number == 0 ? GOOD : refuse(a->operand[1], refusal, &strip, &names);
}

static enum status print(const struct arguments *a)
{
    struct strip rule;
    struct names names;
    ws2s_rule checked;
    enum status status;
    if ((status = read_named_rule(a, &rule, &names, &checked)))
        return status;
    struct refusal refusal = { checked.refusal, 0, checked.place, false };
    put_rule(stdout, &rule, &refusal, &names);
    fflush(stdout); /* the records come before the sentence where both go to one file; main tells if this fails */
    return refusal.number == 0 ? GOOD : refuse(a->operand[0], refusal, &rule, &names);
}

static enum status tree(const struct arguments *a)
{
    struct strip strip;
    struct names names;
    enum status status;
    if ((status = read_names(a, 1, &names)) || (status = read_tree(a->operand[0], &strip)))
        return status;
    ws2s_tree checked = ws2s_check_tree(strip.byte, strip.length);
    if (checked.refusal != 0)
        return refuse(a->operand[0], (struct refusal){ checked.refusal, 0, checked.place, false }, &strip, &names);
    if ((status = too_many_names(&names, checked.variables)))
        return status;
    put_tree(&(struct tree){ strip.byte, strip.length, WS2S_MAX_POSITIONS }, a->form, &names);
    return GOOD;
}

/* Whether both are one file, by whatever names. */
static bool same_file(const char *input, const char *output)
{
    struct stat one, other;
    return (strcmp(input, "-") == 0 ? fstat(0, &one) : stat(input, &one)) == 0 && stat(output, &other) == 0
        && S_ISREG(one.st_mode) && one.st_dev == other.st_dev && one.st_ino == other.st_ino;
}

/* The file that a strip is written to, or NULL for standard output. */
static const char *output_file(const struct arguments *a)
{
    return a->output && strcmp(a->output, "-") != 0 ? a->output : NULL;
}

/* Whether the strip would be written over a file that it is made of. */
static bool replaces_input(const struct arguments *a)
{
    for (unsigned i = 0; output_file(a) && i < a->operands; i++)
        if (same_file(a->operand[i], output_file(a)))
            return true;
    return false;
}

static enum status write_rule(const struct arguments *a, const struct strip *rule)
{
    const char *output = output_file(a);
    FILE *to = output ? fopen(output, "wb") : stdout;
    if (!to)
        return trouble(output);
    bool written = fwrite(rule->byte, 1, rule->length, to) == rule->length;
    if (output && (fclose(to) != 0 || !written))
        return trouble(output);
    return GOOD;
}

static enum status import(const struct arguments *a)
{
    static struct source source;
    enum status status;
    if (replaces_input(a))
        return usage("the strip would replace the text");
    if ((status = read_file(&source, a->operand[0])) || (status = import_text(&source)))
        return status;
    return write_rule(a, &source.rule);
}

/* A rule that is at fault in nothing, so that one file's faults are told before the next is read. */
static enum status read_accepted_rule(struct source *source, const char *file, struct names *names)
{
    enum status status;
    if ((status = read_rule(source, file, names)))
        return status;
    ws2s_rule checked = ws2s_check_rule(source->rule.byte, source->rule.length);
    return checked.refusal == 0 ? GOOD
                                : refuse(file, (struct refusal){ checked.refusal, 0, checked.place, false }, &source->rule, names);
}

/* What two accepted rules are refused for together: their records. */
static enum status refuse_both(const struct source *first, const struct source *second, uint64_t refusal)
{
    return say(REFUSED, "%s and %s: refused %u: %s (the first has %u, the second %u); %s", title(first->file),
               title(second->file), (unsigned)refusal, ws2s_refusal_text(refusal), first->rule.byte[1], second->rule.byte[1],
               ws2s_refusal_help(refusal));
}

static enum status join(const struct arguments *a)
{
    static struct source first, second;
    static struct names of_first, of_second;
    uint8_t out[WS2S_MAX_RULE_BYTES];
    enum status status;
    if (both_standard_input(a))
        return usage("the two rules cannot both be standard input");
    if (replaces_input(a))
        return usage("the strip would replace one of the two rules");
    if ((status = read_accepted_rule(&first, a->operand[0], &of_first))
        || (status = read_accepted_rule(&second, a->operand[1], &of_second)))
        return status;
    ws2s_written joined = ws2s_join(first.rule.byte, first.rule.length, second.rule.byte, second.rule.length, out, sizeof out);
    if (joined.refusal != 0)
        return refuse_both(&first, &second, joined.refusal);
    put_differences(stderr, title(first.file), &of_first, title(second.file), &of_second);
    return write_rule(a, &(struct strip){ out, (size_t)joined.length });
}

/* ---- The command ---- */

static const struct subcommand {
    const char *name, *options; /* the options as read_arguments has them */
    unsigned least, most; /* words after the name */
    enum status (*run)(const struct arguments *);
} subcommands[] = {
    { "decide", "cpfs", 1, 1 + WS2S_MAX_VARIABLES, decide },
    { "clash", "c", 1, 1 + WS2S_MAX_VARIABLES, clash },
    { "judge", "c", 2, 2, judge },
    { "check", "", 2, 2, check },
    { "print", "", 1, 1 + WS2S_MAX_VARIABLES, print },
    { "tree", "f", 1, 1 + WS2S_MAX_VARIABLES, tree },
    { "import", "o", 1, 1, import },
    { "join", "o", 2, 2, join },
};

static enum status run(int argc, char **argv)
{
    const char *word = argc > 1 ? argv[1] : "";
    struct arguments a;
    enum status status;
    if (strcmp(word, "--help") == 0 || strcmp(word, "-h") == 0 || strcmp(word, "help") == 0)
        return fputs(help, stdout), GOOD;
    if (strcmp(word, "--version") == 0)
        return printf("ws2s %s\n", WS2S_VERSION), GOOD;
    for (size_t i = 0; i < sizeof subcommands / sizeof subcommands[0]; i++) {
        const struct subcommand *s = &subcommands[i];
        if (strcmp(word, s->name) != 0)
            continue;
        if ((status = read_arguments(&a, argc - 1, argv + 1, s->options)))
            return status;
        if (a.form == HELP)
            return fputs(help, stdout), GOOD;
        if (a.operands < s->least || a.operands > s->most)
            return usage(a.operands < s->least ? "there are too few words" : "there are too many words");
        return s->run(&a);
    }
    return usage(argc > 1 ? "there is no such subcommand" : "a subcommand is missing");
}

int main(int argc, char **argv)
{
    signal(SIGPIPE, SIG_IGN); /* a reader that has gone away is trouble to be told of */
    enum status status = run(argc, argv);
    if (ferror(stdout) || fflush(stdout) != 0)
        status = trouble("standard output");
    return status;
}
