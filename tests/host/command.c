/* Runs the command on strips and texts made at random, whole and damaged, in
 * processes of its own, built so that whatever is undefined ends it:
 *
 *     command [SEED [STRIPS]]
 *
 * Its status must be the one that the library's answer has, for every subcommand
 * and form, and a refusal's sentence must begin with the library's number and
 * place; of a rule with a bad record, print must mark the first, with the place of
 * the field that was made bad. Of requirements that clash there must be a line for
 * each that the library lists, with its number, and decide must say how to ask. Of a
 * text that is refused the sentence must have the
 * line and column of the library's token, and the mark must stand under it; nothing
 * may be written. Of one that is accepted the strip must be the library's, and the
 * names in it those that were put there. What two files are joined to must be what the
 * library joins, with a line for each number that two texts call differently; if one is
 * refused, what is said must be what is said of that file alone, the first's before the
 * second's. The same seed makes the same strips and texts. It prints what fails and a count, and ends with status 1 if anything did. */
#define _DEFAULT_SOURCE
#include "request.h"
#include "typed.h"

#include <sys/wait.h>
#include <unistd.h>

int command_main(int argc, char **argv);

enum { BROKEN = 99 };
const char *__asan_default_options(void);
const char *__ubsan_default_options(void);
const char *__asan_default_options(void) { return "exitcode=99:detect_leaks=0"; }
const char *__ubsan_default_options(void) { return "halt_on_error=1:exitcode=99"; }

/* ---- Strips ---- */

/* The first bad record of a rule, and which of its fields starts at which bit. */
struct bad {
    unsigned record;
    size_t place;
    const char *field;
};
enum { NO_RECORD = 1000 };

/* A valid rule, or one whose record "bad" is the first that is not. */
static struct bad make_bad_rule(struct strip *s)
{
    enum { OP = 0, FIRST = 4, SECOND = 11 };
    static const unsigned bad_records[][4] = { /* op, fields, which of them is at fault */
        { 9, 0, 0, OP }, { 15, 127, 127, OP }, { 0, 8, 0, FIRST }, { 2, 0, 127, SECOND }, { 3, 127, 127, FIRST },
        { 5, 127, 0, FIRST }, { 7, 127, 127, FIRST }, { 8, 0, 127, SECOND }, { 8, 8, 127, FIRST }, { 1, 0, 1, SECOND },
        { 4, 0, 64, SECOND }, { 5, 127, 1, FIRST } };
    unsigned n = 1 + below(8), m = below(20) ? 1 + below(12) : 1 + below(128), bad = below(2) ? below(m) : NO_RECORD;
    struct bad told = { bad, 0, "" };
    size_t at;
    put_heading(s, &at, n, m);
    for (unsigned i = 0; i < m; i++) {
        struct record valid = make_record(n, i);
        const unsigned *r = bad_records[below(sizeof bad_records / sizeof bad_records[0])];
        if (i == bad) {
            told.place = at + r[3];
            told.field = r[3] == OP ? "op" : r[3] == FIRST ? "first field" : "second field";
        }
        if (i == bad || (i > bad && below(3) == 0))
            put_record(s, &at, r[0], r[1], r[2]);
        else
            put_record(s, &at, valid.op, valid.first, valid.second);
    }
    return told;
}

static void damage_often(struct strip *s)
{
    for (unsigned times = below(3); times > 0; times--)
        damage(s, once_in(4) ? 400 : 4);
}

/* ---- The command ---- */

static char room[64], rule_name[80], tree_name[80], text_name[80], made_name[80], out_name[80], err_name[80];
static char said[1 << 16], complained[1 << 13];
static size_t said_length;
static unsigned long passed, failed, accepted, refused, kept, joined, differing, beyond;

static void save_bytes(const char *name, const void *bytes, size_t length)
{
    FILE *file = fopen(name, "wb");
    if (!file || fwrite(bytes, 1, length, file) != length || fclose(file) != 0)
        exit(2);
}

static void save(const char *name, const struct strip *s)
{
    save_bytes(name, s->byte, s->length);
}

static size_t load(const char *name, char *text, size_t room_for)
{
    FILE *file = fopen(name, "r");
    size_t length = file ? fread(text, 1, room_for - 1, file) : 0;
    text[length] = 0;
    if (file)
        fclose(file);
    return length;
}

/* The status of the command; what it wrote is in "said" and "complained". */
static int run(char **words)
{
    int status, count = 0;
    while (words[count])
        count++;
    fflush(stdout);
    pid_t child = fork();
    if (child < 0)
        exit(2);
    if (child == 0) {
        alarm(60);
        if (!freopen(out_name, "w", stdout) || !freopen(err_name, "w", stderr))
            _exit(BROKEN);
        exit(command_main(count, words));
    }
    if (waitpid(child, &status, 0) != child)
        exit(2);
    said_length = load(out_name, said, sizeof said);
    load(err_name, complained, sizeof complained);
    return WIFEXITED(status) ? WEXITSTATUS(status) : BROKEN;
}

/* Whether it was right; if not, what was run and said is told, and the caller tells what for. */
static bool count(bool right, char **words, int status)
{
    (right ? passed++ : failed++);
    for (int i = 0; !right && words[i]; i++)
        printf("%s ", words[i]);
    if (!right)
        printf(": status %d, said\n%s\n%s\n", status, said, complained);
    return right;
}

static void count_strip(bool right, char **words, int status, const struct strip *s)
{
    if (count(right, words, status))
        return;
    printf("for the strip ");
    for (size_t i = 0; i < s->length; i++)
        printf("%02X", s->byte[i]);
    printf("\n");
}

/* Whether decide, judge and print take a file for a text: it begins with blanks and
 * ws2s, or with no more than a part of that, or it has no control character, of its
 * first 291 bytes, or it begins with a mark of UTF-16. An empty one is a strip. */
static bool taken_for_text(const uint8_t *byte, size_t length)
{
    size_t seen = length < WS2S_MAX_RULE_BYTES + 1 ? length : WS2S_MAX_RULE_BYTES + 1, at = 0, controls = 0, rest;
    for (size_t i = 0; i < seen; i++)
        controls += byte[i] == 127 || (byte[i] < 32 && byte[i] != 9 && byte[i] != 10 && byte[i] != 13);
    while (at < seen && (byte[at] == 32 || byte[at] == 9 || byte[at] == 10 || byte[at] == 13))
        at++;
    rest = seen - at < 4 ? seen - at : 4;
    return seen > 0 && (controls == 0 || memcmp(byte + at, "ws2s", rest) == 0
                        || (seen > 1 && byte[0] + byte[1] == 0xFF + 0xFE && (byte[0] == 0xFF || byte[1] == 0xFF)));
}

/* The status, and the sentence if it is to be refused: of a longer rule the command
 * reads 291 bytes, and does not know where it ends. */
static void expect(int wanted, uint64_t refusal, uint64_t place, char **words, const struct strip *s)
{
    char sentence[80];
    int status = run(words);
    bool longer = refusal == WS2S_REFUSED_RULE_LENGTH && place > 8 * WS2S_MAX_RULE_BYTES;
    if (has_place(refusal))
        snprintf(sentence, sizeof sentence, ": refused %d at bit %d%s: ", (int)refusal,
                 longer ? 8 * (WS2S_MAX_RULE_BYTES + 1) : (int)place, longer ? " or later" : "");
    else
        snprintf(sentence, sizeof sentence, ": refused %d: ", (int)refusal);
    count_strip(status == wanted && (refusal == 0 || strstr(complained, sentence)), words, status, s);
}

#define WORDS(...) ((char *[]){ (char *)"ws2s", __VA_ARGS__, NULL })
static char *const forms[] = { (char *)"--outline", (char *)"--hex", (char *)"--dot", (char *)"--svg" };

static void try_mark(const struct strip *s, const struct bad *bad, uint64_t refusal)
{
    char start[40], mark[80], *at = strstr(said, "   <- refused "), *line = at;
    bool right;
    if (bad->record == NO_RECORD) {
        right = (at != NULL) == (refusal >= WS2S_REFUSED_OP && refusal <= WS2S_REFUSED_UNUSED);
    } else {
        snprintf(start, sizeof start, "\n%u: ", bad->record);
        snprintf(mark, sizeof mark, "   <- refused %d at bit %zu (%s)\n", (int)refusal, bad->place, bad->field);
        while (line && line > said && *line != '\n')
            line--;
        right = at && strncmp(line, start, strlen(start)) == 0 && strncmp(at, mark, strlen(mark)) == 0
             && !strstr(at + strlen(mark), "<- refused");
    }
    count_strip(right, WORDS((char *)"print", rule_name), (int)bad->record, s);
}

/* A line for each part, with its number and something said of it, in brackets that close. */
static bool lists(const ws2s_clash_list *list)
{
    const char *at = said;
    for (unsigned i = 0; i < list->count; i++) {
        char *end;
        int open = 0;
        if (strtoul(at, &end, 10) != list->parts[i] || end == at || strncmp(end, ": ", 2) != 0 || end[2] <= ' ')
            return false;
        for (at = end; *at && *at != '\n' && open >= 0; at++)
            open += (*at == '(') - (*at == ')');
        if (open != 0 || *at++ != '\n')
            return false;
    }
    return *at == 0 && !*complained;
}

/* The rule in a file: a strip, or a text that was imported to it. */
static void try_clash(const struct strip *s, char *name)
{
    static uint8_t workspace[(WS2S_MAX_RECORDS + 15) << WS2S_MAX_VARIABLES << 3 << 3], out[WS2S_MAX_TREE_BYTES];
    ws2s_clash_list list = ws2s_clash(s->byte, s->length, 8, workspace, sizeof workspace);
    ws2s_verdict v = ws2s_decide(s->byte, s->length, 8, 0, workspace, sizeof workspace, out, sizeof out);
    char **words = WORDS((char *)"clash", (char *)"-c", (char *)"8", name);
    expect(list.kind == WS2S_KEPT ? 0 : 3, list.refusal, list.place, words, s);
    if (list.kind == WS2S_KEPT) {
        count_strip(lists(&list), words, 0, s);
        kept++;
    } else if (!once_in(8)) {
        return;
    }
    words = WORDS((char *)"decide", (char *)"-c", (char *)"8", (char *)"-p", (char *)"0", name);
    int status = run(words);
    char asks[200];
    snprintf(asks, sizeof asks, "ws2s: to see which requirements clash: ws2s clash -c 8 %s\n", name);
    count_strip((v.kind == WS2S_NONE) == (strcmp(complained, asks) == 0), words, status, s);
}

static void try_rule(const struct strip *s, const struct bad *bad)
{
    static uint8_t workspace[128 << 8 << 2 << 2], out[WS2S_MAX_TREE_BYTES];
    static const int statuses[] = { [WS2S_SHOWN] = 0, [WS2S_NONE] = 1, [WS2S_LARGER] = 2, [WS2S_REFUSED] = 3 };
    ws2s_rule checked = ws2s_check_rule(s->byte, s->length);
    ws2s_verdict v = ws2s_decide(s->byte, s->length, 4, 3, workspace, sizeof workspace, out, sizeof out);
    int status = checked.refusal == 0 ? 0 : 3;
    save(rule_name, s);
    expect(status, checked.refusal, checked.place, WORDS((char *)"check", (char *)"rule", rule_name), s);
    if (taken_for_text(s->byte, s->length))
        return;
    expect(status, checked.refusal, checked.place, WORDS((char *)"print", rule_name), s);
    try_mark(s, bad, checked.refusal);
    expect(statuses[v.kind], v.refusal, v.place,
           WORDS((char *)"decide", (char *)"-c", (char *)"4", (char *)"-p", (char *)"3", forms[below(4)], rule_name), s);
    try_clash(s, rule_name);
}

static void try_tree(const struct strip *rule, const struct strip *s)
{
    static uint8_t workspace[128 << 8 << 2 << 2];
    static const int statuses[] = { [WS2S_NO] = 1, [WS2S_YES] = 0, [WS2S_REFUSED] = 3 };
    ws2s_tree checked = ws2s_check_tree(s->byte, s->length);
    int status = checked.refusal == 0 ? 0 : 3;
    ws2s_judgement j = ws2s_judge(rule->byte, rule->length, 4, workspace, sizeof workspace, s->byte, s->length);
    save(tree_name, s);
    expect(status, checked.refusal, checked.place, WORDS((char *)"check", (char *)"tree", tree_name), s);
    expect(status, checked.refusal, checked.place, WORDS((char *)"tree", tree_name, forms[below(4)]), s);
    if (!taken_for_text(rule->byte, rule->length))
        expect(statuses[j.kind], j.refusal, j.place, WORDS((char *)"judge", (char *)"-c", (char *)"4", rule_name, tree_name), s);
}

/* ---- Texts ---- */

static void spoil_text(struct typed *t)
{
    static const char *const pieces[] = { "x", "X sub", " = ", "(", ")", "~", ";", ",", ":", ".0", ".1", ".", "<", "<=>", "ex1 ", "root",
        "\xC3\xA9", "\xE2\x80\x8B", "\xFF", "\033[2J", "_", "7", "var1 ", "ws2s", "\n", "\r\n", "\t", "notAName" };
    size_t at = below((unsigned)t->length + 1), length, gone;
    switch (below(5)) {
    case 0:
        t->length = at;
        break;
    case 1:
        if (at < t->length)
            t->byte[at] = (uint8_t)below(256);
        break;
    case 2:
        gone = below(12);
        if (at + gone <= t->length) {
            memmove(t->byte + at, t->byte + at + gone, t->length - at - gone);
            t->length -= gone;
        }
        break;
    default: {
        const char *piece = pieces[below(sizeof pieces / sizeof pieces[0])];
        length = strlen(piece);
        if (t->length + length + 4 > MOST_TYPED)
            return;
        memmove(t->byte + at + length, t->byte + at, t->length - at);
        memcpy(t->byte + at, piece, length);
        t->length += length;
    }
    }
}

static void count_text(bool right, char **words, int status, const struct typed *t)
{
    if (count(right, words, status))
        return;
    printf("for the text\n");
    fwrite(t->byte, 1, t->length, stdout);
    printf("\n");
}

static bool between_tokens(uint8_t byte)
{
    return byte == ' ' || byte == '\t' || byte == '\r' || byte == '\n';
}

/* What the command may show for a byte of the text; of one above 127 that byte. */
static bool shows(char shown, uint8_t byte)
{
    if (byte == '\r' || byte == '\t' || (byte >= 32 && byte < 127))
        return shown == (byte == '\r' ? ' ' : (char)byte);
    return shown == '?' || (byte > 127 && (uint8_t)shown == byte);
}

/* The line that is shown and the mark below it, which is under the token: from
 * there back and for the token itself the line has the text's bytes. */
static bool marks(const struct typed *t, const ws2s_fault *fault, size_t at, const char *line, const char *mark)
{
    size_t before = strspn(mark, " \t"), long_mark = 1 + strspn(mark + before + (mark[before] != 0), "~");
    size_t length = (size_t)(mark - line) - 1, back = 0;
    bool cut = strncmp(line, "    ...", 7) == 0;
    if (mark[before] != '^' || strcmp(mark + before + long_mark, "\n") != 0 || long_mark != (fault->length > 0 ? fault->length : 1))
        return false;
    for (; back < before - (cut ? 7 : 4); back++)
        if (at == back || !shows(line[before - back - 1], t->byte[at - back - 1]) || (mark[before - back - 1] == '\t') != (line[before - back - 1] == '\t'))
            return false;
    if (!cut && at > back && t->byte[at - back - 1] != '\n')
        return false;
    if (fault->length == 0)
        return strspn(line + before, " \t\n") >= length - before + 1;
    for (size_t i = 0; i < fault->length; i++)
        if (before + i >= length || !shows(line[before + i], t->byte[at + i]))
            return false;
    return true;
}

/* The sentence has the number, line and column, and the mark is right. */
static bool complains_right(const struct typed *t)
{
    ws2s_fault fault = ws2s_text_fault(t->byte, t->length);
    size_t at = fault.start, line = 1, column = 1;
    char start[160];
    for (const char *c = complained; *c; c++)
        if (((uint8_t)*c < 32 && *c != '\n' && *c != '\t') || *c == 127)
            return false;
    const char *shown = strchr(complained, '\n'), *mark = shown ? strchr(shown + 1, '\n') : NULL;
    if (fault.refusal == WS2S_REFUSED_TEXT_RECORDS) {
        snprintf(start, sizeof start, "ws2s: %s: refused 26: ", text_name);
        return strncmp(complained, start, strlen(start)) == 0 && shown && shown[1] == 0;
    }
    if (at == t->length) /* the end of the text is told where its last token ends */
        while (at > 0 && between_tokens(t->byte[at - 1]))
            at--;
    for (size_t i = 0; i < at; i++)
        if (t->byte[i] == '\n')
            line++, column = 1;
        else
            column++;
    snprintf(start, sizeof start, "ws2s: %s: refused %d at line %zu, column %zu: ", text_name, (int)fault.refusal, line, column);
    return strncmp(complained, start, strlen(start)) == 0 && mark && marks(t, &fault, at, shown + 1, mark + 1);
}

/* Whether what was said is the strip's listing, with the names of the text: by their
 * numbers they are its variables, and in the records of atoms, which stand in the
 * order of the text, they are the names that stand there. */
static bool names_right(const char *of_strip)
{
    static char numbered[sizeof said], atoms[sizeof said];
    size_t length = 0, named = 0;
    bool atom = true;
    for (const char *c = said; *c;) {
        char *end;
        unsigned long name = (*c == 'p' || *c == 'S') && c[1] >= '0' && c[1] <= '9' ? strtoul(c + 1, &end, 10) : MOST_OWN;
        if (*c == '\n')
            atom = true;
        if (strncmp(c, "Sing", 4) == 0 || strncmp(c, "exists", 6) == 0)
            atom = false;
        if (*c == 'X' || length + 16 > sizeof numbered)
            return false;
        if (name < making.owned && making.own[name].first_order == (*c == 'p')) {
            length += (size_t)sprintf(numbered + length, "X%u", making.own[name].variable);
            if (atom)
                named += (size_t)sprintf(atoms + named, "%.*s ", (int)(end - c), c);
            c = end;
        } else {
            numbered[length++] = *c++;
        }
    }
    numbered[length] = atoms[named] = 0;
    return strcmp(numbered, of_strip) == 0 && strcmp(atoms, making.in_atoms) == 0;
}

/* "whole" says that the text is as it was made, with each name for one variable. */
static void try_text(const struct typed *t, bool whole)
{
    static char of_strip[sizeof said], made[400];
    static uint8_t workspace[128 << 8 << 2 << 2], tree[WS2S_MAX_TREE_BYTES];
    static const int statuses[] = { [WS2S_SHOWN] = 0, [WS2S_NONE] = 1, [WS2S_LARGER] = 2, [WS2S_REFUSED] = 3 };
    static const char before[] = "what was there before";
    uint8_t strip[WS2S_MAX_RULE_BYTES];
    ws2s_written w = ws2s_import(t->byte, t->length, strip, sizeof strip);
    bool good = w.refusal == 0;
    (good ? accepted++ : refused++);
    save_bytes(text_name, t->byte, t->length);
    save_bytes(made_name, before, strlen(before));

    char **words = WORDS((char *)"import", text_name, (char *)"-o", made_name);
    int status = run(words);
    size_t length = load(made_name, made, sizeof made);
    count_text(said_length == 0 && (good ? status == 0 && !*complained && length == w.length && memcmp(made, strip, length) == 0
                                         : status == 3 && complains_right(t) && strcmp(made, before) == 0), words, status, t);
    words = WORDS((char *)"import", text_name);
    status = run(words);
    count_text(good ? status == 0 && said_length == w.length && memcmp(said, strip, said_length) == 0
                    : status == 3 && said_length == 0 && complains_right(t), words, status, t);
    if (!taken_for_text(t->byte, t->length))
        return;

    if (good) { /* the strip's listing: what the text's is held to */
        words = WORDS((char *)"print", made_name);
        count_text(run(words) == 0, words, 0, t);
        memcpy(of_strip, said, said_length + 1);
    }
    words = WORDS((char *)"print", text_name);
    status = run(words);
    count_text(good ? status == 0 && (!whole || names_right(of_strip))
                    : status == 3 && said_length == 0 && complains_right(t), words, status, t);
    if (good) {
        words = WORDS((char *)"print", text_name, (char *)"X0", (char *)"X1", (char *)"X2", (char *)"X3", (char *)"X4", (char *)"X5",
                      (char *)"X6", (char *)"X7");
        words[3 + w.variables] = NULL;
        status = run(words);
        count_text(status == 0 && strcmp(said, of_strip) == 0, words, status, t);
    }
    words = WORDS((char *)"decide", (char *)"-c", (char *)"4", (char *)"-p", (char *)"3", forms[below(4)], text_name);
    status = run(words);
    if (good) {
        ws2s_verdict v = ws2s_decide(strip, w.length, 4, 3, workspace, sizeof workspace, tree, sizeof tree);
        count_text(status == statuses[v.kind] && (v.kind != WS2S_REFUSED || strstr(complained, ": refused 14: ")), words, status, t);
        struct strip imported = { .length = w.length };
        memcpy(imported.byte, strip, w.length);
        try_clash(&imported, text_name);
    } else {
        count_text(status == 3 && said_length == 0 && complains_right(t), words, status, t);
    }
}

/* ---- Two rules ---- */

/* A file to be joined: whether it is a text, the strip that the library has for it if
 * that is good, and else what the command says of the file alone. */
struct side {
    char name[80];
    struct typed file;
    bool text, good;
    struct strip rule;
    char alone[sizeof complained];
};

static void make_side(struct side *s)
{
    if (!once_in(3)) {
        make_typed(&s->file);
    } else {
        if (once_in(2))
            make_plain_rule(&s->rule, some_variables(), 40 + below(80), 0, NULL);
        else
            make_any_rule(&s->rule);
        if (once_in(4))
            damage_often(&s->rule);
        s->file.length = s->rule.length;
        memcpy(s->file.byte, s->rule.byte, s->rule.length);
    }
    save_bytes(s->name, s->file.byte, s->file.length);
    s->text = taken_for_text(s->file.byte, s->file.length);
    if (s->text) {
        ws2s_written w = ws2s_import(s->file.byte, s->file.length, s->rule.byte, WS2S_MAX_RULE_BYTES);
        s->rule.length = w.length;
        s->good = w.refusal == 0;
    } else {
        s->good = ws2s_check_rule(s->file.byte, s->file.length).refusal == 0;
    }
    if (s->good)
        return;
    run(s->text ? WORDS((char *)"import", s->name) : WORDS((char *)"check", (char *)"rule", s->name));
    memcpy(s->alone, complained, sizeof complained);
}

/* The name that an accepted text declares for a variable, and whether that is a place. */
static bool declares(const struct side *s, unsigned variable, struct token *name, bool *place)
{
    const struct typed *t = &s->file;
    uint8_t order = 0;
    for (size_t at = 0, end; s->text && at < t->length; at = end + 1) {
        for (end = at; end < t->length && is_word_byte(t->byte[end]); end++)
            ;
        *name = (struct token){ (const char *)t->byte + at, end - at };
        *place = order == '1';
        if (same_token(*name, word_of("var1")) || same_token(*name, word_of("var2")))
            order = t->byte[at + 3];
        else if (order && end > at && variable-- == 0)
            return true;
        if (end < t->length && t->byte[end] == ';')
            order = 0;
    }
    return false;
}

/* What is to be said of two texts: the beginning of each line, up to what to do. */
static bool tells_differences(const struct side *one, const struct side *other)
{
    const char *at = complained;
    struct token name[2];
    bool place[2];
    for (unsigned i = 0; declares(one, i, &name[0], &place[0]) && declares(other, i, &name[1], &place[1]); i++) {
        char line[400];
        bool kinds = place[0] != place[1];
        if (!kinds && same_token(name[0], name[1]))
            continue;
        int length = snprintf(line, sizeof line, "ws2s: variable %u is ", i);
        for (unsigned k = 0; k < 2; k++)
            length += snprintf(line + length, sizeof line - (size_t)length, "%s%s`%.*s%s` in %s%s", k ? " and " : "",
                               !kinds ? "" : place[k] ? "the place " : "the set ", name[k].length > 40 ? 40 : (int)name[k].length,
                               name[k].at, name[k].length > 40 ? "..." : "", (k ? other : one)->name,
                               k ? "; they are joined by number: declare " : "");
        if (strncmp(at, line, (size_t)length) != 0 || !(at = strchr(at, '\n')))
            return false;
        at++;
        differing++;
    }
    return *at == 0;
}

static void try_join(struct side *one, struct side *other)
{
    static const char before[] = "what was there before";
    static char made[400];
    uint8_t out[WS2S_MAX_RULE_BYTES];
    char start[240];
    make_side(one);
    make_side(other);
    save_bytes(made_name, before, strlen(before));
    char **words = WORDS((char *)"join", one->name, (char *)"-o", made_name, other->name);
    int status = run(words);
    size_t length = load(made_name, made, sizeof made);
    bool right = said_length == 0, kept_file = strcmp(made, before) == 0;
    if (!one->good || !other->good) {
        right = right && status == 3 && kept_file && strcmp(complained, one->good ? other->alone : one->alone) == 0;
    } else {
        ws2s_written w = ws2s_join(one->rule.byte, one->rule.length, other->rule.byte, other->rule.length, out, sizeof out);
        snprintf(start, sizeof start, "ws2s: %s and %s: refused %d: ", one->name, other->name, (int)w.refusal);
        if (w.refusal == 0)
            right = right && status == 0 && length == w.length && memcmp(made, out, length) == 0 && tells_differences(one, other);
        else
            right = right && status == 3 && kept_file && strncmp(complained, start, strlen(start)) == 0;
        (w.refusal == 0 ? joined++ : beyond++);
    }
    count_text(right, words, status, &one->file);
    if (!right)
        count_text(false, words, status, &other->file);
}

int main(int argc, char **argv)
{
    static struct side one, other;
    static struct strip rule, tree;
    static struct typed text;
    chance_state = argc > 1 ? strtoull(argv[1], NULL, 10) : 1;
    unsigned long strips = argc > 2 ? strtoul(argv[2], NULL, 10) : 1000;
    const char *temporary = getenv("TMPDIR");
    snprintf(room, sizeof room, "%s/ws2s.XXXXXX", temporary && strlen(temporary) < 48 ? temporary : "/tmp");
    if (!mkdtemp(room))
        return 2;
    snprintf(rule_name, sizeof rule_name, "%s/rule", room);
    snprintf(tree_name, sizeof tree_name, "%s/tree", room);
    snprintf(text_name, sizeof text_name, "%s/text", room);
    snprintf(made_name, sizeof made_name, "%s/made", room);
    snprintf(one.name, sizeof one.name, "%s/one", room);
    snprintf(other.name, sizeof other.name, "%s/other", room);
    snprintf(out_name, sizeof out_name, "%s/out", room);
    snprintf(err_name, sizeof err_name, "%s/err", room);
    for (unsigned long i = 0; i < strips && failed < 10; i++) {
        struct bad bad = make_bad_rule(&rule);
        make_any_tree(&tree, 1 + below(8));
        if (once_in(3)) {
            make_clashing_rule(&rule);
            bad.record = NO_RECORD;
        }
        if (below(2)) {
            damage_often(&rule);
            bad.record = NO_RECORD;
        }
        if (below(2))
            damage_often(&tree);
        try_rule(&rule, &bad);
        try_tree(&rule, &tree);
        make_named(&text);
        bool whole = below(2);
        for (unsigned times = whole ? 0 : 1 + below(2); times > 0; times--)
            spoil_text(&text);
        try_text(&text, whole);
        try_join(&one, &other);
    }
    remove(rule_name);
    remove(tree_name);
    remove(text_name);
    remove(made_name);
    remove(one.name);
    remove(other.name);
    remove(out_name);
    remove(err_name);
    rmdir(room);
    printf("the command on strips and texts at random: %lu passed, %lu failed (%lu texts accepted, %lu refused, %lu lists, %lu joined, "
           "%lu with too many records, %lu names that differ)\n", passed, failed, accepted, refused, kept, joined, beyond, differing);
    return failed || accepted < strips / 4 || refused < strips / 4 || kept < strips / 100 || joined < strips / 8 || beyond < strips / 100
        || differing < strips / 50;
}
