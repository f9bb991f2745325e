#include "text.h"

#include <inttypes.h>
#include <string.h>

/* ---- Characters ---- */

unsigned long take_character(const uint8_t **at, const uint8_t *end)
{
    static const unsigned long least[] = { 0, 0x80, 0x800, 0x10000 };
    const uint8_t *byte = (*at)++;
    unsigned long value = *byte++;
    unsigned more = value < 0x80 ? 0 : value >> 5 == 6 ? 1 : value >> 4 == 14 ? 2 : value >> 3 == 30 ? 3 : 4;
    if (more == 4)
        return 0;
    value &= 0x7Fu >> more;
    for (unsigned i = 0; i < more; i++, byte++) {
        if (byte == end || *byte >> 6 != 2)
            return 0;
        value = value << 6 | (*byte & 0x3Fu);
    }
    if (value < least[more])
        return 0;
    *at = byte;
    return value;
}

bool printable(unsigned long c)
{
    return c >= 0x20 && !(c >= 0x7F && c < 0xA0) && !(c >= 0xD800 && c < 0xE000) && c != 0xFFFE && c != 0xFFFF
        && c <= 0x10FFFF;
}

/* Whether it takes a column of its own: those that turn the direction of writing or
 * take no width would let the mark stand under something else. */
static bool visible(unsigned long c)
{
    return printable(c) && !(c >= 0x200B && c <= 0x200F) && !(c >= 0x2028 && c <= 0x202E)
        && !(c >= 0x2060 && c <= 0x206F) && c != 0xFEFF;
}

static bool of_a_word(uint8_t byte)
{
    return (byte >= 'A' && byte <= 'Z') || (byte >= 'a' && byte <= 'z') || (byte >= '0' && byte <= '9');
}

bool blank(uint8_t byte)
{
    return byte == ' ' || byte == '\t' || byte == '\r' || byte == '\n';
}

/* ---- Names ---- */

static bool spells(const char *word, const uint8_t *from, size_t length)
{
    return strlen(word) == length && memcmp(word, from, length) == 0;
}

/* Reserved words are no names, so in an accepted text var1 and var2 stand before
 * declared names alone, up to the semicolon, and a quantifier before what it binds. */
void add_names(struct names *names, struct text *text, const struct strip *rule)
{
    static const char *const declaring[] = { "var1", "var2" }, *const binding[] = { "ex1", "ex2", "all1", "all2" };
    enum { NOTHING, PLACES, SETS, BOUND } next = NOTHING;
    unsigned declarations = 0, quantifiers = 0, given = names->count, bounds = bound_variables(rule, names->bound);
    for (size_t at = 0, end; at < text->length; at = end + 1) {
        for (end = at; end < text->length && of_a_word(text->byte[end]); end++)
            ;
        if (end == text->length) /* an accepted text ends in its semicolon */
            break;
        char *word = (char *)text->byte + at;
        bool closed = text->byte[end] == ';';
        if (end > at && (next == PLACES || next == SETS) && declarations < WS2S_MAX_VARIABLES) {
            text->byte[end] = 0;
            names->place[declarations] = next == PLACES;
            if (declarations++ >= given)
                names->name[names->count++] = word;
        } else if (end > at && next == BOUND && quantifiers < bounds) {
            text->byte[end] = 0;
            names->bound[quantifiers++].name = word;
            next = NOTHING;
        }
        for (unsigned i = 0; i < 2; i++)
            if (spells(declaring[i], text->byte + at, end - at))
                next = i == 0 ? PLACES : SETS;
        for (unsigned i = 0; i < 4; i++)
            if (spells(binding[i], text->byte + at, end - at))
                next = BOUND;
        if (closed)
            next = NOTHING;
    }
    names->bounds = quantifiers;
}

/* ---- Two texts ---- */

enum { QUOTED = 40 }; /* characters of a word */

/* A word of a text, of which there may be more. */
static void put_quoted(FILE *to, const uint8_t *word, size_t length, bool more)
{
    fputc('`', to);
    fwrite(word, 1, length <= QUOTED ? length : QUOTED, to);
    fputs(more || length > QUOTED ? "...`" : "`", to);
}

static void put_declared(FILE *to, const char *file, const struct names *names, unsigned variable, bool kind)
{
    const char *name = names->name[variable];
    if (kind)
        fputs(names->place[variable] ? "the place " : "the set ", to);
    put_quoted(to, (const uint8_t *)name, strlen(name), false);
    fprintf(to, " in %s", file);
}

void put_differences(FILE *to, const char *first_file, const struct names *first, const char *second_file,
                     const struct names *second)
{
    for (unsigned i = 0; i < first->count && i < second->count; i++) {
        bool names = strcmp(first->name[i], second->name[i]) != 0, kinds = first->place[i] != second->place[i];
        if (!names && !kinds)
            continue;
        fprintf(to, "ws2s: variable %u is ", i);
        put_declared(to, first_file, first, i, kinds);
        fputs(" and ", to);
        put_declared(to, second_file, second, i, kinds);
        fputs("; they are joined by number: declare ", to);
        fputs(names ? "the same names in the same order in both" : "it with var1 in both, or with var2 in both", to);
        fputs(names && kinds ? ", a place with var1 and a set with var2\n" : "\n", to);
    }
}

/* ---- Refusals ---- */

enum { WINDOW = 72, LEAD = 36 }; /* characters: of a line, before the token if it is cut there */

/* Where a token is, for a person: the line's bytes, without its end. */
struct spot {
    size_t line, from, to, start, length;
};

/* The end of the text is told where its last token ends: blanks behind that, a last
 * line end above all, would put it on a line with nothing to see. */
static struct spot spot_of(const struct text *text, const ws2s_fault *fault)
{
    struct spot s = { 1, 0, 0, (size_t)fault->start, (size_t)fault->length };
    if (s.start == text->length)
        while (s.start > 0 && blank(text->byte[s.start - 1]))
            s.start--;
    for (size_t i = 0; i < s.start; i++)
        if (text->byte[i] == '\n')
            s.line++, s.from = i + 1;
    for (s.to = s.start; s.to < text->length && text->byte[s.to] != '\n'; s.to++)
        ;
    if (s.to < text->length && s.to > s.start && text->byte[s.to - 1] == '\r')
        s.to--;
    return s;
}

/* A character of the text, and "at" after it; what would move the cursor, or is no
 * character, as a question mark. */
static void put_character(FILE *to, const uint8_t **at, const uint8_t *end)
{
    const uint8_t *from = *at;
    bool seen = visible(take_character(at, end));
    if (*from == '\t' || *from == '\r')
        fputc(*from == '\t' ? '\t' : ' ', to);
    else if (seen)
        fwrite(from, 1, (size_t)(*at - from), to);
    else
        fputc('?', to);
}

static void put_found(FILE *to, const struct text *text, const ws2s_fault *fault)
{
    const uint8_t *at = text->byte + fault->start, *end = text->byte + text->length, *after = at;
    if (at == end) {
        fputs(text->length == 0 ? "the text is empty" : "the text ends here", to);
        return;
    }
    if (fault->start == 0 && text->length >= 3 && memcmp(at, "\xEF\xBB\xBF", 3) == 0) {
        fputs("the file begins with a byte order mark: save it without one", to);
        return;
    }
    if (fault->start == 0 && text->length >= 2 && (memcmp(at, "\xFF\xFE", 2) == 0 || memcmp(at, "\xFE\xFF", 2) == 0)) {
        fputs("the file is in UTF-16: save it as UTF-8", to);
        return;
    }
    if (visible(take_character(&after, end))) {
        bool more = !text->whole && fault->start + fault->length == text->length;
        put_quoted(to, at, fault->length <= 1 ? (size_t)(after - at) : (size_t)fault->length, more);
        if (*at < 0x80)
            return;
        fputs(", ", to);
    }
    fprintf(to, "byte 0x%02X", *at);
}

/* The line, or what is around the token in a long one, and the mark below it. What
 * stands before a fault are tokens and blanks, so a byte there is a character. */
static void put_line(FILE *to, const struct text *text, const struct spot *s)
{
    size_t token = s->length > 0 ? s->length : 1, from = s->from, shown = 0;
    if (s->start - from + token > WINDOW && s->start - from > LEAD)
        from = s->start - LEAD;
    fputs(from > s->from ? "    ..." : "    ", to);
    const uint8_t *at = text->byte + from, *end = text->byte + s->to;
    for (; at < end && shown < WINDOW; shown++)
        put_character(to, &at, text->byte + text->length);
    fputs(at < end || (s->to == text->length && !text->whole) ? "...\n" : "\n", to);
    fputs(from > s->from ? "       " : "    ", to);
    for (size_t i = from; i < s->start; i++)
        fputc(text->byte[i] == '\t' ? '\t' : ' ', to);
    fputc('^', to);
    for (size_t i = 1; i < token && s->start - from + i < WINDOW; i++)
        fputc('~', to);
    fputc('\n', to);
}

void put_text_refusal(FILE *to, const struct text *text, const ws2s_fault *fault)
{
    struct spot s = spot_of(text, fault);
    bool token = fault->refusal != WS2S_REFUSED_TEXT_RECORDS;
    fprintf(to, "refused %" PRIu64, fault->refusal);
    if (token)
        fprintf(to, " at line %zu, column %zu", s.line, s.start - s.from + 1);
    fprintf(to, ": %s", ws2s_refusal_text(fault->refusal));
    if (token) {
        fputs(" (", to);
        put_found(to, text, fault);
        fputs(")", to);
    }
    fprintf(to, "; %s\n", ws2s_refusal_help(fault->refusal));
    if (token)
        put_line(to, text, &s);
}
