/* The oracle's importer: reads a rule typed as text by recursive descent, keeping
 * the records it makes, and packs them once the whole text is found good. */
#include "oracle.h"
#include "atom.h"

#include <stdbool.h>
#include <string.h>

enum { NOT = ATOMS, OR, AND, EXISTS };
enum { MOST_TRACKS = 8, MOST_RECORDS = 128, MOST_DEPTH = 32, MOST_RULE_BYTES = 290 };
enum { GRAMMAR = 23, NAMES = 24, TRACKS = 25, RECORDS = 26, OUT = 27 };

/* ---- Tokens ---- */

enum token {
    HEADING, VAR1, VAR2, EX1, EX2, ALL1, ALL2, SUB, IN, ROOT_WORD, NAME,
    SEMICOLON, COMMA, COLON, OPEN, CLOSE, TILDE, AMPERSAND, BAR, IMPLIES, EQUIVALENT, EQUALS, BRANCH_1, BRANCH_2,
    END,    /* of the text */
    STRAY,  /* a byte that starts no token */
    STOPPED /* after a fault: fits nowhere, so that every reader returns */
};

struct span {
    size_t start, length;
};

struct reader {
    const uint8_t *text;
    size_t length;
    enum token token; /* the token at hand, and where it stands */
    struct span at;
    ws2s_fault fault;
    /* the names alive, by track: those declared, then those of the quantifiers around */
    struct {
        struct span span;
        bool first_order;
    } name[MOST_TRACKS];
    unsigned alive, free, tracks, depth; /* tracks: as many as were ever alive at once */
    struct {
        uint8_t op, first, second;
    } record[MOST_RECORDS];
    uint64_t records; /* all that the text asks for, kept or not */
};

static bool is_letter(uint8_t byte)
{
    return (byte >= 'a' && byte <= 'z') || (byte >= 'A' && byte <= 'Z');
}

static bool is_digit(uint8_t byte)
{
    return byte >= '0' && byte <= '9';
}

static bool is_separator(uint8_t byte)
{
    return byte == ' ' || byte == '\t' || byte == '\r' || byte == '\n';
}

static enum token word_token(const uint8_t *word, size_t length)
{
    switch (length) {
    case 2:
        return memcmp(word, "in", 2) == 0 ? IN : NAME;
    case 3:
        return memcmp(word, "ex1", 3) == 0 ? EX1
             : memcmp(word, "ex2", 3) == 0 ? EX2
             : memcmp(word, "sub", 3) == 0 ? SUB : NAME;
    case 4:
        return memcmp(word, "all1", 4) == 0 ? ALL1
             : memcmp(word, "all2", 4) == 0 ? ALL2
             : memcmp(word, "var1", 4) == 0 ? VAR1
             : memcmp(word, "var2", 4) == 0 ? VAR2
             : memcmp(word, "root", 4) == 0 ? ROOT_WORD
             : memcmp(word, "ws2s", 4) == 0 ? HEADING : NAME;
    default:
        return NAME;
    }
}

/* Whether the text goes on with this byte at a place. */
static bool follows(const struct reader *r, size_t at, uint8_t byte)
{
    return at < r->length && r->text[at] == byte;
}

/* The token that starts at a place within the text; its length goes to *length. */
static enum token token_at(const struct reader *r, size_t at, size_t *length)
{
    *length = 1;
    switch (r->text[at]) {
    case ';': return SEMICOLON;
    case ',': return COMMA;
    case ':': return COLON;
    case '(': return OPEN;
    case ')': return CLOSE;
    case '~': return TILDE;
    case '&': return AMPERSAND;
    case '|': return BAR;
    case '=':
        if (!follows(r, at + 1, '>'))
            return EQUALS;
        *length = 2;
        return IMPLIES;
    case '<':
        if (!follows(r, at + 1, '=') || !follows(r, at + 2, '>'))
            return STRAY;
        *length = 3;
        return EQUIVALENT;
    case '.':
        if (!follows(r, at + 1, '0') && !follows(r, at + 1, '1'))
            return STRAY;
        *length = 2;
        return r->text[at + 1] == '0' ? BRANCH_1 : BRANCH_2;
    }
    if (!is_letter(r->text[at]))
        return STRAY;
    size_t end = at + 1;
    while (end < r->length && (is_letter(r->text[end]) || is_digit(r->text[end])))
        end++;
    *length = end - at;
    return word_token(r->text + at, end - at);
}

/* Goes on to the next token. */
static void advance(struct reader *r)
{
    size_t at = r->at.start + r->at.length;
    while (at < r->length && is_separator(r->text[at]))
        at++;
    r->at = (struct span){ at, 0 };
    r->token = at < r->length ? token_at(r, at, &r->at.length) : END;
}

/* ---- Faults ---- */

/* Stops at a fault. One is met before any that lies later in the text, so the first is kept. */
static void stop(struct reader *r, unsigned refusal, struct span at)
{
    if (!r->fault.refusal)
        r->fault = (ws2s_fault){ refusal, at.start, at.length };
    r->token = STOPPED;
}

static bool take(struct reader *r, enum token token)
{
    if (r->token != token) {
        stop(r, GRAMMAR, r->at);
        return false;
    }
    advance(r);
    return true;
}

/* Opens a level at the token at hand and goes on behind it. */
static bool open_level(struct reader *r)
{
    if (r->depth == MOST_DEPTH) {
        stop(r, GRAMMAR, r->at);
        return false;
    }
    r->depth++;
    advance(r);
    return true;
}

/* ---- Names and records ---- */

/* The track of the innermost name that reads so; -1 if there is none. */
static int track_of(const struct reader *r, struct span name)
{
    for (int track = (int)r->alive - 1; track >= 0; track--) {
        struct span other = r->name[track].span;
        if (other.length == name.length && memcmp(r->text + other.start, r->text + name.start, name.length) == 0)
            return track;
    }
    return -1;
}

/* Gives the name at hand the next track and goes on behind it. */
static bool bring_to_life(struct reader *r, bool first_order)
{
    if (r->alive == MOST_TRACKS) {
        stop(r, TRACKS, r->at);
        return false;
    }
    r->name[r->alive].span = r->at;
    r->name[r->alive].first_order = first_order;
    if (++r->alive > r->tracks)
        r->tracks = r->alive;
    advance(r);
    return true;
}

/* Makes a record; its number. */
static unsigned add(struct reader *r, unsigned op, unsigned first, unsigned second)
{
    if (r->records < MOST_RECORDS) {
        r->record[r->records].op = (uint8_t)op;
        r->record[r->records].first = (uint8_t)first;
        r->record[r->records].second = (uint8_t)second;
    }
    return (unsigned)r->records++;
}

/* ---- Formulas: each reader returns the number of its formula's last record ---- */

static unsigned read_formula(struct reader *r);

/* The track of the name at hand, which must be of this order; goes on behind it. */
static unsigned read_name(struct reader *r, bool first_order)
{
    int track = r->token == NAME ? track_of(r, r->at) : -1;
    if (r->token != NAME)
        stop(r, GRAMMAR, r->at);
    else if (track < 0 || r->name[track].first_order != first_order)
        stop(r, NAMES, r->at);
    else
        advance(r);
    return (unsigned)track;
}

static unsigned read_atom(struct reader *r)
{
    struct span left = r->at;
    int track = track_of(r, left);
    if (track < 0) {
        stop(r, NAMES, left);
        return 0;
    }
    advance(r);
    enum token relation = r->token;
    if (relation != SUB && relation != IN && relation != EQUALS) {
        stop(r, GRAMMAR, r->at);
        return 0;
    }
    if (r->name[track].first_order != (relation != SUB)) {
        stop(r, NAMES, left);
        return 0;
    }
    advance(r);
    if (relation == EQUALS && r->token == ROOT_WORD) {
        advance(r);
        return add(r, ROOT, (unsigned)track, 0);
    }
    unsigned op = SUBSET, right = read_name(r, relation == EQUALS);
    if (relation == EQUALS && (r->token == BRANCH_1 || r->token == BRANCH_2)) {
        op = r->token == BRANCH_1 ? FIRST : SECOND;
        advance(r);
    }
    return add(r, op, (unsigned)track, right);
}

static unsigned read_quantified(struct reader *r)
{
    bool first_order = r->token == EX1 || r->token == ALL1, all = r->token == ALL1 || r->token == ALL2;
    unsigned track = r->alive;
    if (!open_level(r))
        return 0;
    if (r->token != NAME) {
        stop(r, GRAMMAR, r->at);
        return 0;
    }
    if (!bring_to_life(r, first_order) || !take(r, COLON))
        return 0;
    unsigned part = read_formula(r);
    r->depth--;
    r->alive--;
    if (all)
        part = add(r, NOT, part, 0);
    if (first_order)
        part = add(r, AND, add(r, SING, track, 0), part);
    part = add(r, EXISTS, track, part);
    return all ? add(r, NOT, part, 0) : part;
}

static unsigned read_factor(struct reader *r)
{
    unsigned part = 0;
    switch (r->token) {
    case NAME:
        return read_atom(r);
    case EX1: case EX2: case ALL1: case ALL2:
        return read_quantified(r);
    case TILDE:
        if (!open_level(r))
            return 0;
        part = read_factor(r);
        r->depth--;
        return add(r, NOT, part, 0);
    case OPEN:
        if (!open_level(r))
            return 0;
        part = read_formula(r);
        r->depth--;
        take(r, CLOSE);
        return part;
    default:
        stop(r, GRAMMAR, r->at);
        return 0;
    }
}

static unsigned read_conjunction(struct reader *r)
{
    unsigned left = read_factor(r);
    while (r->token == AMPERSAND) {
        advance(r);
        left = add(r, AND, left, read_factor(r));
    }
    return left;
}

static unsigned read_disjunction(struct reader *r)
{
    unsigned left = read_conjunction(r);
    while (r->token == BAR) {
        advance(r);
        left = add(r, OR, left, read_conjunction(r));
    }
    return left;
}

static unsigned read_implication(struct reader *r)
{
    unsigned left = read_disjunction(r);
    if (r->token != IMPLIES || !open_level(r))
        return left;
    left = add(r, NOT, left, 0);
    unsigned right = read_implication(r);
    r->depth--;
    return add(r, OR, left, right);
}

static unsigned read_formula(struct reader *r)
{
    unsigned left = read_implication(r);
    while (r->token == EQUIVALENT) {
        advance(r);
        unsigned right = read_implication(r);
        unsigned not_left = add(r, NOT, left, 0), not_right = add(r, NOT, right, 0);
        unsigned there = add(r, OR, not_left, right), back = add(r, OR, not_right, left);
        left = add(r, AND, there, back);
    }
    return left;
}

/* ---- Texts ---- */

static void read_declaration(struct reader *r)
{
    bool first_order = r->token == VAR1;
    do {
        advance(r);
        if (r->token != NAME)
            stop(r, GRAMMAR, r->at);
        else if (track_of(r, r->at) >= 0)
            stop(r, NAMES, r->at);
        else
            bring_to_life(r, first_order);
    } while (r->token == COMMA);
    take(r, SEMICOLON);
}

/* Reads a whole text: its fault, or the records and tracks it makes. */
static void read_text(struct reader *r, const uint8_t *text, size_t length)
{
    r->text = text;
    r->length = length;
    r->at = (struct span){ 0, 0 };
    r->fault = (ws2s_fault){ 0 };
    r->alive = r->tracks = r->depth = 0;
    r->records = 0;
    advance(r);
    if (take(r, HEADING))
        take(r, SEMICOLON);
    while (r->token == VAR1 || r->token == VAR2)
        read_declaration(r);
    r->free = r->alive;
    unsigned rule = read_formula(r);
    if (take(r, SEMICOLON) && r->token != END)
        stop(r, GRAMMAR, r->at);
    for (unsigned track = 0; track < r->free; track++)
        if (r->name[track].first_order)
            rule = add(r, AND, add(r, SING, track, 0), rule);
    if (!r->fault.refusal && r->records > MOST_RECORDS)
        r->fault = (ws2s_fault){ .refusal = RECORDS };
}

/* Packs the records into a rule strip; its length. */
static size_t pack(const struct reader *r, uint8_t *out)
{
    uint64_t held = 0;
    unsigned bits = 0;
    size_t length = 0;
    out[length++] = (uint8_t)(1 << 4 | r->tracks);
    out[length++] = (uint8_t)r->records;
    for (unsigned i = 0; i < r->records; i++) {
        held = held << 18 | (uint64_t)r->record[i].op << 14 | (uint64_t)r->record[i].first << 7 | r->record[i].second;
        for (bits += 18; bits >= 8; bits -= 8)
            out[length++] = (uint8_t)(held >> (bits - 8));
    }
    if (bits)
        out[length++] = (uint8_t)(held << (8 - bits));
    return length;
}

ws2s_written oracle_import(const uint8_t *text, size_t text_len, uint8_t *out, size_t out_len)
{
    struct reader r;
    if (out_len < MOST_RULE_BYTES)
        return (ws2s_written){ .refusal = OUT };
    read_text(&r, text, text_len);
    if (r.fault.refusal)
        return (ws2s_written){ .refusal = r.fault.refusal };
    return (ws2s_written){ .variables = r.tracks, .records = r.records, .length = pack(&r, out) };
}

ws2s_fault oracle_text_fault(const uint8_t *text, size_t text_len)
{
    struct reader r;
    read_text(&r, text, text_len);
    return r.fault;
}
