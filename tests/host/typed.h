/* Texts of rules made at random: valid ones, ones at the limits and just beyond,
 * ones with damaged tokens or bytes, tokens in any order, and any bytes. */
#ifndef TYPED_H
#define TYPED_H

#include "chance.h"

#include <stddef.h>
#include <stdio.h>
#include <string.h>

enum { MOST_TYPED = 1 << 17, MOST_TOKENS = 1 << 13, MOST_NAME = 3000, LONG_NAMES = 3, MOST_ALIVE = 24, MOST_OWN = 1 << 10 };
enum { TRACKS = 8, LEVELS = 32, RECORDS = 128 };

struct typed {
    uint8_t byte[MOST_TYPED];
    size_t length;
    unsigned levels; /* how deep it nests; 0 if that is not known */
};

/* ---- Tokens ---- */

struct token {
    const char *at;
    size_t length;
};

/* The text being made: its tokens, the names alive, and what it comes to so far. */
static struct {
    struct token token[MOST_TOKENS];
    size_t tokens;
    struct {
        struct token name;
        bool first_order;
    } alive[MOST_ALIVE];
    unsigned names, most_names;
    unsigned levels, most_levels, deepest;
    unsigned records;
    int atoms_left; /* below 1 there are only those that must be */
    /* if each variable is to have a name of its own: those given so far, with their variables, and all that stand in atoms */
    bool own_names;
    struct {
        char name[8];
        bool first_order;
        unsigned variable;
    } own[MOST_OWN];
    unsigned owned;
    char in_atoms[8 * MOST_TOKENS];
} making;

static char long_name[LONG_NAMES][MOST_NAME];
static size_t long_length[LONG_NAMES];

static inline bool is_word_byte(uint8_t byte)
{
    return (byte >= '0' && byte <= '9') || (byte >= 'A' && byte <= 'Z') || (byte >= 'a' && byte <= 'z');
}

static inline bool same_token(struct token a, struct token b)
{
    return a.length == b.length && memcmp(a.at, b.at, a.length) == 0;
}

static inline struct token word_of(const char *text)
{
    return (struct token){ text, strlen(text) };
}

static inline void put_token(struct token t)
{
    if (making.tokens < MOST_TOKENS)
        making.token[making.tokens++] = t;
}

static inline void put_word(const char *text)
{
    put_token(word_of(text));
}

/* Long names that differ in their last bytes, if at all. */
static inline void make_long_names(void)
{
    size_t length = 1 + below(once_in(4) ? MOST_NAME - LONG_NAMES : 40);
    for (unsigned i = 0; i < LONG_NAMES; i++) {
        long_length[i] = length + (once_in(2) ? below(LONG_NAMES) : 0);
        memset(long_name[i], 'n', long_length[i]);
        if (once_in(2))
            long_name[i][long_length[i] - 1] = (char)('a' + below(3));
    }
}

static inline struct token some_name(void)
{
    static const char *const names[] = { "x", "y", "z", "p", "q", "X", "Y", "Z", "Belt", "seat", "Seat2", "a1", "a12", "ex1x", "Sub",
                                         "in2", "rootx", "ws2sx", "var11", "ALL1", "s", "var", "al1", "ws2" };
    if (once_in(12)) {
        unsigned i = below(LONG_NAMES);
        return (struct token){ long_name[i], long_length[i] };
    }
    return word_of(names[below(once_in(2) ? 8 : sizeof names / sizeof names[0])]);
}

/* A name that the text has not had, for the next variable: p or S, for a place or a set, and its number. */
static inline struct token own_name(bool first_order)
{
    unsigned i = making.owned < MOST_OWN - 1 ? making.owned++ : MOST_OWN - 1;
    snprintf(making.own[i].name, sizeof making.own[i].name, "%c%u", first_order ? 'p' : 'S', i);
    making.own[i].first_order = first_order;
    making.own[i].variable = making.names;
    return word_of(making.own[i].name);
}

static inline struct token some_token(void)
{
    static const char *const tokens[] = { "ws2s", "var1", "var2", "ex1", "ex2", "all1", "all2", "sub", "in", "root", ";", ",", ":", "(", ")", "~",
                                          "&", "|", "=>", "<=>", "=", ".0", ".1" };
    static const char *const odd[] = { "<", "<=", ">", ".", ".2", "7", "_", "\v", "\f", "\x80", "\xff", "!", "#", "'", "{", "==", "&&" };
    if (once_in(30))
        return once_in(6) ? (struct token){ "", 1 } : word_of(odd[below(sizeof odd / sizeof odd[0])]);
    return once_in(3) ? some_name() : word_of(tokens[below(sizeof tokens / sizeof tokens[0])]);
}

/* ---- Formulas ---- */

static void put_formula(void);

static inline void name_alive(struct token name, bool first_order)
{
    if (making.names < MOST_ALIVE) {
        making.alive[making.names].name = name;
        making.alive[making.names++].first_order = first_order;
    }
}

static inline void open_level(const char *word)
{
    put_word(word);
    if (++making.levels > making.deepest)
        making.deepest = making.levels;
}

/* A name of this order that no other hides: its place among those alive, or -1. */
static inline int visible(bool first_order)
{
    unsigned from = making.names ? below(making.names) : 0;
    for (unsigned k = 0; k < making.names; k++) {
        unsigned i = (from + k) % making.names, hidden = 0;
        for (unsigned j = i + 1; j < making.names; j++)
            hidden += same_token(making.alive[i].name, making.alive[j].name);
        if (!hidden && making.alive[i].first_order == first_order)
            return (int)i;
    }
    return -1;
}

static inline void put_name(int alive)
{
    struct token name = alive < 0 ? some_name() : making.alive[alive].name;
    put_token(name);
    if (making.own_names) {
        strncat(making.in_atoms, name.at, name.length);
        strcat(making.in_atoms, " ");
    }
}

static inline void put_atom(void)
{
    int place = visible(true), set = visible(false);
    unsigned kind = below(6);
    making.atoms_left--;
    making.records++;
    if (set >= 0 && (place < 0 || kind < 2)) {
        put_name(set);
        put_word("sub");
        put_name(visible(false));
    } else if (set >= 0 && kind < 3) {
        put_name(place);
        put_word("in");
        put_name(set);
    } else {
        put_name(place);
        put_word("=");
        if (once_in(4)) {
            put_word("root");
            return;
        }
        put_name(visible(true));
        if (!once_in(3))
            put_word(once_in(2) ? ".0" : ".1");
    }
}

/* A quantifier up to its colon; its name stays alive. */
static inline void put_quantifier(void)
{
    bool all = once_in(2), first_order = once_in(2);
    struct token name = once_in(3) && making.names ? making.alive[below(making.names)].name : some_name();
    if (making.own_names)
        name = own_name(first_order);
    open_level(all ? first_order ? "all1" : "all2" : first_order ? "ex1" : "ex2");
    making.records += all ? first_order ? 5 : 3 : first_order ? 3 : 1;
    put_token(name);
    put_word(":");
    name_alive(name, first_order);
}

static inline bool may_open(void)
{
    return making.levels < making.most_levels && making.tokens < MOST_TOKENS - 256;
}

/* A quantifier reaches over all that follows it here, which may be more than what is
 * made for it; with names of their own, variables end where they are made to. */
static inline void put_quantified(void)
{
    unsigned names = making.names, levels = making.levels;
    if (making.own_names)
        open_level("(");
    put_quantifier();
    put_formula();
    if (making.own_names)
        put_word(")");
    making.names = names;
    making.levels = levels;
}

static inline void put_factor(void)
{
    unsigned kind = below(10);
    bool none = visible(true) < 0 && visible(false) < 0;
    if (may_open() && making.names < making.most_names && (none || (kind >= 7 && making.atoms_left > 0))) {
        put_quantified();
    } else if (!may_open() || making.atoms_left <= 0 || kind < 4) {
        put_atom();
    } else if (kind == 4) {
        open_level("~");
        making.records++;
        put_factor();
        making.levels--;
    } else {
        open_level("(");
        put_formula();
        making.levels--;
        put_word(")");
    }
}

static inline void put_conjunction(void)
{
    put_factor();
    while (making.atoms_left > 0 && once_in(3)) {
        put_word("&");
        making.records++;
        put_factor();
    }
}

static inline void put_disjunction(void)
{
    put_conjunction();
    while (making.atoms_left > 0 && once_in(3)) {
        put_word("|");
        making.records++;
        put_conjunction();
    }
}

static inline void put_implication(void)
{
    put_disjunction();
    if (making.atoms_left > 0 && may_open() && once_in(3)) {
        open_level("=>");
        making.records += 2;
        put_implication();
        making.levels--;
    }
}

static void put_formula(void)
{
    put_implication();
    while (making.atoms_left > 0 && once_in(5)) {
        put_word("<=>");
        making.records += 5;
        put_implication();
    }
}

/* ---- Whole texts ---- */

/* The heading, and declarations of so many names, seldom two alike. */
static inline void put_declarations(unsigned count)
{
    bool first_order = once_in(2), open = false;
    put_word("ws2s");
    put_word(";");
    for (unsigned i = 0; i < count; i++) {
        struct token name = some_name();
        for (unsigned tries = 0, j = 0; j < making.names && tries < 200; j++)
            if (same_token(name, making.alive[j].name)) {
                name = some_name();
                tries++;
                j = (unsigned)-1;
            }
        if (making.names && once_in(60))
            name = making.alive[below(making.names)].name;
        if (open && once_in(3)) {
            put_word(";");
            open = false;
            first_order = once_in(2);
        }
        put_word(open ? "," : first_order ? "var1" : "var2");
        open = true;
        if (making.own_names)
            name = own_name(first_order);
        put_token(name);
        name_alive(name, first_order);
        making.records += first_order ? 2 : 0;
    }
    if (open)
        put_word(";");
}

/* Levels one in the other, so many. What follows "~" is no "=>", which would end it. */
static inline void put_nest(unsigned levels)
{
    unsigned names_at[64] = { 0 }, brackets = 0, names = making.names;
    bool after_tilde = false, after_implies = false;
    for (unsigned i = 0; i < levels; i++) {
        unsigned kind = below(4);
        if (!after_tilde && once_in(5)) {
            put_atom();
            bool equivalent = !after_implies && once_in(3);
            put_word(equivalent ? "<=>" : once_in(2) ? "&" : "|");
            making.records += equivalent ? 5 : 1;
            if (kind == 2 && equivalent)
                after_implies = false;
        }
        if (kind == 3 && making.names >= making.most_names)
            kind = 0;
        if (kind == 2 && after_tilde)
            kind = 1;
        if (kind == 0) {
            names_at[brackets++] = making.names;
            open_level("(");
        } else if (kind == 1) {
            making.records++;
            open_level("~");
        } else if (kind == 2) {
            put_atom();
            making.records += 2;
            open_level("=>");
        } else {
            put_quantifier();
        }
        after_tilde = kind == 1;
        after_implies = kind == 2 || (after_implies && kind == 1);
    }
    put_atom();
    while (brackets) {
        put_word(")");
        making.names = names_at[--brackets];
        if (once_in(8)) {
            put_word(once_in(2) ? "&" : "|");
            making.records++;
            put_atom();
        }
    }
    making.names = names;
    making.levels = 0;
}

/* A formula of as many records as there are to be in all. */
static inline void put_broad(unsigned records)
{
    put_word("(");
    making.levels++;
    put_formula();
    making.levels--;
    put_word(")");
    while (making.records + 2 <= records && making.tokens < MOST_TOKENS - 256) {
        put_word(once_in(2) ? "&" : "|");
        making.records++;
        if ((records - making.records) % 2 == 0) {
            put_word("~");
            making.records++;
        }
        put_atom();
    }
}

static inline void damage_tokens(void)
{
    for (unsigned times = once_in(3) ? 1 + below(4) : 1; times && making.tokens; times--) {
        size_t at = below(making.tokens), left = making.tokens - at;
        struct token *t = &making.token[at];
        switch (below(7)) {
        case 0: /* one is lost */
            memmove(t, t + 1, (left - 1) * sizeof *t);
            making.tokens--;
            break;
        case 1: /* one comes twice, */
        case 2: /* or another before it */
            if (making.tokens == MOST_TOKENS)
                break;
            memmove(t + 1, t, left * sizeof *t);
            making.tokens++;
            if (once_in(2))
                *t = some_token();
            break;
        case 3:
            *t = some_token();
            break;
        case 4: /* a name for another */
            for (size_t i = at; i < making.tokens; i++)
                if (is_word_byte((uint8_t)making.token[i].at[0])) {
                    making.token[i] = some_name();
                    break;
                }
            break;
        case 5: {
            struct token other = making.token[below(making.tokens)];
            making.token[below(making.tokens)] = *t;
            *t = other;
            break;
        }
        default: /* the end is lost */
            if (once_in(4))
                making.tokens = at;
        }
    }
}

static inline void put_byte(struct typed *t, uint8_t byte)
{
    if (t->length < MOST_TYPED)
        t->byte[t->length++] = byte;
}

/* What does not fit is left out. */
static inline void put_text(struct typed *t, const char *words)
{
    while (*words)
        put_byte(t, (uint8_t)*words++);
}

/* The tokens' bytes, with something between two words, but for once in a while. */
static inline void write_tokens(struct typed *t)
{
    static const char separators[] = " \t\r\n";
    bool spaced = once_in(2), joined = once_in(20);
    t->length = 0;
    for (size_t i = 0; i < making.tokens; i++) {
        struct token token = making.token[i];
        bool words = t->length > 0 && is_word_byte(t->byte[t->length - 1]) && is_word_byte((uint8_t)token.at[0]);
        if (words && !(joined && once_in(20)))
            put_byte(t, (uint8_t)separators[below(4)]);
        for (unsigned times = spaced && once_in(2) ? 1 + below(3) : 0; times; times--)
            put_byte(t, (uint8_t)separators[below(4)]);
        for (size_t k = 0; k < token.length; k++)
            put_byte(t, (uint8_t)token.at[k]);
    }
    while (spaced && once_in(2))
        put_byte(t, (uint8_t)separators[below(4)]);
}

static inline uint8_t some_byte(void)
{
    static const uint8_t odd[] = { 0, '\v', '\f', 127, 128, 160, 255, '<', '>', '=', '.', '_', '0', '1', '2', '~', '(', ')', ';', ':', ',', '&', '|' };
    return once_in(2) ? odd[below(sizeof odd)] : (uint8_t)any();
}

static inline void damage_text(struct typed *t)
{
    for (unsigned times = once_in(3) ? 1 + below(4) : 1; times && t->length; times--) {
        size_t at = below(t->length);
        switch (below(5)) {
        case 0:
            t->byte[at] ^= (uint8_t)(1u << below(8));
            break;
        case 1:
            t->byte[at] = some_byte();
            break;
        case 2:
            memmove(t->byte + at, t->byte + at + 1, t->length - at - 1);
            t->length--;
            break;
        case 3:
            if (t->length < MOST_TYPED) {
                memmove(t->byte + at + 1, t->byte + at, t->length - at);
                t->byte[at] = some_byte();
                t->length++;
            }
            break;
        default:
            t->length = once_in(2) ? at : t->length - 1;
        }
    }
}

/* The same again and again, up to some 64 KiB. */
static inline void make_long_text(struct typed *t)
{
    static const char *const parts[] = { "(X sub X)&", "X sub X|", "X sub X<=>", "X sub X=>X sub X<=>", "~X sub X&", "(", "~", "X sub X=>", "(ex1 y:y in X)&",
                                         "ex2 X:", " ", "\n", "Xx", "X sub X=>(", "all1 x:x in X=>(" };
    const char *part = parts[below(sizeof parts / sizeof parts[0])], *begin = "ws2s;var2 X;", *end = once_in(4) ? "" : "X sub X;";
    size_t length = once_in(4) ? 1 << 16 : 1 + below(1 << 12);
    t->length = 0;
    put_text(t, begin);
    while (t->length < length)
        put_text(t, part);
    put_text(t, end);
}

static inline void make_any_bytes(struct typed *t)
{
    t->length = 0;
    for (unsigned length = below(once_in(4) ? 400 : 30); length; length--)
        put_byte(t, once_in(2) ? some_byte() : (uint8_t)any());
}

static inline void begin_typed(struct typed *t)
{
    making.tokens = 0;
    making.names = making.levels = making.deepest = making.records = making.owned = 0;
    making.most_names = TRACKS;
    making.most_levels = LEVELS;
    making.atoms_left = 1 + (int)below(once_in(8) ? 60 : 8);
    making.own_names = false;
    making.in_atoms[0] = 0;
    t->levels = 0;
    make_long_names();
}

/* A text in which each variable has a name of its own, seldom one that is refused. */
static inline void make_named(struct typed *t)
{
    begin_typed(t);
    making.own_names = true;
    making.most_levels = 8;
    if (once_in(20)) {
        put_declarations(1 + below(4));
        put_broad(RECORDS - 8 + below(16));
    } else {
        put_declarations(below(5));
        put_formula();
    }
    put_word(";");
    write_tokens(t);
}

static inline void make_typed(struct typed *t)
{
    bool known = true;
    begin_typed(t);
    switch (below(64)) {
    case 0:
        make_any_bytes(t);
        return;
    case 1:
        if (once_in(20))
            make_long_text(t);
        else
            make_any_bytes(t);
        return;
    case 2: case 3: /* tokens in any order, mostly with a heading */
        known = false;
        if (!once_in(4))
            put_declarations(below(4));
        for (unsigned count = below(40); count; count--)
            put_token(some_token());
        break;
    case 4: case 5: case 6: case 7: case 8: case 9: case 10: case 11: /* at the limit of levels */
        put_declarations(1 + below(2));
        put_nest(LEVELS - 2 + below(4));
        put_word(";");
        break;
    case 12: case 13: case 14: case 15: case 16: case 17: case 18: case 19: /* of records */
        put_declarations(1 + below(4));
        put_broad(RECORDS - 2 + below(4));
        put_word(";");
        break;
    case 20: case 21: case 22: case 23: case 24: case 25: case 26: case 27: /* of tracks */
        making.most_names = TRACKS + below(2);
        put_declarations(5 + below(once_in(3) ? 5 : 4));
        put_formula();
        put_word(";");
        break;
    default:
        making.most_levels = once_in(4) ? LEVELS : 8;
        put_declarations(below(5));
        put_formula();
        put_word(";");
    }
    if (once_in(3)) {
        damage_tokens();
        known = false;
    }
    write_tokens(t);
    if (once_in(5)) {
        damage_text(t);
        known = false;
    }
    if (known)
        t->levels = making.deepest;
}

#endif
