/* Requests: what an operation is asked, how a vector line asks it
 * (tests/vectors/README.md), and how its answer is told in a line. */
#ifndef REQUEST_H
#define REQUEST_H

#include "operations.h"
#include "strip.h"
#include "ws2s.h"

#include <inttypes.h>
#include <stdbool.h>
#include <stdio.h>
#include <stdlib.h>
#include <string.h>

enum { MOST_LINE = 2 * MOST_STRIP, MOST_OUT = 1 << 16, MOST_WORDS = 8 };

/* How the verdict program asks: it reads so many bytes, and lends so many. */
enum { VERDICT_INPUT = 300, VERDICT_C = 16, VERDICT_P = 60, VERDICT_WORKSPACE = 32768, VERDICT_OUT = 77 };

/* ---- Operations ---- */

/* What an operation can be handed: bytes to read, which a line has in hex (SECOND is a
 * rule beside RULE); bytes to write, of which a line has the length; numbers. After an answer, and after a refusal
 * that comes of what was built, as much of the workspace is zero as 12 asks for, and
 * out begins with the strip written. */
enum argument { NO_ARGUMENT, RULE, SECOND, TREE, TEXT, WORKSPACE, OUT, C, P, ARGUMENTS };

static inline bool is_read(enum argument a) { return a >= RULE && a <= TEXT; }
static inline bool is_written(enum argument a) { return a == WORKSPACE || a == OUT; }

enum operation {
    NO_OPERATION,
#define ROW(name, ...) OP_##name,
    OPERATIONS(ROW)
#undef ROW
    KINDS
};

union result {
    ws2s_rule rule;
    ws2s_tree tree;
    ws2s_judgement judgement;
    ws2s_verdict verdict;
    ws2s_clash_list clash_list;
    ws2s_written written;
    ws2s_fault fault;
};

struct request {
    enum operation operation, then; /* then: what is asked about the strip that is imported, if anything */
    bool program;                   /* the verdict program is asked, whose input is the rule */
    bool strip;                     /* the answer expected is the strip that is written alone */
    const uint8_t *byte[ARGUMENTS]; /* what there is to read */
    uint64_t number[ARGUMENTS];     /* a number, or the length of bytes */
    const char *expected;
};

/* Calls the library. at: where each of the request's bytes lie for it. */
static inline void call_library(const struct request *r, uint8_t *const *at, union result *result)
{
    switch (r->operation) {
#define BYTES(a) at[a], (size_t)r->number[a]
#define NUMBER(a) r->number[a]
#define ROW(name, member, refusals, words, ...) \
    case OP_##name: \
        result->member = ws2s_##name(__VA_ARGS__); \
        break;
        OPERATIONS(ROW)
#undef ROW
    default:
        break;
    }
}

/* ---- Answers ---- */

/* Where a number stands in a result, counted from 1; 0 says that there is none. In a
 * set of numbers, each the bit of its place, bit 0 is never looked at. */
#define AT(type, name) (offsetof(type, name) / sizeof(uint64_t) + 1)
#define TOLD(type, name) (1u << AT(type, name))

/* What a line says for one kind of answer: a word, and these numbers in their order in
 * the result. A strip may stand in out, and be told last; or a list in the result, of
 * as many numbers as the one before it says. Some numbers apply that no line says. All
 * others are 0. */
struct form {
    const char *word;
    unsigned told;
    enum { ALONE, STRIP, STRIP_TOLD, LIST_TOLD } with;
    unsigned unsaid;
};

/* The numbers of a result: how many, and where those stand that many results have
 * (whose is the strip that a place is in, which no line says; length is that of the
 * strip in out, and list where a list starts). Then the forms by kind, the first if
 * there is no kind, and the form of a refusal if it is not the usual one. */
struct answer {
    unsigned numbers, kind, refusal, record, place, whose, length, list;
    struct form form[3], refused;
};

#define NUMBERS(type) .numbers = sizeof(type) / sizeof(uint64_t), .refusal = AT(type, refusal)
static const struct answer answer_check_rule = {
    NUMBERS(ws2s_rule), .place = AT(ws2s_rule, place),
    .form = { { "ok", TOLD(ws2s_rule, variables) | TOLD(ws2s_rule, records), ALONE } } };
static const struct answer answer_check_tree = {
    NUMBERS(ws2s_tree), .place = AT(ws2s_tree, place),
    .form = { { "ok", TOLD(ws2s_tree, variables) | TOLD(ws2s_tree, positions), ALONE } } };
static const struct answer answer_decide = {
    NUMBERS(ws2s_verdict), .kind = AT(ws2s_verdict, kind), .record = AT(ws2s_verdict, record),
    .place = AT(ws2s_verdict, place), .length = AT(ws2s_verdict, length),
    .form = { { "shown", TOLD(ws2s_verdict, positions) | TOLD(ws2s_verdict, states), STRIP_TOLD },
              { "none", TOLD(ws2s_verdict, states), ALONE }, { "larger", TOLD(ws2s_verdict, states), ALONE } } };
static const struct answer answer_judge = {
    NUMBERS(ws2s_judgement), .kind = AT(ws2s_judgement, kind), .record = AT(ws2s_judgement, record),
    .place = AT(ws2s_judgement, place), .form = { { "no", 0, ALONE }, { "yes", 0, ALONE } } };
static const struct answer answer_clash = {
    NUMBERS(ws2s_clash_list), .kind = AT(ws2s_clash_list, kind), .record = AT(ws2s_clash_list, record),
    .place = AT(ws2s_clash_list, place), .list = AT(ws2s_clash_list, parts),
    .form = { { "kept", TOLD(ws2s_clash_list, count), LIST_TOLD } } };
static const struct answer answer_import = {
    NUMBERS(ws2s_written), .place = AT(ws2s_written, place), .length = AT(ws2s_written, length),
    .form = { { "ok", TOLD(ws2s_written, variables) | TOLD(ws2s_written, records), STRIP } } };
static const struct answer answer_text_fault = {
    NUMBERS(ws2s_fault), .place = AT(ws2s_fault, start), .form = { { "ok", 0, ALONE } },
    .refused = { "", TOLD(ws2s_fault, refusal) | TOLD(ws2s_fault, start) | TOLD(ws2s_fault, length), ALONE } };
static const struct answer answer_join = {
    NUMBERS(ws2s_written), .place = AT(ws2s_written, place), .whose = AT(ws2s_written, strip), .length = AT(ws2s_written, length),
    .form = { { "ok", TOLD(ws2s_written, length), STRIP_TOLD, TOLD(ws2s_written, variables) | TOLD(ws2s_written, records) } } };

static const struct operation_row {
    const char *name;
    const struct answer *answer;
    uint64_t refusals;                  /* a bit for each */
    enum argument word[MOST_WORDS + 1]; /* a line's, up to NO_ARGUMENT */
} operations[KINDS] = {
    { "", NULL, 0, { NO_ARGUMENT } },
#define FROM(first, last) ((UINT64_C(2) << (last)) - (UINT64_C(1) << (first)))
#define WORDS(...) { __VA_ARGS__ }
#define ROW(name, member, refusals, words, ...) { #name, &answer_##name, refusals, WORDS words },
    OPERATIONS(ROW)
#undef ROW
#undef WORDS
#undef FROM
};

static inline bool has(enum operation o, enum argument a)
{
    const enum argument *word = operations[o].word;
    while (*word && *word != a)
        word++;
    return *word == a;
}

static inline uint64_t number_at(const union result *result, unsigned at)
{
    uint64_t number = 0;
    if (at)
        memcpy(&number, (const uint8_t *)result + (at - 1) * sizeof number, sizeof number);
    return number;
}

static inline uint64_t refusal_of(enum operation o, const union result *result)
{
    return number_at(result, operations[o].answer->refusal);
}

/* Refusals of a strip have a place. */
static inline bool has_place(uint64_t refusal)
{
    return (refusal >= 1 && refusal <= 10) || (refusal >= 15 && refusal <= 21);
}

/* Refusals that come of what was built, after which the workspace is zero. */
static inline bool is_of_machines(uint64_t refusal)
{
    return refusal == 14 || refusal == 29;
}

static inline struct form form_of(const struct answer *a, const union result *result)
{
    uint64_t kind = number_at(result, a->kind), refusal = number_at(result, a->refusal);
    if (a->kind ? kind != WS2S_REFUSED : refusal == 0)
        return kind < 3 && a->form[kind].word ? a->form[kind] : (struct form){ "kind", 1u << a->kind, ALONE, 0 };
    if (a->refused.word)
        return a->refused;
    unsigned more = refusal == 14 ? a->record : has_place(refusal) ? a->place : 0;
    return (struct form){ "refused", 1u << a->refusal | 1u << more, ALONE, has_place(refusal) ? 1u << a->whose : 0 };
}

static inline int tell_bytes(char *line, const uint8_t *byte, size_t length)
{
    int used = 0;
    for (size_t i = 0; i < length && used < MOST_LINE - 2; i++)
        used += sprintf(line + used, "%02X", byte[i]);
    return used;
}

/* How many numbers the list of an answer has, which is no more than there is room for. */
static inline unsigned list_length(const struct answer *a, const union result *result)
{
    uint64_t count = form_of(a, result).with == LIST_TOLD ? number_at(result, a->list - 1) : 0, room = a->numbers - a->list + 1;
    return (unsigned)(count < room ? count : room);
}

/* Writes an answer to a line of 2 * MOST_LINE characters; whether the numbers that do
 * not apply are 0. out: the buffer that was lent, and its length. */
static inline bool tell(enum operation o, const union result *result, const uint8_t *out, size_t out_length, char *line)
{
    const struct answer *a = operations[o].answer;
    struct form form = form_of(a, result);
    bool strip = form.with == STRIP || form.with == STRIP_TOLD;
    uint64_t length = strip ? number_at(result, a->length) : 0;
    int used = sprintf(line, "%s", form.word);
    bool idle = true;
    form.told |= ((1u << list_length(a, result)) - 1) << a->list;
    unsigned apply = 1u << a->kind | form.told | form.unsaid | (strip ? 1u << a->length : 0);
    for (unsigned at = 1; at <= a->numbers; at++) {
        if (form.told >> at & 1)
            used += sprintf(line + used, used ? " %" PRIu64 : "%" PRIu64, number_at(result, at));
        idle = idle && (apply >> at & 1 || number_at(result, at) == 0);
    }
    if (form.with == STRIP_TOLD) {
        line[used++] = ' ';
        line[used + tell_bytes(line + used, out, length < out_length ? length : out_length)] = 0;
    }
    return idle && length <= out_length;
}

/* ---- Lines ---- */

/* Lines that are not an operation with all its words: what they ask for, and the
 * numbers that they leave out. */
static const struct {
    const char *name;
    struct request request;
    enum argument word[MOST_WORDS + 1];
} composed[] = {
    { "verdict", { .operation = OP_decide, .program = true,
                   .number = { [C] = VERDICT_C, [P] = VERDICT_P, [WORKSPACE] = VERDICT_WORKSPACE, [OUT] = VERDICT_OUT } }, { RULE } },
    { "import_strip", { .operation = OP_import, .strip = true, .number = { [OUT] = WS2S_MAX_RULE_BYTES } }, { TEXT } },
    { "import_decide", { .operation = OP_import, .then = OP_decide, .number = { [OUT] = WS2S_MAX_RULE_BYTES, [C] = 64, [P] = 255 } }, { TEXT } },
    { "import_judge", { .operation = OP_import, .then = OP_judge, .number = { [OUT] = WS2S_MAX_RULE_BYTES, [C] = 64 } }, { TEXT, TREE } },
};

/* Reads hex into bytes, which may be those of the word itself. */
static inline bool read_hex(const char *word, uint8_t *byte, uint64_t *length)
{
    static const char digits[] = "0123456789ABCDEF";
    *length = 0;
    if (strcmp(word, "-") == 0)
        return true;
    for (; word[0]; word += 2) {
        const char *high = strchr(digits, word[0]), *low = high && word[1] ? strchr(digits, word[1]) : NULL;
        if (!low)
            return false;
        byte[(*length)++] = (uint8_t)((high - digits) << 4 | (low - digits));
    }
    return true;
}

/* A word of a line; bytes stay in it. */
static inline bool read_word(char *word, enum argument a, struct request *r)
{
    char *end;
    r->byte[a] = (uint8_t *)word;
    if (is_read(a))
        return word && read_hex(word, (uint8_t *)word, &r->number[a]);
    if (!word || word[0] < '0' || word[0] > '9')
        return false;
    r->number[a] = strtoull(word, &end, 10);
    return *end == 0 && (a != WORKSPACE || r->number[a] <= WS2S_MAX_CLASH_WORKSPACE) && (a != OUT || r->number[a] <= MOST_OUT);
}

/* What a line that begins with this name asks for, and the words after it; NULL if there is none. */
static inline const enum argument *begin_request(const char *name, struct request *r)
{
    for (enum operation o = 1; o < KINDS; o++)
        if (strcmp(name, operations[o].name) == 0) {
            *r = (struct request){ .operation = o };
            return operations[o].word;
        }
    for (size_t i = 0; i < sizeof composed / sizeof composed[0]; i++)
        if (strcmp(name, composed[i].name) == 0) {
            *r = composed[i].request;
            return composed[i].word;
        }
    return NULL;
}

/* Takes a line apart; it is altered, and must stay as long as the request. Of the
 * verdict program's input all bytes are kept, however many it reads. */
static inline bool read_request(char *line, struct request *r)
{
    char *expected = strstr(line, " = ");
    if (!expected)
        return false;
    *expected = 0;
    char *name = strtok(line, " ");
    const enum argument *word = name ? begin_request(name, r) : NULL;
    if (!word)
        return false;
    r->expected = expected + 3;
    for (; *word; word++)
        if (!read_word(strtok(NULL, " "), *word, r))
            return false;
    return !strtok(NULL, " ");
}

/* The bytes of workspace that 12 asks for, of a rule strip that is accepted. A clash
 * has 15 shares for its trials, however many parts there are. */
static inline size_t space_asked(enum operation o, const uint8_t *rule, uint64_t c)
{
    return ((rule[1] + (o == OP_clash ? (size_t)15 : 0)) << (rule[0] & 15)) * c * c;
}

#endif
