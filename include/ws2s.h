/* ws2s.h - decide rules of WS2S, the weak second-order logic of two
 * successors, judge trees against them, tell which requirements of a rule clash,
 * import rules typed as text, and join two rules into one.
 *
 * Rules and trees are strips: bit-packed bytes, most significant bit first,
 * padded with zero bits to a whole byte.
 *
 *   rule strip  version (4 bits, 1), n (4 bits, 1 to 8), m (8 bits, 1 to 128),
 *               then m records of op (4), first field (7), second field (7).
 *               The last record is the rule. Records that it does not reach, by
 *               itself or through others, are left over: they count for lengths,
 *               numbers and the workspace, and nothing is built of them.
 *   tree strip  version (4 bits, 1), n (4 bits, 1 to 8), then the tree: bit 0
 *               for an empty tree; for a node bit 1, its n-bit label (variable
 *               0 first), its first branch, its second branch.
 *
 *   op  record       first field  second field
 *   0   X subset Y   X            Y
 *   1   Sing(X)      X            0
 *   2   X = Y1       X            Y
 *   3   X = Y2       X            Y
 *   4   X = {root}   X            0
 *   5   not a        a            0
 *   6   a or b       a            b
 *   7   a and b      a            b
 *   8   exists X: a  X            a
 *
 * A rule can be typed as text, in the style of the MONA tool, and imported:
 *
 *   text         ws2s; then any number of declarations, a formula and ;
 *   declaration  var1 x, y; names places      var2 X, Y; names sets of places
 *   formula      X sub Y   x in X   x = y   x = y.0   x = y.1   x = root
 *                ~a   a & b   a | b   a => b   a <=> b   (a)
 *                ex1 x: a   all1 x: a   ex2 X: a   all2 X: a
 *
 * ~ binds strongest, then &, |, => and last <=>; => groups to the right, the others
 * to the left, and a quantifier reaches as far right as it can. y.0 is branch 1 of
 * y, and y.1 branch 2. A name is a letter with any letters and digits after it, but
 * none of the words above; spaces, tabs, CR and LF separate. An inner name hides an
 * outer one. Brackets, ~, quantifiers and right sides of => together nest at most 32
 * deep. docs/TEXT.md teaches the language, and has the records that each part makes.
 *
 * Buffers. Bytes of any kind and lengths of any size may be handed in; a
 * pointer may be NULL where its length is 0. While a call runs, nobody else
 * may alter the bytes lent to it, and the workspace and out buffer may overlap
 * neither each other nor anything else that is lent. Strips and texts handed in
 * are only read. Nothing is kept between calls.
 *
 * Threads. There is no global state, so any number of threads may call at once,
 * each with a workspace and an out buffer of its own; they may share strips
 * and texts.
 *
 * Stack. 64 KiB are enough for any call, the deepest trees and texts included; a
 * thread needs what its own frames take beside that. Nothing is put on the heap.
 *
 * Time. Every call ends. The checks and a join take microseconds; the time to read a text
 * grows with its length, times at most the names in use. Judge and decide take
 * longer the more workspace is asked for: the longest calls known, with 8
 * variables, 128 records and c = 64, take about a second, up to 10 ns for each
 * byte asked for; that makes a third of a millisecond for 3 variables, 16 records
 * and c = 16. Most rules take a small part of it. A lower c bounds the time. Clash
 * takes what decide takes without its search, and up to 133 joins more, each like
 * building an "and".
 *
 * Stack and time are measured, on a machine of 2026, not proved.
 *
 * What the eight functions return, and what they leave in the buffers, is proved
 * for all inputs. What is static inline here is plain C, and tested.
 */
#ifndef WS2S_H
#define WS2S_H

#include <stddef.h>
#include <stdint.h>

#ifdef __cplusplus
extern "C" {
#endif

#define WS2S_VERSION "2.6.0"

/* Limits. Buffers of these sizes serve every rule and every tree. */
#define WS2S_MAX_VARIABLES 8
#define WS2S_MAX_RECORDS 128
#define WS2S_MAX_STATES 64             /* the highest c; also a stack for every shown tree */
#define WS2S_MAX_POSITIONS 255         /* the highest P; nodes of a tree */
#define WS2S_MAX_RULE_BYTES 290        /* also the out buffer that ws2s_import and ws2s_join ask for */
#define WS2S_MAX_TREE_BYTES 320        /* also the longest out buffer asked for */
#define WS2S_MAX_WORKSPACE 134217728   /* of ws2s_judge and ws2s_decide: 128 MiB */
#define WS2S_MAX_CLASH_WORKSPACE 149946368 /* of ws2s_clash: 143 MiB */
#define WS2S_MAX_PARTS 16              /* requirements that ws2s_clash tries */
#define WS2S_MAX_LEVELS 32             /* how deep a text nests */

/* The kind of an answer: of ws2s_decide, of ws2s_judge, of ws2s_clash, of all. */
enum {
    WS2S_SHOWN = 0,
    WS2S_NONE = 1,
    WS2S_LARGER = 2,

    WS2S_NO = 0,
    WS2S_YES = 1,

    WS2S_KEPT = 0,

    WS2S_REFUSED = 3
};

/* Refusals. Of several that apply, a call gives the first in the order stated
 * with it. ws2s_refusal_text has each as a phrase.
 *
 * A strip's refusals, 1 to 10 and 15 to 21, have a place: the bit of that strip,
 * counted from 0, where the offending field starts. It stands in brackets here.
 * Record i has its op at bit 16 + 18 i, its first field at 20 + 18 i and its second
 * at 27 + 18 i; of two fields with the same fault the first is meant. The bit
 * length is 8 for each byte handed in, and 2^64 - 1 where that would be more.
 *
 * A text's refusals, 23 to 26, have no such place; ws2s_text_fault tells the token
 * of 23 to 25. Where two strips are handed in, "strip" of the result tells which of
 * them a place is in. */
enum {
    WS2S_REFUSED_RULE_SHORT = 1,       /* rule strip of fewer than two bytes [the bit length] */
    WS2S_REFUSED_RULE_VERSION = 2,     /* rule strip of a version other than 1 [0] */
    WS2S_REFUSED_RULE_VARIABLES = 3,   /* rule strip with n not 1 to 8 [4] */
    WS2S_REFUSED_RULE_RECORDS = 4,     /* rule strip with m not 1 to 128 [8] */
    WS2S_REFUSED_RULE_LENGTH = 5,      /* rule strip not of (16 + 18 m) bits rounded up to bytes
                                          [the bit length] */
    WS2S_REFUSED_RULE_PADDING = 6,     /* rule strip with a padding bit set [the first set padding bit] */
    WS2S_REFUSED_OP = 7,               /* record with op 9 to 15 [the op] */
    WS2S_REFUSED_VARIABLE = 8,         /* record naming a variable not below n [the field] */
    WS2S_REFUSED_RECORD = 9,           /* record naming a record not below its own number [the field] */
    WS2S_REFUSED_UNUSED = 10,          /* record with an unused field that is not 0 [the field] */
    WS2S_REFUSED_CEILING = 11,         /* c not 1 to 64, or P above 255 */
    WS2S_REFUSED_WORKSPACE = 12,       /* workspace shorter than ws2s_workspace_size, of ws2s_clash than
                                          ws2s_clash_workspace_size */
    WS2S_REFUSED_OUT = 13,             /* out buffer shorter than ws2s_out_size */
    WS2S_REFUSED_STATES = 14,          /* a record that the last one reaches, or that one itself, has
                                          more than c states when it is built, before those that behave
                                          alike are joined; "record" is its number, the lowest if there
                                          are several. Of ws2s_clash also: a trial's join has more;
                                          "record" is the part that was being joined */
    WS2S_REFUSED_TREE_SHORT = 15,      /* tree strip of no bytes [the bit length] */
    WS2S_REFUSED_TREE_VERSION = 16,    /* tree strip of a version other than 1 [0] */
    WS2S_REFUSED_TREE_VARIABLES = 17,  /* tree strip with n not 1 to 8 [4] */
    WS2S_REFUSED_TREE_CUT = 18,        /* tree strip that ends before its tree [the bit length] */
    WS2S_REFUSED_TREE_BARE = 19,       /* tree strip with a node of label 0 above two empty branches
                                          [the node bit] */
    WS2S_REFUSED_TREE_POSITIONS = 20,  /* tree strip with more than 255 nodes [the 256th node bit] */
    WS2S_REFUSED_TREE_LEFT_OVER = 21,  /* tree strip with a padding bit set or a byte left over
                                          [the first set padding bit, or else the first byte left over] */
    WS2S_REFUSED_TREE_OTHER = 22,      /* rule and tree differ in n */
    WS2S_REFUSED_TEXT_GRAMMAR = 23,    /* text that leaves the grammar, or nests deeper than 32 */
    WS2S_REFUSED_TEXT_NAME = 24,       /* text with a name that is not declared, twice in the
                                          declarations, or of the wrong order (a place, a set) */
    WS2S_REFUSED_TEXT_VARIABLES = 25,  /* text with a name that needs a ninth variable */
    WS2S_REFUSED_TEXT_RECORDS = 26,    /* text that makes more than 128 records */
    WS2S_REFUSED_RULE_OUT = 27,        /* out buffer shorter than 290 bytes, for a rule strip */
    WS2S_REFUSED_PARTS = 28,           /* rule with more than 16 parts, to be asked which clash */
    WS2S_REFUSED_SATISFIABLE = 29,     /* rule that can be satisfied, asked which of its parts clash */
    WS2S_REFUSED_JOINED_RECORDS = 30   /* two rules to be joined, with more than 127 records together */
};

/* In every result the fields that do not apply are 0. "place" applies where a
 * strip is refused, with 1 to 10 and 15 to 21; 0 is then a place like any other, so
 * the refusal alone says whether there is one. */

/* What the check of a rule strip returns: refusal 0 if it is accepted, then n
 * and m; else the refusal, 1 to 10, and its place. */
typedef struct {
    uint64_t refusal, variables, records, place;
} ws2s_rule;

/* What the check of a tree strip returns: refusal 0 if it is accepted, then n
 * and the number of nodes; else the refusal, 15 to 21, and its place. */
typedef struct {
    uint64_t refusal, variables, positions, place;
} ws2s_tree;

/* What a tree is judged to be: WS2S_NO, WS2S_YES or WS2S_REFUSED (with refusal;
 * with 14 the record; with 1 to 10 the place in the rule, with 15 to 21 in the
 * tree). */
typedef struct {
    uint64_t kind, refusal, record, place;
} ws2s_judgement;

/* What is decided of a rule: WS2S_SHOWN (with positions, states, length),
 * WS2S_NONE (states), WS2S_LARGER (states) or WS2S_REFUSED (refusal; with 14
 * record, with 1 to 10 place). */
typedef struct {
    uint64_t kind, refusal, record, positions, states, length, place;
} ws2s_verdict;

/* Which parts of a rule clash: WS2S_KEPT (with count and, as the first so many of
 * parts, the record numbers) or WS2S_REFUSED (refusal; with 14 record, with 1 to 10
 * place). */
typedef struct {
    uint64_t kind, refusal, record, place, count, parts[16];
} ws2s_clash_list;

/* What is written, by ws2s_import or ws2s_join: refusal 0 if all is accepted, then n,
 * m and the length of the rule strip in bytes; else the refusal. Of ws2s_join, with
 * 1 to 10, "strip" tells which of the two is at fault, 1 or 2, and place where. */
typedef struct {
    uint64_t refusal, variables, records, length, place, strip;
} ws2s_written;

/* Why a text is refused, 0 if it is not, and with 23 to 25 the token at which it
 * is: the byte where that starts, counted from 0, and its number of bytes. */
typedef struct {
    uint64_t refusal, start, length;
} ws2s_fault;

/* Checks a rule strip. Refusals in order: 1 to 6; then, for the earliest bad
 * record, 7 to 10. */
ws2s_rule ws2s_check_rule(const uint8_t *rule, size_t rule_len);

/* Checks a tree strip. Refusals in order: 15 to 17; then 18, 20 and 19 as the
 * bits are met (20 at the 256th node bit, 19 once both branches of the node are
 * read); last 21. */
ws2s_tree ws2s_check_tree(const uint8_t *tree, size_t tree_len);

/* Judges whether the assignment that a tree stands for satisfies a rule, with
 * machines of at most c states.
 *
 * The workspace needs m * 2^n * c * c bytes: ws2s_workspace_size. Refusals in
 * order: 1 to 10; 11 for c; 12; 15 to 21; 22; 14. After yes, no and 14 those
 * bytes of the workspace are zero and any later ones unchanged; after another
 * refusal all are unchanged. */
ws2s_judgement ws2s_judge(const uint8_t *rule, size_t rule_len, uint64_t c,
                          uint8_t *workspace, size_t workspace_len,
                          const uint8_t *tree, size_t tree_len);

/* Decides a rule, with machines of at most c states and trees of at most P
 * positions:
 *
 *   shown   the front of out holds a tree strip of "length" bytes: of all trees
 *           that satisfy the rule the earliest, with "positions" nodes. Fewer
 *           nodes come first, then the smaller root label, then the earlier
 *           first branch, then the earlier second branch.
 *   none    no finite sets satisfy the rule.
 *   larger  some do, but every tree that does has more than P positions.
 *
 * "states" is the fewest states of any machine that decides the rule: one that runs
 * over trees from the leaves to the root, with a next state for every label and every
 * two states, and accepts of all trees with labels of n bits, bare nodes allowed,
 * those that satisfy the rule. So it does not hang on how the rule is written. It is at
 * most c. No downward path of a shown tree has as many nodes as that, so a stack of
 * "states" entries is enough to walk it, whatever P is.
 *
 * Each record is built from the machines of the records that it names, which have as
 * few states as they can have; then its own states that behave alike are joined. 14
 * compares c with what a record has before that.
 *
 * The workspace needs m * 2^n * c * c bytes: ws2s_workspace_size; the out buffer
 * 8 + P (n + 1) + P + 1 bits rounded up to bytes: ws2s_out_size. Refusals in
 * order: 1 to 14. After shown, none, larger and 14 those bytes of the workspace
 * are zero and any later ones unchanged; after another refusal all are
 * unchanged. Only shown alters out, and there only the first "length" bytes. */
ws2s_verdict ws2s_decide(const uint8_t *rule, size_t rule_len, uint64_t c, uint64_t p,
                         uint8_t *workspace, size_t workspace_len,
                         uint8_t *out, size_t out_len);

/* Tells which requirements of a rule clash that ws2s_decide answers "none", with
 * machines of at most c states.
 *
 * The parts of a rule are the records other than "and" that are reached from the
 * last one, itself included, through "and" only: first field before second, a
 * repeated record once. A record is known by its number; "not", "or" and "exists"
 * are not looked into, so a rule that is no "and" is its own one part. The parts are
 * tried in that order, and one is dropped if no finite sets satisfy all the others
 * that are still there, those not yet tried among them. Those kept are returned, in
 * that order: no finite sets satisfy all of them, and if any one is taken away, some
 * satisfy the rest. There is always at least one.
 *
 * The workspace needs (m + 15) * 2^n * c * c bytes, however few parts there are:
 * ws2s_clash_workspace_size. Refusals in order: 1 to 10; 11 for c; 12; 28; 14 for the
 * rule itself, as ws2s_decide has it; 29; 14 in a trial, where the parts that are
 * left are joined one after the other, and after each the states that behave alike:
 * "record" is then the part with which there were more than c. A trial can have more
 * states than the rule, where parts that clash were joined early. After a list, 14
 * and 29 those bytes of the workspace are zero and any later ones unchanged; after
 * another refusal all are unchanged. */
ws2s_clash_list ws2s_clash(const uint8_t *rule, size_t rule_len, uint64_t c,
                           uint8_t *workspace, size_t workspace_len);

/* Imports a rule typed as text: writes the rule strip that holds exactly for the
 * assignments that satisfy the text, with the free places as sets of one member.
 * The names declared are variables in the order of their declarations, from 0; a
 * quantifier's is the next after those in use around it. "variables" is one more
 * than the highest.
 *
 * out needs WS2S_MAX_RULE_BYTES. Refusals in order: 27; then the earliest in the
 * text, and at one token the lowest, of 23 to 25; last 26. After a refusal out is
 * unchanged; else the strip is the first "length" bytes of out, later ones are
 * unchanged, and ws2s_check_rule accepts it with the same n and m. */
ws2s_written ws2s_import(const uint8_t *text, size_t text_len, uint8_t *out, size_t out_len);

/* Tells why ws2s_import refuses a text, if out is long enough, and at which token:
 * one that cannot stand there (23), a name (24, 25), or the end of the text, which is
 * a token of no bytes. A byte that starts no token counts as one alone. With 0 and 26
 * there is no token: start and length are 0. */
ws2s_fault ws2s_text_fault(const uint8_t *text, size_t text_len);

/* Joins two rules whose variables mean the same by the same numbers: writes one rule
 * strip, over the larger n, with the first rule's records as they are, the second's
 * with the record numbers in them moved up by the first's m (variables are not: that
 * of "exists" neither), and one "and" of the two last records, the first rule's as its
 * first field. Sets satisfy it exactly if as many of them, from variable 0 on, as the
 * first rule has variables satisfy the first rule, and as many as the second has
 * satisfy the second.
 *
 * out needs WS2S_MAX_RULE_BYTES, however short the result is. Refusals in order: 1 to
 * 10 of the first rule; 1 to 10 of the second; 30, if the first's m, the second's and
 * 1 add to more than 128; 27. After a refusal out is unchanged; else the strip is the
 * first "length" bytes of out, later ones are unchanged, and ws2s_check_rule accepts
 * it with the same n and m. The two rules may be the same bytes, or overlap. */
ws2s_written ws2s_join(const uint8_t *first, size_t first_len, const uint8_t *second, size_t second_len,
                       uint8_t *out, size_t out_len);

/* The bytes of workspace that ws2s_judge and ws2s_decide ask for, of a rule that
 * ws2s_check_rule accepted; 0 for any other, and for a c that they refuse. */
static inline size_t ws2s_workspace_size(ws2s_rule rule, uint64_t c)
{
    if (rule.refusal != 0 || rule.variables > WS2S_MAX_VARIABLES || rule.records > WS2S_MAX_RECORDS
        || c > WS2S_MAX_STATES)
        return 0;
    return (rule.records << rule.variables) * c * c;
}

/* The bytes of workspace that ws2s_clash asks for, of a rule that ws2s_check_rule
 * accepted; 0 for any other, and for a c that it refuses. */
static inline size_t ws2s_clash_workspace_size(ws2s_rule rule, uint64_t c)
{
    if (rule.refusal != 0 || rule.variables > WS2S_MAX_VARIABLES || rule.records > WS2S_MAX_RECORDS
        || c > WS2S_MAX_STATES)
        return 0;
    return ((rule.records + WS2S_MAX_PARTS - 1) << rule.variables) * c * c;
}

/* The bytes of the out buffer that ws2s_decide asks for, of a rule that
 * ws2s_check_rule accepted; 0 for any other, and for a P that it refuses. */
static inline size_t ws2s_out_size(ws2s_rule rule, uint64_t p)
{
    if (rule.refusal != 0 || rule.variables > WS2S_MAX_VARIABLES || p > WS2S_MAX_POSITIONS)
        return 0;
    return (8 + p * (rule.variables + 1) + p + 1 + 7) / 8;
}

/* Why, as a phrase; for a number that is no refusal, that there is none. */
static inline const char *ws2s_refusal_text(uint64_t refusal)
{
    switch (refusal) {
    case WS2S_REFUSED_RULE_SHORT: return "the rule has fewer than two bytes";
    case WS2S_REFUSED_RULE_VERSION: return "the rule's version is not 1";
    case WS2S_REFUSED_RULE_VARIABLES: return "the rule has no variable or more than 8";
    case WS2S_REFUSED_RULE_RECORDS: return "the rule has no record or more than 128";
    case WS2S_REFUSED_RULE_LENGTH: return "the rule's length does not fit its records";
    case WS2S_REFUSED_RULE_PADDING: return "a padding bit of the rule is set";
    case WS2S_REFUSED_OP: return "a record has an unknown op";
    case WS2S_REFUSED_VARIABLE: return "a record names a variable that there is not";
    case WS2S_REFUSED_RECORD: return "a record names itself or a later record";
    case WS2S_REFUSED_UNUSED: return "an unused field is not 0";
    case WS2S_REFUSED_CEILING: return "a ceiling is out of range";
    case WS2S_REFUSED_WORKSPACE: return "the workspace is too short";
    case WS2S_REFUSED_OUT: return "the out buffer is too short";
    case WS2S_REFUSED_STATES: return "a record needs more than c states";
    case WS2S_REFUSED_TREE_SHORT: return "the tree has no bytes";
    case WS2S_REFUSED_TREE_VERSION: return "the tree's version is not 1";
    case WS2S_REFUSED_TREE_VARIABLES: return "the tree has no variable or more than 8";
    case WS2S_REFUSED_TREE_CUT: return "the tree's bits end early";
    case WS2S_REFUSED_TREE_BARE: return "a node with label 0 has no branches";
    case WS2S_REFUSED_TREE_POSITIONS: return "the tree has more than 255 positions";
    case WS2S_REFUSED_TREE_LEFT_OVER: return "a padding bit of the tree is set, or bytes are left over";
    case WS2S_REFUSED_TREE_OTHER: return "tree and rule have different numbers of variables";
    case WS2S_REFUSED_TEXT_GRAMMAR: return "the text leaves the grammar, or nests deeper than 32";
    case WS2S_REFUSED_TEXT_NAME: return "a name is not declared, declared twice, or of the wrong order";
    case WS2S_REFUSED_TEXT_VARIABLES: return "a name needs a ninth variable";
    case WS2S_REFUSED_TEXT_RECORDS: return "the text makes more than 128 records";
    case WS2S_REFUSED_RULE_OUT: return "the out buffer is too short for a rule";
    case WS2S_REFUSED_PARTS: return "more than 16 requirements are joined by \"and\"";
    case WS2S_REFUSED_SATISFIABLE: return "the rule can be satisfied, so no requirements clash";
    case WS2S_REFUSED_JOINED_RECORDS: return "the two rules have more than 127 records together";
    default: return "no such refusal";
    }
}

/* What helps, as a phrase; empty for a number that is no refusal. */
static inline const char *ws2s_refusal_help(uint64_t refusal)
{
    switch (refusal) {
    case WS2S_REFUSED_RULE_SHORT: return "was the whole file read?";
    case WS2S_REFUSED_RULE_VERSION: return "write it with a matching tool";
    case WS2S_REFUSED_RULE_VARIABLES: return "use fewer kinds of part";
    case WS2S_REFUSED_RULE_RECORDS: return "split it";
    case WS2S_REFUSED_RULE_LENGTH: return "it was cut, or has bytes left over";
    case WS2S_REFUSED_RULE_PADDING: return "the file is damaged";
    case WS2S_REFUSED_OP: return "the file is damaged or too new";
    case WS2S_REFUSED_VARIABLE: return "correct the record, or the number of variables";
    case WS2S_REFUSED_RECORD: return "put the record that it uses before it";
    case WS2S_REFUSED_UNUSED: return "set it to 0";
    case WS2S_REFUSED_CEILING: return "c from 1 to 64, P at most 255";
    case WS2S_REFUSED_WORKSPACE: return "lend m * 2^n * c * c bytes, for clash (m + 15) * 2^n * c * c, or lower c";
    case WS2S_REFUSED_OUT: return "lend (8 + P(n+1) + P + 1) bits, rounded up to bytes, or lower P";
    case WS2S_REFUSED_STATES: return "raise c, at most to 64, or simplify that record";
    case WS2S_REFUSED_TREE_SHORT: return "was the whole file read?";
    case WS2S_REFUSED_TREE_VERSION: return "write it with a matching tool";
    case WS2S_REFUSED_TREE_VARIABLES: return "use fewer kinds of part";
    case WS2S_REFUSED_TREE_CUT: return "the strip was cut";
    case WS2S_REFUSED_TREE_BARE: return "leave such nodes out";
    case WS2S_REFUSED_TREE_POSITIONS: return "judge a smaller tree";
    case WS2S_REFUSED_TREE_LEFT_OVER: return "cut the strip at its end";
    case WS2S_REFUSED_TREE_OTHER: return "give the tree the rule's number";
    case WS2S_REFUSED_TEXT_GRAMMAR: return "put there what the grammar allows, or nest less";
    case WS2S_REFUSED_TEXT_NAME: return "declare it once, a place with var1 and a set with var2";
    case WS2S_REFUSED_TEXT_VARIABLES: return "have at most 8 names in use at once";
    case WS2S_REFUSED_TEXT_RECORDS: return "split it";
    case WS2S_REFUSED_RULE_OUT: return "lend 290 bytes";
    case WS2S_REFUSED_PARTS: return "ask about a rule with some of them";
    case WS2S_REFUSED_SATISFIABLE: return "decide it, to be shown how";
    case WS2S_REFUSED_JOINED_RECORDS: return "shorten one of them: the \"and\" that joins them is the 128th record";
    default: return "";
    }
}

/* A walk over the nodes of a tree strip: a node, then all of its first branch,
 * then all of its second. The host lends it a stack.
 *
 *     ws2s_walk w;
 *     uint8_t stack[WS2S_MAX_STATES];
 *     ws2s_walk_begin(&w, out, verdict.length, stack);
 *     while (ws2s_walk_next(&w))
 *         ... w.depth, w.branch, w.inside, w.label, w.path, ws2s_walk_has(&w, 0) ...
 */
typedef struct {
    unsigned depth;  /* steps from the root; the root has 0 */
    unsigned branch; /* the last step: 1 the first part inside, 2 the next beside, 0 for the root */
    unsigned inside; /* how many of the steps lead inside: how far in an outline has the node */
    unsigned label;  /* n bits, variable 0 the most significant */
    uint8_t *path;   /* the stack, with the steps: path[0] up to path[depth - 1], each 1 or 2 */
    /* The walk's own: the strip, the next bit, and where the next tree hangs. */
    const uint8_t *strip;
    size_t bits, at;
    unsigned variables, nodes, next_depth, next_inside;
} ws2s_walk;

/* Sets out. The strip is one that ws2s_check_tree accepts, as those shown are; of
 * any other bytes some nodes are told, and nothing outside them is read. It must
 * stay as it is until the walk is over, and so must the stack.
 *
 * The stack has a byte for each node of a downward path. For a tree that ws2s_decide
 * shows, as many bytes as it tells "states" are enough, and so are c and
 * WS2S_MAX_STATES: that is proved, and the walk does not test it. For any other strip,
 * and for bytes that nobody checked, lend WS2S_MAX_POSITIONS. */
static inline void ws2s_walk_begin(ws2s_walk *walk, const uint8_t *tree, size_t tree_len, uint8_t *stack)
{
    walk->depth = walk->branch = walk->inside = walk->label = 0;
    walk->nodes = walk->next_depth = walk->next_inside = 0;
    walk->path = stack;
    walk->strip = tree;
    walk->at = 8;
    walk->variables = tree_len > 0 ? tree[0] & 15u : 0;
    walk->bits = tree_len < WS2S_MAX_TREE_BYTES ? 8 * tree_len : 8 * WS2S_MAX_TREE_BYTES;
    if (walk->variables < 1 || walk->variables > WS2S_MAX_VARIABLES)
        walk->bits = 0;
}

/* For ws2s_walk_next alone: the next bit of the strip. */
static inline unsigned ws2s_walk_bit_(ws2s_walk *walk)
{
    unsigned bit = walk->strip[walk->at / 8] >> (7 - walk->at % 8) & 1u;
    walk->at++;
    return bit;
}

/* Goes to the next node: 1, or 0 if there is none. */
static inline int ws2s_walk_next(ws2s_walk *walk)
{
    unsigned i;
    while (walk->at < walk->bits && ws2s_walk_bit_(walk) == 0) {
        /* an empty tree: the next one is the second branch of the last node that still lacks it */
        while (walk->next_depth > 0 && walk->path[walk->next_depth - 1] == 2)
            walk->next_depth--;
        if (walk->next_depth == 0)
            walk->bits = 0;
        else {
            walk->path[walk->next_depth - 1] = 2;
            walk->next_inside--;
        }
    }
    if (walk->at + walk->variables > walk->bits || walk->nodes == WS2S_MAX_POSITIONS) {
        walk->bits = 0;
        return 0;
    }
    walk->depth = walk->next_depth;
    walk->inside = walk->next_inside;
    walk->branch = walk->depth > 0 ? walk->path[walk->depth - 1] : 0;
    walk->label = 0;
    for (i = 0; i < walk->variables; i++)
        walk->label = 2 * walk->label + ws2s_walk_bit_(walk);
    walk->path[walk->next_depth++] = 1;
    walk->next_inside++;
    walk->nodes++;
    return 1;
}

/* Whether the node is in the set of a variable: 1 or 0. */
static inline int ws2s_walk_has(const ws2s_walk *walk, unsigned variable)
{
    return variable < walk->variables && (walk->label >> (walk->variables - 1 - variable) & 1u) != 0;
}

#ifdef __cplusplus
}
#endif

#endif
