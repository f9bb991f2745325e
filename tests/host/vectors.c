/* Runs the lines of vector files (tests/vectors/README.md) against the library:
 *
 *     vectors FILE...
 *
 * Every lent buffer stands between guard bytes, in places where a step outside
 * it ends the program, and holds nonzero bytes before the call. Besides the
 * answer this checks what each call leaves in the buffers, that a rule strip that
 * was imported or joined is one, that a fault is told of the strip that has it where
 * two are joined, and that the parts of a rule that are said to clash do, and
 * any of them left out, do not. A file without lines fails. It prints what fails and a
 * count, and ends with status 1 if anything did. */
#define _DEFAULT_SOURCE
#include "lent.h"

enum { MOST_SECONDS = 600, SMALL_WORKSPACE = 1 << 20 };

static struct lent lent[ARGUMENTS];
static char fault[160], answer[2 * MOST_LINE];

static bool fails(const char *what)
{
    if (!fault[0])
        snprintf(fault, sizeof fault, "%s", what);
    return false;
}

/* Takes the number of states, its last number, out of a verdict. */
static void leave_out_states(char *verdict)
{
    char *space = strrchr(verdict, ' ');
    if (strncmp(verdict, "none ", 5) == 0 || strncmp(verdict, "larger ", 7) == 0) {
        *space = 0;
    } else if (strncmp(verdict, "shown ", 6) == 0) {
        char *states = verdict + 6 + strcspn(verdict + 6, " ");
        memmove(states, space, strlen(space) + 1);
    }
}

/* What a call leaves in the buffers. */
static bool buffers_right(const struct request *r, const union result *result)
{
    uint64_t refusal = refusal_of(r->operation, result);
    enum argument altered = lent_altered(lent, r);
    if (altered)
        return fails(altered == RULE || altered == SECOND ? "rule altered" : altered == TREE ? "tree altered" : "text altered");
    if (has(r->operation, OUT)) /* the strip at its front is told, or checked as written_right has it */
        if (!lent_kept_after(&lent[OUT], refusal ? 0 : number_at(result, operations[r->operation].answer->length)))
            return fails("out not as it must be left");
    if (!has(r->operation, WORKSPACE))
        return true;
    if (refusal != 0 && !is_of_machines(refusal))
        return lent_kept_after(&lent[WORKSPACE], 0) || fails("workspace altered by a refusal before the build");
    return lent_zero(&lent[WORKSPACE], space_asked(r->operation, r->byte[RULE], r->number[C]))
        || fails("workspace not as it must be left");
}

/* A rule strip that was written is one, of the numbers told. */
static bool written_right(uint8_t *const *at, const ws2s_written *w)
{
    ws2s_rule c = ws2s_check_rule(lend_bytes(&lent[RULE], at[OUT], w->length, LENT_AT_END), w->length);
    if (!lent_holds(&lent[RULE], at[OUT], w->length))
        return fails("rule altered");
    if (w->length != (16 + 18 * w->records + 7) / 8)
        return fails("another length of the strip");
    return (c.refusal == 0 && c.variables == w->variables && c.records == w->records)
        || fails("the strip does not check with these numbers");
}

/* The text's fault is the import's, if its out buffer was long enough, and lies at a
 * token in the text. */
static bool import_right(const struct request *r, uint8_t *const *at, const ws2s_written *w)
{
    uint64_t length = r->number[TEXT];
    ws2s_fault f = ws2s_text_fault(at[TEXT], length);
    if (w->refusal == 0 && !written_right(at, w))
        return false;
    if (w->refusal != 27 && f.refusal != w->refusal)
        return fails("another refusal as the text's fault");
    if (f.refusal < 23 || f.refusal > 25)
        return (f.start == 0 && f.length == 0) || fails("a token told without a fault at one");
    if (f.length == 0)
        return f.start == length || fails("a token of no bytes before the end");
    return (f.start < length && f.length <= length - f.start) || fails("a token outside the text");
}

/* What is refused of either rule its own check refuses, the first's before the second's;
 * a strip that joins both has the larger n, and their records with one more. */
static bool join_right(const struct request *r, uint8_t *const *at, const ws2s_written *w)
{
    ws2s_rule one = ws2s_check_rule(at[RULE], r->number[RULE]), two = ws2s_check_rule(at[SECOND], r->number[SECOND]);
    const ws2s_rule *bad = one.refusal ? &one : &two;
    if (bad->refusal)
        return (w->refusal == bad->refusal && w->place == bad->place && w->strip == (bad == &one ? 1 : 2))
            || fails("not the fault of the first strip that has one, at its place");
    if (w->refusal)
        return w->refusal == (one.records + two.records > 127 ? WS2S_REFUSED_JOINED_RECORDS : WS2S_REFUSED_RULE_OUT)
            || fails("another refusal, though both strips are accepted");
    if (w->variables != (one.variables > two.variables ? one.variables : two.variables) || w->records != one.records + two.records + 1)
        return fails("not the larger n, or not the records of both and one more");
    return written_right(at, w);
}

/* Decides the conjunction of the parts listed, one left out if it is among them; false if
 * it is refused. It has no more records than 12 has room for, but may have more states
 * than c in a record that no trial built. */
static bool is_none(const struct request *r, const uint64_t *part, unsigned count, unsigned without, bool *none)
{
    static struct strip rule, conjunction;
    uint8_t out[WS2S_MAX_TREE_BYTES];
    rule.length = r->number[RULE];
    memcpy(rule.byte, r->byte[RULE], rule.length);
    if (!make_conjunction(&conjunction, &rule, part, count, without))
        return false;
    ws2s_verdict v = ws2s_decide(conjunction.byte, conjunction.length, r->number[C], 255, lent[WORKSPACE].at, r->number[WORKSPACE], out, sizeof out);
    *none = v.kind == WS2S_NONE;
    return v.kind != WS2S_REFUSED;
}

/* The parts that are listed clash, and any of them left out, they do not. */
static bool list_right(const struct request *r, const ws2s_clash_list *list)
{
    bool none;
    if (list->count == 0 || list->count > WS2S_MAX_PARTS)
        return fails("a list of no parts, or of more than there may be");
    if (is_none(r, list->parts, (unsigned)list->count, WS2S_MAX_PARTS, &none) && !none)
        return fails("parts listed that can be satisfied together");
    for (unsigned i = 0; list->count > 1 && i < list->count; i++)
        if (is_none(r, list->parts, (unsigned)list->count, i, &none) && none)
            return fails("a part listed without which there is none, too");
    return true;
}

/* A strip that is joined with itself is, in one of the places, handed over as the same bytes. */
static bool with_itself(const struct request *r)
{
    return has(r->operation, SECOND) && r->number[RULE] == r->number[SECOND] && memcmp(r->byte[RULE], r->byte[SECOND], r->number[RULE]) == 0;
}

/* One call, with its buffers in one place. */
static bool run_call(const struct request *r, enum lent_place place, union result *result)
{
    uint8_t *at[ARGUMENTS] = { NULL };
    lend_request(lent, r, place, place == LENT_AT_BEGINNING, at);
    if (place == LENT_APART && with_itself(r))
        at[SECOND] = at[RULE];
    call_library(r, at, result);
    bool idle = tell(r->operation, result, lent[OUT].at, r->number[OUT], answer);
    if (r->strip && idle)
        answer[tell_bytes(answer, lent[OUT].at, result->written.length)] = 0;
    if (r->then) /* by meaning: states are no part of the answer */
        leave_out_states(answer);
    if (r->expected && strcmp(answer, r->expected) != 0)
        return fails("another answer");
    if (!idle)
        return fails("a field that does not apply is not 0");
    return buffers_right(r, result) && (r->operation != OP_import || import_right(r, at, &result->written))
        && (r->operation != OP_join || join_right(r, at, &result->written))
        && (r->operation != OP_clash || refusal_of(r->operation, result) || list_right(r, &result->clash_list));
}

/* Asks what a line wants to know about the strip that was imported for it. */
static bool run_then(const struct request *line, enum lent_place place)
{
    uint8_t strip[WS2S_MAX_RULE_BYTES];
    struct request import = *line, then = *line;
    union result result;
    import.then = NO_OPERATION;
    import.expected = NULL;
    if (!run_call(&import, place, &result))
        return false;
    if (result.written.refusal)
        return fails("refused, where a strip is expected");
    memcpy(strip, lent[OUT].at, result.written.length);
    then.operation = line->then;
    then.byte[RULE] = strip;
    then.number[RULE] = result.written.length;
    then.number[WORKSPACE] = space_asked(then.operation, strip, then.number[C]);
    then.number[OUT] = has(then.operation, OUT) ? WS2S_MAX_TREE_BYTES : 0;
    return run_call(&then, place, &result);
}

static bool run(const struct request *r, enum lent_place place)
{
    union result result;
    struct request import = *r;
    if (r->then)
        return run_then(r, place);
    if (!run_call(r, place, &result))
        return false;
    if (r->operation != OP_text_fault)
        return true;
    import.operation = OP_import;
    import.number[OUT] = WS2S_MAX_RULE_BYTES;
    import.expected = NULL;
    return run_call(&import, place, &result);
}

/* Runs one line with its buffers in every place, or in one if they are large. */
static bool run_line(char *line)
{
    struct request r;
    fault[0] = answer[0] = 0;
    if (!read_request(line, &r))
        return fails("not a line of this form");
    if (r.program && r.number[RULE] > VERDICT_INPUT)
        r.number[RULE] = VERDICT_INPUT;
    for (enum lent_place place = LENT_AT_END; place < (r.number[WORKSPACE] > SMALL_WORKSPACE ? 1 : LENT_PLACES); place++)
        if (!run(&r, place))
            return false;
    return true;
}

int main(int argc, char **argv)
{
    static char line[MOST_LINE], copy[MOST_LINE];
    unsigned long passed = 0, failed = 0;
    lent_watch();
    lent_open_all(lent, MOST_LINE, WS2S_MAX_CLASH_WORKSPACE);
    for (int i = 1; i < argc; i++) {
        FILE *file = fopen(argv[i], "r");
        unsigned long number = 0;
        if (!file) {
            perror(argv[i]);
            return 2;
        }
        while (fgets(line, sizeof line, file)) {
            number++;
            line[strcspn(line, "\r\n")] = 0;
            strcpy(copy, line);
            snprintf(lent_doing, sizeof lent_doing, "%s:%lu", argv[i], number);
            alarm(MOST_SECONDS);
            if (run_line(line)) {
                passed++;
                continue;
            }
            failed++;
            printf("%s:%lu: %s\n  line   %s\n  answer %s\n", argv[i], number, fault, copy, answer);
        }
        fclose(file);
        if (number == 0) {
            failed++;
            printf("%s: no lines\n", argv[i]);
        }
    }
    printf("%lu passed, %lu failed\n", passed, failed);
    return failed || !passed;
}
