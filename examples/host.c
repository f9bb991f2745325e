/* Decides the rule strip in a file, and prints the tree that is shown.
 *
 *     host RULE [NAME...]
 *
 * A rule speaks of kinds of part; the NAMEs are what they are called.
 */
#include <stdio.h>
#include <stdlib.h>
#include <ws2s.h>

int main(int argc, char **argv)
{
    uint8_t rule[WS2S_MAX_RULE_BYTES + 1], out[WS2S_MAX_TREE_BYTES], *workspace;
    const uint64_t c = 64, p = 255; /* states of a machine, places of the tree: at most */
    FILE *file = argc > 1 ? fopen(argv[1], "rb") : NULL;
    if (!file)
        return 4;
    size_t length = fread(rule, 1, sizeof rule, file);
    fclose(file);

    ws2s_rule checked = ws2s_check_rule(rule, length);
    size_t size = ws2s_workspace_size(checked, c); /* 0 if the rule is refused */
    workspace = (uint8_t *)malloc(size + 1);
    if (!workspace)
        return 4;
    ws2s_verdict v = ws2s_decide(rule, length, c, p, workspace, size, out, sizeof out);
    free(workspace);

    switch (v.kind) {
    case WS2S_SHOWN: { /* the earliest tree that satisfies the rule */
        ws2s_walk w;
        uint8_t *stack = (uint8_t *)malloc(v.states); /* no way down the tree has as many places: that is proved */
        if (!stack)
            return 4;
        printf("shown, places: %d\n", (int)v.positions);
        ws2s_walk_begin(&w, out, v.length, stack);
        while (ws2s_walk_next(&w)) {
            printf("%*s-", 2 * (int)w.inside, ""); /* what is inside a part stands below it, further in */
            for (int k = 0; k < (int)checked.variables; k++)
                if (ws2s_walk_has(&w, k))
                    printf(" %s", k + 2 < argc ? argv[k + 2] : "part");
            printf("\n");
        }
        free(stack);
        return 0;
    }
    case WS2S_NONE:
        printf("none: no finite sets satisfy the rule\n");
        return 1;
    case WS2S_LARGER:
        printf("larger: the rule can be satisfied, but not with %d places\n", (int)p);
        return 2;
    default: /* WS2S_REFUSED */
        printf("refused %d: %s; %s\n", (int)v.refusal, ws2s_refusal_text(v.refusal), ws2s_refusal_help(v.refusal));
        if (v.refusal == WS2S_REFUSED_STATES)
            printf("the record is number %d\n", (int)v.record);
        if (v.refusal <= WS2S_REFUSED_UNUSED) /* the strip itself is at fault */
            printf("at bit %d of what was read, counted from 0\n", (int)v.place);
        return 3;
    }
}
