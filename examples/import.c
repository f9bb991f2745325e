/* Imports a rule typed as text, and prints its strip in hex.
 *
 *     import TEXT
 */
#include <stdio.h>
#include <string.h>
#include <ws2s.h>

int main(int argc, char **argv)
{
    const char *text = argc > 1 ? argv[1] : "";
    const uint8_t *bytes = (const uint8_t *)text;
    uint8_t rule[WS2S_MAX_RULE_BYTES];
    ws2s_written w = ws2s_import(bytes, strlen(text), rule, sizeof rule);

    if (w.refusal) {
        ws2s_fault f = ws2s_text_fault(bytes, strlen(text));
        printf("refused %d: %s; %s\n", (int)w.refusal, ws2s_refusal_text(w.refusal), ws2s_refusal_help(w.refusal));
        if (w.refusal <= WS2S_REFUSED_TEXT_VARIABLES) /* a token is at fault */
            printf("at byte %d: %.*s\n", (int)f.start, (int)f.length, text + f.start);
        return 3;
    }
    printf("variables %d, records %d: ", (int)w.variables, (int)w.records);
    for (size_t i = 0; i < w.length; i++)
        printf("%02X", rule[i]);
    printf("\n");
    return 0;
}
