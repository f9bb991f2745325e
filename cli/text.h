/* A rule typed as text: what its variables are called, how two texts differ in that,
 * and why and where a text is refused, in words. What is in a text is for the library to say; nothing here
 * knows its grammar. */
#ifndef TEXT_H
#define TEXT_H

#include "words.h"

/* Any bytes. Of a file that was not read to its end there may be more. */
struct text {
    uint8_t *byte;
    size_t length;
    bool whole;
};

/* The character that bytes of UTF-8 begin with, and "at" after it; 0 if they begin
 * with none, and "at" a byte further. There is at least one byte. */
unsigned long take_character(const uint8_t **at, const uint8_t *end);

/* Whether a character can stand in a picture and on a terminal: one that XML
 * allows, and no control character. */
bool printable(unsigned long character);

/* Whether it is one of the bytes that stand between tokens. */
bool blank(uint8_t byte);

/* Adds to the names those of a text that is accepted: what it declares, after the
 * variables that have a name already, and what its quantifiers bind. The rule is
 * the strip that is written for it. The names lie in the text, which is altered. */
void add_names(struct names *names, struct text *text, const struct strip *rule);

/* Where two texts that are joined declare a variable with another name, or one as a
 * place and the other as a set, a sentence for each: its number, what each has, and what
 * to do. The names are the texts' alone. */
void put_differences(FILE *to, const char *first_file, const struct names *first, const char *second_file,
                     const struct names *second);

/* Why a text is refused, as a sentence: the number, the line and column of the
 * token, why, what stands there, what helps; then the line with the token marked. */
void put_text_refusal(FILE *to, const struct text *text, const ws2s_fault *fault);

#endif
