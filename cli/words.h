/* What a rule strip says, record by record or whole, and why and where a strip is refused, in words. */
#ifndef WORDS_H
#define WORDS_H

#include "ws2s.h"

#include <stdbool.h>
#include <stdio.h>

/* What a word ends in that stands after a number. */
const char *plural(uint64_t count);

/* No rule of a text takes more than its 128 records: nothing there is written twice. */
enum { MOST_SAID = 256 };

/* A variable that "exists" binds, and the records in which it is that one: from the
 * first of what it is about to the "exists" itself. */
struct bound {
    const char *name;
    unsigned variable, first, last;
};

/* What the variables are called: the first ones in every record, others by what
 * binds them there if it has a name, and the rest X0, X1, ... by their numbers. Of
 * those that a text declares, which are places. */
struct names {
    const char *name[WS2S_MAX_VARIABLES];
    bool place[WS2S_MAX_VARIABLES];
    unsigned count, bounds;
    struct bound bound[WS2S_MAX_RECORDS];
};

/* A strip of any bytes. */
struct strip {
    const uint8_t *byte;
    size_t length;
};

/* What a strip is refused for: the number, with 14 the record, and where the
 * number has one the place; of 14 also whether it came of a trial. */
struct refusal {
    uint64_t number, record, place;
    bool in_trial;
};

/* The variables that a rule written for a text binds, without names, in the order
 * in which their quantifiers stand in the text; how many there are. */
unsigned bound_variables(const struct strip *rule, struct bound *bound);

/* A record in words, if it lies within the rule. */
void put_record(FILE *to, const struct strip *rule, unsigned record, const struct names *names);

/* A record of an accepted rule with all that it stands on, in words. Of one that would
 * take more than MOST_SAID records, since some are written again and again, the record
 * alone, and where the others can be seen. */
void put_sense(FILE *to, const struct strip *rule, unsigned record, const struct names *names);

/* The number of variables and each record on a line of its own, as far as the
 * bytes go, the first bad one marked with the place. Of a rule that is refused for
 * its heading nothing is told. */
void put_rule(FILE *to, const struct strip *rule, const struct refusal *refusal, const struct names *names);

/* A refusal as a sentence: its number and place, why, where in words and what was
 * found there, what helps. The strip is the one that is refused, with 14 the rule;
 * where it has more bytes than the longest, there may be more that were not read. */
void put_refusal(FILE *to, const struct refusal *refusal, const struct strip *strip, const struct names *names);

#endif
