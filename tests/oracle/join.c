/* Two rule strips into one. Strips are read and written a record at a time here, in
 * place, and share no code with what packs an imported text. */
#include "oracle.h"

#include <string.h>

enum { NOT = 5, OR = 6, AND = 7, EXISTS = 8 };
enum { MOST_RECORDS = 128, ASKED = 290 };
enum { RULE_OUT = 27, JOINED_RECORDS = 30 };

struct record {
    unsigned op, first, second;
};

/* Record i has its 18 bits at bit 16 + 18 i. That is bit 0, 2, 4 or 6 of a byte, so it
 * lies in three bytes, with at most 6 bits of others before it and after it. */
static unsigned byte_of(unsigned i) { return 2 + 9 * i / 4; }
static unsigned bits_after(unsigned i) { return 6 - 2 * (i % 4); }

static struct record get(const uint8_t *strip, unsigned i)
{
    const uint8_t *at = strip + byte_of(i);
    uint32_t bits = ((uint32_t)at[0] << 16 | (uint32_t)at[1] << 8 | at[2]) >> bits_after(i);
    return (struct record){ bits >> 14 & 15, bits >> 7 & 127, bits & 127 };
}

/* The bits are 0 before. */
static void set(uint8_t *strip, unsigned i, struct record r)
{
    uint8_t *at = strip + byte_of(i);
    uint32_t bits = (uint32_t)(r.op << 14 | r.first << 7 | r.second) << bits_after(i);
    at[0] |= (uint8_t)(bits >> 16);
    at[1] |= (uint8_t)(bits >> 8);
    at[2] |= (uint8_t)bits;
}

static struct record moved_up(struct record r, unsigned by)
{
    if (r.op == NOT || r.op == OR || r.op == AND)
        r.first += by;
    if (r.op == OR || r.op == AND || r.op == EXISTS)
        r.second += by;
    return r;
}

ws2s_written oracle_join(const uint8_t *first, size_t first_len, const uint8_t *second, size_t second_len,
                         uint8_t *out, size_t out_len)
{
    ws2s_rule one = oracle_check_rule(first, first_len);
    if (one.refusal)
        return (ws2s_written){ .refusal = one.refusal, .place = one.place, .strip = 1 };
    ws2s_rule two = oracle_check_rule(second, second_len);
    if (two.refusal)
        return (ws2s_written){ .refusal = two.refusal, .place = two.place, .strip = 2 };
    unsigned m1 = (unsigned)one.records, m2 = (unsigned)two.records, m = m1 + m2 + 1;
    uint64_t n = one.variables > two.variables ? one.variables : two.variables;
    if (m > MOST_RECORDS)
        return (ws2s_written){ .refusal = JOINED_RECORDS };
    if (out_len < ASKED)
        return (ws2s_written){ .refusal = RULE_OUT };
    uint8_t strip[ASKED] = { (uint8_t)(1 << 4 | n), (uint8_t)m };
    for (unsigned i = 0; i < m1; i++)
        set(strip, i, get(first, i));
    for (unsigned i = 0; i < m2; i++)
        set(strip, m1 + i, moved_up(get(second, i), m1));
    set(strip, m1 + m2, (struct record){ AND, m1 - 1, m1 + m2 - 1 });
    size_t length = (16 + 18 * (size_t)m + 7) / 8;
    memcpy(out, strip, length);
    return (ws2s_written){ .variables = n, .records = m, .length = length };
}
