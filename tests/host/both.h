/* Calls of the library and of the oracle alike, for what compares the two. */
#ifndef BOTH_H
#define BOTH_H

#include "oracle.h"
#include "request.h"

static inline void call(bool library, const struct request *r, uint8_t *const *at, union result *result)
{
    if (library) {
        call_library(r, at, result);
        return;
    }
    switch (r->operation) {
#define ROW(name, member, refusals, words, ...) \
    case OP_##name: \
        result->member = oracle_##name(__VA_ARGS__); \
        break;
        OPERATIONS(ROW)
#undef ROW
    default:
        break;
    }
}

#endif
