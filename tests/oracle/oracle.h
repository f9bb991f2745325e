/* An independent, unproved implementation of the operations, written from
 * the requirements alone: what the library is compared with in the tests, and
 * the baseline of the benchmark. oracle_NAME has the type of ws2s_NAME in ws2s.h,
 * and results and buffer effects are those stated there. */
#ifndef ORACLE_H
#define ORACLE_H

#include "../host/operations.h"
#include "ws2s.h"

#define ROW(name, ...) __typeof__(ws2s_##name) oracle_##name;
OPERATIONS(ROW)
#undef ROW

#endif
