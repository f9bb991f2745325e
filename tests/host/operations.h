/* The operations, a row each. All tests go by this table:
 *
 *     ROW(NAME, RESULT, REFUSALS, (WORDS), HANDED...)
 *
 * NAME      begins a vector line; ws2s_NAME is the library's function, oracle_NAME the
 *           independent implementation's
 * RESULT    the member of union result that it returns
 * REFUSALS  those that it can give: FROM(1, 10) has both ends
 * WORDS     what follows in a vector line, in its order
 * HANDED    what the C function gets, in its order: BYTES with their length, a NUMBER
 *
 * There is nothing but this list here, so that the independent implementation shares
 * no other word with the tests. What the words mean, and how an answer is told in a
 * line (answer_NAME), stands in request.h. */
#ifndef OPERATIONS_H
#define OPERATIONS_H

#define OPERATIONS(ROW) \
    ROW(check_rule, rule, FROM(1, 10), (RULE), BYTES(RULE)) \
    ROW(check_tree, tree, FROM(15, 21), (TREE), BYTES(TREE)) \
    ROW(decide, verdict, FROM(1, 14), (RULE, C, P, WORKSPACE, OUT), \
        BYTES(RULE), NUMBER(C), NUMBER(P), BYTES(WORKSPACE), BYTES(OUT)) \
    ROW(judge, judgement, FROM(1, 12) | FROM(14, 22), (RULE, C, WORKSPACE, TREE), \
        BYTES(RULE), NUMBER(C), BYTES(WORKSPACE), BYTES(TREE)) \
    ROW(clash, clash_list, FROM(1, 12) | FROM(14, 14) | FROM(28, 29), (RULE, C, WORKSPACE), \
        BYTES(RULE), NUMBER(C), BYTES(WORKSPACE)) \
    ROW(import, written, FROM(23, 27), (TEXT, OUT), BYTES(TEXT), BYTES(OUT)) \
    ROW(text_fault, fault, FROM(23, 26), (TEXT), BYTES(TEXT)) \
    ROW(join, written, FROM(1, 10) | FROM(27, 27) | FROM(30, 30), (RULE, SECOND, OUT), \
        BYTES(RULE), BYTES(SECOND), BYTES(OUT))

#endif
