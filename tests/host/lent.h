/* Buffers to lend to the library. Each lies between two pages that nobody may
 * touch, at the end or the beginning of what is between them or apart from
 * both, and is filled, with the bytes around it, with a pattern of bytes none of
 * which is zero. What a request hands over is lent as its row of operations.h says. */
#ifndef LENT_H
#define LENT_H

#include "request.h"

#include <signal.h>
#include <sys/mman.h>
#include <unistd.h>

enum lent_place { LENT_AT_END, LENT_AT_BEGINNING, LENT_APART, LENT_PLACES };
enum { LENT_GUARD = 96, LENT_PERIOD = 255 };

struct lent {
    uint8_t *span; /* what may be touched, with its length */
    size_t room;
    uint8_t *guarded, *at, *end, *guarded_end; /* what is lent, and what is watched */
};

/* The pattern over and over; a byte's phase is its place after l->guarded. */
static inline const uint8_t *lent_pattern(size_t phase)
{
    static uint8_t pattern[LENT_PERIOD * 257];
    if (pattern[0] == 0)
        for (size_t i = 0; i < sizeof pattern; i++)
            pattern[i] = (uint8_t)(1 + i % LENT_PERIOD * 7 % LENT_PERIOD);
    return pattern + phase % LENT_PERIOD;
}

enum { LENT_CHUNK = LENT_PERIOD * 256 };

static inline void lent_open(struct lent *l, size_t most)
{
    size_t page = (size_t)sysconf(_SC_PAGESIZE);
    l->room = (most + 2 * LENT_GUARD + page - 1) / page * page;
    uint8_t *all = mmap(NULL, l->room + 2 * page, PROT_NONE,
                        MAP_PRIVATE | MAP_ANONYMOUS | MAP_NORESERVE, -1, 0);
    if (all == MAP_FAILED || mprotect(all + page, l->room, PROT_READ | PROT_WRITE) != 0) {
        perror("lent_open");
        exit(2);
    }
    l->span = all + page;
}

/* Lends that many bytes, no more than l was opened for. */
static inline uint8_t *lend(struct lent *l, size_t length, enum lent_place place)
{
    size_t before = place == LENT_AT_BEGINNING ? 0
                  : place == LENT_AT_END ? l->room - length : LENT_GUARD;
    l->at = l->span + before;
    l->end = l->at + length;
    l->guarded = before < LENT_GUARD ? l->span : l->at - LENT_GUARD;
    size_t after = (size_t)(l->span + l->room - l->end);
    l->guarded_end = l->end + (after < LENT_GUARD ? after : LENT_GUARD);
    for (uint8_t *p = l->guarded; p < l->guarded_end; p += LENT_CHUNK) {
        size_t left = (size_t)(l->guarded_end - p);
        memcpy(p, lent_pattern(0), left < LENT_CHUNK ? left : LENT_CHUNK);
    }
    return l->at;
}

/* Lends a copy of these bytes. */
static inline uint8_t *lend_bytes(struct lent *l, const uint8_t *bytes, size_t length,
                           enum lent_place place)
{
    lend(l, length, place);
    if (length)
        memcpy(l->at, bytes, length);
    return l->at;
}

static inline bool lent_kept_between(const struct lent *l, const uint8_t *from, const uint8_t *to)
{
    while (from < to) {
        size_t left = (size_t)(to - from), length = left < LENT_CHUNK ? left : LENT_CHUNK;
        if (memcmp(from, lent_pattern((size_t)(from - l->guarded)), length) != 0)
            return false;
        from += length;
    }
    return true;
}

/* Whether everything watched is as it was but, perhaps, the first bytes of what
 * is lent. */
static inline bool lent_kept_after(const struct lent *l, size_t first)
{
    return lent_kept_between(l, l->guarded, l->at)
        && lent_kept_between(l, l->at + first, l->guarded_end);
}

/* The same, and those first bytes are these. */
static inline bool lent_holds(const struct lent *l, const uint8_t *bytes, size_t length)
{
    return length <= (size_t)(l->end - l->at) && lent_kept_after(l, length)
        && (length == 0 || memcmp(l->at, bytes, length) == 0);
}

/* The same, and those first bytes are zero. */
static inline bool lent_zero(const struct lent *l, size_t length)
{
    return length <= (size_t)(l->end - l->at) && lent_kept_after(l, length)
        && (length == 0 || (l->at[0] == 0 && memcmp(l->at, l->at + 1, length - 1) == 0));
}

/* Opens what requests hand over, with so many bytes of text and, unless it is the
 * caller's own, of workspace. */
static inline void lent_open_all(struct lent *lent, size_t text, size_t workspace)
{
    for (enum argument a = RULE; a < ARGUMENTS; a++)
        if (is_read(a))
            lent_open(&lent[a], a == TEXT ? text : MOST_STRIP);
    lent_open(&lent[OUT], MOST_OUT);
    if (workspace)
        lent_open(&lent[WORKSPACE], workspace);
}

/* Lends what a request hands over, and says where it lies for the call: no bytes at
 * NULL, if so wished. Bytes to write that were not opened here are the caller's. */
static inline void lend_request(struct lent *lent, const struct request *r, enum lent_place place, bool null, uint8_t **at)
{
    for (const enum argument *a = operations[r->operation].word; *a; a++) {
        if (is_read(*a))
            lend_bytes(&lent[*a], r->byte[*a], r->number[*a], place);
        else if (is_written(*a) && lent[*a].span)
            lend(&lent[*a], r->number[*a], place);
        else
            continue;
        at[*a] = null && r->number[*a] == 0 ? NULL : lent[*a].at;
    }
}

/* Bytes of a request that are altered, though they were only to be read. */
static inline enum argument lent_altered(const struct lent *lent, const struct request *r)
{
    const enum argument *a = operations[r->operation].word;
    while (*a && (!is_read(*a) || lent_holds(&lent[*a], r->byte[*a], r->number[*a])))
        a++;
    return *a;
}

/* What is being done, told if a call breaks off or takes too long. */
static char lent_doing[256];

static inline void lent_broken(int sign)
{
    dprintf(STDOUT_FILENO, "%s: %s\n", lent_doing,
            sign == SIGALRM ? "no answer" : "ended by a signal");
    _exit(3);
}

/* Has signals of this thread handled on another stack than its own. */
static inline void lent_watch_thread(void)
{
    static uint8_t other[1 << 16];
    stack_t stack = { .ss_sp = other, .ss_size = sizeof other };
    sigaltstack(&stack, NULL);
}

/* Watches for calls that end the program, a stack run over included. */
static inline void lent_watch(void)
{
    static const int signs[] = { SIGSEGV, SIGBUS, SIGILL, SIGFPE, SIGABRT, SIGALRM };
    struct sigaction action = { .sa_handler = lent_broken, .sa_flags = SA_ONSTACK };
    lent_watch_thread();
    for (size_t i = 0; i < sizeof signs / sizeof signs[0]; i++)
        sigaction(signs[i], &action, NULL);
}

#endif
