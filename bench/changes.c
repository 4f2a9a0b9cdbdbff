/* Two listings compared: the library beside the same in plain C, over include/matticklet.h.

   changes EVENTS MEMBERS ONE_IN [ROUNDS]

   Yesterday's and today's listing are the sets of MEMBERS of EVENTS events, in order, less one in ONE_IN of each by chance (0: none). A line for each
   call: the cuts of yesterday's listing, its bytes, the best time of the library and of the plain program, and their ratio. It fails if the answers differ.

   The plain program has the library's plan: one pass over both listings side by side, each cut judged as it is reached, by its bytes and against the cut
   before it, and what is left of each judged alone behind the end of the other or, for the first difference, behind that. */

#define _DEFAULT_SOURCE
#include "matticklet.h"
#include <stdio.h>
#include <stdlib.h>
#include <string.h>
#include <time.h>

enum { MEMBER = 0x21, END = 0x22, WIDE = 0x23, FIRST_WIDE = 256, NONE = MATTICKLET_EVENTS, MOST = 8 };

typedef const uint8_t *bytes;

static int width(int event)
{
    return event < FIRST_WIDE ? 2 : 3;
}

/* The event of the member at p, where a cut is known to stand; NONE at the cut's end. */
static int member(bytes p)
{
    return *p == MEMBER ? p[1] : *p == WIDE ? p[1] + 256 * p[2] : NONE;
}

/* The same where anything may stand: NONE where no member does. */
static int judged(bytes p, bytes end)
{
    if (end - p < 2) return NONE;
    if (*p == MEMBER) return p[1];
    if (*p != WIDE || end - p < 3) return NONE;
    int event = p[1] + 256 * p[2];
    return event < FIRST_WIDE || event > NONE ? NONE : event;
}

/* The end of the cut at p, behind the cut at last if there is one; 0 where no such cut stands there. */
static bytes behind(bytes last, bytes p, bytes end)
{
    int low = 0, event = judged(p, end);
    if (last) {
        int before;
        while ((before = member(last)) == event && event < NONE) last += width(event), p += width(event), event = judged(p, end);
        if (before == NONE) return 0;
        low = before + 1;
    }
    while (event < NONE) {
        if (event < low) return 0;
        low = event + 1;
        p += width(event);
        event = judged(p, end);
    }
    return p < end && *p == END ? p + 1 : 0;
}

/* Below 0 where the cut at p stands first, above 0 where that at q does. */
static int order(bytes p, bytes q)
{
    int e, f;
    while ((e = member(p)) == (f = member(q)) && e < NONE) p += width(e), q += width(e);
    return e - f;
}

/* Counts the cuts from p on, of which the first ends at `stop`; whether they reach the listing's end. */
static int rest(bytes p, bytes stop, bytes end, uint64_t *count)
{
    while (stop) {
        bytes next = behind(p, stop, end);
        p = stop;
        stop = next;
        ++*count;
    }
    return p == end;
}

__attribute__((noinline)) static void plain_first_difference(bytes y, size_t y_length, bytes t, size_t t_length, struct matticklet_difference *answer)
{
    bytes y_end = y + y_length, t_end = t + t_length, i = y, j = t, e = behind(0, i, y_end), f = behind(0, j, t_end);
    uint64_t count = 0;
    int o = 0;
    while (e && f && !(o = order(i, j))) {
        bytes next = behind(i, e, y_end);
        i = e;
        e = next;
        next = behind(j, f, t_end);
        j = f;
        f = next;
    }
    memset(answer, 0, sizeof *answer);
    if (!rest(i, e, y_end, &count))
        *answer = (struct matticklet_difference){ MATTICKLET_BAD_LISTING, 0, MATTICKLET_YESTERDAY, 0, 0 };
    else if (!rest(j, f, t_end, &count))
        *answer = (struct matticklet_difference){ MATTICKLET_BAD_LISTING, 0, MATTICKLET_TODAY, 0, 0 };
    else if (o < 0 || (!o && e))
        *answer = (struct matticklet_difference){ 0, 0, MATTICKLET_YESTERDAY, (uint64_t)(i - y), (uint64_t)(e - i) };
    else if (f)
        *answer = (struct matticklet_difference){ 0, 0, MATTICKLET_TODAY, (uint64_t)(j - t), (uint64_t)(f - j) };
}

__attribute__((noinline)) static void plain_compare(bytes y, size_t y_length, bytes t, size_t t_length, struct matticklet_comparison *answer)
{
    bytes y_end = y + y_length, t_end = t + t_length, i = y, j = t, e = behind(0, i, y_end), f = behind(0, j, t_end);
    uint64_t gone = 0, new = 0, kept = 0;
    while (e && f) {
        int o = order(i, j);
        if (o <= 0) {
            bytes next = behind(i, e, y_end);
            i = e;
            e = next;
        }
        if (o >= 0) {
            bytes next = behind(j, f, t_end);
            j = f;
            f = next;
        }
        *(o < 0 ? &gone : o > 0 ? &new : &kept) += 1;
    }
    memset(answer, 0, sizeof *answer);
    if (!rest(i, e, y_end, &gone))
        *answer = (struct matticklet_comparison){ MATTICKLET_BAD_LISTING, 0, MATTICKLET_YESTERDAY, 0, 0, 0 };
    else if (!rest(j, f, t_end, &new))
        *answer = (struct matticklet_comparison){ MATTICKLET_BAD_LISTING, 0, MATTICKLET_TODAY, 0, 0, 0 };
    else
        *answer = (struct matticklet_comparison){ 0, 0, MATTICKLET_NEITHER, gone, new, kept };
}

struct listing {
    uint8_t *bytes;
    size_t length, cuts;
};

/* Every set of so many of the events, in order, but for one in so many by chance. */
static struct listing made(int events, int members, unsigned one_in, uint64_t seed)
{
    struct listing l = { 0, 0, 0 };
    size_t room = 0;
    int set[MOST], k;
    for (k = 0; k < members; k++) set[k] = k;
    for (;;) {
        seed = seed * 6364136223846793005u + 1442695040888963407u;
        if (!one_in || (seed >> 33) % one_in) {
            if (room < l.length + 3 * MOST + 1 && !(l.bytes = realloc(l.bytes, room = 2 * room + 4096))) exit(2);
            for (k = 0; k < members; k++) {
                l.bytes[l.length++] = set[k] < FIRST_WIDE ? MEMBER : WIDE;
                l.bytes[l.length++] = (uint8_t)set[k];
                if (set[k] >= FIRST_WIDE) l.bytes[l.length++] = (uint8_t)(set[k] / 256);
            }
            l.bytes[l.length++] = END;
            l.cuts++;
        }
        for (k = members; k > 0 && set[k - 1] == events - members + k - 1;) k--;
        if (k == 0) return l;
        for (set[k - 1]++; k < members; k++) set[k] = set[k - 1] + 1;
    }
}

static double now(void)
{
    struct timespec time;
    clock_gettime(CLOCK_MONOTONIC, &time);
    return (double)time.tv_sec + (double)time.tv_nsec / 1e9;
}

static void best(double *least, double start)
{
    double took = now() - start;
    if (*least < 0 || took < *least) *least = took;
}

static void line(const char *call, struct listing y, double library, double plain, int differ)
{
    printf("| %s | %zu | %zu | %.3f | %.3f | %.2f |\n", call, y.cuts, y.length, library, plain, library / plain);
    if (differ) fprintf(stderr, "changes: the answers differ\n"), exit(1);
}

int main(int words, char **word)
{
    int events = words > 3 ? atoi(word[1]) : 0, members = words > 3 ? atoi(word[2]) : 0, rounds = words > 4 ? atoi(word[4]) : 3;
    if (members < 1 || members > MOST || events < members || events > MATTICKLET_EVENTS || rounds < 1) {
        fprintf(stderr, "changes EVENTS MEMBERS ONE_IN [ROUNDS]: 1 to %d members of at most %d events\n", MOST, MATTICKLET_EVENTS);
        return 2;
    }
    unsigned one_in = (unsigned)atoi(word[3]);
    struct listing y = made(events, members, one_in, 1), t = made(events, members, one_in, 2);
    struct matticklet_difference d, plain_d;
    struct matticklet_comparison c, plain_c;
    double took[4] = { -1, -1, -1, -1 }, start;
    for (int round = 0; round < rounds; round++) {
        start = now(), matticklet_first_difference(y.bytes, y.length, t.bytes, t.length, &d), best(&took[0], start);
        start = now(), plain_first_difference(y.bytes, y.length, t.bytes, t.length, &plain_d), best(&took[1], start);
        start = now(), matticklet_compare(y.bytes, y.length, t.bytes, t.length, &c), best(&took[2], start);
        start = now(), plain_compare(y.bytes, y.length, t.bytes, t.length, &plain_c), best(&took[3], start);
    }
    line("first difference", y, took[0], took[1], memcmp(&d, &plain_d, sizeof d));
    line("compare", y, took[2], took[3], memcmp(&c, &plain_c, sizeof c));
    return 0;
}
