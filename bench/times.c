/* Times the library's listing beside the plain program's: both are linked here, are lent the same memory, and take turns
   room by room, so that what else the machine does meets both alike. Of each room the least time of all rounds counts.

   times FILE NODES MEMO ROOM MOST ROUNDS
     NODES   capacity of both tables, in nodes; MEMO: quadruples in the memo
     ROOM    bytes lent to each listing call; MOST: listing stops once so many cuts are written

   Prints nanoseconds a cut of each. It fails if they answer differently, by a byte. The plain program's listing is compiled under a
   name of its own (see bench/ratios); with BEFORE so is that of a library of another commit, which takes its turn too. */

#define _DEFAULT_SOURCE
#include "matticklet.h"
#include <stdio.h>
#include <stdlib.h>
#include <string.h>
#include <time.h>

typedef void list(const uint32_t *, size_t, size_t, size_t, size_t, bool, const uint64_t[MATTICKLET_SET_WORDS], uint8_t *, size_t,
                  struct matticklet_listing *);
list plain_list, before_list;

static const struct {
    const char *name;
    list *call;
} programs[] = {
    {"library", matticklet_list},
    {"plain", plain_list},
#ifdef BEFORE
    {"before", before_list},
#endif
};
enum { PROGRAMS = sizeof programs / sizeof programs[0], ROOMS = 4096 };
static double least[PROGRAMS][ROOMS];

static uint32_t *area(size_t numbers)
{
    uint32_t *lent = calloc(numbers + 1, 4);
    if (!lent) exit(2);
    return lent;
}

static double now(void)
{
    struct timespec t;
    clock_gettime(CLOCK_MONOTONIC, &t);
    return 1e9 * (double)t.tv_sec + (double)t.tv_nsec;
}

/* What every program is lent: the cut table of an analysis, and a room. */
static struct {
    const uint32_t *cuts;
    size_t length, events, count, root, room_length;
    uint8_t *room, *written; /* by the library */
} lent;

/* Room number r of the listing, by all programs in turns. */
static struct matticklet_listing turns(size_t r, const uint64_t after[MATTICKLET_SET_WORDS], bool first_round)
{
    struct matticklet_listing library = {0};
    for (size_t p = 0; p < PROGRAMS; p++) {
        struct matticklet_listing l = {0};
        if (first_round) memset(lent.room, 0xA5, lent.room_length);
        double start = now();
        programs[p].call(lent.cuts, lent.length, lent.events, lent.count, lent.root, r == 0, after, lent.room, lent.room_length, &l);
        double took = now() - start;
        if (first_round || took < least[p][r]) least[p][r] = took;
        if (p == 0) library = l;
        if (!first_round) continue;
        if (p == 0) memcpy(lent.written, lent.room, l.used);
        if (memcmp(&library, &l, sizeof l) || memcmp(lent.written, lent.room, l.used)) {
            fprintf(stderr, "the library and %s list differently\n", programs[p].name);
            exit(4);
        }
    }
    return library;
}

static void analyse(const char *file_name, size_t nodes, size_t memo)
{
    static uint8_t bytes[MATTICKLET_TREE_BYTES + 1];
    FILE *file = fopen(file_name, "rb");
    size_t length = file ? fread(bytes, 1, sizeof bytes - 1, file) : 0, each = nodes + 2;
    if (!length) exit(2);
    uint32_t *lent_nodes = area(3 * nodes), *cuts = area(3 * nodes), *lent_memo = area(memo);
    uint32_t *gates = area(MATTICKLET_GATES), *added = area(MATTICKLET_GATES);
    uint32_t *heads = area(each), *next = area(each), *marks = area(each), *own = area(each);
    struct matticklet_analysis a;
    matticklet_analyse(bytes, length, lent_nodes, 3 * nodes, cuts, 3 * nodes, gates, MATTICKLET_GATES, added, MATTICKLET_GATES,
                       lent_memo, memo, heads, each, next, each, marks, each, own, each, &a);
    if (a.number) exit(3);
    size_t width = bytes[0] == 1 ? 5 : 7; /* a tree's events are all of one kind */
    while (bytes[width * lent.events] == bytes[0]) lent.events++;
    lent.cuts = cuts;
    lent.length = 3 * nodes;
    lent.count = a.cut_nodes;
    lent.root = a.cut_root;
}

int main(int words, char **word)
{
    if (words != 7) return 2;
    analyse(word[1], strtoull(word[2], 0, 10), 4 * strtoull(word[3], 0, 10));
    lent.room_length = strtoull(word[4], 0, 10);
    lent.room = malloc(lent.room_length);
    lent.written = malloc(lent.room_length);
    if (!lent.room || !lent.written) return 2;
    unsigned long long most = strtoull(word[5], 0, 10), rounds = strtoull(word[6], 0, 10), cuts = 0;
    size_t rooms = 0;
    for (unsigned long long round = 0; round < rounds; round++) {
        struct matticklet_listing l = {0};
        rooms = cuts = 0;
        do {
            l = turns(rooms, l.last, round == 0);
            if (l.number || ++rooms == ROOMS) return 3;
            cuts += l.cuts;
        } while (!l.finished && cuts < most);
    }
    for (size_t p = 0; p < PROGRAMS; p++) {
        double all = 0;
        for (size_t r = 0; r < rooms; r++) all += least[p][r];
        printf("%s %.2f\n", programs[p].name, all / (double)cuts);
    }
    return 0;
}
