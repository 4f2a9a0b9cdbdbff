/* Counts the cuts of a tree by size, by the library's call and by the same job in plain C, in the same memory, and prints the counts.

   sizes FILE NODES     NODES: capacity of both tables; every area is as short as it may be

   Under callgrind (--collect-atstart=no) it dumps the instructions of both: library, plain. It fails if they answer differently. */

#define _DEFAULT_SOURCE
#include "counted.h"
#include "plain.h"
#include <stdio.h>
#include <stdlib.h>
#include <string.h>

typedef unsigned long long number;
enum { SIZES = MATTICKLET_EVENTS + 1, MEMO = 4 * 65536 };

/* ---- the plain program */

static inline const u32 *triple(const u32 *cuts, u64 node) { return cuts + 3 * node - 6; }

/* Lists the nodes that the root reaches, in rising order; how many. */
static size_t list_reached(const u32 *cuts, size_t root, u64 *reached)
{
    memset(reached, 0, 8 * (root + 1));
    reached[root] = 1;
    for (size_t node = root; node >= 2; node--)
        if (reached[node]) reached[triple(cuts, node)[1]] = reached[triple(cuts, node)[2]] = 1;
    size_t many = 0;
    for (size_t node = 2; node <= root; node++)
        if (reached[node]) reached[many++] = node;
    return many;
}

/* The most members of a set: a failed branch adds one. */
static u64 largest_size(const u32 *cuts, size_t root, const u64 *reached, size_t many, u64 *work)
{
    work[0] = work[1] = 0;
    for (size_t p = 0; p < many; p++) {
        u64 failed = work[triple(cuts, reached[p])[1]] + 1, sound = work[triple(cuts, reached[p])[2]];
        work[reached[p]] = failed > sound ? failed : sound;
    }
    return work[root];
}

/* The counts of size k; 0 where one does not fit. */
static int one_size(const u32 *cuts, const u64 *reached, size_t many, u64 k, const u64 *less, u64 *work)
{
    work[0] = 0;
    work[1] = k == 0;
    for (size_t p = 0; p < many; p++) {
        u64 failed = less[triple(cuts, reached[p])[1]], sound = work[triple(cuts, reached[p])[2]];
        if (UINT64_MAX - failed < sound) return 0;
        work[reached[p]] = failed + sound;
    }
    return 1;
}

static u64 plain_sizes(const u32 *cuts, size_t cuts_length, size_t events, size_t count, size_t root, u64 *counts, size_t counts_length,
                       u64 *less, size_t less_length, u64 *work, size_t work_length, u64 *reached, size_t reached_length)
{
    if (!is_diagram(cuts, cuts_length, events, count, root, 1)) return 12;
    size_t least = cuts_length / 3 + 2;
    if (counts_length < SIZES || less_length < least || work_length < least || reached_length < least) return 9;
    u64 totals[SIZES] = {0};
    size_t many = list_reached(cuts, root, reached);
    u64 last = largest_size(cuts, root, reached, many, work);
    u64 *before = less, *after = work;
    int fits = 1;
    memset(before, 0, 8 * (root + 1));
    for (u64 k = 0; k <= last && fits; k++) {
        fits = one_size(cuts, reached, many, k, before, after);
        totals[k] = after[root];
        u64 *other = before;
        before = after;
        after = other;
    }
    memset(less, 0, 8 * less_length);
    memset(work, 0, 8 * work_length);
    memset(reached, 0, 8 * reached_length);
    if (!fits) return 19;
    memcpy(counts, totals, sizeof totals);
    return 0;
}

/* ---- both */

static void *memory(size_t bytes)
{
    void *lent = malloc(bytes);
    if (!lent) exit(2);
    memset(lent, 0xA5, bytes);
    return lent;
}

int main(int words, char **word)
{
    static uint8_t bytes[MATTICKLET_TREE_BYTES];
    if (words < 3) return 2;
    FILE *file = fopen(word[1], "rb");
    size_t length = file ? fread(bytes, 1, sizeof bytes, file) : 0, nodes = strtoull(word[2], 0, 10), each = nodes + 2, events = 0;
    if (!length) return 2;
    fclose(file);
    u32 *table = memory(12 * nodes), *cuts = memory(12 * nodes), *gates = memory(4 * MATTICKLET_GATES), *added = memory(4 * MATTICKLET_GATES);
    u32 *memo = memory(4 * MEMO), *heads = memory(4 * each), *next = memory(4 * each), *marks = memory(4 * each), *own = memory(4 * each);
    struct matticklet_analysis a;
    matticklet_analyse(bytes, length, table, 3 * nodes, cuts, 3 * nodes, gates, MATTICKLET_GATES, added, MATTICKLET_GATES, memo, MEMO,
                       heads, each, next, each, marks, each, own, each, &a);
    if (a.number) return 3;
    for (size_t i = 0; bytes[i] == 1 || bytes[i] == 0x11; i += bytes[i] == 1 ? 5 : 7) events++;
    u64 *mine = memory(8 * SIZES), *theirs = memory(8 * SIZES), *less = memory(8 * each), *work = memory(8 * each), *reached = memory(8 * each);
    struct matticklet_tally tally;
    u64 answer;
    COUNTED("library", matticklet_sizes(cuts, 3 * nodes, events, a.cut_nodes, a.cut_root, mine, SIZES, less, each, work, each, reached, each, &tally));
    COUNTED("plain", answer = plain_sizes(cuts, 3 * nodes, events, a.cut_nodes, a.cut_root, theirs, SIZES, less, each, work, each, reached, each));
    if (tally.number != answer || memcmp(mine, theirs, 8 * SIZES)) return 1;
    printf("%llu, %llu cut nodes:", (number)answer, (number)a.cut_nodes);
    for (int k = 0; answer == 0 && k < SIZES; k++)
        if (mine[k]) printf(" %d:%llu", k, (number)mine[k]);
    printf("\n");
    return 0;
}
