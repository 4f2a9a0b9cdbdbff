/* Reports the cuts of a tree under edition 2, by the library's call and by the same plan in plain C (plain_report.c), in the same memory, and prints how many.

   report FILE NODES     a tree; NODES: capacity of both tables
   report pairs COUNT    a family of 2^COUNT cuts, all of them just below the edge, and one of two members behind them

   Every area is as short as it may be, the room is 1 MiB. Under callgrind (--collect-atstart=no) it dumps the instructions of both: library, plain. It
   fails if they answer differently. The plain program's report is compiled under a name of its own (see bench/report). */

#define _DEFAULT_SOURCE
#include "counted.h"
#include "plain.h"
#include <stdio.h>
#include <stdlib.h>
#include <string.h>

typedef unsigned long long number;
typedef void report(u32, const u32 *, size_t, size_t, size_t, size_t, const u32 *, size_t, bool, const u64[MATTICKLET_SET_WORDS], uint8_t *,
                    size_t, u32 *, size_t, u32 *, size_t, struct matticklet_report *);
report plain_report;
enum { MEMO = 4 * 65536, ROOM = 1 << 20 };

static void *memory(size_t bytes)
{
    void *lent = malloc(bytes);
    if (!lent) exit(2);
    memset(lent, 0xA5, bytes);
    return lent;
}

/* What both are lent. */
static struct {
    u32 *cuts, *few, *picks, chances[MATTICKLET_EVENTS];
    size_t capacity, events, count, root;
} lent;

static void analyse(const char *name, size_t nodes)
{
    static uint8_t bytes[MATTICKLET_TREE_BYTES];
    FILE *file = fopen(name, "rb");
    size_t length = file ? fread(bytes, 1, sizeof bytes, file) : 0, each = nodes + 2;
    if (!length) exit(2);
    fclose(file);
    lent.capacity = nodes;
    lent.cuts = memory(12 * nodes);
    u32 *table = memory(12 * nodes), *gates = memory(4 * MATTICKLET_GATES), *added = memory(4 * MATTICKLET_GATES), *memo = memory(4 * MEMO);
    u32 *heads = memory(4 * each), *next = memory(4 * each), *marks = memory(4 * each), *own = memory(4 * each);
    struct matticklet_analysis a;
    matticklet_analyse(bytes, length, table, 3 * nodes, lent.cuts, 3 * nodes, gates, MATTICKLET_GATES, added, MATTICKLET_GATES, memo, MEMO,
                       heads, each, next, each, marks, each, own, each, &a);
    if (a.number) exit(3);
    for (size_t i = 0; bytes[i] == bytes[0]; i += bytes[0] == 1 ? 5 : 7) memcpy(&lent.chances[lent.events++], bytes + i + 1, 4);
    lent.count = a.cut_nodes;
    lent.root = a.cut_root;
}

static u32 put(u32 event, u32 failed, u32 sound)
{
    u32 *triple = lent.cuts + 3 * lent.count++;
    triple[0] = event;
    triple[1] = failed;
    triple[2] = sound;
    return (u32)lent.count + 1;
}

/* One of each pair, 10^30 - 1 of 10^36 by the first four pairs; then the two last events. */
static void pairs(size_t count)
{
    static const u32 below[] = {787569631, 805471691, 758239261, 2079};
    lent.events = 2 * count + 2;
    if (count < 4 || lent.events > MATTICKLET_EVENTS) exit(2);
    lent.capacity = lent.events;
    lent.cuts = memory(12 * lent.capacity);
    u32 last = put((u32)(2 * count), put((u32)(2 * count + 1), 1, 0), 0), root = 1;
    for (size_t pair = count; pair-- > 0;) {
        u32 second = put((u32)(2 * pair + 1), root, pair == 0 ? last : 0);
        root = put((u32)(2 * pair), root, second);
        lent.chances[2 * pair] = lent.chances[2 * pair + 1] = pair < 4 ? below[pair] : MATTICKLET_BILLION;
    }
    lent.root = root;
}

static void made(report *call, uint8_t *room, struct matticklet_report *r)
{
    const u64 after[MATTICKLET_SET_WORDS] = {0};
    call(2, lent.cuts, 3 * lent.capacity, lent.events, lent.count, lent.root, lent.chances, lent.events, true, after, room, ROOM, lent.few,
         lent.capacity, lent.picks, lent.capacity, r);
}

int main(int words, char **word)
{
    if (words != 3) return 2;
    size_t many = strtoull(word[2], 0, 10);
    if (strcmp(word[1], "pairs") == 0)
        pairs(many);
    else
        analyse(word[1], many);
    lent.few = memory(4 * lent.capacity);
    lent.picks = memory(4 * lent.capacity);
    uint8_t *mine = memory(ROOM), *theirs = memory(ROOM);
    struct matticklet_report library, plain;
    COUNTED("library", made(matticklet_report, mine, &library));
    COUNTED("plain", made(plain_report, theirs, &plain));
    if (memcmp(&library, &plain, sizeof plain) || memcmp(mine, theirs, ROOM)) return 1;
    printf("%llu, %llu cut nodes, %llu cuts%s\n", (number)plain.number, (number)lent.count, (number)plain.cuts, plain.finished ? ", finished" : "");
    return 0;
}
