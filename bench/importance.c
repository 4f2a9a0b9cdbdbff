/* How much each event of a tree matters, by the library's one call and by its bracket called twice for each event, with the event failed and with it sound; prints
   how many events and nodes there are.

   importance FILE NODES     a tree; NODES: capacity of both tables

   Every area is as short as it may be. Under callgrind (--collect-atstart=no) it dumps the instructions of both: importance, brackets. It fails if they
   answer differently: an event of two zeros may have another plain difference, since the root does not depend on it. */

#define _DEFAULT_SOURCE
#include "counted.h"
#include "matticklet.h"
#include <stdio.h>
#include <stdlib.h>
#include <string.h>

typedef uint32_t u32;
typedef unsigned long long number;
enum { MEMO = 4 * 65536 };

static void *memory(size_t bytes)
{
    void *lent = malloc(bytes);
    if (!lent) exit(2);
    memset(lent, 0xA5, bytes);
    return lent;
}

static struct {
    u32 *nodes, *down, *up, *marks, chances[MATTICKLET_EVENTS];
    size_t capacity, events, count, root;
} lent;

struct weights {
    u32 lows[MATTICKLET_EVENTS], highs[MATTICKLET_EVENTS], rank[MATTICKLET_EVENTS];
};

static void analyse(const char *name, size_t nodes)
{
    static uint8_t bytes[MATTICKLET_TREE_BYTES];
    FILE *file = fopen(name, "rb");
    size_t length = file ? fread(bytes, 1, sizeof bytes, file) : 0, each = nodes + 2;
    if (!length) exit(2);
    fclose(file);
    lent.capacity = nodes;
    lent.nodes = memory(12 * nodes);
    u32 *cuts = memory(12 * nodes), *gates = memory(4 * MATTICKLET_GATES), *added = memory(4 * MATTICKLET_GATES), *memo = memory(4 * MEMO);
    u32 *heads = memory(4 * each), *next = memory(4 * each), *marks = memory(4 * each), *own = memory(4 * each);
    struct matticklet_analysis a;
    matticklet_analyse(bytes, length, lent.nodes, 3 * nodes, cuts, 3 * nodes, gates, MATTICKLET_GATES, added, MATTICKLET_GATES, memo, MEMO,
                       heads, each, next, each, marks, each, own, each, &a);
    if (a.number) exit(3);
    for (size_t i = 0; bytes[i] == bytes[0]; i += bytes[0] == 1 ? 5 : 7) memcpy(&lent.chances[lent.events++], bytes + i + 1, 4);
    lent.count = a.nodes;
    lent.root = a.root;
}

static void at_once(struct weights *w)
{
    struct matticklet_reply r;
    matticklet_importance(lent.nodes, 3 * lent.capacity, lent.events, lent.count, lent.root, lent.chances, lent.events, w->lows, lent.events,
                          w->highs, lent.events, w->rank, lent.events, lent.down, lent.capacity, lent.up, lent.capacity, lent.marks,
                          lent.capacity + 2, &r);
    if (r.number) exit(4);
}

static struct matticklet_ends bracket(void)
{
    struct matticklet_ends e;
    matticklet_bracket(lent.nodes, 3 * lent.capacity, lent.events, lent.count, lent.root, lent.chances, lent.events, lent.down, lent.capacity,
                       lent.up, lent.capacity, &e);
    if (e.number) exit(4);
    return e;
}

static void event_by_event(struct weights *w)
{
    for (size_t i = 0; i < lent.events; i++) {
        u32 own = lent.chances[i];
        lent.chances[i] = MATTICKLET_BILLION;
        struct matticklet_ends failed = bracket();
        lent.chances[i] = 0;
        struct matticklet_ends sound = bracket();
        lent.chances[i] = own;
        w->lows[i] = failed.low > sound.high ? (u32)(failed.low - sound.high) : 0;
        w->highs[i] = failed.high > sound.low ? (u32)(failed.high - sound.low) : 0;
    }
}

int main(int words, char **word)
{
    static struct weights once, each;
    if (words != 3) return 2;
    analyse(word[1], strtoull(word[2], 0, 10));
    lent.down = memory(4 * lent.capacity);
    lent.up = memory(4 * lent.capacity);
    lent.marks = memory(4 * (lent.capacity + 2));
    COUNTED("importance", at_once(&once));
    COUNTED("brackets", event_by_event(&each));
    for (size_t i = 0; i < lent.events; i++)
        if ((once.lows[i] || once.highs[i]) && (once.lows[i] != each.lows[i] || once.highs[i] != each.highs[i])) return 1;
    printf("%llu | %llu\n", (number)lent.events, (number)lent.count);
    return 0;
}
