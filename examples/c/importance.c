/* Which event matters most, from C: a tree's events in order of rank, each with its two numbers of billionths.
 * cc -Iinclude examples/c/importance.c crates/exported/out/libexported.a -o importance && ./importance examples/case1.tree */
#include <inttypes.h>
#include <stdio.h>

#include "matticklet.h"

enum { NODES = 65536, AREA = NODES + 2, MEMO = 4 * NODES };

static uint8_t bytes[MATTICKLET_TREE_BYTES + 1];
static uint32_t nodes[3 * NODES], cuts[3 * NODES], gates[MATTICKLET_GATES], added[MATTICKLET_GATES], memo[MEMO];
static uint32_t heads[AREA], next[AREA], marks[AREA], own[AREA];
static uint32_t chances[MATTICKLET_EVENTS], lows[MATTICKLET_EVENTS], highs[MATTICKLET_EVENTS], rank[MATTICKLET_EVENTS];
static uint16_t sites[MATTICKLET_EVENTS], inputs[MATTICKLET_INPUTS];
static uint8_t kinds[MATTICKLET_GATES], leasts[MATTICKLET_GATES], sizes[MATTICKLET_GATES];

int main(int words, char **word)
{
    FILE *file = words == 2 ? fopen(word[1], "rb") : NULL;
    if (file == NULL) {
        fprintf(stderr, "importance TREE\n");
        return 2;
    }
    size_t length = fread(bytes, 1, sizeof bytes, file);
    fclose(file);
    struct matticklet_analysis a;
    matticklet_analyse(bytes, length, nodes, 3 * NODES, cuts, 3 * NODES, gates, MATTICKLET_GATES, added, MATTICKLET_GATES, memo, MEMO,
                       heads, AREA, next, AREA, marks, AREA, own, AREA, &a);
    if (a.number != MATTICKLET_DONE) {
        printf("refused %" PRIu64 " at %" PRIu64 "\n", a.number, a.place);
        return 1;
    }
    /* The tree was accepted, so it is read; and areas that served the analysis serve here. */
    struct matticklet_reading reading;
    struct matticklet_reply r;
    matticklet_read(bytes, length, &reading, chances, sites, kinds, leasts, sizes, inputs);
    matticklet_importance(nodes, 3 * NODES, reading.events, a.nodes, a.root, chances, reading.events, lows, MATTICKLET_EVENTS, highs,
                          MATTICKLET_EVENTS, rank, MATTICKLET_EVENTS, heads, AREA, next, AREA, marks, AREA, &r);
    for (uint64_t p = 0; p < reading.events; p++)
        printf("event %" PRIu32 ": %" PRIu32 " to %" PRIu32 " billionths\n", rank[p], lows[rank[p]], highs[rank[p]]);
    return 0;
}
