/* Case 1 from C: its analysis, its cuts in a small room at a time, and its bracket.
 * cc -Iinclude examples/c/case1.c crates/exported/out/libexported.a */
#include <inttypes.h>
#include <stdio.h>
#include <string.h>

#include "matticklet.h"

enum { NODES = 16, CUTS = 16, AREA = 16 + 2, MEMO = 4 * 64, ROOM = 8 };

/* Three events at 0.1; b1 = c1 and c2; b2 = c2 and c3; a = b1 or b2. */
static const uint8_t tree[] = {
    0x01, 0x00, 0xE1, 0xF5, 0x05, 0x01, 0x00, 0xE1, 0xF5, 0x05, 0x01, 0x00, 0xE1, 0xF5, 0x05,
    0x02, 2, 0x05, 0, 0x05, 1,
    0x02, 2, 0x05, 1, 0x05, 2,
    0x03, 2, 0x06, 0, 0, 0x06, 1, 0,
    0x07
};

static uint32_t nodes[3 * NODES], cuts[3 * CUTS], gates[MATTICKLET_GATES], added[MATTICKLET_GATES], memo[MEMO];
static uint32_t heads[AREA], next[AREA], marks[AREA], own[AREA];
static uint32_t chances[MATTICKLET_EVENTS];
static uint16_t sites[MATTICKLET_EVENTS];
static uint8_t kinds[MATTICKLET_GATES], leasts[MATTICKLET_GATES], sizes[MATTICKLET_GATES];
static uint16_t inputs[MATTICKLET_INPUTS];

static void print_cuts(const uint8_t *room, uint64_t used)
{
    const char *before = "";
    for (uint64_t i = 0; i < used; i++) {
        if (room[i] == MATTICKLET_CUT_END) {
            printf("\n");
            before = "";
        } else { /* no event of three needs MATTICKLET_WIDE_MEMBER */
            printf("%s%d", before, room[++i]);
            before = " ";
        }
    }
}

int main(void)
{
    struct matticklet_reading reading;
    matticklet_read(tree, sizeof tree, &reading, chances, sites, kinds, leasts, sizes, inputs);
    struct matticklet_analysis a;
    matticklet_analyse(tree, sizeof tree, nodes, 3 * NODES, cuts, 3 * CUTS, gates, MATTICKLET_GATES, added, MATTICKLET_GATES,
                       memo, MEMO, heads, AREA, next, AREA, marks, AREA, own, AREA, &a);
    if (reading.number != MATTICKLET_DONE || a.number != MATTICKLET_DONE) {
        printf("refused %" PRIu64 " at %" PRIu64 "\n", a.number, a.place);
        return 1;
    }
    printf("events %" PRIu64 "\ngates %" PRIu64 "\nnodes %" PRIu64 "\ncuts\n", reading.events, reading.gates, a.nodes);

    uint8_t room[ROOM];
    struct matticklet_listing l = { .finished = 0 };
    uint64_t after[MATTICKLET_SET_WORDS] = { 0 };
    for (bool begin = true; !l.finished; begin = false) {
        matticklet_list(cuts, 3 * CUTS, reading.events, a.cut_nodes, a.cut_root, begin, after, room, ROOM, &l);
        if (l.number != MATTICKLET_DONE)
            return 1;
        print_cuts(room, l.used);
        memcpy(after, l.last, sizeof after);
    }

    /* Work areas that served the analysis serve the bracket. */
    struct matticklet_ends e;
    matticklet_bracket(nodes, 3 * NODES, reading.events, a.nodes, a.root, chances, MATTICKLET_EVENTS, heads, AREA, next, AREA, &e);
    if (e.number != MATTICKLET_DONE)
        return 1;
    printf("top %" PRIu64 " %" PRIu64 "\n", e.low, e.high);
    return 0;
}
