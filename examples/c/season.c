/* A tree in a season, from C: the tree on the standard input, a store of settings, and the edition that is asked for; the nodes, a line for each cut, and the two
 * numbers that enclose the root's chance there.
 * cc -Iinclude examples/c/season.c crates/exported/out/libexported.a -o season && ./season examples/corridor.store 1 < examples/corridor.tree */
#include <inttypes.h>
#include <stdio.h>
#include <stdlib.h>
#include <string.h>

#include "matticklet.h"

enum { NODES = 65536, AREA = NODES + 2, MEMO = 4 * NODES, ROOM = 65536, STORE = 1 << 20 };

static uint8_t bytes[MATTICKLET_TREE_BYTES + 1], store[STORE], room[ROOM];
static uint32_t nodes[3 * NODES], cuts[3 * NODES], gates[MATTICKLET_GATES], added[MATTICKLET_GATES], memo[MEMO];
static uint32_t heads[AREA], next[AREA], marks[AREA], own[AREA];
static uint32_t chances[MATTICKLET_EVENTS];
static uint16_t sites[MATTICKLET_EVENTS], inputs[MATTICKLET_INPUTS];
static uint8_t kinds[MATTICKLET_GATES], leasts[MATTICKLET_GATES], sizes[MATTICKLET_GATES];

static void print_cuts(const uint8_t *cut, const uint8_t *end)
{
    for (const char *before = ""; cut < end;) {
        if (*cut == MATTICKLET_CUT_END) {
            printf("\n");
            before = "";
            cut++;
        } else {
            bool wide = *cut == MATTICKLET_WIDE_MEMBER;
            printf("%s%d", before, wide ? cut[1] | cut[2] << 8 : cut[1]);
            before = " ";
            cut += wide ? 3 : 2;
        }
    }
}

static void print_all_cuts(size_t events, const struct matticklet_analysis *a)
{
    struct matticklet_listing l = { .finished = 0 };
    uint64_t after[MATTICKLET_SET_WORDS] = { 0 };
    for (bool begin = true; !l.finished; begin = false) {
        matticklet_list(cuts, 3 * NODES, events, a->cut_nodes, a->cut_root, begin, after, room, ROOM, &l);
        print_cuts(room, room + l.used);
        memcpy(after, l.last, sizeof after);
    }
}

int main(int words, char **word)
{
    FILE *settings = words == 3 ? fopen(word[1], "rb") : NULL;
    unsigned long edition = words == 3 ? strtoul(word[2], NULL, 10) : 0;
    if (settings == NULL || edition > UINT16_MAX) {
        fprintf(stderr, "season STORE EDITION\n");
        return 2;
    }
    size_t length = fread(bytes, 1, sizeof bytes, stdin), store_length = fread(store, 1, STORE, settings);
    struct matticklet_analysis a;
    matticklet_analyse_season(bytes, length, store, store_length, (uint16_t)edition, nodes, 3 * NODES, cuts, 3 * NODES, gates,
                              MATTICKLET_GATES, added, MATTICKLET_GATES, memo, MEMO, heads, AREA, next, AREA, marks, AREA, own,
                              AREA, &a);
    if (a.number != MATTICKLET_DONE) {
        printf("refused %" PRIu64 " at %" PRIu64 "\n", a.number, a.place);
        return 1;
    }
    /* The tree was accepted, so it is read; and so was the store, so the chances are changed. */
    struct matticklet_reading reading;
    struct matticklet_settings s;
    struct matticklet_ends ends;
    matticklet_read(bytes, length, &reading, chances, sites, kinds, leasts, sizes, inputs);
    matticklet_chances_under(store, store_length, (uint16_t)edition, chances, reading.events, &s);
    matticklet_bracket(nodes, 3 * NODES, reading.events, a.nodes, a.root, chances, reading.events, heads, AREA, next, AREA, &ends);
    printf("edition %lu\nnodes %" PRIu64 "\ncuts\n", edition, a.nodes);
    print_all_cuts(reading.events, &a);
    printf("top %" PRIu64 " %" PRIu64 "\n", ends.low, ends.high);
    return 0;
}
