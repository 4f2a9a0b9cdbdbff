/* Two days compared from C: both trees are analysed and their cuts listed; then the first cut that is new or gone, and how many are.
 * cc -Iinclude examples/c/changes.c crates/exported/out/libexported.a -o changes && ./changes examples/case1.tree examples/case6.tree */
#include <inttypes.h>
#include <stdio.h>

#include "matticklet.h"

enum { NODES = 65536, AREA = NODES + 2, MEMO = 4 * NODES, ROOM = 1 << 24 };

static uint8_t rooms[2][ROOM];
static uint32_t nodes[3 * NODES], cuts[3 * NODES], gates[MATTICKLET_GATES], added[MATTICKLET_GATES], memo[MEMO];
static uint32_t heads[AREA], next[AREA], marks[AREA], own[AREA];

/* Lists the cuts of the tree in a file: how many bytes, or -1. */
static int64_t list_file(const char *name, uint8_t *room)
{
    uint8_t tree[MATTICKLET_TREE_BYTES + 1];
    FILE *file = fopen(name, "rb");
    if (file == NULL) {
        perror(name);
        return -1;
    }
    size_t length = fread(tree, 1, sizeof tree, file);
    fclose(file);
    struct matticklet_analysis a;
    matticklet_analyse(tree, length, nodes, 3 * NODES, cuts, 3 * NODES, gates, MATTICKLET_GATES, added, MATTICKLET_GATES, memo,
                       MEMO, heads, AREA, next, AREA, marks, AREA, own, AREA, &a);
    if (a.number != MATTICKLET_DONE) {
        printf("%s: refused %" PRIu64 " at %" PRIu64 "\n", name, a.number, a.place);
        return -1;
    }
    const uint64_t after[MATTICKLET_SET_WORDS] = { 0 };
    struct matticklet_listing l;
    matticklet_list(cuts, 3 * NODES, MATTICKLET_EVENTS, a.cut_nodes, a.cut_root, true, after, room, ROOM, &l);
    if (!l.finished) {
        printf("%s: more cuts than the room holds\n", name);
        return -1;
    }
    return (int64_t)l.used;
}

int main(int words, char **word)
{
    if (words != 3) {
        fprintf(stderr, "changes YESTERDAY TODAY\n");
        return 2;
    }
    int64_t yesterday = list_file(word[1], rooms[0]);
    int64_t today = list_file(word[2], rooms[1]);
    if (yesterday < 0 || today < 0)
        return 1;

    struct matticklet_difference d;
    struct matticklet_comparison c;
    matticklet_first_difference(rooms[0], (size_t)yesterday, rooms[1], (size_t)today, &d);
    matticklet_compare(rooms[0], (size_t)yesterday, rooms[1], (size_t)today, &c);
    if (d.side == MATTICKLET_NEITHER) {
        printf("equal");
    } else {
        const uint8_t *cut = rooms[d.side == MATTICKLET_TODAY] + d.offset;
        printf(d.side == MATTICKLET_TODAY ? "new:" : "gone:");
        while (*cut != MATTICKLET_CUT_END) {
            bool wide = *cut == MATTICKLET_WIDE_MEMBER;
            printf(" %d", wide ? cut[1] | cut[2] << 8 : cut[1]);
            cut += wide ? 3 : 2;
        }
    }
    printf("\n%" PRIu64 " gone, %" PRIu64 " new, %" PRIu64 " kept\n", c.gone, c.added, c.kept);
    return 0;
}
