/* What to keep sound, from C: a text on standard input is imported and its tree analysed; a set of its events is proposed, or the one that is named, and
 * checked. As long as the checker names a member that could be dropped, the set is checked again without it.
 * cc -Iinclude examples/c/plan.c crates/exported/out/libexported.a -o plan && ./plan < examples/corridor.txt && ./plan clockNorth server < examples/corridor.txt */
#include <inttypes.h>
#include <stdio.h>
#include <string.h>

#include "matticklet.h"

enum { TEXT = 65536, LISTS = 11, NODES = 65536, AREA = NODES + 2, MEMO = 4 * NODES };

static uint8_t text[TEXT + 1], bytes[MATTICKLET_TREE_BYTES];
static uint32_t lists[LISTS][TEXT + 1];
static uint32_t nodes[3 * NODES], cuts[3 * NODES], gates[MATTICKLET_GATES], added[MATTICKLET_GATES], memo[MEMO];
static uint32_t heads[AREA], next[AREA], marks[AREA], own[AREA];
static uint64_t below[2 * AREA], ways[2 * AREA];
static uint32_t chances[MATTICKLET_EVENTS];
static uint16_t sites[MATTICKLET_EVENTS], inputs[MATTICKLET_INPUTS];
static uint8_t kinds[MATTICKLET_GATES], leasts[MATTICKLET_GATES], sizes[MATTICKLET_GATES];

/* A tree as it was typed, and its cut diagram. */
struct tree {
    uint64_t events, gates, count, root;
    const uint32_t *shown; /* the offset of each event's name, and then of each gate's */
};

/* How many bytes the name has that stands at this offset. */
static int name_length(uint32_t offset)
{
    int n = 0;
    for (const uint8_t *at = text + offset; (*at >= '0' && *at <= '9') || (*at >= 'A' && *at <= 'Z') || (*at >= 'a' && *at <= 'z'); at++)
        n++;
    return n;
}

static void print_name(const struct tree *tree, uint64_t item)
{
    uint32_t offset = tree->shown[item];
    printf("%.*s", name_length(offset), (const char *)text + offset);
}

static void print_set(const struct tree *tree, const uint64_t *set)
{
    for (uint64_t e = 0; e < tree->events; e++)
        if (set[e / 64] >> (e % 64) & 1) {
            printf(" ");
            print_name(tree, e);
        }
    printf("\n");
}

/* The event of this name; as many as there are events, if there is none. */
static uint64_t event_of(const struct tree *tree, const char *name)
{
    for (uint64_t e = 0; e < tree->events; e++) {
        size_t length = (size_t)name_length(tree->shown[e]);
        if (strlen(name) == length && memcmp(name, text + tree->shown[e], length) == 0)
            return e;
    }
    return tree->events;
}

/* The number of a refusal, 0 if the tree is there. */
static uint64_t take_tree(struct tree *tree)
{
    size_t length = fread(text, 1, TEXT, stdin), most = TEXT + 1;
    struct matticklet_import m;
    matticklet_import(text, length, lists[0], most, lists[1], most, lists[2], most, lists[3], most, lists[4], most, lists[5], most,
                      lists[6], most, lists[7], most, lists[8], most, lists[9], most, lists[10], most, &m, chances, sites, kinds,
                      leasts, sizes, inputs);
    if (m.number != MATTICKLET_DONE)
        return m.number;
    struct matticklet_writing w;
    matticklet_write(m.events, m.gates, false, chances, sites, kinds, leasts, sizes, inputs, bytes, sizeof bytes, &w);
    struct matticklet_analysis a;
    matticklet_analyse(bytes, w.bytes, nodes, 3 * NODES, cuts, 3 * NODES, gates, MATTICKLET_GATES, added, MATTICKLET_GATES, memo,
                       MEMO, heads, AREA, next, AREA, marks, AREA, own, AREA, &a);
    *tree = (struct tree){ m.events, m.gates, a.cut_nodes, a.cut_root, lists[10] };
    return a.number;
}

/* The set of the names that were given, or else a proposal; the number of a refusal, 0 if it is there. */
static uint64_t take_set(const struct tree *tree, int words, char **word, uint64_t *set)
{
    if (words > 1) {
        for (int k = 1; k < words; k++) {
            uint64_t e = event_of(tree, word[k]);
            if (e == tree->events)
                return MATTICKLET_BEYOND;
            set[e / 64] |= (uint64_t)1 << (e % 64);
        }
        printf("asked:");
        print_set(tree, set);
        return MATTICKLET_DONE;
    }
    struct matticklet_proposal p;
    matticklet_plan(cuts, 3 * NODES, tree->events, tree->count, tree->root, below, 2 * AREA, ways, 2 * AREA, &p);
    if (p.number == MATTICKLET_DONE) {
        memcpy(set, p.set, sizeof p.set);
        printf("proposed:");
        print_set(tree, set);
    }
    return p.number;
}

/* Says what the checker says, and answers it. */
static uint64_t check(const struct tree *tree, uint64_t *set)
{
    uint64_t root = tree->events + tree->gates - 1;
    struct matticklet_checked c;
    matticklet_check(cuts, 3 * NODES, tree->events, tree->count, tree->root, set, heads, AREA, &c);
    switch (c.said) {
    case MATTICKLET_ACCEPTED:
        printf("accepted: ");
        print_name(tree, root);
        printf(" can't fail while these are sound:");
        print_set(tree, set);
        break;
    case MATTICKLET_CUT_MISSES:
        printf("not enough: ");
        print_name(tree, root);
        printf(" fails with");
        print_set(tree, c.cut);
        break;
    case MATTICKLET_DROPPABLE:
        printf("more than enough: ");
        print_name(tree, c.member);
        printf(" could be dropped\n");
        set[c.member / 64] &= ~((uint64_t)1 << (c.member % 64));
        break;
    default:
        printf("refused %" PRIu64 "\n", c.number);
    }
    return c.said;
}

int main(int words, char **word)
{
    struct tree tree;
    uint64_t set[MATTICKLET_SET_WORDS] = { 0 }, said = MATTICKLET_DROPPABLE;
    uint64_t number = take_tree(&tree);
    if (number == MATTICKLET_DONE)
        number = take_set(&tree, words, word, set);
    if (number != MATTICKLET_DONE) {
        printf("refused %" PRIu64 "\n", number);
        return 1;
    }
    while (said == MATTICKLET_DROPPABLE)
        said = check(&tree, set);
    return said == MATTICKLET_ACCEPTED ? 0 : 1;
}
