/* Cuts by size from C: the trees in the files that are named are counted together, and a line printed for each size that occurs.
 * cc -Iinclude examples/c/sizes.c crates/exported/out/libexported.a -o sizes && ./sizes examples/corridor.tree */
#include <inttypes.h>
#include <stdio.h>

#include "matticklet.h"

enum { NODES = 65536, AREA = NODES + 2, MEMO = 4 * NODES, BYTES = MATTICKLET_TREES * MATTICKLET_TREE_BYTES };

static uint8_t bytes[BYTES + 1];
static size_t lengths[MATTICKLET_TREES];
static uint32_t nodes[3 * NODES], cuts[3 * NODES], gates[MATTICKLET_GATES], memo[MEMO];
static uint32_t heads[AREA], next[AREA], marks[AREA], own[AREA];
static uint64_t counts[MATTICKLET_SIZES], less[AREA], work[AREA], reached[AREA];

/* Appends a file to the bytes, as far as there is room: how many bytes it brought, or 0 if it can't be read. */
static size_t append(const char *name, size_t used)
{
    FILE *file = fopen(name, "rb");
    if (file == NULL)
        return 0;
    size_t length = fread(bytes + used, 1, sizeof bytes - used, file);
    fclose(file);
    return length;
}

int main(int words, char **word)
{
    size_t trees = 0, used = 0;
    if (words - 1 > MATTICKLET_TREES) {
        fprintf(stderr, "at most %d trees\n", MATTICKLET_TREES);
        return 2;
    }
    for (; trees + 1 < (size_t)words; trees++) {
        lengths[trees] = append(word[trees + 1], used);
        used += lengths[trees];
        if (lengths[trees] == 0 || used > BYTES) {
            fprintf(stderr, "no tree in %s\n", word[trees + 1]);
            return 2;
        }
    }
    struct matticklet_gathered g;
    matticklet_folder(bytes, used, lengths, trees, nodes, 3 * NODES, cuts, 3 * NODES, gates, MATTICKLET_GATES, memo, MEMO, heads,
                      AREA, next, AREA, marks, AREA, own, AREA, counts, MATTICKLET_SIZES, less, AREA, work, AREA, reached, AREA, &g);
    if (g.number == MATTICKLET_TOO_MANY) {
        printf("refused %" PRIu64 "\n", g.number);
        return 1;
    }
    if (g.number != MATTICKLET_DONE) {
        printf("refused %" PRIu64 " at %" PRIu64 ": %s\n", g.number, g.place, word[g.tree + 1]);
        return 1;
    }
    for (size_t size = 0; size < MATTICKLET_SIZES; size++)
        if (counts[size] != 0)
            printf("size %zu: %" PRIu64 "\n", size, counts[size]);
    return 0;
}
