/* What an analysis leaves in all that it is lent, for tests/tables.

   tables NODES CUTS MEMO FILE..    capacities in nodes, quadruples in the memo
   For each tree: the answer and every lent number, as bytes, to the standard output; behind the last the number of trees.
   With SPOIL=N in the environment one number of the N-th tree's memory is told wrong: tests/tables must notice it. */

#include "matticklet.h"
#include <stdio.h>
#include <stdlib.h>
#include <string.h>

enum { AREAS = 9, DIRT = 0xA5 };

static void tell(const void *start, size_t bytes)
{
    if (fwrite(start, 1, bytes, stdout) != bytes) exit(3);
}

static void analyse(const char *file, const size_t length[AREAS], uint32_t *area[AREAS], int spoilt)
{
    static uint8_t bytes[MATTICKLET_TREE_BYTES + 1];
    FILE *opened = fopen(file, "rb");
    size_t of_tree = opened ? fread(bytes, 1, sizeof bytes, opened) : 0;
    if (!of_tree || fclose(opened)) exit(2);
    struct matticklet_analysis answer;
    for (int i = 0; i < AREAS; i++) memset(area[i], DIRT, 4 * length[i] + 4);
    memset(&answer, DIRT, sizeof answer);
    matticklet_analyse(bytes, of_tree, area[0], length[0], area[1], length[1], area[2], length[2], area[3], length[3], area[4],
                       length[4], area[5], length[5], area[6], length[6], area[7], length[7], area[8], length[8], &answer);
    if (spoilt) area[0][length[0] / 2] ^= 1;
    tell(&answer, sizeof answer);
    for (int i = 0; i < AREAS; i++) tell(area[i], 4 * length[i] + 4);
}

int main(int words, char **word)
{
    if (words < 5) return 2;
    size_t nodes = strtoull(word[1], 0, 10), cuts = strtoull(word[2], 0, 10), memo = strtoull(word[3], 0, 10);
    size_t each = (nodes > cuts ? nodes : cuts) + 2;
    const size_t length[AREAS] = {3 * nodes, 3 * cuts, MATTICKLET_GATES, MATTICKLET_GATES, 4 * memo, each, each, each, each};
    const char *spoil = getenv("SPOIL");
    long spoilt = spoil ? atol(spoil) : 0;
    uint32_t *area[AREAS];
    for (int i = 0; i < AREAS; i++)
        if (!(area[i] = malloc(4 * length[i] + 4))) return 2;
    for (int i = 4; i < words; i++) analyse(word[i], length, area, i - 3 == spoilt);
    printf("%d trees\n", words - 4);
    return 0;
}
