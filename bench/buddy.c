/* The same trees built by BuDDy, in the same order of events and by the same steps. Only building can be compared:
   BuDDy has no minimal cuts. Its tables are made before the count starts, as large as the library's.

   buddy FILE NODES MEMO */

#include "matticklet.h"
#include <bdd.h>
#include <stdio.h>
#include <stdlib.h>
#include <valgrind/callgrind.h>

static BDD joined(int or, BDD f, BDD g)
{
    BDD r = bdd_addref(or ? bdd_or(f, g) : bdd_and(f, g));
    bdd_delref(f);
    return r;
}

/* at-least by the pairs that its rule reaches, as in plain.c */
static BDD at_least(int k, int n, const BDD *operand)
{
    BDD row[MATTICKLET_GATE_INPUTS + 1];
    for (int j = 0; j <= k; j++) row[j] = j ? bddfalse : bddtrue;
    for (int i = n; i-- > 0;) {
        int most = k < n - i ? k : n - i, least = k > i ? k - i : 1;
        for (int j = most; j >= least; j--) {
            BDD both = bdd_addref(bdd_and(operand[i], row[j - 1]));
            row[j] = joined(1, row[j], both);
            bdd_delref(both);
        }
    }
    return row[k];
}

static BDD gate(const uint8_t **at, const BDD *gates)
{
    const uint8_t *b = *at;
    int kind = b[0], k = b[1], n = kind == 4 ? b[2] : b[1];
    BDD operand[MATTICKLET_GATE_INPUTS];
    int input[MATTICKLET_GATE_INPUTS], count = 0;
    b += kind == 4 ? 3 : 2;
    for (int i = 0; i < n; i++) {
        input[count] = b[0] == 5 ? b[1] : (b[0] == 6 ? MATTICKLET_EVENTS : 0) + (b[1] | b[2] << 8);
        b += b[0] == 5 ? 2 : 3;
        int j = 0; /* at-least counts each input once, at its first place */
        while (kind == 4 && input[j] != input[count]) j++;
        if (kind != 4 || j == count) count++;
    }
    *at = b;
    for (int i = 0; i < count; i++) operand[i] = input[i] < MATTICKLET_EVENTS ? bdd_ithvar(input[i]) : gates[input[i] - MATTICKLET_EVENTS];
    if (kind == 4) return at_least(k, count, operand);
    BDD r = bdd_addref(operand[0]);
    for (int i = 1; i < count; i++) r = joined(kind == 3, r, operand[i]);
    return r;
}

int main(int words, char **word)
{
    static uint8_t bytes[MATTICKLET_TREE_BYTES + 1];
    static BDD gates[MATTICKLET_GATES];
    if (words < 4) return 2;
    FILE *file = fopen(word[1], "rb");
    if (!file || !fread(bytes, 1, sizeof bytes - 1, file)) return 2;
    fclose(file);
    bdd_init(atoi(word[2]), atoi(word[3]));
    const uint8_t *b = bytes;
    int events = 0, count = 0;
    for (; b[0] == 1 || b[0] == 0x11; b += b[0] == 1 ? 5 : 7) events++;
    bdd_setvarnum(events);
    CALLGRIND_TOGGLE_COLLECT;
    while (b[0] != 7) {
        gates[count] = gate(&b, gates);
        count++;
    }
    CALLGRIND_TOGGLE_COLLECT;
    CALLGRIND_DUMP_STATS_AT("build");
    printf("events %d\ngates %d\nroot %d nodes\n", events, count, bdd_nodecount(gates[count - 1]));
    return 0;
}
