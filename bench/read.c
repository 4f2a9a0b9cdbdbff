/* Reads a tree by the library; callgrind counts the call alone.

   read FILE                    that tree
   read worst EVENTS [sites]    the longest tree of so many events that is accepted, from 256 on, with sites or without, made so that each search for a
                                use goes as far as it can: its first gates use event 0 and gate 0 alone, its last ones all else */

#include "matticklet.h"
#include <stdio.h>
#include <stdlib.h>
#include <string.h>
#include <valgrind/callgrind.h>

static uint8_t bytes[MATTICKLET_TREE_BYTES + 1], *end = bytes;

static void put(int kind, int a, int b)
{
    *end++ = (uint8_t)kind;
    if (kind != 7) *end++ = (uint8_t)a;
    if (kind == 4 || kind == 6 || kind == 8) *end++ = (uint8_t)b;
}

static void put_gate_input(int gate) { put(6, gate & 255, gate >> 8); }

static void put_event_input(int event) { put(event < 256 ? 5 : 8, event & 255, event >> 8); }

static void worst(int events, int sited)
{
    /* Used by the last gates: every event but event 0, every gate but gate 0 and the root; gate 0 again where there is room. */
    int used = events - 1 + MATTICKLET_GATES - 2;
    int last = (used + MATTICKLET_GATE_INPUTS - 1) / MATTICKLET_GATE_INPUTS, first = MATTICKLET_GATES - last;
    int again = MATTICKLET_GATE_INPUTS * last - used;
    for (int e = 0; e < events; e++) {
        *end++ = sited ? 0x11 : 1;
        memset(end, 0, 6);
        end += sited ? 6 : 4;
    }
    put(4, 1, 1);
    put_event_input(0);
    int rest = MATTICKLET_INPUTS - 1 - MATTICKLET_GATE_INPUTS * last;
    for (int g = 1; g < first; g++) {
        int n = rest / (first - 1) + (g <= rest % (first - 1));
        put(4, 1, n);
        while (n-- > 0) put_gate_input(0);
    }
    int event = 1, gate = 1;
    for (int g = first; g < MATTICKLET_GATES; g++) {
        put(4, 1, MATTICKLET_GATE_INPUTS);
        for (int i = 0; i < MATTICKLET_GATE_INPUTS; i++) {
            int own = i - MATTICKLET_GATE_INPUTS + last - 1; /* the root's last inputs are the gates before it */
            if (g == MATTICKLET_GATES - 1 && own >= 0) put_gate_input(first + own);
            else if (again > 0) put_gate_input(0), again--;
            else if (gate < first) put_gate_input(gate++);
            else put_event_input(event++);
        }
    }
    put(7, 0, 0);
}

int main(int words, char **word)
{
    static uint32_t chances[MATTICKLET_EVENTS];
    static uint8_t kinds[MATTICKLET_GATES], leasts[MATTICKLET_GATES], sizes[MATTICKLET_GATES];
    static uint16_t inputs[MATTICKLET_INPUTS], sites[MATTICKLET_EVENTS];
    if (words < 2) return 2;
    if (words > 2 && !strcmp(word[1], "worst"))
        worst(atoi(word[2]), words > 3);
    else {
        FILE *file = fopen(word[1], "rb");
        if (!file) return 2;
        end += fread(bytes, 1, sizeof bytes, file);
        fclose(file);
    }
    struct matticklet_reading r;
    CALLGRIND_TOGGLE_COLLECT;
    matticklet_read(bytes, (size_t)(end - bytes), &r, chances, sites, kinds, leasts, sizes, inputs);
    CALLGRIND_TOGGLE_COLLECT;
    CALLGRIND_DUMP_STATS_AT("read");
    printf("%d %llu\n", (int)(end - bytes), (unsigned long long)r.number);
    return 0;
}
