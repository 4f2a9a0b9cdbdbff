/* Typed equations from C: a text on standard input is imported, its tree analysed, and its cuts printed by the names that were typed; where the nodes
 * do not suffice, the name of the gate that filled their table.
 * cc -Iinclude examples/c/equations.c crates/exported/out/libexported.a -o equations && ./equations < examples/corridor.txt */
#include <inttypes.h>
#include <stdio.h>
#include <string.h>

#include "matticklet.h"

enum { TEXT = 65536, LISTS = 11, NODES = 65536, AREA = NODES + 2, MEMO = 4 * NODES, ROOM = 65536 };

static uint8_t text[TEXT], bytes[MATTICKLET_TREE_BYTES], room[ROOM];
static uint32_t lists[LISTS][TEXT + 1];
static uint32_t nodes[3 * NODES], cuts[3 * NODES], gates[MATTICKLET_GATES], added[MATTICKLET_GATES], memo[MEMO];
static uint32_t heads[AREA], next[AREA], marks[AREA], own[AREA];
static uint32_t chances[MATTICKLET_EVENTS];
static uint16_t sites[MATTICKLET_EVENTS];
static uint8_t kinds[MATTICKLET_GATES], leasts[MATTICKLET_GATES], sizes[MATTICKLET_GATES];
static uint16_t inputs[MATTICKLET_INPUTS];

/* The line that begins at this offset, counted from 1. */
static unsigned line_number(uint64_t offset)
{
    unsigned n = 1;
    for (uint64_t i = 0; i < offset; i++)
        n += text[i] == '\n';
    return n;
}

/* The name that stands at this offset. */
static void print_name(uint32_t offset)
{
    for (size_t i = offset; (text[i] >= '0' && text[i] <= '9') || (text[i] >= 'A' && text[i] <= 'Z') || (text[i] >= 'a' && text[i] <= 'z'); i++)
        putchar(text[i]);
}

static void print_cuts(const uint32_t *shown, uint64_t used)
{
    const char *before = "";
    for (const uint8_t *at = room; at < room + used;) {
        if (*at == MATTICKLET_CUT_END) {
            printf("\n");
            before = "";
            at++;
        } else {
            bool wide = *at == MATTICKLET_WIDE_MEMBER;
            printf("%s", before);
            print_name(shown[wide ? at[1] | at[2] << 8 : at[1]]);
            before = " ";
            at += wide ? 3 : 2;
        }
    }
}

static int refuse(const struct matticklet_import *m, const uint32_t *ring)
{
    printf("refused %" PRIu64, m->number);
    if (m->number == MATTICKLET_LINE || m->number == MATTICKLET_LEFT_TWICE)
        printf(": line %u", line_number(m->line));
    for (uint64_t i = 0; i < m->ring; i++)
        printf("%s line %u", i == 0 ? ": the ring of" : ",", line_number(ring[i]));
    printf("\n");
    return 1;
}

/* `shown` has the offset of each gate's name. */
static int refuse_analysis(const struct matticklet_analysis *a, const uint32_t *shown)
{
    printf("refused %" PRIu64, a->number);
    if (a->number == MATTICKLET_NODES_FULL) {
        printf(": full in ");
        print_name(shown[a->place]);
    }
    printf("\n");
    return 1;
}

int main(void)
{
    size_t length = fread(text, 1, TEXT, stdin), most = TEXT + 1;
    struct matticklet_import m;
    matticklet_import(text, length, lists[0], most, lists[1], most, lists[2], most, lists[3], most, lists[4], most, lists[5], most,
                      lists[6], most, lists[7], most, lists[8], most, lists[9], most, lists[10], most, &m, chances, sites, kinds,
                      leasts, sizes, inputs);
    const uint32_t *ring = lists[9], *shown = lists[10];
    if (m.number != MATTICKLET_DONE)
        return refuse(&m, ring);

    struct matticklet_writing w;
    matticklet_write(m.events, m.gates, false, chances, sites, kinds, leasts, sizes, inputs, bytes, sizeof bytes, &w);
    struct matticklet_analysis a;
    matticklet_analyse(bytes, w.bytes, nodes, 3 * NODES, cuts, 3 * NODES, gates, MATTICKLET_GATES, added, MATTICKLET_GATES, memo,
                       MEMO, heads, AREA, next, AREA, marks, AREA, own, AREA, &a);
    if (a.number != MATTICKLET_DONE)
        return refuse_analysis(&a, shown + m.events);
    struct matticklet_listing l = { .finished = 0 };
    uint64_t after[MATTICKLET_SET_WORDS] = { 0 };
    for (bool begin = true; !l.finished; begin = false) {
        matticklet_list(cuts, 3 * NODES, m.events, a.cut_nodes, a.cut_root, begin, after, room, ROOM, &l);
        if (l.number != MATTICKLET_DONE)
            return 1;
        print_cuts(shown, l.used);
        memcpy(after, l.last, sizeof after);
    }
    struct matticklet_ends e;
    matticklet_bracket(nodes, 3 * NODES, m.events, a.nodes, a.root, chances, MATTICKLET_EVENTS, heads, AREA, next, AREA, &e);
    printf("top %" PRIu64 " %" PRIu64 "\n", e.low, e.high);
    return 0;
}
