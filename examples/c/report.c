/* Reportable cuts from C: of the tree on the standard input, under an edition of the review rule; the edition that was told, then a line for each cut.
 * cc -Iinclude examples/c/report.c crates/exported/out/libexported.a -o report && ./report 2 < examples/corridor.tree */
#include <inttypes.h>
#include <stdio.h>
#include <stdlib.h>
#include <string.h>

#include "matticklet.h"

enum { NODES = 65536, AREA = NODES + 2, MEMO = 4 * NODES, ROOM = 65536 };

static uint8_t bytes[MATTICKLET_TREE_BYTES + 1], room[ROOM];
static uint32_t nodes[3 * NODES], cuts[3 * NODES], gates[MATTICKLET_GATES], added[MATTICKLET_GATES], memo[MEMO];
static uint32_t heads[AREA], next[AREA], marks[AREA], own[AREA];
static uint32_t chances[MATTICKLET_EVENTS];
static uint16_t sites[MATTICKLET_EVENTS], inputs[MATTICKLET_INPUTS];
static uint8_t kinds[MATTICKLET_GATES], leasts[MATTICKLET_GATES], sizes[MATTICKLET_GATES];

static void print_cuts(const uint8_t *cut, const uint8_t *end)
{
    for (const char *before = ""; cut < end;) {
        if (*cut == MATTICKLET_CUT_END) {
            printf("\n");
            before = "";
            cut++;
        } else {
            bool wide = *cut == MATTICKLET_WIDE_MEMBER;
            printf("%s%d", before, wide ? cut[1] | cut[2] << 8 : cut[1]);
            before = " ";
            cut += wide ? 3 : 2;
        }
    }
}

int main(int words, char **word)
{
    if (words != 2) {
        fprintf(stderr, "report EDITION\n");
        return 2;
    }
    size_t length = fread(bytes, 1, sizeof bytes, stdin);
    struct matticklet_reading reading;
    matticklet_read(bytes, length, &reading, chances, sites, kinds, leasts, sizes, inputs);
    struct matticklet_analysis a;
    matticklet_analyse(bytes, length, nodes, 3 * NODES, cuts, 3 * NODES, gates, MATTICKLET_GATES, added, MATTICKLET_GATES, memo,
                       MEMO, heads, AREA, next, AREA, marks, AREA, own, AREA, &a);
    if (reading.number != MATTICKLET_DONE || a.number != MATTICKLET_DONE) {
        printf("refused %" PRIu64 " at %" PRIu64 "\n", a.number, a.place);
        return 1;
    }
    /* Work areas that served the analysis serve the report. */
    struct matticklet_report r = { .finished = 0 };
    uint64_t after[MATTICKLET_SET_WORDS] = { 0 };
    for (bool begin = true; !r.finished; begin = false) {
        matticklet_report((uint32_t)strtoul(word[1], NULL, 10), cuts, 3 * NODES, reading.events, a.cut_nodes, a.cut_root, chances,
                          MATTICKLET_EVENTS, begin, after, room, ROOM, heads, AREA, next, AREA, &r);
        if (r.number != MATTICKLET_DONE) {
            printf("refused %" PRIu64 "\n", r.number);
            return 1;
        }
        if (begin)
            printf("edition %" PRIu64 "\n", r.edition);
        print_cuts(room, room + r.used);
        memcpy(after, r.last, sizeof after);
    }
    return 0;
}
