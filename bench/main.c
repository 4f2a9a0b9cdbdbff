/* Runs the calls of include/matticklet.h over a tree and prints what they found. It is linked with the library
   or with plain.c, so both are asked the same in the same memory.

   main FILE [NODES CUTS MEMO [ROOM MOST]]
     NODES, CUTS   capacities of the two tables, in nodes
     MEMO          quadruples in the memo
     ROOM, MOST    bytes lent to each listing call; listing stops once MOST cuts are written

   Under callgrind (--collect-atstart=no) it dumps the instructions of five phases: read, build, cuts, list,
   bracket. An analysis is one call, so its phases are told apart by what it touches first: the two tables
   are lent as pages that may not be touched yet. The first touch of the node table ends the reading, the first
   touch of the cut table ends the build. */

#define _DEFAULT_SOURCE
#include "matticklet.h"
#include <signal.h>
#include <stdio.h>
#include <stdlib.h>
#include <string.h>
#include <sys/mman.h>

#if __has_include(<valgrind/callgrind.h>)
#include <valgrind/callgrind.h>
#else
#define CALLGRIND_TOGGLE_COLLECT
#define CALLGRIND_DUMP_STATS_AT(name)
#endif
#define COUNTED(what)             \
    do {                          \
        CALLGRIND_TOGGLE_COLLECT; \
        what;                     \
        CALLGRIND_TOGGLE_COLLECT; \
    } while (0)

typedef unsigned long long number;
enum { PAGE = 4096 };

static struct {
    uint32_t *start;
    size_t length; /* numbers */
    size_t bytes;  /* whole pages */
} guarded[2];

static uint32_t *area(size_t numbers)
{
    uint32_t *lent = malloc(4 * numbers + 4);
    if (!lent) exit(2);
    memset(lent, 0xA5, 4 * numbers + 4);
    return lent;
}

/* An area on pages of its own; what it holds is not zero. */
static uint32_t *pages(int which, size_t numbers)
{
    size_t bytes = (4 * numbers / PAGE + 1) * PAGE;
    void *start = mmap(NULL, bytes, PROT_READ | PROT_WRITE, MAP_PRIVATE | MAP_ANONYMOUS, -1, 0);
    if (start == MAP_FAILED) exit(2);
    memset(start, 0xA5, bytes);
    guarded[which].start = start;
    guarded[which].length = numbers;
    guarded[which].bytes = bytes;
    return start;
}

static void touched(int signal, siginfo_t *what, void *context)
{
    CALLGRIND_TOGGLE_COLLECT;
    (void)signal, (void)context;
    for (int which = 0; which < 2; which++) {
        char *start = (char *)guarded[which].start;
        if ((char *)what->si_addr < start || start + guarded[which].bytes <= (char *)what->si_addr) continue;
        if (mprotect(start, guarded[which].bytes, PROT_READ | PROT_WRITE)) _Exit(3);
        if (which == 0) CALLGRIND_DUMP_STATS_AT("read");
        if (which == 1) CALLGRIND_DUMP_STATS_AT("build");
        CALLGRIND_TOGGLE_COLLECT;
        return;
    }
    _Exit(3);
}

static void watch(void)
{
    struct sigaction on_touch = {0};
    on_touch.sa_sigaction = touched;
    on_touch.sa_flags = SA_SIGINFO;
    if (sigaction(SIGSEGV, &on_touch, NULL)) exit(2);
    for (int which = 0; which < 2; which++)
        if (mprotect(guarded[which].start, guarded[which].bytes, PROT_NONE)) exit(2);
}

static void list_all(const struct matticklet_analysis *a, size_t events, size_t room_length, number most)
{
    const uint32_t *cuts = guarded[1].start;
    uint8_t *room = (uint8_t *)area(room_length / 4 + 1);
    number written = 0, used = 0, sum = 0;
    struct matticklet_listing l = {0};
    uint64_t after[MATTICKLET_SET_WORDS] = {0};
    bool begin = true;
    do {
        COUNTED(matticklet_list(cuts, guarded[1].length, events, a->cut_nodes, a->cut_root, begin, after, room, room_length, &l));
        if (l.number) break;
        begin = false;
        memcpy(after, l.last, sizeof after);
        written += l.cuts;
        used += l.used;
        for (size_t i = 0; i < l.used; i++) sum = sum * 31 + room[i];
    } while (!l.finished && written < most);
    CALLGRIND_DUMP_STATS_AT("list");
    printf("cuts %llu bytes %llu sum %016llx%s\n", written, used, sum, l.finished ? " finished" : "");
    free(room);
}

/* Only what an accepted tree needs: its events' chances, and how many gates it has. */
static size_t chances_of(const uint8_t *b, uint32_t *chances, size_t *gates)
{
    static const uint8_t width[] = {[1] = 5, [2] = 2, [3] = 2, [4] = 3, [5] = 2, [6] = 3, [8] = 3, [0x11] = 7};
    size_t events = 0;
    for (*gates = 0; b[0] != 7; b += width[b[0]]) {
        if (b[0] == 1 || b[0] == 0x11) chances[events++] = b[1] | b[2] << 8 | b[3] << 16 | (uint32_t)b[4] << 24;
        *gates += b[0] >= 2 && b[0] <= 4;
    }
    return events;
}

#ifdef PROBES
void plain_probes(void);
#endif

int main(int words, char **word)
{
    static uint8_t bytes[MATTICKLET_TREE_BYTES + 1];
    static uint32_t chances[MATTICKLET_EVENTS];
    if (words < 2) return 2;
    FILE *file = fopen(word[1], "rb");
    size_t length = file ? fread(bytes, 1, sizeof bytes - 1, file) : 0;
    if (!length) return 2;
    bytes[length] = 7;
    fclose(file);
    size_t nodes = words > 2 ? strtoull(word[2], 0, 10) : 1000000, cuts = words > 3 ? strtoull(word[3], 0, 10) : 1000000;
    size_t memo = 4 * (words > 4 ? strtoull(word[4], 0, 10) : 1000000);
    size_t room = words > 5 ? strtoull(word[5], 0, 10) : 65536;
    number most = words > 6 ? strtoull(word[6], 0, 10) : 100000;

    size_t each = (nodes > cuts ? nodes : cuts) + 2, gates;
    uint32_t *heads = area(each), *next = area(each), *marks = area(each), *own = area(each);
    uint32_t *lent_memo = area(memo), *list = area(MATTICKLET_GATES), *added = area(MATTICKLET_GATES);
    uint32_t *lent_nodes = pages(0, 3 * nodes), *lent_cuts = pages(1, 3 * cuts);
    watch();
    struct matticklet_analysis a;
    COUNTED(matticklet_analyse(bytes, length, lent_nodes, 3 * nodes, lent_cuts, 3 * cuts, list, MATTICKLET_GATES, added,
                               MATTICKLET_GATES, lent_memo, memo, heads, each, next, each, marks, each, own, each, &a));
    CALLGRIND_DUMP_STATS_AT("cuts");
    if (a.number) {
        printf("refused %llu at %llu\n", (number)a.number, (number)a.place);
        return 0;
    }
    size_t events = chances_of(bytes, chances, &gates);
    printf("events %zu\ngates %zu\nnodes %llu\nadded", events, gates, (number)a.nodes);
    for (size_t g = 0; g < gates; g++) printf(" %llu", (number)added[g]);
    printf("\ncut nodes %llu\n", (number)a.cut_nodes);
    list_all(&a, events, room, most);
    struct matticklet_ends e;
    COUNTED(matticklet_bracket(lent_nodes, 3 * nodes, events, a.nodes, a.root, chances, events, marks, each, own, each, &e));
    CALLGRIND_DUMP_STATS_AT("bracket");
    if (e.number) return 3;
    printf("top %llu %llu\n", (number)e.low, (number)e.high);
#ifdef PROBES
    plain_probes();
#endif
    return 0;
}
