/* The stack that each call takes, on the deepest trees that the limits allow: every call runs on a stack of its own, painted before it, and what is
   painted no more is told in bytes.

   stack     no argument; one line for each call

   Three trees of 1,024 events: an or of ors, which joins diagrams of up to 960 levels; an and of ands, whose one cut has 1,024 members; and at least 2
   of 64 ors, with no memo, so that its cuts are found through as many levels. They recurse once for each event. Trees in memory go by value, so reading and
   writing count too. */

#define _GNU_SOURCE
#include "matticklet.h"
#include <pthread.h>
#include <stdio.h>
#include <stdlib.h>
#include <string.h>
#include <sys/mman.h>

enum { STACK = 16 << 20, PAINT = 0xA5, CAPACITY = 60000, AREA = CAPACITY + 2, MEMO = 4 * 32768, ROOM = 1 << 20 };

static uint8_t tree[MATTICKLET_TREE_BYTES + 64], text[MATTICKLET_TEXT_BYTES], room[ROOM], *stack;
static size_t tree_length, text_length, memo_length;
static uint32_t nodes[3 * CAPACITY], cuts[3 * CAPACITY], gates[MATTICKLET_GATES], added[MATTICKLET_GATES], memo[MEMO];
static uint32_t heads[AREA], next[AREA], marks[AREA], own[AREA], chances[MATTICKLET_EVENTS];
static uint32_t lows[MATTICKLET_EVENTS], highs[MATTICKLET_EVENTS], rank[MATTICKLET_EVENTS];
static uint64_t counts[MATTICKLET_SIZES], less[AREA], work[AREA], reached[AREA], below[2 * AREA], ways[2 * AREA];
static uint8_t kinds[MATTICKLET_GATES], leasts[MATTICKLET_GATES], sizes[MATTICKLET_GATES];
static uint16_t inputs[MATTICKLET_INPUTS], sites[MATTICKLET_EVENTS];
static uint32_t lists[11][MATTICKLET_TEXT_BYTES + 1];
static struct matticklet_reading reading;
static struct matticklet_writing writing;
static struct matticklet_move moved, back;
static struct matticklet_analysis analysis;
static struct matticklet_settings settings;
static struct matticklet_reply weighed;
static struct matticklet_listing listing;
static struct matticklet_missed missed;
static struct matticklet_held held;
static struct matticklet_checked checked;
static struct matticklet_proposal proposal;
static struct matticklet_ends ends;
static struct matticklet_report reported;
static struct matticklet_tally tally;
static struct matticklet_gathered gathered;
static struct matticklet_export exported;
static struct matticklet_import imported;
static struct matticklet_comparison comparison;
static struct matticklet_decided decided;

/* so many gates of this kind, the events shared out among them, and a root over them, of the same kind or at least k of them */
static void make(uint8_t kind, int parts, uint8_t k)
{
    uint8_t *at = tree;
    int each = MATTICKLET_EVENTS / parts;
    for (int e = 0; e < MATTICKLET_EVENTS; e++) *at++ = 1, memset(at, 0, 4), at += 4;
    for (int g = 0; g < parts; g++) {
        *at++ = kind, *at++ = (uint8_t)each;
        for (int e = each * g; e < each * g + each; e++) {
            *at++ = e < 256 ? 5 : 8, *at++ = (uint8_t)(e % 256);
            if (e >= 256) *at++ = (uint8_t)(e / 256);
        }
    }
    if (k) *at++ = 4, *at++ = k; else *at++ = kind;
    *at++ = (uint8_t)parts;
    for (int g = 0; g < parts; g++) *at++ = 6, *at++ = (uint8_t)g, *at++ = 0;
    *at++ = 7;
    tree_length = (size_t)(at - tree);
}

static void read_tree(void) { matticklet_read(tree, tree_length, &reading, chances, sites, kinds, leasts, sizes, inputs); }
static void write_tree(void)
{
    matticklet_write(reading.events, reading.gates, reading.sited, chances, sites, kinds, leasts, sizes, inputs, room, ROOM, &writing);
}
static void to_sites(void) { matticklet_to_sites(tree, tree_length, room, ROOM, &moved); }
static void from_sites(void) { matticklet_from_sites(room, moved.bytes, text, sizeof text, &back); }
static void analyse(void)
{
    matticklet_analyse(tree, tree_length, nodes, 3 * CAPACITY, cuts, 3 * CAPACITY, gates, MATTICKLET_GATES, added, MATTICKLET_GATES, memo, memo_length,
                       heads, AREA, next, AREA, marks, AREA, own, AREA, &analysis);
}
/* A store with a record for the last event, which is free again: the deepest diagrams stay. */
static const uint8_t store[2 * MATTICKLET_SETTING_BYTES] = { 0x31, 1, 0, 0xFF, 3, 1, 0x31, 2, 0, 0xFF, 3, 0 };
static void analyse_season(void)
{
    matticklet_analyse_season(tree, tree_length, store, sizeof store, 2, nodes, 3 * CAPACITY, cuts, 3 * CAPACITY, gates, MATTICKLET_GATES, added,
                              MATTICKLET_GATES, memo, memo_length, heads, AREA, next, AREA, marks, AREA, own, AREA, &analysis);
}
static void chances_under(void) { matticklet_chances_under(store, sizeof store, 2, chances, reading.events, &settings); }
static void list(void)
{
    static const uint64_t none[MATTICKLET_SET_WORDS];
    matticklet_list(cuts, 3 * CAPACITY, reading.events, analysis.cut_nodes, analysis.cut_root, true, none, room, ROOM, &listing);
}
static void bracket(void)
{
    matticklet_bracket(nodes, 3 * CAPACITY, reading.events, analysis.nodes, analysis.root, chances, reading.events, heads, AREA, next, AREA, &ends);
}
static void by_size(void)
{
    matticklet_sizes(cuts, 3 * CAPACITY, reading.events, analysis.cut_nodes, analysis.cut_root, counts, MATTICKLET_SIZES, less, AREA, work, AREA,
                     reached, AREA, &tally);
}
static void report(void)
{
    static const uint64_t none[MATTICKLET_SET_WORDS];
    matticklet_report(2, cuts, 3 * CAPACITY, reading.events, analysis.cut_nodes, analysis.cut_root, chances, reading.events, true, none, room, ROOM,
                      heads, AREA, next, AREA, &reported);
}
static const uint64_t no_event[MATTICKLET_SET_WORDS];
static void first_missing(void)
{
    matticklet_first_missing(cuts, 3 * CAPACITY, reading.events, analysis.cut_nodes, analysis.cut_root, no_event, heads, AREA, &missed);
}
static void holding(void)
{
    matticklet_holding(cuts, 3 * CAPACITY, reading.events, analysis.cut_nodes, analysis.cut_root, no_event, counts, MATTICKLET_SIZES, below, 2 * AREA, ways,
                       2 * AREA, &held);
}
static void plan(void)
{
    matticklet_plan(cuts, 3 * CAPACITY, reading.events, analysis.cut_nodes, analysis.cut_root, below, 2 * AREA, ways, 2 * AREA, &proposal);
}
static void check(void)
{
    matticklet_check(cuts, 3 * CAPACITY, reading.events, analysis.cut_nodes, analysis.cut_root, proposal.set, heads, AREA, &checked);
}
static void importance(void)
{
    matticklet_importance(nodes, 3 * CAPACITY, reading.events, analysis.nodes, analysis.root, chances, reading.events, lows, MATTICKLET_EVENTS, highs,
                          MATTICKLET_EVENTS, rank, MATTICKLET_EVENTS, heads, AREA, next, AREA, marks, AREA, &weighed);
}
static void compare(void) { matticklet_compare(room, listing.used, room, listing.used, &comparison); }
static void decides(void) { matticklet_decides(room, listing.used, reading.events, listing.last, &decided); }
static void folder(void)
{
    matticklet_folder(tree, tree_length, &tree_length, 1, nodes, 3 * CAPACITY, cuts, 3 * CAPACITY, gates, MATTICKLET_GATES, memo, memo_length, heads, AREA,
                      next, AREA, marks, AREA, own, AREA, counts, MATTICKLET_SIZES, less, AREA, work, AREA, reached, AREA, &gathered);
}
static void export_tree(void)
{
    matticklet_export(reading.events, reading.gates, reading.sited, chances, sites, kinds, leasts, sizes, inputs, text, sizeof text, &exported);
}
static void import_text(void)
{
    enum { LONG = MATTICKLET_TEXT_BYTES + 1 };
    matticklet_import(text, text_length, lists[0], LONG, lists[1], LONG, lists[2], LONG, lists[3], LONG, lists[4], LONG, lists[5], LONG, lists[6], LONG,
                      lists[7], LONG, lists[8], LONG, lists[9], LONG, lists[10], LONG, &imported, chances, sites, kinds, leasts, sizes, inputs);
}

static void *run(void *call) { ((void (*)(void))call)(); return NULL; }

/* The bytes that a call on a painted stack has changed, up from the lowest. */
static size_t taken(void (*call)(void))
{
    pthread_attr_t attr;
    pthread_t thread;
    memset(stack, PAINT, STACK);
    if (pthread_attr_init(&attr) || pthread_attr_setstack(&attr, stack, STACK) || pthread_create(&thread, &attr, run, (void *)call) || pthread_join(thread, NULL)) exit(2);
    size_t lowest = 0;
    while (lowest < STACK && stack[lowest] == PAINT) lowest++;
    return STACK - lowest;
}

static void nothing(void) {}

static int say(const char *name, void (*call)(void), size_t base, const uint64_t *number)
{
    printf("%-18s %8zu\n", name, taken(call) - base);
    if (number && *number != 0) { fprintf(stderr, "%s: answer %llu\n", name, (unsigned long long)*number); return 1; }
    return 0;
}

int main(void)
{
    static const char *const names[] = { "or of ors", "and of ands", "at least 2 of 64 ors" };
    int bad = 0;
    stack = mmap(NULL, STACK, PROT_READ | PROT_WRITE, MAP_PRIVATE | MAP_ANONYMOUS | MAP_STACK, -1, 0);
    if (stack == MAP_FAILED) return 2;
    size_t base = taken(nothing);
    for (int k = 0; k < 3; k++) {
        make(k == 1 ? 2 : 3, k == 2 ? 64 : 16, k == 2 ? 2 : 0);
        memo_length = k == 2 ? 0 : MEMO;
        printf("%s\n", names[k]);
        bad |= say("read", read_tree, base, &reading.number);
        bad |= say("write", write_tree, base, &writing.number);
        bad |= say("to sites", to_sites, base, &moved.number);
        bad |= say("from sites", from_sites, base, &back.number);
        bad |= say("analyse", analyse, base, &analysis.number);
        bad |= say("analyse season", analyse_season, base, &analysis.number);
        bad |= say("chances under", chances_under, base, &settings.number);
        bad |= say("list", list, base, &listing.number);
        bad |= say("compare", compare, base, &comparison.number);
        bad |= say("decides", decides, base, &decided.number);
        bad |= say("bracket", bracket, base, &ends.number);
        bad |= say("report", report, base, &reported.number);
        bad |= say("importance", importance, base, &weighed.number);
        bad |= say("sizes", by_size, base, &tally.number);
        bad |= say("first missing", first_missing, base, &missed.number);
        bad |= say("holding", holding, base, &held.number);
        bad |= say("plan", plan, base, &proposal.number);
        bad |= say("check", check, base, &checked.number);
        bad |= say("folder", folder, base, &gathered.number);
        bad |= say("export", export_tree, base, &exported.number);
        text_length = exported.bytes;
        bad |= say("import", import_text, base, &imported.number);
    }
    return bad;
}
