/* The analyser's job in plain C, straight from the paper, behind the library's own header and with its table
   layouts: the yardstick for the library's instructions. Nothing is proved here, and reading trusts its bytes.

   Each call does all that the library's does: it clears what is lent, checks what number 12 checks, and leaves
   zeros. Reading a tree into memory and writing it have no counterpart here. The listing is in plain_listing.c. */

#include "plain.h"
#include <stdio.h>
#include <string.h>

#define FULL UINT32_MAX
#define D 1000000000u

enum { AND = 2, OR = 3, WITHOUT = 3, GATES_FROM = MATTICKLET_EVENTS };

/* A table that grows, and the memo beside it. heads[h] is the last stored node with hash h or 0, next[k] the last
   one before it. A place of the memo is operation, F, G, result: 1 and, 2 or, 3 without, 0 for empty. */
typedef struct {
    u32 *triples; /* event, failed, sound; node i at 3 (i - 2) */
    u32 *heads, *next, *memo;
    u32 count, capacity, slots, places;
    const u32 *nodes; /* the node table, while the cut table grows */
} Store;

typedef struct {
    u32 events, gates;
    uint8_t kind[MATTICKLET_GATES], k[MATTICKLET_GATES], n[MATTICKLET_GATES];
    uint16_t input[MATTICKLET_INPUTS]; /* event e is e, gate g is GATES_FROM + g */
} Tree;

#ifdef PROBES
static u64 finds, links, questions, hits;
#define COUNT(what) ((what)++)
void plain_probes(void)
{
    printf("finds %llu links %llu questions %llu hits %llu\n", (unsigned long long)finds, (unsigned long long)links,
           (unsigned long long)questions, (unsigned long long)hits);
}
#else
#define COUNT(what) ((void)0)
#endif

#ifndef SEARCHED
#define SEARCHED(s, event, failed, sound, node) ((void)0)
#endif

/* The library's mixing, and a number of 32 bits scaled to so many places: never a remainder by a variable. */
static inline u32 mix(u32 a, u32 b, u32 c) { return a * 906908087u + b * 1641373853u + c * 2345438705u; }
static inline u32 scaled(u32 y, u32 places) { return (u32)(((u64)y * places) >> 32); }

static inline u32 first_slot(u32 event, u32 failed, u32 sound, u32 slots)
{
    return scaled(mix(event, failed, sound) * mix(0, failed, sound), slots);
}

static inline u32 find_or_add(Store *s, u32 event, u32 failed, u32 sound)
{
    u32 h = first_slot(event, failed, sound, s->slots);
    COUNT(finds);
    for (u32 node = s->heads[h]; node != 0; node = s->next[(u64)node - 2]) {
        COUNT(links);
        const u32 *triple = s->triples + 3 * (u64)node - 6;
        if (triple[0] == event && triple[1] == failed && triple[2] == sound) {
            SEARCHED(s, event, failed, sound, node);
            return node;
        }
    }
    u32 count = s->count;
    if (count == s->capacity) return FULL;
    SEARCHED(s, event, failed, sound, 0);
    u32 *triple = s->triples + 3 * (u64)count;
    triple[0] = event;
    triple[1] = failed;
    triple[2] = sound;
    s->next[count] = s->heads[h];
    s->heads[h] = count + 2;
    s->count = count + 1;
    return count + 2;
}

/* Answers the memo's result, or FULL for "unknown" with the place where the result belongs. */
static inline u32 remembered(const Store *s, u32 operation, u32 f, u32 g, u32 *place)
{
    *place = scaled(mix(operation, f, g), s->places);
    const u32 *q = s->memo + 4 * (u64)*place;
    COUNT(questions);
    if (q[0] == operation && q[1] == f && q[2] == g) {
        COUNT(hits);
        return q[3];
    }
    return FULL;
}

static inline void remember(Store *s, u32 place, u32 operation, u32 f, u32 g, u32 result)
{
    u32 *q = s->memo + 4 * (u64)place;
    q[0] = operation;
    q[1] = f;
    q[2] = g;
    q[3] = result;
}

/* Equal operands, a leaf or a memo hit answer before any call; z is the leaf that decides. */
static inline u32 ask(const Store *s, u32 z, u32 *f, u32 *g, u32 *place)
{
    if (*f > *g) {
        u32 higher = *f;
        *f = *g;
        *g = higher;
    }
    if (*f == *g) return *f;
    if (*f < 2) return *f == z ? z : *g;
    return remembered(s, z + 1, *f, *g, place);
}

static u32 join_nodes(Store *s, u32 z, u32 f, u32 g, u32 place)
{
    const u32 *a = s->triples + 3 * (u64)f - 6, *b = s->triples + 3 * (u64)g - 6;
    u32 x = a[0], y = b[0], event = x, f1 = f, f0 = f, g1 = g, g0 = g, below = 0;
    if (x <= y) f1 = a[1], f0 = a[2];
    if (y <= x) g1 = b[1], g0 = b[2], event = y;
    u32 failed = ask(s, z, &f1, &g1, &below);
    if (failed == FULL && (failed = join_nodes(s, z, f1, g1, below)) == FULL) return FULL;
    u32 sound = ask(s, z, &f0, &g0, &below);
    if (sound == FULL && (sound = join_nodes(s, z, f0, g0, below)) == FULL) return FULL;
    u32 result = failed == sound ? failed : find_or_add(s, event, failed, sound);
    if (result != FULL) remember(s, place, z + 1, f, g, result);
    return result;
}

static inline u32 join(Store *s, u32 z, u32 f, u32 g)
{
    u32 place = 0;
    u32 known = ask(s, z, &f, &g, &place);
    return known != FULL ? known : join_nodes(s, z, f, g, place);
}

/* row[j] is at-least j of the inputs from i on; only the pairs that the rule reaches are made:
   j from k less the inputs before i, and no more than are left. */
static u32 at_least(Store *s, u32 k, u32 n, const u32 *operands)
{
    u32 row[MATTICKLET_GATE_INPUTS + 1] = {1};
    for (u32 i = n; i-- > 0;) {
        u32 left = n - i;
        u32 most = k < left ? k : left;
        u32 least = k > i ? k - i : 1;
        for (u32 j = most; j >= least; j--) {
            u32 both = join(s, 0, operands[i], row[j - 1]);
            if (both == FULL) return FULL;
            row[j] = join(s, 1, both, row[j]);
            if (row[j] == FULL) return FULL;
        }
    }
    return row[k];
}

/* The inputs that no earlier one is, at their first places; answers how many. */
static u32 distinct(u32 n, const uint16_t *input, uint16_t *own)
{
    u32 count = 0;
    for (u32 i = 0; i < n; i++) {
        u32 j = 0;
        while (j < count && own[j] != input[i]) j++;
        if (j == count) own[count++] = input[i];
    }
    return count;
}

static u32 gate_node(Store *s, const u32 *gates, u32 kind, u32 k, u32 n, const uint16_t *input)
{
    uint16_t own[MATTICKLET_GATE_INPUTS];
    if (kind != AND && kind != OR) n = distinct(n, input, own), input = own;
    u32 operands[MATTICKLET_GATE_INPUTS] = {0};
    for (u32 i = 0; i < n; i++) {
        operands[i] = input[i] < GATES_FROM ? find_or_add(s, input[i], 1, 0) : gates[input[i] - GATES_FROM];
        if (operands[i] == FULL) return FULL;
    }
    if (kind != AND && kind != OR) return at_least(s, k, n, operands);
    u32 node = operands[0];
    for (u32 i = 1; i < n && node != FULL; i++) node = join(s, kind - AND, node, operands[i]);
    return node;
}

static inline void clear(u32 *area, size_t length) { memset(area, 0, 4 * length); }

/* Gate by gate, with the nodes that each adds; answers the root's node, and at `gate` the one that fills the table. */
static u32 build(const Tree *tree, Store *s, u32 *gates, u32 *added, u64 *gate)
{
    const uint16_t *input = tree->input;
    u32 node = FULL;
    for (u32 g = 0; g < tree->gates; g++) {
        u32 before = s->count;
        node = gate_node(s, gates, tree->kind[g], tree->k[g], tree->n[g], input);
        if (node == FULL) {
            *gate = g;
            return FULL;
        }
        gates[g] = node;
        added[g] = s->count - before;
        input += tree->n[g];
    }
    return node;
}

/* The leaves and the memo. */
static inline u32 ask_without(const Store *s, u32 f, u32 g, u32 *place)
{
    if (f < 2 || g < 2) return g == 1 ? 0 : f;
    return remembered(s, WITHOUT, f, g, place);
}

/* F is a node of the cut table, G one of the node table, whose events before F's are passed over. */
static u32 without_nodes(Store *s, u32 f, u32 g, u32 place)
{
    const u32 *a = s->triples + 3 * (u64)f - 6;
    u32 event = a[0], f1 = a[1], f0 = a[2], g1, g0, below = 0;
    for (u32 h = g;;) {
        const u32 *b = s->nodes + 3 * (u64)h - 6;
        if (b[0] == event) {
            g1 = b[1], g0 = b[2];
            break;
        }
        if (b[0] < event && b[2] >= 2) {
            h = b[2];
            continue;
        }
        g1 = g0 = b[0] < event ? b[2] : h;
        break;
    }
    u32 failed = ask_without(s, f1, g1, &below);
    if (failed == FULL && (failed = without_nodes(s, f1, g1, below)) == FULL) return FULL;
    u32 sound = ask_without(s, f0, g0, &below);
    if (sound == FULL && (sound = without_nodes(s, f0, g0, below)) == FULL) return FULL;
    u32 result = failed == 0 ? sound : find_or_add(s, event, failed, sound);
    if (result != FULL) remember(s, place, WITHOUT, f, g, result);
    return result;
}

/* Marks what the root reaches going down the numbers, then goes up: one without and one find-or-add for
   each marked node. */
static u32 cuts_of(Store *s, u32 root, u32 *marks, u32 *own)
{
    marks[root] = 1;
    for (u32 node = root; node >= 2; node--)
        if (marks[node]) marks[failed_of(s->nodes, node)] = marks[sound_of(s->nodes, node)] = 1;
    own[0] = 0;
    own[1] = 1;
    for (u32 node = 2; node <= root; node++) {
        if (!marks[node]) continue;
        const u32 *triple = s->nodes + 3 * (u64)node - 6;
        u32 g = triple[2], f = own[triple[1]], sound = own[g], place = 0;
        u32 failed = ask_without(s, f, g, &place);
        if (failed == FULL && (failed = without_nodes(s, f, g, place)) == FULL) return FULL;
        u32 made = failed == 0 ? sound : find_or_add(s, triple[0], failed, sound);
        if (made == FULL) return FULL;
        own[node] = made;
    }
    return own[root];
}

static void decode(const uint8_t *b, Tree *tree)
{
    tree->events = tree->gates = 0;
    for (u32 inputs = 0;;) {
        switch (b[0]) {
        case 1: tree->events++, b += 5; break;
        case 0x11: tree->events++, b += 7; break;
        case 2: case 3: tree->kind[tree->gates] = b[0], tree->n[tree->gates++] = b[1], b += 2; break;
        case 4: tree->kind[tree->gates] = 4, tree->k[tree->gates] = b[1], tree->n[tree->gates++] = b[2], b += 3; break;
        case 5: tree->input[inputs++] = b[1], b += 2; break;
        case 6: tree->input[inputs++] = (uint16_t)(GATES_FROM + (b[1] | b[2] << 8)), b += 3; break;
        case 8: tree->input[inputs++] = (uint16_t)(b[1] | b[2] << 8), b += 3; break;
        default: return;
        }
    }
}

void matticklet_analyse(const uint8_t *bytes, size_t bytes_length, u32 *nodes, size_t nodes_length, u32 *cuts,
                        size_t cuts_length, u32 *gates, size_t gates_length, u32 *added, size_t added_length, u32 *memo,
                        size_t memo_length, u32 *heads, size_t heads_length, u32 *next, size_t next_length, u32 *marks,
                        size_t marks_length, u32 *own, size_t own_length, struct matticklet_analysis *answer)
{
    Tree tree;
    u64 gate = 0;
    (void)bytes_length;
    *answer = (struct matticklet_analysis){0};
    decode(bytes, &tree);

    clear(nodes, nodes_length);
    clear(heads, heads_length);
    clear(memo, memo_length);
    clear(gates, gates_length);
    clear(added, added_length);
    u32 one[4] = {0}; /* a memo of no place gives way to one of a single place */
    Store s = {nodes, heads, next, memo, 0, (u32)(nodes_length / 3), (u32)heads_length, (u32)(memo_length / 4), NULL};
    if (s.places == 0) s.memo = one, s.places = 1;
    u32 root = build(&tree, &s, gates, added, &gate);

    u32 count = s.count, cut_root = FULL;
    clear(cuts, cuts_length);
    clear(heads, heads_length);
    clear(memo, memo_length);
    clear(marks, marks_length);
    if (root != FULL) {
        Store c = s;
        c.triples = cuts;
        c.count = 0;
        c.capacity = (u32)(cuts_length / 3);
        c.nodes = nodes;
        clear(one, 4);
        cut_root = cuts_of(&c, root, marks, own);
        answer->cut_nodes = c.count;
        clear(memo, memo_length);
        clear(heads, heads_length);
        clear(marks, marks_length);
    }
    clear(next, next_length);
    clear(own, own_length);
    if (cut_root == FULL) {
        clear(nodes, nodes_length);
        clear(cuts, cuts_length);
        clear(gates, gates_length);
        clear(added, added_length);
        *answer = (struct matticklet_analysis){.number = root == FULL ? 10 : 11, .place = gate};
        return;
    }
    answer->nodes = count;
    answer->root = root;
    answer->cut_root = cut_root;
}

static inline u32 mixed(u64 a, u64 failed, u64 sound, u64 round) { return (u32)((a * failed + (D - a) * sound + round) / D); }

/* One pass upwards; low and high of every node in the two areas, of the leaves beside them. */
static inline u32 bound_of(const u32 *area, u32 node) { return node < 2 ? node * D : area[node - 2]; }

void matticklet_bracket(const u32 *nodes, size_t nodes_length, size_t events, size_t count, size_t root,
                        const u32 *chances, size_t chances_length, u32 *lows, size_t lows_length, u32 *highs,
                        size_t highs_length, struct matticklet_ends *answer)
{
    *answer = (struct matticklet_ends){0};
    if (!is_diagram(nodes, nodes_length, events, count, root, 0)) {
        answer->number = 12;
        return;
    }
    if (chances_length < events || lows_length < nodes_length / 3 || highs_length < nodes_length / 3) {
        answer->number = 9;
        return;
    }
    for (size_t e = 0; e < events; e++)
        if (chances[e] > D) {
            answer->number = 7;
            return;
        }
    for (u32 k = 0; k < count; k++) {
        const u32 *triple = nodes + 3 * (u64)k;
        u32 a = chances[triple[0]], failed = triple[1], sound = triple[2];
        lows[k] = mixed(a, bound_of(lows, failed), bound_of(lows, sound), 0);
        highs[k] = mixed(a, bound_of(highs, failed), bound_of(highs, sound), D - 1);
    }
    answer->low = bound_of(lows, (u32)root);
    answer->high = bound_of(highs, (u32)root);
    clear(lows, lows_length);
    clear(highs, highs_length);
}
