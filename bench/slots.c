/* How many nodes the search for a node looks at, by how its first slot is chosen.

   slots FILE..    trees; the part of a file's name before its first dot is the tree's name

   A probe is a node looked at: a link of a chain followed. The plain program (plain.c) makes the library's tables by the library's
   steps, which is checked number for number; its searches are written down, and followed again under each choice and with three lengths
   of `heads`. What the slot is decides no number, so that the searches are the same under all of them.

   Beside them stands what a random slot gives in the mean: of c nodes in so many slots, c / slots are looked at where the node is not there;
   where it is, itself and 1 / slots for each node that was added after it, since a chain begins with its latest. */

#include "matticklet.h"
#include <stdlib.h>

static void searched(int in_cuts, uint32_t event, uint32_t failed, uint32_t sound, uint32_t node);
#define SEARCHED(s, event, failed, sound, node) searched((s)->nodes != NULL, event, failed, sound, node)
#define matticklet_analyse plain_analyse
#define matticklet_bracket plain_bracket
#include "plain.c"
#undef matticklet_analyse

enum { CAPACITY = 1000000, AREA = CAPACITY + 2, MEMO = 4 * CAPACITY, TABLES = 2, LISTS = 2, AREAS = 9, LENGTHS = 3 };
static const u32 lengths[LENGTHS] = {1, 2, 10}; /* of the larger table, so many times */

typedef struct {
    u32 event, failed, sound, node; /* 0: it was not there, and was added */
} Search;

static struct {
    Search *search;
    size_t count, room;
} asked[TABLES];

static void *lent(size_t bytes)
{
    void *area = malloc(bytes);
    if (!area) exit(2);
    return area;
}

static void searched(int in_cuts, u32 event, u32 failed, u32 sound, u32 node)
{
    if (asked[in_cuts].count == asked[in_cuts].room) {
        asked[in_cuts].room = 2 * asked[in_cuts].room + 1024;
        asked[in_cuts].search = realloc(asked[in_cuts].search, asked[in_cuts].room * sizeof(Search));
        if (!asked[in_cuts].search) exit(2);
    }
    asked[in_cuts].search[asked[in_cuts].count++] = (Search){event, failed, sound, node};
}

/* The choices: three numbers and the slots. The first is the library's before, the last its present one. */
static u32 sum(u32 e, u32 f, u32 s, u32 slots) { return scaled(mix(e, f, s), slots); }
static u32 other_sum(u32 e, u32 f, u32 s, u32 slots) { return scaled(e * 3266489917u + f * 2654435761u + s * 2246822519u, slots); }
static u32 golden_sum(u32 e, u32 f, u32 s, u32 slots) { return scaled(e * 668265263u + f * 2654435769u + s * 374761393u, slots); }
static u32 wide_sum(u32 e, u32 f, u32 s, u32 slots)
{
    return scaled((u32)((e * 0x9E3779B97F4A7C15u + f * 0xC2B2AE3D27D4EB4Fu + s * 0x165667B19E3779F9u) >> 32), slots);
}
static u32 remainder_of_sum(u32 e, u32 f, u32 s, u32 slots) { return mix(e, f, s) % slots; }
static u32 pair(u32 a, u32 b) { return (a + b) * (a + b + 1) / 2 + a; }
static u32 pairs(u32 e, u32 f, u32 s, u32 slots) { return pair(s, pair(e, f)) % slots; }
static u32 halves(u32 e, u32 f, u32 s, u32 slots) { return scaled((f + e * 906908087u) * (s * 2345438706u + 1641373853u), slots); }
static u32 square(u32 e, u32 f, u32 s, u32 slots)
{
    u32 y = mix(e, f, s);
    return scaled(y * y, slots);
}
static u32 permuted(u32 e, u32 f, u32 s, u32 slots)
{
    u32 y = mix(e, f, s);
    return scaled(y * (2 * y + 1), slots);
}
static u32 shifted(u32 e, u32 f, u32 s, u32 slots)
{
    u32 y = mix(e, f, s);
    return scaled((y ^ y >> 15) * 2246822519u, slots);
}
static u64 stirred(u64 z)
{
    z = (z ^ z >> 30) * 0xBF58476D1CE4E5B9u;
    z = (z ^ z >> 27) * 0x94D049BB133111EBu;
    return z ^ z >> 31;
}
static u32 stirred_well(u32 e, u32 f, u32 s, u32 slots) { return scaled((u32)(stirred(stirred((u64)f << 32 | s) + e) >> 32), slots); }
static u32 chosen(u32 e, u32 f, u32 s, u32 slots) { return first_slot(e, f, s, slots); }

static const struct {
    const char *name;
    u32 (*slot)(u32, u32, u32, u32);
} choices[] = {
    {"sum of three products (before)", sum},
    {"the same with other factors", other_sum},
    {"the same with 2^32 over the golden ratio", golden_sum},
    {"the same in 64 bits, the high half", wide_sum},
    {"the sum's remainder by the slots", remainder_of_sum},
    {"BuDDy's pairs of pairs, their remainder", pairs},
    {"a factor of failed and event, one of sound", halves},
    {"the sum, shifted, xored, multiplied", shifted},
    {"the sum y as y y", square},
    {"the sum y as y (2 y + 1)", permuted},
    {"a long mixing in 64 bits", stirred_well},
    {"the sum times the sum at event 0 (after)", chosen},
};
enum { CHOICES = sizeof choices / sizeof choices[0], BEFORE = 0, AFTER = CHOICES - 1, MOST_TREES = 32, ROWS = MOST_TREES * TABLES * LENGTHS };

typedef struct {
    double random; /* looked at in vain by a random slot, in the mean */
    u64 in_vain[CHOICES], found, nodes;
    u32 longest[CHOICES];
} Row;
static Row rows[ROWS];

static void follow(int table, u32 slots, Row *row)
{
    u32 *heads = lent(4 * (size_t)slots), *next = lent(4 * AREA), *length = lent(4 * (size_t)slots);
    for (int choice = 0; choice < CHOICES; choice++) {
        u32 count = 0;
        memset(heads, 0, 4 * (size_t)slots);
        memset(length, 0, 4 * (size_t)slots);
        for (const Search *q = asked[table].search; q < asked[table].search + asked[table].count; q++) {
            u32 h = choices[choice].slot(q->event, q->failed, q->sound, slots), node = heads[h];
            for (; node != q->node && node != 0; node = next[node - 2]) row->in_vain[choice]++;
            if (node != q->node) exit(3);
            if (choice == BEFORE) row->found += q->node != 0;
            if (choice == BEFORE) row->random += (q->node ? (double)(count + 1 - q->node) : (double)count) / slots;
            if (q->node) continue;
            next[count] = heads[h];
            heads[h] = count++ + 2;
            if (++length[h] > row->longest[choice]) row->longest[choice] = length[h];
        }
        row->nodes = count;
    }
    free(heads);
    free(next);
    free(length);
}

typedef struct {
    u32 *area[AREAS]; /* nodes, cuts; gates, added; memo, heads, next, marks, own */
    struct matticklet_analysis answer;
} Analysis;

static Analysis of_tree(const char *file, int plain)
{
    static uint8_t bytes[MATTICKLET_TREE_BYTES + 1];
    static const size_t of[AREAS] = {3 * CAPACITY, 3 * CAPACITY, MATTICKLET_GATES, MATTICKLET_GATES, MEMO, AREA, AREA, AREA, AREA};
    FILE *opened = fopen(file, "rb");
    size_t length = opened ? fread(bytes, 1, sizeof bytes, opened) : 0;
    if (!length || fclose(opened)) exit(2);
    Analysis a;
    for (int i = 0; i < AREAS; i++) a.area[i] = lent(4 * of[i]);
    u32 **m = a.area;
    (plain ? plain_analyse : matticklet_analyse)(bytes, length, m[0], of[0], m[1], of[1], m[2], of[2], m[3], of[3], m[4], of[4], m[5],
                                                 of[5], m[6], of[6], m[7], of[7], m[8], of[8], &a.answer);
    return a;
}

/* The plain program's searches, once its tables are found to be the library's. */
static void search_in(const char *file)
{
    asked[0].count = asked[1].count = 0;
    Analysis plain = of_tree(file, 1), library = of_tree(file, 0);
    int same = !memcmp(&plain.answer, &library.answer, sizeof plain.answer);
    for (int table = 0; table < TABLES; table++) same &= !memcmp(plain.area[table], library.area[table], 12 * CAPACITY);
    for (int list = TABLES; list < TABLES + LISTS; list++) same &= !memcmp(plain.area[list], library.area[list], 4 * MATTICKLET_GATES);
    if (plain.answer.number || !same) {
        printf("%s: %s\n", file, same ? "refused" : "the plain program's tables are not the library's");
        exit(1);
    }
    for (int i = 0; i < AREAS; i++) free(plain.area[i]), free(library.area[i]);
}

static void print_probes(const char *name, int table, u32 slots, const Row *row)
{
    printf("| %s | %s | %llu | %zu | %u | %.0f | %llu | %llu | %.2f | %.2f | %u | %u |\n", name, table ? "cuts" : "nodes",
           (unsigned long long)row->nodes, asked[table].count, slots, row->random + row->found,
           (unsigned long long)(row->in_vain[BEFORE] + row->found), (unsigned long long)(row->in_vain[AFTER] + row->found),
           row->in_vain[BEFORE] / row->random, row->in_vain[AFTER] / row->random, row->longest[BEFORE], row->longest[AFTER]);
}

/* In vain beside random, of rows with at least 1,000 looked at in vain; and the longest chain of all. */
static void print_choices(int count)
{
    printf("\n| choice | least | middle | most | all rows together | longest chain |\n|---|---:|---:|---:|---:|---:|\n");
    for (int choice = 0; choice < CHOICES; choice++) {
        double ratio[ROWS], in_vain = 0, random = 0;
        int used = 0;
        u32 longest = 0;
        for (const Row *row = rows; row < rows + count; row++) {
            if (row->longest[choice] > longest) longest = row->longest[choice];
            if (row->random < 1000) continue;
            double one = row->in_vain[choice] / row->random;
            int at = used++;
            for (; at > 0 && ratio[at - 1] > one; at--) ratio[at] = ratio[at - 1];
            ratio[at] = one;
            in_vain += row->in_vain[choice];
            random += row->random;
        }
        if (!used) return;
        printf("| %s | %.2f | %.2f | %.2f | %.3f | %u |\n", choices[choice].name, ratio[0], ratio[used / 2], ratio[used - 1], in_vain / random, longest);
    }
}

int main(int words, char **word)
{
    int count = 0;
    if (words < 2 || words > MOST_TREES) return 2;
    printf("| tree | table | nodes | searches | slots | probes: random | before | after | in vain, of random's: before | after | longest chain: before | after |\n");
    printf("|---|---|---:|---:|---:|---:|---:|---:|---:|---:|---:|---:|\n");
    for (int tree = 1; tree < words; tree++) {
        const char *slash = strrchr(word[tree], '/'), *start = slash ? slash + 1 : word[tree];
        char name[64];
        snprintf(name, sizeof name, "%.*s", (int)strcspn(start, "."), start);
        search_in(word[tree]);
        u32 larger = 0;
        for (int table = 0; table < TABLES; table++) {
            u32 nodes = 0;
            for (size_t i = 0; i < asked[table].count; i++) nodes += asked[table].search[i].node == 0;
            if (nodes > larger) larger = nodes;
        }
        for (int table = 0; table < TABLES; table++)
            for (int i = 0; i < LENGTHS; i++, count++) {
                u32 slots = lengths[i] * larger + 2;
                follow(table, slots, &rows[count]);
                print_probes(name, table, slots, &rows[count]);
            }
    }
    print_choices(count);
    return 0;
}
