/* Times the import of long texts over include/matticklet.h, each shape with some equations and with ten times as many.

   import [EQUATIONS]    10,000 and ten times as many where no number is given

     chain       g0 = g1, g1 = g2 and so on: the walk goes as deep as there are lines
     backwards   the same lines from the last to the first
     mixed       the same lines in an order without a plan
     ring        the last line of a chain leads to its first
     wide        one root over so many gates
     events      one root over so many gates of two events each, and every chance

   A line for each: equations, bytes, number answered, the best of five times, and what a byte costs beside the shorter text of the same
   shape. Linear time is a ratio near 1; what memory costs more, once the lists outgrow the caches, is in it. */

#define _DEFAULT_SOURCE
#include "matticklet.h"
#include <stdio.h>
#include <stdlib.h>
#include <string.h>
#include <time.h>

enum { LISTS = 11, ROUNDS = 5, LINE = 64 };
enum shape { CHAIN, BACKWARDS, MIXED, RING, WIDE, EVENTS, SHAPES };
static const char *const names[SHAPES] = { "chain", "backwards", "mixed", "ring", "wide", "events" };
static const int due[SHAPES] = { MATTICKLET_COUNT, MATTICKLET_COUNT, MATTICKLET_COUNT, MATTICKLET_RING, MATTICKLET_COUNT, MATTICKLET_COUNT };

struct text {
    uint8_t *bytes;
    size_t length;
};

static void *memory(size_t bytes)
{
    void *lent = malloc(bytes + 1);
    if (!lent) exit(2);
    memset(lent, 0xA5, bytes + 1);
    return lent;
}

static void line(struct text *text, const char *words)
{
    size_t length = strlen(words);
    memcpy(text->bytes + text->length, words, length);
    text->length += length;
}

/* Which equation stands at this place; each stands at one. */
static size_t at(enum shape shape, size_t place, size_t equations)
{
    static const size_t unlike = 7368787; /* a prime that does not divide the usual numbers of equations */
    if (shape == BACKWARDS) return equations - 1 - place;
    if (shape == MIXED) return place * unlike % equations;
    return place;
}

static struct text typed(enum shape shape, size_t equations)
{
    struct text text = { memory(2 * LINE * (equations + 1)), 0 };
    char words[2 * LINE];
    if (shape == WIDE || shape == EVENTS) {
        line(&text, "root = g0");
        for (size_t gate = 1; gate < equations; gate++) {
            snprintf(words, sizeof words, " or g%zu", gate);
            line(&text, words);
        }
        line(&text, "\n");
    }
    for (size_t place = 0; place < equations; place++) {
        size_t gate = at(shape, place, equations);
        if (shape == WIDE)
            snprintf(words, sizeof words, "g%zu = e0\n", gate);
        else if (shape == EVENTS)
            snprintf(words, sizeof words, "g%zu = e%zu and e%zu\np e%zu 5000\n", gate, gate, (gate + 1) % equations, gate);
        else if (gate + 1 < equations)
            snprintf(words, sizeof words, "g%zu = g%zu\n", gate, gate + 1);
        else
            snprintf(words, sizeof words, "g%zu = %s\n", gate, shape == RING ? "g0" : "e0");
        line(&text, words);
    }
    return text;
}

static double now(void)
{
    struct timespec time;
    clock_gettime(CLOCK_MONOTONIC, &time);
    return (double)time.tv_sec + (double)time.tv_nsec / 1e9;
}

/* Seconds of the quickest round. */
static double timed(struct text text, struct matticklet_import *answer)
{
    static uint32_t chances[MATTICKLET_EVENTS];
    static uint8_t kinds[MATTICKLET_GATES], leasts[MATTICKLET_GATES], sizes[MATTICKLET_GATES];
    static uint16_t inputs[MATTICKLET_INPUTS], sites[MATTICKLET_EVENTS];
    size_t n = text.length + 1;
    uint32_t *list[LISTS];
    double best = 0;
    for (int k = 0; k < LISTS; k++) list[k] = memory(4 * n);
    for (int round = 0; round < ROUNDS; round++) {
        double start = now();
        matticklet_import(text.bytes, text.length, list[0], n, list[1], n, list[2], n, list[3], n, list[4], n, list[5], n,
                          list[6], n, list[7], n, list[8], n, list[9], n, list[10], n, answer, chances, sites, kinds, leasts, sizes,
                          inputs);
        double took = now() - start;
        if (round == 0 || took < best) best = took;
    }
    for (int k = 0; k < LISTS; k++) free(list[k]);
    return best;
}

int main(int words, char **word)
{
    size_t least = words > 1 ? strtoull(word[1], 0, 10) : 10000;
    if (least <= MATTICKLET_GATES || least > 10000000) {
        fprintf(stderr, "import: from %d to 10000000 equations\n", MATTICKLET_GATES + 1);
        return 2;
    }
    printf("| text | equations | bytes | answer | seconds | ns a byte | ratio |\n|---|---:|---:|---:|---:|---:|---:|\n");
    for (int shape = 0; shape < SHAPES; shape++) {
        double before = 0;
        for (size_t equations = least; equations <= 10 * least; equations *= 10) {
            struct matticklet_import answer;
            struct text text = typed(shape, equations);
            double seconds = timed(text, &answer), each = 1e9 * seconds / (double)text.length;
            printf("| %s | %zu | %zu | %d | %.4f | %.1f | ", names[shape], equations, text.length, (int)answer.number, seconds, each);
            if (before > 0)
                printf("%.2f |\n", each / before);
            else
                printf("|\n");
            before = each;
            free(text.bytes);
            if ((int)answer.number != due[shape]) {
                fprintf(stderr, "import: %d was due\n", due[shape]);
                return 1;
            }
        }
    }
    return 0;
}
