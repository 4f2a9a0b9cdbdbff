/* The library behind a pipe: takes calls on standard input, makes them, and answers on standard output, until the input ends.
 *
 * A request is the call's number, then its arguments in the header's order: a number as 8 bytes, an area as its length in elements (8 bytes) and
 * its contents as lent. The answer area is not sent. An answer is a word that says what stands (below), the answer's words, and the contents of
 * every area that the call may write. All numbers have the low byte first.
 *
 * Every area, the answer too, lies between guard bytes in memory of its own. `driver N` spoils one thing about each call N, to see that a
 * comparison notices. */
#include <stdint.h>
#include <stdio.h>
#include <stdlib.h>
#include <string.h>

#include "matticklet.h"

enum { GUARD = 72, AREAS = 24 }; /* no area is aligned beyond its need */
enum { GUARDS_STAND = 1, CONST_AREAS_STAND = 2 };
enum { READ = 1, WRITE = 2, ANALYSE = 3, LIST = 4, BRACKET = 5, IMPORT = 6, EXPORT = 7, SIZES = 8, FOLDER = 9 };
enum { SIDE = 10, FIRST_DIFFERENCE = 11, COMPARE = 12, TO_SITES = 13, FROM_SITES = 14, REPORT = 15, ANALYSE_SEASON = 16, CHANCES_UNDER = 17 };
enum { FIRST_MISSING = 18, HOLDING = 19, CHECK = 20, PLAN = 21, IMPORTANCE = 22 };
enum { DECIDES = 23 };
enum { LISTS = 11, RING = 9 }; /* of an import, in the header's order */

struct area {
    unsigned char *whole; /* guard, contents, guard */
    unsigned char *before; /* a copy of the contents of a const area, else null */
    size_t room; /* bytes allocated */
    size_t length; /* elements */
    size_t bytes;
};

static struct area areas[AREAS];
static int used; /* areas of the request at hand */
static int spoiled; /* the call to be spoilt, 0 for none */

static void fail(const char *why)
{
    fprintf(stderr, "driver: %s\n", why);
    exit(3);
}

static void take(void *to, size_t bytes)
{
    if (bytes != 0 && fread(to, 1, bytes, stdin) != bytes)
        fail("the request ends early");
}

static void give(const void *from, size_t bytes)
{
    if (bytes != 0 && fwrite(from, 1, bytes, stdout) != bytes)
        fail("the answer cannot be written");
}

static uint64_t number(void)
{
    uint64_t n;
    take(&n, sizeof n);
    return n;
}

static unsigned char guard_at(size_t i)
{
    return (unsigned char)(0xC3 + 37 * i);
}

/* An area with its guards; its contents are still open. */
static struct area *fresh(size_t length, size_t size)
{
    struct area *a = &areas[used++];
    a->length = length;
    a->bytes = length * size;
    if (a->room < a->bytes) {
        free(a->whole);
        free(a->before);
        a->room = 2 * a->bytes;
        a->whole = NULL;
        a->before = NULL;
    }
    if (a->whole == NULL) {
        a->whole = malloc(a->room + 2 * GUARD);
        a->before = malloc(a->room + 1);
        if (a->whole == NULL || a->before == NULL)
            fail("no memory");
    }
    for (size_t i = 0; i < GUARD; i++) {
        a->whole[i] = guard_at(i);
        a->whole[GUARD + a->bytes + i] = guard_at(i);
    }
    return a;
}

static void *contents(const struct area *a)
{
    return a->whole + GUARD;
}

/* The next argument, an area of elements of this size. */
static struct area *area(size_t size)
{
    size_t length = number();
    struct area *a = fresh(length, size);
    take(contents(a), a->bytes);
    memcpy(a->before, contents(a), a->bytes);
    return a;
}

/* The answer area, of so many words, with anything in it. */
static struct area *answer_area(size_t words)
{
    struct area *a = fresh(words, sizeof(uint64_t));
    memset(contents(a), 0xEE, a->bytes);
    return a;
}

static uint64_t guards(void)
{
    for (int k = 0; k < used; k++)
        for (size_t i = 0; i < GUARD; i++)
            if (areas[k].whole[i] != guard_at(i) || areas[k].whole[GUARD + areas[k].bytes + i] != guard_at(i))
                return 0;
    return GUARDS_STAND;
}

/* Sends the answer, and the areas that may be written; the others must be as they were. */
static void reply(struct area *answer, struct area **written, int count)
{
    uint64_t stands = guards() | CONST_AREAS_STAND;
    for (int k = 0; k < used; k++) {
        int may = &areas[k] == answer;
        for (int w = 0; w < count; w++)
            may |= &areas[k] == written[w];
        if (!may && memcmp(areas[k].before, contents(&areas[k]), areas[k].bytes) != 0)
            stands &= ~(uint64_t)CONST_AREAS_STAND;
    }
    give(&stands, sizeof stands);
    give(contents(answer), answer->bytes);
    for (int w = 0; w < count; w++)
        give(contents(written[w]), written[w]->bytes);
}

static void read_call(void)
{
    struct area *bytes = area(1), *chances = area(4), *sites = area(2);
    struct area *kinds = area(1), *leasts = area(1), *sizes = area(1), *inputs = area(2);
    struct area *answer = answer_area(5);
    struct matticklet_reading *a = contents(answer);
    matticklet_read(contents(bytes), bytes->length, a, contents(chances), contents(sites), contents(kinds), contents(leasts),
                    contents(sizes), contents(inputs));
    if (spoiled == READ && a->number == MATTICKLET_DONE && a->gates == 2)
        ((uint16_t *)contents(inputs))[MATTICKLET_INPUTS - 1] ^= 1; /* not zero behind the tree */
    struct area *written[] = { chances, sites, kinds, leasts, sizes, inputs };
    reply(answer, written, 6);
}

static void write_call(void)
{
    size_t events = number(), gates = number();
    bool sited = number() == 1;
    struct area *chances = area(4), *sites = area(2);
    struct area *kinds = area(1), *leasts = area(1), *sizes = area(1), *inputs = area(2), *room = area(1);
    struct area *answer = answer_area(3);
    struct matticklet_writing *a = contents(answer);
    matticklet_write(events, gates, sited, contents(chances), contents(sites), contents(kinds), contents(leasts), contents(sizes),
                     contents(inputs), contents(room), room->length, a);
    if (spoiled == WRITE && a->number == MATTICKLET_LENGTH && room->length > 5)
        ((uint8_t *)contents(room))[0] = 1; /* a refusal that writes */
    struct area *written[] = { room };
    reply(answer, written, 1);
}

static void to_sites_call(void)
{
    struct area *bytes = area(1), *room = area(1);
    struct area *answer = answer_area(3);
    struct matticklet_move *a = contents(answer);
    matticklet_to_sites(contents(bytes), bytes->length, contents(room), room->length, a);
    if (spoiled == TO_SITES && a->number == MATTICKLET_DONE && room->length > a->bytes)
        ((uint8_t *)contents(room))[a->bytes] ^= 1; /* behind the tree */
    struct area *written[] = { room };
    reply(answer, written, 1);
}

static void from_sites_call(void)
{
    struct area *bytes = area(1), *room = area(1);
    struct area *answer = answer_area(3);
    struct matticklet_move *a = contents(answer);
    matticklet_from_sites(contents(bytes), bytes->length, contents(room), room->length, a);
    if (spoiled == FROM_SITES && a->number == MATTICKLET_SITED && room->length > 0)
        ((uint8_t *)contents(room))[0] ^= 1; /* a refusal that writes */
    struct area *written[] = { room };
    reply(answer, written, 1);
}

static void analyse_call(void)
{
    struct area *bytes = area(1), *nodes = area(4), *cuts = area(4), *gates = area(4), *added = area(4), *memo = area(4);
    struct area *heads = area(4), *next = area(4), *marks = area(4), *own = area(4);
    struct area *answer = answer_area(6);
    struct matticklet_analysis *a = contents(answer);
    matticklet_analyse(contents(bytes), bytes->length, contents(nodes), nodes->length, contents(cuts), cuts->length,
                       contents(gates), gates->length, contents(added), added->length, contents(memo), memo->length,
                       contents(heads), heads->length, contents(next), next->length, contents(marks), marks->length,
                       contents(own), own->length, a);
    if (spoiled == ANALYSE && a->number == MATTICKLET_CUTS_FULL && added->length > 3)
        ((uint32_t *)contents(added))[added->length - 1] = 2; /* 11 leaves a number standing */
    struct area *written[] = { nodes, cuts, gates, added, memo, heads, next, marks, own };
    reply(answer, written, 9);
}

static void analyse_season_call(void)
{
    struct area *bytes = area(1), *store = area(1);
    uint16_t edition = (uint16_t)number();
    struct area *nodes = area(4), *cuts = area(4), *gates = area(4), *added = area(4), *memo = area(4);
    struct area *heads = area(4), *next = area(4), *marks = area(4), *own = area(4);
    struct area *answer = answer_area(6);
    struct matticklet_analysis *a = contents(answer);
    matticklet_analyse_season(contents(bytes), bytes->length, contents(store), store->length, edition, contents(nodes), nodes->length,
                              contents(cuts), cuts->length, contents(gates), gates->length, contents(added), added->length,
                              contents(memo), memo->length, contents(heads), heads->length, contents(next), next->length,
                              contents(marks), marks->length, contents(own), own->length, a);
    if (spoiled == ANALYSE_SEASON && a->number == MATTICKLET_STORE && a->place > 0)
        a->place--; /* not where the record begins */
    struct area *written[] = { nodes, cuts, gates, added, memo, heads, next, marks, own };
    reply(answer, written, 9);
}

static void chances_under_call(void)
{
    struct area *store = area(1);
    uint16_t edition = (uint16_t)number();
    struct area *chances = area(4);
    struct area *answer = answer_area(2);
    struct matticklet_settings *a = contents(answer);
    matticklet_chances_under(contents(store), store->length, edition, contents(chances), chances->length, a);
    if (spoiled == CHANCES_UNDER && a->number == MATTICKLET_BEYOND && chances->length > 0)
        ((uint32_t *)contents(chances))[0] ^= 1; /* a refusal that writes */
    struct area *written[] = { chances };
    reply(answer, written, 1);
}

static void list_call(void)
{
    struct area *cuts = area(4);
    size_t events = number(), count = number(), root = number();
    bool begin = number() != 0;
    struct area *after = area(8), *room = area(1);
    struct area *answer = answer_area(5 + MATTICKLET_SET_WORDS);
    struct matticklet_listing *a = contents(answer);
    matticklet_list(contents(cuts), cuts->length, events, count, root, begin, contents(after), contents(room), room->length, a);
    if (spoiled == LIST && a->number == MATTICKLET_DONE && a->cuts > 3)
        a->finished ^= 1;
    struct area *written[] = { room };
    reply(answer, written, 1);
}

static void report_call(void)
{
    uint32_t edition = (uint32_t)number();
    struct area *cuts = area(4);
    size_t events = number(), count = number(), root = number();
    struct area *chances = area(4);
    bool begin = number() != 0;
    struct area *after = area(8), *room = area(1), *few = area(4), *picks = area(4);
    struct area *answer = answer_area(6 + MATTICKLET_SET_WORDS);
    struct matticklet_report *a = contents(answer);
    matticklet_report(edition, contents(cuts), cuts->length, events, count, root, contents(chances), chances->length, begin,
                      contents(after), contents(room), room->length, contents(few), few->length, contents(picks), picks->length, a);
    if (spoiled == REPORT && a->number == MATTICKLET_ROOM && picks->length > 1)
        ((uint32_t *)contents(picks))[picks->length - 1] = 1; /* 14 leaves a number standing */
    struct area *written[] = { room, few, picks };
    reply(answer, written, 3);
}

static void bracket_call(void)
{
    struct area *nodes = area(4);
    size_t events = number(), count = number(), root = number();
    struct area *chances = area(4), *lows = area(4), *highs = area(4);
    struct area *answer = answer_area(4);
    struct matticklet_ends *a = contents(answer);
    matticklet_bracket(contents(nodes), nodes->length, events, count, root, contents(chances), chances->length, contents(lows),
                       lows->length, contents(highs), highs->length, a);
    if (spoiled == BRACKET && a->low != a->high && lows->length > 0)
        lows->whole[GUARD - 1] ^= 1; /* one byte in front of an area */
    struct area *written[] = { lows, highs };
    reply(answer, written, 2);
}

static void import_call(void)
{
    struct area *text = area(1), *list[LISTS];
    for (int k = 0; k < LISTS; k++)
        list[k] = area(4);
    struct area *chances = area(4), *sites = area(2), *kinds = area(1), *leasts = area(1), *sizes = area(1), *inputs = area(2);
    struct area *answer = answer_area(6);
    struct matticklet_import *a = contents(answer);
    uint32_t *ring = contents(list[RING]);
    matticklet_import(contents(text), text->length, contents(list[0]), list[0]->length, contents(list[1]), list[1]->length,
                      contents(list[2]), list[2]->length, contents(list[3]), list[3]->length, contents(list[4]), list[4]->length,
                      contents(list[5]), list[5]->length, contents(list[6]), list[6]->length, contents(list[7]), list[7]->length,
                      contents(list[8]), list[8]->length, ring, list[RING]->length, contents(list[10]), list[10]->length, a,
                      contents(chances), contents(sites), contents(kinds), contents(leasts), contents(sizes), contents(inputs));
    if (spoiled == IMPORT && a->number == MATTICKLET_RING && a->ring > 1)
        ring[0] = ring[1]; /* a line twice: no longer a ring */
    struct area *written[] = { list[0], list[1], list[2], list[3], list[4], list[5], list[6], list[7], list[8], list[9], list[10],
                               chances, sites, kinds, leasts, sizes, inputs };
    reply(answer, written, LISTS + 6);
}

static void export_call(void)
{
    size_t events = number(), gates = number();
    bool sited = number() == 1;
    struct area *chances = area(4), *sites = area(2);
    struct area *kinds = area(1), *leasts = area(1), *sizes = area(1), *inputs = area(2), *room = area(1);
    struct area *answer = answer_area(3);
    struct matticklet_export *a = contents(answer);
    matticklet_export(events, gates, sited, contents(chances), contents(sites), contents(kinds), contents(leasts),
                      contents(sizes), contents(inputs), contents(room), room->length, a);
    if (spoiled == EXPORT && a->number == MATTICKLET_DONE && gates == 3)
        ((uint8_t *)contents(kinds))[MATTICKLET_GATES - 1] ^= 1; /* an area that is only lent to be read */
    struct area *written[] = { room };
    reply(answer, written, 1);
}

static void importance_call(void)
{
    struct area *nodes = area(4);
    size_t events = number(), count = number(), root = number();
    struct area *chances = area(4), *lows = area(4), *highs = area(4), *rank = area(4), *down = area(4), *up = area(4), *marks = area(4);
    struct area *answer = answer_area(2);
    struct matticklet_reply *a = contents(answer);
    matticklet_importance(contents(nodes), nodes->length, events, count, root, contents(chances), chances->length, contents(lows),
                          lows->length, contents(highs), highs->length, contents(rank), rank->length, contents(down),
                          down->length, contents(up), up->length, contents(marks), marks->length, a);
    if (spoiled == IMPORTANCE && a->number == MATTICKLET_DONE && rank->length > events)
        ((uint32_t *)contents(rank))[events] ^= 1; /* behind the events */
    struct area *written[] = { lows, highs, rank, down, up, marks };
    reply(answer, written, 6);
}

static void sizes_call(void)
{
    struct area *cuts = area(4);
    size_t events = number(), count = number(), root = number();
    struct area *counts = area(8), *less = area(8), *work = area(8), *reached = area(8);
    struct area *answer = answer_area(2);
    struct matticklet_tally *a = contents(answer);
    matticklet_sizes(contents(cuts), cuts->length, events, count, root, contents(counts), counts->length, contents(less),
                     less->length, contents(work), work->length, contents(reached), reached->length, a);
    if (spoiled == SIZES && a->number == MATTICKLET_DONE && counts->length > MATTICKLET_SIZES)
        ((uint64_t *)contents(counts))[MATTICKLET_SIZES] ^= 1; /* behind the counts */
    struct area *written[] = { counts, less, work, reached };
    reply(answer, written, 4);
}

static void folder_call(void)
{
    struct area *bytes = area(1), *lengths = area(sizeof(size_t)), *nodes = area(4), *cuts = area(4), *gates = area(4), *memo = area(4);
    struct area *heads = area(4), *next = area(4), *marks = area(4), *own = area(4);
    struct area *counts = area(8), *less = area(8), *work = area(8), *reached = area(8);
    struct area *answer = answer_area(3);
    struct matticklet_gathered *a = contents(answer);
    matticklet_folder(contents(bytes), bytes->length, contents(lengths), lengths->length, contents(nodes), nodes->length,
                      contents(cuts), cuts->length, contents(gates), gates->length, contents(memo), memo->length, contents(heads),
                      heads->length, contents(next), next->length, contents(marks), marks->length, contents(own), own->length,
                      contents(counts), counts->length, contents(less), less->length, contents(work), work->length,
                      contents(reached), reached->length, a);
    if (spoiled == FOLDER && a->tree > 1)
        ((uint64_t *)contents(reached))[0] = 1; /* a later tree's refusal leaves a number standing */
    struct area *written[] = { nodes, cuts, gates, memo, heads, next, marks, own, counts, less, work, reached };
    reply(answer, written, 12);
}

static void side_call(void)
{
    struct area *yesterday = area(1), *today = area(1);
    struct area *answer = answer_area(3);
    struct matticklet_side *a = contents(answer);
    matticklet_side(contents(yesterday), yesterday->length, contents(today), today->length, a);
    if (spoiled == SIDE && a->number == MATTICKLET_BAD_LISTING && a->side == MATTICKLET_YESTERDAY)
        a->side = MATTICKLET_TODAY;
    reply(answer, NULL, 0);
}

static void first_difference_call(void)
{
    struct area *yesterday = area(1), *today = area(1);
    struct area *answer = answer_area(5);
    struct matticklet_difference *a = contents(answer);
    matticklet_first_difference(contents(yesterday), yesterday->length, contents(today), today->length, a);
    if (spoiled == FIRST_DIFFERENCE && a->length > 3)
        a->length--; /* the part without its end */
    reply(answer, NULL, 0);
}

static void compare_call(void)
{
    struct area *yesterday = area(1), *today = area(1);
    struct area *answer = answer_area(6);
    struct matticklet_comparison *a = contents(answer);
    matticklet_compare(contents(yesterday), yesterday->length, contents(today), today->length, a);
    if (spoiled == COMPARE && a->kept > 2)
        ((uint8_t *)contents(today))[today->length - 1] ^= 1; /* a listing is only lent to be read */
    reply(answer, NULL, 0);
}

static void first_missing_call(void)
{
    struct area *cuts = area(4);
    size_t events = number(), count = number(), root = number();
    struct area *set = area(8), *some = area(4);
    struct area *answer = answer_area(3 + MATTICKLET_SET_WORDS);
    struct matticklet_missed *a = contents(answer);
    matticklet_first_missing(contents(cuts), cuts->length, events, count, root, contents(set), contents(some), some->length, a);
    if (spoiled == FIRST_MISSING && a->found && count > 3)
        a->cut[0] ^= 1; /* another cut */
    struct area *written[] = { some };
    reply(answer, written, 1);
}

static void holding_call(void)
{
    struct area *cuts = area(4);
    size_t events = number(), count = number(), root = number();
    struct area *set = area(8), *counts = area(8), *below = area(8), *ways = area(8);
    struct area *answer = answer_area(2);
    struct matticklet_held *a = contents(answer);
    matticklet_holding(contents(cuts), cuts->length, events, count, root, contents(set), contents(counts), counts->length,
                       contents(below), below->length, contents(ways), ways->length, a);
    if (spoiled == HOLDING && a->number == MATTICKLET_DONE && counts->length > events)
        ((uint64_t *)contents(counts))[events] ^= 1; /* behind the counts */
    struct area *written[] = { counts, below, ways };
    reply(answer, written, 3);
}

static void check_call(void)
{
    struct area *cuts = area(4);
    size_t events = number(), count = number(), root = number();
    struct area *set = area(8), *some = area(4);
    struct area *answer = answer_area(4 + MATTICKLET_SET_WORDS);
    struct matticklet_checked *a = contents(answer);
    matticklet_check(contents(cuts), cuts->length, events, count, root, contents(set), contents(some), some->length, a);
    if (spoiled == CHECK && a->said == MATTICKLET_DROPPABLE && count > 3)
        a->said = MATTICKLET_ACCEPTED;
    struct area *written[] = { some };
    reply(answer, written, 1);
}

static void plan_call(void)
{
    struct area *cuts = area(4);
    size_t events = number(), count = number(), root = number();
    struct area *below = area(8), *ways = area(8);
    struct area *answer = answer_area(2 + MATTICKLET_SET_WORDS);
    struct matticklet_proposal *a = contents(answer);
    matticklet_plan(contents(cuts), cuts->length, events, count, root, contents(below), below->length, contents(ways), ways->length, a);
    if (spoiled == PLAN && a->number == MATTICKLET_TOO_MANY)
        ((uint64_t *)contents(ways))[0] = 1; /* 19 leaves a number standing */
    struct area *written[] = { below, ways };
    reply(answer, written, 2);
}

static void decides_call(void)
{
    struct area *listing = area(1);
    size_t events = number();
    struct area *set = area(8);
    struct area *answer = answer_area(3);
    struct matticklet_decided *a = contents(answer);
    matticklet_decides(contents(listing), listing->length, events, contents(set), a);
    if (spoiled == DECIDES && a->fails && listing->length > 12)
        a->fails = 2; /* how often, and not whether */
    reply(answer, NULL, 0);
}

int main(int words, char **word)
{
    uint64_t call;
    spoiled = words > 1 ? atoi(word[1]) : 0;
    setvbuf(stdin, NULL, _IOFBF, 1 << 16);
    setvbuf(stdout, NULL, _IOFBF, 1 << 16);
    while (fread(&call, 1, sizeof call, stdin) == sizeof call) {
        used = 0;
        switch (call) {
        case READ: read_call(); break;
        case WRITE: write_call(); break;
        case ANALYSE: analyse_call(); break;
        case LIST: list_call(); break;
        case BRACKET: bracket_call(); break;
        case IMPORT: import_call(); break;
        case EXPORT: export_call(); break;
        case SIZES: sizes_call(); break;
        case FOLDER: folder_call(); break;
        case SIDE: side_call(); break;
        case FIRST_DIFFERENCE: first_difference_call(); break;
        case COMPARE: compare_call(); break;
        case TO_SITES: to_sites_call(); break;
        case FROM_SITES: from_sites_call(); break;
        case REPORT: report_call(); break;
        case ANALYSE_SEASON: analyse_season_call(); break;
        case CHANCES_UNDER: chances_under_call(); break;
        case FIRST_MISSING: first_missing_call(); break;
        case HOLDING: holding_call(); break;
        case CHECK: check_call(); break;
        case PLAN: plan_call(); break;
        case IMPORTANCE: importance_call(); break;
        case DECIDES: decides_call(); break;
        default: fail("no such call");
        }
        if (fflush(stdout) != 0)
            fail("the answer cannot be written");
    }
    return 0;
}
