/* The report of the plain program: the library's plan in plain C. Each node is weighed once, by the fewest members of a set below it and by the branch of
   the likeliest one; the walk goes past whatever has no reportable cut, told exactly, in digits of base a billion. */

#include "plain.h"
#include <string.h>

enum { EVENTS = MATTICKLET_EVENTS, WORDS = MATTICKLET_SET_WORDS, BASE = MATTICKLET_BILLION, EDGE = 1000, WIDE_FROM = 256 };

/* A whole number, the low digit first. */
typedef struct {
    u32 used, digit[EVENTS + 2];
} Number;

static inline Number number_of(u32 digit)
{
    Number x;
    x.used = 1;
    x.digit[0] = digit;
    return x;
}

static inline void multiply(Number *x, u32 factor)
{
    u64 carry = 0;
    for (u32 k = 0; k < x->used; k++) {
        u64 v = (u64)x->digit[k] * factor + carry;
        x->digit[k] = (u32)(v % BASE);
        carry = v / BASE;
    }
    if (carry) x->digit[x->used++] = (u32)carry;
}

static inline u32 digit_at(const Number *x, u32 lift, u32 place)
{
    return place < lift || place - lift >= x->used ? 0 : x->digit[place - lift];
}

/* Whether x lifted by so many digits is at least y lifted by so many. */
static int at_least(const Number *x, u32 x_lift, const Number *y, u32 y_lift)
{
    u32 place = x->used + x_lift > y->used + y_lift ? x->used + x_lift : y->used + y_lift;
    while (place-- > 0) {
        u32 own = digit_at(x, x_lift, place), other = digit_at(y, y_lift, place);
        if (own != other) return own > other;
    }
    return 1;
}

typedef struct {
    const u32 *cuts, *chances;
    u32 *few, *picks, edition;
    u32 depth, node[EVENTS]; /* those left by their failed branch */
} Walk;

static inline u32 few_in(const Walk *w, u32 node) { return node == 0 ? 3 : node == 1 ? 0 : w->few[node - 2]; }

/* Multiplies by the product of the likeliest set below the node; how many members that has. */
static u32 likeliest(const Walk *w, u32 node, Number *x)
{
    u32 members = 0;
    while (node >= 2)
        if (w->picks[node - 2]) {
            multiply(x, w->chances[event_of(w->cuts, node)]);
            members++;
            node = failed_of(w->cuts, node);
        } else
            node = sound_of(w->cuts, node);
    if (node == 0) multiply(x, 0);
    return members;
}

static void weigh(Walk *w, size_t count)
{
    for (u32 node = 2; node < count + 2; node++) {
        u32 failed = failed_of(w->cuts, node), sound = sound_of(w->cuts, node);
        u32 with = few_in(w, failed) + 1, without = few_in(w, sound);
        Number x = number_of(1), y = number_of(1);
        multiply(&x, w->chances[event_of(w->cuts, node)]);
        u32 of_x = likeliest(w, failed, &x) + 1, of_y = likeliest(w, sound, &y);
        w->few[node - 2] = with < without ? with : without;
        w->picks[node - 2] = (u32)at_least(&x, of_y, &y, of_x);
    }
}

/* Whether some set below the node is reportable with the path's events. */
static int hope(const Walk *w, u32 depth, u32 node)
{
    if (depth + few_in(w, node) <= 2) return 1;
    if (w->edition != 2) return 0;
    Number x = number_of(1), edge = number_of(EDGE);
    for (u32 k = 0; k < depth; k++) multiply(&x, w->chances[event_of(w->cuts, w->node[k])]);
    u32 members = depth + likeliest(w, node, &x);
    return at_least(&x, 1, &edge, members);
}

static int descend(Walk *w, u32 node)
{
    while (node >= 2) {
        w->node[w->depth] = node;
        if (hope(w, w->depth + 1, failed_of(w->cuts, node))) {
            w->depth++;
            node = failed_of(w->cuts, node);
        } else
            node = sound_of(w->cuts, node);
    }
    return 1;
}

/* Goes on to the next reportable cut; answers whether there is one. */
static int following(Walk *w)
{
    while (w->depth > 0) {
        u32 sound = sound_of(w->cuts, w->node[--w->depth]);
        if (hope(w, w->depth, sound)) return descend(w, sound);
    }
    return 0;
}

static inline u32 next_member(const u64 set[WORDS], u32 from)
{
    while (from < EVENTS && !(set[from / 64] >> (from % 64) & 1)) from++;
    return from;
}

/* The node from which on all sets come after the set, its path put down; 0 where there is none. */
static u32 seek(Walk *w, u32 node, const u64 after[WORDS])
{
    u32 decided = 0;
    while (node >= 2) {
        u32 event = event_of(w->cuts, node), member = next_member(after, decided);
        if (member < event) return node;
        decided = event + 1;
        if (member == event) w->node[w->depth++] = node;
        node = member == event ? failed_of(w->cuts, node) : sound_of(w->cuts, node);
    }
    return node == 1 && next_member(after, decided) < EVENTS;
}

static size_t cut_bytes(const Walk *w)
{
    size_t bytes = 1;
    for (u32 k = 0; k < w->depth; k++) bytes += event_of(w->cuts, w->node[k]) < WIDE_FROM ? 2 : 3;
    return bytes;
}

static void write_cut(const Walk *w, uint8_t *end, u64 last[WORDS])
{
    memset(last, 0, WORDS * sizeof last[0]);
    for (u32 k = 0; k < w->depth; k++) {
        u32 event = event_of(w->cuts, w->node[k]);
        last[event / 64] |= (u64)1 << (event % 64);
        *end++ = event < WIDE_FROM ? MATTICKLET_MEMBER : MATTICKLET_WIDE_MEMBER;
        *end++ = (uint8_t)event;
        if (event >= WIDE_FROM) *end++ = (uint8_t)(event >> 8);
    }
    *end = MATTICKLET_CUT_END;
}

static u64 refusal(u32 edition, const u32 *cuts, size_t cuts_length, size_t events, size_t count, size_t root, const u32 *chances,
                   size_t chances_length, bool begin, const u64 after[WORDS], size_t few_length, size_t picks_length)
{
    if (edition != 1 && edition != 2) return 23;
    if (!is_diagram(cuts, cuts_length, events, count, root, 1)) return 12;
    if (chances_length < events || few_length < cuts_length / 3 || picks_length < cuts_length / 3) return 9;
    for (size_t e = 0; e < events; e++)
        if (chances[e] > BASE) return 7;
    return !begin && next_member(after, (u32)events) < EVENTS ? 13 : 0;
}

void matticklet_report(uint32_t edition, const u32 *cuts, size_t cuts_length, size_t events, size_t count, size_t root,
                       const u32 *chances, size_t chances_length, bool begin, const u64 after[WORDS], uint8_t *room,
                       size_t room_length, u32 *few, size_t few_length, u32 *picks, size_t picks_length,
                       struct matticklet_report *answer)
{
    *answer = (struct matticklet_report){0};
    answer->number = refusal(edition, cuts, cuts_length, events, count, root, chances, chances_length, begin, after, few_length, picks_length);
    if (answer->number) return;
    Walk w = {.cuts = cuts, .chances = chances, .few = few, .picks = picks, .edition = edition};
    weigh(&w, count);
    if (!begin) memcpy(answer->last, after, sizeof answer->last);
    u32 spot = begin ? (u32)root : seek(&w, (u32)root, after);
    int found = hope(&w, w.depth, spot) ? descend(&w, spot) : following(&w);
    while (found && cut_bytes(&w) <= room_length - answer->used) {
        write_cut(&w, room + answer->used, answer->last);
        answer->used += cut_bytes(&w);
        answer->cuts++;
        found = following(&w);
    }
    memset(few, 0, 4 * few_length);
    memset(picks, 0, 4 * picks_length);
    if (found && answer->cuts == 0) {
        *answer = (struct matticklet_report){.number = 14};
        return;
    }
    answer->edition = edition;
    answer->finished = !found;
}
