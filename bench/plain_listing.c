/* The listing of the plain program (plain.c): a floor for the library's. The path keeps its events, so that none is read from
   the table again. */

#include "plain.h"
#include <string.h>

enum { EVENTS = MATTICKLET_EVENTS, WORDS = MATTICKLET_SET_WORDS, WIDE_FROM = 256 };

/* The lowest member from `from` on, or EVENTS. */
static inline u32 next_member(const u64 set[WORDS], u32 from)
{
    if (from >= EVENTS) return EVENTS;
    u32 word = from / 64;
    u64 rest = set[word] & (~(u64)0 << (from % 64));
    while (rest == 0) {
        if (++word == WORDS) return EVENTS;
        rest = set[word];
    }
    return 64 * word + (u32)__builtin_ctzll(rest);
}

/* The path holds the nodes left by their failed branch, with their events beside them: the members of the cut at hand. */
typedef struct {
    u32 depth, node[EVENTS];
    uint16_t event[EVENTS];
} Path;

static inline void push(const u32 *triples, Path *path, u32 node)
{
    path->node[path->depth] = node;
    path->event[path->depth++] = (uint16_t)event_of(triples, node);
}

/* Going down failed branches always leads to the leaf 1. */
static inline void descend(const u32 *triples, Path *path, u32 node)
{
    for (; node >= 2; node = failed_of(triples, node)) push(triples, path, node);
}

/* Goes on to the next cut; answers whether there is one. */
static inline int following(const u32 *triples, Path *path)
{
    while (path->depth > 0) {
        u32 sound = sound_of(triples, path->node[--path->depth]);
        if (sound == 0) continue;
        descend(triples, path, sound);
        return 1;
    }
    return 0;
}

/* Goes to the first cut after the set; answers whether there is one. */
static int seek(const u32 *triples, Path *path, u32 node, const u64 after[WORDS])
{
    u32 decided = 0;
    while (node >= 2) {
        u32 event = event_of(triples, node);
        u32 member = next_member(after, decided);
        if (member < event) {
            descend(triples, path, node);
            return 1;
        }
        decided = event + 1;
        if (member == event) {
            push(triples, path, node);
            node = failed_of(triples, node);
        } else
            node = sound_of(triples, node);
    }
    if (node == 1 && next_member(after, decided) < EVENTS) return 1;
    return following(triples, path);
}

/* The set of a cut's bytes. */
static void set_of(const uint8_t *cut, u64 set[WORDS])
{
    memset(set, 0, WORDS * sizeof set[0]);
    while (cut[0] != MATTICKLET_CUT_END) {
        u32 wide = cut[0] == MATTICKLET_WIDE_MEMBER, event = wide ? cut[1] | (u32)cut[2] << 8 : cut[1];
        set[event / 64] |= (u64)1 << (event % 64);
        cut += 2 + wide;
    }
}

/* How many members of the path have a record of two bytes: events rise along it. */
static inline u32 narrow_members(const Path *path)
{
    u32 few = path->depth;
    while (few > 0 && path->event[few - 1] >= WIDE_FROM) few--;
    return few;
}

/* Writes a cut, the first `few` of its members in two bytes each and the others in three; answers what lies behind. */
static inline uint8_t *write_cut(const Path *path, u32 few, uint8_t *end)
{
    for (u32 i = 0; i < few; i++, end += 2) {
        end[0] = MATTICKLET_MEMBER;
        end[1] = (uint8_t)path->event[i];
    }
    for (u32 i = few; i < path->depth; i++, end += 3) {
        end[0] = MATTICKLET_WIDE_MEMBER;
        end[1] = (uint8_t)path->event[i];
        end[2] = (uint8_t)(path->event[i] >> 8);
    }
    *end = MATTICKLET_CUT_END;
    return end + 1;
}

void matticklet_list(const u32 *cuts, size_t cuts_length, size_t events, size_t count, size_t root, bool begin,
                     const u64 after[WORDS], uint8_t *room, size_t room_length, struct matticklet_listing *answer)
{
    *answer = (struct matticklet_listing){0};
    if (!is_diagram(cuts, cuts_length, events, count, root, 1)) {
        answer->number = 12;
        return;
    }
    if (!begin && next_member(after, (u32)events) < EVENTS) {
        answer->number = 13;
        return;
    }
    Path path;
    path.depth = 0;
    int found = root != 0;
    if (begin)
        descend(cuts, &path, (u32)root);
    else
        found = seek(cuts, &path, (u32)root, after);
    uint8_t *cut = room, *end = room, *limit = room + room_length;
    u64 written = 0;
    int narrow = events <= WIDE_FROM; /* trees of few events do not pay for the others */
    while (found) {
        u32 few = narrow ? path.depth : narrow_members(&path);
        if (3 * (ptrdiff_t)path.depth - few + 1 > limit - end) break;
        cut = end;
        end = write_cut(&path, few, end);
        written++;
        found = following(cuts, &path);
    }
    if (found && written == 0) {
        answer->number = 14;
        return;
    }
    answer->cuts = written;
    answer->used = (u64)(end - room);
    answer->finished = !found;
    if (written > 0)
        set_of(cut, answer->last);
    else if (!begin)
        memcpy(answer->last, after, sizeof answer->last);
}
