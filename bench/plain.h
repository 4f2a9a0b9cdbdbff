/* What plain programs share: how a table is read, and number 12. */
#ifndef PLAIN_H
#define PLAIN_H

#include "matticklet.h"

typedef uint32_t u32;
typedef uint64_t u64;

static inline u32 event_of(const u32 *triples, u32 node) { return triples[3 * (u64)node - 6]; }
static inline u32 failed_of(const u32 *triples, u32 node) { return triples[3 * (u64)node - 5]; }
static inline u32 sound_of(const u32 *triples, u32 node) { return triples[3 * (u64)node - 4]; }

/* Number 12: range, numbering, rising events, and the rule of the diagram's kind. The event of a node with a node below it is
   in range where that one's is. */
static inline int is_diagram(const u32 *triples, size_t length, size_t events, size_t count, size_t root, int of_cuts)
{
    if (events < 1 || events > MATTICKLET_EVENTS || length % 3 != 0 || length > MATTICKLET_TABLE_NUMBERS) return 0;
    if (count > length / 3 || root >= count + 2) return 0;
    for (u32 node = 2; node < count + 2; node++) {
        const u32 *triple = triples + 3 * (u64)node - 6;
        u32 event = triple[0], failed = triple[1], sound = triple[2];
        if (failed >= 2) {
            if (failed >= node || event_of(triples, failed) <= event) return 0;
        } else if (event >= events || (of_cuts && failed == 0))
            return 0;
        if (sound >= 2 && (sound >= node || event_of(triples, sound) <= event)) return 0;
        if (!of_cuts && failed == sound) return 0;
    }
    return 1;
}

#endif
