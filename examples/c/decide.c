/* Does the root fail? From C, for somebody who has a listing and not the tree: a file with the bytes of a listing, how many events its tree has, and the numbers of
 * the events that failed.
 * cc -Iinclude examples/c/decide.c crates/exported/out/libexported.a -o decide && ./decide examples/case1.listing 3 0 1 */
#include <inttypes.h>
#include <stdio.h>
#include <stdlib.h>

#include "matticklet.h"

enum { LISTING = 1 << 24 };

static uint8_t listing[LISTING + 1];
static uint64_t set[MATTICKLET_SET_WORDS];

/* Whether the word is an event's number, which then is one of the set. */
static bool fail(const char *word)
{
    char *end;
    unsigned long event = strtoul(word, &end, 10);
    if (end == word || *end != '\0' || event >= MATTICKLET_EVENTS)
        return false;
    set[event / 64] |= UINT64_C(1) << event % 64;
    return true;
}

int main(int words, char **word)
{
    FILE *file = words > 2 ? fopen(word[1], "rb") : NULL;
    size_t length = file == NULL ? 0 : fread(listing, 1, sizeof listing, file);
    bool known = file != NULL && length <= LISTING;
    for (int i = 3; known && i < words; i++)
        known = fail(word[i]);
    if (!known) {
        fprintf(stderr, "decide LISTING EVENTS EVENT..: events below %d, a listing of at most %d bytes\n", MATTICKLET_EVENTS, LISTING);
        return 2;
    }
    struct matticklet_decided d;
    matticklet_decides(listing, length, strtoul(word[2], NULL, 10), set, &d);
    if (d.number != MATTICKLET_DONE) {
        printf("refused %" PRIu64 "\n", d.number);
        return 1;
    }
    printf("the root %s\n", d.fails ? "fails" : "does not fail");
    return 0;
}
