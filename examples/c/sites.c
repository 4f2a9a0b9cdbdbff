/* Sites from C: a tree on the standard input is moved to the form with sites, or back to that without, on the standard output; a refusal is told.
 * cc -Iinclude examples/c/sites.c crates/exported/out/libexported.a -o sites && ./sites to < examples/corridor.tree > corridor.moved */
#include <inttypes.h>
#include <stdio.h>
#include <string.h>

#include "matticklet.h"

static uint8_t bytes[MATTICKLET_TREE_BYTES + 1], room[MATTICKLET_TREE_BYTES];

int main(int words, char **word)
{
    if (words != 2 || (strcmp(word[1], "to") != 0 && strcmp(word[1], "from") != 0)) {
        fprintf(stderr, "sites to, or sites from\n");
        return 2;
    }
    size_t length = fread(bytes, 1, sizeof bytes, stdin);
    struct matticklet_move m;
    if (strcmp(word[1], "to") == 0)
        matticklet_to_sites(bytes, length, room, sizeof room, &m);
    else
        matticklet_from_sites(bytes, length, room, sizeof room, &m);
    if (m.number != MATTICKLET_DONE) {
        printf("refused %" PRIu64 " at %" PRIu64 "\n", m.number, m.place);
        return 1;
    }
    return fwrite(room, 1, m.bytes, stdout) == m.bytes ? 0 : 3;
}
