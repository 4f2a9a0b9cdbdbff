/* Matticklet from C and C++: the calls of the library `libexported.a` (x86-64 Linux, System V calling convention).
 *
 * Every call answers for any arguments and never fails otherwise: `number` is 0 for done, else the reason of a refusal (below).
 * The library holds no state, allocates nothing, and touches only what it is lent, until it returns. What memory that is lent to be
 * written holds before a call never matters. A call takes up to some 470 KB of stack (measured with the older kit, not proved).
 *
 * A caller from C must keep what the language keeps for its own callers:
 *   - a pointer is never null, also where the length beside it is 0, and is aligned for its type;
 *   - a length counts elements, all of which may be read, and written where the pointer is not const;
 *   - no area that may be written overlaps any other argument of the same call;
 *   - the answer is an area like any other.
 */
#ifndef MATTICKLET_H
#define MATTICKLET_H

#include <stdbool.h>
#include <stddef.h>
#include <stdint.h>

#ifdef __cplusplus
extern "C" {
#endif

/* The numbers of answers. Where several are due, the call's own comment gives the order. */
enum {
    MATTICKLET_DONE = 0,
    MATTICKLET_CUT_SHORT = 1,    /* the bytes end inside a record, or before an end record */
    MATTICKLET_UNKNOWN_KIND = 2,
    MATTICKLET_OUT_OF_PLACE = 3, /* a record or byte out of place */
    MATTICKLET_COUNT = 4,        /* a count above its maximum, n of 0, or an end with no event or no gate */
    MATTICKLET_THRESHOLD = 5,    /* k is 0 or above the number of distinct inputs */
    MATTICKLET_REFERENCE = 6,    /* an event that is not there, or a gate not below its gate */
    MATTICKLET_CHANCE = 7,       /* a chance above 1,000,000,000 */
    MATTICKLET_UNUSED = 8,       /* an unused event, or an unused gate that is not the root */
    MATTICKLET_LENGTH = 9,       /* a lent length breaks its rule, or the room is shorter than a written tree */
    MATTICKLET_NODES_FULL = 10,  /* its place is the number of the gate being built */
    MATTICKLET_CUTS_FULL = 11,
    MATTICKLET_NO_DIAGRAM = 12,
    MATTICKLET_BEYOND = 13,      /* a set, or a setting, names an event beyond the number of events */
    MATTICKLET_ROOM = 14,        /* room too small for the next cut */
    MATTICKLET_LINE = 15,        /* a line outside the grammar, or a chance that may not be given */
    MATTICKLET_LEFT_TWICE = 16,  /* a left name twice */
    MATTICKLET_RING = 17,        /* a name that leads back to itself */
    MATTICKLET_ROOTS = 18,       /* not exactly one root */
    MATTICKLET_TOO_MANY = 19,    /* more than 2^64 - 1 cuts of one size, or that hold one event */
    MATTICKLET_BAD_LISTING = 20, /* a listing out of order, or with a bad record */
    MATTICKLET_NARROW = 21,      /* an input of kind 08 with a number below 256 */
    MATTICKLET_SITED = 22,       /* a site that isn't 0, where the form to be written has none */
    MATTICKLET_EDITION = 23,     /* an edition of the review rule that there is not */
    MATTICKLET_STORE = 24        /* a store of settings that ends inside a record, has another kind or state, or lets editions fall */
};

/* Limits of a tree and of a table. */
enum {
    MATTICKLET_EVENTS = 1024,
    MATTICKLET_GATES = 512,
    MATTICKLET_GATE_INPUTS = 64,
    MATTICKLET_INPUTS = 4096,          /* of all gates together */
    MATTICKLET_TREE_BYTES = 20737,     /* the longest tree that is accepted; 18689 without sites */
    MATTICKLET_TEXT_BYTES = 64083,     /* the longest text that a tree is exported as */
    MATTICKLET_CUT_BYTES = 2817,       /* the longest cut of a listing */
    MATTICKLET_TABLE_NUMBERS = 3000000,
    MATTICKLET_BILLION = 1000000000,   /* a chance of 1 */
    MATTICKLET_SET_WORDS = 16,         /* event e is bit e % 64 of word e / 64 */
    MATTICKLET_SIZES = 1025,           /* counts by size: of cuts with 0, 1, 2, up to 1,024 members */
    MATTICKLET_TREES = 64              /* of a folder */
};

/* The bytes of a tree, a record after the other, low bytes first:
 *   01 c c c c   next event, its chance in billionths
 *   11 c c c c s s          next event, its chance, and its site: where it stands on the road
 *   02 n         next gate: and of n inputs          03 n   or of n inputs          04 k n   at least k of n inputs
 *   05 e         input: event e, below 256           08 e e input: event e, from 256 on
 *   06 g g       input: gate g                       07     end
 * Kinds are hexadecimal. Events come first, then gates, each followed by its n inputs; the last gate is the root. The events of a tree are all 01, the
 * old form, or all 11, the new one: a mixture is refused with 3 at the first record of the other kind, after 1 and before 4 and 7. No answer of an analysis,
 * a listing or a bracket depends on sites. An event's number decides between 05 and 08: 08 with a number
 * below 256 is refused with 21, after 3 and before 6. An input may stand twice in a gate; an at-least gate counts it once. So 5 is judged after the
 * gate's last input, and its place is the gate's record; whatever is wrong with one of those inputs comes first.
 *
 * A tree in memory is its two counts, its form and six arrays:
 *   sited     1 for the new form, 0 for the old one: a tree of the new form is written with 11 also where all its sites are 0;
 *   chances   of the events; sites: theirs, 0 in the old form;
 *   kinds     of the gates, 2, 3 or 4; leasts: their k (0 unless the kind is 4); sizes: their n;
 *   inputs    of all gates, one gate after the other: event e is e, gate g is MATTICKLET_EVENTS + g. */

struct matticklet_reading {
    uint64_t number; /* 0 to 8, or 21 */
    uint64_t place;  /* offset of the record at fault; 0 where done */
    uint64_t events; /* 0 in a refusal */
    uint64_t gates;  /* 0 in a refusal */
    uint64_t sited;  /* 1 for the new form; 0 for the old one, and in a refusal */
};

/* Reads a tree. Done: the six arrays hold the tree and zeros behind its counts. A refusal leaves them as they were. */
void matticklet_read(const uint8_t *bytes, size_t bytes_length, struct matticklet_reading *answer,
                     uint32_t chances[MATTICKLET_EVENTS], uint16_t sites[MATTICKLET_EVENTS],
                     uint8_t kinds[MATTICKLET_GATES], uint8_t leasts[MATTICKLET_GATES],
                     uint8_t sizes[MATTICKLET_GATES], uint16_t inputs[MATTICKLET_INPUTS]);

struct matticklet_writing {
    uint64_t number; /* 0, 2 to 8 as the tree's bytes would get, 22, or 9 */
    uint64_t place;  /* as those bytes would get; with 22 of the record that would lose its site; 0 with 9 */
    uint64_t bytes;  /* written; 0 in a refusal */
};

/* Writes a tree's bytes to the front of room, in its form: 2 to 8, then 22 where the form is the old one and an event has a site that isn't 0, at the
 * first such event's record, then 9 where the room is shorter than the bytes. Any values may stand in the arrays, and counts may exceed them. The room
 * behind the bytes stays as it was; a refusal leaves all of it so. A room of MATTICKLET_TREE_BYTES is enough for any tree. `sited` is a `bool` of C:
 * 0 or 1, and no other value may be handed over. */
void matticklet_write(size_t events, size_t gates, bool sited, const uint32_t chances[MATTICKLET_EVENTS],
                      const uint16_t sites[MATTICKLET_EVENTS], const uint8_t kinds[MATTICKLET_GATES],
                      const uint8_t leasts[MATTICKLET_GATES], const uint8_t sizes[MATTICKLET_GATES],
                      const uint16_t inputs[MATTICKLET_INPUTS], uint8_t *room, size_t room_length,
                      struct matticklet_writing *answer);

struct matticklet_move {
    uint64_t number; /* 0 to 9, 21, or, going back, 22 */
    uint64_t place;  /* of 1 to 8, 21 and 22, in the bytes that were given; else 0 */
    uint64_t bytes;  /* written; 0 in a refusal */
};

/* Moves the bytes of a tree to the new form, every site 0, or back to the old one, to the front of room: 1 to 8 or 21 as matticklet_read gives them; going
 * back 22 exactly when some site isn't 0, at the first such record; then 9 where the room is shorter than what would be written. A tree that has that form
 * already is written as it is, its sites too. To the new form and back gives the same bytes; back and to the new form too. The room behind the bytes
 * stays as it was; a refusal leaves all of it so. A room of MATTICKLET_TREE_BYTES is enough for any tree. */
void matticklet_to_sites(const uint8_t *bytes, size_t bytes_length, uint8_t *room, size_t room_length,
                         struct matticklet_move *answer);
void matticklet_from_sites(const uint8_t *bytes, size_t bytes_length, uint8_t *room, size_t room_length,
                           struct matticklet_move *answer);

/* A node is three numbers: event, branch with the event failed, branch with it sound. 0 and 1 are the leaves and take no room; node i, from
 * 2 on, stands at 3 * (i - 2). A table's capacity is its length / 3. */

struct matticklet_analysis {
    uint64_t number;    /* 0 to 11, or 21; in a season 13 or 24 too */
    uint64_t place;     /* of 1 to 8 and 21; of 13 and 24, in the store; of 10 the number of the gate being built; else 0 */
    uint64_t nodes;     /* nodes stored; 0 in a refusal, as are those below */
    uint64_t cut_nodes;
    uint64_t root;      /* the last gate's node; in a season it may be a leaf */
    uint64_t cut_root;  /* the node of the minimal cuts */
};

/* Analyses a tree: 1 to 8 or 21 as matticklet_read gives them, then 9, then 10, then 11. Lengths, otherwise 9:
 *   nodes, cuts               a multiple of 3, at most MATTICKLET_TABLE_NUMBERS
 *   gates, added              each at least the tree's number of gates
 *   memo                      a multiple of 4, also 0
 *   heads, next, marks, own   each at least the larger capacity of the two tables, plus 2
 * 1 to 9 and 21 change nothing; 10 and 11 leave zero in all that was lent, to the last number. Done: nodes holds the diagram of all gates, cuts that
 * of the root's minimal cuts, gates the node of each gate, added how many nodes each gate added, each with zeros behind; memo and work areas
 * are zero.
 *
 * added[g] is the number of nodes that gates 0 to g need, less the number that the gates before g need: events that are first used there are counted,
 * nodes that are there already are not, and the sum is `nodes`. The place of 10 is the gate that fills the table: the least g for which gates 0 to g
 * need more nodes than the table has room for.
 *
 * Which lengths to choose: no answer depends on the memo, but the time does. Four numbers for each node that the tree needs are best, or half as
 * many; longer ones cost their clearing. A memo of 0 is allowed and can take time exponential in the tree: it is for proofs, not for use. All
 * that is lent is cleared, to the last number, so lend tables that fit the tree, not the largest allowed. */
void matticklet_analyse(const uint8_t *bytes, size_t bytes_length, uint32_t *nodes, size_t nodes_length,
                        uint32_t *cuts, size_t cuts_length, uint32_t *gates, size_t gates_length,
                        uint32_t *added, size_t added_length, uint32_t *memo, size_t memo_length,
                        uint32_t *heads, size_t heads_length, uint32_t *next, size_t next_length,
                        uint32_t *marks, size_t marks_length, uint32_t *own, size_t own_length,
                        struct matticklet_analysis *answer);

/* Seasonal settings: which events are off, or held up, for certain. A store is a record after the other, low bytes first:
 *   31 d d e e s   from edition d on, event e is in state s: 0 free, 1 failed, 2 sound
 * Editions never fall along a store. Under the edition that is asked for, the last record for an event at or before that edition decides, and without one
 * the event is free. A store without a record is good: every event is free.
 * A store is judged whole, also what lies above the asked edition. Its first faulty record decides, and the place is that record's offset in the store: 24
 * for one inside of which the store ends, of another kind or state, or of an edition below that of the record before; otherwise 13 for an event that the
 * tree does not have. The answer of an edition stays as it is when records of editions above it are added, wherever they leave the store good. */

enum {
    MATTICKLET_SETTING = 0x31,
    MATTICKLET_SETTING_BYTES = 6,
    MATTICKLET_FREE = 0,
    MATTICKLET_FAILED = 1,
    MATTICKLET_SOUND = 2
};

/* Analyses a tree as matticklet_analyse does, under the settings of an edition: 1 to 8 or 21, then 24 and 13 of the store, then 9, then 10, then 11. A forced
 * event is a constant before anything is built, and has no node. All else is as without settings, of the tree with these constants: the steps are the same
 * ones, a join with a constant among them, and an event that is first used behind a constant still counts. `nodes`, `cut_nodes`, the nodes that each gate
 * added, and the place of 10 are of the forced functions. Gates and the root may be constant, and are then the leaf 0 or 1: a root that can't fail has cut
 * root 0 and lists no cut, one that always fails has cut root 1 and lists the empty set alone, `22`. With every event forced, tables of length 0 do.
 * 24 and 13 change nothing. With an empty store the answer is that of matticklet_analyse, and what is lent is left as that call may leave it. */
void matticklet_analyse_season(const uint8_t *bytes, size_t bytes_length, const uint8_t *store, size_t store_length,
                               uint16_t edition, uint32_t *nodes, size_t nodes_length, uint32_t *cuts, size_t cuts_length,
                               uint32_t *gates, size_t gates_length, uint32_t *added, size_t added_length,
                               uint32_t *memo, size_t memo_length, uint32_t *heads, size_t heads_length,
                               uint32_t *next, size_t next_length, uint32_t *marks, size_t marks_length,
                               uint32_t *own, size_t own_length, struct matticklet_analysis *answer);

struct matticklet_settings {
    uint64_t number; /* 0, 9, 13 or 24 */
    uint64_t place;  /* of 13 and 24, in the store; else 0 */
};

/* Makes the chances of all events of a tree, as many as are lent, those under the settings of an edition: MATTICKLET_BILLION where an event is forced to be
 * failed, 0 where it is forced to be sound, and as they were where it is free; no chance is judged. 24 and 13 of the store, for a tree of that many events,
 * then 9 for more than MATTICKLET_EVENTS. A refusal changes nothing. With these chances matticklet_bracket encloses the chance of the root in that season;
 * where the root is constant both ends are exact. */
void matticklet_chances_under(const uint8_t *store, size_t store_length, uint16_t edition, uint32_t *chances,
                              size_t chances_length, struct matticklet_settings *answer);

struct matticklet_listing {
    uint64_t number;   /* 0, 12, 13 or 14 */
    uint64_t place;    /* 0 */
    uint64_t cuts;     /* written */
    uint64_t used;     /* bytes of the room */
    uint64_t finished; /* 1 exactly if no cut comes after `last`; 0 in a refusal */
    uint64_t last[MATTICKLET_SET_WORDS]; /* the last cut written; where none is, the start; empty in a refusal */
};

/* Lists the sets of a cut diagram of so many events, its table, its stated count of nodes, and its root: from the beginning (`after` is then not
 * looked at, but must be there), or those after the set `after`. "After the empty set" is not the beginning: that set is the last of all.
 * 12, then 13, then 14. Done: as many whole cuts as fit stand at the front of room, in order, a cut as its members in rising order and then 22, a member
 * as 21 e below 256, and as 23 e e, the low byte first, from 256 on; the room behind stays as it was. A refusal changes nothing. To go on, hand over
 * a done answer's `last` as `after`.
 * `begin` is a `bool` of C: 0 or 1, and no other value may be handed over. Each call judges all stated nodes for 12 before it lists, so lend rooms of
 * 64 KiB or more, and larger ones for larger tables; no cut has more than MATTICKLET_CUT_BYTES. */
void matticklet_list(const uint32_t *cuts, size_t cuts_length, size_t events, size_t count, size_t root, bool begin,
                     const uint64_t after[MATTICKLET_SET_WORDS], uint8_t *room, size_t room_length,
                     struct matticklet_listing *answer);

enum {
    MATTICKLET_MEMBER = 0x21,      /* one byte of event follows */
    MATTICKLET_CUT_END = 0x22,
    MATTICKLET_WIDE_MEMBER = 0x23  /* two bytes of event follow, the low one first */
};

struct matticklet_ends {
    uint64_t number; /* 0, 7, 9 or 12 */
    uint64_t place;  /* 0 */
    uint64_t low;    /* billionths; 0 in a refusal */
    uint64_t high;
};

/* Encloses the chance of a diagram's root: 12, then 9, then 7. Lengths, otherwise 9: chances at least `events`; lows and highs each at least the
 * table's capacity. Done: lows and highs are zero to the last number. A refusal changes nothing. */
void matticklet_bracket(const uint32_t *nodes, size_t nodes_length, size_t events, size_t count, size_t root,
                        const uint32_t *chances, size_t chances_length, uint32_t *lows, size_t lows_length,
                        uint32_t *highs, size_t highs_length, struct matticklet_ends *answer);

/* Two editions of the review rule. */

struct matticklet_report {
    uint64_t number;   /* 0, 7, 9, 12, 13, 14 or 23 */
    uint64_t place;    /* 0 */
    uint64_t edition;  /* the one that was asked for; 0 in a refusal */
    uint64_t cuts;     /* written */
    uint64_t used;     /* bytes of the room */
    uint64_t finished; /* 1 exactly if no reportable cut comes after `last`; 0 in a refusal */
    uint64_t last[MATTICKLET_SET_WORDS]; /* the last cut written; where none is, the start; empty in a refusal */
};

/* Lists the cuts that the review rule tells of, in matticklet_list's order and bytes. Under edition 1 a cut is reportable if it has at most two members;
 * edition 2 adds every cut whose product of chances is at least 1,000 billionths: the exact product, nothing is rounded. Whatever is reportable under
 * edition 1 is so under 2.
 * 23 for any other edition, then 12, 9, 7, 13 and 14. Lengths, otherwise 9: chances at least `events`; few and picks each at least the cut table's capacity.
 * 7 for a chance above 1 among the first `events`, under edition 1 too. `begin`, `after` and `room` are as with matticklet_list: `after` may be any set of the
 * events, also a cut that is not reportable; 14 is said of the next reportable cut, and `finished` and `last` of reportable cuts. Done: the room behind the cuts
 * stays as it was; a refusal leaves all of it so. few and picks are zero to the last number after 0 and 14; every other refusal leaves them as they were.
 * A part of the diagram that has no reportable cut is passed over as a whole, however many cuts it has. But each call weighs all stated nodes before it lists,
 * and multiplies out the chances of each one's likeliest cut, whose time grows with the square of its members: so lend large rooms. */
void matticklet_report(uint32_t edition, const uint32_t *cuts, size_t cuts_length, size_t events, size_t count, size_t root,
                       const uint32_t *chances, size_t chances_length, bool begin,
                       const uint64_t after[MATTICKLET_SET_WORDS], uint8_t *room, size_t room_length,
                       uint32_t *few, size_t few_length, uint32_t *picks, size_t picks_length,
                       struct matticklet_report *answer);

/* A tree as it is typed: lines in any order, each ended by a line feed, spaced exactly so:
 *   a = b1 or b2      b1 = c1 and c2      x = at-least 2 in u, v, w      x = y, an or of one input
 *   p c1 5000         the chance of c1 in billionths; 0 where no line gives it
 * A line has one connective. A name is a letter, then letters or digits, at most 12 bytes; and, or, at, in and p are no names. A number has no
 * leading zeros and any length. A name that stands twice in an at-least counts once. Left names are gates, all others events; the one left name
 * that is no input is the root. Events are numbered by first appearance in a depth-first walk from the root, left to right, gates when the walk
 * leaves them. */

struct matticklet_import {
    uint64_t number; /* 0, 4, 5, 7, 9, or 15 to 18 */
    uint64_t place;  /* 0 */
    uint64_t line;   /* with 15 and 16 the offset of the line at fault, else 0 */
    uint64_t ring;   /* with 17 how many lines the ring has, else 0 */
    uint64_t events; /* 0 in a refusal */
    uint64_t gates;  /* 0 in a refusal */
};

/* Reads typed equations: 9, then 15 for the first such line, judged against the equations of the whole text (a line outside the grammar; a chance
 * for a left name, for a name in no equation, or for one already given), then 16, 17, 18, then 4, 5 or 7 in the order of the tree's records.
 * Lengths, otherwise 9: each of the eleven lists is at least one longer than the text has bytes; the text is shorter than 2^32 - 1 bytes.
 *   heads to order   work lists, zero after every answer but 9
 *   ring             with 17 the offsets of the lines of one ring, each line's left name an input of the line before it, the first of the last, then
 *                    zeros; with every other answer but 9 zero
 *   shown            done: for each event and then each gate the offset of its name's first appearance in an equation, then zeros; with every
 *                    other answer but 9 zero
 * 9 changes nothing. Done: the six arrays hold the tree and zeros behind its counts, as matticklet_read leaves them; a refusal changes none of them.
 * Equations have no sites: every site is 0, and the form is the old one. */
void matticklet_import(const uint8_t *text, size_t text_length, uint32_t *heads, size_t heads_length,
                       uint32_t *next, size_t next_length, uint32_t *names, size_t names_length,
                       uint32_t *defs, size_t defs_length, uint32_t *marks, size_t marks_length,
                       uint32_t *amounts, size_t amounts_length, uint32_t *starts, size_t starts_length,
                       uint32_t *rights, size_t rights_length, uint32_t *order, size_t order_length,
                       uint32_t *ring, size_t ring_length, uint32_t *shown, size_t shown_length,
                       struct matticklet_import *answer, uint32_t chances[MATTICKLET_EVENTS],
                       uint16_t sites[MATTICKLET_EVENTS], uint8_t kinds[MATTICKLET_GATES],
                       uint8_t leasts[MATTICKLET_GATES], uint8_t sizes[MATTICKLET_GATES],
                       uint16_t inputs[MATTICKLET_INPUTS]);

struct matticklet_export {
    uint64_t number; /* 0, 2 to 8 as the tree's bytes would get, or 9 */
    uint64_t place;  /* as those bytes would get; 0 with 9 */
    uint64_t bytes;  /* written; 0 in a refusal */
};

/* Types a tree to the front of room, a line for each gate and then one for each event, also where its chance is 0: event 0 is e0, gate 0 is g0, and a
 * gate of one input is x = y whatever its kind. Equations have no sites: a tree of the new form is typed as its old form would be, whatever its sites.
 * Refused with 2 to 8 as matticklet_write would be, never with 22, then with 9 where the room is shorter than the text. Any values may stand in the
 * arrays, and counts may exceed them. The room behind the text stays as it was; a refusal leaves all of it so. A room of
 * MATTICKLET_TEXT_BYTES is enough for any tree. */
void matticklet_export(size_t events, size_t gates, bool sited, const uint32_t chances[MATTICKLET_EVENTS],
                       const uint16_t sites[MATTICKLET_EVENTS], const uint8_t kinds[MATTICKLET_GATES],
                       const uint8_t leasts[MATTICKLET_GATES], const uint8_t sizes[MATTICKLET_GATES],
                       const uint16_t inputs[MATTICKLET_INPUTS], uint8_t *room, size_t room_length,
                       struct matticklet_export *answer);

/* Cuts by size. */

struct matticklet_tally {
    uint64_t number; /* 0, 9, 12 or 19 */
    uint64_t place;  /* 0 */
};

/* Counts the sets of a cut diagram by the number of their members, without listing them: 12, then 9, then 19. Lengths, otherwise 9: counts at least
 * MATTICKLET_SIZES; less, work and reached each at least the table's capacity, plus 2. Done: counts[k] is the number of sets with k members, for k
 * from 0 to 1,024; what lies behind these stays as it was. 19 exactly when some such number is above 2^64 - 1, whatever stands in nodes that the root
 * does not reach; counts then stay as they were. less, work and reached are zero to the last number after 0 and after 19; 12 and 9 change nothing. */
void matticklet_sizes(const uint32_t *cuts, size_t cuts_length, size_t events, size_t count, size_t root,
                      uint64_t *counts, size_t counts_length, uint64_t *less, size_t less_length,
                      uint64_t *work, size_t work_length, uint64_t *reached, size_t reached_length,
                      struct matticklet_tally *answer);

struct matticklet_gathered {
    uint64_t number; /* 0 to 11, 19 or 21 */
    uint64_t place;  /* of 1 to 8 and 21, in the bytes of the refused tree; of 10 the number of its gate; else 0 */
    uint64_t tree;   /* index of the refused tree; 0 with every other answer */
};

/* Counts the cuts of all trees of a folder by size. The trees' bytes stand one behind the other in `bytes`, tree i has lengths[i] of them. First 9: more
 * than MATTICKLET_TREES trees, lengths whose sum is not bytes_length, counts shorter than MATTICKLET_SIZES, or less, work or reached shorter than
 * the cut table's capacity, plus 2. Then tree by tree, each analysed in the same lent memory as matticklet_analyse would, only that the nodes that each
 * gate added are not told: the first refused tree refuses the whole with its own number, 1 to 11 or 21, its place and its index. 19 only after the last
 * tree, exactly when the cuts of one size are more than 2^64 - 1 in all trees together. Done: counts[k] is the number of cuts with k members of all
 * trees together, what lies behind stays as it was; no tree at all is done with zeros. Every refusal leaves counts as they were. All else that is lent
 * to be written stays as it was where the first 9, or the first tree's 1 to 9 or 21, is the answer, and is zero to the last number after every other
 * answer. */
void matticklet_folder(const uint8_t *bytes, size_t bytes_length, const size_t *lengths, size_t lengths_length,
                       uint32_t *nodes, size_t nodes_length, uint32_t *cuts, size_t cuts_length,
                       uint32_t *gates, size_t gates_length, uint32_t *memo, size_t memo_length,
                       uint32_t *heads, size_t heads_length, uint32_t *next, size_t next_length,
                       uint32_t *marks, size_t marks_length, uint32_t *own, size_t own_length,
                       uint64_t *counts, size_t counts_length, uint64_t *less, size_t less_length,
                       uint64_t *work, size_t work_length, uint64_t *reached, size_t reached_length,
                       struct matticklet_gathered *answer);

/* The maintenance day planner: which events to keep sound, so that the root can't fail whatever else does. Each of these calls works on any cut diagram; its cuts
 * are the sets that matticklet_list lists, in that order, and the root fails where all events of one of them do. A cut misses a set if the two have no event in
 * common. None of the calls lists the cuts: each goes over the nodes, so that 2^60 cuts are no matter. */

struct matticklet_missed {
    uint64_t number; /* 0, 9, 12 or 13 */
    uint64_t place;  /* 0 */
    uint64_t found;  /* 1 exactly if a cut misses the set; 0 in a refusal */
    uint64_t cut[MATTICKLET_SET_WORDS]; /* the first that does; empty where none does and in a refusal. The empty set may be a cut: `found` tells */
};

/* Finds the first cut that misses a set: 12, then 9, then 13. Length, otherwise 9: some at least the table's capacity, plus 2. 13 where the set has an event
 * from `events` on. Done: some is zero to the last number. A refusal changes nothing. */
void matticklet_first_missing(const uint32_t *cuts, size_t cuts_length, size_t events, size_t count, size_t root,
                              const uint64_t set[MATTICKLET_SET_WORDS], uint32_t *some, size_t some_length,
                              struct matticklet_missed *answer);

struct matticklet_held {
    uint64_t number; /* 0, 9, 12, 13 or 19 */
    uint64_t place;  /* 0 */
};

/* Counts for each event the cuts that miss a set and hold the event: 12, then 9, 13 and 19. Lengths, otherwise 9: counts at least `events`; below and ways each at
 * least 2 * (the table's capacity + 2). Done: counts[e] is the number of cuts that miss the set and hold event e, for e below
 * `events`; what lies behind these stays as it was. 19 exactly when some such number is above 2^64 - 1, whatever stands in nodes that the root does not reach; counts
 * then stay as they were. below and ways are zero to the last number after 0 and after 19; 12, 9 and 13 change nothing. */
void matticklet_holding(const uint32_t *cuts, size_t cuts_length, size_t events, size_t count, size_t root,
                        const uint64_t set[MATTICKLET_SET_WORDS], uint64_t *counts, size_t counts_length,
                        uint64_t *below, size_t below_length, uint64_t *ways, size_t ways_length,
                        struct matticklet_held *answer);

/* What the checker says of a set. */
enum {
    MATTICKLET_NOTHING_SAID = 0, /* a refusal */
    MATTICKLET_ACCEPTED = 1,     /* the root can't fail while these events are sound, whatever else fails, and dropping any one of them loses that */
    MATTICKLET_CUT_MISSES = 2,   /* the root can fail: `cut` is the first cut that misses the set */
    MATTICKLET_DROPPABLE = 3     /* the root can't fail, nor could it without `member`, which is the lowest such */
};

struct matticklet_checked {
    uint64_t number; /* 0, 9, 12 or 13 */
    uint64_t place;  /* 0 */
    uint64_t said;   /* one of the four above */
    uint64_t member; /* with MATTICKLET_DROPPABLE, else 0 */
    uint64_t cut[MATTICKLET_SET_WORDS]; /* with MATTICKLET_CUT_MISSES, and then it may be the empty set; else empty */
};

/* Checks a set of events that are to be kept sound, whoever proposed it: 12, then 9, then 13, as matticklet_first_missing. A cut that misses the set comes before
 * a member that could be dropped. A root that always fails has no accepted set; the empty set is accepted exactly if the root can't fail. Done: some is zero to the
 * last number. A refusal changes nothing. Each member costs one pass over the nodes. */
void matticklet_check(const uint32_t *cuts, size_t cuts_length, size_t events, size_t count, size_t root,
                      const uint64_t set[MATTICKLET_SET_WORDS], uint32_t *some, size_t some_length,
                      struct matticklet_checked *answer);

struct matticklet_proposal {
    uint64_t number; /* 0, 9, 12 or 19 */
    uint64_t place;  /* 0 */
    uint64_t set[MATTICKLET_SET_WORDS]; /* empty in a refusal */
};

/* Proposes a set: takes the event in the most cuts that are left, of several such the lowest, again and again until no cut left holds an event. 12, then 9, then 19
 * where an event is in more than 2^64 - 1 cuts, whatever stands in nodes that the root does not reach. Lengths, otherwise 9: below and ways as with
 * matticklet_holding. below and ways are zero to the last number after 0 and after 19; 12 and 9 change nothing. Each event that is taken costs one pass over the nodes,
 * up and down. A proposal has no standing until matticklet_check has seen it: it may have a member that could be dropped, and where the empty set is a cut it is missed. */
void matticklet_plan(const uint32_t *cuts, size_t cuts_length, size_t events, size_t count, size_t root,
                     uint64_t *below, size_t below_length, uint64_t *ways, size_t ways_length,
                     struct matticklet_proposal *answer);

/* Which event matters most: for each event the difference between the root's chance with it failed and with it sound, in billionths, and the events ranked. */

struct matticklet_reply {
    uint64_t number; /* 0, 7, 9 or 12 */
    uint64_t place;  /* 0 */
};

/* How much each event matters to the chance of a diagram's root: 12, then 9, then 7, as matticklet_bracket. Lengths, otherwise 9: chances, lows, highs and rank each at
 * least `events`; down and up each at least the table's capacity, marks at least that plus 2. Done: lows[i] is matticklet_bracket's low with a chance of
 * MATTICKLET_BILLION for event i less its high with one of 0, highs[i] its high with the former less its low with the latter, each 0 if negative; both are 0 for an
 * event that stands at no node that the root reaches, so for each that a built root does not depend on. Where a failed event more never mends the root, as in every
 * built diagram, they enclose the exact difference, each less than 2L from it; L is the number of events at nodes that the root reaches. rank[0] is the event
 * with the greatest low, and so on; of equal ones the lower event stands first, and every event stands in it once. What lies behind the events' numbers stays
 * as it was; down, up and marks are zero to the last number. A refusal changes nothing, and the chances are never changed. */
void matticklet_importance(const uint32_t *nodes, size_t nodes_length, size_t events, size_t count, size_t root,
                           const uint32_t *chances, size_t chances_length, uint32_t *lows, size_t lows_length,
                           uint32_t *highs, size_t highs_length, uint32_t *rank, size_t rank_length,
                           uint32_t *down, size_t down_length, uint32_t *up, size_t up_length,
                           uint32_t *marks, size_t marks_length, struct matticklet_reply *answer);

/* Two listings compared: yesterday's and today's, each the bytes that matticklet_list wrote, one room's behind the other's. A listing is good if its
 * cuts stand in matticklet_list's order, none twice, each with its members rising and its 22 at the end; kind 23 with a number below 256, or with one that
 * no event has, is bad. A listing of no cut is good, and so is one with a cut inside another. Each of the three calls judges both listings to the last
 * byte before it answers: 20 with the side of the bad one, and with yesterday's where both are. No call needs memory or writes to a listing, and the time
 * grows with the bytes. The two may overlap, or be one. */

enum {
    MATTICKLET_NEITHER = 0,
    MATTICKLET_YESTERDAY = 1,
    MATTICKLET_TODAY = 2
};

struct matticklet_side {
    uint64_t number; /* 0 or 20 */
    uint64_t place;  /* 0 */
    uint64_t side;   /* done: of the first difference, MATTICKLET_NEITHER where the listings are equal; with 20 of the bad listing */
};

/* The side of the first difference: the first cut, in the order of listings, that stands in one of the two and not in the other. It is gone where the
 * side is MATTICKLET_YESTERDAY, new where it is MATTICKLET_TODAY. */
void matticklet_side(const uint8_t *yesterday, size_t yesterday_length, const uint8_t *today, size_t today_length,
                     struct matticklet_side *answer);

struct matticklet_difference {
    uint64_t number; /* these three as matticklet_side answers them */
    uint64_t place;
    uint64_t side;
    uint64_t offset; /* of the cut's first byte in that side's listing; 0 where the listings are equal or one is refused */
    uint64_t length; /* of the cut with its 22; 0 where the listings are equal or one is refused */
};

/* The first difference as a stretch of the bytes that were lent. */
void matticklet_first_difference(const uint8_t *yesterday, size_t yesterday_length, const uint8_t *today,
                                 size_t today_length, struct matticklet_difference *answer);

struct matticklet_comparison {
    uint64_t number; /* 0 or 20 */
    uint64_t place;  /* 0 */
    uint64_t side;   /* with 20 of the bad listing, else MATTICKLET_NEITHER */
    uint64_t gone;   /* cuts of yesterday's listing alone; 0 in a refusal, as are those below */
    uint64_t added;  /* of today's alone */
    uint64_t kept;   /* of both */
};

/* Counts the cuts gone, new and kept. */
void matticklet_compare(const uint8_t *yesterday, size_t yesterday_length, const uint8_t *today, size_t today_length,
                        struct matticklet_comparison *answer);

/* The decision by the list alone: for whoever has a listing, and neither the tree nor its tables. */

struct matticklet_decided {
    uint64_t number; /* 0, 13 or 20 */
    uint64_t place;  /* 0 */
    uint64_t fails;  /* 1 exactly if some listed cut has all its members in the set; 0 in a refusal */
};

/* Whether a set of failures contains a cut of a listing: 20 where the listing is not good, as matticklet_compare judges it, then 13 where the set has an event from
 * `events` on. The listing is judged to its last byte before anything is said: a cut in the set does not excuse a fault behind it. Any number of events is
 * answered; that a listed cut has a member beyond them is no fault. Where the bytes are those of a done analysis, room behind room up to the one that is finished,
 * `fails` says whether the root fails when exactly the events of the set fail; after matticklet_analyse_season the root with its forced events as they are forced.
 * A listing without a cut is that of a root that can't fail, and `22` alone that of one that always fails. No memory is needed, and the time grows with the bytes. */
void matticklet_decides(const uint8_t *listing, size_t listing_length, size_t events,
                        const uint64_t set[MATTICKLET_SET_WORDS], struct matticklet_decided *answer);

#ifdef __cplusplus
}
#endif

#endif
