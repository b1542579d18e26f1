/*
 * Barrowtide: reads and writes Merkle proofs of Bitcoin SV payments and judges BEEF bundles.
 *
 * Link with libbarrowtide.a (x86-64 Linux). Nothing is allocated, no state is kept between calls
 * but the one that a caller lends for a transaction in parts, and any number of threads may call at
 * once.
 *
 * Bytes. Ids, nodes and roots are 32 bytes in stored order; printed hex is the reverse.
 *
 * Version. A header and an archive that are not of one version don't fit each other: structs and
 * prototypes may be others. barrowtide_version() == BARROWTIDE_VERSION_NUMBER says that they are.
 *
 * Answers. A call returns 0 if it accepts the input, and else the number of a refusal. What that
 * blames goes to *blame: the value that it carries, which is the place of a byte, counted from 0 at
 * the input's first, the number of a transaction, counted from 0, or 0; and for 14 and 15 the
 * sibling, by its layer and its position there, both counted from 0. A fault in reading a set of
 * transactions carries its place, and the number of the transaction that was being read goes to
 * *transaction beside it. A part of a transaction may also return BARROWTIDE_MORE, with nothing
 * written but the state: no answer yet. Judging says how much hashing it took in *work, whether it
 * accepts or refuses. One call refuses nothing and returns 1 or 0, found or not:
 * barrowtide_search_leaves.
 *
 * Order. Of several refusals the first in this order is given:
 *   - for a page 5, then 22; for a set of transactions 5;
 *   - 1, then 21; but of a transaction in parts 1 comes after every fault in the bytes up to the
 *     size, and before 9 past it;
 *   - in reading, fields as they come, and on one field 2, 3, then 4, 5, 7, 10, 11, 12, 18 or 25,
 *     then 22; for an offset 2, 3, 6, 8. A TSC index is tested after the node count and before the
 *     nodes, so 5 comes before 6. A length stated in a TSC proof that leads past the input's end is
 *     2 at the transaction's start, and any other fault inside that transaction is 11. Of a
 *     transaction of 64 bytes 11 comes after its last field, and before what follows it. 9 is last;
 *   - in proving 13, then 14 or 15 at the lowest layer, then 16; for all clients 14 or 15 and then
 *     16 leaf by leaf;
 *   - in judging, transaction by transaction, 19, then 13, 14 or 15, 17 if it names a BUMP, and if
 *     not 20, 26, 27, 28, each asked of all its inputs before the next;
 *   - in comparing the first proof's refusal, the second's, 23, 24; of proofs of different numbers
 *     of layers the first's, the second's, the transaction's, 23;
 *   - of two BUMPs side by side the first one's, the second's, then 22 or 23;
 *   - of a BUMP whose leaves are listed its own, then 22; of two that are merged the first one's in
 *     reading and in the check of all its clients, the second's, then 23, 5, 16, 22;
 *   - of a set of transactions, once it is read, 19, then 22 and 29, or of a proposed order 30;
 *   - in writing 5, 13, 6, 19, 15, 22;
 *   - in turning a TSC proof into a BUMP those of reading and proving, then 4, then 22; in turning
 *     an id's climb in a BUMP into a TSC proof those of reading and proving, then 22.
 *
 * Memory. A pointer that comes with a length may be null if the length is 0: it is then not
 * followed. All other pointers must be to memory of the size said, not null. What is lent by a
 * pointer to const is only read; what is lent by another must not overlap with anything else lent
 * to the same call. On a refusal all three numbers of *blame are written and everything else stays
 * as it was, but for *transaction and *work, which are written with it, for a lent table or row,
 * which is zeroed, for what barrowtide_shorter hands back, which is an empty part, and for the
 * state of a transaction in parts. On acceptance the values are written, *work among them, and
 * *blame and *transaction stay as they were, and so does the room past what is written.
 *
 * Stack. As built by the kit a call needs at most
 *   - 128 KiB barrowtide_judge_beef
 *   - 64 KiB  barrowtide_merge, barrowtide_prove_page, barrowtide_check_clients
 *   - 48 KiB  barrowtide_write_bump
 *   - 40 KiB  barrowtide_prove_bump, barrowtide_prove_cmp, barrowtide_compare,
 *             barrowtide_compare_depths, barrowtide_shorter, barrowtide_bump_to_tsc
 *   - 32 KiB  barrowtide_order, barrowtide_check_order, barrowtide_differences,
 *             barrowtide_list_leaves
 *   - 16 KiB  barrowtide_read_bump, barrowtide_read_cmp, barrowtide_read_beef
 *   -  8 KiB  barrowtide_prove_tsc, barrowtide_tsc_to_bump
 *   -  1 KiB  barrowtide_sha256d, barrowtide_join, barrowtide_parts_start, barrowtide_parts_part,
 *             barrowtide_parts_end
 *   -  4 KiB  every other call
 * with the C library's memcpy and memset, which are all that it calls. Only the working out of
 * siblings, of one climb or of many, recurses, once a level, and is counted here.
 *
 * Cost. Whatever the bytes, one climb makes fewer joins than its path has layers and leaves: fewer
 * than 64 + n / 2 by a path of n bytes, and fewer than 57,406 by any. A page climbs once for each
 * id, all clients once for each client leaf, a bundle once for each transaction that names a BUMP,
 * and merging twice for each client leaf of either. But for clients of a level of up to four
 * leaves, climbs by one path are made together, up to 256 at a time, each time with at most one
 * join for each climb and layer, one for each layer and one for each leaf. Each node that is asked
 * for is searched for among the leaves of its level, which takes longest where offsets don't rise.
 * Times, also of the worst inputs known, are in docs/SPEED.md. A caller who has less time bounds
 * the bytes that it takes.
 */
#ifndef BARROWTIDE_H
#define BARROWTIDE_H

#include <stddef.h>
#include <stdint.h>

#define BARROWTIDE_VERSION_MAJOR 0
#define BARROWTIDE_VERSION_MINOR 8
#define BARROWTIDE_VERSION_PATCH 0
#define BARROWTIDE_VERSION_NUMBER                                                                  \
    (BARROWTIDE_VERSION_MAJOR * 65536U + BARROWTIDE_VERSION_MINOR * 256U + BARROWTIDE_VERSION_PATCH)

/* ---- Sizes ---- */

#define BARROWTIDE_MAX_INPUT 16777216          /* bytes of an input */
#define BARROWTIDE_MAX_LAYERS 64               /* layers of a BUMP, a CMP or a TSC proof */
#define BARROWTIDE_MAX_LEAVES 1024             /* leaves of a level */
#define BARROWTIDE_MAX_BLOCK_HEIGHT 4294967295 /* a BUMP's block height */
#define BARROWTIDE_MAX_BUMPS 64                /* BUMPs of a bundle */
#define BARROWTIDE_MAX_TRANSACTIONS 256        /* transactions of a bundle, or of a set */
#define BARROWTIDE_MAX_TOTAL 2100000000000000  /* satoshi of a bundled transaction's outputs */
#define BARROWTIDE_MAX_PAGE 256                /* ids of a page */
#define BARROWTIDE_MAX_IDS 1024                /* ids of the list that a BUMP is written of */
#define BARROWTIDE_WRITE_ROOM 36864            /* bytes that are enough for any BUMP written */
#define BARROWTIDE_TSC_TO_BUMP_ROOM 2626       /* bytes that are enough for any TSC proof's BUMP */
#define BARROWTIDE_BUMP_TO_TSC_ROOM 2187       /* bytes that are enough for any TSC proof made */
#define BARROWTIDE_MAX_DIFFERENCES 112640      /* differences that two BUMPs have at most */
#define BARROWTIDE_MAX_LISTED 57342            /* leaves of a BUMP, all its levels together */
#define BARROWTIDE_MERGE_EXTRA 64              /* bytes more than two BUMPs take together that are
                                                  enough for the merged one */
#define BARROWTIDE_MAX_PARTS 4294967295u       /* bytes of a transaction that is read in parts */

#ifdef __cplusplus
extern "C" {
#endif

/* ---- Refusals: what is given when, and after the bar what it carries ---- */

enum barrowtide_refusal {
    BARROWTIDE_ACCEPTED = 0,
    BARROWTIDE_TOO_LONG = 1,      /* the input is over 16,777,216 bytes, or a transaction in parts
                                     over 4,294,967,295 | 0 */
    BARROWTIDE_SHORT = 2,         /* the bytes end inside a field | field start */
    BARROWTIDE_LONG_VARINT = 3,   /* a VarInt is not in its shortest form | field start */
    BARROWTIDE_BAD_HEIGHT = 4,    /* a tree height is outside (BUMP 1 to 64, a CMP's first byte
                                     0 to 63), or a TSC proof that is to become a BUMP has no
                                     nodes | field start */
    BARROWTIDE_OVER_LIMIT = 5,    /* a count or a block height is over its limit | field start
                                     a list or page has too few ids, too many or a part of one,
                                     a set too many transactions, or a level of a merged BUMP too
                                     many leaves | 0 */
    BARROWTIDE_BAD_OFFSET = 6,    /* an offset or a TSC index is outside the layer | field start
                                     a chosen position is outside the list | 0 */
    BARROWTIDE_BAD_FLAG = 7,      /* flags, a node type or a BEEF byte are not allowed | that byte's
                                     place */
    BARROWTIDE_REPEATED = 8,      /* an offset stands in its level already | offset field */
    BARROWTIDE_EXTRA = 9,         /* bytes are left after the end | first such byte */
    BARROWTIDE_BAD_VERSION = 10,  /* the first four bytes are not BEEF's | 0 */
    BARROWTIDE_BAD_TX = 11,       /* no inputs or no outputs | count field
                                     a transaction has 64 bytes, as a pair of nodes has |
                                     transaction start
                                     a TSC transaction is not exactly its stated length |
                                     transaction start */
    BARROWTIDE_EMPTY = 12,        /* a BEEF has no transaction | count field */
    BARROWTIDE_NOT_LISTED = 13,   /* the id is not at level 0, no leaf is a client's, or no position
                                     is chosen | tx */
    BARROWTIDE_MISSING = 14,      /* a sibling is not written and can't be worked out | tx, and the
                                     sibling that the climb needs, even if the gap is lower down */
    BARROWTIDE_TWIN = 15,         /* a sibling equals the working hash at an odd position | tx, and
                                     that sibling */
    BARROWTIDE_ROOTS_DIFFER = 16, /* roots of clients differ, a TSC target is another, or two BUMPs
                                     to be merged contradict each other | 0 */
    BARROWTIDE_UNTRUSTED = 17,    /* the root is not in the list | tx */
    BARROWTIDE_BAD_INDEX = 18,    /* a BUMP number is not below the count | field start */
    BARROWTIDE_SAME_TX = 19,      /* an id equals an earlier one | tx */
    BARROWTIDE_NO_PARENT = 20,    /* an input has no earlier parent | tx */
    BARROWTIDE_BAD_ROOTS = 21,    /* the list of roots is not a multiple of 32 bytes | 0 */
    BARROWTIDE_NO_ROOM = 22,      /* the table has fewer records than transactions | count field
                                     the bytes to write, the ids, the differences, the leaves or
                                     the transactions of a set are more than the room | 0 */
    BARROWTIDE_UNLIKE = 23,       /* two proofs differ in root, position or layers; of two BUMPs
                                     side by side only in root; of two to be merged in block height,
                                     tree height or root; of proofs of different numbers of layers
                                     see barrowtide_compare_depths | 0 */
    BARROWTIDE_SAME_ID = 24,      /* two proofs agree and prove one id | 0 */
    BARROWTIDE_BAD_AMOUNT = 25,   /* an amount in a BEEF is above 2,100,000,000,000,000, or takes
                                     the total of its transaction's outputs above that | field
                                     start */
    BARROWTIDE_NO_OUTPUT = 26,    /* an input spends an output that its parent doesn't have | tx */
    BARROWTIDE_SPENT_TWICE = 27,  /* an output is spent twice by transactions without a BUMP | tx */
    BARROWTIDE_TOO_LITTLE = 28,   /* inputs don't come to more than outputs plus the fee | tx */
    BARROWTIDE_NO_ORDER = 29,     /* a set has no order with parents first | 0 */
    BARROWTIDE_BAD_ORDER = 30     /* a proposed order of a set is none | 0 */
};
/* "tx": the number of the transaction where a BEEF is judged, and 0 from all other calls. From
   barrowtide_write_bump every refusal carries 0. */

/* What a refusal blames. */
typedef struct {
    uint64_t carried; /* a place, the number of a transaction, or 0: see the refusals */
    uint64_t layer;   /* of 14 and 15 the layer of the sibling that is missing or a twin; else 0 */
    uint64_t sibling; /* of 14 and 15 that sibling's position in its layer; else 0 */
} barrowtide_blame;

/* The name of a refusal, as "SHORT" of 2; "ACCEPTED" of 0, and "UNKNOWN" of numbers above 30. */
static inline const char *barrowtide_refusal_name(uint32_t number)
{
    static const char *const names[] = {
        "ACCEPTED",    "TOO_LONG",     "SHORT",     "LONG_VARINT", "BAD_HEIGHT",
        "OVER_LIMIT",  "BAD_OFFSET",   "BAD_FLAG",  "REPEATED",    "EXTRA",
        "BAD_VERSION", "BAD_TX",       "EMPTY",     "NOT_LISTED",  "MISSING",
        "TWIN",        "ROOTS_DIFFER", "UNTRUSTED", "BAD_INDEX",   "SAME_TX",
        "NO_PARENT",   "BAD_ROOTS",    "NO_ROOM",   "UNLIKE",      "SAME_ID",
        "BAD_AMOUNT",  "NO_OUTPUT",    "SPENT_TWICE", "TOO_LITTLE", "NO_ORDER",
        "BAD_ORDER",
    };
    return number < sizeof names / sizeof names[0] ? names[number] : "UNKNOWN";
}

/* What a refusal means, in a few words: "bytes end inside a field" of 2; "accepted" of 0, and "unknown
   refusal" of numbers above 30. docs/REFUSALS.md says of each who has to do what. */
static inline const char *barrowtide_refusal_words(uint32_t number)
{
    static const char *const words[] = {
        "accepted",
        "input over its size",
        "bytes end inside a field",
        "VarInt not in its shortest form",
        "tree height outside its range",
        "count, list or block height outside its limits",
        "offset, index or position outside its layer",
        "flags, node type or BEEF byte not allowed",
        "offset again in its level",
        "bytes left after the end",
        "first four bytes not BEEF's",
        "no inputs, no outputs, 64 bytes, or not the stated length",
        "BEEF with no transaction",
        "id not at level 0, or none chosen",
        "sibling not written and not to be worked out",
        "sibling equal to the working hash at an odd position",
        "roots differ",
        "root not in the list",
        "BUMP number not below the count",
        "id equal to an earlier one",
        "an input without earlier parent",
        "list of roots not a multiple of 32 bytes",
        "lent table or room too small",
        "two proofs differ in root, position or layers",
        "two proofs agree and prove one id",
        "amount or running total above its limit",
        "an input spends an output that is not there",
        "an output spent twice",
        "inputs not more than outputs plus the fee",
        "no order has parents first",
        "not every transaction once, after its parents",
    };
    return number < sizeof words / sizeof words[0] ? words[number] : "unknown refusal";
}

/* What the number that a refusal carries stands for. */
enum barrowtide_carries {
    BARROWTIDE_CARRIES_NOTHING = 0,    /* nothing: it is 0 */
    BARROWTIDE_CARRIES_PLACE = 1,      /* the place of a field or byte, counted from 0 */
    BARROWTIDE_CARRIES_TRANSACTION = 2 /* the number of a transaction, counted from 0 */
};

/* What a refusal by barrowtide_judge_beef carries. From other calls one that has a transaction here
   carries 0, and so do 5 and 22 where they blame what the caller lent (a page, a set, the room) or a
   merged BUMP, and every refusal by barrowtide_write_bump. All others carry the same. */
static inline enum barrowtide_carries barrowtide_refusal_carries(uint32_t number)
{
    switch (number) {
    case BARROWTIDE_ACCEPTED:
    case BARROWTIDE_TOO_LONG:
    case BARROWTIDE_BAD_VERSION:
    case BARROWTIDE_ROOTS_DIFFER:
    case BARROWTIDE_BAD_ROOTS:
    case BARROWTIDE_UNLIKE:
    case BARROWTIDE_SAME_ID:
    case BARROWTIDE_NO_ORDER:
    case BARROWTIDE_BAD_ORDER:
        return BARROWTIDE_CARRIES_NOTHING;
    case BARROWTIDE_NOT_LISTED:
    case BARROWTIDE_MISSING:
    case BARROWTIDE_TWIN:
    case BARROWTIDE_UNTRUSTED:
    case BARROWTIDE_SAME_TX:
    case BARROWTIDE_NO_PARENT:
    case BARROWTIDE_NO_OUTPUT:
    case BARROWTIDE_SPENT_TWICE:
    case BARROWTIDE_TOO_LITTLE:
        return BARROWTIDE_CARRIES_TRANSACTION;
    default:
        return number > BARROWTIDE_BAD_ORDER ? BARROWTIDE_CARRIES_NOTHING : BARROWTIDE_CARRIES_PLACE;
    }
}

/* ---- The version ---- */

/* The version of the archive: BARROWTIDE_VERSION_NUMBER, if this header is of the same. Ask before
   the first call. */
uint32_t barrowtide_version(void);

/* ---- The hash ---- */

/* The double SHA-256 of a message. Refused: 1. */
uint32_t barrowtide_sha256d(const uint8_t *data, size_t len, barrowtide_blame *blame,
                            uint8_t digest[32]);

/* The parent of two nodes: the double SHA-256 of the left one's bytes, then the right one's. */
void barrowtide_join(const uint8_t left[32], const uint8_t right[32], uint8_t parent[32]);

/* ---- Reading. The input is one whole path, transaction, proof or bundle, but after a VarInt more
   may follow. ---- */

/* The VarInt at the input's start, and how many bytes it takes; what follows is not looked at.
   Refused: 1, 2, 3. */
uint32_t barrowtide_read_varint(const uint8_t *data, size_t len, barrowtide_blame *blame,
                                uint64_t *value, uint64_t *width);

/* A BUMP: its block height, its tree height, and the number of leaves of all its levels.
   Refused: 1; 2 to 8 in the fields; 9. */
uint32_t barrowtide_read_bump(const uint8_t *data, size_t len, barrowtide_blame *blame,
                              uint64_t *block_height, uint64_t *tree_height, uint64_t *leaves);

/* A compound path (CMP): its tree height, one more than its first byte, and the number of leaves.
   Refused: 1; 2 to 6 and 8 in the fields; 9. */
uint32_t barrowtide_read_cmp(const uint8_t *data, size_t len, barrowtide_blame *blame,
                             uint64_t *tree_height, uint64_t *leaves);

/* A raw transaction: how many inputs and outputs it has, and its id. One of exactly 64 bytes is
   refused, here and wherever a transaction is read, by 11 at its first byte, once all its fields
   are read: two nodes of a tree have that size, so a node above two others could pose as a payment.
   Refused: 1; 2, 3, 11 in the fields; 11 for 64 bytes; 9. */
uint32_t barrowtide_read_transaction(const uint8_t *data, size_t len, barrowtide_blame *blame,
                                     uint64_t *inputs, uint64_t *outputs, uint8_t id[32]);

/* The state of a transaction that is read in parts, in memory that the caller lends: 240 bytes, no
   padding, aligned as a uint64_t. Any bytes may be in it before barrowtide_parts_start; what is in
   it afterwards is the library's, and depends on the bytes that came alone, however they were cut.
   It holds no address, so it may be moved, copied to go on from twice, and saved.
   A part or an end call over any other state ends and touches nothing but what is lent; what it
   returns and leaves there is not said. */
typedef struct {
    uint64_t content[30];
} barrowtide_parts;

typedef char barrowtide_parts_takes_240_bytes[sizeof(barrowtide_parts) == 240 ? 1 : -1];

/* What a part returns while there is no answer yet; it is no refusal's number. */
#define BARROWTIDE_MORE 4294967295u

/* Starts a transaction, whatever the state holds. */
void barrowtide_parts_start(barrowtide_parts *state);

/* The next part of the transaction, cut anywhere, possibly nothing. Returns BARROWTIDE_MORE as long
   as there is nothing to refuse, also when a whole transaction came: 0 is not returned before the
   end call. After a refusal or the end call it looks at no byte and repeats that answer, an
   accepted one with its values, until the state is started afresh.
   Refused: 3, 11 in the fields, by the part that completes the field; 11 for 64 bytes by the last
   of them, if it ends the lock time; 9 by the byte after the lock time; 1 by the byte past
   BARROWTIDE_MAX_PARTS, if the bytes before it show no fault, ahead of 9 there. */
uint32_t barrowtide_parts_part(barrowtide_parts *state, const uint8_t *part, size_t part_len,
                               barrowtide_blame *blame, uint64_t *length, uint64_t *inputs,
                               uint64_t *outputs, uint8_t id[32]);

/* The end of the transaction: how many bytes it has, how many inputs and outputs, and its id. However
   the bytes were cut, this is what barrowtide_read_transaction says of all of them with its size
   raised to BARROWTIDE_MAX_PARTS, but for the place of 1 in the order. Called again it repeats its
   answer. Refused: as by a part; 2 in the fields. */
uint32_t barrowtide_parts_end(barrowtide_parts *state, barrowtide_blame *blame, uint64_t *length,
                              uint64_t *inputs, uint64_t *outputs, uint8_t id[32]);

/* A TSC binary proof: its flags byte, its index, and the number of its nodes. The target is not
   compared with anything. A transaction of 64 bytes in it is 11, as any other fault inside one.
   Refused: 1; 2, 3, 5, 6, 7, 11 in the fields; 9. */
uint32_t barrowtide_read_tsc(const uint8_t *data, size_t len, barrowtide_blame *blame,
                             uint64_t *flags, uint64_t *index, uint64_t *nodes);

/* A BEEF bundle: how many BUMPs and transactions it has. Here and in judging amounts have a limit,
   BARROWTIDE_MAX_TOTAL for the outputs of each transaction; other readers take any amount. A
   transaction of 64 bytes is 11 at its first byte, after a 25 in it and before the byte after it.
   Refused: 1; 2 to 8, 10 to 12, 18 and 25 in the fields; 9. */
uint32_t barrowtide_read_beef(const uint8_t *data, size_t len, barrowtide_blame *blame,
                              uint64_t *bumps, uint64_t *transactions);

/* ---- Judging ---- */

/* What an accepted bundle says of one transaction. Records of earlier versions took 64 bytes: a
   table that one of them saved must not be read as one of these, but its bundle judged anew. */
typedef struct {
    uint64_t start;    /* the place of its first byte in the bundle */
    uint64_t length;   /* how many bytes it takes */
    uint8_t id[32];    /* its id */
    uint32_t bump;     /* the number of the BUMP that anchors it; 0 if not anchored */
    uint32_t anchored; /* 1 if a BUMP of the bundle anchors it in a trusted root, and else 0 */
    uint64_t position; /* its position in the block; 0 if not anchored */
    uint64_t outputs;  /* how many outputs it has */
    uint64_t total;    /* what they come to, in satoshi */
} barrowtide_record;

/* Judges a BEEF bundle against trusted roots, which stand end to end in roots_len bytes, possibly
   none, and a fee in satoshi. Every transaction must climb in its BUMP to a trusted root, as with
   barrowtide_prove_bump, or have an earlier transaction of the bundle as parent of each input. Such
   a one must spend outputs that its parents have, none of them twice and none that another such one
   before it spends, and its inputs must come to more than its outputs plus the fee: strictly more,
   so that a fee of 0 asks for one satoshi at least. The fee is asked of each of them by itself; any
   number may be given, and nothing wraps. What a transaction with a BUMP spends is not looked at.
   All amounts are those of the bundle's own bytes.
   The table has room for table_len records; BARROWTIDE_MAX_TRANSACTIONS are always enough. On
   acceptance *transactions is their number n, the first n records are filled and the others are
   zeroed; a refusal zeroes the whole table.
   *work is the number of SHA-256 compressions (of 64 bytes each) that judging takes, for those who
   plan a terminal's battery by it; it is written on every answer, and below 2^32. It is counted by
   these rules, whatever the library saves by making a hash once for several uses:
   - (n + 72) / 64, rounded down, plus 1 for the id of a transaction of n bytes; each id once, all
     of them before the first transaction is judged;
   - 3 for each join of two nodes, one for each layer of the climb of a transaction with a BUMP;
   - a sibling that has to be worked out counts its own join and those of its children, in each
     climb that asks for it; one that is written, a copy, or one that can't be had counts nothing;
   - a refused climb counts the layers below its fault and, for 15, what the sibling there took; the
     climbs of later transactions count nothing;
   - 1, 21 and refusals in reading (2 to 12, 18, 22, 25) count 0.
   Where all siblings are written, an accepted bundle thus counts its transactions and 3 for each
   layer of each BUMP, as often as a transaction names it, and a refusal in judging no more.
   What acceptance does not say:
   - Scripts and signatures are not run.
   - What mined transactions spend is not looked at: a payment may spend it again.
   - Until a block holds a transaction, what it spends can still be spent elsewhere.
   - A BUMP's block height is the sender's word.
   - Which transaction is the payment, and whom it pays, is not asked.
   Refused: 1; 21; 2 to 8, 10 to 12, 18, 22 and 25 in the fields; 9; then transaction by transaction
   19, and 13, 14 or 15, 17 if it names a BUMP, or else 20, 26, 27, 28. */
uint32_t barrowtide_judge_beef(const uint8_t *data, size_t len, const uint8_t *roots,
                               size_t roots_len, uint64_t fee, barrowtide_record *table,
                               size_t table_len, barrowtide_blame *blame, uint64_t *transactions,
                               uint64_t *work);

/* ---- Proving. The input is read as above first, with the refusals of reading. A proof is worth as
   much as its root is trusted. 15 rules out the twins that make a block look as if it held a
   transaction twice. Nothing in a proof shows that its id is a transaction's: an inner node of the
   tree has a proof with fewer layers. It can't pose as a payment that was read, as a transaction of
   64 bytes is refused and no other has the id of a pair of nodes, unless double SHA-256 is broken:
   so take the id from the payment's own bytes. barrowtide_compare_depths would show how it is
   broken. ---- */

/* Proves a lent id by a BUMP: its position in the block, the number of layers above it, and the
   Merkle root. The climb starts at the level-0 leaf that carries the id, of several at the least
   offset. A sibling above level 0 that is not written is worked out: it is the join of its two
   children one level lower, each written or worked out in turn. As a sibling, a copy (flags 01)
   repeats the working hash; below one it has the value of the node on its left.
   Refused after reading: 13, then 14 or 15. */
uint32_t barrowtide_prove_bump(const uint8_t *data, size_t len, const uint8_t id[32],
                               barrowtide_blame *blame, uint64_t *position, uint64_t *layers,
                               uint8_t root[32]);

/* The same by a compound path, which has no copies. */
uint32_t barrowtide_prove_cmp(const uint8_t *data, size_t len, const uint8_t id[32],
                              barrowtide_blame *blame, uint64_t *position, uint64_t *layers,
                              uint8_t root[32]);

/* Proves a TSC proof's own id, the one written or its transaction's, and gives it, too. A header or
   a root as target must hold the root; a block hash is compared with nothing, and a header's own
   hash and work are not looked at. Refused after reading: 15, then 16. */
uint32_t barrowtide_prove_tsc(const uint8_t *data, size_t len, barrowtide_blame *blame,
                              uint8_t id[32], uint64_t *position, uint64_t *layers,
                              uint8_t root[32]);

/* Climbs from every client leaf (flags 02) of a BUMP in written order, each climb as for
   barrowtide_prove_bump; all must lead to one root.
   Refused after reading: 13 if there is none; leaf by leaf 14 or 15, then 16. */
uint32_t barrowtide_check_clients(const uint8_t *data, size_t len, barrowtide_blame *blame,
                                  uint8_t root[32]);

/* What a page says of one id: a proof, or a refusal with the last three fields 0. */
typedef struct {
    uint64_t refusal;  /* 0 if the id is proved, else the number of its refusal */
    uint64_t carried;  /* what that refusal carries; 0 if the id is proved */
    uint64_t layer;    /* of 14 and 15 the sibling's layer; else 0 */
    uint64_t sibling;  /* of 14 and 15 its position in that layer; else 0 */
    uint64_t position; /* the id's position in the block */
    uint64_t layers;   /* the number of layers above it */
    uint8_t root[32];  /* the Merkle root */
} barrowtide_answer;

/* Asks one BUMP about a page of up to 256 ids, which stand end to end in ids_len bytes. The row has
   room for row_len answers; BARROWTIDE_MAX_PAGE are always enough. If the page is answered, each id
   has the answer that it gets singly from barrowtide_prove_bump, refused or not, in order, and the
   answers past the ids are zero. A refusal of the call zeroes the whole row.
   Refused: 5 for more ids or a part of one; 22 for a row shorter than the ids; then as
   barrowtide_read_bump. */
uint32_t barrowtide_prove_page(const uint8_t *data, size_t len, const uint8_t *ids,
                               size_t ids_len, barrowtide_answer *row, size_t row_len,
                               barrowtide_blame *blame);

/* The form of a proof. Any other number is taken as BARROWTIDE_TSC. */
enum barrowtide_form { BARROWTIDE_BUMP = 0, BARROWTIDE_CMP = 1, BARROWTIDE_TSC = 2 };

/* Compares two proofs. The id lent with a TSC proof is read and not used. Two proofs of different
   ids at one position under one root hold two different strings of 64 bytes with equal double
   SHA-256: these are the answer.
   Refused: the first proof's refusal, the second's, 23, 24. */
uint32_t barrowtide_compare(uint32_t first_form, const uint8_t *first, size_t first_len,
                            const uint8_t first_id[32], uint32_t second_form,
                            const uint8_t *second, size_t second_len, const uint8_t second_id[32],
                            barrowtide_blame *blame, uint8_t first_string[64],
                            uint8_t second_string[64]);

/* Compares two proofs of different numbers of layers, in either order, with the raw transaction of
   the one that has fewer, "the shorter": does an inner node of the tree pose as its payment?
   Accepted are two proofs to one root, the shorter at the other's position halved, dropping
   remainders, once for each layer more, if the transaction's id is the one that the shorter proves.
   Their layers are matched from the root down, and the transaction stands for a layer below the
   shorter's lowest. At the lowest layer where the hashes made are equal they have two different
   strings of equal double SHA-256, the shorter's first: these are the answer. *first_is_transaction
   is 1 if the first is the transaction itself, and first_string then stays as it was; else it is 0,
   and first_string has the 64 bytes that the shorter hashed there. second_string has those of the
   other proof. Both orders of the proofs give one answer. The id lent with a TSC proof is read and
   not used. The call climbs each proof at most twice and hashes the transaction once.
   Refused: the first proof's refusal, the second's; as barrowtide_read_transaction, with places in
   the transaction; 23 if the roots differ, if both have as many layers, if the shorter is at
   another position, or if the transaction is not the one that it proves. */
uint32_t barrowtide_compare_depths(uint32_t first_form, const uint8_t *first, size_t first_len,
                                   const uint8_t first_id[32], uint32_t second_form,
                                   const uint8_t *second, size_t second_len,
                                   const uint8_t second_id[32], const uint8_t *transaction,
                                   size_t transaction_len, barrowtide_blame *blame,
                                   uint64_t *first_is_transaction, uint8_t first_string[64],
                                   uint8_t second_string[64]);

/* ---- Two BUMPs side by side ---- */

/* What an entry of the list of differences says first. */
enum barrowtide_difference {
    BARROWTIDE_BLOCK_HEIGHT = 1, /* the block heights differ */
    BARROWTIDE_TREE_HEIGHT = 2,  /* the tree heights differ */
    BARROWTIDE_IN_FIRST = 3,     /* a leaf stands in the first BUMP only */
    BARROWTIDE_IN_SECOND = 4,    /* a leaf stands in the second BUMP only */
    BARROWTIDE_IN_BOTH = 5       /* a leaf stands in both, with other flags or another hash */
};

/* Lists every difference of two BUMPs once and nothing else: block height, tree height, then leaves
   by level and offset. The order in which leaves are written is no difference; a copy and a hash
   differ, even if the copy stands for that hash. An entry is three numbers: what it says (see
   above), the leaf's level and its offset, both 0 for a height. The list has list_len numbers, room
   for list_len / 3 entries; 3 * BARROWTIDE_MAX_DIFFERENCES are always enough. On acceptance
   *entries is the number of entries, which stand at the front of the list; the numbers past them
   stay as they were, and all of the list on a refusal.
   Refused: as barrowtide_read_bump for the first, then for the second; 22 if there are more
   differences than room. */
uint32_t barrowtide_differences(const uint8_t *first, size_t first_len, const uint8_t *second,
                                size_t second_len, uint64_t *list, size_t list_len,
                                barrowtide_blame *blame, uint64_t *entries);

/* The shorter of two BUMPs, where both prove the id to one root; the first if they are equally
   long. *which is 0 for the first and 1 for the second, and *length is the length of that input,
   the proof to keep. On a refusal both are 0: an empty part of the first. Positions, layers and
   block heights may differ.
   Refused: as barrowtide_prove_bump for the first, then for the second; 23 for two roots. */
uint32_t barrowtide_shorter(const uint8_t *first, size_t first_len, const uint8_t *second,
                            size_t second_len, const uint8_t id[32], barrowtide_blame *blame,
                            uint64_t *which, uint64_t *length);

/* ---- A list of leaves beside a BUMP, and two BUMPs merged ---- */

/* Lists the leaves of a BUMP, to be kept beside it where it is searched often. A leaf is three
   numbers: its level, its offset, and the place of its first byte in the BUMP, which is the first
   of its offset; the flags stand after the offset, and the hash, if there is one, after them. Every
   leaf stands in the list once, rising by level and then by offset, whatever the order in which
   they are written. The list has list_len numbers, room for list_len / 3 leaves; 3 *
   BARROWTIDE_MAX_LISTED are always enough. On acceptance *leaves is the number of leaves, which
   stand at the front of the list; the numbers past them stay as they were, and all of the list on a
   refusal. Nothing is proved: whether the leaves lead to a root is not asked.
   Refused: as barrowtide_read_bump; 22 if there are more leaves than room. */
uint32_t barrowtide_list_leaves(const uint8_t *data, size_t len, uint64_t *list, size_t list_len,
                                barrowtide_blame *blame, uint64_t *leaves);

/* Searches such a list, and no other bytes, for the leaf at a level and offset. Returns 1 and
   writes *place, the place of the leaf's first byte in the BUMP, if the BUMP has one there, and
   else returns 0 and leaves *place as it was; a level that the BUMP doesn't have holds none.
   list_len is the number of numbers that were written, 3 * *leaves, not the room that was lent for
   them. The search takes at most 16 steps.
   The list must be one that barrowtide_list_leaves or barrowtide_merge wrote, unchanged, and the
   place is one of the bytes that it was written for. Over any other list the call ends and reads
   nothing but the list; what it returns then, and writes to *place, is not said. */
uint32_t barrowtide_search_leaves(const uint64_t *list, size_t list_len, uint64_t level,
                                  uint64_t offset, uint64_t *place);

/* Merges two BUMPs of one block into one that proves what either proves, and lists its leaves. The
   two must have one block height, one tree height and one root, which is the one that
   barrowtide_check_clients gives of each. The merged BUMP has every leaf of either once and no
   other, offsets rising, and that root. Where both have a leaf at a place,
   - of two equal hashes one is kept, as a client's (flags 02) if either is;
   - of two copies (flags 01) one is kept;
   - of a hash and a copy the hash is kept, with its flags, if the node on its left is written with
     that hash in either BUMP;
   and else they contradict each other. They do so, too, if clients of the merged BUMP don't all
   lead to the root, as a leaf that no climb of one BUMP asks for may be asked for in the other.
   The merged BUMP goes to bytes, which has room for bytes_len of them; first_len + second_len +
   BARROWTIDE_MERGE_EXTRA are always enough. Its list goes to list, as with barrowtide_list_leaves
   of the merged bytes. On acceptance *written is the number of bytes and *leaves that of leaves;
   the room past them stays as it was, and all of both on a refusal. Neither input may overlap with
   the room: to keep the merged BUMP in place of the first, copy it there.
   Refused: as barrowtide_check_clients for the first, then for the second; 23 for two block
   heights, tree heights or roots; 5 if a level of the merged BUMP would have more than
   BARROWTIDE_MAX_LEAVES leaves; 16 if the two contradict each other; 22 if the bytes or the leaves
   are more than the room. */
uint32_t barrowtide_merge(const uint8_t *first, size_t first_len, const uint8_t *second,
                          size_t second_len, uint8_t *bytes, size_t bytes_len, uint64_t *list,
                          size_t list_len, barrowtide_blame *blame, uint64_t *written,
                          uint64_t *leaves);

/* ---- Putting transactions in order, as a BEEF needs them ---- */

/* Puts a set of raw transactions, which stand end to end in len bytes in no order, in one that has
   parents first. They are named by their numbers in the set, counted from 0. Each time the first
   handed in is taken, of those not yet placed, whose parents in the set are placed; of all orders
   with parents first this is the least in dictionary order. A parent that is not in the set is not
   asked for, and which output an input names is not looked at. The row has room for row_len
   numbers; BARROWTIDE_MAX_TRANSACTIONS are always enough. On acceptance the order is in its first
   count numbers, and those past them stay as they were; a refusal zeroes the whole row. A set of
   none is accepted.
   A refusal writes *transaction too: of a fault in reading the number of the transaction that was
   being read, or of the next one if the bytes end between two; of 9 the count; else 0.
   Refused: 5 for a count over BARROWTIDE_MAX_TRANSACTIONS; 1; 2, 3, 11 in the fields; 11 for one of
   64 bytes; 9; 19; 22 for a row shorter than the set; 29 exactly when no order has parents first,
   which would take transactions that hold each other's hashes. */
uint32_t barrowtide_order(const uint8_t *data, size_t len, uint64_t count, uint64_t *row,
                          size_t row_len, barrowtide_blame *blame, uint64_t *transaction);

/* Checks a proposed order of such a set: it is accepted exactly when it holds every transaction's
   number once and each after its parents in the set. An order by barrowtide_order always is. The
   proposal may be of any length and have any numbers in it, and is only read.
   Refused: as barrowtide_order, but in place of 22 and 29 30 exactly when the proposal fails the
   check, whether by its length, by a number or by the order. */
uint32_t barrowtide_check_order(const uint8_t *data, size_t len, uint64_t count,
                                const uint64_t *proposal, size_t proposal_len,
                                barrowtide_blame *blame, uint64_t *transaction);

/* ---- Writing ---- */

/* Writes the BUMP that proves chosen ids of a block. The block's ids, 2 to 1,024, stand end to end
   in ids_len bytes; the chosen positions count from 0, in any order, and one named twice counts
   once. The BUMP has the least tree height that holds the list, offsets rising, the chosen ids with
   flags 02, every sibling that their climbs need and no other leaf; but above level 0 a sibling is
   left out if a chosen position lies under it, as it can be worked out. A copy (flags 01) stands
   beside the last node of an odd layer. The room out has out_len bytes; BARROWTIDE_WRITE_ROOM are
   always enough. On acceptance *written is the number of bytes, which are the first ones of out;
   the room past them stays as it was, and all of out on a refusal.
   Refused: 5 for a block height over 32 bits, for fewer or more ids or a part of one; 13 for no
   position; 6 for one outside the list; 19 for equal ids; 15 if a climb meets a twin, with the
   sibling at the lowest such layer of the least position whose climb does; 22 if the bytes needed
   are more than out_len. */
uint32_t barrowtide_write_bump(uint64_t block_height, const uint8_t *ids, size_t ids_len,
                               const uint64_t *positions, size_t positions_count, uint8_t *out,
                               size_t out_len, barrowtide_blame *blame, uint64_t *written);

/* ---- To and from TSC proofs ---- */

/* Turns a TSC proof, with a transaction or an id and any target, into a BUMP of the block height
   given. The BUMP has as many levels as the proof has nodes: at level 0 the proof's id with flags
   02 and its sibling, offsets rising, at each other level the sibling and nothing else. A node of
   type 1 becomes a copy (flags 01), any other is written with flags 00. The room out has out_len
   bytes; BARROWTIDE_TSC_TO_BUMP_ROOM are always enough: at most 5 for the block height, 1 for the
   tree height and 42 for the client's leaf, and for each of 64 levels 1 for its count, 33 for the
   sibling's flags and hash, and 9 (32 levels), 5 (16 levels), 3 (9 levels) or 1 (7 levels) for its
   offset. On acceptance *written is the number of bytes, which are the first ones of out; the room
   past them stays as it was, and all of out on a refusal.
   Refused: as barrowtide_prove_tsc; 4 at the node count if it is 0, as a BUMP has one level at
   least; 22 if the bytes needed are more than out_len. */
uint32_t barrowtide_tsc_to_bump(const uint8_t *data, size_t len, uint32_t block_height,
                                uint8_t *out, size_t out_len, barrowtide_blame *blame,
                                uint64_t *written);

/* Turns a lent id's climb in a BUMP into a TSC proof: flags 04, the position as index, the id, the
   root as target, and the climb's siblings as nodes, from the lowest up. A copy becomes a node of
   type 1; any other sibling, written with whatever flags or worked out, one of type 0 with its
   hash. Other clients and surplus leaves are left out. A TSC proof with id and root that
   barrowtide_tsc_to_bump turned into a BUMP comes back byte for byte. The room out has out_len
   bytes; BARROWTIDE_BUMP_TO_TSC_ROOM are always enough: at most 1 for the flags, 9 for the index,
   64 for id and root, 1 for the node count and 33 for each of 64 nodes. *written and out are as
   with barrowtide_tsc_to_bump.
   Refused: as barrowtide_prove_bump; 22 if the bytes needed are more than out_len. */
uint32_t barrowtide_bump_to_tsc(const uint8_t *data, size_t len, const uint8_t id[32],
                                uint8_t *out, size_t out_len, barrowtide_blame *blame,
                                uint64_t *written);

/* ---- Layouts: blames, records and answers have no padding, and each field its place ---- */

#if defined(__cplusplus) && __cplusplus >= 201103L
#define BARROWTIDE_TAKES(type, size) static_assert(sizeof(type) == size, #type " takes " #size)
#define BARROWTIDE_AT(type, field, place)                                                          \
    static_assert(offsetof(type, field) == place, #type " has " #field " at " #place)
#elif defined(__STDC_VERSION__) && __STDC_VERSION__ >= 201112L
#define BARROWTIDE_TAKES(type, size) _Static_assert(sizeof(type) == size, #type " takes " #size)
#define BARROWTIDE_AT(type, field, place)                                                          \
    _Static_assert(offsetof(type, field) == place, #type " has " #field " at " #place)
#else
#define BARROWTIDE_TAKES(type, size) typedef char type##_takes_##size[sizeof(type) == size ? 1 : -1]
#define BARROWTIDE_AT(type, field, place)                                                          \
    typedef char type##_has_##field##_at_##place[offsetof(type, field) == place ? 1 : -1]
#endif
BARROWTIDE_TAKES(barrowtide_blame, 24);
BARROWTIDE_AT(barrowtide_blame, carried, 0);
BARROWTIDE_AT(barrowtide_blame, layer, 8);
BARROWTIDE_AT(barrowtide_blame, sibling, 16);
BARROWTIDE_TAKES(barrowtide_answer, 80);
BARROWTIDE_AT(barrowtide_answer, refusal, 0);
BARROWTIDE_AT(barrowtide_answer, carried, 8);
BARROWTIDE_AT(barrowtide_answer, layer, 16);
BARROWTIDE_AT(barrowtide_answer, sibling, 24);
BARROWTIDE_AT(barrowtide_answer, position, 32);
BARROWTIDE_AT(barrowtide_answer, layers, 40);
BARROWTIDE_AT(barrowtide_answer, root, 48);
BARROWTIDE_TAKES(barrowtide_record, 80);
BARROWTIDE_AT(barrowtide_record, start, 0);
BARROWTIDE_AT(barrowtide_record, length, 8);
BARROWTIDE_AT(barrowtide_record, id, 16);
BARROWTIDE_AT(barrowtide_record, bump, 48);
BARROWTIDE_AT(barrowtide_record, anchored, 52);
BARROWTIDE_AT(barrowtide_record, position, 56);
BARROWTIDE_AT(barrowtide_record, outputs, 64);
BARROWTIDE_AT(barrowtide_record, total, 72);
#undef BARROWTIDE_TAKES
#undef BARROWTIDE_AT

#ifdef __cplusplus
}
#endif

#endif
