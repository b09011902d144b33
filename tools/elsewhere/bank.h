/* A bank of up to sixteen ordered books of 32-bit keys and values, whose nodes share three tables that the caller owns and passes to every call.
 *
 * The library is crates/bank_c, and is built by `rt lib` there: crates/bank_c/out/libbank_c.a. It is for Linux on x86-64 (level v2). It needs
 * memcpy and memset of the C library and nothing else: it allocates nothing, opens nothing and keeps nothing between calls.
 *
 * Each function ends, and writes nothing but what it is lent to write, whatever the fields of the bank, the tables and the arguments hold: this is
 * proved, and no function asks anything of them. What a caller owes is what the types say, and nothing checks it:
 *
 *  - A pointer leads to as many elements as its length says (one bank for `bank`), aligned and in memory that was written before (as by calloc).
 *    It is not null, also where the length is 0.
 *  - What a call is lent to write does not overlap what else it is lent, and nobody else reads or writes it during the call. What it is lent to
 *    read (const) nobody writes during the call. So two threads may look things up in one bank at once, and do nothing else at once.
 *  - There are some 64 KiB of stack left.
 *
 * A bank is laid out first, with tables of as many heads as it has nodes and eleven keys and eleven values a node, and then passed with these
 * tables, which nobody but the library writes. Then no call but a second laying out is refused with number 1, 2, 5 or 65535. A caller that writes to
 * a bank or its tables gets some answer, and calls that end.
 *
 * Every call first goes through the whole supply, to see that the fields are those of a bank; its time grows with the number of nodes. */
#ifndef BANK_H
#define BANK_H

#include <stdbool.h>
#include <stddef.h>
#include <stdint.h>

#ifdef __cplusplus
extern "C" {
#endif

#define BANK_PLACES 16
#define BANK_MOST_NODES 4096
/* The most entries in a node: so many keys and so many values of the tables are a node's. */
#define BANK_CAPACITY 11
/* No node. */
#define BANK_NULL 65535

/* A node. Its key i is keys[11 * node + i], its value i is values[11 * node + i]. The number of its parent (BANK_NULL in a root), its place among
 * the parent's edges, how many entries it has, and above the leaves one edge more than these: the numbers of its children. */
struct bank_head {
    uint16_t parent;
    uint16_t place;
    uint16_t len;
    uint16_t edges[12];
};

enum bank_kind { BANK_BARE = 0, BANK_TREE = 1, BANK_WALK = 2 };

/* What stands in a place. Of a tree: root, height (0 where the root is a leaf) and how many entries. Of a walk: at each end the leaf and the edge
 * of it where the walk stands, and how many entries are left. The other fields do not count. */
struct bank_place {
    uint16_t kind;
    uint16_t root;
    uint16_t height;
    uint16_t front_node;
    uint16_t front_edge;
    uint16_t back_node;
    uint16_t back_edge;
    size_t count;
};

/* Which nodes are in use. Those that are not stand in a row of `left` numbers from `head` on, by their links; the link of one in use is 65535. */
struct bank_supply {
    uint16_t size;
    uint16_t left;
    uint16_t head;
    uint16_t links[BANK_MOST_NODES];
};

/* A bank: nodes is 0 until it is laid out. To be read by anyone, and written by the library alone. It may be copied together with its tables. */
struct bank {
    size_t nodes;
    struct bank_place places[BANK_PLACES];
    struct bank_supply supply;
};

/* Why a call was refused. The first that applies is what it answers. */
enum bank_code {
    BANK_GRANTED = 0,
    /* The tables are not those of 1 to 4096 nodes, or are not of the bank's size. Nothing has changed. */
    BANK_TABLES = 1,
    /* At laying out: the bank has another number of nodes than there are heads, or one is in use. Nothing has changed. */
    BANK_SUPPLY = 2,
    /* The place is above 15. Nothing has changed. */
    BANK_PLACE = 3,
    /* What stands in the place does not allow the call; or a cut's second place is not bare, or is the first. Nothing has changed. */
    BANK_KIND = 4,
    /* The bank or its tables are not in good form. They may now hold anything. */
    BANK_BREACH = 5,
    /* More nodes are needed than are left: both numbers stand beside this one. Nothing has changed. */
    BANK_SHORT = 6,
    /* The fields of the bank are not those of a bank. Nothing has changed. No call of a bank has this number for a refusal of its own. */
    BANK_NOT_A_BANK = 65535
};

/* Whether a call was granted. needed and allowance count beside BANK_SHORT alone, and the other fields of a reply beside BANK_GRANTED alone. */
struct bank_verdict {
    uint16_t code;
    uint16_t needed;
    uint16_t allowance;
};

/* Whether the key was there, and if so its old value. */
struct bank_insert_reply {
    struct bank_verdict verdict;
    bool replaced;
    uint32_t old;
};

/* Whether the key is there, and if so its value; and the comparisons made. */
struct bank_lookup_reply {
    struct bank_verdict verdict;
    bool found;
    uint32_t value;
    size_t comparisons;
};

/* How many entries there are, or were dropped. */
struct bank_count_reply {
    struct bank_verdict verdict;
    size_t count;
};

/* The entries left, the entries right, and the comparisons made. */
struct bank_cut_reply {
    struct bank_verdict verdict;
    size_t left;
    size_t right;
    size_t comparisons;
};

/* Whether an entry was left, and if so its key and its value. */
struct bank_step_reply {
    struct bank_verdict verdict;
    bool handed;
    uint32_t key;
    uint32_t value;
};

/* Whether the bank is in good form. */
struct bank_audit_reply {
    struct bank_verdict verdict;
    bool good;
};

/* A bank of so many nodes, or of none where there are more than 4096. It is to be laid out first. */
struct bank bank_new(uint16_t nodes);

/* Lays out the tables: takes over their size, and makes every place bare. */
struct bank_verdict bank_lay_out(struct bank *bank,
    const struct bank_head *heads, size_t heads_len,
    const uint32_t *keys, size_t keys_len,
    const uint32_t *values, size_t values_len);

/* Puts an entry into a bare place or a tree. A key that is there keeps its place and gets the new value. */
struct bank_insert_reply bank_insert(struct bank *bank,
    struct bank_head *heads, size_t heads_len,
    uint32_t *keys, size_t keys_len,
    uint32_t *values, size_t values_len,
    size_t place, uint32_t key, uint32_t value);

/* The value under a key of a bare place or a tree. */
struct bank_lookup_reply bank_lookup(const struct bank *bank,
    const struct bank_head *heads, size_t heads_len,
    const uint32_t *keys, size_t keys_len,
    const uint32_t *values, size_t values_len,
    size_t place, uint32_t key);

/* How many entries a place has, or a walk has left. */
struct bank_count_reply bank_count(const struct bank *bank,
    const struct bank_head *heads, size_t heads_len,
    const uint32_t *keys, size_t keys_len,
    const uint32_t *values, size_t values_len,
    size_t place);

/* Cuts a bare place or a tree at a key: what is below it stays, and the rest goes to the bare place `other`. */
struct bank_cut_reply bank_cut(struct bank *bank,
    struct bank_head *heads, size_t heads_len,
    uint32_t *keys, size_t keys_len,
    uint32_t *values, size_t values_len,
    size_t place, size_t other, uint32_t key);

/* Makes a bare place or a tree a walk over all its entries. */
struct bank_verdict bank_open(struct bank *bank,
    const struct bank_head *heads, size_t heads_len,
    const uint32_t *keys, size_t keys_len,
    const uint32_t *values, size_t values_len,
    size_t place);

/* Hands out the least entry left of a walk. */
struct bank_step_reply bank_next(struct bank *bank,
    const struct bank_head *heads, size_t heads_len,
    const uint32_t *keys, size_t keys_len,
    const uint32_t *values, size_t values_len,
    size_t place);

/* Hands out the greatest entry left of a walk. */
struct bank_step_reply bank_next_back(struct bank *bank,
    const struct bank_head *heads, size_t heads_len,
    const uint32_t *keys, size_t keys_len,
    const uint32_t *values, size_t values_len,
    size_t place);

/* Closes a walk: gives back its nodes, and leaves the place bare. */
struct bank_count_reply bank_close(struct bank *bank,
    const struct bank_head *heads, size_t heads_len,
    const uint32_t *keys, size_t keys_len,
    const uint32_t *values, size_t values_len,
    size_t place);

/* Releases a bare place or a tree: gives back its nodes, and leaves the place bare. */
struct bank_count_reply bank_release(struct bank *bank,
    const struct bank_head *heads, size_t heads_len,
    const uint32_t *keys, size_t keys_len,
    const uint32_t *values, size_t values_len,
    size_t place);

/* Whether the bank is in good form. */
struct bank_audit_reply bank_audit(const struct bank *bank,
    const struct bank_head *heads, size_t heads_len,
    const uint32_t *keys, size_t keys_len,
    const uint32_t *values, size_t values_len);

#ifdef __cplusplus
}
#endif

#endif
