/* Calls the bank from C: twelve entries, a lookup, a cut, a walk, and the refusals of a small bank. Ends with status 1 where an answer is not the
 * one that is wanted. */
#include "bank.h"

#include <stdio.h>
#include <stdlib.h>

_Static_assert(sizeof(struct bank_head) == 30, "head");
_Static_assert(sizeof(struct bank_place) == 24, "place");
_Static_assert(sizeof(struct bank_supply) == 8198, "supply");
_Static_assert(sizeof(struct bank) == 8592, "bank");
_Static_assert(sizeof(struct bank_insert_reply) == 12, "insert reply");
_Static_assert(sizeof(struct bank_lookup_reply) == 24, "lookup reply");
_Static_assert(sizeof(struct bank_count_reply) == 16, "count reply");
_Static_assert(sizeof(struct bank_cut_reply) == 32, "cut reply");
_Static_assert(sizeof(struct bank_step_reply) == 16, "step reply");
_Static_assert(sizeof(struct bank_audit_reply) == 8, "audit reply");

#define NODES 4
#define CELLS (BANK_CAPACITY * NODES)

static struct bank_head heads[NODES];
static uint32_t keys[CELLS];
static uint32_t values[CELLS];

#define TABLES heads, NODES, keys, CELLS, values, CELLS

static int checks;

static void check(bool holds, const char *what)
{
    checks++;
    if (!holds) {
        printf("not so: %s\n", what);
        exit(1);
    }
}

int main(void)
{
    struct bank bank = bank_new(NODES);
    check(bank_count(&bank, TABLES, 0).verdict.code == BANK_TABLES, "a bank is laid out first");
    check(bank_lay_out(&bank, TABLES).code == BANK_GRANTED, "it is laid out");

    for (uint32_t key = 1; key <= 12; key++) {
        struct bank_insert_reply put = bank_insert(&bank, TABLES, 0, key, 10 * key);
        check(put.verdict.code == BANK_GRANTED && !put.replaced, "an entry is put in");
    }
    struct bank_place tree = bank.places[0];
    check(tree.kind == BANK_TREE && tree.height == 1 && tree.count == 12, "a tree of two levels holds twelve entries");
    check(heads[tree.root].len == 1 && keys[BANK_CAPACITY * tree.root] == 7, "its root holds 7 alone");
    check(heads[heads[tree.root].edges[0]].len == 6 && heads[heads[tree.root].edges[1]].len == 5, "its leaves hold six and five");

    struct bank_insert_reply again = bank_insert(&bank, TABLES, 0, 7, 77);
    check(again.replaced && again.old == 70, "a key that is there gives its old value");
    struct bank_lookup_reply seven = bank_lookup(&bank, TABLES, 0, 7);
    check(seven.found && seven.value == 77 && seven.comparisons == 1, "7 is found at the root");
    check(!bank_lookup(&bank, TABLES, 0, 13).found, "13 is not found");
    check(bank_lookup(&bank, TABLES, 16, 7).verdict.code == BANK_PLACE, "there is no place 16");

    struct bank_cut_reply cut = bank_cut(&bank, TABLES, 0, 1, 7);
    check(cut.verdict.code == BANK_SHORT && cut.verdict.needed == 2 && cut.verdict.allowance == 1, "a cut needs two nodes, and one is left");
    check(bank_count(&bank, TABLES, 0).count == 12, "nothing has changed");

    check(bank_open(&bank, TABLES, 0).code == BANK_GRANTED, "the tree becomes a walk");
    struct bank_step_reply first = bank_next(&bank, TABLES, 0);
    struct bank_step_reply last = bank_next_back(&bank, TABLES, 0);
    check(first.handed && first.key == 1 && first.value == 10, "the least entry comes from the front");
    check(last.handed && last.key == 12 && last.value == 120, "the greatest comes from the back");
    check(bank_audit(&bank, TABLES).good, "the bank is in good form");
    check(bank_close(&bank, TABLES, 0).count == 10, "ten entries are dropped");

    for (uint32_t key = 1; key <= 6; key++)
        bank_insert(&bank, TABLES, 2, 2 * key, key);
    cut = bank_cut(&bank, TABLES, 2, 3, 7);
    check(cut.left == 3 && cut.right == 3 && cut.comparisons == 4, "six entries are cut in the middle");
    check(bank_release(&bank, TABLES, 2).count == 3 && bank_release(&bank, TABLES, 3).count == 3, "both parts are released");
    check(bank.supply.left == NODES, "every node is left");

    bank.supply.head = NODES;
    check(bank_count(&bank, TABLES, 0).verdict.code == BANK_NOT_A_BANK, "fields that spell no bank are refused");
    check(bank_new(4097).supply.size == 0, "there are no more than 4096 nodes");

    printf("%d checks from C\n", checks);
    return 0;
}
