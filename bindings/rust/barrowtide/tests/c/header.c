/* Prints what the header says of numbers and sizes, and what calls leave in a lent blame; where a
   length is 0 they are lent null. */
#include <inttypes.h>
#include <stdio.h>
#include <string.h>

#include "barrowtide.h"

/* Prints what a call said, and the blame that it left; then fills the blame anew. */
static void print_call(const char *call, uint32_t number, barrowtide_blame *blame)
{
    printf("%s %" PRIu32 ", blame %" PRIu64 " %" PRIu64 " %" PRIu64 "\n", call, number,
           blame->carried, blame->layer, blame->sibling);
    *blame = (barrowtide_blame){7, 8, 9};
}

int main(void)
{
    barrowtide_blame blame = {7, 8, 9};
    uint64_t transactions = 7, work = 7, written = 7, position = 7, layers = 7;
    uint8_t digest[32];
    /* A transaction of one input and one output. */
    static const uint8_t one[60] = {1, 0, 0, 0, 1, [46] = 1};

    printf("version %d.%d.%d, archive %" PRIu32 "\n", BARROWTIDE_VERSION_MAJOR,
           BARROWTIDE_VERSION_MINOR, BARROWTIDE_VERSION_PATCH, barrowtide_version());
    printf("of one version %d\n", barrowtide_version() == BARROWTIDE_VERSION_NUMBER);
    for (uint32_t number = 0; number <= BARROWTIDE_BAD_ORDER + 1; number++)
        printf("%" PRIu32 " %s, %s, carries %d\n", number, barrowtide_refusal_name(number),
               barrowtide_refusal_words(number), (int)barrowtide_refusal_carries(number));
    printf("input %d\n", BARROWTIDE_MAX_INPUT);
    printf("transactions %d\n", BARROWTIDE_MAX_TRANSACTIONS);
    printf("total %" PRIu64 "\n", (uint64_t)BARROWTIDE_MAX_TOTAL);
    printf("page %d\n", BARROWTIDE_MAX_PAGE);
    printf("ids %d\n", BARROWTIDE_MAX_IDS);
    printf("write room %d\n", BARROWTIDE_WRITE_ROOM);
    printf("TSC to BUMP room %d\n", BARROWTIDE_TSC_TO_BUMP_ROOM);
    printf("BUMP to TSC room %d\n", BARROWTIDE_BUMP_TO_TSC_ROOM);
    printf("differences %d\n", BARROWTIDE_MAX_DIFFERENCES);
    printf("leaves %d, listed %d\n", BARROWTIDE_MAX_LEAVES, BARROWTIDE_MAX_LISTED);
    printf("more bytes to merge %d\n", BARROWTIDE_MERGE_EXTRA);
    printf("record %zu\n", sizeof(barrowtide_record));
    printf("answer %zu\n", sizeof(barrowtide_answer));
    printf("blame %zu\n", sizeof(barrowtide_blame));
    printf("parts %u, state %zu, more %u\n", BARROWTIDE_MAX_PARTS, sizeof(barrowtide_parts),
           BARROWTIDE_MORE);

    print_call("hash of nothing", barrowtide_sha256d(NULL, 0, &blame, digest), &blame);
    print_call("no bundle",
               barrowtide_judge_beef(NULL, 0, NULL, 0, 0, NULL, 0, &blame, &transactions, &work),
               &blame);
    printf("work %" PRIu64 "\n", work);
    print_call("no path", barrowtide_prove_page(NULL, 0, NULL, 0, NULL, 0, &blame), &blame);
    print_call("no paths",
               barrowtide_differences(NULL, 0, NULL, 0, NULL, 0, &blame, &written), &blame);
    print_call("no list", barrowtide_write_bump(0, NULL, 0, NULL, 0, NULL, 0, &blame, &written),
               &blame);
    /* A BUMP of one copy, listed, and searched for in the list and in none. */
    static const uint8_t copy[5] = {7, 1, 1, 1, 1};
    uint64_t list[4] = {7, 7, 7, 7}, leaves = 7, place = 7;
    print_call("no leaves", barrowtide_list_leaves(NULL, 0, NULL, 0, &blame, &leaves), &blame);
    print_call("no room", barrowtide_list_leaves(copy, sizeof copy, NULL, 0, &blame, &leaves),
               &blame);
    print_call("a leaf", barrowtide_list_leaves(copy, sizeof copy, list, 4, &blame, &leaves),
               &blame);
    printf("leaves %" PRIu64 ": %" PRIu64 " %" PRIu64 " %" PRIu64 " %" PRIu64 "\n", leaves, list[0],
           list[1], list[2], list[3]);
    printf("found %" PRIu32 ", ", barrowtide_search_leaves(NULL, 0, 0, 1, &place));
    printf("at %" PRIu64 "\n", place);
    printf("found %" PRIu32 ", ", barrowtide_search_leaves(list, 3, 0, 1, &place));
    printf("at %" PRIu64 "\n", place);
    print_call("nothing to merge",
               barrowtide_merge(NULL, 0, NULL, 0, NULL, 0, NULL, 0, &blame, &written, &leaves),
               &blame);
    print_call("no client",
               barrowtide_merge(copy, sizeof copy, NULL, 0, NULL, 0, NULL, 0, &blame, &written,
                                &leaves),
               &blame);
    /* A set of none has one order, of none; of two transactions the second is not there. */
    uint64_t transaction = 7, number = 0;
    print_call("no set", barrowtide_order(NULL, 0, 0, NULL, 0, &blame, &transaction), &blame);
    print_call("no proposal", barrowtide_check_order(NULL, 0, 0, NULL, 0, &blame, &transaction),
               &blame);
    print_call("not that", barrowtide_check_order(NULL, 0, 0, &number, 1, &blame, &transaction),
               &blame);
    print_call("too many", barrowtide_order(NULL, 0, 257, NULL, 0, &blame, &transaction), &blame);
    transaction = 7;
    print_call("no second", barrowtide_order(one, sizeof one, 2, NULL, 0, &blame, &transaction),
               &blame);
    printf("transaction %" PRIu64 "\n", transaction);
    /* A BUMP of five levels with one leaf, an id of zeros at position 21. */
    static const uint8_t bump[41] = {0, 5, 1, 21, 2}, id[32] = {0};
    print_call("no proof to turn", barrowtide_tsc_to_bump(NULL, 0, 1, NULL, 0, &blame, &written),
               &blame);
    print_call("no BUMP to turn", barrowtide_bump_to_tsc(NULL, 0, id, NULL, 0, &blame, &written),
               &blame);
    /* No proofs; and two of no layers, which are as many, with a transaction. */
    static const uint8_t alone[67] = {0};
    uint64_t first_is_transaction = 7;
    uint8_t first_string[64], second_string[64];
    print_call("no proofs",
               barrowtide_compare_depths(BARROWTIDE_TSC, NULL, 0, id, BARROWTIDE_TSC, NULL, 0, id,
                                         NULL, 0, &blame, &first_is_transaction, first_string,
                                         second_string),
               &blame);
    print_call("as many layers",
               barrowtide_compare_depths(BARROWTIDE_TSC, alone, sizeof alone, id, BARROWTIDE_TSC,
                                         alone, sizeof alone, id, one, sizeof one, &blame,
                                         &first_is_transaction, first_string, second_string),
               &blame);
    printf("first is transaction %" PRIu64 "\n", first_is_transaction);
    /* A version, then an input count of 0, in two parts; then nothing at all. */
    barrowtide_parts state;
    uint64_t length = 7, inputs = 7, outputs = 7;
    memset(&state, 0xa5, sizeof state);
    barrowtide_parts_start(&state);
    print_call("first part",
               barrowtide_parts_part(&state, bump, 4, &blame, &length, &inputs, &outputs, digest),
               &blame);
    print_call("second part",
               barrowtide_parts_part(&state, id, 1, &blame, &length, &inputs, &outputs, digest),
               &blame);
    barrowtide_parts_start(&state);
    print_call("no part",
               barrowtide_parts_part(&state, NULL, 0, &blame, &length, &inputs, &outputs, digest),
               &blame);
    print_call("no parts",
               barrowtide_parts_end(&state, &blame, &length, &inputs, &outputs, digest), &blame);
    print_call("missing",
               barrowtide_prove_bump(bump, sizeof bump, id, &blame, &position, &layers, digest),
               &blame);
    return 0;
}
