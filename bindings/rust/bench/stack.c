/* How much stack a call takes: it runs on a stack of its own, which is painted beforehand. */
#include <string.h>
#include <ucontext.h>

#include "barrowtide.h"

enum { ROOM = 1 << 20, PAINT = 0xa5 };

static uint8_t stack[ROOM];

/* What a call is lent: the input, and beside it an id, a node, a page, another BUMP or the trusted
   roots. */
static const uint8_t *data, *more;
static size_t len, more_len;
static barrowtide_record table[BARROWTIDE_MAX_TRANSACTIONS];
static barrowtide_answer answers[BARROWTIDE_MAX_PAGE];
static barrowtide_parts state;
static barrowtide_blame blame;
static uint64_t a, b, c;
static uint8_t id[32], root[32], first[64], second[64];
static uint64_t positions[BARROWTIDE_MAX_IDS];
static uint8_t out[1 << 22];
static uint64_t list[3 * BARROWTIDE_MAX_LISTED];

/* What a call returns is kept, so that the call is not the last thing done and has a frame above. */
static volatile uint32_t refusal;

static void none(void) { refusal = 0; }
static void sha256d(void) { refusal = barrowtide_sha256d(data, len, &blame, root); }
static void join(void) { barrowtide_join(data, more, root), refusal = 0; }
static void read_varint(void) { refusal = barrowtide_read_varint(data, len, &blame, &a, &b); }
static void read_bump(void) { refusal = barrowtide_read_bump(data, len, &blame, &a, &b, &c); }
static void read_cmp(void) { refusal = barrowtide_read_cmp(data, len, &blame, &a, &b); }
static void read_transaction(void)
{
    refusal = barrowtide_read_transaction(data, len, &blame, &a, &b, id);
}
static void parts_start(void) { barrowtide_parts_start(&state), refusal = 0; }
static void parts_part(void)
{
    refusal = barrowtide_parts_part(&state, data, len, &blame, &a, &b, &c, id);
}
static void parts_end(void) { refusal = barrowtide_parts_end(&state, &blame, &a, &b, &c, id); }
static void read_tsc(void) { refusal = barrowtide_read_tsc(data, len, &blame, &a, &b, &c); }
static void read_beef(void) { refusal = barrowtide_read_beef(data, len, &blame, &a, &b); }
static void prove_bump(void)
{
    refusal = barrowtide_prove_bump(data, len, more, &blame, &a, &b, root);
}
static void prove_cmp(void)
{
    refusal = barrowtide_prove_cmp(data, len, more, &blame, &a, &b, root);
}
static void prove_tsc(void)
{
    refusal = barrowtide_prove_tsc(data, len, &blame, id, &a, &b, root);
}
static void check_clients(void) { refusal = barrowtide_check_clients(data, len, &blame, root); }
static void prove_page(void)
{
    refusal = barrowtide_prove_page(data, len, more, more_len, answers, BARROWTIDE_MAX_PAGE,
                                    &blame);
}
static void compare(void)
{
    refusal = barrowtide_compare(BARROWTIDE_BUMP, data, len, more, BARROWTIDE_BUMP, data, len, more,
                                 &blame, first, second);
}
static void compare_depths(void)
{
    static const uint8_t payment[60] = {1, 0, 0, 0, 1, [46] = 1};
    refusal = barrowtide_compare_depths(BARROWTIDE_BUMP, data, len, more, BARROWTIDE_BUMP, data, len,
                                        more, payment, sizeof payment, &blame, &a, first, second);
}
static void differences(void)
{
    refusal = barrowtide_differences(data, len, data, len, positions,
                                     sizeof positions / sizeof positions[0], &blame, &a);
}
static void list_leaves(void)
{
    refusal = barrowtide_list_leaves(data, len, list, sizeof list / sizeof list[0], &blame, &a);
}
static void search_leaves(void)
{
    refusal = barrowtide_search_leaves(list, 3 * a, 0, 1, &b);
}
static void merge(void)
{
    refusal = barrowtide_merge(data, len, more, more_len, out, sizeof out, list,
                               sizeof list / sizeof list[0], &blame, &a, &b);
}
static void shorter(void)
{
    refusal = barrowtide_shorter(data, len, data, len, more, &blame, &a, &b);
}
static void judge_beef(void)
{
    refusal = barrowtide_judge_beef(data, len, more, more_len, 0, table,
                                    BARROWTIDE_MAX_TRANSACTIONS, &blame, &a, &b);
}
static void order(void)
{
    refusal = barrowtide_order(data, len, len / 60, positions, BARROWTIDE_MAX_TRANSACTIONS, &blame,
                               &a);
}
static void check_order(void)
{
    for (size_t i = 0; i < len / 60; i++)
        positions[i] = i;
    refusal = barrowtide_check_order(data, len, len / 60, positions, len / 60, &blame, &a);
}
static void write_bump(void)
{
    size_t count = len / 32;
    for (size_t i = 0; i < count; i++)
        positions[i] = i;
    refusal = barrowtide_write_bump(1, data, len, positions, count, out, sizeof out, &blame, &a);
}
static void tsc_to_bump(void)
{
    refusal = barrowtide_tsc_to_bump(data, len, 1, out, sizeof out, &blame, &a);
}
static void bump_to_tsc(void)
{
    refusal = barrowtide_bump_to_tsc(data, len, more, out, sizeof out, &blame, &a);
}

#define CALL(name) {#name, name}
static const struct {
    const char *name;
    void (*run)(void);
} calls[] = {
    CALL(sha256d),       CALL(join),             CALL(read_varint), CALL(read_bump),
    CALL(read_cmp),      CALL(read_transaction), CALL(read_tsc),    CALL(read_beef),
    CALL(prove_bump),    CALL(prove_cmp),        CALL(prove_tsc),   CALL(check_clients),
    CALL(prove_page),    CALL(compare),          CALL(judge_beef),  CALL(write_bump),
    CALL(tsc_to_bump),   CALL(bump_to_tsc),      CALL(compare_depths),
    CALL(differences),   CALL(shorter),          CALL(order),       CALL(check_order),
    CALL(parts_start),   CALL(parts_part),       CALL(parts_end),   CALL(list_leaves),
    CALL(merge),         CALL(search_leaves),
};

/* Runs a function, and says how many bytes of the painted stack have changed, from its top. */
static size_t depth(void (*run)(void))
{
    static ucontext_t here, there;
    memset(stack, PAINT, ROOM);
    getcontext(&there);
    there.uc_stack.ss_sp = stack;
    there.uc_stack.ss_size = ROOM;
    there.uc_link = &here;
    makecontext(&there, run, 0);
    swapcontext(&here, &there);
    size_t clean = 0;
    while (clean < ROOM && stack[clean] == PAINT)
        clean++;
    return ROOM - clean;
}

/* The stack that the call of a name takes, in bytes; 0 for an unknown name. */
size_t stack_of(const char *name, const uint8_t *d, size_t d_len, const uint8_t *m, size_t m_len)
{
    data = d, len = d_len, more = m, more_len = m_len;
    barrowtide_parts_start(&state);
    if (strcmp(name, "parts_end") == 0)
        parts_part();
    if (strcmp(name, "search_leaves") == 0)
        list_leaves();
    for (size_t i = 0; i < sizeof calls / sizeof calls[0]; i++)
        if (strcmp(name, calls[i].name) == 0)
            return depth(calls[i].run) - depth(none);
    return 0;
}
