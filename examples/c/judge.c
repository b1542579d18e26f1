/*
 * Judges a BEEF bundle against one trusted root and prints the verdict, the table, and how much
 * hashing it took.
 *
 *   judge BUNDLE ROOT [FEE]
 *
 * BUNDLE is a file with the bundle in hex, ROOT the Merkle root in printed order. Each transaction
 * that no block holds must leave more than FEE satoshi, else more than 0. At the top of the
 * repository:
 *
 *   gcc -std=c11 -O2 -Iinclude examples/c/judge.c dist/x86_64-linux/libbarrowtide.a -o judge
 *   ./judge bindings/rust/tests/data/004-bundle.hex \
 *     bb6f640cc4ee56bf38eb5a1969ac0c16caa2d3d202b22bf3735d10eec0ca6e00
 *
 * Or anywhere, once `./install PREFIX` was run:
 *
 *   gcc -std=c11 -O2 judge.c $(pkg-config --cflags --libs barrowtide) -o judge
 */
#include <ctype.h>
#include <errno.h>
#include <stdbool.h>
#include <stdio.h>
#include <stdlib.h>
#include <string.h>

#include "barrowtide.h"

/* The value of a hex digit, or -1. */
static int digit(int c)
{
    static const char digits[] = "0123456789abcdef";
    const char *found = c ? strchr(digits, tolower(c)) : NULL;
    return found ? (int)(found - digits) : -1;
}

/* Reads hex bytes, white space between digits passed over; one byte more than the size of an input
   is enough to have it refused. Returns false if anything else is met. */
static bool read_hex(FILE *file, uint8_t *bytes, size_t *len)
{
    int c, high = -1;
    for (*len = 0; *len <= BARROWTIDE_MAX_INPUT && (c = getc(file)) != EOF;) {
        int value = digit(c);
        if (value < 0 && isspace(c))
            continue;
        if (value < 0)
            return false;
        if (high < 0) {
            high = value;
        } else {
            bytes[(*len)++] = (uint8_t)(high << 4 | value);
            high = -1;
        }
    }
    return high < 0;
}

/* Turns 64 digits in printed order into 32 bytes in stored order. */
static bool parse_root(const char *text, uint8_t root[32])
{
    if (strlen(text) != 64)
        return false;
    for (int i = 0; i < 32; i++) {
        int high = digit(text[2 * i]), low = digit(text[2 * i + 1]);
        if (high < 0 || low < 0)
            return false;
        root[31 - i] = (uint8_t)(high << 4 | low);
    }
    return true;
}

/* Reads a number of 64 bits. */
static bool parse_fee(const char *text, uint64_t *fee)
{
    char *end;
    errno = 0;
    *fee = strtoull(text, &end, 10);
    return isdigit((unsigned char)*text) && !*end && !errno;
}

static void print_record(uint64_t number, const barrowtide_record *record)
{
    printf("%3llu  start %llu  length %llu  outputs %llu  total %llu  id ",
           (unsigned long long)number, (unsigned long long)record->start,
           (unsigned long long)record->length, (unsigned long long)record->outputs,
           (unsigned long long)record->total);
    for (int i = 31; i >= 0; i--)
        printf("%02x", record->id[i]);
    if (record->anchored)
        printf("  anchored by BUMP %u at position %llu", (unsigned)record->bump,
               (unsigned long long)record->position);
    printf("\n");
}

/* What was refused, where, and what that means; 14 and 15 have a sibling to blame. */
static void print_refusal(uint32_t refusal, const barrowtide_blame *blame)
{
    unsigned long long carried = blame->carried;
    printf("refused %u %s", (unsigned)refusal, barrowtide_refusal_name(refusal));
    switch (barrowtide_refusal_carries(refusal)) {
    case BARROWTIDE_CARRIES_NOTHING:
        break;
    case BARROWTIDE_CARRIES_PLACE:
        printf(" at byte %llu", carried);
        break;
    case BARROWTIDE_CARRIES_TRANSACTION:
        printf(" at transaction %llu", carried);
        break;
    }
    printf(": %s", barrowtide_refusal_words(refusal));
    if (refusal == BARROWTIDE_MISSING || refusal == BARROWTIDE_TWIN)
        printf(", sibling %llu of layer %llu", (unsigned long long)blame->sibling,
               (unsigned long long)blame->layer);
    printf("\n");
}

static int judge(FILE *file, const uint8_t root[32], uint64_t fee)
{
    static uint8_t bundle[BARROWTIDE_MAX_INPUT + 1];
    static barrowtide_record table[BARROWTIDE_MAX_TRANSACTIONS];
    size_t len;
    if (!read_hex(file, bundle, &len)) {
        fprintf(stderr, "the bundle is not hex\n");
        return 2;
    }
    barrowtide_blame blame;
    uint64_t transactions = 0, work;
    uint32_t refusal =
        barrowtide_judge_beef(bundle, len, root, 32, fee, table, BARROWTIDE_MAX_TRANSACTIONS,
                              &blame, &transactions, &work);
    if (refusal != BARROWTIDE_ACCEPTED)
        print_refusal(refusal, &blame);
    else
        printf("accepted, transactions: %llu\n", (unsigned long long)transactions);
    for (uint64_t i = 0; i < transactions; i++)
        print_record(i, &table[i]);
    printf("SHA-256 compressions: %llu\n", (unsigned long long)work);
    return refusal != BARROWTIDE_ACCEPTED;
}

int main(int argc, char **argv)
{
    if (barrowtide_version() != BARROWTIDE_VERSION_NUMBER) {
        fprintf(stderr, "header and libbarrowtide.a are of different versions\n");
        return 2;
    }
    uint8_t root[32];
    uint64_t fee = 0;
    if (argc < 3 || argc > 4 || !parse_root(argv[2], root) ||
        (argc == 4 && !parse_fee(argv[3], &fee))) {
        fprintf(stderr, "usage: judge BUNDLE ROOT [FEE]\n");
        return 2;
    }
    FILE *file = fopen(argv[1], "r");
    if (!file) {
        perror(argv[1]);
        return 2;
    }
    int status = judge(file, root, fee);
    fclose(file);
    return status;
}
