/*
 * Reads a raw transaction in parts of 4 KiB, whatever its length, and prints what it holds.
 *
 *   parts TRANSACTION
 *
 * TRANSACTION is a file with the transaction as it stands, not in hex. At the top of the
 * repository:
 *
 *   gcc -std=c11 -O2 -Iinclude examples/c/parts.c dist/x86_64-linux/libbarrowtide.a -o parts
 *
 * Or anywhere, once `./install PREFIX` was run:
 *
 *   gcc -std=c11 -O2 parts.c $(pkg-config --cflags --libs barrowtide) -o parts
 */
#include <stdio.h>

#include "barrowtide.h"

static int receive(FILE *file)
{
    barrowtide_parts state;
    barrowtide_blame blame;
    uint64_t length, inputs, outputs;
    uint8_t part[4096], id[32];
    uint32_t answer = BARROWTIDE_MORE;
    size_t count;

    barrowtide_parts_start(&state);
    while (answer == BARROWTIDE_MORE && (count = fread(part, 1, sizeof part, file)) > 0)
        answer = barrowtide_parts_part(&state, part, count, &blame, &length, &inputs, &outputs, id);
    if (ferror(file)) {
        fprintf(stderr, "the transaction can't be read\n");
        return 2;
    }
    /* What a part refused the end call repeats. */
    answer = barrowtide_parts_end(&state, &blame, &length, &inputs, &outputs, id);
    if (answer != BARROWTIDE_ACCEPTED) {
        printf("refused %u %s at %llu\n", (unsigned)answer, barrowtide_refusal_name(answer),
               (unsigned long long)blame.carried);
        return 1;
    }
    printf("accepted, bytes: %llu, inputs: %llu, outputs: %llu\nid ", (unsigned long long)length,
           (unsigned long long)inputs, (unsigned long long)outputs);
    for (int i = 31; i >= 0; i--)
        printf("%02x", id[i]);
    printf("\n");
    return 0;
}

int main(int argc, char **argv)
{
    if (argc != 2) {
        fprintf(stderr, "usage: parts TRANSACTION\n");
        return 2;
    }
    FILE *file = fopen(argv[1], "rb");
    if (!file) {
        perror(argv[1]);
        return 2;
    }
    int status = receive(file);
    fclose(file);
    return status;
}
