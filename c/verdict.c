/*
 * Prints the verdict on the file of a plan: what the program `verdict` prints of the same bytes. The file is the one
 * that is named, or standard input.
 */
#include <inttypes.h>
#include <stdio.h>

#include "koelstool.h"

static const char *const words[] = {"?", "kept", "missed", "working", "marks", "refused"};

static uint64_t number(const uint8_t *bytes)
{
    uint64_t value = 0;
    for (int i = 0; i < 8; i++) {
        value = value << 8 | bytes[i];
    }
    return value;
}

int main(int count, char **arguments)
{
    /* No file is as long as this; of a longer one the first bytes tell that it is none. */
    static uint8_t bytes[8192];
    uint8_t record[KOELSTOOL_RECORD];

    if (count > 2) {
        fprintf(stderr, "usage: %s [FILE]\n", arguments[0]);
        return 2;
    }
    const char *name = count == 2 ? arguments[1] : "standard input";
    FILE *file = count == 2 ? fopen(name, "rb") : stdin;
    if (file == NULL) {
        perror(name);
        return 2;
    }
    size_t length = fread(bytes, 1, sizeof bytes, file);
    if (ferror(file)) {
        perror(name);
        return 2;
    }

    if (koelstool_check(bytes, length, record, sizeof record) != 1) {
        fprintf(stderr, "the record has another length\n");
        return 2;
    }
    printf("%s %" PRIu64 " %" PRIu64 "\n", words[record[0]], number(record + 1), number(record + 9));
    if (fflush(stdout) != 0) {
        perror("standard output");
        return 2;
    }
    return 0;
}
