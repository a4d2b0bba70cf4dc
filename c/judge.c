/* Judges the record in a file: prints the answer and its evidence, as the listing's first two lines. Built at the repository's root by

       cc -Wall -Wextra -Iinclude c/judge.c crates/reefmitten/out/libreefmitten.a -o judge_c

   once `rt lib` in crates/reefmitten has proved and built the archive. Ends with 0 where the record was judged, valid or not, and with 2
   where there was nothing to judge or nowhere to print. */
#include "reefmitten.h"

#include <errno.h>
#include <stdio.h>
#include <string.h>

/* As many bytes as the listing reads. What follows them never matters: a record so long is refused by what stands before. */
#define MOST_BYTES 4096

/* Reads the front of a file; returns whether it could be read, and if not, errno says why. */
static int read_record(const char *name, uint8_t *record, size_t *length)
{
    FILE *file = fopen(name, "rb");
    *length = 0;
    if (file == NULL)
        return 0;
    *length = fread(record, 1, MOST_BYTES, file);
    int why = errno; /* closing may change it */
    int read = !ferror(file);
    fclose(file);
    errno = why;
    return read;
}

static void print_finding(uint16_t answer, const uint16_t *evidence, size_t written)
{
    printf("answer %u\nevidence", (unsigned)answer);
    for (size_t i = 0; i < written; i++)
        printf(" %u", (unsigned)evidence[i]);
    printf("\n");
}

int main(int argc, char **argv)
{
    uint8_t record[MOST_BYTES];
    uint16_t evidence[REEFMITTEN_EVIDENCE];
    size_t length, written;

    if (argc != 2) {
        fprintf(stderr, "usage: judge_c FILE\n");
        return 2;
    }
    if (!read_record(argv[1], record, &length)) {
        fprintf(stderr, "judge_c: %s: %s\n", argv[1], strerror(errno));
        return 2;
    }
    uint16_t answer = reefmitten_check(record, length, evidence, REEFMITTEN_EVIDENCE, &written);
    print_finding(answer, evidence, written);
    if (fflush(stdout) != 0) {
        perror("judge_c");
        return 2;
    }
    return 0;
}
