/* The bench harness: reads a table file and a record file and prints, a line each, the fault numbers whose changed machine reproduces the
 * record; or REFUSED and the refusal's number. Ends with 0 where it judged, 1 where the files were refused, 2 where it could not run. */
#include "judge.h"

#include <errno.h>
#include <inttypes.h>
#include <stdio.h>
#include <stdlib.h>
#include <string.h>

enum { JUDGED = 0, REFUSED = 1, NOT_RUN = 2 };
enum { FIRST_ROOM = 1024 };

/* The bytes of a file; NULL and 0 for an empty one. */
struct bytes {
    uint8_t *at;
    size_t length;
};

/* Makes room for more: 0 where there is no memory for it. */
static int grow(struct bytes *file, size_t *room)
{
    size_t wanted = *room == 0 ? FIRST_ROOM : 2 * *room;
    uint8_t *larger = wanted < *room ? NULL : realloc(file->at, wanted);
    if (larger == NULL) {
        return 0;
    }
    file->at = larger;
    *room = wanted;
    return 1;
}

/* Reads what is left of an open file: 0 where that fails. */
static int read_rest(FILE *from, struct bytes *file)
{
    size_t room = 0;
    for (int next = getc(from); next != EOF; next = getc(from)) {
        if (file->length == room && !grow(file, &room)) {
            return 0;
        }
        file->at[file->length] = (uint8_t)next;
        file->length++;
    }
    return !ferror(from);
}

/* Reads a whole file: 0 where that fails, with the reason on standard error. */
static int read_file(const char *name, struct bytes *file)
{
    errno = 0;
    FILE *from = fopen(name, "rb");
    int done = from != NULL && read_rest(from, file);
    if (!done) {
        fprintf(stderr, "harness: %s: %s\n", name, errno != 0 ? strerror(errno) : "cannot be read");
    }
    if (from != NULL) {
        fclose(from);
    }
    return done;
}

/* Prints each number that reproduces the record, up to the first that is not in use; or the refusal. */
static int print_numbers(struct bytes table, struct bytes record)
{
    uint32_t number = 0;
    uint32_t answer = judge(table.at, table.length, record.at, record.length, number);
    if (answer >= JUDGE_REFUSED) {
        printf("REFUSED %" PRIu32 "\n", answer - JUDGE_REFUSED);
        return REFUSED;
    }
    while (answer < JUDGE_REFUSED) {
        if (answer == JUDGE_REPRODUCES) {
            printf("%" PRIu32 "\n", number);
        }
        number++;
        answer = judge(table.at, table.length, record.at, record.length, number);
    }
    return JUDGED;
}

int main(int count, char **words)
{
    if (count != 3) {
        fprintf(stderr, "usage: harness TABLE RECORD\n");
        return NOT_RUN;
    }
    struct bytes table = {NULL, 0};
    struct bytes record = {NULL, 0};
    int status = NOT_RUN;
    if (read_file(words[1], &table) && read_file(words[2], &record)) {
        status = print_numbers(table, record);
    }
    free(table.at);
    free(record.at);
    if (fflush(stdout) != 0) {
        fprintf(stderr, "harness: the answer could not be written\n");
        return NOT_RUN;
    }
    return status;
}
