/* Answers requests by the library, and compares each line with the one that it should be.
 *
 *     answers NAME..
 *
 * NAME.json is a request. NAME.answer is its line; or NAME.cells has a row, a column and a value on each line, which are
 * those of the command `cell`. */
#include "hencredenza.h"

#include <stdio.h>
#include <stdlib.h>
#include <string.h>

struct bytes {
    char *at;
    size_t length;
};

static void *checked(void *memory)
{
    if (memory == NULL) {
        fputs("memory ran out\n", stderr);
        exit(2);
    }
    return memory;
}

/* The bytes of the file NAME with a suffix, with a zero byte behind them; `at` is NULL where it can't be read. The caller
 * frees them. */
static struct bytes read_file(const char *name, const char *suffix)
{
    struct bytes bytes = {NULL, 0};
    char path[4096];
    if (snprintf(path, sizeof path, "%s%s", name, suffix) >= (int)sizeof path)
        return bytes;
    FILE *file = fopen(path, "rb");
    if (file == NULL)
        return bytes;
    size_t room = 4096;
    bytes.at = checked(malloc(room));
    size_t count;
    while ((count = fread(bytes.at + bytes.length, 1, room - bytes.length, file)) > 0) {
        bytes.length += count;
        if (bytes.length == room)
            bytes.at = checked(realloc(bytes.at, room *= 2));
    }
    fclose(file);
    bytes.at[bytes.length] = 0;
    return bytes;
}

/* The line of a call, in a room that grows until the line fits. The caller frees it. */
static struct bytes run(const char *words, struct bytes request)
{
    struct bytes line = {NULL, 0};
    size_t room = 64;
    uint32_t status;
    do {
        line.at = checked(realloc(line.at, room));
        status = hencredenza_run(words, strlen(words), request.at, request.length, line.at, room, &line.length);
        room = line.length;
    } while (status == HENCREDENZA_NO_ROOM);
    return line;
}

static int is_same(struct bytes line, const char *wanted, size_t length)
{
    return line.length == length && memcmp(line.at, wanted, length) == 0;
}

/* Whether the library, asked with these words, gives just this line. */
static int gives(const char *words, struct bytes request, const char *wanted, size_t length)
{
    struct bytes line = run(words, request);
    int same = is_same(line, wanted, length);
    free(line.at);
    return same;
}

/* Whether each cell of the list has the value that stands behind its row and column. */
static int gives_cells(struct bytes request, struct bytes cells)
{
    size_t at = 0;
    while (at < cells.length) {
        char words[64];
        unsigned row, column;
        int begin;
        if (sscanf(cells.at + at, "%u %u %n", &row, &column, &begin) != 2)
            return 0;
        const char *value = cells.at + at + begin;
        const char *end = memchr(value, '\n', cells.length - at - begin);
        if (end == NULL)
            return 0;
        snprintf(words, sizeof words, "cell %u %u", row, column);
        if (!gives(words, request, value, end + 1 - value))
            return 0;
        at = end + 1 - cells.at;
    }
    return 1;
}

static int is_as_it_should(const char *name)
{
    struct bytes request = read_file(name, ".json");
    struct bytes answer = read_file(name, ".answer");
    struct bytes cells = read_file(name, ".cells");
    int same = 0;
    if (request.at != NULL && cells.at != NULL)
        same = gives_cells(request, cells);
    else if (request.at != NULL && answer.at != NULL)
        same = gives("answer", request, answer.at, answer.length);
    free(request.at);
    free(answer.at);
    free(cells.at);
    return same;
}

/* SIN(A1:A3) alone, in D2; and a room that is one byte too small, which stays as it was. */
static int imports_a_formula(void)
{
    static const char formula[] = "[\"call\",\"SIN\",[\"range\",0,null,false,false,-1,-3,false,false,1,-3]]";
    static const char wanted[] = "{\"exported\":[\"call\",\"SIN\",[\"range\",0,null,false,false,-1,-3,false,false,1,-3]],"
                                 "\"imported\":[\"call\",\"SIN\",[\"at\",true,[\"range\",0,null,false,false,-1,-3,false,false,1,-3]]]}\n";
    char line[sizeof wanted] = "";
    size_t length;
    uint32_t status = hencredenza_formula(formula, sizeof formula - 1, false, line, sizeof wanted - 2, &length);
    if (status != HENCREDENZA_NO_ROOM || length != sizeof wanted - 1 || line[0] != 0)
        return 0;
    status = hencredenza_formula(formula, sizeof formula - 1, false, line, length, &length);
    return status == HENCREDENZA_DONE && is_same((struct bytes){line, length}, wanted, sizeof wanted - 1);
}

int main(int count, char **names)
{
    int passed = imports_a_formula();
    int failed = !passed;
    if (failed)
        puts("a formula alone: not as it should be");
    for (int i = 1; i < count; i++) {
        int same = is_as_it_should(names[i]);
        passed += same;
        failed += !same;
        if (!same)
            printf("%s: not as it should be\n", names[i]);
    }
    printf("%d passed, %d failed\n", passed, failed);
    return failed != 0;
}
