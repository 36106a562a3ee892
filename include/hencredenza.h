/* Hencredenza for C and C++: where a formula wants one value and where it wants many.
 *
 * Two calls. Each reads bytes, writes one line into memory of the caller, and returns a status. docs/REQUEST.md
 * has the forms of requests, formulas, answers and refusals, byte for byte those of the program.
 *
 *     char line[65536];
 *     size_t length;
 *     uint32_t status = hencredenza_run("answer", 6, request, request_length, line, sizeof line, &length);
 *     if (status == HENCREDENZA_DONE)
 *         fwrite(line, 1, length, stdout);
 *
 * The line. It is UTF-8 and ends with a newline. It is not ended by a zero byte: its end is told by its length, in
 * bytes. A status other than HENCREDENZA_DONE and HENCREDENZA_NO_ROOM is a refusal, whose line says why in at most
 * 64 bytes, as "bad request at node 2".
 *
 * The room. `line` points to `room` bytes, in which the line is put if it fits: the line stands at the front, and
 * the bytes behind it stay. A line that doesn't fit isn't begun: the status is HENCREDENZA_NO_ROOM, the room stays
 * as it was, and `*length` is how many bytes the line takes. Call again with so much room. The second call works
 * anew: nothing is kept from the first, so begin with more room than most lines take.
 *
 * Memory. Everything that is passed stays the caller's; nothing has to be freed. A call takes memory from malloc
 * and gives all of it back before it returns. Where malloc returns NULL the status is HENCREDENZA_MEMORY.
 *
 * Threads. There is no state, so calls from several threads don't disturb each other, if each has a room and a
 * length of its own. They may share what is only read: words, requests, formulas.
 *
 * What the caller owes. Nothing tests it, and no proof holds without it:
 *   - no pointer is NULL, not even beside a length of 0;
 *   - each pointer points to as many bytes as the length beside it says, and no length is above SIZE_MAX / 2;
 *   - while a call runs, no other thread writes what it reads, or reads or writes its room and its length;
 *   - the room and the length overlap neither each other nor what the call reads;
 *   - malloc, realloc and free are of one allocator, and align a block to each power of two up to 16 that divides
 *     its size;
 *   - no call is made from a signal handler, nor in the child of a fork of a process that has several threads;
 *   - the stack has room: a request nests at most 127 deep, for which 1 MiB is ample.
 */
#ifndef HENCREDENZA_H
#define HENCREDENZA_H

#include <stdbool.h>
#include <stddef.h>
#include <stdint.h>

#ifdef __cplusplus
extern "C" {
#endif

/* How a call ended. The numbers are the exit statuses of the program, and 1 is the library's own. The program's 6 and 7,
 * for input and output that fail, don't come: memory doesn't fail. */
enum hencredenza_status {
    HENCREDENZA_DONE = 0,        /* the line is what was asked for */
    HENCREDENZA_NO_ROOM = 1,     /* the line doesn't fit: nothing was written, and *length is how many bytes it takes */
    HENCREDENZA_USAGE = 2,       /* the words are no command */
    HENCREDENZA_BAD_JSON = 3,    /* the bytes are no request, or no formula */
    HENCREDENZA_BAD_REQUEST = 4, /* the formula isn't valid in its cell: the line has the first bad place */
    HENCREDENZA_TOO_LONG = 5,    /* the request has more than 16777216 bytes */
    HENCREDENZA_MEMORY = 8       /* memory ran out */
};

/* Answers a request.
 *
 * words, words_length      the command: the text "answer", "cell ROW COLUMN" or "generate N", with one space between
 *                          two words; its bytes
 * request, request_length  the request, JSON in UTF-8; its bytes. "generate N" doesn't read it
 * line, room               where the line goes; how many bytes there are
 * length                   is set to the bytes of the line, whatever the status
 *
 * Returns one of enum hencredenza_status. */
uint32_t hencredenza_run(const char *words, size_t words_length, const char *request, size_t request_length,
                         char *line, size_t room, size_t *length);

/* Imports and exports a formula alone, for an importer or an exporter that has no sheet.
 *
 * formula, formula_length  the formula as a tree, JSON in UTF-8; its bytes
 * every_scalar             whether each place that takes one value gets an @ (the rule `every-scalar`); false is the rule
 *                          `as-crate`. docs/RULES.md has both
 * line, room, length       as above. The line is {"exported":NODE,"imported":NODE} and a newline
 *
 * Whether the formula is valid in some cell isn't asked. Returns HENCREDENZA_DONE, _NO_ROOM, _BAD_JSON or _MEMORY. */
uint32_t hencredenza_formula(const char *formula, size_t formula_length, bool every_scalar, char *line, size_t room,
                             size_t *length);

#ifdef __cplusplus
}
#endif

#endif
