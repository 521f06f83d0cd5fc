/* Answers rows as `routed solve` does, by the library for C.
 *
 *     solve < FILE            all rows in one call
 *     solve lines < FILE      a call for each line
 *
 * The status is 0, or 3 where memory, a read or a write failed. */
#include <stdio.h>
#include <stdlib.h>
#include <string.h>

#include "routed.h"

/* All bytes of standard input, or null. */
static uint8_t *read_all(size_t *length)
{
    size_t room = 1 << 16;
    uint8_t *bytes = malloc(room);
    *length = 0;
    while (bytes != NULL) {
        *length += fread(bytes + *length, 1, room - *length, stdin);
        if (*length < room)
            break;
        room *= 2;
        uint8_t *more = realloc(bytes, room);
        if (more == NULL)
            free(bytes);
        bytes = more;
    }
    if (bytes != NULL && ferror(stdin)) {
        free(bytes);
        bytes = NULL;
    }
    return bytes;
}

/* Writes the lines that a session holds, and answers whether it could. */
static int write_lines(routed_handle *handle, size_t size)
{
    uint8_t *lines = calloc(size + 1, 1);
    if (lines == NULL)
        return 0;
    size = routed_lines(handle, lines, size);
    int written = fwrite(lines, 1, size, stdout) == size;
    free(lines);
    return written;
}

/* Gives rows to a session and writes their lines, and answers whether it could. */
static int answer(routed_handle *handle, const uint8_t *rows, size_t length)
{
    size_t size;
    return routed_rows(handle, rows, length, &size) == ROUTED_ANSWERED && write_lines(handle, size);
}

/* Gives each line by itself. */
static int answer_lines(routed_handle *handle, const uint8_t *bytes, size_t length)
{
    size_t at = 0;
    while (at < length) {
        const uint8_t *feed = memchr(bytes + at, '\n', length - at);
        size_t end = feed == NULL ? length : (size_t)(feed - bytes) + 1;
        if (!answer(handle, bytes + at, end - at))
            return 0;
        at = end;
    }
    return 1;
}

int main(int count, char **words)
{
    int by_line = count > 1 && strcmp(words[1], "lines") == 0;
    size_t length;
    size_t size;
    uint8_t *bytes = read_all(&length);
    routed_handle handle = ROUTED_CLOSED_HANDLE;
    int good = bytes != NULL && routed_open(&handle) == ROUTED_ANSWERED;
    good = good && (by_line ? answer_lines : answer)(&handle, bytes, length);
    good = good && routed_end(&handle, &size) == ROUTED_ANSWERED && write_lines(&handle, size);
    routed_close(&handle);
    free(bytes);
    return good && fflush(stdout) == 0 ? 0 : 3;
}
