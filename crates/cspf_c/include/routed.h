/* The solver of `routed solve` as a library for C.
 *
 * The caller gives rows to a session. The session answers each row with the line that `routed solve`
 * writes for this row, if any. Take the lines of all calls of a session in order, and then the last
 * line, which routed_end gives. Together these lines are byte for byte what `routed solve` writes for
 * all rows of these calls. This is proved, provided that the caller follows the rules below. The
 * library doesn't check whether the caller does. docs/run/FORMATS.md has the formats of rows and
 * lines.
 *
 *     routed_handle handle = ROUTED_CLOSED_HANDLE;
 *     size_t size;
 *     if (routed_open(&handle) == ROUTED_ANSWERED
 *         && routed_rows(&handle, rows, length, &size) == ROUTED_ANSWERED)
 *         size = routed_lines(&handle, buffer, sizeof buffer);
 *     routed_close(&handle);
 *
 * The rules for the caller:
 * - Initialize each handle with ROUTED_CLOSED_HANDLE. Don't copy a handle, and let only these calls
 *   change it.
 * - Make all calls on one handle from one thread, one call at a time. Calls on different handles may
 *   run at the same time, because the library has no global state.
 * - Pass no null pointer, even if `length` or `room` is 0. `rows` points to `length` bytes that can
 *   be read. `buffer` points to `room` bytes that are initialized and can be written. Neither
 *   overlaps the handle or `size`. `length` and `room` are below 2^63.
 * - `malloc`, `realloc` and `free` have to belong to the same allocator, and memory has to be aligned
 *   to 16 bytes, as in the C library. Make no call from a signal handler.
 */
#ifndef ROUTED_H
#define ROUTED_H

#include <stddef.h>
#include <stdint.h>

#ifdef __cplusplus
extern "C" {
#endif

/* A handle holds one session, or no session. */
typedef struct {
    void *session;
} routed_handle;

#define ROUTED_CLOSED_HANDLE {NULL}

/* The codes that calls return. */
enum {
    /* The call has done its work. */
    ROUTED_ANSWERED = 0,
    /* Memory was refused. The session is closed, its memory is freed, and the call gives no lines.
     * `*size` is unchanged. */
    ROUTED_MEMORY = 1,
    /* The handle holds no session, so the call did nothing. `*size` is unchanged. */
    ROUTED_CLOSED = 2
};

/* Opens a session, which begins at version 0 with the empty database and no open changes. If the
 * handle already holds a session, that session is closed, even if memory is refused. Returns
 * ROUTED_ANSWERED or ROUTED_MEMORY. */
uint32_t routed_open(routed_handle *handle);

/* Gives rows to the session. The bytes of each call are read as `routed solve` reads a whole stream.
 * They may have any number of rows, including 0. A line feed or a carriage return ends a row, and the
 * end of the bytes ends the last row. An empty line is no row, and a byte order mark at the start of
 * the bytes is skipped. So each row has to be given in one call, even if a quoted field of the row
 * contains a line break. Rows are counted through all calls of a session. The first 1,000,000 rows of
 * a session are answered. Later rows get no line, and routed_end then gives the line
 * `too many rows`.
 *
 * If the code is ROUTED_ANSWERED, the session holds the lines of these rows instead of its earlier
 * lines. `*size` is then the number of bytes of these lines: 0 if every row is a change. The session
 * holds the lines until the next call of routed_open, routed_rows, routed_end or routed_close. */
uint32_t routed_rows(routed_handle *handle, const uint8_t *rows, size_t length, size_t *size);

/* Asks for the last line that `routed solve` would write if no more rows came. This is `unended N` if
 * changes are open, `too many rows`, or no line. If the code is ROUTED_ANSWERED, the session holds
 * this line instead of its earlier lines, and `*size` is the number of bytes of this line. More rows
 * may be given to the session afterwards. */
uint32_t routed_end(routed_handle *handle, size_t *size);

/* Copies the lines that the session holds to the start of the buffer, but at most `room` bytes.
 * Returns the number of bytes that it copied, which is 0 if no session is open. The rest of the
 * buffer is unchanged, and the session still holds the lines. */
size_t routed_lines(routed_handle *handle, uint8_t *buffer, size_t room);

/* Closes the session that the handle holds, if any, and frees all memory of this session. */
void routed_close(routed_handle *handle);

#ifdef __cplusplus
}
#endif

#endif
