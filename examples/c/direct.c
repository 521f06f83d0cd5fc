/* Asks a server that runs, by a direct connection: the place of `routed-tools listen --direct`.
 *
 *     direct PLACE < ROWS
 *
 * Each row is written once the line of the row before it was read. The status is 0, or 1 where no connection can be had or it ends early.
 */
#define _GNU_SOURCE /* for SOCK_CLOEXEC */
#include <poll.h>
#include <stdio.h>
#include <string.h>
#include <sys/socket.h>
#include <sys/un.h>
#include <unistd.h>

/* Connects, and receives the end of the rows, which is written, and that of the lines, which is read. The server keeps a session for the
 * two ends for as long as the connection is open. Answers its number, or -1. */
static int connect_to(const char *place, int ends[2])
{
    struct sockaddr_un address = {.sun_family = AF_UNIX};
    char word[64] = "";
    union { struct cmsghdr head; char bytes[CMSG_SPACE(2 * sizeof(int))]; } files = {0};
    struct iovec part = {word, sizeof word - 1};
    struct msghdr message = {.msg_iov = &part, .msg_iovlen = 1, .msg_control = &files, .msg_controllen = sizeof files};
    int made = socket(AF_UNIX, SOCK_STREAM | SOCK_CLOEXEC, 0);
    if (made < 0 || strlen(place) >= sizeof address.sun_path)
        return -1;
    strcpy(address.sun_path, place);
    if (connect(made, (struct sockaddr *)&address, sizeof address) < 0)
        return -1;
    ssize_t size = recvmsg(made, &message, MSG_CMSG_CLOEXEC);
    if (size >= 0)
        word[size] = 0;
    struct cmsghdr *first = CMSG_FIRSTHDR(&message);
    if (strcmp(word, "direct 1\n") != 0 || first == NULL || first->cmsg_len != CMSG_LEN(2 * sizeof(int))) {
        fprintf(stderr, "direct: %s: no ends came: %s\n", place, word); /* `busy` where no seat of the server is free */
        return -1;
    }
    memcpy(ends, CMSG_DATA(first), 2 * sizeof(int));
    return made;
}

int main(int count, char **words)
{
    int ends[2];
    int made = count == 2 ? connect_to(words[1], ends) : -1;
    if (made < 0)
        return 1;
    struct pollfd both[] = {{ends[1], POLLIN, 0}, {made, POLLIN, 0}};
    FILE *rows = fdopen(ends[0], "w"), *lines = fdopen(ends[1], "r");
    char row[1 << 16], line[1 << 16];
    while (fgets(row, sizeof row, stdin) != NULL) {
        if (fputs(row, rows) < 0 || fflush(rows) < 0)
            return 1;
        while (poll(both, 2, -1) > 0 && (both[0].revents & POLLIN) == 0)
            if (both[0].revents != 0 || both[1].revents != 0)
                return 1; /* the server, or listen, has ended */
        if (fgets(line, sizeof line, lines) == NULL || fputs(line, stdout) < 0)
            return 1;
    }
    return fflush(stdout) == 0 ? 0 : 1;
}
