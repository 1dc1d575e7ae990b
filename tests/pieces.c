/* pieces end|fail PROGRAM PIECE..: runs a program. Each read of its standard input gives one piece, and the read after the last one
   finds the end of the input, or fails. */
#define _POSIX_C_SOURCE 200809L
#include <fcntl.h>
#include <stdio.h>
#include <string.h>
#include <sys/socket.h>
#include <unistd.h>

static int failed(const char *what) {
    perror(what);
    return 2;
}

int main(int argc, char **argv) {
    enum { MODE = 1, PROGRAM, PIECES };
    int ends[2];
    if (argc < PIECES) {
        fputs("usage: pieces end|fail PROGRAM PIECE..\n", stderr);
        return 2;
    }
    if (socketpair(AF_UNIX, SOCK_SEQPACKET, 0, ends) != 0) return failed("socketpair");
    for (int i = PIECES; i < argc; i++) {
        size_t length = strlen(argv[i]);
        if (send(ends[1], argv[i], length, 0) != (ssize_t)length) return failed("send");
    }

    /* An empty socket whose other end is closed is at its end. One whose other end is open would wait; it fails if it must not. */
    if (strcmp(argv[MODE], "end") == 0) {
        close(ends[1]);
    } else if (fcntl(ends[0], F_SETFL, O_NONBLOCK) != 0) {
        return failed("fcntl");
    }
    if (dup2(ends[0], STDIN_FILENO) < 0) return failed("dup2");
    execl(argv[PROGRAM], argv[PROGRAM], (char *)NULL);
    return failed(argv[PROGRAM]);
}
