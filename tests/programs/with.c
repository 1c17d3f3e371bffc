/* Runs a command on an end that a shell cannot make by itself:
 *   with full COMMAND ..       standard output is a pipe that takes no more and does not wait (EAGAIN)
 *   with closed COMMAND ..     standard output is a pipe that nobody reads (EPIPE)
 *   with terminal COMMAND ..   standard input is a terminal on which nothing is typed but the end of input,
 *                              so that a command which reads it all the same comes to an end
 */
#define _XOPEN_SOURCE 700
#include <fcntl.h>
#include <signal.h>
#include <stdio.h>
#include <stdlib.h>
#include <string.h>
#include <unistd.h>

static void fail(const char *what)
{
    perror(what);
    exit(99);
}

/* The other end stays open in the command, out of the way of the numbers that scripts use. */
static void keep(int end)
{
    if (fcntl(end, F_DUPFD, 50) < 0 || close(end) != 0)
        fail("with: keeping an end");
}

static void output_to_pipe(int full)
{
    static const char bytes[4096];
    int ends[2];

    if (pipe(ends) != 0)
        fail("with: pipe");
    if (full) {
        keep(ends[0]);
        if (fcntl(ends[1], F_SETFL, O_NONBLOCK) != 0)
            fail("with: a pipe that does not wait");
        while (write(ends[1], bytes, sizeof bytes) > 0)
            ;
    } else {
        close(ends[0]);
    }
    if (dup2(ends[1], 1) < 0 || close(ends[1]) != 0)
        fail("with: standard output");
}

static void input_from_terminal(void)
{
    int own = posix_openpt(O_RDWR | O_NOCTTY);
    int end;

    if (own < 0 || grantpt(own) != 0 || unlockpt(own) != 0)
        fail("with: a terminal");
    end = open(ptsname(own), O_RDWR | O_NOCTTY);
    if (end < 0 || dup2(end, 0) < 0 || close(end) != 0 || write(own, "\004", 1) != 1)
        fail("with: standard input");
    keep(own);
}

int main(int count, char **words)
{
    if (count < 3)
        return 99;
    signal(SIGPIPE, SIG_DFL);
    if (strcmp(words[1], "terminal") == 0)
        input_from_terminal();
    else
        output_to_pipe(strcmp(words[1], "full") == 0);
    execvp(words[2], words + 2);
    fail(words[2]);
    return 99;
}
