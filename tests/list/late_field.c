/* late_field LATE COMMAND ..: runs the command with the bytes of standard input as its own, by a pipe that does not block,
   whose last LATE bytes come a moment later than the others. */
#define _POSIX_C_SOURCE 200809L
#include <fcntl.h>
#include <stdio.h>
#include <stdlib.h>
#include <sys/wait.h>
#include <time.h>
#include <unistd.h>

static void fail(const char *what) {
    perror(what);
    exit(2);
}

/* Runs the command with this end of a pipe as standard input. */
static pid_t start(char **command, const int ends[2]) {
    pid_t child = fork();
    if (child < 0) {
        fail("fork");
    }
    if (child == 0) {
        dup2(ends[0], 0);
        close(ends[0]);
        close(ends[1]);
        execv(command[0], command);
        fail(command[0]);
    }
    return child;
}

int main(int count, char **words) {
    static char bytes[4096];
    int ends[2];
    const struct timespec moment = {0, 200000000};
    if (count < 3) {
        return 2;
    }
    size_t size = fread(bytes, 1, sizeof bytes, stdin);
    size_t late = strtoul(words[1], NULL, 10);
    if (size < late || pipe(ends) < 0 || fcntl(ends[0], F_SETFL, O_NONBLOCK) < 0) {
        fail("late_field");
    }
    if (write(ends[1], bytes, size - late) < 0) {
        fail("write");
    }
    pid_t child = start(words + 2, ends);
    nanosleep(&moment, NULL);
    if (write(ends[1], bytes + size - late, late) < 0) {
        fail("write");
    }
    close(ends[1]);
    waitpid(child, NULL, 0);
    return 0;
}
