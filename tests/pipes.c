/*
 * pipes LINES PROGRAM WORD..: starts a program between two pipes that do not wait (O_NONBLOCK), as where a program before it has
 * left them so. Of standard input the first LINES lines are handed on, after a pause the rest; what the program prints is taken
 * after a pause, and handed on too.
 */
#define _POSIX_C_SOURCE 200809L
#include <fcntl.h>
#include <stdio.h>
#include <stdlib.h>
#include <sys/wait.h>
#include <time.h>
#include <unistd.h>

static void check(int holds, const char *what)
{
    if (!holds) {
        perror(what);
        exit(2);
    }
}

static void pause_a_while(void)
{
    struct timespec time = {0, 200000000};

    nanosleep(&time, NULL);
}

/* The part of standard input up to so many line feeds, or all of it, into a pipe. */
static void feed(int to, long lines)
{
    int c;

    while (lines != 0 && (c = getchar()) != EOF) {
        char byte = (char)c;

        check(write(to, &byte, 1) == 1, "write");
        lines -= c == '\n';
    }
}

int main(int count, char **words)
{
    int in[2], out[2];
    char bytes[4096];
    ssize_t got;
    pid_t feeder, program;

    check(count > 2, "usage: pipes LINES PROGRAM WORD..");
    check(pipe(in) == 0 && pipe(out) == 0, "pipe");
    check(fcntl(in[0], F_SETFL, O_NONBLOCK) == 0 && fcntl(out[1], F_SETFL, O_NONBLOCK) == 0, "fcntl");
    program = fork();
    check(program >= 0, "fork");
    if (program == 0) {
        dup2(in[0], 0);
        dup2(out[1], 1);
        close(in[0]);
        close(in[1]);
        close(out[0]);
        close(out[1]);
        execv(words[2], words + 2);
        perror(words[2]);
        _exit(127);
    }
    close(in[0]);
    close(out[1]);
    feeder = fork();
    check(feeder >= 0, "fork");
    if (feeder == 0) {
        close(out[0]);
        feed(in[1], atol(words[1]));
        pause_a_while();
        feed(in[1], -1);
        _exit(0);
    }
    close(in[1]);
    pause_a_while();
    pause_a_while();
    while ((got = read(out[0], bytes, sizeof bytes)) > 0)
        check(fwrite(bytes, 1, (size_t)got, stdout) == (size_t)got, "fwrite");
    check(fflush(stdout) == 0, "fflush");
    check(waitpid(feeder, NULL, 0) == feeder && waitpid(program, NULL, 0) == program, "waitpid");
    return 0;
}
