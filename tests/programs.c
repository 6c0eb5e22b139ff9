#define _POSIX_C_SOURCE 200809L
#include "programs.h"
#include <fcntl.h>
#include <stdio.h>
#include <stdlib.h>
#include <sys/wait.h>
#include <unistd.h>

enum { SECONDS = 60, PIECE = 65536, MOST = 64000000 };

const char *errors_file;

static void give_up(const char *what)
{
    perror(what);
    exit(2);
}

// In the new process: standard input, output and error are set, then the program takes its place. The alarm stays set for it.
static void become(char *const *arguments, const char *input, int output)
{
    int from = open(input ? input : "/dev/null", O_RDONLY);
    int errors = errors_file ? open(errors_file, O_WRONLY | O_CREAT | O_TRUNC, 0666) : dup(STDERR_FILENO);
    if (from >= 0 && errors >= 0 && dup2(from, STDIN_FILENO) >= 0 && dup2(output, STDOUT_FILENO) >= 0 && dup2(errors, STDERR_FILENO) >= 0) {
        close(from);
        close(errors);
        close(output);
        alarm(SECONDS);
        execv(arguments[0], arguments);
    }
    perror(arguments[0]);
    _exit(127);
}

// Reads until the program has closed its output or has printed too much.
static void gather(int from, struct printed *printed)
{
    ssize_t got = 1;
    for (printed->len = 0; got > 0 && printed->len < MOST; printed->len += got > 0 ? (size_t)got : 0) {
        if (printed->room < printed->len + PIECE + 1) {
            printed->room = 2 * printed->room + PIECE + 1;
            printed->text = realloc(printed->text, printed->room);
            if (!printed->text) give_up("memory for what a program prints");
        }
        got = read(from, printed->text + printed->len, PIECE);
    }
    printed->text[printed->len] = 0;
}

void run_program(char *const *arguments, const char *input, struct printed *printed)
{
    int ends[2], status;
    if (pipe(ends) != 0) give_up("a pipe");
    fflush(stdout);
    pid_t child = fork();
    if (child < 0) give_up("a new process");
    if (child == 0) {
        close(ends[0]);
        become(arguments, input, ends[1]);
    }
    close(ends[1]);
    gather(ends[0], printed);
    close(ends[0]);
    if (waitpid(child, &status, 0) != child) give_up(arguments[0]);
    if (WIFEXITED(status) && WEXITSTATUS(status) == 127) {
        fprintf(stderr, "%s cannot be run\n", arguments[0]);
        exit(2);
    }
    printed->signal = WIFSIGNALED(status) ? WTERMSIG(status) : 0;
}
