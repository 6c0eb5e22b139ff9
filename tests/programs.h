// Runs a program and gathers what it prints.
#ifndef PROGRAMS_H
#define PROGRAMS_H

#include <stddef.h>

// What a program printed on standard output, with a zero byte behind it, and the signal that ended it, or 0.
struct printed { char *text; size_t len, room; int signal; };

// Where standard error of the programs goes: a file, or NULL where it stays as it is.
extern const char *errors_file;

// Runs the program of the first argument; NULL stands behind the last. Its standard input is a file, or empty where no file is given.
// It is ended after 60 seconds, and when it prints more than 64 million bytes. The text lies in the same memory from run to run, which grows.
void run_program(char *const *arguments, const char *input, struct printed *printed);

#endif
