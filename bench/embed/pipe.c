/*
 * Asks one process over a pipe, `session`, waits for each answer before the next question, and prints how many seconds the requests took.
 *
 * pipe PROGRAM INPUT LINES: INPUT is a file with a document on each line, the schema's first, and LINES is where the answers go.
 */
#define _POSIX_C_SOURCE 200809L
#include <stdio.h>
#include <stdlib.h>
#include <time.h>
#include <unistd.h>

static double now(void) {
    struct timespec time;
    clock_gettime(CLOCK_MONOTONIC, &time);
    return (double)time.tv_sec + (double)time.tv_nsec / 1e9;
}

/* Starts the program, with its input and output at these files. */
static void start(const char *program, FILE **to, FILE **from) {
    int in[2], out[2];
    if (pipe(in) != 0 || pipe(out) != 0)
        exit(EXIT_FAILURE);
    switch (fork()) {
    case -1:
        exit(EXIT_FAILURE);
    case 0:
        dup2(in[0], 0);
        dup2(out[1], 1);
        close(in[0]), close(in[1]), close(out[0]), close(out[1]);
        execl(program, program, "session", (char *)NULL);
        _exit(EXIT_FAILURE);
    default:
        close(in[0]), close(out[1]);
        *to = fdopen(in[1], "wb");
        *from = fdopen(out[0], "rb");
    }
}

int main(int argc, char **argv) {
    char *line = NULL;
    size_t room = 0, asked = 0;
    ssize_t length;
    double began = 0;
    FILE *to, *from, *input, *lines;

    if (argc != 4 || (input = fopen(argv[2], "rb")) == NULL || (lines = fopen(argv[3], "wb")) == NULL)
        return EXIT_FAILURE;
    start(argv[1], &to, &from);
    while ((length = getline(&line, &room, input)) > 0) {
        if (asked++ == 1)
            began = now();
        fwrite(line, 1, (size_t)length, to);
        fflush(to);
        /* An empty line ends the answer. */
        while ((length = getline(&line, &room, from)) > 1)
            fwrite(line, 1, (size_t)length, lines);
        if (length != 1)
            return EXIT_FAILURE;
    }
    printf("%.4f\n", now() - began);
    fclose(to);
    fclose(lines);
    free(line);
    return 0;
}
