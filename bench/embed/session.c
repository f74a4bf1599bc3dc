/*
 * Answers documents over one session, and prints how many seconds the calls took.
 *
 * main SCHEMA DOCUMENTS LINES: SCHEMA is a file with a document, DOCUMENTS one with a document that declares no table on each line, and
 * LINES is where the answers go.
 */
#define _POSIX_C_SOURCE 200809L
#include <stdio.h>
#include <stdlib.h>
#include <string.h>
#include <time.h>

#include "hardieflax.h"

static double now(void) {
    struct timespec time;
    clock_gettime(CLOCK_MONOTONIC, &time);
    return (double)time.tv_sec + (double)time.tv_nsec / 1e9;
}

static void answer(uint32_t status, const hardieflax *handle, FILE *out) {
    if (status != HARDIEFLAX_DONE) {
        fprintf(stderr, "status %u\n", (unsigned)status);
        exit((int)status);
    }
    fwrite(handle->bytes, 1, handle->length, out);
}

int main(int argc, char **argv) {
    hardieflax handle = HARDIEFLAX_INIT;
    char *line = NULL;
    size_t room = 0;
    ssize_t length;
    double seconds = 0;
    FILE *schema, *documents, *out;

    if (argc != 4 || (schema = fopen(argv[1], "rb")) == NULL || (documents = fopen(argv[2], "rb")) == NULL ||
        (out = fopen(argv[3], "wb")) == NULL)
        return EXIT_FAILURE;
    if ((length = getdelim(&line, &room, '\0', schema)) < 0)
        return EXIT_FAILURE;
    answer(hardieflax_open(&handle, (const uint8_t *)line, (size_t)length), &handle, out);
    while ((length = getline(&line, &room, documents)) > 0) {
        double began = now();
        uint32_t status = hardieflax_next(&handle, (const uint8_t *)line, (size_t)length);
        seconds += now() - began;
        answer(status, &handle, out);
    }
    hardieflax_free(&handle);
    free(line);
    printf("%.4f\n", seconds);
    return 0;
}
