/*
 * Calls the library from eight threads with a handle each: sessions, and the other calls between theirs (tests/wrappers.sh, tests/embed.sh).
 *
 * threads DOCUMENT FURTHER: each thread opens a session by the file DOCUMENT and asks it the file FURTHER again and again. Each answer has to
 * be that of the same call in one thread. It ends with 1 where one is not.
 */
#include "hardieflax.h"
#include <pthread.h>
#include <stdio.h>
#include <stdlib.h>
#include <string.h>

enum { THREADS = 8, TURNS = 100, ROOM = 1 << 16 };

struct text {
    uint8_t bytes[ROOM];
    size_t length;
};

struct answers {
    struct text opened, further, built;
};

static struct text document, next;
static struct answers alone;

static void read_file(const char *path, struct text *text) {
    FILE *file = fopen(path, "rb");
    if (file == NULL)
        exit(2);
    text->length = fread(text->bytes, 1, ROOM, file);
    fclose(file);
}

static int keep(const hardieflax *handle, struct text *text) {
    if (handle->length > ROOM)
        return 1;
    memcpy(text->bytes, handle->bytes, handle->length);
    text->length = handle->length;
    return 0;
}

static int differs(const hardieflax *handle, const struct text *text) {
    return handle->length != text->length || memcmp(handle->bytes, text->bytes, text->length) != 0;
}

/* The answers of the calls in one thread, or where `told` is given whether they are those. */
static int ask(struct answers *kept, const struct answers *told) {
    hardieflax handle = HARDIEFLAX_INIT;
    int turn, wrong = hardieflax_open(&handle, document.bytes, document.length) != HARDIEFLAX_DONE;
    wrong |= told == NULL ? keep(&handle, &kept->opened) : differs(&handle, &told->opened);
    for (turn = 0; turn < (told == NULL ? 1 : TURNS) && !wrong; turn++) {
        wrong |= hardieflax_next(&handle, next.bytes, next.length) != HARDIEFLAX_DONE;
        wrong |= told == NULL ? keep(&handle, &kept->further) : differs(&handle, &told->further);
        wrong |= hardieflax_build(&handle, document.bytes, document.length) != HARDIEFLAX_DONE;
        wrong |= told == NULL ? keep(&handle, &kept->built) : differs(&handle, &told->built);
    }
    hardieflax_free(&handle);
    return wrong;
}

static void *run(void *wrong) {
    *(int *)wrong = ask(NULL, &alone);
    return NULL;
}

int main(int argc, char **argv) {
    pthread_t threads[THREADS];
    int wrong[THREADS], i, found;
    if (argc != 3)
        return 2;
    read_file(argv[1], &document);
    read_file(argv[2], &next);
    found = ask(&alone, NULL);
    for (i = 0; i < THREADS; i++)
        if (pthread_create(&threads[i], NULL, run, &wrong[i]) != 0)
            return 2;
    for (i = 0; i < THREADS; i++) {
        pthread_join(threads[i], NULL);
        found |= wrong[i];
    }
    return found;
}
