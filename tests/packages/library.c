/*
 * Stands in for the library in tests (tests/packages.sh, python/tests): it answers by running the program PROGRAM, so its lines are the true
 * ones. A session is the lines that it was asked so far, which the program's command `session` answers anew with each further one.
 */
#define _GNU_SOURCE
#include <stdio.h>
#include <stdlib.h>
#include <string.h>
#include <sys/wait.h>
#include <unistd.h>

#include "hardieflax.h"

struct text {
    char *bytes;
    size_t length;
};

/* What a handle owns. */
struct owned {
    struct text answer;
    struct text session; /* the lines so far; no bytes where there is none */
    size_t answered;     /* the bytes of their answers */
};

static void *checked(void *pointer) {
    if (pointer == NULL)
        abort();
    return pointer;
}

static struct text text_of(const void *bytes, size_t length) {
    struct text text = {checked(malloc(length + 1)), length};
    memcpy(text.bytes, bytes, length);
    return text;
}

/* The whole of a file that was written. */
static struct text whole(FILE *file) {
    struct text text = {NULL, 0};
    fseek(file, 0, SEEK_END);
    text.length = (size_t)ftell(file);
    rewind(file);
    text.bytes = checked(malloc(text.length + 1));
    if (fread(text.bytes, 1, text.length, file) != text.length)
        abort();
    return text;
}

/* Runs the program with these words on this input: its status and what it wrote. */
static uint32_t run(char *const *words, const void *input, size_t length, struct text *output) {
    FILE *in = checked(tmpfile()), *out = checked(tmpfile());
    int status;
    pid_t child;
    fwrite(input, 1, length, in);
    rewind(in);
    child = fork();
    if (child == 0) {
        dup2(fileno(in), 0);
        dup2(fileno(out), 1);
        if (freopen("/dev/null", "w", stderr) != NULL)
            execv(PROGRAM, words);
        _exit(127);
    }
    waitpid(child, &status, 0);
    fclose(in);
    *output = whole(out);
    fclose(out);
    if (!WIFEXITED(status) || WEXITSTATUS(status) > HARDIEFLAX_TOO_LARGE)
        abort();
    return (uint32_t)WEXITSTATUS(status);
}

static struct owned *owned_of(hardieflax *handle) {
    if (handle->owned == NULL) {
        handle->owned = checked(calloc(1, sizeof(struct owned)));
        handle->in_use = true;
    }
    return (struct owned *)(void *)handle->owned;
}

/* Makes the bytes of the answer from this one on the handle's. */
static uint32_t show(hardieflax *handle, uint32_t status, struct text answer, size_t from) {
    struct owned *owned = owned_of(handle);
    free(owned->answer.bytes);
    owned->answer = answer;
    handle->bytes = (const uint8_t *)answer.bytes + from;
    handle->length = status == HARDIEFLAX_DONE || status == HARDIEFLAX_NO_MEMORY ? answer.length - from : 0;
    return status;
}

static void close_session(struct owned *owned) {
    free(owned->session.bytes);
    owned->session.bytes = NULL;
    owned->answered = 0;
}

static uint32_t answer(hardieflax *handle, const char *word, const char *operand, const uint8_t *input, size_t length) {
    char *words[] = {(char *)PROGRAM, (char *)word, (char *)operand, NULL};
    struct text output;
    uint32_t status = run(words, input, length, &output);
    return show(handle, status, output, 0);
}

static const char *const DIALECTS[] = {"Pg", "Mysql", "Sqlite", "Bracket"};

uint32_t hardieflax_build(hardieflax *handle, const uint8_t *document, size_t length) { return answer(handle, "build", NULL, document, length); }

uint32_t hardieflax_guard(hardieflax *handle, const uint8_t *document, size_t length) { return answer(handle, "guard", NULL, document, length); }

uint32_t hardieflax_read(hardieflax *handle, uint32_t dialect, const uint8_t *text, size_t length) {
    return dialect > HARDIEFLAX_BRACKET ? HARDIEFLAX_USAGE : answer(handle, "read", DIALECTS[dialect], text, length);
}

uint32_t hardieflax_audit(hardieflax *handle, uint32_t dialect, const uint8_t *texts, size_t length) {
    return dialect > HARDIEFLAX_BRACKET ? HARDIEFLAX_USAGE : answer(handle, "audit", DIALECTS[dialect], texts, length);
}

/* The statuses of what a session says of a line that it does not answer. */
static const struct {
    const char *line;
    uint32_t status;
} ERRORS[] = {{"{\"error\":\"BadDocument\"}\n", HARDIEFLAX_BAD_DOCUMENT},
              {"{\"error\":\"TooLarge\"}\n", HARDIEFLAX_TOO_LARGE},
              {"{\"error\":\"TooDeep\"}\n", HARDIEFLAX_NO_MEMORY}};

/* The status of an answer, from which its empty line is taken, and the line of an error. */
static uint32_t status_of(struct text *answer, size_t from) {
    size_t at, size;
    answer->length--;
    for (at = 0; at < sizeof ERRORS / sizeof *ERRORS; at++) {
        size = strlen(ERRORS[at].line);
        if (answer->length - from >= size && memcmp(answer->bytes + answer->length - size, ERRORS[at].line, size) == 0) {
            answer->length -= size;
            return ERRORS[at].status;
        }
    }
    return HARDIEFLAX_DONE;
}

/* Asks a further line of the session: of its answers the last one is shown. What is refused leaves the session as it was. */
static uint32_t go_on(hardieflax *handle, const uint8_t *document, size_t length) {
    char *words[] = {(char *)PROGRAM, (char *)"session", NULL};
    struct owned *owned = owned_of(handle);
    size_t before = owned->answered, kept = owned->session.bytes == NULL ? 0 : owned->session.length, at;
    struct text lines = {checked(malloc(kept + length + 2)), kept + length + 1}, output;
    uint32_t status;
    if (kept > 0)
        memcpy(lines.bytes, owned->session.bytes, kept);
    memcpy(lines.bytes + kept, document, length);
    for (at = kept; at < kept + length; at++)
        if (lines.bytes[at] == '\n')
            lines.bytes[at] = ' ';
    lines.bytes[kept + length] = '\n';
    status = run(words, lines.bytes, lines.length, &output);
    if (status != HARDIEFLAX_DONE || output.length <= before)
        abort();
    at = output.length;
    status = status_of(&output, before);
    if (status == HARDIEFLAX_DONE || status == HARDIEFLAX_NO_MEMORY) {
        close_session(owned);
        owned->session = lines;
        owned->answered = at;
    } else {
        free(lines.bytes);
    }
    return show(handle, status, output, before);
}

uint32_t hardieflax_open(hardieflax *handle, const uint8_t *document, size_t length) {
    close_session(owned_of(handle));
    return go_on(handle, document, length);
}

uint32_t hardieflax_next(hardieflax *handle, const uint8_t *document, size_t length) {
    if (owned_of(handle)->session.bytes == NULL)
        return show(handle, HARDIEFLAX_USAGE, text_of("", 0), 0);
    return go_on(handle, document, length);
}

/* The program has a session's usual capacity alone. */
uint32_t hardieflax_open_within(hardieflax *handle, const uint8_t *document, size_t length, size_t capacity) {
    (void)capacity;
    return hardieflax_open(handle, document, length);
}

uint32_t hardieflax_reset(hardieflax *handle) {
    static const char line[] = "{\"reset\":true}";
    return hardieflax_next(handle, (const uint8_t *)line, sizeof line - 1);
}

/* Asks the command `audit` for the texts with the members of the session's first line after theirs, so that its schema is the one that counts. */
uint32_t hardieflax_audit_next(hardieflax *handle, uint32_t dialect, const uint8_t *texts, size_t length) {
    const struct text *session = &owned_of(handle)->session;
    const char *first = session->bytes, *end;
    uint8_t *both;
    uint32_t status;
    size_t more;
    if (first == NULL)
        return show(handle, HARDIEFLAX_USAGE, text_of("", 0), 0);
    end = memchr(first, '\n', session->length);
    while (*first != '{')
        first++;
    while (length > 0 && texts[length - 1] != '}')
        length--;
    more = (size_t)(end - first);
    both = checked(malloc(length + more + 1));
    memcpy(both, texts, length);
    memcpy(both + length, first, more);
    if (length > 0)
        both[length - 1] = ' ';
    both[length] = ',';
    status = hardieflax_audit(handle, dialect, both, length + more);
    free(both);
    return status;
}

void hardieflax_free(hardieflax *handle) {
    struct owned *owned = (struct owned *)(void *)handle->owned;
    if (owned != NULL) {
        close_session(owned);
        free(owned->answer.bytes);
        free(owned);
    }
    memset(handle, 0, sizeof *handle);
}
