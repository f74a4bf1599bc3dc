/*
 * Stands in for the library hardieflax_c, so that wrappers of its header can be tested where that is not built. It has no SQL: an answer
 * is the call's name, the number of the dialect or "-", and the input, as "read 3 SELECT". It aborts where a caller does what the header
 * forbids and it can tell.
 *
 * "open_within" has the capacity where others have the dialect, and an answer of "reset" is empty, as the library's is.
 *
 * An input "status N" gives that status, "nothing" an empty answer, "deep" an answer and NO_MEMORY, and "slow" takes 50 ms. Where memory
 * runs out, which is "status 6", a session that was opened or asked is gone.
 */
#include <stdio.h>
#include <stdlib.h>
#include <string.h>
#include <time.h>

#include "hardieflax.h"

/* What a handle owns. */
struct owned {
    volatile int is_running;
    int has_session;
    uint8_t *answer;
    size_t length;
};

/* How many handles own something, for tests. */
size_t stand_in_living(void);
static size_t living = 0;

size_t stand_in_living(void) { return living; }

static void forbidden(const char *what) {
    fprintf(stderr, "stand-in: %s\n", what);
    abort();
}

static struct owned *owned_of(hardieflax *handle) {
    struct owned *owned = (struct owned *)(void *)handle->owned;
    if (handle->in_use != (owned != NULL))
        forbidden("a handle that is neither empty nor as the last call left it");
    if (owned == NULL) {
        owned = calloc(1, sizeof *owned);
        if (owned == NULL)
            abort();
        handle->owned = (uint8_t *)owned;
        handle->in_use = true;
        living++;
    } else if (owned->answer != handle->bytes || owned->length != handle->length) {
        forbidden("a copy of a handle that was used since");
    }
    if (owned->is_running)
        forbidden("two calls at a time");
    return owned;
}

static void clear(hardieflax *handle, struct owned *owned) {
    if (owned->answer != NULL)
        memset(owned->answer, '!', owned->length);
    free(owned->answer);
    owned->answer = NULL;
    owned->length = 0;
    handle->bytes = NULL;
    handle->length = 0;
}

static int is_input(const char *word, const uint8_t *input, size_t length) {
    return length == strlen(word) && memcmp(word, input, length) == 0;
}

static uint32_t answer(hardieflax *handle, const char *name, int dialect, const uint8_t *input, size_t length) {
    const struct timespec pause = {0, 50000000};
    struct owned *owned = owned_of(handle);
    char head[32];
    size_t start;

    if (input == NULL)
        forbidden("no input");
    clear(handle, owned);
    if (strncmp(name, "open", 4) == 0)
        owned->has_session = 1;
    if ((strcmp(name, "next") == 0 || strcmp(name, "audit_next") == 0) && !owned->has_session)
        return HARDIEFLAX_USAGE;
    if (length == 8 && memcmp(input, "status ", 7) == 0) {
        if (input[7] == '6' && (strncmp(name, "open", 4) == 0 || strcmp(name, "next") == 0))
            owned->has_session = 0;
        return (uint32_t)(input[7] - '0');
    }
    if (is_input("slow", input, length)) {
        owned->is_running = 1;
        nanosleep(&pause, NULL);
        owned->is_running = 0;
    }
    if (is_input("nothing", input, length))
        return HARDIEFLAX_DONE;
    if (dialect < 0)
        snprintf(head, sizeof head, "%s - ", name);
    else
        snprintf(head, sizeof head, "%s %d ", name, dialect);
    start = strlen(head);
    owned->answer = malloc(start + length);
    if (owned->answer == NULL)
        abort();
    memcpy(owned->answer, head, start);
    memcpy(owned->answer + start, input, length);
    owned->length = start + length;
    handle->bytes = owned->answer;
    handle->length = owned->length;
    return is_input("deep", input, length) ? HARDIEFLAX_NO_MEMORY : HARDIEFLAX_DONE;
}

uint32_t hardieflax_build(hardieflax *handle, const uint8_t *document, size_t length) {
    return answer(handle, "build", -1, document, length);
}

uint32_t hardieflax_guard(hardieflax *handle, const uint8_t *document, size_t length) {
    return answer(handle, "guard", -1, document, length);
}

uint32_t hardieflax_read(hardieflax *handle, uint32_t dialect, const uint8_t *text, size_t length) {
    if (dialect > HARDIEFLAX_BRACKET)
        return HARDIEFLAX_USAGE;
    return answer(handle, "read", (int)dialect, text, length);
}

uint32_t hardieflax_audit(hardieflax *handle, uint32_t dialect, const uint8_t *texts, size_t length) {
    if (dialect > HARDIEFLAX_BRACKET)
        return HARDIEFLAX_USAGE;
    return answer(handle, "audit", (int)dialect, texts, length);
}

uint32_t hardieflax_open(hardieflax *handle, const uint8_t *document, size_t length) {
    return answer(handle, "open", -1, document, length);
}

uint32_t hardieflax_next(hardieflax *handle, const uint8_t *document, size_t length) {
    return answer(handle, "next", -1, document, length);
}

uint32_t hardieflax_open_within(hardieflax *handle, const uint8_t *document, size_t length, size_t capacity) {
    return answer(handle, "open_within", (int)capacity, document, length);
}

uint32_t hardieflax_reset(hardieflax *handle) {
    struct owned *owned = owned_of(handle);
    clear(handle, owned);
    return owned->has_session ? HARDIEFLAX_DONE : HARDIEFLAX_USAGE;
}

uint32_t hardieflax_audit_next(hardieflax *handle, uint32_t dialect, const uint8_t *texts, size_t length) {
    if (dialect > HARDIEFLAX_BRACKET)
        return HARDIEFLAX_USAGE;
    return answer(handle, "audit_next", (int)dialect, texts, length);
}

const char *hardieflax_version(void) { return "stand-in"; }

const char *hardieflax_kit(void) { return "stand-in"; }

const char *hardieflax_status_name(uint32_t status) { return status == HARDIEFLAX_DONE ? "Done" : "Unknown"; }

void hardieflax_free(hardieflax *handle) {
    struct owned *owned;
    if (handle->owned == NULL)
        return;
    owned = owned_of(handle);
    clear(handle, owned);
    free(owned);
    handle->owned = NULL;
    handle->in_use = false;
    living--;
}
