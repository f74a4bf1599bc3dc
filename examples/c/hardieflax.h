/*
 * hardieflax.h: the commands of the program, over bytes in memory.
 *
 * Link libhardieflax (docs/EMBEDDING.md). This header is written by hand, and nothing checks it against the library but that the names of
 * its calls are those that the shared library exports (packaging/library.sh). tests/wrappers.sh tries the wrappers in Rust and Python on a
 * stand-in that is compiled with it.
 *
 * A handle holds the answer of the last call, and at most one session. It begins as HARDIEFLAX_INIT, which owns nothing:
 *
 *     hardieflax h = HARDIEFLAX_INIT;
 *     if (hardieflax_build(&h, document, length) == HARDIEFLAX_DONE)
 *         fwrite(h.bytes, 1, h.length, stdout);
 *     hardieflax_free(&h);
 *
 * Ownership. The library allocates what a handle owns, and hardieflax_free frees it. h.bytes and h.length are there to be read, until
 * the next call on the handle. Write none of the fields, and make no copy that is used beside the original: a handle may be moved, as
 * by memcpy, if the old one is used no more. The library keeps no pointer into what a caller passes.
 *
 * Input. A pointer and a length in bytes. The bytes stay as they are for as long as the call runs. The pointer is not NULL, even where
 * the length is 0.
 *
 * Threads. A handle has one call at a time. Threads that share one take turns under a lock, as in examples/python/hardieflax.py. Handles
 * share nothing, so each thread may have its own.
 *
 * Memory. The library calls malloc, realloc and free. Where memory runs out a call returns HARDIEFLAX_NO_MEMORY, and the handle may be
 * used on. A request that nests deeper than 2,500 levels, or a text whose brackets nest deeper than 2,700, ends a call so too
 * (docs/DOCUMENT.md). The answer then has the lines before it: where it has n lines, it was the request or the text after the first n of
 * the input. Any call takes less than 1.5 MB of stack (bench/README.md), so a thread of 2 MB may make it; but in a session with policies
 * a statement of more than 400 combinations takes more, up to 4 MB.
 *
 * Signals. Call nothing here from a signal handler, nor in the forked child of a process with threads.
 */
#ifndef HARDIEFLAX_H
#define HARDIEFLAX_H

#include <stdbool.h>
#include <stddef.h>
#include <stdint.h>

#ifdef __cplusplus
extern "C" {
#endif

typedef struct hardieflax {
    const uint8_t *bytes; /* the answer, UTF-8, a line of JSON for each item; no zero ends it */
    size_t length;        /* how many bytes it has; 0 on any status but HARDIEFLAX_DONE and HARDIEFLAX_NO_MEMORY */
    uint8_t *owned;       /* the library's */
    bool in_use;          /* the library's */
} hardieflax;

#define HARDIEFLAX_INIT { (const uint8_t *)0, 0, (uint8_t *)0, false }

/* How a call ends: the program's exit status. */
enum hardieflax_status {
    HARDIEFLAX_DONE = 0,         /* the handle has the answer */
    HARDIEFLAX_USAGE = 2,        /* no such dialect: the handle is as it was; or no session, where a call wants one */
    HARDIEFLAX_BAD_DOCUMENT = 3, /* the input is not what the call reads */
    HARDIEFLAX_NO_MEMORY = 6,    /* out of memory, or a request or a text nests too deep: the handle has the lines before it */
    HARDIEFLAX_TOO_LARGE = 7     /* the input has more than 16777216 bytes */
};

enum hardieflax_dialect {
    HARDIEFLAX_PG = 0,
    HARDIEFLAX_MYSQL = 1,
    HARDIEFLAX_SQLITE = 2,
    HARDIEFLAX_BRACKET = 3
};

/* As `build`: a line for each request of a document. */
uint32_t hardieflax_build(hardieflax *handle, const uint8_t *document, size_t length);

/* As `guard`: the same, each statement restricted to the rows of the document's tenant. */
uint32_t hardieflax_guard(hardieflax *handle, const uint8_t *document, size_t length);

/* As `read D`: a line with the text, as the grammar reads it. */
uint32_t hardieflax_read(hardieflax *handle, uint32_t dialect, const uint8_t *text, size_t length);

/* As `audit D`: a line for each text, with the tables and columns that it uses. */
uint32_t hardieflax_audit(hardieflax *handle, uint32_t dialect, const uint8_t *texts, size_t length);

/*
 * Opens a session over the schema of a document, in place of the one that the handle has. The answer is that of hardieflax_build for
 * the document, whose requests may be none. Where the document has a member "tenant", which has policies, it is that of `tenant`, and each
 * statement of the session is guarded by them. A value in them may be a place, {"value":"id"}, for which a member "values" of this
 * document and of each further one has the value, {"id":7}: null, a truth value, a number or a text (docs/GUARD.md).
 *
 * A request that nests too deep ends the call with HARDIEFLAX_NO_MEMORY: the session is open, and has answered the requests before it,
 * whose lines are the answer. On any other status but HARDIEFLAX_DONE, and where memory runs out, the handle has no session and no lines.
 */
uint32_t hardieflax_open(hardieflax *handle, const uint8_t *document, size_t length);

/*
 * The same, and says how many shapes have an id in the session before all are forgotten: `capacity`, or for 0 the usual 16384. Take as many as
 * you keep prepared statements, or more. A shape takes some hundred bytes of the library's memory, and more where its statement is large.
 */
uint32_t hardieflax_open_within(hardieflax *handle, const uint8_t *document, size_t length, size_t capacity);

/*
 * Answers more requests over the session's schema: a document that declares no table, as {"schema":{"tables":[]},"requests":[..]}. The
 * lines are those that the output of one document would have which has the requests of all the session's calls, in order: an id is the
 * number, from 1, of the session's first accepted request of the same dialect and shape. Once 16384 shapes have an id, or as many as
 * hardieflax_open_within was told, all are forgotten: a shape that comes again then has a new id, and no id is given to another shape, until
 * hardieflax_reset. In a session with policies the document's member
 * "values" has the values for their places, so that one session serves all tenants with one text for each shape. Input that is no such
 * document, or lacks a value, leaves the session as it was.
 *
 * A request that nests too deep ends the call with HARDIEFLAX_NO_MEMORY. The session has then answered the requests before it, whose lines
 * are the answer, and goes on: it has not counted that request, nor those after it. Where memory runs out, or policies make a request too
 * deep that is not so by itself, there are no lines and the session is gone, so a further call returns HARDIEFLAX_USAGE: open it again.
 */
uint32_t hardieflax_next(hardieflax *handle, const uint8_t *document, size_t length);

/*
 * Has the session begin anew, as if it had just been opened by a document without requests: schema, policies and capacity stay, and ids
 * are counted from 1 again. Drop what you kept by id. The answer is empty. HARDIEFLAX_USAGE where there is no session.
 */
uint32_t hardieflax_reset(hardieflax *handle);

/*
 * As hardieflax_audit, over the session's schema: a document that declares no table, as {"schema":{"tables":[]},"texts":["SELECT .."]}. The
 * session stays as it is, whatever the call returns. HARDIEFLAX_USAGE where there is no session.
 */
uint32_t hardieflax_audit_next(hardieflax *handle, uint32_t dialect, const uint8_t *texts, size_t length);

/* Frees what the handle owns, which then owns nothing and may be used again. On a handle that owns nothing it does nothing. */
void hardieflax_free(hardieflax *handle);

/* The version of the library, as "0.1.0": a text that stays. CONTRIBUTING.md says what may change from one version to another. */
const char *hardieflax_version(void);

/* The toolchain that the library is proved with, as README.md names it: a text that stays. */
const char *hardieflax_kit(void);

/* The name of a status, as "BadDocument": a text that stays. It is "Unknown" for a number that no call returns. */
const char *hardieflax_status_name(uint32_t status);

#ifdef __cplusplus
}
#endif

#endif
