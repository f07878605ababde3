/* bq inside a program: a session of bq without a process and without files.
 *
 *     bq_session *session = NULL;
 *     size_t taken, waiting;
 *     if (bq_open(&session, 1000000, 0, 1 << 20) != BQ_DONE) return 1;
 *     uint32_t fed = bq_feed(&session, text, size, &taken, &waiting);
 *     if (waiting > 0 && bq_replies(&session, room, sizeof room, &waiting) == BQ_DONE) use(room, waiting);
 *     bq_clear(&session);
 *     bq_close(&session);
 *
 * Text. A text is whole lines, each ended by LF: those that `bq run` reads. All replies of a session, one after another, are the bytes that
 * `bq run` writes to all texts that were taken, however these are cut between lines.
 *
 * Ownership. The library owns the session. A session begins as NULL and is passed by its address; the pointer is copied nowhere. What else
 * is passed is the caller's, and no pointer to it is kept. Replies are copied into the caller's room.
 *
 * What the caller owes. No pointer is NULL, even with a size of 0; each size is below 2^63, and is that of what the pointer points to; what
 * is passed to one call does not overlap. No function is called in a signal handler, nor in a forked child of a process with threads.
 *
 * Threads. A session is used by one thread at a time, and may go to another between two calls, where a lock or a join orders these. Two
 * sessions share nothing. The library has no state of its own, writes nothing, reads no file, and ends no process. It calls malloc,
 * realloc, free, memcpy, memmove and memset, and nothing else. */
#ifndef BQ_H
#define BQ_H
#include <stddef.h>
#include <stdint.h>
#ifdef __cplusplus
extern "C" {
#endif

/* The number of these functions. It grows where one of them, or a number below, changes. */
#define BQ_ABI 2

/* The most pages of a session. */
#define BQ_MOST_PAGES 16384

typedef struct bq_session bq_session; /* nothing of it is known here */

/* How a call went. Those that the program bq ends with have its numbers. */
enum bq_status {
    BQ_DONE = 0,
    BQ_SMALL = 1,   /* bq_replies: the room is smaller than what waits; nothing was copied */
    BQ_USAGE = 2,   /* there is no session; bq_open: there is one already, or it may not take so many rows or pages; nothing was done */
    BQ_CUT = 3,     /* the text ends inside a line; nothing was done */
    BQ_STOPPED = 5, /* no memory was found for the rest of a reply longer than 8192 bytes, of which a front waits; the session takes no
                       more text */
    BQ_MEMORY = 6,  /* no memory was found: for a session; or for what a line creates, which is counted, and the session may go on
                       behind it */
    BQ_ENDED = 7,   /* the session takes no more text: it stopped, or so many bytes cannot be counted; nothing was done */
    BQ_FULL = 8,    /* as many bytes of replies wait as may, and a line more would come: take them, and feed the rest of the text */
    BQ_NO_ROOM = 9  /* no memory was found for replies, and a line more would come: take those that wait, and feed the rest later */
};

/* Returns BQ_ABI of the library. */
uint32_t bq_abi(void);

/* Opens a session that may take `rows` rows, 1 to 2^40, where *session is NULL. Its live queries have at most `pages` pages of 64 cells
 * together, 1 to BQ_MOST_PAGES, or 0 for BQ_MOST_PAGES, as in the program; a query that needs more than are free is refused by `limit pool`.
 * A line is answered only while fewer than `most` bytes of replies wait. Returns BQ_DONE, BQ_USAGE or BQ_MEMORY. */
uint32_t bq_open(bq_session **session, uint64_t rows, uint32_t pages, size_t most);

/* Answers the lines of a text, one after another. The replies wait behind those that wait already. *taken is how many bytes of the text were
 * taken, all with BQ_DONE; *waiting is how many bytes of replies wait then. Returns BQ_DONE, BQ_USAGE, BQ_CUT, BQ_STOPPED, BQ_MEMORY,
 * BQ_ENDED, BQ_FULL or BQ_NO_ROOM. */
uint32_t bq_feed(bq_session **session, const uint8_t *text, size_t size, size_t *taken, size_t *waiting);

/* Copies all replies that wait, which go on waiting, or none where the room is smaller. *waiting is how many bytes wait. Returns BQ_DONE,
 * BQ_SMALL or BQ_USAGE. */
uint32_t bq_replies(bq_session **session, uint8_t *room, size_t size, size_t *waiting);

/* Clears the replies that wait. Returns BQ_DONE or BQ_USAGE. */
uint32_t bq_clear(bq_session **session);

/* Tells the sums of the cells and of the answers that the live queries announce. Returns BQ_DONE, or BQ_USAGE with both 0. */
uint32_t bq_announced(bq_session **session, uint64_t *cells, uint64_t *answers);

/* Closes the session, where *session is not NULL; it is NULL then. */
void bq_close(bq_session **session);

#ifdef __cplusplus
}
#endif
#endif
