/* Refuses each request for memory of a session in turn: cc -Wl,--wrap=malloc -Wl,--wrap=realloc -Wl,--wrap=free allocations.c libbq.a
 *
 * A refused request is answered by a status, the session goes on or is closed, what it replied is a front of what it replies without a refusal
 * up to the line at fault, and nothing that was taken is left. The status of the program is 1 where that is not so. */
#include "bq.h"
#include <stdio.h>
#include <stdlib.h>
#include <string.h>

void *__real_malloc(size_t);
void *__real_realloc(void *, size_t);
void __real_free(void *);
static long asked, refused, live;
void *__wrap_malloc(size_t size) {
    if (++asked == refused) return NULL;
    live++;
    return __real_malloc(size);
}
void *__wrap_realloc(void *old, size_t size) {
    if (++asked == refused) return NULL;
    live += old == NULL;
    return __real_realloc(old, size);
}
void __wrap_free(void *old) {
    live -= old != NULL;
    __real_free(old);
}

static const char *lines[] = {
    "CREATE STREAM R (room, c)\n",
    "CREATE STREAM Cap (room, c)\n",
    "CREATE QUERY hot AS SELECT DISTINCT R.room FROM R, Cap WHERE R.room = Cap.room AND R.room > 0 AND R.room < 4 AND R.c > Cap.c\n",
    "Cap,1,24\n", "R,1,25\n", "nonsense\n", "R,2,1\n", "EXPLAIN hot\n", "CHECKPOINT\n", "DROP QUERY hot\n", "R,1,25\n",
};
enum { LINES = sizeof lines / sizeof lines[0] };
static uint8_t wanted[LINES][1 << 16], got[1 << 16];
static size_t lengths[LINES];

static int wrong(const char *what, size_t line, uint32_t status) {
    printf("refused request %ld, line %zu: %s, status %u\n", refused, line + 1, what, status);
    return 1;
}

/* Feeds all lines, each until it is taken. Gives 1 where something is wrong. */
static int feed_all(bq_session **session, long *lacking, long *stopped) {
    size_t taken, waiting, waits;
    for (size_t i = 0; i < LINES; i++) {
        size_t size = strlen(lines[i]);
        uint32_t status = bq_feed(session, (const uint8_t *)lines[i], size, &taken, &waiting);
        if (status == BQ_NO_ROOM) {
            if (taken != 0 || waiting != 0) return wrong("a line was taken without room", i, status);
            status = bq_feed(session, (const uint8_t *)lines[i], size, &taken, &waiting);
            ++*lacking;
            if (status != BQ_DONE) return wrong("the session does not go on", i, status);
        }
        if (status == BQ_STOPPED) {
            ++*stopped;
            status = bq_feed(session, (const uint8_t *)lines[i], size, &taken, &waits);
            return status == BQ_ENDED && taken == 0 && waits == waiting ? 0 : wrong("it goes on behind a reply that broke off", i, status);
        }
        if (status == BQ_MEMORY) {
            ++*lacking;
            if (taken != size || waiting != 0) return wrong("a line that lacks memory is answered", i, status);
            /* the line is given again, and counts as one line more, so that errors behind it differ in their numbers */
            status = bq_feed(session, (const uint8_t *)lines[i], size, &taken, &waiting);
        }
        if (status != BQ_DONE || taken != size) return wrong("a line is not answered", i, status);
        if (bq_replies(session, got, sizeof got, &waits) != BQ_DONE || waits != waiting) return wrong("replies", i, 0);
        bq_clear(session);
        if (refused == 0) {
            memcpy(wanted[i], got, waiting);
            lengths[i] = waiting;
        } else if (lines[i][0] != 'n' && (waiting != lengths[i] || memcmp(wanted[i], got, waiting) != 0)) {
            return wrong("another reply", i, status);
        }
    }
    return 0;
}

int main(void) {
    long opens = 0, lacking = 0, stopped = 0, runs = 0;
    int faults = 0;
    /* Nothing is refused in the first run. In the last one fewer requests come than the number of the one that would be refused. */
    do {
        bq_session *session = NULL;
        asked = 0;
        uint32_t status = bq_open(&session, 1000, 64, 1 << 20);
        if (status == BQ_DONE) faults += feed_all(&session, &lacking, &stopped);
        else if (status == BQ_MEMORY && session == NULL) opens++;
        else faults += wrong("open", 0, status);
        bq_close(&session);
        if (live != 0) faults += wrong("memory is left", 0, (uint32_t)live);
        live = 0;
        runs++;
    } while (refused++ <= asked);
    printf("%ld requests refused in turn: %ld at the opening, %ld times the session went on, %ld times it stopped; %d faults\n",
           runs - 2, opens, lacking, stopped, faults);
    return faults > 0 || runs < 10;
}
