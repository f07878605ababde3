/* Opens and closes sessions, 10,000 where no number is given, and looks that the resident size of the process stays: it grows by less than a
 * megabyte behind the first hundred. Each tells its use too: what is answered where there is no session, or one already; and that a session of
 * 64 pages takes at most 300 KB, all its cells used. */
#include "bq.h"
#include <stdio.h>
#include <stdlib.h>
#include <string.h>

static long resident(void) {
    long size = 0, pages = 0;
    FILE *file = fopen("/proc/self/statm", "r");
    if (!file || fscanf(file, "%ld %ld", &size, &pages) != 2) exit(2);
    fclose(file);
    return pages * 4;
}

static int differs(const char *what, uint64_t got, uint64_t wanted) {
    if (got == wanted) return 0;
    printf("%s: %llu in place of %llu\n", what, (unsigned long long)got, (unsigned long long)wanted);
    return 1;
}

static int uses(void) {
    bq_session *session = NULL;
    uint8_t room[8];
    size_t taken = 9, waiting = 9;
    uint64_t cells = 9, answers = 9;
    const uint8_t *text = (const uint8_t *)"nonsense\nhalf";
    int faults = differs("abi", bq_abi(), BQ_ABI);
    faults += differs("feed without a session", bq_feed(&session, text, 9, &taken, &waiting), BQ_USAGE) + differs("taken", taken, 0) + differs("waiting", waiting, 0);
    faults += differs("replies without a session", bq_replies(&session, room, 8, &waiting), BQ_USAGE) + differs("clear", bq_clear(&session), BQ_USAGE);
    faults += differs("announced without a session", bq_announced(&session, &cells, &answers), BQ_USAGE) + differs("cells", cells, 0);
    bq_close(&session);
    faults += differs("no rows", bq_open(&session, 0, 0, 9), BQ_USAGE) + differs("too many", bq_open(&session, (1ull << 40) + 1, 0, 9), BQ_USAGE);
    faults += differs("too many pages", bq_open(&session, 9, BQ_MOST_PAGES + 1, 9), BQ_USAGE);
    faults += differs("open", bq_open(&session, 1ull << 40, BQ_MOST_PAGES, 9), BQ_DONE) + differs("open again", bq_open(&session, 1, 0, 9), BQ_USAGE);
    faults += differs("half a line", bq_feed(&session, text, 13, &taken, &waiting), BQ_CUT) + differs("taken", taken, 0) + differs("waiting", waiting, 0);
    faults += differs("a line", bq_feed(&session, text, 9, &taken, &waiting), BQ_DONE) + differs("taken", taken, 9) + differs("waiting", waiting, 15);
    faults += differs("full", bq_feed(&session, text, 9, &taken, &waiting), BQ_FULL) + differs("taken", taken, 0) + differs("waiting", waiting, 15);
    faults += differs("small", bq_replies(&session, room, 8, &waiting), BQ_SMALL) + differs("waiting", waiting, 15);
    faults += differs("clear", bq_clear(&session), BQ_DONE) + differs("go on", bq_feed(&session, text, 9, &taken, &waiting), BQ_DONE);
    faults += differs("announced", bq_announced(&session, &cells, &answers), BQ_DONE) + differs("cells", cells, 0) + differs("answers", answers, 0);
    bq_close(&session);
    bq_close(&session);
    return faults + differs("closed", session != NULL, 0);
}

/* Feeds a text, of which all replies must be these, and clears them. */
static int replies(bq_session **session, const char *text, const char *wanted) {
    uint8_t room[64];
    size_t taken, waiting;
    int faults = differs(text, bq_feed(session, (const uint8_t *)text, strlen(text), &taken, &waiting), BQ_DONE);
    faults += differs("replies", bq_replies(session, room, sizeof room, &waiting), BQ_DONE) + differs("their size", waiting, strlen(wanted));
    faults += differs(text, waiting == strlen(wanted) && memcmp(room, wanted, waiting) == 0, 1);
    return faults + differs("clear", bq_clear(session), BQ_DONE);
}

/* A query that needs 64 pages, each cell of which is taken by a row, in a session of 64 pages and in one with a page less. */
static const char *streams = "CREATE STREAM R (room IN 1..2048, c)\nCREATE STREAM Cap (room IN 1..2048, c)\n";
static const char *query = "CREATE QUERY same AS SELECT R.room FROM R, Cap WHERE R.room = Cap.room AND R.c = Cap.c AND R.c > 0 AND R.c < 2\n";
enum { ROOMS = 2048, FULL_SESSIONS = 20, MOST_KILOBYTES = 300 };

static int full_session(bq_session **session) {
    static char rows[64 * ROOMS];
    size_t size = 0, taken, waiting;
    for (int room = 1; room <= ROOMS; room++) size += sprintf(rows + size, "R,%d,1\nCap,%d,1\n", room, room);
    int faults = differs("open", bq_open(session, 1 << 20, 64, 1 << 16), BQ_DONE) + replies(session, streams, "ok stream R\nok stream Cap\n");
    faults += replies(session, query, "ok query same parts 3 cells 4096 answers 2048 work 3\n");
    faults += differs("rows", bq_feed(session, (const uint8_t *)rows, size, &taken, &waiting), BQ_DONE);
    return faults + differs("their answers", waiting > ROOMS * strlen("same,1\n"), 1) + differs("clear", bq_clear(session), BQ_DONE);
}

static int lacks_a_page(void) {
    bq_session *session = NULL;
    int faults = differs("open", bq_open(&session, 9, 63, 1 << 16), BQ_DONE) + replies(&session, streams, "ok stream R\nok stream Cap\n");
    faults += replies(&session, query, "refused same limit pool\n") + replies(&session, "R,1,1\nEXPLAIN same\n", "error 5 UnknownQuery\n");
    bq_close(&session);
    return faults;
}

static int full_sessions(void) {
    bq_session *full[FULL_SESSIONS] = {NULL};
    int faults = full_session(&full[0]);
    long before = resident();
    for (int i = 1; i < FULL_SESSIONS; i++) faults += full_session(&full[i]);
    long each = (resident() - before) / (FULL_SESSIONS - 1);
    printf("a session of 64 pages, all of them used: %ld KB resident\n", each);
    for (int i = 0; i < FULL_SESSIONS; i++) bq_close(&full[i]);
    return faults + differs("a session of 64 pages is too large", each > MOST_KILOBYTES, 0);
}

int main(int count, char **words) {
    long number = count > 1 ? atol(words[1]) : 10000, early = 0;
    int faults = uses() + lacks_a_page();
    /* Few sessions are for valgrind and sanitizers, under which a process holds more than the library took. */
    if (number > 100) faults += full_sessions();
    const char *text = "CREATE STREAM T (x)\nCREATE QUERY q AS SELECT DISTINCT T.x FROM T WHERE T.x > 0 AND T.x < 9\nT,1\nT,2\n";
    for (long i = 0; i < number; i++) {
        bq_session *session = NULL;
        size_t taken, waiting;
        if (bq_open(&session, 10, 0, 1 << 16) != BQ_DONE) return 1;
        if (bq_feed(&session, (const uint8_t *)text, strlen(text), &taken, &waiting) != BQ_DONE) return 1;
        bq_close(&session);
        if (i == 99) early = resident();
    }
    long late = resident();
    printf("%ld sessions: %ld KB resident behind the first hundred, %ld KB at the end; %d faults\n", number, early, late, faults);
    return faults > 0 || (number > 100 && late > early + 1024);
}
