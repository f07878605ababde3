/* Feeds sessions as standard input says, and writes what they reply. The input is commands, each a line:
 *
 *     open ROWS MOST    opens a session
 *     feed N            feeds it the N bytes behind this line
 *     close             writes how many bytes it replied, as a line, and those bytes, and closes it
 *
 * The status is 1 where a call answers what it must not, which is said on standard error. */
#include "bq.h"
#include <stdio.h>
#include <stdlib.h>
#include <string.h>

static uint8_t *replies;
static size_t held, room;

static void fail(const char *what, uint32_t status) {
    fprintf(stderr, "%s: %u\n", what, status);
    exit(1);
}

/* Takes the replies that wait and clears them. */
static void take(bq_session **session, size_t waiting) {
    size_t told;
    uint32_t status;
    if (held + waiting > room) {
        room = 2 * (held + waiting);
        replies = realloc(replies, room);
        if (!replies) fail("realloc", 0);
    }
    /* With too little room nothing is copied. */
    if (waiting > 0 && bq_replies(session, replies + held, waiting - 1, &told) != BQ_SMALL) fail("too little room", BQ_DONE);
    if ((status = bq_replies(session, replies + held, room - held, &told)) != BQ_DONE || told != waiting) fail("replies", status);
    held += waiting;
    if ((status = bq_clear(session)) != BQ_DONE) fail("clear", status);
}

static void feed(bq_session **session, const uint8_t *text, size_t size, size_t most) {
    size_t taken, waiting;
    for (;;) {
        uint32_t status = bq_feed(session, text, size, &taken, &waiting);
        if (status == BQ_FULL && (waiting < most || taken == size)) fail("full too early", status);
        if (status == BQ_DONE && taken != size) fail("done too early", status);
        text += taken;
        size -= taken;
        if (status != BQ_FULL && status != BQ_DONE) fail("feed", status);
        if (status == BQ_DONE && size % 2 == 0 && waiting < most) return; /* now and then replies wait over several feeds */
        take(session, waiting);
        if (status == BQ_DONE) return;
    }
}

int main(void) {
    static char line[64];
    bq_session *session = NULL;
    size_t taken, waiting = 0, most = 0;
    uint8_t *text = NULL;
    while (fgets(line, sizeof line, stdin)) {
        unsigned long long first = 0, second = 0;
        if (sscanf(line, "open %llu %llu", &first, &second) == 2) {
            uint32_t status = bq_open(&session, first, 0, second);
            if (status != BQ_DONE) fail("open", status);
            most = second;
            held = 0;
        } else if (sscanf(line, "feed %llu", &first) == 1) {
            text = realloc(text, first + 1);
            if (!text || fread(text, 1, first, stdin) != first) fail("input", 0);
            feed(&session, text, first, most);
        } else {
            uint32_t status = bq_feed(&session, (const uint8_t *)"", 0, &taken, &waiting);
            if (status != BQ_DONE) fail("feed of nothing", status);
            if (waiting > 0) take(&session, waiting);
            printf("%zu\n", held);
            fwrite(replies, 1, held, stdout);
            bq_close(&session);
            if (session) fail("close", 0);
        }
    }
    free(text);
    free(replies);
    return 0;
}
