/* feeds LINES FILE: feeds the lines of a file to one session of libbq, so many a call, and writes the replies. */
#include "bq.h"
#include <stdio.h>
#include <stdlib.h>
#include <string.h>

static uint8_t text[64 << 20], room[1 << 20];

int main(int count, char **words) {
    if (count != 3)
        return 2;
    size_t lines = strtoull(words[1], NULL, 10), size;
    FILE *file = fopen(words[2], "rb");
    if (!file || (size = fread(text, 1, sizeof text, file)) == sizeof text)
        return 2;
    fclose(file);
    bq_session *session = NULL;
    if (bq_open(&session, 1ull << 40, BQ_MOST_PAGES, sizeof room) != BQ_DONE)
        return 1;
    for (uint8_t *at = text, *end = text + size; at < end;) {
        uint8_t *to = at;
        for (size_t line = 0; line < lines && to < end; line++)
            to = (uint8_t *)memchr(to, '\n', end - to) + 1;
        size_t taken, waiting;
        uint32_t status = bq_feed(&session, at, to - at, &taken, &waiting);
        if (status != BQ_DONE && status != BQ_FULL)
            return 1;
        if (waiting) {
            if (bq_replies(&session, room, sizeof room, &waiting) != BQ_DONE)
                return 1;
            fwrite(room, 1, waiting, stdout);
            bq_clear(&session);
        }
        at += taken;
    }
    bq_close(&session);
    return 0;
}
