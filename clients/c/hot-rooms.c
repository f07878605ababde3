/* A query over rooms, inside a C program: cc hot-rooms.c -lbq -o hot-rooms && ./hot-rooms */
#include "bq.h"
#include <stdio.h>
#include <string.h>

/* Feeds a text of whole lines and writes the replies. Gives the status. */
static uint32_t answer(bq_session **session, const char *text) {
    static uint8_t room[1 << 16];
    size_t left = strlen(text), taken, waiting;
    uint32_t status;
    do {
        status = bq_feed(session, (const uint8_t *)text, left, &taken, &waiting);
        text += taken;
        left -= taken;
        if (waiting > 0 && bq_replies(session, room, sizeof room, &waiting) == BQ_DONE) {
            fwrite(room, 1, waiting, stdout);
            bq_clear(session);
        }
    } while (status == BQ_FULL);
    return status;
}

int main(void) {
    bq_session *session = NULL;
    if (bq_abi() != BQ_ABI || bq_open(&session, 1000000, 64, 4096) != BQ_DONE) return 1;
    uint32_t status = answer(&session, "CREATE STREAM Temp (room IN 1..39, val)\n"
                                       "CREATE QUERY hot AS SELECT DISTINCT Temp.room FROM Temp WHERE Temp.val > 30\n");
    for (int room = 1; room <= 3 && status == BQ_DONE; room++) {
        char row[64];
        snprintf(row, sizeof row, "Temp,%d,%d\n", room, 28 + room);
        status = answer(&session, row);
    }
    bq_close(&session);
    return (int)status;
}
