/* A dash: takes words from the wire, repairs them and shows the row. A word that is refused leaves the last row on
 * the dash. The wire is played here: rows that a sender writes, and the places that the spark turns.
 *
 *     cc -Iinclude examples/dash.c target/staticlib/libcapi.a -o target/dash && target/dash */
#include <stdint.h>
#include <stdio.h>
#include "zovunelith.h"

/* The card of this motorcycle, which hides nothing. */
enum { M = 5, N = 16, T = 2, OMEGA = 24 };
static const zov_elem H[N] = {12, 8, 10, 22, 26, 9, 16, 21, 14, 5, 17, 4, 30, 23, 25, 31};
static const uint8_t HIDDEN[N] = {0};

static const char *const GEARS[] = {"neutral", "first", "second", "third", "fourth", "fifth", "sixth", "high neutral"};
static const char *const LAMPS[] = {"dark", "green", "amber"};

/* What is sent, and what the spark does to it: the marks of the turned places, lowest first. */
struct event {
    uint32_t gear, lamp;
    uint16_t turned;
};
static const struct event RIDE[] = {
    {0, 1, 0x0000}, {1, 0, 0x0101}, {1, 0, 0x01C0}, {2, 0, 0x0008}, {3, 2, 0x8001}, {6, 0, 0x0000}, {7, 1, 0x0210},
};

int main(void) {
    int32_t shown = -1; /* the last row that was read: gear + 8 * lamp + 32 * count */
    for (size_t step = 0; step < sizeof RIDE / sizeof *RIDE; step++) {
        const struct event *event = &RIDE[step];
        uint8_t word[N], repaired[N];
        int32_t written = zov_write_row(M, N, T, OMEGA, H, N, HIDDEN, N, event->gear, event->lamp, word, N);
        if (written < 0) {
            fprintf(stderr, "the card or the row is refused by %d\n", -written);
            return 1;
        }
        for (int place = 0; place < N; place++)
            word[place] ^= event->turned >> place & 1;

        int32_t read = zov_read_row(M, N, T, OMEGA, H, N, HIDDEN, N, word, N, repaired, N);
        if (read >= 0)
            shown = read;
        if (shown < 0)
            printf("dash: nothing yet");
        else
            printf("dash: %s, %s", GEARS[shown % 8], LAMPS[shown / 8 % 4]);
        if (read >= 0)
            printf(" (repaired bits: %d)\n", read / 32);
        else
            printf(" (held, the word is refused by %d)\n", -read);
    }
    return 0;
}
