/* A sender with fewer wires than its code has places: the fitter hides message columns, which always hold 0 then and
 * are not transmitted. The program shows what the fitter is told about the card, a row that the sender's words carry, a
 * slip that is refused, and that other marks make another card.
 *
 *     cc -Iinclude examples/short.c target/staticlib/libcapi.a -o target/short && target/short */
#include <stdint.h>
#include <stdio.h>
#include "zovunelith.h"

/* The card of this motorcycle, and its marks while nothing is hidden. */
enum { M = 6, N = 32, T = 2, OMEGA = 5 };
static const zov_elem H[N] = {39, 49, 32, 13, 20, 40, 17, 2, 47, 3, 43, 51, 63, 60, 46, 34,
                              61, 44, 55, 5, 15, 22, 29, 27, 48, 16, 31, 54, 21, 10, 25, 23};
static const uint8_t NOTHING[N] = {0};

/* The fitter's marks: of the twenty message columns six are sent, beside all check columns. */
enum { WIRES = 18 };
static const uint8_t HIDDEN[N] = {0, 0, 0, 0, 0, 0, 0, 0, 0, 0, 0, 0, 0, 1, 1, 0,
                                  1, 1, 0, 1, 1, 0, 1, 1, 0, 1, 1, 0, 1, 1, 1, 1};

static const char *const GEARS[] = {"neutral", "first", "second", "third", "fourth", "fifth", "sixth", "high neutral"};
static const char *const LAMPS[] = {"dark", "green", "amber"};

static void show(const char *what, const uint8_t *bits, int length) {
    printf("  %-9s", what);
    for (int place = 0; place < length; place++)
        putchar('0' + bits[place]);
    putchar('\n');
}

int main(void) {
    uint8_t roles[N], word[WIRES], repaired[WIRES];
    int32_t k = zov_roles(M, N, T, OMEGA, H, N, NOTHING, N, roles, N);
    if (k < 0) {
        fprintf(stderr, "the card is refused by %d\n", -k);
        return 1;
    }
    printf("a card of %d places, message bits: %d; a place of role 1 may be hidden\n", N, k);
    show("roles", roles, N);

    k = zov_roles(M, N, T, OMEGA, H, N, HIDDEN, N, roles, N);
    if (k < 0) {
        fprintf(stderr, "the marks are refused by %d\n", -k);
        return 1;
    }
    printf("for a sender of %d wires, message bits: %d\n", WIRES, k);
    show("hidden", HIDDEN, N);

    int32_t written = zov_write_row(M, N, T, OMEGA, H, N, HIDDEN, N, 2, 2, word, WIRES);
    if (written < 0) {
        fprintf(stderr, "the row is refused by %d\n", -written);
        return 1;
    }
    printf("second, amber, with the bits of wires 4 and 13 turned\n");
    show("sent", word, WIRES);
    word[4] ^= 1;
    word[13] ^= 1;
    show("received", word, WIRES);
    int32_t read = zov_read_row(M, N, T, OMEGA, H, N, HIDDEN, N, word, WIRES, repaired, WIRES);
    if (read < 0) {
        fprintf(stderr, "the word is refused by %d\n", -read);
        return 1;
    }
    printf("  read     %s, %s (repaired bits: %d)\n", GEARS[read % 8], LAMPS[read / 8 % 4], read / 32);

    const uint8_t slip[N] = {1};
    printf("place 0 hidden, a check column: refused by %d\n", -zov_roles(M, N, T, OMEGA, H, N, slip, N, roles, N));
    int32_t same = zov_same(M, N, T, OMEGA, H, N, HIDDEN, N, M, N, T, OMEGA, H, N, NOTHING, N);
    printf("with these marks and with nothing hidden: %s\n", same == 1 ? "one card" : "two cards");
    return 0;
}
