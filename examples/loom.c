/* A loom with fewer wires than its code is long: a selection of nine of the code's sixteen blocks, each with a shift.
 * The program shows what the fitter is told about the loom, a row that it carries, and two slips that are refused.
 *
 *     cc -Iinclude examples/loom.c target/staticlib/libcapi.a -o target/loom && target/loom */
#include <stdint.h>
#include <stdio.h>
#include "zovunelith.h"

/* The card of this motorcycle. */
enum { M = 6, N = 32, T = 2, OMEGA = 5 };
static const zov_elem H[N] = {39, 49, 32, 13, 20, 40, 17, 2, 47, 3, 43, 51, 63, 60, 46, 34,
                              61, 44, 55, 5, 15, 22, 29, 27, 48, 16, 31, 54, 21, 10, 25, 23};

/* The blocks that the loom has wires for, in the order of its plug, and the shift of each. Nothing is hidden. */
enum { BLOCKS = 9, WIRES = BLOCKS * T };
static const uint32_t BLOCK[BLOCKS] = {12, 3, 0, 7, 15, 9, 4, 1, 10};
static const uint32_t SHIFT[BLOCKS] = {0, 1, 1, 0, 0, 1, 0, 0, 1};
static const uint8_t HIDDEN[WIRES] = {0};
#define LOOM M, N, T, OMEGA, H, N, BLOCK, BLOCKS, SHIFT, BLOCKS, HIDDEN, WIRES

static const char *const GEARS[] = {"neutral", "first", "second", "third", "fourth", "fifth", "sixth", "high neutral"};
static const char *const LAMPS[] = {"dark", "green", "amber"};

static void show(const char *what, const uint8_t *bits) {
    printf("  %-9s", what);
    for (int wire = 0; wire < WIRES; wire++)
        putchar('0' + bits[wire]);
    putchar('\n');
}

int main(void) {
    uint8_t roles[WIRES], word[WIRES], repaired[WIRES];
    int32_t k = zov_selection_roles(LOOM, roles, WIRES);
    if (k < 0) {
        fprintf(stderr, "the card or the selection is refused by %d\n", -k);
        return 1;
    }
    printf("a loom of %d wires, message bits: %d\n", WIRES, k);
    show("roles", roles);

    int32_t written = zov_selection_write_row(LOOM, 2, 2, word, WIRES);
    if (written < 0) {
        fprintf(stderr, "the row is refused by %d\n", -written);
        return 1;
    }
    printf("second, amber, with the bits of wires 4 and 11 turned\n");
    show("sent", word);
    word[4] ^= 1;
    word[11] ^= 1;
    show("received", word);
    int32_t read = zov_selection_read_row(LOOM, word, WIRES, repaired, WIRES);
    if (read < 0) {
        fprintf(stderr, "the word is refused by %d\n", -read);
        return 1;
    }
    printf("  read     %s, %s (repaired bits: %d)\n", GEARS[read % 8], LAMPS[read / 8 % 4], read / 32);

    const uint32_t two[2] = {12, 3}, twice[2] = {12, 12}, shifts[2] = {0, 1}, too_large[2] = {0, T};
    printf("block 12 named twice: refused by %d\n",
           -zov_selection_roles(M, N, T, OMEGA, H, N, twice, 2, shifts, 2, HIDDEN, 2 * T, roles, 2 * T));
    printf("a shift of %d: refused by %d\n", T,
           -zov_selection_roles(M, N, T, OMEGA, H, N, two, 2, too_large, 2, HIDDEN, 2 * T, roles, 2 * T));
    return 0;
}
