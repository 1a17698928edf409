/* A dash that listens to three senders on one card and repairs one word a round. Code words are handed out at once and
 * the others are repaired in turn, so that a word leaves within three rounds, whatever the others send. The wire is
 * played here: what the senders offer before each round, and the places that the spark turns.
 *
 *     cc -Iinclude examples/senders.c target/staticlib/libcapi.a -o target/senders && target/senders */
#include <stdint.h>
#include <stdio.h>
#include <stdlib.h>
#include "zovunelith.h"

/* The card of this motorcycle, which hides nothing. */
enum { M = 5, N = 16, T = 2, OMEGA = 24 };
static const zov_elem H[N] = {12, 8, 10, 22, 26, 9, 16, 21, 14, 5, 17, 4, 30, 23, 25, 31};
static const uint8_t HIDDEN[N] = {0};

/* Who sends, by number, and how many words a round repairs. */
enum { SENDERS = 3, REPAIRS = 1 };
static const char *const NAMES[SENDERS] = {"gear box", "handlebar", "side stand"};

static const char *const GEARS[] = {"neutral", "first", "second", "third", "fourth", "fifth", "sixth", "high neutral"};
static const char *const LAMPS[] = {"dark", "green", "amber"};

/* What is offered before a round, and what the spark does to it: the marks of the turned places, lowest first. */
enum { ROUNDS = 6 };
struct offer {
    int round;
    uint32_t sender, gear, lamp;
    uint16_t turned;
};
static const struct offer OFFERS[] = {
    {1, 0, 0, 1, 0x0000}, {1, 1, 1, 0, 0x0101}, {1, 2, 0, 2, 0x0008},
    {2, 0, 1, 0, 0x01C0}, {2, 1, 2, 0, 0x0008}, {2, 2, 0, 0, 0x0000},
    {3, 2, 0, 0, 0x8001}, {4, 0, 1, 0, 0x0000}, {5, 0, 3, 2, 0x0210},
};

/* The value of a call that is not to be refused. */
static int32_t accepted(int32_t value) {
    if (value < 0) {
        fprintf(stderr, "a call is refused by %d\n", -value);
        exit(1);
    }
    return value;
}

int main(void) {
    uint8_t waiting[SENDERS], words[SENDERS * N], handed[SENDERS * N], word[N], repaired[N];
    uint32_t next;
    int32_t answers[SENDERS];
    int first[SENDERS] = {0}, longest = 0; /* the round after a word's arrival, and the most rounds that one took */
    accepted(zov_senders_start(M, N, T, OMEGA, H, N, HIDDEN, N, SENDERS, REPAIRS, waiting, SENDERS, &next, 1));
    printf("senders: %d, repairs in a round: %d, so that a word leaves within %d rounds\n", SENDERS, REPAIRS,
           (SENDERS + REPAIRS - 1) / REPAIRS);
    for (int round = 1; round <= ROUNDS; round++) {
        for (size_t i = 0; i < sizeof OFFERS / sizeof *OFFERS; i++) {
            const struct offer *offer = &OFFERS[i];
            if (offer->round != round)
                continue;
            accepted(zov_write_row(M, N, T, OMEGA, H, N, HIDDEN, N, offer->gear, offer->lamp, word, N));
            for (int place = 0; place < N; place++)
                word[place] ^= offer->turned >> place & 1;
            int32_t offered = zov_senders_offer(M, N, T, OMEGA, H, N, HIDDEN, N, SENDERS, REPAIRS, offer->sender,
                                                word, N, waiting, SENDERS, words, SENDERS * N);
            if (offered < 0)
                printf("%s offers %s, %s: refused by %d\n", NAMES[offer->sender], GEARS[offer->gear],
                       LAMPS[offer->lamp], -offered);
            else
                first[offer->sender] = round;
        }

        accepted(zov_senders_round(M, N, T, OMEGA, H, N, HIDDEN, N, SENDERS, REPAIRS, waiting, SENDERS,
                                   words, SENDERS * N, &next, 1, answers, SENDERS, handed, SENDERS * N));
        printf("round %d\n", round);
        for (int sender = 0; sender < SENDERS; sender++) {
            printf("  %-12s", NAMES[sender]);
            if (answers[sender] == ZOV_NONE) {
                printf("nothing\n");
                continue;
            }
            if (answers[sender] < 0) {
                printf("too far (%d)", -answers[sender]);
            } else {
                const uint8_t *part = handed + sender * N;
                int32_t read = accepted(zov_read_row(M, N, T, OMEGA, H, N, HIDDEN, N, part, N, repaired, N));
                printf("%s, %s (repaired bits: %d)", GEARS[read % 8], LAMPS[read / 8 % 4], answers[sender]);
            }
            int rounds = round - first[sender] + 1;
            printf(", rounds: %d\n", rounds);
            if (rounds > longest)
                longest = rounds;
        }
    }
    printf("the longest wait: %d rounds\n", longest);
    return 0;
}
