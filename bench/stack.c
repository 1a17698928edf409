/* The stack that each call uses, at the longest words. Each call is made in a thread of its own, on a stack that the
 * thread paints below itself before; the lowest byte that lost its paint tells. Everything is bound before the program
 * starts (-z now), so that no binding is counted.
 *
 *     cc -O2 -Iinclude bench/stack.c target/staticlib/libcapi.a -lpthread -Wl,-z,now -o target/stack && target/stack */
#include <pthread.h>
#include <stdint.h>
#include <stdio.h>
#include <stdlib.h>
#include <string.h>
#include "zovunelith.h"

enum { M = 16, N = 512, T = 16, STACK = 1 << 20, PAINT = 0xA5, MARGIN = 96 };

static zov_elem h[N], roots[N], support[N], block[N], syndrome[T];
static uint8_t roles[N], message[N], word[N], received[N], repaired[N];

/* The code, with marks that hide one message column: that may ask for more than where nothing is hidden. */
enum { SENT = N - 1 };
static uint8_t hidden[N];
#define CODE M, N, T, 0, h, N, hidden, N

/* Two lines of a sheet and the 0 that ends a string; the longest listing. */
static char text[(4 * 6 + 1) + (N * 6 + 1) + 1], listing[(6 * 6 + 1) + N * (4 * 6 + 1)];
static size_t text_length;
static int k;

/* The essence of the signature; N is 2 to the power of VALUES - 1. */
enum { VALUES = 10 };
static zov_elem essence[VALUES];

/* A ride whose steps are a row with T bits turned. */
enum { STEPS = 3 };
static const uint8_t gears[STEPS] = {1, 1, 1}, lamps[STEPS] = {0, 0, 0};
static uint8_t turned[STEPS * SENT];
static uint32_t counts[4];

/* As many senders as there may be. The calls are made in their order: the start, the offer of a row's word with T bits
 * turned, and the round that repairs it. */
enum { SENDERS = 8 };
static uint8_t waiting[SENDERS], words[SENDERS * SENT], handed[SENDERS * SENT];
static uint32_t next;
static int32_t answers[SENDERS];
#define DASH CODE, SENDERS, SENDERS

/* A selection of CHOSEN blocks, with one message column hidden; the number of those that are sent, and a row's word
 * with T bits turned. */
enum { CHOSEN = 24, PLACES = CHOSEN * T, LENGTH = PLACES - 1 };
static uint32_t blocks[CHOSEN], shifts[CHOSEN];
static int selected_k;
static uint8_t selected_hidden[PLACES], selected_received[LENGTH];
#define SELECTION M, N, T, 0, h, N, blocks, CHOSEN, shifts, CHOSEN, selected_hidden, PLACES

/* Brackets as deep as they nest, with a sum and a product under way around each; every operation in the innermost. */
#define OPEN "A+B*("
static const char formula[] = OPEN OPEN OPEN OPEN OPEN OPEN OPEN OPEN "A+B*C/D'))))))))";

static int32_t field_sum(void) { return zov_field_sum(M, 3, 5); }
static int32_t field_product(void) { return zov_field_product(M, 3, 5); }
static int32_t field_inverse(void) { return zov_field_inverse(M, 3); }
static int32_t block_sum(void) { return zov_block_sum(M, h, N, h, N, block, N); }
static int32_t block_product(void) { return zov_block_product(M, h, N, h, N, block, N); }
static int32_t block_inverse(void) { return zov_block_inverse(M, h, N, block, N); }
static int32_t block_formula(void) {
    return zov_formula(M, (const uint8_t *)formula, strlen(formula), h, N, h, N, h, N, h, N, block, N);
}
static int32_t check(void) { return zov_check(CODE, roots, N, support, N); }
static int32_t same(void) { return zov_same(CODE, CODE); }
static int32_t code_essence(void) { return zov_essence(M, h, N, essence, VALUES); }
static int32_t essence_signature(void) { return zov_signature(M, essence, VALUES, block, N); }
static int32_t code_roles(void) { return zov_roles(CODE, roles, N); }
static int32_t word_syndrome(void) { return zov_syndrome(CODE, received, SENT, syndrome, T); }
static int32_t encode(void) { return zov_encode(CODE, message, k, word, SENT); }
static int32_t word_message(void) { return zov_message(CODE, word, SENT, message, k); }
static int32_t repair(void) { return zov_repair(CODE, received, SENT, repaired, SENT); }
static int32_t write_row(void) { return zov_write_row(CODE, 1, 0, word, SENT); }
static int32_t read_row(void) { return zov_read_row(CODE, received, SENT, repaired, SENT); }
static int32_t ride(void) {
    return zov_ride(CODE, gears, STEPS, lamps, STEPS, turned, STEPS * SENT, counts, 4);
}
static int32_t senders_start(void) { return zov_senders_start(DASH, waiting, SENDERS, &next, 1); }
static int32_t senders_offer(void) {
    return zov_senders_offer(DASH, 0, received, SENT, waiting, SENDERS, words, SENDERS * SENT);
}
static int32_t senders_round(void) {
    return zov_senders_round(DASH, waiting, SENDERS, words, SENDERS * SENT, &next, 1, answers, SENDERS,
                             handed, SENDERS * SENT);
}
static int32_t selection_roles(void) { return zov_selection_roles(SELECTION, roles, PLACES); }
static int32_t selection_syndrome(void) {
    return zov_selection_syndrome(SELECTION, selected_received, LENGTH, syndrome, T);
}
static int32_t selection_encode(void) { return zov_selection_encode(SELECTION, message, selected_k, word, LENGTH); }
static int32_t selection_message(void) { return zov_selection_message(SELECTION, word, LENGTH, message, selected_k); }
static int32_t selection_repair(void) {
    return zov_selection_repair(SELECTION, selected_received, LENGTH, repaired, LENGTH);
}
static int32_t selection_write_row(void) { return zov_selection_write_row(SELECTION, 1, 0, word, LENGTH); }
static int32_t selection_read_row(void) {
    return zov_selection_read_row(SELECTION, selected_received, LENGTH, repaired, LENGTH);
}
static int32_t sheet(void) {
    return zov_sheet((const uint8_t *)text, text_length, (uint8_t *)listing, sizeof listing);
}

static const struct call {
    const char *name;
    int32_t (*made)(void);
} CALLS[] = {
    {"zov_field_sum", field_sum},     {"zov_field_product", field_product}, {"zov_field_inverse", field_inverse},
    {"zov_block_sum", block_sum},     {"zov_block_product", block_product}, {"zov_block_inverse", block_inverse},
    {"zov_formula", block_formula},
    {"zov_check", check},             {"zov_same", same},
    {"zov_essence", code_essence},    {"zov_signature", essence_signature},
    {"zov_roles", code_roles},        {"zov_syndrome", word_syndrome},      {"zov_encode", encode},
    {"zov_message", word_message},    {"zov_repair", repair},
    {"zov_write_row", write_row},     {"zov_read_row", read_row},           {"zov_ride", ride},
    {"zov_senders_start", senders_start},
    {"zov_senders_offer", senders_offer},
    {"zov_senders_round", senders_round},
    {"zov_selection_roles", selection_roles},
    {"zov_selection_syndrome", selection_syndrome},
    {"zov_selection_encode", selection_encode},
    {"zov_selection_message", selection_message},
    {"zov_selection_repair", selection_repair},
    {"zov_selection_write_row", selection_write_row},
    {"zov_selection_read_row", selection_read_row},
    {"zov_sheet", sheet},
};

/* A call on its stack, and what it used of it. */
struct trial {
    const struct call *call;
    volatile uint8_t *stack;
    size_t used;
};

static void *run(void *argument) {
    struct trial *trial = argument;
    volatile uint8_t *top = __builtin_frame_address(0);
    top -= MARGIN;
    for (volatile uint8_t *byte = trial->stack; byte < top; byte++)
        *byte = PAINT;
    int32_t value = trial->call->made();
    if (value < 0) {
        fprintf(stderr, "%s is refused by %d\n", trial->call->name, -value);
        exit(1);
    }
    volatile uint8_t *lowest = trial->stack;
    while (lowest < top && *lowest == PAINT)
        lowest++;
    trial->used = MARGIN + (size_t)(top - lowest);
    return NULL;
}

static size_t used(const struct call *call) {
    struct trial trial = {call, aligned_alloc(4096, STACK), 0};
    pthread_attr_t attributes;
    pthread_t thread;
    if (pthread_attr_init(&attributes) || pthread_attr_setstack(&attributes, (void *)trial.stack, STACK) ||
        pthread_create(&thread, &attributes, run, &trial) || pthread_join(thread, NULL)) {
        fprintf(stderr, "no thread could be made\n");
        exit(1);
    }
    free((void *)trial.stack);
    return trial.used;
}

/* Marks the first of so many places that is a message column by the roles. */
static void hide_one(uint8_t *marks, int places) {
    int place = 0;
    while (place < places && roles[place] == 0)
        place++;
    if (place == places) {
        fprintf(stderr, "no message column can be hidden\n");
        exit(1);
    }
    marks[place] = 1;
}

int main(void) {
    for (int i = 0; i < N; i++)
        h[i] = (zov_elem)zov_field_inverse(M, N ^ i); /* 1/h_i is i with a further bit set: an accepted signature */
    code_essence();
    for (int i = 0; i < CHOSEN; i++) {
        blocks[i] = N / T - 1 - i;
        shifts[i] = i % T;
    }
    selection_roles();
    hide_one(selected_hidden, PLACES);
    selected_k = selection_roles();
    selection_write_row();
    memcpy(selected_received, word, LENGTH);
    for (int i = 0; i < T; i++)
        selected_received[i * CHOSEN] ^= 1;
    code_roles();
    hide_one(hidden, N);
    k = code_roles();
    write_row();
    memcpy(received, word, SENT);
    for (int i = 0; i < T; i++)
        received[i * (N / T)] ^= 1;
    for (int i = 0; i < STEPS * SENT; i++)
        turned[i] = i % SENT % (N / T) == 0; /* as received */
    text_length = sprintf(text, "%6d%6d%6d%6d\n", M, N, T, 0);
    for (int i = 0; i < N; i++)
        text_length += sprintf(text + text_length, "%6d", h[i]);
    text_length += sprintf(text + text_length, "\n");

    printf("| call | stack, bytes |\n|---|---|\n");
    for (size_t i = 0; i < sizeof CALLS / sizeof *CALLS; i++)
        printf("| `%s` | %zu |\n", CALLS[i].name, used(&CALLS[i]));
    return 0;
}
