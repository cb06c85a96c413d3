/* A unit and the desk ashore agree a key through include/ringline.h, set 576. The hash here is a toy: the host brings a real one. */
#include "ringline.h"
#include <stdio.h>
#include <string.h>

enum { N = 576, SEED = N / 2, PACKED = 3 * N / 2, PRIVATE = 3 * N, MESSAGE = N / 8, H = 32 + N / 4, G = N / 4, KEY = 32 };

static uint8_t seed[SEED], desk_public[PACKED], desk_private[PRIVATE], message[MESSAGE], cipher[PACKED], key[KEY];
static uint8_t hblock[H], gblock[G], image[PACKED], marks[N], opened[MESSAGE], opened_key[KEY];

static void toy_hash(const uint8_t *in, size_t length, uint8_t *out, size_t out_length) {
    uint32_t state = 2166136261u;
    for (size_t i = 0; i < length; i++) state = (state ^ in[i]) * 16777619u;
    for (size_t i = 0; i < out_length; i++) out[i] = (uint8_t)((state = state * 1664525u + 1013904223u) >> 24);
}

static int answered(const char *call, rl_answer answer) {
    printf("%s answers %zu, place %zu\n", call, answer.number, answer.place);
    return answer.number == 0;
}

int main(void) {
    uint8_t tries = 0;
    do { /* make answers 4 for 28 of 100 seed blocks: lend another one */
        toy_hash(&tries, 1, seed, SEED);
        tries++;
    } while (!answered("make", rl_make(N, seed, SEED, desk_public, PACKED, desk_private, PRIVATE)));
    memcpy(message, "fl(2) w 10s, from the first of the month", 40);
    toy_hash(message, MESSAGE, hblock, H);
    int done = answered("r-image", rl_r_image(N, hblock, H, image, PACKED));
    toy_hash(image, PACKED, gblock, G);
    done &= answered("seal", rl_seal(N, desk_public, PACKED, message, MESSAGE, hblock, H, gblock, G, cipher, PACKED, key, KEY));
    memset(image, 0, PACKED); /* the desk has the ciphertext and its private key, and no block yet */
    done &= answered("open-1", rl_open_1(N, desk_private, PRIVATE, cipher, PACKED, marks, N, image, PACKED));
    toy_hash(image, PACKED, gblock, G);
    done &= answered("open-2", rl_open_2(N, marks, N, gblock, G, opened, MESSAGE));
    toy_hash(opened, MESSAGE, hblock, H);
    done &= answered("open-3", rl_open_3(N, image, PACKED, hblock, H, opened_key, KEY));
    int same = done && memcmp(message, opened, MESSAGE) == 0 && memcmp(key, opened_key, KEY) == 0;
    puts(same ? "the keys are the same" : "NO KEY AGREED");
    return same ? 0 : 1;
}
