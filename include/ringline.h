/* Key agreement for light buoys: the calls of libface.a (tests/archive face), for C and C++.
 *
 * A buffer is a pointer and a length, counted in numbers (uint16_t) or in bytes (uint8_t), in the order of document 01's table: inputs
 * before outputs. `set` is 576 or 1152; n stands for it below.
 *
 * - A pointer is never null, not even where its length is 0.
 * - No output may overlap another buffer. Inputs may.
 * - Any other set number, length and content is answered, and bad input refused: then every output holds what it held before the call.
 *
 * answer  given exactly when                                                   place
 * 0       done                                                                 0
 * 1       set is not 576 or 1152                                               0
 * 2       some buffer, input or output, hasn't its exact length                0
 * 3       a list number or packed group is above 3456                          the first, counted on through the inputs
 * 4       make: a slot of f or g is zero; lend another seed block              slot of f; n + slot of g; f first
 * 5       open-2: a mark is above 2                                            the first
 * 6       open-3: the images differ                                            0
 */
#ifndef RINGLINE_H
#define RINGLINE_H

#include <stddef.h>
#include <stdint.h>

#ifdef __cplusplus
extern "C" {
#endif

typedef struct {
    size_t number;
    size_t place;
} rl_answer;

/* A part of a lent private key: its first byte is key[start]. */
typedef struct {
    size_t start;
    size_t length;
} rl_part;

/* Lists of n numbers: the product folded by x^n = x^(n/2) - 1, the image of an element, the element of an image. */
rl_answer rl_product(size_t set, const uint16_t *a, size_t a_length, const uint16_t *b, size_t b_length, uint16_t *out, size_t out_length);
rl_answer rl_transform(size_t set, const uint16_t *a, size_t a_length, uint16_t *out, size_t out_length);
rl_answer rl_reverse(size_t set, const uint16_t *a, size_t a_length, uint16_t *out, size_t out_length);

/* Seed block, n/2 bytes; public key, 3n/2; private key, 3n. */
rl_answer rl_make(size_t set, const uint8_t *seed, size_t seed_length, uint8_t *public_key, size_t public_length, uint8_t *private_key,
                  size_t private_length);

/* H block, 32 + n/4; packed image of r, 3n/2, which the host hashes whole to the G block. */
rl_answer rl_r_image(size_t set, const uint8_t *hblock, size_t hblock_length, uint8_t *image, size_t image_length);

/* Public key; message, n/8; H block; G block, n/4; ciphertext, 3n/2; key, 32. */
rl_answer rl_seal(size_t set, const uint8_t *public_key, size_t public_length, const uint8_t *message, size_t message_length,
                  const uint8_t *hblock, size_t hblock_length, const uint8_t *gblock, size_t gblock_length, uint8_t *cipher,
                  size_t cipher_length, uint8_t *key, size_t key_length);

/* Private key, ciphertext; marks, n; packed image of r. */
rl_answer rl_open_1(size_t set, const uint8_t *private_key, size_t private_length, const uint8_t *cipher, size_t cipher_length,
                    uint8_t *marks, size_t marks_length, uint8_t *image, size_t image_length);

/* Marks, G block; message. */
rl_answer rl_open_2(size_t set, const uint8_t *marks, size_t marks_length, const uint8_t *gblock, size_t gblock_length, uint8_t *message,
                    size_t message_length);

/* Packed image of r, H block; key. */
rl_answer rl_open_3(size_t set, const uint8_t *image, size_t image_length, const uint8_t *hblock, size_t hblock_length, uint8_t *key,
                    size_t key_length);

/* The halves of a private key, the packed images of f and of 1/h. Start and length are 0 for an unknown set or another length than 3n. */
rl_part rl_f_half(size_t set, const uint8_t *private_key, size_t private_length);
rl_part rl_h_half(size_t set, const uint8_t *private_key, size_t private_length);

#ifdef __cplusplus
}
#endif

#endif
