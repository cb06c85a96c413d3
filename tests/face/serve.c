/* The archive behind a pipe, so that another program can call it: a request on standard input, a reply on standard output, until
 * the input ends. All numbers have 8 bytes, low byte first.
 *
 * request  call (the place of its name in `calls` below), set; then for each buffer, inputs before outputs: its length, 16 guard bytes, its
 *          elements, 16 guard bytes
 * reply    number, place (a half: start, length); then for each buffer, as it stands after the call: guard bytes, elements, guard bytes
 */
#include "ringline.h"
#include <stdio.h>

enum { GUARD = 16, CONTENT = 8192, BUFFERS = 6, WORD = 8 };

/* the product, the transform, its reverse, make, r-image, seal, open-1, open-2, open-3, the f half, the 1/h half */
static const struct { size_t buffers, width; } calls[] = {{3, 2}, {2, 2}, {2, 2}, {3, 1}, {2, 1}, {6, 1}, {4, 1}, {3, 1}, {3, 1}, {1, 1}, {1, 1}};

/* rooms of 16-bit numbers, so that lists are aligned */
static uint16_t rooms[BUFFERS][(GUARD + CONTENT + GUARD) / 2];
static size_t lengths[BUFFERS];

static int get_word(size_t *word) {
    uint8_t bytes[WORD];
    if (fread(bytes, 1, WORD, stdin) != WORD) return 0;
    *word = 0;
    for (size_t i = WORD; i > 0; i--) *word = *word << 8 | bytes[i - 1];
    return 1;
}

static void put_word(size_t word) {
    for (size_t i = 0; i < WORD; i++) putchar((int)(word >> (8 * i) & 255));
}

static uint8_t *bytes(size_t i) { return (uint8_t *)rooms[i] + GUARD; }
static uint16_t *numbers(size_t i) { return rooms[i] + GUARD / 2; }

static rl_answer as_answer(rl_part part) {
    rl_answer answer = {part.start, part.length};
    return answer;
}

#define N(i) numbers(i), lengths[i]
#define B(i) bytes(i), lengths[i]
static rl_answer called(size_t call, size_t set) {
    switch (call) {
    case 0: return rl_product(set, N(0), N(1), N(2));
    case 1: return rl_transform(set, N(0), N(1));
    case 2: return rl_reverse(set, N(0), N(1));
    case 3: return rl_make(set, B(0), B(1), B(2));
    case 4: return rl_r_image(set, B(0), B(1));
    case 5: return rl_seal(set, B(0), B(1), B(2), B(3), B(4), B(5));
    case 6: return rl_open_1(set, B(0), B(1), B(2), B(3));
    case 7: return rl_open_2(set, B(0), B(1), B(2));
    case 8: return rl_open_3(set, B(0), B(1), B(2));
    case 9: return as_answer(rl_f_half(set, B(0)));
    default: return as_answer(rl_h_half(set, B(0)));
    }
}

int main(void) {
    size_t call, set;
    while (get_word(&call)) {
        if (call >= sizeof calls / sizeof *calls || !get_word(&set)) return 1;
        size_t width = calls[call].width;
        for (size_t i = 0; i < calls[call].buffers; i++) {
            if (!get_word(&lengths[i]) || lengths[i] > CONTENT / width) return 1;
            size_t room = GUARD + lengths[i] * width + GUARD;
            if (fread(rooms[i], 1, room, stdin) != room) return 1;
        }
        rl_answer answer = called(call, set);
        put_word(answer.number);
        put_word(answer.place);
        for (size_t i = 0; i < calls[call].buffers; i++) fwrite(rooms[i], 1, GUARD + lengths[i] * width + GUARD, stdout);
        if (fflush(stdout) != 0) return 1;
    }
    return 0;
}
