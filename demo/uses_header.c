/* Uses every call and every constant of kelontsira.h, as C99 and as C++: runs examples of document 01 and one refusal of each number, and
 * looks that a refusal changes nothing. Prints 'N checks, M failed'; the exit status is 0 when none failed. */
#include "kelontsira.h"
#include "kelontsira.h" /* twice does no harm */

#include <math.h>
#include <stdio.h>
#include <string.h>

static int checks = 0;
static int failed = 0;

static void check(int good, int line, const char *what)
{
    checks++;
    if (!good) {
        failed++;
        printf("uses_header.c:%d: failed: %s\n", line, what);
    }
}

#define CHECK(what) check((what), __LINE__, #what)

/* ---- Buffers with room for 3 by 3 or 5 by 4, and one entry more, which no call may touch */

enum { NINE = 9, TWENTY = 20, ROOM = 21, WIDE = 640 };

enum { KEPT = 0xa5 }; /* what the bytes of every buffer are before a call */

static struct {
    uint8_t out[ROOM];
    float work[ROOM];
    float magnitude[ROOM];
    int16_t gx[ROOM];
    int16_t gy[ROOM];
    uint8_t blurred[ROOM];
    uint8_t marks[ROOM];
    uint32_t stack[ROOM];
    size_t place;
    size_t width;
    size_t height;
    size_t pending;
    size_t takes;
    size_t count;
} lent;

static void renew(void)
{
    memset(&lent, KEPT, sizeof lent);
}

/* Whether `size` bytes are all `value`. */
static int all(const void *bytes, uint8_t value, size_t size)
{
    const uint8_t *b = (const uint8_t *)bytes;
    size_t i;
    for (i = 0; i < size; i++) {
        if (b[i] != value) {
            return 0;
        }
    }
    return 1;
}

static int unchanged(void)
{
    return all(&lent, KEPT, sizeof lent);
}

/* Whether the first entries of a buffer are zero and the last one is as it was. */
#define CLEARED(buffer) (all((buffer), 0, sizeof(buffer) - sizeof *(buffer)) && all(&(buffer)[ROOM - 1], KEPT, sizeof *(buffer)))

/* ---- Pictures */

static const uint8_t ROW[3] = {10, 20, 30};
static const uint8_t HUNDRED[NINE] = {100, 100, 100, 100, 101, 100, 100, 100, 100};
static const uint8_t STEP[TWENTY] = {0, 0, 50, 50, 50, 0, 0, 50, 50, 50, 0, 0, 50, 50, 50, 0, 0, 50, 50, 50};
static const float MAGNITUDES[NINE] = {120, 60, 0, 0, 0, 60, 60, 0, 0};
static const float ONE_TAP[1] = {1};
static const float SHIFT[3] = {1, 0, 0};

static uint8_t wide_row[WIDE];
static uint8_t wide_out[WIDE];
static float wide_work[WIDE];

/* ---- The calls, with what they are lent */

static uint8_t resolve(int64_t coord, size_t side, uint8_t border)
{
    return kelontsira_resolve_coord(coord, side, border, &lent.place);
}

static uint8_t shift_kernel(uint8_t border)
{
    return kelontsira_apply_kernel(ROW, 3, 3, 1, 3, 1, SHIFT, 3, border, lent.out, ROOM);
}

static uint8_t shift_separable(uint8_t border)
{
    return kelontsira_apply_separable_kernel(ROW, 3, 3, 1, 3, 1, SHIFT, 3, ONE_TAP, 1, border, lent.work, ROOM, lent.out, ROOM);
}

static uint8_t gaussian(uint8_t border)
{
    return kelontsira_gaussian_blur(STEP, TWENTY, 5, 4, ONE_TAP, 1, border, lent.work, ROOM, lent.out, ROOM);
}

static uint8_t box(uint8_t border)
{
    return kelontsira_box_blur(STEP, TWENTY, 5, 4, border, lent.work, ROOM, lent.out, ROOM);
}

static uint8_t sharpen(uint8_t border)
{
    return kelontsira_sharpen(HUNDRED, NINE, 3, 3, border, lent.out, ROOM);
}

static uint8_t median(size_t window, uint8_t border)
{
    return kelontsira_median(HUNDRED, NINE, 3, 3, window, border, lent.out, ROOM);
}

static uint8_t sobel(uint8_t border)
{
    return kelontsira_sobel(STEP, TWENTY, 5, 4, border, lent.out, ROOM);
}

static uint8_t gradients(uint8_t border)
{
    return kelontsira_sobel_gradients(STEP, TWENTY, 5, 4, border, lent.gx, ROOM, lent.gy, ROOM);
}

static uint8_t start(float low, float high)
{
    return kelontsira_start(MAGNITUDES, NINE, 3, 3, low, high, lent.marks, ROOM, lent.stack, ROOM, &lent.width, &lent.height,
                            &lent.pending);
}

/* How many of the walk's nine marks are this one. */
static size_t marked(uint8_t mark)
{
    size_t count = 0, i;
    for (i = 0; i < NINE; i++) {
        count += lent.marks[i] == mark;
    }
    return count;
}

static uint8_t slice(size_t budget)
{
    return kelontsira_slice(&lent.width, &lent.height, &lent.pending, budget, lent.marks, ROOM, lent.stack, ROOM, &lent.takes);
}

static uint8_t map_of_walk(void)
{
    return kelontsira_map(lent.width, lent.height, lent.pending, lent.marks, ROOM, lent.stack, ROOM, lent.out, ROOM);
}

static uint8_t canny(size_t width, size_t length, const float *taps, size_t count, float low, float high, size_t room)
{
    return kelontsira_canny(STEP, length, width, 4, taps, count, low, high, lent.work, ROOM, lent.magnitude, ROOM, lent.gx, ROOM,
                            lent.gy, ROOM, lent.blurred, ROOM, lent.marks, ROOM, lent.stack, ROOM, lent.out, room, &lent.count);
}

static uint8_t blur_wide(size_t width, const float *taps, size_t count)
{
    return kelontsira_gaussian_blur(wide_row, width, width, 1, taps, count, KELONTSIRA_CLAMP, wide_work, WIDE, wide_out, WIDE);
}

/* ---- Document 01's examples */

static void try_resolver(void)
{
    CHECK(resolve(-1, 3, KELONTSIRA_MIRROR) == KELONTSIRA_ACCEPTED && lent.place == 1);
    CHECK(resolve(-5, 3, KELONTSIRA_MIRROR) == KELONTSIRA_ACCEPTED && lent.place == 1);
    CHECK(resolve(3, 3, KELONTSIRA_MIRROR) == KELONTSIRA_ACCEPTED && lent.place == 1);
    CHECK(resolve(4, 3, KELONTSIRA_MIRROR) == KELONTSIRA_ACCEPTED && lent.place == 0);
    CHECK(resolve(7, 1, KELONTSIRA_MIRROR) == KELONTSIRA_ACCEPTED && lent.place == 0);
    CHECK(resolve(9, 3, KELONTSIRA_CLAMP) == KELONTSIRA_ACCEPTED && lent.place == 2);
    CHECK(resolve(9, 3, KELONTSIRA_ZERO) == KELONTSIRA_ACCEPTED && lent.place == 3);
}

/* The row 10 20 30 moved one to the left, by both kinds of kernel. */
static void try_shift(uint8_t border, uint8_t last)
{
    const uint8_t wanted[4] = {20, 30, last, KEPT};
    renew();
    CHECK(shift_kernel(border) == KELONTSIRA_ACCEPTED && memcmp(lent.out, wanted, 4) == 0);
    renew();
    CHECK(shift_separable(border) == KELONTSIRA_ACCEPTED && memcmp(lent.out, wanted, 4) == 0);
    CHECK(all(lent.work, 0, 3 * sizeof(float)) && all(&lent.work[3], KEPT, sizeof(float)));
}

static void try_filters(void)
{
    static const uint8_t boxed[5] = {0, 17, 33, 50, 50};
    static const uint8_t edges[5] = {0, 200, 200, 0, 0};
    renew();
    CHECK(gaussian(KELONTSIRA_CLAMP) == KELONTSIRA_ACCEPTED && memcmp(lent.out, STEP, TWENTY) == 0);
    CHECK(CLEARED(lent.work) && lent.out[TWENTY] == KEPT);
    renew();
    CHECK(box(KELONTSIRA_CLAMP) == KELONTSIRA_ACCEPTED && memcmp(lent.out, boxed, 5) == 0 && memcmp(lent.out + 15, boxed, 5) == 0);
    CHECK(CLEARED(lent.work) && lent.out[TWENTY] == KEPT);
    renew();
    CHECK(sharpen(KELONTSIRA_CLAMP) == KELONTSIRA_ACCEPTED && lent.out[4] == 105 && lent.out[9] == KEPT);
    CHECK(lent.out[1] == 99 && lent.out[3] == 99 && lent.out[5] == 99 && lent.out[7] == 99);
    renew();
    CHECK(median(3, KELONTSIRA_CLAMP) == KELONTSIRA_ACCEPTED && all(lent.out, 100, NINE) && lent.out[9] == KEPT);
    renew();
    CHECK(median(KELONTSIRA_MAX_WINDOW, KELONTSIRA_ZERO) == KELONTSIRA_ACCEPTED && all(lent.out, 0, NINE));
    renew();
    CHECK(sobel(KELONTSIRA_CLAMP) == KELONTSIRA_ACCEPTED && memcmp(lent.out, edges, 5) == 0 && lent.out[TWENTY] == KEPT);
}

static void try_numbers(void)
{
    CHECK(kelontsira_sobel_byte(2) == 1);
    CHECK(kelontsira_sobel_byte(3) == 2);
    CHECK(kelontsira_sobel_byte(64770) == 254);
    CHECK(kelontsira_sobel_byte(64771) == 255);
    CHECK(kelontsira_magnitude_of(2) == 11863283.0f / 8388608.0f);
    CHECK(kelontsira_magnitude_of(65025) == 255.0f);
    CHECK(kelontsira_sector(17, 7) == 0);
    CHECK(kelontsira_sector(7, 3) == 45);
    CHECK(kelontsira_sector(7, -3) == 135);
    CHECK(kelontsira_sector(2, -5) == 90);
    CHECK(kelontsira_sector(0, 0) == 0);
}

static void try_gradient(void)
{
    float out[TWENTY];
    renew();
    CHECK(gradients(KELONTSIRA_CLAMP) == KELONTSIRA_ACCEPTED && lent.gx[1] == 200 && lent.gx[3] == 0 && all(lent.gy, 0, 2 * TWENTY));
    CHECK(kelontsira_gradient_magnitude(lent.gx, TWENTY, lent.gy, TWENTY, 5, 4, lent.magnitude, ROOM) == KELONTSIRA_ACCEPTED);
    CHECK(lent.magnitude[0] == 0.0f && lent.magnitude[1] == 200.0f && all(&lent.magnitude[TWENTY], KEPT, sizeof(float)));
    CHECK(kelontsira_non_maximum_suppression(lent.magnitude, TWENTY, lent.gx, TWENTY, lent.gy, TWENTY, 5, 4, out, TWENTY)
          == KELONTSIRA_ACCEPTED);
    CHECK(out[1] == 0.0f && out[5] == 0.0f && out[6] == 200.0f && out[7] == 200.0f && out[8] == 0.0f && out[16] == 0.0f);
}

static void try_walk(void)
{
    static const uint8_t wanted[NINE] = {KELONTSIRA_EDGE, KELONTSIRA_EDGE, 0, 0, 0, KELONTSIRA_EDGE, 0, 0, 0};
    renew();
    CHECK(start(50, 100) == KELONTSIRA_ACCEPTED && lent.width == 3 && lent.height == 3 && lent.pending == 1);
    CHECK(marked(KELONTSIRA_MARK_PENDING) == 1 && marked(KELONTSIRA_MARK_WEAK) == 3 && marked(KELONTSIRA_MARK_NONE) == 5);
    CHECK(slice(2) == KELONTSIRA_ACCEPTED && lent.takes == 2 && lent.pending == 1);
    CHECK(map_of_walk() == KELONTSIRA_REFUSED_PENDING && all(lent.out, KEPT, ROOM));
    CHECK(slice(5) == KELONTSIRA_ACCEPTED && lent.takes == 1 && lent.pending == 0);
    CHECK(marked(KELONTSIRA_MARK_FINISHED) == 3 && marked(KELONTSIRA_MARK_WEAK) == 1);
    CHECK(map_of_walk() == KELONTSIRA_ACCEPTED && memcmp(lent.out, wanted, NINE) == 0 && lent.out[NINE] == KEPT);
    CHECK(slice(1) == KELONTSIRA_ACCEPTED && lent.takes == 0);
    CHECK(start(0, 100) == KELONTSIRA_ACCEPTED && slice(9) == KELONTSIRA_ACCEPTED && lent.takes == 9 && lent.pending == 0);
    CHECK(start(0, 0) == KELONTSIRA_ACCEPTED && lent.pending == 9 && slice(9) == KELONTSIRA_ACCEPTED && lent.takes == 9);
}

static void try_run(void)
{
    static const uint8_t wanted[ROOM] = {0, 0, 0, 0, 0, 0, 255, 255, 0, 0, 0, 255, 255, 0, 0, 0, 0, 0, 0, 0, KEPT};
    renew();
    CHECK(canny(5, TWENTY, ONE_TAP, 1, 50, 100, ROOM) == KELONTSIRA_ACCEPTED && lent.count == 4);
    CHECK(memcmp(lent.out, wanted, ROOM) == 0);
    CHECK(CLEARED(lent.work) && CLEARED(lent.magnitude) && CLEARED(lent.gx) && CLEARED(lent.gy));
    CHECK(CLEARED(lent.blurred) && CLEARED(lent.marks) && CLEARED(lent.stack));
    renew();
    CHECK(canny(0, 0, ONE_TAP, 1, 0, KELONTSIRA_MAX_THRESHOLD, ROOM) == KELONTSIRA_ACCEPTED && lent.count == 0);
}

static void try_limits(void)
{
    float taps[KELONTSIRA_MAX_TAPS + 2];
    size_t i;
    for (i = 0; i < KELONTSIRA_MAX_TAPS + 2; i++) {
        taps[i] = 0.0f;
    }
    CHECK(blur_wide(KELONTSIRA_MAX_SIDE, taps, KELONTSIRA_MAX_TAPS) == KELONTSIRA_ACCEPTED);
    CHECK(blur_wide(KELONTSIRA_MAX_SIDE, taps, KELONTSIRA_MAX_TAPS + 2) == KELONTSIRA_REFUSED_COUNT);
    CHECK(blur_wide(KELONTSIRA_MAX_SIDE, taps, 2) == KELONTSIRA_REFUSED_COUNT);
    taps[0] = (float)NAN;
    CHECK(kelontsira_gaussian_blur(wide_row, WIDE, KELONTSIRA_MAX_SIDE + 1, 1, taps, 1, KELONTSIRA_CLAMP, wide_work, WIDE, wide_out, WIDE)
          == KELONTSIRA_REFUSED_SIDE);
    CHECK(blur_wide(KELONTSIRA_MAX_SIDE, taps, 1) == KELONTSIRA_REFUSED_WEIGHT);
    CHECK(kelontsira_apply_kernel(ROW, 3, 3, 1, KELONTSIRA_MAX_KERNEL + 2, 1, taps, KELONTSIRA_MAX_KERNEL + 2, KELONTSIRA_CLAMP, wide_out,
                                  WIDE) == KELONTSIRA_REFUSED_COUNT);
}

/* ---- Refusals, after which nothing is changed */

/* An unknown border comes before everything else. */
static void try_borders(uint8_t border)
{
    renew();
    CHECK(resolve(0, 0, border) == KELONTSIRA_REFUSED_BORDER && unchanged());
    CHECK(shift_kernel(border) == KELONTSIRA_REFUSED_BORDER && unchanged());
    CHECK(shift_separable(border) == KELONTSIRA_REFUSED_BORDER && unchanged());
    CHECK(gaussian(border) == KELONTSIRA_REFUSED_BORDER && unchanged());
    CHECK(box(border) == KELONTSIRA_REFUSED_BORDER && unchanged());
    CHECK(sharpen(border) == KELONTSIRA_REFUSED_BORDER && unchanged());
    CHECK(median(2, border) == KELONTSIRA_REFUSED_BORDER && unchanged());
    CHECK(sobel(border) == KELONTSIRA_REFUSED_BORDER && unchanged());
    CHECK(gradients(border) == KELONTSIRA_REFUSED_BORDER && unchanged());
}

static void try_refusals(void)
{
    static const float infinite[1] = {(float)INFINITY};
    renew();
    CHECK(resolve(0, 0, KELONTSIRA_ZERO) == KELONTSIRA_REFUSED_SIDE && unchanged());
    CHECK(canny(KELONTSIRA_MAX_SIDE + 1, TWENTY, infinite, 1, 9, 8, 0) == KELONTSIRA_REFUSED_SIDE && unchanged());
    CHECK(canny(5, TWENTY - 1, infinite, 2, 9, 8, 0) == KELONTSIRA_REFUSED_INPUT && unchanged());
    CHECK(canny(5, TWENTY, infinite, 0, 9, 8, 0) == KELONTSIRA_REFUSED_COUNT && unchanged());
    CHECK(canny(5, TWENTY, infinite, 1, 9, 256, 0) == KELONTSIRA_REFUSED_WEIGHT && unchanged());
    CHECK(canny(5, TWENTY, ONE_TAP, 1, 9, -1, 0) == KELONTSIRA_REFUSED_THRESHOLD && unchanged());
    CHECK(canny(5, TWENTY, ONE_TAP, 1, 9, 8, 0) == KELONTSIRA_REFUSED_ORDER && unchanged());
    CHECK(canny(5, TWENTY, ONE_TAP, 1, 8, 9, TWENTY - 1) == KELONTSIRA_REFUSED_ROOM && unchanged());
    CHECK(start(9, 8) == KELONTSIRA_REFUSED_ORDER && unchanged());
    CHECK(slice(1) == KELONTSIRA_REFUSED_SIDE && unchanged());
    CHECK(median(2, KELONTSIRA_CLAMP) == KELONTSIRA_REFUSED_COUNT && unchanged());
}

static void try_states(void)
{
    CHECK(start(50, 100) == KELONTSIRA_ACCEPTED);
    lent.takes = 77;
    CHECK(slice(0) == KELONTSIRA_REFUSED_BUDGET && lent.takes == 77 && lent.pending == 1);
    lent.marks[8] = 4;
    CHECK(slice(1) == KELONTSIRA_REFUSED_STATE && lent.takes == 77 && lent.pending == 1 && lent.marks[0] == 2);
    lent.pending = 10;
    CHECK(map_of_walk() == KELONTSIRA_REFUSED_STATE);
}

int main(void)
{
    renew();
    try_resolver();
    try_shift(KELONTSIRA_CLAMP, 30);
    try_shift(KELONTSIRA_MIRROR, 20);
    try_shift(KELONTSIRA_ZERO, 0);
    try_filters();
    try_numbers();
    try_gradient();
    try_walk();
    try_run();
    try_limits();
    try_borders(3);
    try_borders(255);
    try_refusals();
    try_states();
    printf("%d checks, %d failed\n", checks, failed);
    return failed != 0;
}
