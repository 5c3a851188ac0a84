/* Measures what each call of kelontsira.h does to the machine's stack: how many bytes hold something of the picture afterwards, and how
 * deep it was written. firmware/check runs it; docs/FIRMWARE.md shows its table.
 *
 * Each call runs on a stack of its own, painted beforehand, on several pictures with all else alike, and on each picture twice with two
 * paints, so that it is seen which bytes are written. A written byte that differs from picture to picture holds something of the picture.
 * That is a measurement, not a proof. The table has the most over all tries; the depth counts what the call's arguments and the function
 * here that makes the call put on the stack too. */
#define _XOPEN_SOURCE 700
#include "kelontsira.h"

#include <stdio.h>
#include <stdlib.h>
#include <string.h>
#include <ucontext.h>

enum { MOST = 640 * 16, STACK = 1 << 16, PICTURES = 12, TAPS = KELONTSIRA_MAX_TAPS, WEIGHTS = 225 };

/* ---- What a call is lent */

static size_t width, height, size_of_kernel; /* the last is the taps, the kernel's side or the window */
static uint8_t border;

static uint8_t pixels[MOST], out[MOST], blurred[MOST], marks[MOST];
static float magnitude[MOST], work[MOST], suppressed[MOST], weights[WEIGHTS];
static int16_t gx[MOST], gy[MOST];
static uint32_t stack[MOST];
static size_t walk_width, walk_height, walk_pending, result;
static uint32_t sum_of_squares;
static int16_t one_gx, one_gy;

/* ---- The calls */

static void apply_kernel(void)
{
    kelontsira_apply_kernel(pixels, width * height, width, height, size_of_kernel, size_of_kernel, weights,
                            size_of_kernel * size_of_kernel, border, out, MOST);
}

static void apply_separable_kernel(void)
{
    kelontsira_apply_separable_kernel(pixels, width * height, width, height, size_of_kernel, size_of_kernel, weights, size_of_kernel,
                                      weights, size_of_kernel, border, work, MOST, out, MOST);
}

static void gaussian_blur(void)
{
    kelontsira_gaussian_blur(pixels, width * height, width, height, weights, size_of_kernel, border, work, MOST, out, MOST);
}

static void box_blur(void)
{
    kelontsira_box_blur(pixels, width * height, width, height, border, work, MOST, out, MOST);
}

static void sharpen(void)
{
    kelontsira_sharpen(pixels, width * height, width, height, border, out, MOST);
}

static void median(void)
{
    kelontsira_median(pixels, width * height, width, height, size_of_kernel, border, out, MOST);
}

static void sobel(void)
{
    kelontsira_sobel(pixels, width * height, width, height, border, out, MOST);
}

static void sobel_byte(void)
{
    result = kelontsira_sobel_byte(sum_of_squares);
}

static void sobel_gradients(void)
{
    kelontsira_sobel_gradients(pixels, width * height, width, height, border, gx, MOST, gy, MOST);
}

static void sector(void)
{
    result = kelontsira_sector(one_gx, one_gy);
}

static void magnitude_of(void)
{
    work[0] = kelontsira_magnitude_of(sum_of_squares);
}

static void gradient_magnitude(void)
{
    kelontsira_gradient_magnitude(gx, width * height, gy, width * height, width, height, magnitude, MOST);
}

static void suppression(void)
{
    kelontsira_non_maximum_suppression(magnitude, width * height, gx, width * height, gy, width * height, width, height, suppressed, MOST);
}

static void start(void)
{
    kelontsira_start(suppressed, width * height, width, height, 20, 60, marks, MOST, stack, MOST, &walk_width, &walk_height, &walk_pending);
}

static void slice(void)
{
    kelontsira_slice(&walk_width, &walk_height, &walk_pending, MOST, marks, MOST, stack, MOST, &result);
}

static void map(void)
{
    kelontsira_map(walk_width, walk_height, walk_pending, marks, MOST, stack, MOST, out, MOST);
}

static void canny(void)
{
    kelontsira_canny(pixels, width * height, width, height, weights, size_of_kernel, 20, 60, work, MOST, magnitude, MOST, gx, MOST, gy, MOST,
                     blurred, MOST, marks, MOST, stack, MOST, out, MOST, &result);
}

/* A stage's inputs, made by the stages before it. */
static void before_magnitude(void)
{
    sobel_gradients();
}

static void before_suppression(void)
{
    sobel_gradients();
    gradient_magnitude();
}

static void before_start(void)
{
    before_suppression();
    suppression();
}

static void before_slice(void)
{
    before_start();
    start();
}

static void before_map(void)
{
    before_slice();
    slice();
}

static void nothing(void)
{
}

static const struct {
    const char *name;
    void (*before)(void);
    void (*call)(void);
} CALLS[] = {
    {"apply_kernel", nothing, apply_kernel},
    {"apply_separable_kernel", nothing, apply_separable_kernel},
    {"gaussian_blur", nothing, gaussian_blur},
    {"box_blur", nothing, box_blur},
    {"sharpen", nothing, sharpen},
    {"median", nothing, median},
    {"sobel", nothing, sobel},
    {"sobel_byte", nothing, sobel_byte},
    {"sobel_gradients", nothing, sobel_gradients},
    {"sector", nothing, sector},
    {"magnitude_of", nothing, magnitude_of},
    {"gradient_magnitude", before_magnitude, gradient_magnitude},
    {"non_maximum_suppression", before_suppression, suppression},
    {"start", before_start, start},
    {"slice", before_slice, slice},
    {"map", before_map, map},
    {"canny", nothing, canny},
};

/* ---- A call on a painted stack */

enum { LIGHT = 0x5c, DARK = 0xa3 };

static uint8_t light[STACK], dark[STACK]; /* the stack after a call, by its paint */
static uint8_t value[STACK];              /* what a byte was written with first */
static uint8_t known[STACK], differs[STACK];
static ucontext_t here, there;

/* `there` is filled in once, in main, so that the registers at the beginning are alike in all runs. */
static void run_painted(void (*call)(void), uint8_t *ground, uint8_t paint)
{
    memset(ground, paint, STACK);
    there.uc_stack.ss_sp = ground;
    there.uc_stack.ss_size = STACK;
    there.uc_link = &here;
    makecontext(&there, call, 0);
    swapcontext(&here, &there);
}

/* Notes each written byte; the answer is the depth of the deepest. */
static size_t note_written(void)
{
    size_t depth = 0;
    size_t i;
    for (i = 0; i < STACK; i++) {
        if (light[i] == LIGHT && dark[i] == DARK) {
            continue;
        }
        depth = depth == 0 ? STACK - i : depth;
        differs[i] |= known[i] && value[i] != light[i];
        known[i] = 1;
        value[i] = light[i];
    }
    return depth;
}

static void draw(int number)
{
    size_t i;
    srand((unsigned)number + 1);
    for (i = 0; i < width * height; i++) {
        pixels[i] = (uint8_t)(number % 2 ? rand() >> 7 : (rand() >> 7) % 64 + (int)(i % width) * 5);
    }
    sum_of_squares = (uint32_t)rand() % 70000;
    one_gx = (int16_t)(rand() % 2041 - 1020);
    one_gy = (int16_t)(rand() % 2041 - 1020);
}

struct Measure {
    size_t left;
    size_t depth;
};

static size_t larger(size_t a, size_t b)
{
    return a < b ? b : a;
}

/* One call on several pictures. */
static struct Measure measure(size_t at)
{
    struct Measure seen = {0, 0};
    size_t i;
    int number;
    memset(known, 0, STACK);
    memset(differs, 0, STACK);
    for (number = 0; number < PICTURES; number++) {
        draw(number);
        CALLS[at].before();
        run_painted(CALLS[at].call, light, LIGHT);
        CALLS[at].before();
        run_painted(CALLS[at].call, dark, DARK);
        seen.depth = larger(seen.depth, note_written());
    }
    for (i = 0; i < STACK; i++) {
        seen.left += differs[i];
    }
    return seen;
}

/* The most of all sides, borders and sizes of kernels. */
static struct Measure most_of(size_t at)
{
    static const size_t SIDES[][2] = {{1, 1}, {3, 3}, {5, 4}, {64, 48}, {127, 9}, {128, 5}, {131, 16}, {640, 16}, {2, 640}, {16, 640}};
    static const size_t SIZES[] = {1, 3, 5, 15, 63};
    struct Measure most = {0, 0};
    size_t i, j;
    for (i = 0; i < sizeof SIDES / sizeof *SIDES; i++) {
        for (j = 0; j < 3 * sizeof SIZES / sizeof *SIZES; j++) {
            struct Measure seen;
            width = SIDES[i][0];
            height = SIDES[i][1];
            border = (uint8_t)(j % 3);
            size_of_kernel = SIZES[j / 3];
            seen = measure(at);
            most.left = larger(most.left, seen.left);
            most.depth = larger(most.depth, seen.depth);
        }
    }
    return most;
}

int main(void)
{
    size_t i;
    getcontext(&there);
    puts("| call | bytes left | depth seen |");
    puts("|---|---|---|");
    for (i = 0; i < WEIGHTS; i++) {
        weights[i] = 1.0f / (float)(i + 2);
    }
    for (i = 0; i < sizeof CALLS / sizeof *CALLS; i++) {
        const struct Measure most = most_of(i);
        printf("| kelontsira_%s | %zu | %zu |\n", CALLS[i].name, most.left, most.depth);
    }
    return 0;
}
