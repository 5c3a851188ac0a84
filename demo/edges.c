/* The demo of kelontsira.h: reads a PGM picture (P5, maxval 255, sides up to 640), finds its edges, and writes them as a PGM picture, white
 * on black. All memory is static, as firmware would have it.
 *
 *     edges SIGMA LOW HIGH IN.pgm OUT.pgm
 *
 * Exit status: 0 the edges are written; 1 the library refused; 2 the arguments are wrong; 3 the picture cannot be read; 4 the result cannot
 * be written. OUT.pgm is opened only once the edges are found. */
#include "kelontsira.h"
#include "pgm.h"

#include <math.h>
#include <stdio.h>
#include <stdlib.h>

enum { REFUSED = 1, BAD_ARGUMENTS = 2, BAD_PICTURE = 3, NOT_WRITTEN = 4 };

enum {
    MOST_PIXELS = KELONTSIRA_MAX_SIDE * KELONTSIRA_MAX_SIDE,
    TAPS_ROOM = KELONTSIRA_MAX_TAPS + 2 /* the next odd count, which the library refuses */
};

static uint8_t pixels[MOST_PIXELS];
static uint8_t map[MOST_PIXELS];

/* The scratch of a run: 18 bytes a pixel. */
static float work[MOST_PIXELS];
static float magnitude[MOST_PIXELS];
static int16_t gx[MOST_PIXELS];
static int16_t gy[MOST_PIXELS];
static uint8_t blurred[MOST_PIXELS];
static uint8_t marks[MOST_PIXELS];
static uint32_t stack[MOST_PIXELS];

/* What a refusal means to a user of this program. */
static const char *meaning_of(uint8_t refusal)
{
    switch (refusal) {
    case KELONTSIRA_REFUSED_SIDE:
        return "the picture is too large: a side is over 640";
    case KELONTSIRA_REFUSED_INPUT:
        return "the picture does not have width times height pixels";
    case KELONTSIRA_REFUSED_COUNT:
        return "SIGMA is too large: it needs more than 63 taps (10.3 needs 63)";
    case KELONTSIRA_REFUSED_WEIGHT:
        return "SIGMA is too small: its taps are not numbers";
    case KELONTSIRA_REFUSED_THRESHOLD:
        return "LOW and HIGH must be from 0 to 255";
    case KELONTSIRA_REFUSED_ORDER:
        return "LOW is greater than HIGH";
    case KELONTSIRA_REFUSED_ROOM:
        return "a buffer is too short for the picture";
    case KELONTSIRA_REFUSED_BUDGET:
        return "a slice of the walk was given nothing to do";
    case KELONTSIRA_REFUSED_STATE:
        return "the walk's state was changed by someone else";
    case KELONTSIRA_REFUSED_PENDING:
        return "the map was asked for before the walk had ended";
    case KELONTSIRA_REFUSED_BORDER:
        return "the border mode is not known";
    default:
        return "the library gave a number that it does not have";
    }
}

/* The number that all of `text` is; "nan" and "inf" are left to the library. Whether it is one. */
static int number_of(const char *text, float *value)
{
    char *end;
    *value = strtof(text, &end);
    return end != text && *end == '\0';
}

/* A normal curve's taps, 2 * ceil(3 * sigma) + 1 of them, whose sum is 1. If the library takes fewer than that, only so many are made that
 * it must refuse them. The answer is how many there are. */
static size_t make_taps(float sigma, float taps[TAPS_ROOM])
{
    const float reach = ceilf(3.0f * sigma);
    const size_t half = reach < (float)(TAPS_ROOM / 2) ? (size_t)reach : TAPS_ROOM / 2;
    const size_t count = 2 * half + 1;
    const float spread = 2.0f * sigma * sigma;
    float sum = 0.0f;
    size_t i;
    for (i = 0; i < count; i++) {
        const float x = (float)i - (float)half;
        taps[i] = expf(-x * x / spread);
        sum += taps[i];
    }
    for (i = 0; i < count; i++) {
        taps[i] /= sum;
    }
    return count;
}

/* The edges of `pixels` in `map`; *count is how many pixels they have. The answer is the library's. */
static uint8_t find_edges(size_t width, size_t height, float sigma, float low, float high, size_t *count)
{
    static float taps[TAPS_ROOM];
    const size_t tap_count = make_taps(sigma, taps);
    return kelontsira_canny(pixels, width * height, width, height, taps, tap_count, low, high, work, MOST_PIXELS, magnitude, MOST_PIXELS,
                            gx, MOST_PIXELS, gy, MOST_PIXELS, blurred, MOST_PIXELS, marks, MOST_PIXELS, stack, MOST_PIXELS, map,
                            MOST_PIXELS, count);
}

static int usage(void)
{
    fputs("usage: edges SIGMA LOW HIGH IN.pgm OUT.pgm\n"
          "SIGMA is the blur, a number over 0; LOW and HIGH are the thresholds, from 0 to 255.\n",
          stderr);
    return BAD_ARGUMENTS;
}

int main(int argc, char **argv)
{
    float sigma, low, high;
    size_t width, height, count;
    const char *wrong;
    uint8_t refusal;
    if (argc != 6 || !number_of(argv[1], &sigma) || !number_of(argv[2], &low) || !number_of(argv[3], &high)) {
        return usage();
    }
    if (!(sigma > 0.0f)) {
        fputs("edges: SIGMA must be a number over 0\n", stderr);
        return BAD_ARGUMENTS;
    }
    wrong = pgm_read(argv[4], pixels, &width, &height);
    if (wrong != NULL) {
        fprintf(stderr, "edges: %s: %s\n", argv[4], wrong);
        return BAD_PICTURE;
    }
    refusal = find_edges(width, height, sigma, low, high, &count);
    if (refusal != KELONTSIRA_ACCEPTED) {
        fprintf(stderr, "edges: refused %d: %s\n", refusal, meaning_of(refusal));
        return REFUSED;
    }
    wrong = pgm_write(argv[5], map, width, height);
    if (wrong != NULL) {
        fprintf(stderr, "edges: %s: %s\n", argv[5], wrong);
        return NOT_WRITTEN;
    }
    printf("%zu by %zu pixels, %zu of them edges: %s\n", width, height, count, argv[5]);
    return 0;
}
