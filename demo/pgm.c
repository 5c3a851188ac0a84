/* Reads and writes binary PGM pictures (P5) of one byte a pixel, for the demo. See pgm.h. */
#include "pgm.h"

#include "kelontsira.h"

#include <stdio.h>

static const char NOT_PGM[] = "it is not a binary PGM picture (it does not begin with P5)";
static const char BAD_HEADER[] = "its header is broken: P5, width, height and 255 are wanted, as whole numbers with space between them";
static const char TOO_LARGE[] = "the picture is too large: a side is over 640";
static const char BAD_MAXVAL[] = "its maxval is not 255, and no other is read";
static const char TRUNCATED[] = "it ends before the picture does";
static const char EXTRA[] = "there is something after the picture: a file of exactly one picture is wanted";

enum { MOST_NUMBER = 1000000 }; /* larger header numbers are read as this; every limit is far below */

static int is_space(int c)
{
    return c == ' ' || c == '\t' || c == '\n' || c == '\v' || c == '\f' || c == '\r';
}

static int is_digit(int c)
{
    return '0' <= c && c <= '9';
}

/* The next character of a header; a comment, from '#' to the end of its line, reads as that line's end. */
static int header_char(FILE *file)
{
    int c = getc(file);
    if (c == '#') {
        do {
            c = getc(file);
        } while (c != '\n' && c != '\r' && c != EOF);
    }
    return c;
}

/* A whole number after at least one space, and the one space after it. Whether there was one. */
static int header_number(FILE *file, size_t *value)
{
    size_t n = 0;
    int c = header_char(file);
    while (is_space(c)) {
        c = header_char(file);
    }
    if (!is_digit(c)) {
        return 0;
    }
    while (is_digit(c)) {
        n = n * 10 + (size_t)(c - '0');
        if (n > MOST_NUMBER) {
            n = MOST_NUMBER;
        }
        c = header_char(file);
    }
    *value = n;
    return is_space(c);
}

static const char *read_header(FILE *file, size_t *width, size_t *height)
{
    size_t maxval;
    int c;
    if (getc(file) != 'P' || getc(file) != '5') {
        return NOT_PGM;
    }
    c = header_char(file);
    if (!is_space(c)) {
        return NOT_PGM;
    }
    if (!header_number(file, width) || !header_number(file, height) || !header_number(file, &maxval)) {
        return BAD_HEADER;
    }
    if (*width > KELONTSIRA_MAX_SIDE || *height > KELONTSIRA_MAX_SIDE) {
        return TOO_LARGE;
    }
    return maxval == 255 ? NULL : BAD_MAXVAL;
}

static const char *read_picture(FILE *file, uint8_t *pixels, size_t *width, size_t *height)
{
    size_t w;
    size_t h;
    const char *wrong = read_header(file, &w, &h);
    if (wrong != NULL) {
        return wrong;
    }
    if (fread(pixels, 1, w * h, file) != w * h) {
        return TRUNCATED;
    }
    if (getc(file) != EOF) {
        return EXTRA;
    }
    *width = w;
    *height = h;
    return NULL;
}

const char *pgm_read(const char *path, uint8_t *pixels, size_t *width, size_t *height)
{
    const char *wrong;
    FILE *file = fopen(path, "rb");
    if (file == NULL) {
        return "it cannot be opened";
    }
    wrong = read_picture(file, pixels, width, height);
    if (ferror(file)) {
        wrong = "it cannot be read";
    }
    fclose(file);
    return wrong;
}

const char *pgm_write(const char *path, const uint8_t *pixels, size_t width, size_t height)
{
    int bad;
    FILE *file = fopen(path, "wb");
    if (file == NULL) {
        return "it cannot be opened for writing";
    }
    bad = fprintf(file, "P5\n%zu %zu\n255\n", width, height) < 0;
    bad |= fwrite(pixels, 1, width * height, file) != width * height;
    bad |= fclose(file) != 0;
    return bad ? "it cannot be written" : NULL;
}
