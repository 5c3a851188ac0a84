/* Reads and writes binary PGM pictures (P5) of one byte a pixel, for the demo. Only maxval 255 is taken: a byte is the brightness itself. */
#ifndef PGM_H
#define PGM_H

#include <stddef.h>
#include <stdint.h>

/* Reads the one picture of a file, whose sides are at most 640 (KELONTSIRA_MAX_SIDE), into `pixels`, which has room for 640 * 640 bytes.
 * The answer is NULL, or what is wrong with the file; the sides are set only when it is NULL. */
const char *pgm_read(const char *path, uint8_t *pixels, size_t *width, size_t *height);

/* Writes a picture as a file. The answer is NULL, or what went wrong. */
const char *pgm_write(const char *path, const uint8_t *pixels, size_t width, size_t height);

#endif
