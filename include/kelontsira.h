/* Kelontsira: a proved edge detector for one-channel byte pictures. The calls of libkelontsira.a, for C99 and C++ on x86-64.
 *
 * Every call either runs exactly by its rule or answers a refusal number and changes nothing: no pixel, no scratch entry, no lent
 * number. That is proved of the compiled library's source for all sizes, bytes, floats and leftover buffers, and rests on what a caller
 * in C owes, in every call:
 *
 *   - a pointer followed by a length lends that many entries; it is valid for them and aligned for its type;
 *   - no pointer is NULL, not even one of length 0, and none of the pointers to single numbers is;
 *   - nothing that a call may write overlaps anything else that the same call is lent;
 *   - no one else reads or writes a lent buffer until the call returns;
 *   - the processor rounds to nearest and does not flush small floats to zero (the state in which C programs start);
 *   - the machine's stack has room for the call: docs/FIRMWARE.md says how much each takes. No test of the library can see it run out.
 *
 * A picture is width * height bytes in row order: pixel (x, y) is entry y * width + x. Lengths count entries, not bytes. An input has
 * exactly the length asked for; outputs and scratch have at least that, and entries past width * height are never written. A picture
 * with a side of 0 is accepted once every other test is passed, and changes no entry.
 *
 * Each call tests its refusals in ascending order, KELONTSIRA_REFUSED_BORDER first, and answers the first that applies.
 */
#ifndef KELONTSIRA_H
#define KELONTSIRA_H

#include <stddef.h>
#include <stdint.h>

#ifdef __cplusplus
extern "C" {
#endif

/* ---- Limits */

#define KELONTSIRA_MAX_SIDE 640         /* width and height of a picture */
#define KELONTSIRA_MAX_TAPS 63          /* taps of a separable kernel, each way; odd */
#define KELONTSIRA_MAX_KERNEL 15        /* sides of a kernel; odd */
#define KELONTSIRA_MAX_WINDOW 15        /* side of a median's window; odd */
#define KELONTSIRA_MAX_THRESHOLD 255.0f /* a threshold is from 0 to this */

/* ---- What a sample outside the picture reads as */

#define KELONTSIRA_ZERO 0   /* 0 */
#define KELONTSIRA_CLAMP 1  /* the nearest side */
#define KELONTSIRA_MIRROR 2 /* the picture mirrored at its sides, the outermost pixels not repeated */

/* ---- Answers. Anything but KELONTSIRA_ACCEPTED means that nothing was changed. */

#define KELONTSIRA_ACCEPTED 0
#define KELONTSIRA_REFUSED_SIDE 1      /* a side is over 640; kelontsira_resolve_coord also refuses 0 */
#define KELONTSIRA_REFUSED_INPUT 2     /* an input's length is not width * height */
#define KELONTSIRA_REFUSED_COUNT 3     /* a tap count, kernel side or window is 0, even or too large, or the weights are not as many */
#define KELONTSIRA_REFUSED_WEIGHT 4    /* a tap or weight is infinite or NaN */
#define KELONTSIRA_REFUSED_THRESHOLD 5 /* a threshold is NaN, infinite, below 0 or over 255 */
#define KELONTSIRA_REFUSED_ORDER 6     /* low is greater than high */
#define KELONTSIRA_REFUSED_ROOM 7      /* an output or a work buffer is too short */
#define KELONTSIRA_REFUSED_BUDGET 8    /* a budget of 0 */
#define KELONTSIRA_REFUSED_STATE 9     /* a walk's state that can't be used: see kelontsira_slice */
#define KELONTSIRA_REFUSED_PENDING 10  /* a map is asked for while pixels are pending */
#define KELONTSIRA_REFUSED_BORDER 255  /* not one of the three border modes */

/* ---- Entries of a map and of a walk's marks */

#define KELONTSIRA_EDGE 255        /* in a map: an edge; 0 elsewhere */
#define KELONTSIRA_MARK_NONE 0     /* below low, or NaN */
#define KELONTSIRA_MARK_WEAK 1     /* at or above low, and joined to nothing yet */
#define KELONTSIRA_MARK_PENDING 2  /* on the stack */
#define KELONTSIRA_MARK_FINISHED 3 /* taken: an edge of the map */

/* ---- Filters: a byte picture in, a byte picture out (first width * height entries) */

/* Where coordinate `coord` of a side of 1 to 640 is read: *place is below `side`, or `side` itself where the sample is 0 (only under
 * KELONTSIRA_ZERO). Refusals: 255, 1. */
uint8_t kelontsira_resolve_coord(int64_t coord, size_t side, uint8_t border, size_t *place);

/* Convolution with a kernel of odd sides 1 to 15, its kernel_width * kernel_height weights in row order. The kernel is flipped both ways:
 * its last weight meets the sample above and to the left. Each output is a sum of f32 products in one order, made a byte: the nearest whole
 * number, halves away from zero, held to 0..255; a NaN gives 0. Refusals: 255, 1, 2, 3, 4, 7. */
uint8_t kelontsira_apply_kernel(const uint8_t *pixels, size_t pixels_length, size_t width, size_t height, size_t kernel_width,
                                size_t kernel_height, const float *weights, size_t weights_length, uint8_t border, uint8_t *out,
                                size_t out_length);

/* Convolution with a row of taps and then a column of taps, odd counts 1 to 63, both flipped. Between the two the sums stay f32 in `work`,
 * of at least width * height entries, whose first width * height are +0 afterwards; what they held changes nothing. The column's sums are
 * made bytes as above. Refusals: 255, 1, 2, 3, 4, 7 (work or out). */
uint8_t kelontsira_apply_separable_kernel(const uint8_t *pixels, size_t pixels_length, size_t width, size_t height,
                                          size_t horizontal_taps, size_t vertical_taps, const float *horizontal,
                                          size_t horizontal_length, const float *vertical, size_t vertical_length, uint8_t border,
                                          float *work, size_t work_length, uint8_t *out, size_t out_length);

/* The same taps both ways: a Gaussian blur with taps that the caller has worked out. As above. Refusals: 255, 1, 2, 3, 4, 7. */
uint8_t kelontsira_gaussian_blur(const uint8_t *pixels, size_t pixels_length, size_t width, size_t height, const float *taps,
                                 size_t taps_length, uint8_t border, float *work, size_t work_length, uint8_t *out,
                                 size_t out_length);

/* Three taps of 1/3 both ways; `work` as above. Refusals: 255, 1, 2, 7. */
uint8_t kelontsira_box_blur(const uint8_t *pixels, size_t pixels_length, size_t width, size_t height, uint8_t border, float *work,
                            size_t work_length, uint8_t *out, size_t out_length);

/* The 3 by 3 kernel 0 -1 0, -1 5 -1, 0 -1 0. Refusals: 255, 1, 2, 7. */
uint8_t kelontsira_sharpen(const uint8_t *pixels, size_t pixels_length, size_t width, size_t height, uint8_t border, uint8_t *out,
                           size_t out_length);

/* The middle of the sorted window, whose side is odd, 1 to 15. Refusals: 255, 1, 2, 3, 7. */
uint8_t kelontsira_median(const uint8_t *pixels, size_t pixels_length, size_t width, size_t height, size_t window, uint8_t border,
                          uint8_t *out, size_t out_length);

/* Sobel's edge strength as a byte: the root of gx * gx + gy * gy rounded, at most 255. Refusals: 255, 1, 2, 7. */
uint8_t kelontsira_sobel(const uint8_t *pixels, size_t pixels_length, size_t width, size_t height, uint8_t border, uint8_t *out,
                         size_t out_length);

/* That byte for a sum of squares s. Never refuses. */
uint8_t kelontsira_sobel_byte(uint32_t s);

/* ---- Gradient, magnitude, suppression: each buffer of width * height entries */

/* Sobel's two components, each from -1020 to 1020. Refusals: 255, 1, 2, 7 (gx or gy). */
uint8_t kelontsira_sobel_gradients(const uint8_t *pixels, size_t pixels_length, size_t width, size_t height, uint8_t border,
                                   int16_t *gx, size_t gx_length, int16_t *gy, size_t gy_length);

/* The direction of a gradient: 0, 45, 90 or 135. Never refuses. */
uint8_t kelontsira_sector(int16_t gx, int16_t gy);

/* The f32 nearest the root of s, at most 255. Never refuses. */
float kelontsira_magnitude_of(uint32_t s);

/* That magnitude of gx * gx + gy * gy, entry by entry; any i16 is taken. Refusals: 1, 2 (gx or gy), 7. */
uint8_t kelontsira_gradient_magnitude(const int16_t *gx, size_t gx_length, const int16_t *gy, size_t gy_length, size_t width,
                                      size_t height, float *magnitude, size_t magnitude_length);

/* Keeps a magnitude that is at least both neighbours' along the gradient's direction; elsewhere, and in the outer rows and columns, +0.
 * Refusals: 1, 2 (magnitude, gx or gy), 7. */
uint8_t kelontsira_non_maximum_suppression(const float *magnitude, size_t magnitude_length, const int16_t *gx, size_t gx_length,
                                           const int16_t *gy, size_t gy_length, size_t width, size_t height, float *out,
                                           size_t out_length);

/* ---- The walk, which joins weak pixels to strong ones. Its state is three numbers, and marks and stack of width * height entries
 * each, all kept by the caller from the start to the map and changed by no one else. */

/* Classes each magnitude: at or above `high` it is pending, mark 2; else at or above `low` weak, mark 1; else mark 0, a NaN too. Writes the
 * state's three numbers, and the first width * height marks and stack entries: the pending pixels' indexes in row order, then 0. A refused
 * start leaves all of these, the numbers too: a walk that was under way in them goes on. Refusals: 1, 2, 5, 6, 7 (marks or stack). */
uint8_t kelontsira_start(const float *magnitudes, size_t magnitudes_length, size_t width, size_t height, float low, float high,
                         uint8_t *marks, size_t marks_length, uint32_t *stack, size_t stack_length, size_t *walk_width,
                         size_t *walk_height, size_t *walk_pending);

/* Takes up to `budget` pixels off the stack; *takes says how many. A pixel taken gets mark 3, and its weak neighbours become pending. The
 * walk has ended when *walk_pending is 0. The three numbers are read and written. A state that a start or a slice left is never refused 9;
 * one is where pending, or a pending index, is over what width * height allows, a mark is over 3, or pending and the marks 1 together are
 * more than width * height. Refusals: 1, 7, 8, 9. */
uint8_t kelontsira_slice(size_t *walk_width, size_t *walk_height, size_t *walk_pending, size_t budget, uint8_t *marks,
                         size_t marks_length, uint32_t *stack, size_t stack_length, size_t *takes);

/* The map of a walk that has ended: 255 where the mark is 3, else 0. After a start and slices until nothing is pending those are the pixels
 * joined to a strong one; of marks that a caller made up it is only what it says: 255 where they are 3. Refusals: 1, 7 (marks, stack or out), 9, 10. */
uint8_t kelontsira_map(size_t walk_width, size_t walk_height, size_t walk_pending, const uint8_t *marks, size_t marks_length,
                       const uint32_t *stack, size_t stack_length, uint8_t *out, size_t out_length);

/* ---- The whole run */

/* Blur with the taps (Clamp), Sobel (Clamp), magnitude, suppression, a walk to its end and its map: 255 at an edge, else 0; *count is
 * how many are 255. The seven buffers before `map` are scratch of at least width * height entries each, 18 bytes a pixel; what they held
 * changes nothing of the answer, and their first width * height entries are 0 afterwards. Refusals: 1, 2, 3, 4, 5, 6, 7 (any scratch buffer or map). */
uint8_t kelontsira_canny(const uint8_t *pixels, size_t pixels_length, size_t width, size_t height, const float *taps,
                         size_t taps_length, float low, float high, float *work, size_t work_length, float *magnitude,
                         size_t magnitude_length, int16_t *gx, size_t gx_length, int16_t *gy, size_t gy_length, uint8_t *blurred,
                         size_t blurred_length, uint8_t *marks, size_t marks_length, uint32_t *stack, size_t stack_length,
                         uint8_t *map, size_t map_length, size_t *count);

#ifdef __cplusplus
}
#endif

#endif
