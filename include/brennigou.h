/* Brennigou: bounds, plans and pages of a plan file (mark RTP), in buffers that the caller lends.
 *
 * A buffer is a pointer and then its length in elements. Buffers of one call do not overlap; a pointer is never null, not even at
 * length 0; an int32_t buffer is aligned. Nothing is kept between calls, so calls are reentrant, and there is no heap. The archive
 * links into x86-64 programs.
 *
 * Every function but brennigou_better and brennigou_version returns the refusal number. With 0 the call is accepted and every lent
 * buffer is written whole: what is not named is zero. Any other number changes nothing that was lent. The first fault decides:
 *
 *    1  the file ends too early                       6  a rule of another kind, or a field of it out of range
 *    2  wrong mark                                    7  bytes after the last rule
 *    3  version not 1                                 8  width, rounds or ceiling out of range
 *    4  n or m out of range                          10  a start plan whose length is neither 0 nor n
 *    5  an empty step set, or a weight out of range  11  a lent buffer shorter than its need
 *
 * 9, a running number beyond 2000000, does not arise from a file that is accepted; it comes last.
 */
#ifndef BRENNIGOU_H
#define BRENNIGOU_H

#include <stddef.h>
#include <stdint.h>

#ifdef __cplusplus
extern "C" {
#endif

/* The greatest that are accepted. A ceiling lies within -BRENNIGOU_CEILING..BRENNIGOU_CEILING, a width is at least 1. */
#define BRENNIGOU_SLOTS 24
#define BRENNIGOU_STEPS 8
#define BRENNIGOU_RULES 8
#define BRENNIGOU_WIDTH 16
#define BRENNIGOU_ROUNDS 64
#define BRENNIGOU_CEILING 2000000
#define BRENNIGOU_FILE 583

/* The greatest needs, in elements; brennigou_needs tells those of a file. A plan needs n bytes, a page n at least. */
#define BRENNIGOU_ARCS (BRENNIGOU_STEPS * BRENNIGOU_SLOTS * BRENNIGOU_WIDTH)
#define BRENNIGOU_CELLS ((BRENNIGOU_SLOTS + 1) * BRENNIGOU_WIDTH * (4 * BRENNIGOU_RULES + 3))
#define BRENNIGOU_NEEDS_OUT 4
#define BRENNIGOU_JUDGE_OUT 2
#define BRENNIGOU_RELAXED_OUT 3
#define BRENNIGOU_RESTRICTED_OUT 3
#define BRENNIGOU_PAGE_OUT 2

/* Tells n, m, the bytes of arcs and the cells that a file needs at a width. */
uint32_t brennigou_needs(const uint8_t *file, size_t file_len, uint32_t width, int32_t *out, size_t out_len);

/* Judges a plan: lawful 0 or 1, and its cost (0 if unlawful). */
uint32_t brennigou_judge(const uint8_t *file, size_t file_len, const uint8_t *plan, size_t plan_len, int32_t *out, size_t out_len);

/* Builds the relaxed diagram, which no lawful plan within the ceiling leaves: dual present 0 or 1, the dual (0 if none), exact 0 or 1. */
uint32_t brennigou_relaxed(const uint8_t *file, size_t file_len, uint32_t width, uint32_t rounds, int32_t ceiling, uint8_t *arcs,
                           size_t arcs_len, int32_t *cells, size_t cells_len, int32_t *out, size_t out_len);

/* Builds the restricted diagram, whose every path is lawful, and shows its cheapest plan: primal present 0 or 1, the primal (0 if
 * none), exact 0 or 1. */
uint32_t brennigou_restricted(const uint8_t *file, size_t file_len, uint32_t width, uint8_t *arcs, size_t arcs_len, int32_t *cells,
                              size_t cells_len, uint8_t *plan, size_t plan_len, int32_t *out, size_t out_len);

/* Lists the first lawful plans within the ceiling after the start (length 0: from the beginning; else n bytes of any values), n bytes
 * each, as many as fit whole: their count, and 1 if there is a further one. The diagram's buffers hold the relaxed diagram then. Of a
 * page longer than 2147483647 bytes no more than that is used. */
uint32_t brennigou_page(const uint8_t *file, size_t file_len, uint32_t width, uint32_t rounds, int32_t ceiling, const uint8_t *start,
                        size_t start_len, uint8_t *arcs, size_t arcs_len, int32_t *cells, size_t cells_len, uint8_t *page,
                        size_t page_len, int32_t *out, size_t out_len);

/* Chooses between two plans: 1 the standing one, 2 the new one, 0 neither (none is lawful, or the file would be refused). */
uint32_t brennigou_better(const uint8_t *file, size_t file_len, const uint8_t *standing, size_t standing_len, const uint8_t *fresh,
                          size_t fresh_len);

/* The number of the last change request that has landed, 0 for the base. */
uint32_t brennigou_version(void);

#ifdef __cplusplus
}
#endif

#endif
