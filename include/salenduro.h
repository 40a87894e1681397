/*
 * Salenduro: planning and replanning on a four-connected grid, for C and C++ hosts.
 * Two ways to call: over a record in the caller's bytes, and over buffers that the caller keeps.
 *
 * The plot. Width and height are 1 to 64, N = width * height cells; cell number = row * width + column, row 0 at the
 * top. Directions: 1 right, 2 down, 3 left, 4 up. Every step costs 1; a cell not known blocked counts as free.
 *
 * Who owns what. The caller owns every buffer; nothing is kept between calls, nothing is allocated, and no call needs
 * another before it. Each buffer is a pointer and a length in entries (not bytes); the pointer is to that many entries, and
 * may be null where the length is 0. No two of the buffers of one call may overlap; no other thread may use them during the
 * call, but for those that are const, which others may read. This is all that a call cannot check.
 *
 * Stack, by the arrays that stand on it at once, and a little more for frames: plan 52 KiB, load 20 KiB; over a record,
 * plan 84 KiB, report and move 20 KiB; the others 4 KiB at most.
 *
 * What is checked. Every call takes every content of its buffers: sizes, cells, lengths and data are tested first, and
 * whatever is wrong is refused by number. A refusal writes nothing at all, in no buffer.
 *
 * Answers. A refusal n is SALENDURO_REFUSED + n; every answer below SALENDURO_REFUSED is an accepted call's.
 * (salenduro_buffers_question alone answers the bare n.)
 *
 *   n  given exactly when                                     what to do
 *   1  a side is 0 or above 64                                correct the sizes
 *   2  a buffer is shorter than N, a save buffer than the     lend more room
 *      record, a list buffer than the route, or a head
 *      array than five
 *   3  the goal, the cart's cell, the start or a reported     correct the cell
 *      cell is N or more
 *   4  the data are not sound: they do not fit together, as   lay out or load anew: what was learned does
 *      where the map was changed under learned distances      not fit this ground
 *   5  the reported cell is the cart's own                    look again: the cart stands there
 *   6  move or list, and no route stands                      plan first
 *   8  the bytes are no record: out of form, or too many      the record is damaged; use another
 *
 * Where several hold, the order is 1, 2, 3, 4, 5, 6, and a head array's 2 comes before all; the list buffer's 2 comes
 * after 6, the save buffer's after 4. Load, and each call over a record: 8 for the first two fields, 1, 8 for the rest,
 * 3, 2, 4, then the call's own. (So a reported cell of N or more in an unsound record gives 4, in unsound buffers 3.)
 */
#ifndef SALENDURO_H
#define SALENDURO_H

#include <stddef.h>
#include <stdint.h>

#ifdef __cplusplus
extern "C" {
#endif

#define SALENDURO_REFUSED 70000u    /* a refusal n answers this + n */
#define SALENDURO_NO_WAY 65535u     /* plan: no way to the goal over cells not known blocked */
#define SALENDURO_MAX_SIDE 64u      /* the largest width and height */
#define SALENDURO_MAX_CELLS 4096u   /* so many entries suffice for every plot, in each buffer of cells and in a list */
#define SALENDURO_MAX_RECORD 12827u /* so many bytes suffice for every record */
#define SALENDURO_HEAD 5u           /* the entries of a head array */

/* The entries of a head array. */
enum salenduro_head {
    SALENDURO_WIDTH = 0,
    SALENDURO_HEIGHT = 1,
    SALENDURO_GOAL = 2,
    SALENDURO_CELL = 3,    /* the cart's cell */
    SALENDURO_EXPANDED = 4 /* the count of expanded cells of the last plan that was not refused */
};

/* The refusals n. */
enum salenduro_refusal {
    SALENDURO_SIDES = 1,
    SALENDURO_SHORT = 2,
    SALENDURO_OUTSIDE = 3,
    SALENDURO_UNSOUND = 4,
    SALENDURO_OWN_CELL = 5,
    SALENDURO_NO_ROUTE = 6,
    SALENDURO_FORM = 8
};

/*
 * OVER A RECORD. `length` is the record's own length, as save answered it: bytes after the record are refused with 8.
 * The record is rewritten in place, with the same length. A first record comes from salenduro_buffers_layout and
 * salenduro_buffers_save.
 */

/* A cell is blocked. Answers 0. */
uint32_t salenduro_report(uint8_t *record, size_t length, uint32_t cell);

/* Answers the length of a shortest way to the goal, 0 on the goal, or SALENDURO_NO_WAY. */
uint32_t salenduro_plan(uint8_t *record, size_t length);

/* One step along the route. Answers the cell that the cart is then on; on the goal it stays. */
uint32_t salenduro_move(uint8_t *record, size_t length);

/*
 * OVER BUFFERS that the host keeps, of N entries or more each; entries after the Nth are never touched:
 *   ground   0 free, 1 known blocked
 *   learned  the learned distance to the goal
 *   link     0 none, or the direction of the next step
 * and for plan three of scratch, whatever they hold:
 *   mark     0 unseen, 1 waiting, 2 expanded
 *   cost     65535 for unseen
 *   trail    the direction by which a cell was reached, or 0
 * `head` is an array of SALENDURO_HEAD entries or more (enum salenduro_head); entries after the fifth are never touched.
 */

/*
 * A fresh plot: ground all 0, learned the Manhattan distance to the goal, link all 0. Answers 0, with the head set and its
 * count 0. Refused, the head array stays as it was. start may equal goal.
 */
uint32_t salenduro_buffers_layout(size_t width, size_t height, size_t start, size_t goal,
                                  size_t *head, size_t head_length,
                                  uint8_t *ground, size_t ground_length,
                                  uint16_t *learned, size_t learned_length,
                                  uint8_t *link, size_t link_length);

/* A cell is blocked: ground 1 there, and every link to it and its own 0. Answers 0, also where it was blocked already. */
uint32_t salenduro_buffers_report(const size_t *head, size_t head_length,
                                  uint8_t *ground, size_t ground_length,
                                  const uint16_t *learned, size_t learned_length,
                                  uint8_t *link, size_t link_length,
                                  size_t cell);

/*
 * Answers the length of a shortest way to the goal, 0 on the goal, or SALENDURO_NO_WAY, and sets the head's count of
 * expanded cells (0 on the goal, where scratch stays as it was). After a length the route stands in link.
 */
uint32_t salenduro_buffers_plan(size_t *head, size_t head_length,
                                const uint8_t *ground, size_t ground_length,
                                uint16_t *learned, size_t learned_length,
                                uint8_t *link, size_t link_length,
                                uint8_t *mark, size_t mark_length,
                                uint16_t *cost, size_t cost_length,
                                uint8_t *trail, size_t trail_length);

/* One step along the route. Answers the cell that the cart is then on, and sets it in the head; on the goal it stays. */
uint32_t salenduro_buffers_move(size_t *head, size_t head_length,
                                const uint8_t *ground, size_t ground_length,
                                const uint16_t *learned, size_t learned_length,
                                uint8_t *link, size_t link_length);

/*
 * Writes the route's cells, from the cart's to the goal, to the front of `list`, and answers how many (1 or more): one
 * more than the steps. Entries after them stay.
 */
uint32_t salenduro_buffers_list(const size_t *head, size_t head_length,
                                const uint8_t *ground, size_t ground_length,
                                const uint16_t *learned, size_t learned_length,
                                const uint8_t *link, size_t link_length,
                                uint16_t *list, size_t list_length);

/* Answers 0 where list would write, or the number n of its refusal, without SALENDURO_REFUSED. Writes nothing. */
uint32_t salenduro_buffers_question(const size_t *head, size_t head_length,
                                    const uint8_t *ground, size_t ground_length,
                                    const uint16_t *learned, size_t learned_length,
                                    const uint8_t *link, size_t link_length,
                                    const uint16_t *list, size_t list_length);

/* Writes the record of this state to the front of `bytes`, and answers its length. Bytes after it stay. */
uint32_t salenduro_buffers_save(const size_t *head, size_t head_length,
                                const uint8_t *ground, size_t ground_length,
                                const uint16_t *learned, size_t learned_length,
                                const uint8_t *link, size_t link_length,
                                uint8_t *bytes, size_t bytes_length);

/*
 * Reads a record of exactly `bytes_length` bytes. Answers 0, with ground, learned, link and the head set, and its count 0.
 * All is checked before anything is written; refused, the head array stays as it was too.
 */
uint32_t salenduro_buffers_load(const uint8_t *bytes, size_t bytes_length,
                                size_t *head, size_t head_length,
                                uint8_t *ground, size_t ground_length,
                                uint16_t *learned, size_t learned_length,
                                uint8_t *link, size_t link_length);

#ifdef __cplusplus
}
#endif

#endif
