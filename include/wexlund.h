/* Wexlund: a proved route planner for warehouse carts, Real-Time Adaptive A* on a square grid, and its trip records.

   ./lib builds the static library (x86-64) that this header declares: compile with -Iinclude and link with
   -Ltarget/staticlib -lplanner. C11 or C++. examples/host.c is a simulator's whole loop.

   The floor. Width and height are 1 to 64 each, and N is width times height. Cells are numbered row by row from 0. The plan (the
   truth) and the known map (what carts have sensed so far) hold one byte a cell: 0 open, 1 blocked. Estimates are 16-bit numbers,
   one a cell. A cart moves between open cells that share a side. Estimates are sound when the goal's is 0, each is at most N-1,
   and two adjoining cells both not blocked in the known map differ by at most 1. wexlund_prepare writes sound ones, and each leg
   and walk leaves them sound: what a cart learned serves its next trip to the same goal.

   What every entry does. It takes any numbers and any bytes, and answers 0 or the number of a refusal (the table below). It always
   returns, keeps nothing between two calls, and reads and writes no memory but what it is lent and less than 40 KiB of its stack.

   What is lent. A slice is a pointer and a count of elements (not of bytes). The pointer is not null, even where the count is 0,
   and is aligned as its type asks. No two slices of one call overlap, nor does one overlap the result array or the cart record.
   The result array is as long as declared and is written whole in every call, in the order given at each entry. On a refusal the
   cart as given stands in the place of the cell and 0 everywhere else, and no other lent memory changes. */
#ifndef WEXLUND_H
#define WEXLUND_H

#include <stddef.h>
#include <stdint.h>

#ifdef __cplusplus
extern "C" {
#endif

/* Limits. */
#define WEXLUND_MAX_SIDE 64        /* width and height are 1 to this */
#define WEXLUND_MAX_CELLS 4096     /* the largest N */
#define WEXLUND_MAX_LOOKAHEAD 4096 /* a lookahead is 1 to this */
#define WEXLUND_MAX_LIMIT 4096     /* a move limit is 1 to this */
#define WEXLUND_MAX_MOVES 16769025 /* the most moves of a record: (4,096 - 1) squared */
#define WEXLUND_MAX_REQUIRED 126   /* the most required moves of a record: 63 across and 63 down */
#define WEXLUND_RECORD_BYTES 24    /* one trip record */

/* Endings. */
#define WEXLUND_ARRIVED 1   /* the cart is on the goal */
#define WEXLUND_CUT_OFF 2   /* no open route leads from the cart to the goal */
#define WEXLUND_SPENT 3     /* the allowance of moves is used up (walk only) */
#define WEXLUND_UNDER_WAY 4 /* the leg moved, and more legs are to come (leg only) */

/* Refusals are tested in this order, before anything else, and given exactly then:

    1  width or height 0 or above 64
    2  plan, known map or estimates not exactly N long
    3  cart or goal not below N
    4  lookahead or move limit not in 1 to 4,096
    5  trail shorter than the move limit (leg) or the allowance (walk)
    6  a byte of plan or known map above 1
    7  known map blocked where the plan is open
    8  cart on a cell blocked in the plan
    9  estimates not sound
   10  record room not 24 bytes (writer), or length not a multiple of 24 (reader)
   11  a record value against the rules of trip records (below), or a record number past the end
   12  a serial that doesn't follow the one before

   A blocked goal is no refusal: played until a leg ends it, it ends in cut off, unless the cart is on it (8). */

/* Prepares estimates: writes into each cell its Manhattan distance to the goal, blocked cells too. A new trip to another goal
   starts with this; a known map starts all 0.

   Refusals: 1, 2 (estimates), 3 (goal). */
uint8_t wexlund_prepare(size_t width, size_t height, size_t goal, uint16_t *est, size_t est_n);

/* One leg: a planning episode with its moves. On the goal it has arrived, and nothing is written. Off it the cart senses the
   adjoining cells, opens at most `lookahead` cells in its search, learns (each opened cell's estimate rises or stays) and makes at
   least 1 and at most `limit` moves, unless it is cut off.

   Result: ending (arrived, cut off or under way), the cart's new cell, moves, cells opened.
   Written: the known map, where cells were sensed blocked; the estimates of opened cells; the trail's first entries, the cell after
   each move. Later trail entries stay. A leg that is cut off has 0 moves, and leaves estimates and trail; what was sensed stays in
   the known map.
   Refusals: 1 to 9. */
uint8_t wexlund_leg(size_t width, size_t height, const uint8_t *plan, size_t plan_n, uint8_t *known, size_t known_n,
                    uint16_t *est, size_t est_n, size_t cart, size_t goal, size_t lookahead, size_t limit,
                    uint16_t *trail, size_t trail_n, uint64_t result[4]);

/* One walk: legs, each with the smaller of `limit` and the moves left of the allowance, until the cart has arrived, is cut off, or
   has used up the allowance. With an allowance of (N-1) squared a walk is never spent: it arrives exactly when an open route
   exists.

   Result: ending (arrived, cut off or spent), the cart's new cell, moves, legs that searched (a cut-off leg included), cells opened
   in all.
   Written: as by its legs, the trail from its first entry on. Trail entries past the moves made stay.
   Refusals: 1 to 9; 5 tests the trail against the allowance alone. */
uint8_t wexlund_walk(size_t width, size_t height, const uint8_t *plan, size_t plan_n, uint8_t *known, size_t known_n,
                     uint16_t *est, size_t est_n, size_t cart, size_t goal, size_t lookahead, size_t limit, size_t allowance,
                     uint16_t *trail, size_t trail_n, uint64_t result[5]);

/* The cart record that a host loop lends: the cart's cell, and running totals of moves, of cells opened and of legs that searched.
   A new one has its start cell and zeros. A total that would pass 4,294,967,295 stays there. */
struct wexlund_cart {
    uint32_t cell, moves, opened, legs;
};

/* One leg for a simulator's own cart: wexlund_leg from the record's cell, which then holds the new cell and the totals. On the goal
   the total of legs does not rise.

   Result: of this leg: ending (arrived, cut off or under way), the cart's new cell, moves, cells opened.
   Written: as by a leg, and the cart record.
   Refusals: 1 to 9. The record stays as it was. */
uint8_t wexlund_host_leg(struct wexlund_cart *cart, size_t width, size_t height, const uint8_t *plan, size_t plan_n,
                         uint8_t *known, size_t known_n, uint16_t *est, size_t est_n, size_t goal, size_t lookahead, size_t limit,
                         uint16_t *trail, size_t trail_n, uint64_t result[4]);

/* The required figure of a trip: the Manhattan distance from start to goal, the moves the trip called for.

   Result: required.
   Refusals: 1, 3 (start or goal). */
uint8_t wexlund_required(size_t width, size_t height, size_t start, size_t goal, uint64_t result[1]);

/* Trip records: 24 bytes each, one after another, no header, low byte first.

    0 serial (2)    2 cart (2)        4 start (2)      6 goal (2)        8 ending (1)    9 zero (1)
   10 last cell (2) 12 moves (4)     16 required (2)  18 lookahead (2)  20 limit (2)    22 zero (2)

   Rules: ending 1, 2 or 3; start, goal and last cell below 4,096; ending 1 exactly when last cell equals goal; moves at most
   16,769,025; required at most 126; lookahead and limit 1 to 4,096; zeros zero. Any serial and cart number is allowed. Serials run
   by one, and the serial after 65,535 is 0; the first may be any. */

/* Writes one record into the room, all 24 bytes of it.

   Refusals: 10 (room_n is not 24), 11. */
uint8_t wexlund_record_write(uint16_t serial, uint16_t cart, uint16_t start, uint16_t goal, uint8_t ending, uint16_t last,
                             uint32_t moves, uint16_t required, uint16_t lookahead, uint16_t limit, uint8_t *room, size_t room_n);

/* Tests a file of records, record by record, 11 before 12 in each.

   Result: the number of records, 0 for an empty file.
   Refusals: 10 to 12. */
uint8_t wexlund_record_count(const uint8_t *bytes, size_t bytes_n, uint64_t result[1]);

/* Reads one record of a file by its number, counted from 0. The whole file is tested first, as wexlund_record_count does.

   Result: serial, cart, start, goal, ending, last cell, moves, required, lookahead, limit.
   Refusals: 10 to 12, then 11 for a number past the end. */
uint8_t wexlund_record_read(const uint8_t *bytes, size_t bytes_n, size_t number, uint64_t result[10]);

#ifdef __cplusplus
}
#endif

#endif
