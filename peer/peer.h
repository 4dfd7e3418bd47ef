/* The peer: one walk of document 01 in plain C, written for speed, as a yardstick for the proved library. */
#ifndef PEER_H
#define PEER_H

#include <stddef.h>
#include <stdint.h>

/* Takes what wexlund_walk takes, writes what it writes and answers in the same order. It has no input checks: only inputs that the
   library accepts may be handed over, and the answer is always 0. It has one working room, so one call at a time. */
uint8_t peer_walk(size_t width, size_t height, const uint8_t *plan, size_t plan_n, uint8_t *known, size_t known_n,
                  uint16_t *est, size_t est_n, size_t cart, size_t goal, size_t lookahead, size_t limit, size_t allowance,
                  uint16_t *trail, size_t trail_n, uint64_t result[5]);

#endif
