/* A simulator's loop: it draws a floor, moves its own cart one leg a call until it arrives or is cut off, and books the trip as a
   record. Usage: host [START], the cart's first cell (0). Build: see .ci/host_example. */
#include "wexlund.h"

#include <inttypes.h>
#include <stdio.h>
#include <stdlib.h>

enum { WIDTH = 3, HEIGHT = 2, N = WIDTH * HEIGHT, GOAL = 2, LOOKAHEAD = 1, LIMIT = 1, SERIAL = 65535, CART = 7 };

static const char *const rows[HEIGHT] = {".#.",
                                         "..."};

/* Every entry answers 0 or a refusal's number. A refusal has changed nothing; here it ends the simulation. */
static void check(const char *entry, uint8_t refusal)
{
    if (refusal != 0) {
        fprintf(stderr, "%s: refused %d\n", entry, refusal);
        exit(EXIT_FAILURE);
    }
}

int main(int argc, char **argv)
{
    const uint32_t start = argc > 1 ? strtoul(argv[1], NULL, 10) : 0;
    struct wexlund_cart cart = {.cell = start};
    uint8_t plan[N], known[N] = {0}, record[WEXLUND_RECORD_BYTES];
    uint16_t est[N], trail[LIMIT];
    uint64_t leg[4], required[1], trip[10];

    for (int cell = 0; cell < N; cell++)
        plan[cell] = rows[cell / WIDTH][cell % WIDTH] == '#';
    check("prepare", wexlund_prepare(WIDTH, HEIGHT, GOAL, est, N));
    check("required", wexlund_required(WIDTH, HEIGHT, start, GOAL, required));
    do {
        check("host_leg", wexlund_host_leg(&cart, WIDTH, HEIGHT, plan, N, known, N, est, N, GOAL, LOOKAHEAD, LIMIT,
                                           trail, LIMIT, leg));
        if (leg[3] > 0) /* the leg searched: it opened the cart's own cell at least */
            printf("leg %" PRIu32 " opened %" PRIu64 " moves %" PRIu64 " cell %" PRIu32 "\n", cart.legs, leg[3], leg[2], cart.cell);
    } while (leg[0] == WEXLUND_UNDER_WAY);
    printf("%s moves %" PRIu32 " legs %" PRIu32 " opened %" PRIu32 " required %" PRIu64 "\n",
           leg[0] == WEXLUND_ARRIVED ? "arrived" : "cut off", cart.moves, cart.legs, cart.opened, required[0]);

    check("record_write", wexlund_record_write(SERIAL, CART, start, GOAL, leg[0], cart.cell, cart.moves, required[0],
                                               LOOKAHEAD, LIMIT, record, sizeof record));
    for (size_t i = 0; i < sizeof record; i++)
        printf("%02X%c", record[i], i + 1 < sizeof record ? ' ' : '\n');
    check("record_read", wexlund_record_read(record, sizeof record, 0, trip));
    for (size_t i = 0; i < sizeof trip / sizeof *trip; i++)
        printf("%" PRIu64 "%c", trip[i], i + 1 < sizeof trip / sizeof *trip ? ' ' : '\n');
    return EXIT_SUCCESS;
}
