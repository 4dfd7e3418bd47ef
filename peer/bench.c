/* Times the same walks through the proved library and through the peer, in one process and by turns, and prints a table. Every walk
   starts from prepared estimates and goes on until it arrives or, in a flood, is cut off. All that the two write is compared after
   each pair of runs: a difference ends the program with status 1.

   Usage: bench [--short] */
#define _POSIX_C_SOURCE 200809L
#include "peer.h"
#include "wexlund.h"

#include <inttypes.h>
#include <math.h>
#include <stdarg.h>
#include <stdbool.h>
#include <stdio.h>
#include <stdlib.h>
#include <string.h>
#include <time.h>

enum { SIDE = WEXLUND_MAX_SIDE, CELLS = WEXLUND_MAX_CELLS, MIDDLE = CELLS / 2 + SIDE / 2, MAX_FLOORS = 6, MIN_RUNS = 3, MAX_RUNS = 200 };

/* Of the second table: the side of its small floors, and its lookahead. */
enum { SMALL_SIDE = 16, SERIES_LOOKAHEAD = 9 };

/* What --short lowers: the most floors of a row, and the seconds that the runs of one walk go on. */
static uint32_t most_floors = MAX_FLOORS;
static double patience = 0.25;

typedef uint8_t walk_entry(size_t width, size_t height, const uint8_t *plan, size_t plan_n, uint8_t *known, size_t known_n,
                           uint16_t *est, size_t est_n, size_t cart, size_t goal, size_t lookahead, size_t limit, size_t allowance,
                           uint16_t *trail, size_t trail_n, uint64_t result[5]);

/* A floor with the trip to make on it. */
struct trip {
    uint32_t side, start, goal;
    uint64_t ending; /* the one that a walk must come to */
    uint8_t plan[CELLS];
    uint8_t known[CELLS]; /* before the walk */
    uint16_t est[CELLS];  /* prepared */
};

/* One of the two that are compared, with what it is lent. */
struct planner {
    const char *name;
    walk_entry *walk;
    uint8_t known[CELLS];
    uint16_t est[CELLS];
    uint16_t *trail;
    uint64_t result[5]; /* ending, cell, moves, legs, opened */
};

static struct planner library = {.name = "library", .walk = wexlund_walk};
static struct planner peer = {.name = "peer", .walk = peer_walk};

static _Noreturn void fail(const char *format, ...)
{
    va_list words;
    va_start(words, format);
    fputs("bench: ", stderr);
    vfprintf(stderr, format, words);
    fputc('\n', stderr);
    va_end(words);
    exit(EXIT_FAILURE);
}

/* Numbers that look random, the same ones in every run (splitmix64). */
static uint64_t seed;

static uint32_t below(uint32_t bound)
{
    uint64_t z = seed += 0x9E3779B97F4A7C15;
    z = (z ^ z >> 30) * 0xBF58476D1CE4E5B9;
    z = (z ^ z >> 27) * 0x94D049BB133111EB;
    return (z ^ z >> 31) % bound;
}

/* The cells that lie `step` cells away in one of the four headings. Answers how many. */
static uint32_t steps_to(uint32_t side, uint32_t cell, uint32_t step, uint32_t to[4])
{
    const uint32_t column = cell % side, row = cell / side;
    uint32_t n = 0;
    if (row >= step)
        to[n++] = cell - step * side;
    if (column >= step)
        to[n++] = cell - step;
    if (column + step < side)
        to[n++] = cell + step;
    if (row + step < side)
        to[n++] = cell + step * side;
    return n;
}

/* Whether an open route joins start and goal. */
static bool joined(const struct trip *trip)
{
    static uint32_t reached[CELLS];
    bool seen[CELLS] = {false};
    uint32_t n = 0, to[4];
    seen[trip->start] = true;
    reached[n++] = trip->start;
    for (uint32_t i = 0; i < n && !seen[trip->goal]; i++)
        for (uint32_t left = steps_to(trip->side, reached[i], 1, to); left-- > 0;)
            if (!trip->plan[to[left]] && !seen[to[left]]) {
                seen[to[left]] = true;
                reached[n++] = to[left];
            }
    return seen[trip->goal];
}

/* A depth-first maze, a cell of wall between two rooms. The side is odd: 63 cells make 32 rooms. */
static void draw_maze(struct trip *trip)
{
    static uint32_t path[CELLS];
    uint32_t n = 0, to[4];
    memset(trip->plan, 1, sizeof trip->plan);
    trip->plan[0] = 0;
    path[n++] = 0;
    while (n > 0) {
        const uint32_t room = path[n - 1];
        uint32_t shut = 0;
        const uint32_t near = steps_to(trip->side, room, 2, to);
        for (uint32_t i = 0; i < near; i++)
            if (trip->plan[to[i]])
                to[shut++] = to[i];
        if (shut == 0) {
            n--;
            continue;
        }
        const uint32_t next = to[below(shut)];
        trip->plan[(room + next) / 2] = trip->plan[next] = 0;
        path[n++] = next;
    }
}

/* 30 cells of 100 are blocked. */
static void draw_random(struct trip *trip)
{
    for (uint32_t cell = 0; cell < CELLS; cell++)
        trip->plan[cell] = below(100) < 30;
}

static void draw_open(struct trip *trip)
{
    memset(trip->plan, 0, sizeof trip->plan);
}

static const size_t lookaheads[] = {1, 9, 25, 89, 4096};

/* A kind of walk, which makes a row of the table at each of its lookaheads. A flood has a trip of its own instead of drawn ones. */
static const struct kind {
    const char *name;
    uint32_t side, floors;
    size_t from, to;             /* of the lookaheads, the least and the greatest */
    void (*draw)(struct trip *); /* draws a plan; NULL in a flood */
    bool hard;                   /* whether the first of the two means counts it */
    uint32_t start, goal;        /* of a flood */
} kinds[] = {
    {"maze, 63 by 63", SIDE - 1, MAX_FLOORS, 1, 4096, .draw = draw_maze, .hard = true},
    {"30 percent blocked, 64 by 64", SIDE, MAX_FLOORS, 1, 4096, .draw = draw_random, .hard = true},
    {"open, 64 by 64", SIDE, MAX_FLOORS, 1, 4096, .draw = draw_open},
    {"open, 16 by 16", SMALL_SIDE, MAX_FLOORS, SERIES_LOOKAHEAD, SERIES_LOOKAHEAD, .draw = draw_open},
    {"flood, 64 by 64, goal in the corner", SIDE, 1, 4096, 4096, .start = 0, .goal = CELLS - 1},
    {"flood, 64 by 64, goal in the middle", SIDE, 1, 4096, 4096, .start = 0, .goal = MIDDLE},
    {"flood, 64 by 64, cart and goal in the middle", SIDE, 1, 4096, 4096, .start = MIDDLE - SIDE - 1, .goal = MIDDLE},
};

enum { LOOKAHEADS = sizeof lookaheads / sizeof *lookaheads, KINDS = sizeof kinds / sizeof *kinds };

/* Prepares the estimates of a trip and answers the moves that it calls for. */
static uint64_t prepare(struct trip *trip)
{
    const size_t n = trip->side * trip->side;
    uint64_t required[1];
    uint8_t refusal = wexlund_prepare(trip->side, trip->side, trip->goal, trip->est, n);
    if (refusal == 0)
        refusal = wexlund_required(trip->side, trip->side, trip->start, trip->goal, required);
    if (refusal != 0)
        fail("preparing a trip was refused by %d", refusal);
    return required[0];
}

/* Draws a floor with start and goal joined by an open route, of which nothing is known. The first of a kind is crossed from corner
   to corner; the other trips call for at least a side's length of moves. */
static void draw_trip(struct trip *trip, const struct kind *kind, uint32_t number)
{
    *trip = (struct trip){.side = kind->side, .ending = WEXLUND_ARRIVED};
    seed = 1000 * (kind - kinds) + number;
    do {
        kind->draw(trip);
        const uint32_t n = trip->side * trip->side;
        trip->start = number == 0 ? 0 : below(n);
        trip->goal = number == 0 ? n - 1 : below(n);
    } while (trip->plan[trip->start] || trip->plan[trip->goal] || !joined(trip) || prepare(trip) < trip->side);
}

/* Makes the trip of a flood: all of the floor is known, and all of it is open but the cells round the goal, so that the one leg
   opens every cell that the cart can reach. */
static void wall_in(struct trip *trip, const struct kind *kind)
{
    uint32_t to[4];
    *trip = (struct trip){.side = kind->side, .start = kind->start, .goal = kind->goal, .ending = WEXLUND_CUT_OFF};
    for (uint32_t left = steps_to(trip->side, trip->goal, 1, to); left-- > 0;)
        trip->plan[to[left]] = trip->known[to[left]] = 1;
    prepare(trip);
}

static double seconds(void)
{
    struct timespec now;
    clock_gettime(CLOCK_MONOTONIC, &now);
    return now.tv_sec + now.tv_nsec * 1e-9;
}

/* The time of one walk. */
static double timed(struct planner *planner, const struct trip *trip, size_t lookahead)
{
    const size_t n = trip->side * trip->side, allowance = (n - 1) * (n - 1);
    memcpy(planner->known, trip->known, n);
    memcpy(planner->est, trip->est, n * sizeof *trip->est);
    const double began = seconds();
    const uint8_t refusal =
        planner->walk(trip->side, trip->side, trip->plan, n, planner->known, n, planner->est, n, trip->start, trip->goal, lookahead,
                      WEXLUND_MAX_LIMIT, allowance, planner->trail, allowance, planner->result);
    const double took = seconds() - began;
    if (refusal != 0)
        fail("the %s refused a walk by %d", planner->name, refusal);
    if (planner->result[0] != trip->ending)
        fail("a walk of the %s ended in %" PRIu64 ", not in %" PRIu64, planner->name, planner->result[0], trip->ending);
    return took;
}

static void compare(size_t n)
{
    const char *what = NULL;
    if (memcmp(library.result, peer.result, sizeof peer.result) != 0)
        what = "result";
    else if (memcmp(library.known, peer.known, n) != 0)
        what = "known map";
    else if (memcmp(library.est, peer.est, n * sizeof *peer.est) != 0)
        what = "estimates";
    else if (memcmp(library.trail, peer.trail, peer.result[2] * sizeof *peer.trail) != 0)
        what = "trail";
    if (what != NULL)
        fail("library and peer differ: %s", what);
}

static double least(double a, double b)
{
    return a < b ? a : b;
}

/* A row of the table. Its figures are sums over the floors. */
struct row {
    const struct kind *kind;
    size_t lookahead;
    uint32_t floors;
    uint64_t moves, legs, opened;
    double library, peer; /* seconds */
};

/* Adds a floor to a row: runs of both planners by turns, of each the least time. */
static void add_floor(struct row *row, const struct trip *trip)
{
    double by_library = 1e9, by_peer = 1e9;
    const double began = seconds();
    for (int run = 0; run < MIN_RUNS || (run < MAX_RUNS && seconds() - began < patience); run++) {
        by_library = least(by_library, timed(&library, trip, row->lookahead));
        by_peer = least(by_peer, timed(&peer, trip, row->lookahead));
        compare(trip->side * trip->side);
    }
    row->floors++;
    row->moves += peer.result[2];
    row->legs += peer.result[3];
    row->opened += peer.result[4];
    row->library += by_library;
    row->peer += by_peer;
}

/* The rows timed so far. */
static struct row rows[KINDS * LOOKAHEADS];
static size_t rows_n;

static void time_row(const struct kind *kind, size_t lookahead)
{
    static struct trip trip;
    struct row *row = &rows[rows_n++];
    *row = (struct row){.kind = kind, .lookahead = lookahead};
    while (row->floors < kind->floors && row->floors < most_floors) {
        if (kind->draw == NULL)
            wall_in(&trip, kind);
        else
            draw_trip(&trip, kind, row->floors);
        add_floor(row, &trip);
    }
    printf("| %s, lookahead %zu | %" PRIu32 " | %" PRIu64 " | %" PRIu64 " | %" PRIu64 " | %.1f | %.1f | %.2f |\n", kind->name,
           lookahead, row->floors, row->moves, row->legs, row->opened, row->library / row->floors * 1e6,
           row->peer / row->floors * 1e6, row->library / row->peer);
    fflush(stdout);
}

/* The geometric mean of library / peer, over the hard rows or over all. */
static double mean_ratio(bool all)
{
    double logs = 0;
    uint32_t n = 0;
    for (const struct row *row = rows; row < rows + rows_n; row++)
        if (all || row->kind->hard) {
            logs += log(row->library / row->peer);
            n++;
        }
    return exp(logs / n);
}

/* The open floors of one side, the library's least time for each, and all cells opened on them. The last trip of the list, after
   those of the floors, starts on its goal: its time is the entry costs of any walk on a floor of that side. */
struct series {
    const struct kind *kind;
    struct trip trips[MAX_FLOORS + 1];
    double took[MAX_FLOORS + 1];
    uint64_t opened;
};

static void draw_series(struct series *series, uint32_t side)
{
    series->kind = kinds;
    while (series->kind->draw != draw_open || series->kind->side != side)
        series->kind++;
    for (uint32_t i = 0; i <= most_floors; i++) {
        draw_trip(&series->trips[i], series->kind, i);
        series->took[i] = 1e9;
    }
    struct trip *last = &series->trips[most_floors];
    last->goal = last->start;
    prepare(last);
}

/* One more run of each trip. */
static void run_series(struct series *series)
{
    series->opened = 0;
    for (uint32_t i = 0; i <= most_floors; i++) {
        series->took[i] = least(series->took[i], timed(&library, &series->trips[i], SERIES_LOOKAHEAD));
        series->opened += library.result[4];
    }
}

/* Prints a series' line of the second table, and answers the library's time for a cell opened, entry costs taken off. */
static double print_series(const struct series *series)
{
    const double entry = series->took[most_floors];
    double walks = 0;
    for (uint32_t i = 0; i < most_floors; i++)
        walks += series->took[i];
    const double cell = (walks - most_floors * entry) / series->opened;
    printf("| %s, lookahead %d | %" PRIu64 " | %.3f | %.3f | %.1f |\n", series->kind->name, SERIES_LOOKAHEAD, series->opened,
           walks / most_floors * 1e6, entry * 1e6, cell * 1e9);
    return cell;
}

static void print_first_table(void)
{
    puts("| walk | floors | moves | legs | cells opened | library, us a walk | peer, us a walk | library / peer |");
    puts("|---|---:|---:|---:|---:|---:|---:|---:|");
    for (const struct kind *kind = kinds; kind < kinds + KINDS; kind++)
        for (size_t i = 0; i < LOOKAHEADS; i++)
            if (kind->from <= lookaheads[i] && lookaheads[i] <= kind->to)
                time_row(kind, lookaheads[i]);
    printf("| geometric mean, mazes and 30 percent blocked | | | | | | | %.2f |\n", mean_ratio(false));
    printf("| geometric mean, all rows | | | | | | | %.2f |\n", mean_ratio(true));
    printf("\nMoves, legs and cells opened are sums over the floors. A time is the least of at least %d runs of a walk, on\n"
           "average over the floors; the move limit is 4,096. The library is timed as callers call it: its times have its input\n"
           "checks and the making of its working room, once a walk; the peer has no checks and keeps its room. A flood knows its\n"
           "whole floor from the start, and its goal is walled in: its one leg opens every cell that the cart can reach, and the\n"
           "walk ends cut off. All other walks start knowing no blocked cell, and arrive. A mean counts each of its rows once.\n\n",
           MIN_RUNS);
}

/* Compares a small floor with a large one. All trips of both take turns, since a machine that is faster at one time than at another
   would else show as a difference between the two: most of each time is entry costs, and what is left is small. */
static void print_second_table(void)
{
    static struct series small, large;
    draw_series(&small, SMALL_SIDE);
    draw_series(&large, SIDE);
    const double began = seconds();
    for (int run = 0; run < MIN_RUNS || seconds() - began < 8 * patience; run++) {
        run_series(&small);
        run_series(&large);
    }
    puts("| walk | cells opened | library, us a walk | on the goal, us a walk | library, ns a cell opened |");
    puts("|---|---:|---:|---:|---:|");
    const double by_small = print_series(&small), by_large = print_series(&large);
    printf("| 64 by 64 / 16 by 16 | | | | %.2f |\n", by_large / by_small);
    puts("\nTwo rows again, the library alone, to see whether a cell opened costs more on a larger floor. A walk whose cart\n"
         "stands on its goal shows what the input checks and the making of the working room cost, which a walk pays once and\n"
         "which grow with the floor. This is taken off each walk before its time is divided by the cells opened.");
}

int main(int argc, char **argv)
{
    const bool is_short = argc == 2 && strcmp(argv[1], "--short") == 0;
    if (argc > 1 && !is_short)
        fail("usage: bench [--short]");
    if (is_short) {
        most_floors = 2;
        patience = 0.02;
    }
    library.trail = malloc(WEXLUND_MAX_MOVES * sizeof *library.trail);
    peer.trail = malloc(WEXLUND_MAX_MOVES * sizeof *peer.trail);
    if (library.trail == NULL || peer.trail == NULL)
        fail("no memory for the trails");
    print_first_table();
    print_second_table();
    return EXIT_SUCCESS;
}
