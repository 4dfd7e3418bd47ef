/* Calls the entries of wexlund.h for `independent compare`, case by case, and sends back everything that came of it. Linked with
   the proved planner, or with the stub that plays the wrong ones. src/compare/driver.rs has the protocol.

   Each lent slice has its own pages, with an inaccessible guard page before and behind them. The slice lies at one edge, so that
   it touches a guard: by a bit of the case its end does or its start. Bytes between the slice and the other edge hold a pattern,
   which is tested after the call. A slice of no elements has no pages and points between its two guards. Slices lent as const can
   only be read during the call. Use: driver [SECONDS], the time that one call may take. */

#include <signal.h>
#include <stdint.h>
#include <stdio.h>
#include <stdlib.h>
#include <string.h>
#include <sys/mman.h>
#include <unistd.h>

#include "wexlund.h"

enum { MAX_NUMBERS = 16, MAX_SLICES = 8 };
enum how { ANSWERED, TOUCHED, CHANGED, LATE };
enum place { BEFORE, BEHIND, WITHIN };
enum entry { PREPARE, REQUIRED, LEG, HOST_LEG, WALK, WRITE, COUNT, READ };

struct slice {
    unsigned char *map; /* the guard before; then the pages; then the guard behind */
    unsigned char *start;
    size_t pages_n, n; /* in bytes */
    int writable;
};

static size_t page;
static unsigned seconds = 10;
static uint64_t number[MAX_NUMBERS];
static struct slice lent[MAX_SLICES];
static size_t lent_n;

static void stop(const char *why) {
    fprintf(stderr, "driver: %s\n", why);
    exit(2);
}

static void take(void *to, size_t n) {
    if (n > 0 && fread(to, n, 1, stdin) != 1) stop("the case ends too soon");
}

static uint64_t take_number(size_t bytes) {
    unsigned char raw[8];
    uint64_t value = 0;
    take(raw, bytes);
    while (bytes > 0) value = value << 8 | raw[--bytes];
    return value;
}

/* The byte that the pattern has at this place beside a slice. */
static unsigned char pattern(size_t at) {
    return (unsigned char)(at * 29 + 165);
}

static void lend(struct slice *slice, int ends_at_guard) {
    slice->writable = (int)take_number(1);
    slice->n = take_number(4);
    slice->pages_n = (slice->n + page - 1) / page * page;
    slice->map = mmap(NULL, slice->pages_n + 2 * page, PROT_NONE, MAP_PRIVATE | MAP_ANONYMOUS, -1, 0);
    if (slice->map == MAP_FAILED) stop("no memory");
    unsigned char *pages = slice->map + page;
    slice->start = ends_at_guard ? pages + slice->pages_n - slice->n : pages;
    if (slice->pages_n == 0) return;
    if (mprotect(pages, slice->pages_n, PROT_READ | PROT_WRITE) != 0) stop("a page can't be opened");
    for (size_t at = 0; at < slice->pages_n; at++) pages[at] = pattern(at);
    take(slice->start, slice->n);
    if (!slice->writable && mprotect(pages, slice->pages_n, PROT_READ) != 0) stop("a page can't be closed");
}

static void tell(enum how how, unsigned char which, enum place place) {
    unsigned char words[3] = {how, which, place};
    if (write(STDOUT_FILENO, words, how == LATE ? 1 : 3) < 0) _exit(2);
    _exit(1);
}

/* Something was touched that was not lent, or not for writing: tells which slice is near, and ends. */
static void on_touch(int signal, siginfo_t *info, void *context) {
    (void)signal;
    (void)context;
    unsigned char *at = info->si_addr;
    for (size_t i = 0; i < lent_n; i++) {
        struct slice *slice = &lent[i];
        if (at < slice->map || at >= slice->map + slice->pages_n + 2 * page) continue;
        tell(TOUCHED, (unsigned char)i, at < slice->start ? BEFORE : at >= slice->start + slice->n ? BEHIND : WITHIN);
    }
    tell(TOUCHED, 255, BEFORE);
}

static void on_late(int signal) {
    (void)signal;
    tell(LATE, 0, BEFORE);
}

/* The signals are handled on a stack of their own, so that a call that uses up its stack is told too. */
static void watch(void) {
    static unsigned char room[1 << 16];
    stack_t stack = {.ss_sp = room, .ss_size = sizeof room};
    struct sigaction touch = {.sa_sigaction = on_touch, .sa_flags = SA_SIGINFO | SA_ONSTACK};
    struct sigaction late = {.sa_handler = on_late, .sa_flags = SA_ONSTACK};
    int done = sigaltstack(&stack, NULL) == 0 && sigaction(SIGSEGV, &touch, NULL) == 0 && sigaction(SIGBUS, &touch, NULL) == 0 &&
               sigaction(SIGALRM, &late, NULL) == 0;
    if (!done) stop("signals can't be handled");
}

/* The slices of a leg or walk, from the plan on, as the entries take them. */
#define MAPS(i) \
    number[0], number[1], lent[i].start, lent[i].n, lent[i + 1].start, lent[i + 1].n, (void *)lent[i + 2].start, \
        lent[i + 2].n / sizeof(uint16_t)
#define TRAIL(i) (void *)lent[i].start, lent[i].n / sizeof(uint16_t), (void *)lent[i + 1].start

static uint8_t call(enum entry entry) {
    const uint64_t *n = number;
    switch (entry) {
    case PREPARE:
        return wexlund_prepare(n[0], n[1], n[2], (void *)lent[0].start, lent[0].n / sizeof(uint16_t));
    case REQUIRED:
        return wexlund_required(n[0], n[1], n[2], n[3], (void *)lent[0].start);
    case LEG:
        return wexlund_leg(MAPS(0), n[2], n[3], n[4], n[5], TRAIL(3));
    case HOST_LEG:
        return wexlund_host_leg((void *)lent[0].start, MAPS(1), n[2], n[3], n[4], TRAIL(4));
    case WALK:
        return wexlund_walk(MAPS(0), n[2], n[3], n[4], n[5], n[6], TRAIL(3));
    case WRITE:
        return wexlund_record_write((uint16_t)n[0], (uint16_t)n[1], (uint16_t)n[2], (uint16_t)n[3], (uint8_t)n[4], (uint16_t)n[5],
                                    (uint32_t)n[6], (uint16_t)n[7], (uint16_t)n[8], (uint16_t)n[9], lent[0].start, lent[0].n);
    case COUNT:
        return wexlund_record_count(lent[0].start, lent[0].n, (void *)lent[1].start);
    case READ:
        return wexlund_record_read(lent[0].start, lent[0].n, n[0], (void *)lent[1].start);
    }
    stop("no such entry");
    return 0;
}

/* Tests that the bytes beside each slice are as they were. */
static void test_patterns(void) {
    for (size_t i = 0; i < lent_n; i++) {
        unsigned char *pages = lent[i].map + page, *end = lent[i].start + lent[i].n;
        for (size_t at = 0; at < lent[i].pages_n; at++) {
            if (pages + at >= lent[i].start && pages + at < end) continue;
            if (pages[at] != pattern(at)) tell(CHANGED, (unsigned char)i, pages + at < lent[i].start ? BEFORE : BEHIND);
        }
    }
}

static void answer(uint8_t returned) {
    unsigned char words[2] = {ANSWERED, returned};
    fwrite(words, sizeof words, 1, stdout);
    for (size_t i = 0; i < lent_n; i++) {
        fwrite(lent[i].start, 1, lent[i].n, stdout);
        munmap(lent[i].map, lent[i].pages_n + 2 * page);
    }
    if (fflush(stdout) != 0) stop("the answer can't be sent");
}

int main(int argc, char **argv) {
    page = (size_t)sysconf(_SC_PAGESIZE);
    if (argc > 1) seconds = (unsigned)atoi(argv[1]);
    watch();
    fputs("wexlund driver\n", stdout);
    fflush(stdout);
    for (int entry = getchar(); entry != EOF; entry = getchar()) {
        uint64_t edges = take_number(1), numbers_n = take_number(1);
        if (numbers_n > MAX_NUMBERS) stop("too many numbers");
        for (size_t i = 0; i < numbers_n; i++) number[i] = take_number(8);
        lent_n = take_number(1);
        if (lent_n > MAX_SLICES) stop("too many slices");
        for (size_t i = 0; i < lent_n; i++) lend(&lent[i], edges >> i & 1);
        alarm(seconds);
        uint8_t returned = call((enum entry)entry);
        alarm(0);
        test_patterns();
        answer(returned);
    }
    return 0;
}
