/* How long a NOP takes by all calls of one thread: the median of 301 rounds of 1,000, which are short enough to show it beside other work. */
#define _POSIX_C_SOURCE 199309L
#include "tombezary.h"

#include <stdio.h>
#include <stdlib.h>
#include <time.h>

enum { ROUNDS = 301, COUNT = 1000 };

static int64_t now(void) {
    struct timespec t;
    clock_gettime(CLOCK_MONOTONIC, &t);
    return (int64_t)t.tv_sec * 1000000000 + t.tv_nsec;
}

static void must(tz_code code, const char *what) {
    if (code == TZ_OK) return;
    fprintf(stderr, "%s: %s\n", what, tz_name(code));
    exit(1);
}

static int less(const void *a, const void *b) {
    int64_t x = *(const int64_t *)a, y = *(const int64_t *)b;
    return (x > y) - (x < y);
}

int main(void) {
    tz_handle poller = TZ_CLOSED_HANDLE, client = TZ_CLOSED_HANDLE, worker = TZ_CLOSED_HANDLE;
    const uint32_t cells = 64;
    const tz_shape shape = {&cells, 1, NULL, 0, 1};
    tz_number ready[4], answered[4];
    tz_turn turn = {.ready = ready, .ready_room = 4, .answered = answered, .answered_room = 4};
    int64_t rounds[ROUNDS];
    must(tz_new(&shape, &poller, &client, &worker), "new");
    for (int round = 0; round < ROUNDS; round++) {
        int64_t start = now();
        for (uint64_t n = 0; n < COUNT; n++) {
            tz_sqe sqe = tz_prep_nop();
            tz_cqe ran, cqe;
            tz_number number = {0, 0};
            sqe.user_data = n;
            must(tz_submit(&client, &sqe, 1, NULL, 0, &number.k), "submit");
            must(tz_poll(&poller, &turn), "poll");
            must(tz_work(&worker, turn.ready[0], &ran, NULL), "work");
            must(tz_reap(&client, number, &cqe, NULL), "reap");
            if (turn.ready_count != 1 || cqe.user_data != n || cqe.res != 0) must(TZ_MISSING, "completion");
        }
        rounds[round] = now() - start;
    }
    qsort(rounds, ROUNDS, sizeof *rounds, less);
    printf("NOP from C: %lld ns\n", (long long)(rounds[ROUNDS / 2] / COUNT));
    size_t lines;
    must(tz_finish(&poller, &client, 1, &worker, 1, &lines), "finish");
    must(tz_close(&poller), "close");
    return lines != 0;
}
