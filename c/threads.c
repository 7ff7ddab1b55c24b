/* A poller, two workers, two clients and a queue of the program's own between them, each in a thread of its own: a million requests.
 * Each is reaped once, or stands in the report once. */
#define _POSIX_C_SOURCE 200809L
#include "tombezary.h"

#include <pthread.h>
#include <sched.h>
#include <stdio.h>
#include <stdlib.h>

enum { CELLS = 64, ROOM = 256 };
static uint64_t count = 500000; /* requests of each client */
static tz_handle poller, clients[2], workers[2];
static unsigned char *told[2]; /* how often each request was told */

static void must(tz_code code, const char *what) {
    if (code == TZ_OK) return;
    fprintf(stderr, "%s: %s\n", what, tz_name(code));
    exit(1);
}

static pthread_mutex_t lock = PTHREAD_MUTEX_INITIALIZER;
static tz_number queue[ROOM];
static size_t head, tail;
static int over, clients_left = 2;

static void put(tz_number number) {
    pthread_mutex_lock(&lock);
    if (tail - head == ROOM) must(TZ_FULL, "the queue");
    queue[tail++ % ROOM] = number;
    pthread_mutex_unlock(&lock);
}

static int take(tz_number *number) {
    pthread_mutex_lock(&lock);
    int found = head < tail;
    if (found) *number = queue[head++ % ROOM];
    pthread_mutex_unlock(&lock);
    return found;
}

static int is_over(void) {
    pthread_mutex_lock(&lock);
    int is = over;
    pthread_mutex_unlock(&lock);
    return is;
}

static void *poll_on(void *nothing) {
    tz_number ready[32], answered[32];
    tz_turn turn = {.ready = ready, .ready_room = 32, .answered = answered, .answered_room = 32};
    while (!is_over()) {
        must(tz_poll(&poller, &turn), "poll");
        for (size_t i = 0; i < turn.ready_count; i++) put(ready[i]);
        if (!turn.moved) sched_yield();
    }
    return nothing;
}

static void *work_on(void *worker) {
    tz_number number;
    tz_cqe cqe;
    while (!is_over()) {
        if (!take(&number)) {
            sched_yield();
            continue;
        }
        tz_code code = tz_work(worker, number, &cqe, NULL);
        if (code == TZ_PARKED || code == TZ_PIPE_BUSY) put(number);
        else if (code != TZ_NOT_READY) must(code, "work");
    }
    return NULL;
}

static tz_sqe entry_of(int ring, uint64_t k) {
    tz_sqe sqe = k % 4 ? tz_prep_nop() : ring ? tz_prep_read(0, 1) : tz_prep_write(1, 1);
    sqe.user_data = k;
    return sqe;
}

static void *client_of(void *ring_at) {
    int ring = *(int *)ring_at;
    uint64_t first, submitted = 0, reaped = 0;
    while (submitted < count) {
        tz_sqe sqe = entry_of(ring, submitted);
        tz_code code = tz_submit(&clients[ring], &sqe, 1, "b", sqe.len, &first);
        if (code == TZ_OK) {
            if (first != submitted++) must(TZ_MISSING, "a number");
            continue;
        }
        if (code != TZ_FULL) must(code, "submit");
        tz_number number = {(uint16_t)ring, reaped};
        tz_cqe cqe;
        code = tz_reap(&clients[ring], number, &cqe, NULL);
        if (code == TZ_NOT_YET) {
            sched_yield();
            continue;
        }
        must(code, "reap");
        if (cqe.user_data != reaped || cqe.res != (reaped % 4 ? 0 : 1)) must(TZ_MISSING, "a completion");
        told[ring][reaped++]++;
    }
    pthread_mutex_lock(&lock);
    over = --clients_left == 0;
    pthread_mutex_unlock(&lock);
    return NULL;
}

int main(int argc, char **argv) {
    const uint32_t rings[] = {CELLS, CELLS}, pipe = 16;
    const tz_shape shape = {rings, 2, &pipe, 1, 2};
    pthread_t threads[5];
    int ring[] = {0, 1};
    size_t lines;
    if (argc > 1) count = strtoull(argv[1], NULL, 10);
    for (int i = 0; i < 2; i++)
        if (!(told[i] = calloc(count, 1))) must(TZ_MEMORY, "calloc");
    must(tz_new(&shape, &poller, clients, workers), "new");
    int failed = pthread_create(&threads[0], NULL, poll_on, NULL);
    for (int i = 0; i < 2; i++) {
        failed |= pthread_create(&threads[1 + i], NULL, work_on, &workers[i]);
        failed |= pthread_create(&threads[3 + i], NULL, client_of, &ring[i]);
    }
    if (failed) must(TZ_MEMORY, "threads");
    for (int i = 0; i < 5; i++) pthread_join(threads[i], NULL);
    must(tz_finish(&poller, clients, 2, workers, 2, &lines), "finish");
    for (size_t i = 0; i < lines; i++) {
        tz_line line;
        must(tz_report(&poller, i, &line), "report");
        told[line.number.ring][line.number.k]++;
    }
    must(tz_close(&poller), "close");
    for (int i = 0; i < 2; i++)
        for (uint64_t k = 0; k < count; k++)
            if (told[i][k] != 1) must(TZ_MISSING, "a request was not told once");
    printf("threads: %llu requests, each told once\n", (unsigned long long)(2 * count));
    for (int i = 0; i < 2; i++) free(told[i]);
    return 0;
}
