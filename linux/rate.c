/* Measures the kernel's polling thread by the rows of `out/loads --bench`: the median of 15 rounds, in ns a unit. */
#include <errno.h>
#include <liburing.h>
#include <stdbool.h>
#include <stdio.h>
#include <stdlib.h>
#include <string.h>
#include <time.h>
#include <unistd.h>

enum { ENTRIES = 1024, PIPES = 64, BYTES = 8, ROUNDS = 15, IDLE_MS = 1000, NS = 1000000000 };

enum kind { NOP, PAIR, READ_CANCEL, TIMEOUT_REMOVE };

static const char *const names[] = {"NOP", "WRITE and linked READ", "READ and cancel", "TIMEOUT and remove"};

static const struct row {
    enum kind kind;
    unsigned depth;
} rows[] = {{NOP, 1},          {NOP, 8},          {NOP, 64},           {NOP, 256},          {PAIR, 1},
            {PAIR, 16},        {READ_CANCEL, 1},  {READ_CANCEL, 16},   {TIMEOUT_REMOVE, 1}, {TIMEOUT_REMOVE, 16}};

static struct io_uring ring;
static int pipes[PIPES][2];
static char buffers[PIPES][2][BYTES];
static uint64_t next; /* the next unit */

static _Noreturn void fail(const char *what, int error)
{
    fprintf(stderr, "rate: %s: %s\n", what, strerror(error));
    exit(error == ENOSYS || error == EPERM ? 2 : 1);
}

static uint64_t now(void)
{
    struct timespec time;
    clock_gettime(CLOCK_MONOTONIC, &time);
    return (uint64_t)time.tv_sec * NS + (uint64_t)time.tv_nsec;
}

static struct io_uring_sqe *entry(unsigned which)
{
    struct io_uring_sqe *sqe = io_uring_get_sqe(&ring);
    while (!sqe) {
        io_uring_sqring_wait(&ring);
        sqe = io_uring_get_sqe(&ring);
    }
    io_uring_sqe_set_data64(sqe, next * 2 + which);
    return sqe;
}

/* Adds the next unit's entries. */
static void add(enum kind kind)
{
    static struct __kernel_timespec late = {.tv_sec = 1000};
    uint64_t target = next * 2;
    int *pipe = pipes[next % PIPES];
    struct io_uring_sqe *sqe = entry(0);
    uint64_t data = sqe->user_data;
    switch (kind) {
    case NOP:
        io_uring_prep_nop(sqe);
        break;
    case PAIR:
        io_uring_prep_write(sqe, pipe[1], buffers[next % PIPES][0], BYTES, 0);
        sqe->flags |= IOSQE_IO_LINK;
        break;
    case READ_CANCEL:
        io_uring_prep_read(sqe, pipes[0][0], buffers[next % PIPES][1], BYTES, 0);
        break;
    case TIMEOUT_REMOVE:
        io_uring_prep_timeout(sqe, &late, 0, 0);
        break;
    }
    sqe->user_data = data;
    if (kind != NOP) {
        sqe = entry(1);
        data = sqe->user_data;
        if (kind == PAIR)
            io_uring_prep_read(sqe, pipe[0], buffers[next % PIPES][1], BYTES, 0);
        else if (kind == READ_CANCEL)
            io_uring_prep_cancel64(sqe, target, 0);
        else
            io_uring_prep_timeout_remove(sqe, target, 0);
        sqe->user_data = data;
    }
    next++;
}

/* The completion is what its unit is for. */
static void judge(enum kind kind, const struct io_uring_cqe *cqe)
{
    bool is_first = cqe->user_data % 2 == 0;
    int wanted = kind == PAIR ? BYTES : kind != NOP && is_first ? -ECANCELED : 0;
    if (cqe->res != wanted)
        fail("a completion says", -cqe->res);
}

/* So many units, of which as many are in flight as the row says: its time in ns. */
static uint64_t one_round(const struct row *row, uint64_t units)
{
    uint64_t begun = 0, open = 0, entries = row->kind == NOP ? 1 : 2, began = now();
    while (begun < units || open) {
        uint64_t in_flight = (open + entries - 1) / entries;
        bool has_more = false;
        for (; begun < units && in_flight < row->depth; begun++, in_flight++) {
            add(row->kind);
            open += entries;
            has_more = true;
        }
        if (has_more && io_uring_submit(&ring) < 0)
            fail("submit", errno);
        struct io_uring_cqe *cqe;
        unsigned head, count = 0;
        io_uring_for_each_cqe(&ring, head, cqe) {
            judge(row->kind, cqe);
            count++;
        }
        io_uring_cq_advance(&ring, count);
        open -= count;
    }
    return now() - began;
}

static int by_time(const void *one, const void *other)
{
    uint64_t a = *(const uint64_t *)one, b = *(const uint64_t *)other;
    return (a > b) - (a < b);
}

int main(void)
{
    struct io_uring_params params = {.flags = IORING_SETUP_SQPOLL | IORING_SETUP_SINGLE_ISSUER, .sq_thread_idle = IDLE_MS};
    int error = io_uring_queue_init_params(ENTRIES, &ring, &params);
    if (error)
        fail("no ring", -error);
    for (int i = 0; i < PIPES; i++)
        if (pipe(pipes[i]))
            fail("pipe", errno);
    for (size_t i = 0; i < sizeof rows / sizeof *rows; i++) {
        const struct row *row = &rows[i];
        uint64_t units = 4000 * (row->depth < 16 ? row->depth : 16), times[ROUNDS];
        one_round(row, units);
        for (int round = 0; round < ROUNDS; round++)
            times[round] = one_round(row, units);
        qsort(times, ROUNDS, sizeof *times, by_time);
        printf("%s, %u in flight: %.0f ns\n", names[row->kind], row->depth, (double)times[ROUNDS / 2] / (double)units);
        fflush(stdout);
    }
    io_uring_queue_exit(&ring);
    return 0;
}
