/* Tombezary: rings with the behaviour of Linux io_uring with a polling thread, over in-memory pipes, proved.
 *
 * docs/C.md has a whole small program, and says what of the headline holds for a caller in C and under which conditions.
 *
 * What the caller owes at each call, since nobody can check it:
 * - Each pointer that isn't NULL leads to as many objects as the call says, which nobody else uses until it returns.
 * - A handle begins as TZ_CLOSED_HANDLE, or all zero, is changed by these calls alone, and never copied.
 * - A handle is in one call at a time. It may go from thread to thread, in an order made by a lock, a thread's start or join, or
 *   a sequentially consistent atomic.
 * - No call is made by a signal handler, or by the forked child of a process with threads.
 *
 * Each call answers a code. A call that doesn't answer TZ_OK changes nothing: not what a handle leads to, but for what its pass
 * has seen, and nothing behind another pointer. TZ_PARKED and TZ_PIPE_BUSY are the two exceptions: the worker began the request
 * and put it back. */
#ifndef TOMBEZARY_H
#define TOMBEZARY_H

#include <stddef.h>
#include <stdint.h>

#ifdef __cplusplus
extern "C" {
#endif

enum {
    TZ_OK = 0,
    TZ_CLOSED = 1,        /* a handle leads to nothing: it was never opened, or given back */
    TZ_WRONG_KIND = 2,    /* a handle leads to something of another kind */
    TZ_IN_USE = 3,        /* a handle that is to be opened leads to something */
    TZ_MEMORY = 4,        /* malloc found nothing */
    TZ_LENGTH = 5,        /* an array is too short */
    TZ_FULL = 6,          /* the ring is full (io_uring_get_sqe gives NULL) */
    TZ_BUFFER_LENGTH = 7, /* the bytes handed in are not just the buffers of the entries */
    TZ_SPENT = 8,         /* a cell has had its 16,777,215 requests */
    TZ_NOT_YET = 9,       /* no reply yet (io_uring_peek_cqe: -EAGAIN) */
    TZ_GONE = 10,         /* its completion was taken before */
    TZ_FOREIGN = 11,      /* a request of another ring, or a pass of another board */
    TZ_NOT_READY = 12,    /* the request is not ready to run, or there is no such ring */
    TZ_PARKED = 13,       /* there is no answer now: run it again later */
    TZ_PIPE_BUSY = 14,    /* another worker has its pipe: run it again */
    TZ_CLOCK_END = 15,    /* the clock doesn't go back, and ends at 2147483647 */
    TZ_BAD_SHAPE = 16,    /* a board of this shape can't be */
    TZ_MISSING = 17,      /* a pass has not come back, or there is no such line */
    TZ_NULL = 18          /* a pointer is NULL */
};
typedef uint32_t tz_code;

/* The name of a code. */
const char *tz_name(tz_code code);

/* A handle: of a board's poller, of the client of a ring, of a worker, or of a report. Its fields are the library's. */
typedef struct tz_handle {
    void *at;
    uint64_t is_open;
    uint64_t stamp;
} tz_handle;
#define TZ_CLOSED_HANDLE {NULL, 0, 0}

/* A request: the k-th (from 0) that was submitted to this ring (from 0). */
typedef struct tz_number {
    uint16_t ring;
    uint64_t k;
} tz_number;

/* A submission queue entry, as struct io_uring_sqe. docs/FORMATS.md says which fields each opcode has. */
typedef struct tz_sqe {
    uint8_t opcode, flags;
    uint16_t ioprio;
    int32_t fd;
    uint64_t off, addr;
    uint32_t len, word;
    uint64_t user_data;
    uint16_t buf_index, personality;
    int32_t splice_fd_in;
    uint64_t zero[2];
} tz_sqe;

/* A completion queue entry, as struct io_uring_cqe. */
typedef struct tz_cqe {
    uint64_t user_data;
    int32_t res;
    uint32_t flags;
} tz_cqe;

enum { TZ_DRAIN = 2, TZ_LINK = 4, TZ_HARDLINK = 8 };

/* Entries, as io_uring_prep_nop, _read, _write, _close, _timeout, _link_timeout, _cancel64, _poll_add and _splice. Set flags
 * and user_data afterwards. Of pipe p the read end is fd 2 * p, and the write end 2 * p + 1. */
static inline tz_sqe tz_prep(uint8_t opcode, int32_t fd, uint64_t off, uint64_t addr, uint32_t len) {
    tz_sqe sqe = {opcode, 0, 0, fd, off, addr, len, 0, 0, 0, 0, 0, {0, 0}};
    return sqe;
}
static inline tz_sqe tz_prep_nop(void) { return tz_prep(0, -1, 0, 0, 0); }
static inline tz_sqe tz_prep_poll_add(int32_t fd, uint32_t mask) {
    tz_sqe sqe = tz_prep(6, fd, 0, 0, 0);
    sqe.word = mask;
    return sqe;
}
static inline tz_sqe tz_prep_timeout(uint32_t ticks, uint32_t count) { return tz_prep(11, -1, count, ticks, 1); }
static inline tz_sqe tz_prep_timeout_remove(uint64_t user_data) { return tz_prep(12, -1, 0, user_data, 0); }
static inline tz_sqe tz_prep_cancel(uint64_t user_data) { return tz_prep(14, -1, 0, user_data, 0); }
static inline tz_sqe tz_prep_link_timeout(uint32_t ticks) { return tz_prep(15, -1, 0, ticks, 1); }
static inline tz_sqe tz_prep_close(int32_t fd) { return tz_prep(19, fd, 0, 0, 0); }
static inline tz_sqe tz_prep_read(int32_t fd, uint32_t len) { return tz_prep(22, fd, 0, 0, len); }
static inline tz_sqe tz_prep_write(int32_t fd, uint32_t len) { return tz_prep(23, fd, 0, 0, len); }
static inline tz_sqe tz_prep_splice(int32_t fd_in, int32_t fd_out, uint32_t len) {
    tz_sqe sqe = tz_prep(30, fd_out, UINT64_MAX, UINT64_MAX, len);
    sqe.splice_fd_in = fd_in;
    return sqe;
}

/* What a board is made of: 1 to 16 rings of so many cells each, a power of two up to 1024; up to 64 pipes of 1 to 65536 bytes;
 * 1 to 64 workers. */
typedef struct tz_shape {
    const uint32_t *rings;
    size_t ring_count;
    const uint32_t *pipes;
    size_t pipe_count;
    uint32_t workers;
} tz_shape;

/* Makes a board (io_uring_queue_init), and opens a handle of its poller, of the client of each ring, in order, and of each
 * worker. `clients` has shape->ring_count handles, and `workers` has shape->workers, all closed.
 * TZ_IN_USE, TZ_BAD_SHAPE, TZ_MEMORY, TZ_NULL. */
tz_code tz_new(const tz_shape *shape, tz_handle *poller, tz_handle *clients, tz_handle *workers);

/* Submits a batch, in order, or none of it, by a client (io_uring_submit). The entries have 64 bytes each; `bytes` has their
 * buffers one after another: `len` bytes for each READ and WRITE, none for others. It copies all of it. `*first` is the number of
 * the first entry in its ring, and the next ones follow.
 * TZ_FULL, TZ_BUFFER_LENGTH, TZ_SPENT, TZ_MEMORY, TZ_CLOSED, TZ_WRONG_KIND, TZ_NULL. */
tz_code tz_submit(tz_handle *client, const tz_sqe *entries, size_t count, const void *bytes, size_t length, uint64_t *first);

/* What a turn of the poller tells: into `ready`, which has `ready_room` places, the requests that a worker is to run, each
 * once; into `answered`, which has `answered_room`, those that it answered itself, in order. */
typedef struct tz_turn {
    tz_number *ready;
    size_t ready_room, ready_count; /* how many it told */
    tz_number *answered;
    size_t answered_room, answered_count; /* the same */
    int moved;                            /* whether it did something */
} tz_turn;

/* One turn of the poller (what the kernel's SQPOLL thread does): takes up what was submitted, moves to the workers what may run,
 * arms, ends and settles timers, cancels what follows a failure. What it finds no room for waits for the next turn.
 * TZ_LENGTH with less than 1 place in `ready` or 2 in `answered`; TZ_CLOSED, TZ_WRONG_KIND, TZ_NULL. */
tz_code tz_poll(tz_handle *poller, tz_turn *turn);

/* Sets the clock on, which begins at 0. TZ_CLOCK_END, TZ_CLOSED, TZ_WRONG_KIND, TZ_NULL. */
tz_code tz_tick(tz_handle *poller, uint32_t to);

/* A worker begins a request that is ready and runs it. `*cqe` is what it was answered with, and `*took`, unless `took` is NULL,
 * is how many requests a cancel ended besides: tz_took tells which.
 * TZ_NOT_READY: it was canceled, runs or is done. TZ_PARKED: its pipe has no answer; TZ_PIPE_BUSY: it is out: try again later.
 * TZ_CLOSED, TZ_WRONG_KIND, TZ_NULL. */
tz_code tz_work(tz_handle *worker, tz_number number, tz_cqe *cqe, size_t *took);

/* Which requests the worker's last run ended besides its own. TZ_LENGTH, TZ_CLOSED, TZ_WRONG_KIND, TZ_NULL. */
tz_code tz_took(tz_handle *worker, tz_number *took, size_t room, size_t *count);

enum { TZ_UNBORN, TZ_HELD, TZ_READY, TZ_RUNNING, TZ_ARMED, TZ_DONE, TZ_REAPED };

/* Where a request stands, by any pass. `*value` is the deadline with TZ_ARMED and the reply with TZ_DONE, else 0.
 * TZ_CLOSED, TZ_WRONG_KIND, TZ_NULL. */
tz_code tz_look(tz_handle *pass, tz_number number, uint32_t *phase, int64_t *value);

/* Takes the completion of a request of the client's ring (io_uring_peek_cqe and io_uring_cqe_seen). `*length`, unless it is
 * NULL, is how long its buffer is: the client keeps that until it reaps again, and tz_bytes copies it.
 * TZ_NOT_YET, TZ_GONE, TZ_FOREIGN, TZ_CLOSED, TZ_WRONG_KIND, TZ_NULL. */
tz_code tz_reap(tz_handle *client, tz_number number, tz_cqe *cqe, size_t *length);

/* Copies the buffer of what the client reaped last: of a READ the first `res` bytes are the data, and the rest is as it was
 * handed in. TZ_LENGTH, TZ_CLOSED, TZ_WRONG_KIND, TZ_NULL. */
tz_code tz_bytes(tz_handle *client, void *bytes, size_t room, size_t *length);

/* Ends a board (io_uring_queue_exit) that all its passes come back to. Their handles are closed, and the poller's leads to the
 * report of the requests that were not reaped, `*lines` of them, until tz_close. No request runs then: those without a reply
 * are cut off with -125 (ECANCELED).
 * TZ_MISSING: a pass isn't among these. TZ_FOREIGN: one is of another board. TZ_MEMORY, TZ_CLOSED, TZ_WRONG_KIND, TZ_NULL. After
 * TZ_MEMORY a pass may be at the poller's already: then its handle is closed. */
tz_code tz_finish(tz_handle *poller, tz_handle *clients, size_t client_count, tz_handle *workers, size_t worker_count,
                  size_t *lines);

/* A line of a report, by ring, then in the order of submission. */
typedef struct tz_line {
    tz_number number;
    tz_cqe cqe;
    size_t length; /* of its buffer */
    int is_cut;    /* whether the end cut it off */
} tz_line;

/* The line with this index, from 0. TZ_MISSING, TZ_CLOSED, TZ_WRONG_KIND, TZ_NULL. */
tz_code tz_report(tz_handle *report, size_t index, tz_line *line);

/* Copies the buffer of that line. TZ_LENGTH, TZ_MISSING, TZ_CLOSED, TZ_WRONG_KIND, TZ_NULL. */
tz_code tz_report_bytes(tz_handle *report, size_t index, void *bytes, size_t room, size_t *length);

/* Closes a handle and frees what it leads to: a report, or a pass of a board that is given up without one. The board is freed
 * with its last handle. TZ_NULL. */
tz_code tz_close(tz_handle *handle);

#ifdef __cplusplus
}
#endif
#endif
