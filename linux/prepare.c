/* Makes the pipes, the buffers and the kernel's entries of a script. */
#include "prepare.h"

#include <fcntl.h>
#include <limits.h>
#include <stdlib.h>
#include <string.h>
#include <unistd.h>

enum {
    UNTOUCHED = 0xff,      /* no script can write such a byte: what is left of a buffer when a READ is done */
    FIRST_FD = 1000,       /* the pipes' descriptors begin here, so that none that is closed is given to something else */
    PAGES = 256,           /* of a pipe whose room shows nowhere */
};

/* A timer whose deadline the script's clock doesn't reach gets this many seconds. */
static const long long never = 1000000;

/* At most this many bytes of the script a READ or SPLICE can move: one more than all WRITEs have. */
static uint64_t enough(const struct script *script)
{
    uint64_t sum = 1;
    for (int i = 0; i < script->entries; i++)
        if (script->entry[i].kind == WRITE)
            sum += script->entry[i].len;
    return sum;
}

/* The length in bytes of the machine: where pages stand for bytes, no longer than what is enough, so that it stays small. */
static uint64_t length(const struct stage *stage, const struct entry *entry)
{
    uint64_t most = enough(stage->script);
    if (stage->plan->unit == 1 || entry->kind == WRITE)
        return entry->len * stage->plan->unit;
    return (entry->len < most ? entry->len : most) * stage->plan->unit;
}

static bool make_pipe(const struct stage *stage, int pipe, int ends[2])
{
    uint64_t page = (uint64_t)sysconf(_SC_PAGESIZE), capacity = stage->script->capacity[pipe];
    int made[2];
    if (pipe2(made, O_CLOEXEC))
        return false;
    for (int end = 0; end < 2; end++) {
        ends[end] = fcntl(made[end], F_DUPFD_CLOEXEC, FIRST_FD + 2 * pipe + end);
        close(made[end]);
        if (ends[end] < 0)
            return false;
    }
    if (stage->plan->exact)
        return fcntl(ends[1], F_SETPIPE_SZ, capacity) == (int)capacity;
    if (stage->plan->unit == 1) {
        fcntl(ends[1], F_SETPIPE_SZ, PAGES * page);
        return true;
    }
    bool fits = !(capacity & (capacity - 1)) && capacity <= PAGES;
    return fcntl(ends[1], F_SETPIPE_SZ, (fits ? capacity : PAGES) * page) >= 0;
}

static bool make_buffer(struct stage *stage, int at)
{
    const struct entry *entry = &stage->script->entry[at];
    if (entry->kind != READ && entry->kind != WRITE)
        return true;
    uint64_t len = length(stage, entry);
    if (!(stage->buffer[at] = malloc(len + 1)))
        return false;
    memset(stage->buffer[at], entry->kind == READ ? UNTOUCHED : 0, len);
    for (uint64_t byte = 0; entry->text && byte < len; byte++)
        stage->buffer[at][byte] = (unsigned char)entry->text[byte / stage->plan->unit];
    return true;
}

const char *make_stage(const struct script *script, const struct plan *plan, struct stage *stage)
{
    stage->script = script, stage->plan = plan;
    for (int pipe = 0; pipe < script->pipes; pipe++)
        if (!make_pipe(stage, pipe, &stage->fd[2 * pipe]))
            return "the kernel gives no such pipe";
    for (int at = 0; at < script->entries; at++)
        if (!make_buffer(stage, at))
            return "no memory for the buffers";
    return NULL;
}

/* The descriptor of an end. What is no end of the script is none of the process either. */
static int end_of(const struct stage *stage, uint64_t fd)
{
    return fd < 2 * (uint64_t)stage->script->pipes ? stage->fd[fd] : -1;
}

/* A tick is a length of time. A timer can't be armed before it is handed in, so its deadline is at least the clock then and
   its ticks. Where the clock never comes that far, it never runs out. */
static struct __kernel_timespec *time_of(struct stage *stage, int at, uint64_t clock)
{
    const struct entry *entry = &stage->script->entry[at];
    struct __kernel_timespec *time = &stage->time[at];
    uint64_t left = last_tick(stage->script) - clock;
    uint64_t ns = entry->ticks <= left ? entry->ticks * stage->plan->tick_ns : 0;
    time->tv_sec = entry->ticks <= left ? (long long)(ns / 1000000000) : never;
    time->tv_nsec = (long long)(ns % 1000000000);
    return time;
}

void prepare(struct stage *stage, int at, uint64_t clock, struct io_uring_sqe *sqe)
{
    const struct entry *entry = &stage->script->entry[at];
    int fd = end_of(stage, entry->fd);
    unsigned len = (unsigned)length(stage, entry);
    unsigned count = entry->count < UINT_MAX ? (unsigned)entry->count : UINT_MAX;
    uint64_t offset = entry->from_zero ? 0 : (uint64_t)-1;
    switch (entry->kind) {
    case NOP: io_uring_prep_nop(sqe); break;
    case READ: io_uring_prep_read(sqe, fd, stage->buffer[at], len, offset); break;
    case WRITE: io_uring_prep_write(sqe, fd, stage->buffer[at], len, offset); break;
    case CLOSE: io_uring_prep_close(sqe, fd); break;
    case POLL: io_uring_prep_poll_add(sqe, fd, (unsigned)entry->mask); break;
    case TIMEOUT:
        io_uring_prep_timeout(sqe, time_of(stage, at, clock), count, entry->etime_ok ? IORING_TIMEOUT_ETIME_SUCCESS : 0);
        break;
    case LINK_TIMEOUT: io_uring_prep_link_timeout(sqe, time_of(stage, at, clock), 0); break;
    case CANCEL: io_uring_prep_cancel64(sqe, entry->target, entry->all ? IORING_ASYNC_CANCEL_ALL : 0); break;
    case REMOVE: io_uring_prep_timeout_remove(sqe, entry->target, 0); break;
    case SPLICE: io_uring_prep_splice(sqe, end_of(stage, entry->fd_in), -1, fd, -1, len, 0); break;
    case RAW: memcpy(sqe, entry->bytes, sizeof entry->bytes); return;
    }
    sqe->user_data = entry->user_data;
    if (entry->link)
        sqe->flags |= entry->hard ? IOSQE_IO_HARDLINK : IOSQE_IO_LINK;
    if (entry->drain)
        sqe->flags |= IOSQE_IO_DRAIN;
}

unsigned char data_at(const struct stage *stage, int at, uint64_t byte)
{
    return stage->buffer[at][byte * stage->plan->unit];
}

uint64_t filled(const struct stage *stage, int at)
{
    uint64_t count = length(stage, &stage->script->entry[at]) / stage->plan->unit, byte = 0;
    while (byte < count && data_at(stage, at, byte) != UNTOUCHED)
        byte++;
    return byte;
}
