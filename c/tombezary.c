/* What the callee tests before it calls what is proved: that no pointer is NULL. crates/ring_c has the calls and their proofs. */
#include "tombezary.h"

typedef struct { uint32_t code; uint64_t count; } counted;
typedef struct { uint32_t code, phase; int64_t value; } looked;
typedef struct { uint32_t code; int32_t res; uint64_t user_data, length; } reaped;
typedef struct { uint32_t code, moved; uint64_t ready, answered; } polled;
typedef struct { uint32_t code; int32_t res; uint64_t user_data, k, length; uint16_t ring, is_cut; } told;

/* A slice is its pointer and its length. A Global takes no bytes. */
uint32_t ring_c_new(uint64_t stamp, const uint32_t *rings, size_t ring_count, const uint32_t *pipes, size_t pipe_count, uint32_t workers, tz_handle *poller);
uint32_t ring_c_give(tz_handle *poller, tz_handle *pass, _Bool is_worker);
uint32_t ring_c_back(tz_handle *poller, tz_handle *pass);
counted ring_c_finish(tz_handle *poller);
void ring_c_close(tz_handle *handle);
told ring_c_line(tz_handle *report, uint64_t index);
counted ring_c_line_bytes(tz_handle *report, uint64_t index, void *bytes, size_t room);
counted ring_c_submit(tz_handle *client, const void *entries, size_t size, const void *bytes, size_t length);
reaped ring_c_reap(tz_handle *client, uint16_t ring, uint64_t k);
counted ring_c_bytes(tz_handle *client, void *bytes, size_t room);
looked ring_c_look(tz_handle *pass, uint16_t ring, uint64_t k);
reaped ring_c_work(tz_handle *worker, uint16_t ring, uint64_t k);
counted ring_c_took(tz_handle *worker, tz_number *took, size_t room);
polled ring_c_poll(tz_handle *poller, tz_number *ready, size_t ready_room, tz_number *answered, size_t answered_room);
uint32_t ring_c_tick(tz_handle *poller, uint32_t to);

/* A slice of no elements has no NULL pointer either. */
static uint64_t nothing;
static const void *or_nothing(const void *at) { return at ? at : &nothing; }

/* Each board has a stamp of its own. */
static uint64_t last_stamp;

const char *tz_name(tz_code code) {
    static const char *const names[] = {"ok", "closed", "wrong kind", "in use", "memory", "length", "full", "buffer length",
        "spent", "not yet", "gone", "foreign", "not ready", "parked", "pipe busy", "clock end", "bad shape", "missing", "null"};
    return code < sizeof names / sizeof *names ? names[code] : "no code";
}

static int all_closed(const tz_handle *handles, size_t count) {
    for (size_t i = 0; i < count; i++)
        if (handles[i].is_open) return 0;
    return 1;
}

static void close_all(tz_handle *handles, size_t count) {
    for (size_t i = 0; i < count; i++) ring_c_close(&handles[i]);
}

tz_code tz_new(const tz_shape *shape, tz_handle *poller, tz_handle *clients, tz_handle *workers) {
    if (!shape || !poller || !clients || !workers) return TZ_NULL;
    if ((!shape->rings && shape->ring_count) || (!shape->pipes && shape->pipe_count)) return TZ_NULL;
    if (shape->ring_count > 16 || shape->pipe_count > 64 || shape->workers > 64) return TZ_BAD_SHAPE;
    if (!all_closed(clients, shape->ring_count) || !all_closed(workers, shape->workers)) return TZ_IN_USE;
    uint64_t stamp = __atomic_add_fetch(&last_stamp, 1, __ATOMIC_SEQ_CST);
    tz_code code = ring_c_new(stamp, or_nothing(shape->rings), shape->ring_count, or_nothing(shape->pipes), shape->pipe_count, shape->workers, poller);
    if (code) return code;
    for (size_t i = shape->ring_count; !code && i > 0; i--) code = ring_c_give(poller, &clients[i - 1], 0);
    for (size_t i = shape->workers; !code && i > 0; i--) code = ring_c_give(poller, &workers[i - 1], 1);
    if (code) {
        close_all(clients, shape->ring_count);
        close_all(workers, shape->workers);
        ring_c_close(poller);
    }
    return code;
}

tz_code tz_submit(tz_handle *client, const tz_sqe *entries, size_t count, const void *bytes, size_t length, uint64_t *first) {
    if (!client || !first || (!entries && count) || (!bytes && length)) return TZ_NULL;
    if (count > 1024) return TZ_FULL;
    counted answer = ring_c_submit(client, or_nothing(entries), count * sizeof *entries, or_nothing(bytes), length);
    if (!answer.code) *first = answer.count;
    return answer.code;
}

tz_code tz_poll(tz_handle *poller, tz_turn *turn) {
    if (!poller || !turn || (!turn->ready && turn->ready_room) || (!turn->answered && turn->answered_room)) return TZ_NULL;
    if (turn->ready_room < 1 || turn->answered_room < 2) return TZ_LENGTH;
    polled answer = ring_c_poll(poller, turn->ready, turn->ready_room, turn->answered, turn->answered_room);
    if (answer.code) return answer.code;
    turn->ready_count = answer.ready;
    turn->answered_count = answer.answered;
    turn->moved = (int)answer.moved;
    return TZ_OK;
}

tz_code tz_tick(tz_handle *poller, uint32_t to) { return poller ? ring_c_tick(poller, to) : TZ_NULL; }

tz_code tz_work(tz_handle *worker, tz_number number, tz_cqe *cqe, size_t *took) {
    if (!worker || !cqe) return TZ_NULL;
    reaped answer = ring_c_work(worker, number.ring, number.k);
    if (answer.code) return answer.code;
    *cqe = (tz_cqe){answer.user_data, answer.res, 0};
    if (took) *took = answer.length;
    return TZ_OK;
}

static tz_code give(counted answer, size_t *count) {
    if (!answer.code) *count = answer.count;
    return answer.code;
}

tz_code tz_took(tz_handle *worker, tz_number *took, size_t room, size_t *count) {
    if (!worker || !count || (!took && room)) return TZ_NULL;
    return give(ring_c_took(worker, took ? took : (tz_number *)&nothing, room), count);
}

tz_code tz_look(tz_handle *pass, tz_number number, uint32_t *phase, int64_t *value) {
    if (!pass || !phase || !value) return TZ_NULL;
    looked answer = ring_c_look(pass, number.ring, number.k);
    if (answer.code) return answer.code;
    *phase = answer.phase;
    *value = answer.value;
    return TZ_OK;
}

tz_code tz_reap(tz_handle *client, tz_number number, tz_cqe *cqe, size_t *length) {
    if (!client || !cqe) return TZ_NULL;
    reaped answer = ring_c_reap(client, number.ring, number.k);
    if (answer.code) return answer.code;
    *cqe = (tz_cqe){answer.user_data, answer.res, 0};
    if (length) *length = answer.length;
    return TZ_OK;
}

tz_code tz_bytes(tz_handle *client, void *bytes, size_t room, size_t *length) {
    if (!client || !length || (!bytes && room)) return TZ_NULL;
    return give(ring_c_bytes(client, bytes ? bytes : &nothing, room), length);
}

/* Whether these handles are open and of the poller's board. */
static tz_code of_one(const tz_handle *poller, const tz_handle *handles, size_t count) {
    for (size_t i = 0; i < count; i++) {
        if (!handles[i].is_open) return TZ_CLOSED;
        if (handles[i].stamp != poller->stamp) return TZ_FOREIGN;
    }
    return TZ_OK;
}

/* The passes that came back go out again, the last one first, each to its own handle. */
static void undo(tz_handle *poller, tz_handle *clients, size_t client_count, tz_handle *workers, size_t worker_count) {
    for (size_t i = worker_count; i > 0; i--) ring_c_give(poller, &workers[i - 1], 1);
    for (size_t i = client_count; i > 0; i--) ring_c_give(poller, &clients[i - 1], 0);
}

tz_code tz_finish(tz_handle *poller, tz_handle *clients, size_t client_count, tz_handle *workers, size_t worker_count,
                  size_t *lines) {
    if (!poller || !lines || (!clients && client_count) || (!workers && worker_count)) return TZ_NULL;
    if (!poller->is_open) return TZ_CLOSED;
    tz_code code = of_one(poller, clients, client_count);
    if (!code) code = of_one(poller, workers, worker_count);
    if (code) return code;
    size_t i = 0, j = 0;
    for (; !code && i < client_count; i++) code = ring_c_back(poller, &clients[i]);
    if (code) i--;
    for (; !code && j < worker_count; j++) code = ring_c_back(poller, &workers[j]);
    if (code && i == client_count && j > 0) j--;
    if (!code) code = give(ring_c_finish(poller), lines);
    if (code) undo(poller, clients, i, workers, j);
    return code;
}

tz_code tz_report(tz_handle *report, size_t index, tz_line *line) {
    if (!report || !line) return TZ_NULL;
    told answer = ring_c_line(report, index);
    if (answer.code) return answer.code;
    *line = (tz_line){{answer.ring, answer.k}, {answer.user_data, answer.res, 0}, answer.length, answer.is_cut};
    return TZ_OK;
}

tz_code tz_report_bytes(tz_handle *report, size_t index, void *bytes, size_t room, size_t *length) {
    if (!report || !length || (!bytes && room)) return TZ_NULL;
    return give(ring_c_line_bytes(report, index, bytes ? bytes : &nothing, room), length);
}

tz_code tz_close(tz_handle *handle) {
    if (!handle) return TZ_NULL;
    ring_c_close(handle);
    return TZ_OK;
}
