/* Each call once as it should be, and the bad calls that a callee can know. */
#include "tombezary.h"

#include <stdio.h>
#include <stdlib.h>
#include <string.h>

static void is(tz_code code, tz_code wanted, const char *what) {
    if (code == wanted) return;
    fprintf(stderr, "%s: %s, and not %s\n", what, tz_name(code), tz_name(wanted));
    exit(1);
}

static void holds(int it, const char *what) {
    if (it) return;
    fprintf(stderr, "%s\n", what);
    exit(1);
}

static const uint32_t rings[] = {4, 4}, pipes[] = {8};
static const tz_shape shape = {rings, 2, pipes, 1, 2};
static tz_handle poller, clients[2], workers[2], other, foreign[1], hands[1];
static tz_number ready[8], answered[8];
static tz_turn turn = {.ready = ready, .ready_room = 8, .answered = answered, .answered_room = 8};

static void opens(void) {
    const uint32_t three = 3;
    const tz_shape bad = {&three, 1, NULL, 0, 1}, many = {rings, 17, NULL, 0, 1}, null = {NULL, 1, NULL, 0, 1}, one = {rings, 1, NULL, 0, 1};
    tz_turn short_turn = {.ready = ready, .ready_room = 0, .answered = answered, .answered_room = 8};
    is(tz_new(NULL, &poller, clients, workers), TZ_NULL, "no shape");
    is(tz_new(&shape, NULL, clients, workers), TZ_NULL, "no poller");
    is(tz_new(&null, &poller, clients, workers), TZ_NULL, "no rings");
    is(tz_new(&bad, &poller, clients, workers), TZ_BAD_SHAPE, "three cells");
    is(tz_new(&many, &poller, clients, workers), TZ_BAD_SHAPE, "seventeen rings");
    is(tz_poll(&poller, &turn), TZ_CLOSED, "a poller that was never opened");
    is(tz_new(&shape, &poller, clients, workers), TZ_OK, "new");
    is(tz_new(&shape, &poller, clients, workers), TZ_IN_USE, "open handles");
    is(tz_new(&one, &other, foreign, hands), TZ_OK, "another board");
    is(tz_poll(&poller, &short_turn), TZ_LENGTH, "no room");
    is(tz_poll(&poller, NULL), TZ_NULL, "no turn");
}

static void submits(void) {
    tz_sqe sqes[5] = {tz_prep_read(0, 4), tz_prep_write(1, 4), tz_prep_nop(), tz_prep_nop(), tz_prep_nop()};
    const char bytes[] = "....abcd";
    uint64_t first = 77;
    is(tz_submit(NULL, sqes, 1, bytes, 4, &first), TZ_NULL, "no client");
    is(tz_submit(&clients[0], NULL, 1, bytes, 4, &first), TZ_NULL, "no entries");
    is(tz_submit(&clients[0], sqes, 1, NULL, 4, &first), TZ_NULL, "no bytes");
    is(tz_submit(&clients[0], sqes, 1, bytes, 4, NULL), TZ_NULL, "no number");
    is(tz_submit(&workers[0], sqes, 1, bytes, 4, &first), TZ_WRONG_KIND, "a worker submits");
    is(tz_submit(&clients[0], sqes, 2, bytes, 7, &first), TZ_BUFFER_LENGTH, "a byte too few");
    is(tz_submit(&clients[0], sqes, 1, bytes, 8, &first), TZ_BUFFER_LENGTH, "bytes too many");
    is(tz_submit(&clients[0], sqes, 5, bytes, 8, &first), TZ_FULL, "five entries for four cells");
    is(tz_submit(&clients[0], sqes, 4000, bytes, 8, &first), TZ_FULL, "more entries than any ring has");
    holds(first == 77, "a refused submission wrote the number");
    is(tz_submit(&clients[0], sqes, 2, bytes, 8, &first), TZ_OK, "submit");
    holds(first == 0, "the first number");
}

static void runs(void) {
    tz_number read = {0, 0}, write = {0, 1}, none = {9, 0}, took[4];
    tz_cqe cqe = {1, 1, 1};
    uint32_t phase;
    int64_t value;
    size_t count = 5;
    is(tz_reap(&clients[0], read, &cqe, NULL), TZ_NOT_YET, "no reply yet");
    is(tz_reap(&clients[1], read, &cqe, NULL), TZ_FOREIGN, "a request of another ring");
    is(tz_work(&workers[0], read, &cqe, NULL), TZ_NOT_READY, "not released yet");
    is(tz_work(&workers[0], none, &cqe, NULL), TZ_NOT_READY, "no such ring");
    is(tz_look(&clients[1], none, &phase, &value), TZ_OK, "a look at no ring");
    holds(phase == TZ_UNBORN, "no ring has no requests");
    is(tz_poll(&poller, &turn), TZ_OK, "poll");
    holds(turn.ready_count == 2 && turn.answered_count == 0 && turn.moved, "what the turn told");
    is(tz_work(&workers[0], read, &cqe, NULL), TZ_PARKED, "an empty pipe");
    is(tz_work(&clients[0], read, &cqe, NULL), TZ_WRONG_KIND, "a client works");
    is(tz_work(&workers[1], write, &cqe, &count), TZ_OK, "the write");
    holds(cqe.res == 4 && count == 0, "the write's reply");
    is(tz_took(&workers[1], took, 4, &count), TZ_OK, "took");
    is(tz_work(&workers[0], read, &cqe, &count), TZ_OK, "the read");
    is(tz_look(&poller, read, &phase, &value), TZ_OK, "look");
    holds(phase == TZ_DONE && value == 4, "where the read stands");
}

static void reaps(void) {
    tz_number read = {0, 0};
    tz_cqe cqe;
    size_t length = 0;
    char bytes[8] = "xxxxxxx";
    is(tz_reap(NULL, read, &cqe, NULL), TZ_NULL, "no client");
    is(tz_reap(&clients[0], read, NULL, NULL), TZ_NULL, "no completion");
    is(tz_reap(&clients[0], read, &cqe, &length), TZ_OK, "reap");
    holds(cqe.res == 4 && cqe.flags == 0 && length == 4, "the completion");
    is(tz_bytes(&clients[0], bytes, 3, &length), TZ_LENGTH, "three bytes of room");
    holds(!memcmp(bytes, "xxxxxxx", 8), "a refused copy wrote");
    is(tz_bytes(&clients[0], bytes, 8, &length), TZ_OK, "bytes");
    holds(length == 4 && !memcmp(bytes, "abcdxxx", 8), "the bytes");
    is(tz_reap(&clients[0], read, &cqe, NULL), TZ_GONE, "reaped before");
    is(tz_tick(&poller, 5), TZ_OK, "tick");
    is(tz_tick(&poller, 4), TZ_CLOCK_END, "back");
    is(tz_tick(&clients[0], 6), TZ_WRONG_KIND, "a client ticks");
    is(tz_tick(NULL, 6), TZ_NULL, "nobody ticks");
}

static void ends(void) {
    size_t lines = 9, length;
    tz_line line;
    uint64_t first;
    tz_sqe nop = tz_prep_nop();
    is(tz_submit(&clients[1], &nop, 1, NULL, 0, &first), TZ_OK, "submit a nop");
    is(tz_finish(&poller, clients, 1, workers, 2, &lines), TZ_MISSING, "a client is missing");
    is(tz_finish(&poller, clients, 2, workers, 1, &lines), TZ_MISSING, "a worker is missing");
    is(tz_finish(&poller, foreign, 1, workers, 2, &lines), TZ_FOREIGN, "a pass of another board");
    is(tz_finish(&poller, clients, 2, clients, 2, &lines), TZ_CLOSED, "the same handles twice");
    is(tz_finish(&clients[0], clients, 0, workers, 0, &lines), TZ_WRONG_KIND, "no poller");
    holds(lines == 9, "a refused end wrote");
    is(tz_finish(&poller, clients, 2, workers, 2, &lines), TZ_OK, "finish");
    holds(lines == 2, "the write's completion, and the nop");
    is(tz_report(&poller, 1, &line), TZ_OK, "the nop's line");
    holds(line.number.ring == 1 && line.cqe.res == -125 && line.is_cut, "the nop was cut off");
    is(tz_report(&poller, 0, &line), TZ_OK, "the write's line");
    holds(line.number.k == 1 && line.cqe.res == 4 && !line.is_cut && line.length == 4, "the write was answered");
    is(tz_report_bytes(&poller, 0, NULL, 0, &length), TZ_LENGTH, "no room for its buffer");
    is(tz_report(&poller, 2, &line), TZ_MISSING, "no such line");
    is(tz_submit(&clients[0], &nop, 1, NULL, 0, &first), TZ_CLOSED, "a client after the end");
    is(tz_poll(&poller, &turn), TZ_WRONG_KIND, "a poller after the end");
    is(tz_close(&poller), TZ_OK, "close");
    is(tz_report(&poller, 0, &line), TZ_CLOSED, "a report that was closed");
    is(tz_close(&foreign[0]), TZ_OK, "give up a client");
    is(tz_finish(&other, foreign, 1, hands, 1, &lines), TZ_CLOSED, "a client was given up");
    is(tz_close(&other), TZ_OK, "give up a poller");
    is(tz_close(&hands[0]), TZ_OK, "give up a worker");
}

int main(void) {
    opens();
    submits();
    runs();
    reaps();
    ends();
    puts("calls: done");
    return 0;
}
