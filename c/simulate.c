/* One thread carries out what python/mixed.ring says: two rings, a pipe, a timer and a cancel. A seed chooses each step. It prints
 * the steps and the table. */
#include "tombezary.h"

#include <stdio.h>
#include <stdlib.h>

enum { WRITE, TIMER, CANCEL, READ, NOP, COUNT };
static const char *const names[COUNT] = {"w", "t", "c", "r", "n"};

static tz_handle poller, clients[2], workers[2];
static tz_number of[COUNT], ready[16], answered[16], queue[64];
static int known[COUNT], is_told[COUNT], res[COUNT];
static char data[COUNT][8];
static size_t queued;
static int lines_left[3] = {3, 2, 2}; /* of ring 0, ring 1 and the clock */

static void must(tz_code code, const char *what) {
    if (code == TZ_OK) return;
    fprintf(stderr, "%s: %s\n", what, tz_name(code));
    exit(1);
}

static uint64_t state;
static uint32_t draw(uint32_t below) {
    state = state * 6364136223846793005u + 1442695040888963407u;
    return (uint32_t)(state >> 33) % below;
}

static void submit(int ring, int first, tz_sqe *entries, size_t count, const char *bytes, size_t length) {
    uint64_t k;
    for (size_t i = 0; i < count; i++) entries[i].user_data = (uint64_t)first + i + 1;
    must(tz_submit(&clients[ring], entries, count, bytes, length, &k), "submit");
    for (size_t i = 0; i < count; i++) {
        of[(size_t)first + i] = (tz_number){(uint16_t)ring, k + i};
        known[(size_t)first + i] = 1;
    }
    printf("on %d: submit\n", ring);
}

static uint32_t phase_of(int label) {
    uint32_t phase;
    int64_t value;
    if (!known[label]) return TZ_UNBORN;
    must(tz_look(&poller, of[label], &phase, &value), "look");
    return phase;
}

/* The next line of a ring, or of the clock, where it can be carried out. */
static void line(int actor) {
    if (actor == 0 && lines_left[0] == 3) {
        tz_sqe entries[] = {tz_prep_write(1, 4), tz_prep_timeout(5, 0)};
        submit(0, WRITE, entries, 2, "abcd", 4);
    } else if (actor == 0 && lines_left[0] == 2) {
        tz_sqe entry = tz_prep_cancel(TIMER + 1);
        submit(0, CANCEL, &entry, 1, NULL, 0);
    } else if (actor == 1 && lines_left[1] == 2) {
        tz_sqe entries[] = {tz_prep_read(0, 4), tz_prep_nop()};
        entries[0].flags = TZ_LINK;
        submit(1, READ, entries, 2, "\0\0\0\0", 4);
    } else if (actor == 2 && lines_left[2] == 1) {
        must(tz_tick(&poller, 5), "tick");
        printf("on clock: tick 5\n");
    } else {
        int label = actor == 0 ? CANCEL : actor == 1 ? NOP : TIMER;
        uint32_t phase = phase_of(label);
        if (phase < (actor == 2 ? TZ_ARMED : TZ_DONE)) return;
        printf("on %s: %s %s\n", actor == 2 ? "clock" : actor ? "1" : "0", actor == 2 ? "armed" : "wait", names[label]);
    }
    lines_left[actor]--;
}

static void turn(void) {
    tz_turn told = {.ready = ready, .ready_room = 16, .answered = answered, .answered_room = 16};
    must(tz_poll(&poller, &told), "poll");
    for (size_t i = 0; i < told.ready_count; i++) queue[queued++] = ready[i];
    if (told.moved) printf("poll: ready %zu answered %zu\n", told.ready_count, told.answered_count);
}

static void work(void) {
    tz_cqe cqe;
    size_t i = draw((uint32_t)queued);
    tz_number number = queue[i];
    tz_code code = tz_work(&workers[draw(2)], number, &cqe, NULL);
    queue[i] = queue[--queued];
    if (code == TZ_PARKED || code == TZ_PIPE_BUSY) queue[queued++] = number;
    if (code) printf("work %u %llu: %s\n", number.ring, (unsigned long long)number.k, tz_name(code));
    else printf("work %u %llu: %d\n", number.ring, (unsigned long long)number.k, cqe.res);
}

static void reap(void) {
    int label = (int)draw(COUNT);
    size_t length;
    tz_cqe cqe;
    if (!known[label] || tz_reap(&clients[of[label].ring], of[label], &cqe, NULL)) return;
    must(tz_bytes(&clients[of[label].ring], data[label], sizeof data[label], &length), "bytes");
    res[label] = cqe.res;
    is_told[label] = 1;
    printf("reap %s: %d\n", names[label], cqe.res);
}

/* What no client has reaped is in the report. */
static void finish(void) {
    size_t lines, length;
    tz_line told;
    must(tz_finish(&poller, clients, 2, workers, 2, &lines), "finish");
    for (size_t i = 0; i < lines; i++) {
        must(tz_report(&poller, i, &told), "report");
        int label = (int)told.cqe.user_data - 1;
        if (is_told[label]) must(TZ_GONE, "told twice");
        must(tz_report_bytes(&poller, i, data[label], sizeof data[label], &length), "bytes");
        res[label] = told.cqe.res;
        is_told[label] = 1;
    }
    must(tz_close(&poller), "close");
}

int main(int argc, char **argv) {
    const uint32_t rings[] = {8, 8}, pipe = 4;
    const tz_shape shape = {rings, 2, &pipe, 1, 2};
    state = argc > 1 ? strtoull(argv[1], NULL, 10) : 0;
    draw(2);
    must(tz_new(&shape, &poller, clients, workers), "new");
    while (lines_left[0] + lines_left[1] + lines_left[2] || draw(16)) {
        switch (draw(4)) {
        case 0: {
            int actor = (int)draw(3);
            if (lines_left[actor]) line(actor);
            break;
        }
        case 1: turn(); break;
        case 2:
            if (queued) work();
            break;
        default: reap();
        }
    }
    finish();
    puts("table");
    for (int label = 0; label < COUNT; label++) {
        printf("%s %d", names[label], res[label]);
        for (int i = 0; label == READ && i < res[label]; i++) printf("%s%02x", i ? "" : " ", (unsigned char)data[label][i]);
        puts("");
    }
    return 0;
}
