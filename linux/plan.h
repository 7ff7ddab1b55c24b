/* How a script is carried out on the kernel: the way its rings are set up, the size of a byte, the length of a tick. */
#ifndef PLAN_H
#define PLAN_H

#include "script.h"

/* `ENTER`, `DEFER` and `SQPOLL` are the three usual ways. The others show what these three hide:
   `SHARED`  the rings share one polling thread (IORING_SETUP_ATTACH_WQ);
   `JOINED`  a polling thread finds `submit` lines that follow one another together;
   `PEEK`    a polling thread, a completion queue of POSTS places, and no thread that enters the kernel for completions. */
enum mode { ENTER, DEFER, SQPOLL, SHARED, JOINED, PEEK };

struct plan {
    enum mode mode;
    bool exact;              /* a byte is a byte, and each pipe has room for exactly its bytes */
    unsigned patience_ms;    /* what has made no progress for that long stands still */
    uint64_t unit;           /* how many bytes stand for one of the script: 1, or a page */
    uint64_t margin_ns;      /* what a thing that is due may be late */
    uint64_t tick_ns;        /* how long a tick is */
};

bool has_poller(enum mode mode);

/* Why the script can't be carried out here, or NULL with the plan's unit and times. */
const char *make_plan(const struct script *script, struct plan *plan);

#endif
