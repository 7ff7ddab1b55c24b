/* Carries a script out: a thread for each ring, one for the clock, and the first one, which says when nothing goes on. */
#include "carry.h"

#include <errno.h>
#include <pthread.h>
#include <signal.h>
#include <stdio.h>
#include <stdlib.h>
#include <string.h>
#include <time.h>
#include <unistd.h>

#include "replies.h"

enum { POLLER_IDLE_MS = 2, FEWEST_ROUNDS = 4, NS = 1000000000 };

/* Where an actor is in its lines. */
struct place {
    const struct actor *actor;
    size_t done;         /* how many of its lines are done */
    bool waits;          /* it waits at the next one: nothing but a completion brings it on */
};

/* A ring is a thread: what the kernel does for a task when it next enters the kernel, it does for the ring's own. The rings
   go on looking for completions when their lines are done, until the end. */
struct ring {
    struct world *world;
    struct place place;
    pthread_t thread;
    struct io_uring uring;
    struct replies replies;
    int taken;           /* how many entries the kernel has taken */
    unsigned rounds;     /* how often it has looked for completions since something last went on */
};

struct world {
    const struct script *script;
    const struct plan *plan;
    struct stage stage;
    struct ring ring[MOST_RINGS];
    struct place clock_place;
    pthread_t clock_thread;
    pthread_mutex_t lock;         /* over all that follows, the places, and the replies */
    pthread_barrier_t start;
    uint64_t clock;               /* the script's, in ticks */
    uint64_t began, slept, last;  /* when the lines began, for how long ticks have been waited for, when something last went on */
    bool over;
};

static volatile sig_atomic_t pipe_signals;

static void note_signal(int signal)
{
    (void)signal;
    pipe_signals = 1;
}

static uint64_t now(void)
{
    struct timespec time;
    clock_gettime(CLOCK_MONOTONIC, &time);
    return (uint64_t)time.tv_sec * NS + (uint64_t)time.tv_nsec;
}

static void sleep_ns(uint64_t ns)
{
    struct timespec time = {.tv_sec = (time_t)(ns / NS), .tv_nsec = (long)(ns % NS)};
    while (clock_nanosleep(CLOCK_MONOTONIC, 0, &time, &time) == EINTR)
        ;
}

/* Ends the try, which can't be carried out. */
static _Noreturn void give_up(const char *what, int error)
{
    printf("try cannot\nwhy %s%s%s\nend\n", what, error ? ": " : "", error ? strerror(error) : "");
    fflush(stdout);
    _exit(0);
}

/* Something has gone on. */
static void note(struct world *world)
{
    world->last = now();
    for (int i = 0; i < world->script->rings; i++)
        world->ring[i].rounds = 0;
}

static void set_up(struct ring *ring)
{
    struct world *world = ring->world;
    enum mode mode = world->plan->mode;
    struct io_uring_params params = {.flags = IORING_SETUP_CQSIZE, .sq_thread_idle = POLLER_IDLE_MS};
    unsigned entries = mode == PEEK ? (unsigned)ring->place.actor->cells : MOST_ENTRIES;
    params.cq_entries = mode == PEEK ? (unsigned)ring->place.actor->posts : 2 * entries;
    if (mode == DEFER)
        params.flags |= IORING_SETUP_SINGLE_ISSUER | IORING_SETUP_DEFER_TASKRUN;
    if (has_poller(mode))
        params.flags |= IORING_SETUP_SQPOLL;
    if (mode == SHARED && ring != world->ring) {
        params.flags |= IORING_SETUP_ATTACH_WQ;
        params.wq_fd = (unsigned)world->ring[0].uring.ring_fd;
    }
    int error = io_uring_queue_init_params(entries, &ring->uring, &params);
    if (error == -ENOSYS || error == -EPERM || error == -EACCES) {
        fprintf(stderr, "kernelrun: this kernel gives no io_uring: %s\n", strerror(-error));
        _exit(2);
    }
    if (error)
        give_up("no ring", -error);
}

/* Looks for completions. Outside `PEEK` it enters the kernel for them, and sleeps for a moment where there are none. */
static void look(struct ring *ring)
{
    struct world *world = ring->world;
    struct io_uring_cqe *cqe;
    unsigned head, count = 0;
    if (world->plan->mode == PEEK) {
        sleep_ns(world->plan->margin_ns);
    } else {
        struct __kernel_timespec moment = {.tv_nsec = 100000};
        io_uring_wait_cqe_timeout(&ring->uring, &cqe, &moment);
    }
    pthread_mutex_lock(&world->lock);
    io_uring_for_each_cqe(&ring->uring, head, cqe) {
        struct replies *replies = &ring->replies;
        if (replies->len == MOST_ENTRIES)
            give_up("more completions than entries", 0);
        replies->got[replies->len++] = (struct got){cqe->user_data, cqe->res, replies->handed_in};
        count++;
    }
    ring->rounds++;
    if (count)
        note(world);
    pthread_mutex_unlock(&world->lock);
    io_uring_cq_advance(&ring->uring, count);
}

static bool replied(const struct world *world, int entry)
{
    return has_replied(&world->ring[world->script->entry[entry].ring].replies, entry);
}

/* Whether the timer is armed, or has its reply. The kernel doesn't say, so this follows from what has replied: a timer is armed
   once all before it in its chain have (of a LINK_TIMEOUT, all before its target), and the drains that hold these. */
static bool is_armed(const struct world *world, int timer)
{
    const struct script *script = world->script;
    const struct entry *entry = script->entry, *its = &entry[timer];
    if (replied(world, timer))
        return true;
    if (place_of(script, timer) >= world->ring[its->ring].taken)
        return false;
    int target = timer;      /* the entry that is before it in its chain, or the timer itself */
    bool in_chain = true, seen = its->kind != LINK_TIMEOUT, drained = its->drain;
    for (int at = timer - 1; at >= 0; at--) {
        if (entry[at].ring != its->ring)
            continue;
        in_chain = in_chain && entry[at].batch == its->batch && entry[at].link;
        if (in_chain && !seen)
            target = at, drained = drained || entry[at].drain;
        else if ((in_chain || drained || entry[at].drain) && !replied(world, at))
            return false;
        seen = seen || target == at;
    }
    return true;
}

static bool is_done(const struct world *world, const struct deed *deed)
{
    return deed->kind == WAIT ? replied(world, deed->entry) : is_armed(world, deed->entry);
}

/* Hands in what was prepared. A polling thread would join two batches that it finds together, so with one this waits until
   the thread has taken this one: it sets the head of the queue forward once it has submitted all that it found. Without one
   io_uring_enter(2) may take less than all, where an entry is invalid. */
static void hand_in(struct ring *ring)
{
    while (io_uring_sq_ready(&ring->uring)) {
        int error = io_uring_submit(&ring->uring);
        if (error < 0 && error != -EINTR && error != -EAGAIN && error != -EBUSY)
            give_up("io_uring_submit", -error);
        while (has_poller(ring->world->plan->mode) && io_uring_sq_ready(&ring->uring))
            sleep_ns(20000);
    }
}

static void submit(struct ring *ring, const struct deed *deed)
{
    struct world *world = ring->world;
    const struct script *script = world->script;
    int number = (int)(ring - world->ring);
    pthread_mutex_lock(&world->lock);
    for (int at = 0; at < script->entries; at++) {
        const struct entry *entry = &script->entry[at];
        if (entry->ring != number || entry->batch != deed->batch)
            continue;
        struct io_uring_sqe *sqe = io_uring_get_sqe(&ring->uring);
        if (!sqe)
            give_up("a submission queue without room", 0);
        prepare(&world->stage, at, world->clock, sqe);
        ring->replies.handed_in++;
    }
    note(world);
    pthread_mutex_unlock(&world->lock);
    /* In `JOINED` the next `submit`, if it follows at once, goes in with this one. */
    const struct actor *actor = ring->place.actor;
    size_t next = ring->place.done + 1;
    bool joins = world->plan->mode == JOINED && next < actor->deeds_len && actor->deeds[next].kind == SUBMIT;
    if (joins)
        return;
    hand_in(ring);
    pthread_mutex_lock(&world->lock);
    ring->taken = ring->replies.handed_in;
    note(world);
    pthread_mutex_unlock(&world->lock);
}

/* Says where the actor is. Answers whether the try goes on. */
static bool stand(struct world *world, struct place *place, bool is_next, bool waits)
{
    pthread_mutex_lock(&world->lock);
    place->done += is_next;
    if (is_next || place->waits != waits)
        note(world);
    place->waits = waits;
    bool over = world->over;
    pthread_mutex_unlock(&world->lock);
    return !over;
}

static bool test(struct world *world, const struct deed *deed)
{
    pthread_mutex_lock(&world->lock);
    bool done = is_done(world, deed);
    pthread_mutex_unlock(&world->lock);
    return done;
}

static void *ring_thread(void *given)
{
    struct ring *ring = given;
    struct world *world = ring->world;
    struct place *place = &ring->place;
    /* The rings are set up one after the other, so that the others may share the first one's polling thread. */
    for (int i = 0; i < world->script->rings; i++) {
        if (ring == &world->ring[i])
            set_up(ring);
        pthread_barrier_wait(&world->start);
    }
    while (place->done < place->actor->deeds_len) {
        const struct deed *deed = &place->actor->deeds[place->done];
        if (deed->kind == SUBMIT)
            submit(ring, deed);
        while (deed->kind == WAIT && !test(world, deed)) {
            if (!stand(world, place, false, true))
                return NULL;
            look(ring);
        }
        stand(world, place, true, false);
    }
    while (stand(world, place, false, true))
        look(ring);
    return NULL;
}

/* Sleeps until what is due by the new value has run out: from now on as long as the clock goes forward, since each timer that
   is armed is armed by now, and a margin. What is due later runs out a tick later at the earliest, counted from its arming;
   `is_late` looks at the end whether all that was done meanwhile, beside these sleeps, took less than that tick. */
static void tick(struct world *world, uint64_t value)
{
    uint64_t ns = (value - world->clock) * world->plan->tick_ns;
    sleep_ns(ns + world->plan->margin_ns);
    pthread_mutex_lock(&world->lock);
    world->clock = value;
    world->slept += ns;
    pthread_mutex_unlock(&world->lock);
}

static void *clock_thread(void *given)
{
    struct world *world = given;
    struct place *place = &world->clock_place;
    for (int i = 0; i < world->script->rings; i++)
        pthread_barrier_wait(&world->start);
    while (place->done < place->actor->deeds_len) {
        const struct deed *deed = &place->actor->deeds[place->done];
        if (deed->kind == TICK)
            tick(world, deed->tick);
        while (deed->kind != TICK && !test(world, deed)) {
            if (!stand(world, place, false, true))
                return NULL;
            sleep_ns(100000);
        }
        /* What has replied says only that the kernel may arm the timer now. */
        if (deed->kind == ARMED) {
            stand(world, place, false, false);
            sleep_ns(world->plan->margin_ns);
        }
        stand(world, place, true, false);
    }
    stand(world, place, false, true);
    return NULL;
}

/* Whether all is done: each line, and a completion for each entry. */
static bool is_finished(const struct world *world)
{
    int got = 0;
    bool done = world->clock_place.done == world->clock_place.actor->deeds_len;
    for (int i = 0; i < world->script->rings; i++) {
        got += world->ring[i].replies.len;
        done = done && world->ring[i].place.done == world->ring[i].place.actor->deeds_len;
    }
    return done && got == world->script->entries;
}

/* Whether nothing goes on: each actor waits, or is done, nothing has come for the time of patience, and each ring has looked
   several times since. The caller tries again with more patience before it takes this for true. */
static bool is_still(const struct world *world)
{
    bool still = world->clock_place.waits && now() - world->last >= world->plan->patience_ms * UINT64_C(1000000);
    for (int i = 0; i < world->script->rings; i++)
        still = still && world->ring[i].place.waits && world->ring[i].rounds >= FEWEST_ROUNDS;
    return still;
}

/* Whether so much time has gone by beside the ticks that a timer may have run out before the script's clock had come so far. */
static bool is_late(const struct world *world)
{
    bool timed = false;
    for (int at = 0; at < world->script->entries; at++) {
        const struct __kernel_timespec *time = &world->stage.time[at];
        timed = timed || ((time->tv_sec || time->tv_nsec) && time->tv_sec < 100000);
    }
    return timed && now() - world->began - world->slept >= world->plan->tick_ns;
}

static void print_waits(const struct world *world, const struct place *place)
{
    if (place->done == place->actor->deeds_len)
        return;
    int entry = place->actor->deeds[place->done].entry;
    const struct entry *its = &world->script->entry[entry];
    printf("stands %s%s\n", its->label, may_have_replied(&world->ring[its->ring].replies, entry) ? " unknown" : "");
}

/* Prints the entries that the completion may be of; where none can reply so, those that have its user_data. */
static void print_owners(const struct replies *replies, const struct got *got)
{
    const struct script *script = replies->stage->script;
    bool any = false;
    for (int at = 0; at < script->entries; at++)
        any = any || may_own(replies, got, at);
    for (int at = 0; at < script->entries; at++) {
        const struct entry *entry = &script->entry[at];
        if (may_own(replies, got, at) || (!any && entry->ring == replies->ring && entry->user_data == got->user_data))
            printf(" %s", entry->label);
    }
    printf("\n");
}

/* Prints each completion with the entries that it may be of, and the data of each READ. An entry that gets none of them had no
   completion by the end: it is cut. */
static void print_replies(const struct world *world, const struct replies *replies)
{
    const struct script *script = world->script;
    uint64_t unit = world->plan->unit;
    for (int i = 0; i < replies->len; i++) {
        const struct got *got = &replies->got[i];
        bool is_bytes = unit > 1 && got->res >= (int)unit, is_odd = is_bytes && got->res % (int)unit;
        printf("cqe %s%d", is_odd ? "odd" : "", is_bytes && !is_odd ? got->res / (int)unit : got->res);
        print_owners(replies, got);
    }
    for (int at = 0; at < script->entries; at++) {
        if (script->entry[at].kind != READ || script->entry[at].ring != replies->ring)
            continue;
        printf("data %s ", script->entry[at].label);
        for (uint64_t byte = 0; byte < filled(&world->stage, at); byte++)
            printf("%02x", data_at(&world->stage, at, byte));
        printf("\n");
    }
}

static void print_try(const struct world *world)
{
    printf("try %s\n", is_late(world) ? "late" : "done");
    for (int i = 0; i < world->script->rings; i++)
        print_waits(world, &world->ring[i].place);
    print_waits(world, &world->clock_place);
    for (int i = 0; i < world->script->rings; i++)
        print_replies(world, &world->ring[i].replies);
    if (pipe_signals)
        printf("sigpipe\n");
    printf("end\n");
    fflush(stdout);
}

static void begin(struct world *world)
{
    const struct script *script = world->script;
    struct sigaction action = {.sa_handler = note_signal, .sa_flags = SA_RESTART};
    sigaction(SIGPIPE, &action, NULL);
    pthread_mutex_init(&world->lock, NULL);
    pthread_barrier_init(&world->start, NULL, (unsigned)script->rings + 2);
    world->clock_place.actor = &script->clock;
    for (int i = 0; i < script->rings; i++) {
        struct ring *ring = &world->ring[i];
        ring->world = world;
        ring->place.actor = &script->ring[i];
        ring->replies.stage = &world->stage;
        ring->replies.ring = i;
    }
    world->last = world->began = now();
    for (int i = 0; i < script->rings; i++)
        if (pthread_create(&world->ring[i].thread, NULL, ring_thread, &world->ring[i]))
            give_up("no thread", 0);
    if (pthread_create(&world->clock_thread, NULL, clock_thread, world))
        give_up("no thread", 0);
    for (int i = 0; i < script->rings; i++) {
        pthread_mutex_lock(&world->lock);
        world->last = world->began = now();
        pthread_mutex_unlock(&world->lock);
        pthread_barrier_wait(&world->start);
    }
}

_Noreturn void carry_out(const struct script *script, const struct plan *plan)
{
    static struct world world;
    world.script = script, world.plan = plan;
    const char *why = make_stage(script, plan, &world.stage);
    if (why)
        give_up(why, 0);
    begin(&world);
    for (bool over = false; !over;) {
        sleep_ns(200000);
        pthread_mutex_lock(&world.lock);
        over = world.over = is_finished(&world) || is_still(&world);
        if (over)
            print_try(&world);
        pthread_mutex_unlock(&world.lock);
    }
    /* The kernel ends what the rings still had when the process ends. */
    _exit(0);
}
