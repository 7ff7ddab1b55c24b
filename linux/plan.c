/* Decides how many bytes stand for one byte of the script, and how long a tick is; says what can't be had here. */
#include "plan.h"

#include <stdio.h>
#include <unistd.h>

bool has_poller(enum mode mode)
{
    return mode >= SQPOLL;
}

/* How many bytes the WRITEs of the script have. */
static uint64_t bytes_written(const struct script *script)
{
    uint64_t sum = 0;
    for (int i = 0; i < script->entries; i++)
        if (script->entry[i].kind == WRITE)
            sum += script->entry[i].len;
    return sum;
}

/* At most how many bytes can come into the pipe. */
static uint64_t most_into(const struct script *script, int pipe)
{
    uint64_t sum = 0, all = bytes_written(script);
    for (int i = 0; i < script->entries; i++) {
        const struct entry *entry = &script->entry[i];
        if (entry->fd != 2 * (uint64_t)pipe + 1)
            continue;
        if (entry->kind == WRITE)
            sum += entry->len;
        else if (entry->kind == SPLICE)
            sum += entry->len < all ? entry->len : all;
    }
    return sum;
}

/* Linux counts the room in a pipe in pages. Where the bytes that can come into a pipe are fewer than it has room for, its
   room shows nowhere: it gets room for them all, and a byte is a byte. Where a pipe may become full, a page stands for each
   byte of the script, in all pipes, since a SPLICE joins them; so a pipe of CAP bytes is one of CAP pages. The kernel has
   pipes of 1, 2, 4, 8 .. pages alone. A page is PIPE_BUF, so a WRITE of several of them goes in as far as it fits. */
static const char *choose_unit(const struct script *script, struct plan *plan)
{
    static char why[80];
    uint64_t page = (uint64_t)sysconf(_SC_PAGESIZE);
    plan->unit = 1;
    if (plan->exact)
        return NULL;
    for (int pipe = 0; pipe < script->pipes; pipe++)
        if (most_into(script, pipe) >= script->capacity[pipe])
            plan->unit = page;
    if (plan->unit == 1)
        return NULL;
    for (int pipe = 0; pipe < script->pipes; pipe++) {
        uint64_t capacity = script->capacity[pipe];
        if (most_into(script, pipe) < capacity)
            continue;
        if (capacity & (capacity - 1) || capacity > 256) {
            snprintf(why, sizeof why, "pipe %d may become full, and the kernel has none of %llu pages", pipe, (unsigned long long)capacity);
            return why;
        }
    }
    for (int i = 0; i < script->entries; i++)
        if (script->entry[i].kind == WRITE && script->entry[i].len * page > (UINT64_C(1) << 26))
            return "a WRITE of too many pages";
    return NULL;
}

/* The kernel has opcodes beside the profile's. So bytes that are no entry of the profile are handed in only where they can do
   no harm: as a NOP, or with an opcode that no kernel has. */
static const char *check_raw(const struct script *script)
{
    static char why[80];
    for (int i = 0; i < script->entries; i++) {
        const struct entry *entry = &script->entry[i];
        if (entry->kind != RAW || entry->bytes[0] == 0 || entry->bytes[0] >= 200)
            continue;
        snprintf(why, sizeof why, "%s has opcode %d with bytes that the profile doesn't allow", entry->label, entry->bytes[0]);
        return why;
    }
    return NULL;
}

/* A tick has to be longer than all that the script does beside its ticks: then no timer runs out early. That is the wait at
   the end, a margin for each line that sets the clock, and what the machine takes, which is looked at once it is over. */
static void choose_times(const struct script *script, struct plan *plan)
{
    uint64_t patience = plan->patience_ms * UINT64_C(1000000);
    plan->margin_ns = patience * 2 / 5;
    plan->tick_ns = 3 * patience + 2 * plan->margin_ns * (tick_lines(script) + 1);
}

const char *make_plan(const struct script *script, struct plan *plan)
{
    const char *why = check_raw(script);
    choose_times(script, plan);
    return why ? why : choose_unit(script, plan);
}
