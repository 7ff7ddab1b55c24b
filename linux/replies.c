/* A completion has a user_data, and not the entry that it is of. Where several entries of a ring have one user_data, which of
   them has replied is read from what each kind of entry can reply, from what was handed in by then, and from the buffers that
   READs have filled: an entry has replied for sure where the completions can't be given to entries without it. */
#include "replies.h"

#include <errno.h>
#include <poll.h>
#include <string.h>

int place_of(const struct script *script, int entry)
{
    int place = 0;
    for (int at = 0; at < entry; at++)
        place += script->entry[at].ring == script->entry[entry].ring;
    return place;
}

static bool is_one_of(int res, const int *list, size_t len)
{
    for (size_t i = 0; i < len; i++)
        if (res == list[i])
            return true;
    return false;
}

#define AMONG(res, ...) is_one_of(res, (const int[]){__VA_ARGS__}, sizeof(const int[]){__VA_ARGS__} / sizeof(int))

/* Whether the reply may be a number of bytes that the entry has moved: no more than asked for, and whole bytes of the script. */
static bool is_moved(const struct replies *replies, const struct entry *entry, int res)
{
    uint64_t unit = replies->stage->plan->unit;
    return res >= 0 && (uint64_t)res <= entry->len * unit && (uint64_t)res % unit == 0;
}

/* Whether an entry of this kind can reply so. -512 is what a SPLICE replies that was signalled. */
static bool can_reply(const struct replies *replies, int at, int res)
{
    const struct entry *entry = &replies->stage->script->entry[at];
    if (AMONG(res, -ECANCELED, -EINVAL))
        return true;
    switch (entry->kind) {
    case NOP: return res == 0;
    case READ: {
        uint64_t bytes = filled(replies->stage, at) * replies->stage->plan->unit;
        return bytes ? res == (int)bytes : AMONG(res, 0, -EBADF, -EINTR, -512);
    }
    case WRITE: return (is_moved(replies, entry, res) && (res > 0) == (entry->len > 0)) || AMONG(res, -EBADF, -EPIPE, -EINTR, -512);
    case CLOSE: return AMONG(res, 0, -EBADF);
    case POLL: return (res > 0 && !(res & ~(int)(entry->mask | POLLERR | POLLHUP))) || res == -EBADF;
    case TIMEOUT: return res == -ETIME || (res == 0 && entry->count > 0);
    case LINK_TIMEOUT: return AMONG(res, -ETIME, -ENOENT, -EALREADY);
    case CANCEL: return AMONG(res, -ENOENT, -EALREADY) || (entry->all ? res >= 0 : res == 0);
    case REMOVE: return AMONG(res, 0, -ENOENT, -EALREADY);
    case SPLICE: return is_moved(replies, entry, res) || AMONG(res, -EBADF, -EPIPE, -EINTR, -512);
    case RAW: return res == 0;
    }
    return false;
}

bool may_own(const struct replies *replies, const struct got *got, int at)
{
    const struct script *script = replies->stage->script;
    const struct entry *entry = &script->entry[at];
    return entry->ring == replies->ring && entry->user_data == got->user_data &&
           place_of(script, at) < got->handed_in && can_reply(replies, at, got->res);
}

/* Gives completion `i` to an entry other than `without`, where the ones before have been given: the augmenting path. */
static bool give(const struct replies *replies, int i, int without, int *owner, bool *tried)
{
    for (int at = 0; at < replies->stage->script->entries; at++) {
        if (at == without || tried[at] || !may_own(replies, &replies->got[i], at))
            continue;
        tried[at] = true;
        if (owner[at] < 0 || give(replies, owner[at], without, owner, tried)) {
            owner[at] = i;
            return true;
        }
    }
    return false;
}

/* Whether all completions with the user_data of `entry` can be given to entries, leaving out `without`. */
static bool can_give(const struct replies *replies, int entry, int without)
{
    int owner[MOST_ENTRIES];
    memset(owner, -1, sizeof owner);
    for (int i = 0; i < replies->len; i++) {
        bool tried[MOST_ENTRIES] = {false};
        if (replies->got[i].user_data == replies->stage->script->entry[entry].user_data && !give(replies, i, without, owner, tried))
            return false;
    }
    return true;
}

bool has_replied(const struct replies *replies, int entry)
{
    return !can_give(replies, entry, entry);
}

bool may_have_replied(const struct replies *replies, int entry)
{
    for (int i = 0; i < replies->len; i++)
        if (may_own(replies, &replies->got[i], entry))
            return true;
    return false;
}
