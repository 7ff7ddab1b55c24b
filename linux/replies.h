/* Which entries have replied, where several may have one user_data. */
#ifndef REPLIES_H
#define REPLIES_H

#include "prepare.h"

/* A completion, in the order in which they came. */
struct got {
    uint64_t user_data;
    int res;
    int handed_in;       /* how many entries of its ring had been handed in when it was found */
};

/* The completions of a ring. */
struct replies {
    const struct stage *stage;
    int ring;
    int handed_in;
    struct got got[MOST_ENTRIES];
    int len;
};

/* Whether the completion may be that of the entry. */
bool may_own(const struct replies *replies, const struct got *got, int entry);

/* Whether the entry has replied, for sure. */
bool has_replied(const struct replies *replies, int entry);

/* Whether the completions leave open which entries have replied, and this may be one of them. */
bool may_have_replied(const struct replies *replies, int entry);

/* The place of the entry among those of its ring, from 0. */
int place_of(const struct script *script, int entry);

#endif
