/* A script in memory: what docs/SCRIPTS.md describes, as kernelrun needs it. */
#ifndef SCRIPT_H
#define SCRIPT_H

#include <stdbool.h>
#include <stddef.h>
#include <stdint.h>

enum { MOST_PIPES = 64, MOST_RINGS = 16, MOST_ENTRIES = 256, MOST_DEEDS = 65536 };

enum kind { NOP, READ, WRITE, CLOSE, POLL, TIMEOUT, LINK_TIMEOUT, CANCEL, REMOVE, SPLICE, RAW };

/* An entry line. Of a `raw` line whose bytes are those of an entry of the profile, the entry; of every other, RAW and its bytes. */
struct entry {
    char label[17];
    enum kind kind;
    int ring, batch;             /* whose it is, and in which of the ring's batches, from 0 */
    bool link, hard, drain;      /* its flags */
    bool etime_ok, all;          /* of a TIMEOUT, of a CANCEL */
    bool from_zero;              /* READ or WRITE: the offset 0 in place of the current one */
    uint64_t user_data, target;  /* its own, and that which a cancel names */
    uint64_t fd, fd_in, len, mask, ticks, count;
    const char *text;            /* of a WRITE; NULL where the bytes are zero */
    unsigned char bytes[64];
};

enum deed_kind { SUBMIT, WAIT, TICK, ARMED };

/* A line of an actor that is no entry. */
struct deed {
    enum deed_kind kind;
    int entry;           /* WAIT, ARMED: of which entry */
    int batch;           /* SUBMIT: which of the ring's batches */
    uint64_t tick;       /* TICK: the new value */
};

/* A ring, or the clock. */
struct actor {
    struct deed *deeds;
    size_t deeds_len;
    uint64_t cells, posts;
};

struct script {
    uint64_t capacity[MOST_PIPES];
    int pipes, rings, entries;
    struct entry entry[MOST_ENTRIES];
    struct actor ring[MOST_RINGS];
    struct actor clock;
};

/* Reads the file. Ends the process with a line on standard error where it is no script: `ringrun` says more of its faults. */
void read_script(const char *path, struct script *script);

/* The last value to which the script sets its clock, and how many lines set it. */
uint64_t last_tick(const struct script *script);
size_t tick_lines(const struct script *script);

#endif
