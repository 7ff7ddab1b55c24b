/* Turns entry lines into submission queue entries, over real pipes and buffers. */
#ifndef PREPARE_H
#define PREPARE_H

#include <liburing.h>

#include "plan.h"

/* What stands for a script's pipes, and for its entries' buffers and times. */
struct stage {
    const struct script *script;
    const struct plan *plan;
    int fd[2 * MOST_PIPES];                       /* of each end, by its number in the script */
    unsigned char *buffer[MOST_ENTRIES];
    struct __kernel_timespec time[MOST_ENTRIES];
};

/* Makes pipes and buffers, or says why there are none. */
const char *make_stage(const struct script *script, const struct plan *plan, struct stage *stage);

/* Fills the kernel's entry. `clock` is the script's clock as it is handed in. */
void prepare(struct stage *stage, int entry, uint64_t clock, struct io_uring_sqe *sqe);

/* Of a READ: how many bytes of the script have come into its buffer, and each of them. */
uint64_t filled(const struct stage *stage, int entry);
unsigned char data_at(const struct stage *stage, int entry, uint64_t byte);

#endif
