/* One try: carries a script out on the kernel's io_uring, and prints what came of it. */
#ifndef CARRY_H
#define CARRY_H

#include "plan.h"

/* Prints the try to standard output; ends the process. With status 2 the kernel gave no ring, with a line that says why. */
_Noreturn void carry_out(const struct script *script, const struct plan *plan);

#endif
