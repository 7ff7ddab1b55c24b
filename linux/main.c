/* kernelrun: carries a script out on the kernel's own io_uring, several times, each in a process of its own. */
#include <errno.h>
#include <fcntl.h>
#include <signal.h>
#include <stdio.h>
#include <stdlib.h>
#include <string.h>
#include <sys/prctl.h>
#include <sys/wait.h>
#include <time.h>
#include <unistd.h>

#include "carry.h"

static _Noreturn void usage(void)
{
    fprintf(stderr, "usage: kernelrun [--mode enter|defer|sqpoll|shared|joined|peek] [--times N] [--patience MS] [--exact] FILE\n");
    exit(3);
}

static enum mode mode_of(const char *word)
{
    static const char *const words[] = {"enter", "defer", "sqpoll", "shared", "joined", "peek"};
    for (size_t i = 0; i < sizeof words / sizeof *words; i++)
        if (!strcmp(words[i], word))
            return (enum mode)i;
    usage();
}

static unsigned number_of(const char *word)
{
    char *end;
    unsigned long value = strtoul(word, &end, 10);
    if (*word < '0' || *word > '9' || *end || value == 0 || value > 1000000)
        usage();
    return (unsigned)value;
}

/* The longest that a try may take, in milliseconds: its ticks, and much more than it waits for anything. */
static uint64_t limit_of(const struct script *script, const struct plan *plan)
{
    return last_tick(script) * plan->tick_ns / 1000000 + 50 * (uint64_t)plan->patience_ms + 5000;
}

/* Waits for the try, and ends it once its time is over. Answers its status, or -1 where it was ended. */
static int wait_for(pid_t try, uint64_t limit_ms)
{
    struct timespec moment = {.tv_nsec = 500000};
    int status;
    for (uint64_t rounds = 0; rounds < 2 * limit_ms; rounds++) {
        if (waitpid(try, &status, WNOHANG) == try)
            return WIFEXITED(status) ? WEXITSTATUS(status) : -1;
        nanosleep(&moment, NULL);
    }
    kill(try, SIGKILL);
    waitpid(try, &status, 0);
    return -1;
}

static pid_t begin_try(const struct script *script, const struct plan *plan, pid_t parent)
{
    fflush(stdout);
    pid_t try = fork();
    if (try)
        return try;
    /* A try doesn't outlive the process that began it. */
    prctl(PR_SET_PDEATHSIG, SIGKILL);
    if (getppid() != parent)
        _exit(1);
    carry_out(script, plan);
}

int main(int argc, char **argv)
{
    static struct script script;
    struct plan plan = {.mode = ENTER, .patience_ms = 10};
    const char *path = NULL;
    unsigned times = 1;
    for (int i = 1; i < argc; i++) {
        if (!strcmp(argv[i], "--mode") && i + 1 < argc)
            plan.mode = mode_of(argv[++i]);
        else if (!strcmp(argv[i], "--exact"))
            plan.exact = true;
        else if (!strcmp(argv[i], "--times") && i + 1 < argc)
            times = number_of(argv[++i]);
        else if (!strcmp(argv[i], "--patience") && i + 1 < argc)
            plan.patience_ms = number_of(argv[++i]);
        else if (path || argv[i][0] == '-')
            usage();
        else
            path = argv[i];
    }
    if (!path)
        usage();
    read_script(path, &script);
    const char *why = make_plan(&script, &plan);
    if (why) {
        printf("try cannot\nwhy %s\nend\n", why);
        return 0;
    }
    for (unsigned i = 0; i < times; i++) {
        pid_t try = begin_try(&script, &plan, getpid());
        int status = try < 0 ? -1 : wait_for(try, limit_of(&script, &plan));
        if (status == 2)
            return 2;
        if (status)
            printf("try ended\nend\n");
    }
    return 0;
}
