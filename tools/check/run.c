/* A check runs in a process of its own, so that a library that ends it or never answers is a
 * failure like any other. */
#define _GNU_SOURCE
#include <errno.h>
#include <fcntl.h>
#include <inttypes.h>
#include <poll.h>
#include <signal.h>
#include <stdio.h>
#include <sys/mman.h>
#include <sys/prctl.h>
#include <sys/wait.h>
#include <time.h>
#include <unistd.h>

#include "calls.h"
#include "interrupt.h"
#include "report.h"
#include "run.h"

static int64_t milliseconds(void)
{
    struct timespec now;
    clock_gettime(CLOCK_MONOTONIC, &now);
    return (int64_t)now.tv_sec * 1000 + now.tv_nsec / 1000000;
}

/* A piece of work, and where it stands, which both processes see. */
typedef struct task {
    work *what;
    const check *which;
    const settings *how;
    progress *doing;
} task;

/* The child: what the library prints is lost, and it ends when its parent does. */
static _Noreturn void begin_child(const task *it, int result_to, pid_t parent)
{
    const int nowhere = open("/dev/null", O_RDWR);
    heed_no_signals();
    prctl(PR_SET_PDEATHSIG, SIGKILL);
    if (getppid() != parent || nowhere < 0 || dup2(nowhere, STDIN_FILENO) < 0 ||
        dup2(nowhere, STDOUT_FILENO) < 0)
        _exit(1);
    it->what(it->which, it->how, result_to, it->doing);
    _exit(1);
}

/* Reads a whole result until the time is over: 1, or 0 if the child closed its end, or -1. */
static int read_result(int from, int64_t until, result *came)
{
    size_t length = 0;
    while (length < sizeof *came) {
        struct pollfd ready = {from, POLLIN, 0};
        const int64_t left = until - milliseconds();
        if (left <= 0)
            return -1;
        if (poll(&ready, 1, (int)left) <= 0)
            continue;
        const ssize_t more = read(from, (char *)came + length, sizeof *came - length);
        if (more <= 0)
            return 0;
        length += (size_t)more;
    }
    came->sentence[RESULT - 1] = 0;
    return 1;
}

/* Waits for a child that has closed its end; false if the time is over first. */
static bool wait_until(pid_t child, int64_t until, int *status)
{
    const struct timespec pause = {0, 2000000};
    while (waitpid(child, status, WNOHANG) == 0) {
        if (milliseconds() > until)
            return false;
        nanosleep(&pause, NULL);
    }
    return true;
}

static void kill_child(pid_t child)
{
    kill(child, SIGKILL);
    while (waitpid(child, NULL, 0) < 0 && errno == EINTR)
        continue;
}

/* A child that left no result. */
static void set_failed(result *came, const char *format, uint64_t number)
{
    came->passed = false;
    snprintf(came->sentence, sizeof came->sentence, format, number);
}

/* The call that the child did not come back from. */
static void add_place(result *came, const task *it)
{
    char words[200];
    const cetomuhi_call call = it->doing->call;
    if (it->which == NULL)
        return;
    write_call(words, sizeof words, &call);
    add_order(came, it->doing);
    if (call.numbers[0] == 0)
        add_words(came, ", before the first call on a machine");
    else
        add_words(came, ", at or after call %" PRIu64 ", %s", it->doing->made + 1, words);
    add_again(came, it->which, it->how, it->doing);
}

/* What came of the child, which is gone then. */
static void end_child(const task *it, pid_t child, int from, result *came)
{
    const uint64_t seconds = it->how->seconds;
    const int64_t until = milliseconds() + (int64_t)seconds * 1000;
    int status = 0;
    const int got = read_result(from, until, came);
    if (got == 1) {
        kill_child(child);
        return;
    }
    if (got < 0 || !wait_until(child, until, &status)) {
        kill_child(child);
        set_failed(came, "no answer within %" PRIu64 " s", seconds);
    } else if (WIFSIGNALED(status)) {
        const uint64_t number = (uint64_t)WTERMSIG(status);
        set_failed(came, "the library ended the program by signal %" PRIu64, number);
    } else {
        const uint64_t number = (uint64_t)WEXITSTATUS(status);
        set_failed(came, "the library ended the program with status %" PRIu64, number);
    }
    add_place(came, it);
}

static void run_task(const task *it, result *came)
{
    int ends[2];
    const pid_t parent = getpid();
    if (pipe(ends) != 0) {
        set_failed(came, "untested: no pipe could be made (error %" PRIu64 ")", (uint64_t)errno);
        return;
    }
    fflush(NULL);
    const pid_t child = fork();
    if (child == 0) {
        close(ends[0]);
        begin_child(it, ends[1], parent);
    }
    close(ends[1]);
    name_child(child);
    if (child < 0)
        set_failed(came, "untested: no process could be made (error %" PRIu64 ")", (uint64_t)errno);
    else
        end_child(it, child, ends[0], came);
    name_child(0);
    close(ends[0]);
}

void run_apart(work *what, const check *which, const settings *how, result *came)
{
    task it = {what, which, how, NULL};
    void *shared =
        mmap(NULL, sizeof *it.doing, PROT_READ | PROT_WRITE, MAP_SHARED | MAP_ANONYMOUS, -1, 0);
    if (shared == MAP_FAILED) {
        set_failed(came, "untested: no memory could be had (error %" PRIu64 ")", (uint64_t)errno);
        return;
    }
    it.doing = shared;
    run_task(&it, came);
    munmap(shared, sizeof *it.doing);
}
