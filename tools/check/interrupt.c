#define _POSIX_C_SOURCE 200809L
#include "interrupt.h"

#include <signal.h>
#include <stddef.h>
#include <unistd.h>

static volatile sig_atomic_t running;
static const char *volatile unfinished;

static const int heeded[] = {SIGINT, SIGTERM, SIGHUP};
enum { HEEDED = sizeof heeded / sizeof heeded[0] };

static void end(int number)
{
    if (running > 0)
        kill((pid_t)running, SIGKILL);
    if (unfinished != NULL)
        unlink(unfinished);
    signal(number, SIG_DFL);
    raise(number);
}

static void set(int number, void (*handler)(int))
{
    struct sigaction action = {0};
    action.sa_handler = handler;
    sigemptyset(&action.sa_mask);
    sigaction(number, &action, NULL);
}

void heed_signals(void)
{
    for (size_t i = 0; i < HEEDED; i++)
        set(heeded[i], end);
    set(SIGPIPE, SIG_IGN);
    set(SIGXFSZ, SIG_IGN);
}

void heed_no_signals(void)
{
    for (size_t i = 0; i < HEEDED; i++)
        set(heeded[i], SIG_DFL);
}

void name_child(pid_t child)
{
    running = child;
}

void name_unfinished(const char *path)
{
    unfinished = path;
}
