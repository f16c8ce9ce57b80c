#define _POSIX_C_SOURCE 200809L
#include "options.h"

#include <stdarg.h>
#include <stdio.h>
#include <time.h>

static const uint64_t most_orders = 1000000;
static const uint64_t most_seconds = 3600;

void complain(const char *format, ...)
{
    va_list rest;
    va_start(rest, format);
    fputs("cetomuhi-check: ", stderr);
    vfprintf(stderr, format, rest);
    fputc('\n', stderr);
    va_end(rest);
}

void print_help(void)
{
    puts("usage: cetomuhi-check [OPTION]...\n"
         "\n"
         "Checks the library that this program was linked with: the field engineer's\n"
         "checklist, the requests that have landed, and that every call is answered.\n"
         "\n"
         "  --seed N         where the random orders begin (else the clock says)\n"
         "  --orders N       random orders of a check, 0 to 1000000 (2000)\n"
         "  --limit SECONDS  for a check, 1 to 3600 (20); it fails if it takes longer\n"
         "  --only NAME      runs this check alone; may be given more than once\n"
         "  --protocol FILE  writes a record of the run to FILE\n"
         "  --list           prints the names of the checks\n"
         "  --help           prints this\n"
         "\n"
         "Exit status:\n"
         "  0  all checks that ran PASS\n"
         "  1  a check is FAIL, or the library is not the one it should be\n"
         "  2  a word of the command line is wrong, or FILE cannot be made\n"
         "  3  standard output or FILE could not be written");
}

void print_list(void)
{
    for (size_t i = 0; i < CHECKS; i++)
        puts(checks[i]->name);
}

/* A decimal number of at most `most`. */
static bool read_number(const char *option, const char *word, uint64_t least, uint64_t most,
                        uint64_t *number)
{
    uint64_t value = 0;
    bool fits = *word != 0;
    for (; fits && *word != 0; word++) {
        const uint64_t digit = (uint64_t)(*word - '0');
        fits = *word >= '0' && *word <= '9' && value <= (most - digit) / 10;
        value = 10 * value + digit;
    }
    *number = value;
    if (fits && value >= least)
        return true;
    complain("%s wants a number from %llu to %llu", option, (unsigned long long)least,
             (unsigned long long)most);
    return false;
}

static bool choose(options *wanted, const char *name)
{
    for (size_t i = 0; i < CHECKS; i++) {
        if (strcmp(checks[i]->name, name) != 0)
            continue;
        wanted->chosen_count += !wanted->chosen[i];
        wanted->chosen[i] = true;
        return true;
    }
    complain("%s is no check; --list prints their names", name);
    return false;
}

static uint64_t seed_of_clock(void)
{
    struct timespec now;
    clock_gettime(CLOCK_REALTIME, &now);
    return (uint64_t)now.tv_sec * 1000 + (uint64_t)now.tv_nsec / 1000000;
}

/* An option and the word behind it. */
static bool read_pair(options *wanted, const char *option, const char *word)
{
    if (strcmp(option, "--seed") == 0)
        return read_number(option, word, 0, UINT64_MAX, &wanted->how.seed);
    if (strcmp(option, "--orders") == 0)
        return read_number(option, word, 0, most_orders, &wanted->how.orders);
    if (strcmp(option, "--limit") == 0)
        return read_number(option, word, 1, most_seconds, &wanted->how.seconds);
    if (strcmp(option, "--only") == 0)
        return choose(wanted, word);
    wanted->protocol = word;
    return true;
}

static bool has_a_word(const char *option)
{
    static const char *const with[] = {"--seed", "--orders", "--limit", "--only", "--protocol"};
    for (size_t i = 0; i < sizeof with / sizeof with[0]; i++)
        if (strcmp(option, with[i]) == 0)
            return true;
    return false;
}

static bool read_words(options *wanted, int argc, char **argv)
{
    for (int i = 1; i < argc; i++) {
        if (strcmp(argv[i], "--list") == 0) {
            wanted->list = true;
        } else if (strcmp(argv[i], "--help") == 0) {
            wanted->help = true;
        } else if (!has_a_word(argv[i])) {
            complain("%s is no option; --help prints them", argv[i]);
            return false;
        } else if (i + 1 == argc) {
            complain("%s wants a word behind it", argv[i]);
            return false;
        } else {
            if (!read_pair(wanted, argv[i], argv[i + 1]))
                return false;
            i++;
        }
    }
    return true;
}

bool read_options(options *wanted, int argc, char **argv)
{
    *wanted = (options){.how = {seed_of_clock(), ORDERS, SECONDS}};
    if (!read_words(wanted, argc, argv))
        return false;
    for (size_t i = 0; i < CHECKS && wanted->chosen_count == 0; i++)
        wanted->chosen[i] = true;
    if (wanted->chosen_count == 0)
        wanted->chosen_count = CHECKS;
    return true;
}
