/* cetomuhi-check: a verdict on the installed library, for the field engineer.
 *
 *     cetomuhi-check [--seed N] [--orders N] [--limit SECONDS] [--only NAME]... [--protocol FILE]
 *
 * Each check runs in a process of its own (run.c): a fixed order of calls and then random ones
 * (trial.c), held against what the check itself knows of the machine. */
#define _POSIX_C_SOURCE 200809L
#include <fcntl.h>
#include <inttypes.h>
#include <stdio.h>
#include <unistd.h>

#include "archive.h"
#include "interrupt.h"
#include "options.h"
#include "record.h"
#include "report.h"
#include "run.h"

const check *const checks[CHECKS] = {
    &lent_once, &crosses_over,  &survivor, &nothing_lost, &take_masked, &claims,
    &takers,    &load_filtered, &maps,     &page_cost,    &answered,
};

/* What has come of all checks that ran. */
typedef struct verdict {
    size_t ran;
    size_t failed;
    char names[400]; /* of those that failed */
} verdict;

/* Descriptors that were closed are not to be had by files that are opened later. What is written to
 * a standard output that was closed is lost, and the write says so. */
static void hold_descriptors(void)
{
    for (int i = 0; i <= STDERR_FILENO; i++)
        if (fcntl(i, F_GETFD) < 0 && open("/dev/null", O_RDONLY) < 0)
            return;
}

/* Asks the library for its version, which may end the process as any call may. */
static void identify(const check *which, const settings *how, int descriptor, progress *doing)
{
    static result came;
    (void)which;
    (void)how;
    (void)doing;
    came.passed = cetomuhi_matches();
    snprintf(came.sentence, sizeof came.sentence, "version %" PRIu64, cetomuhi_version());
    end_with(&came, descriptor);
}

static void print_all(record *kept, size_t number, const check *which, const settings *how,
                      verdict *so_far)
{
    static result came;
    report_check(stdout, number, which, how);
    fflush(stdout);
    run_apart(run_trial, which, how, &came);
    report_result(stdout, which, &came);
    fflush(stdout);
    if (kept->out != NULL) {
        report_check(kept->out, number, which, how);
        report_result(kept->out, which, &came);
    }
    so_far->ran++;
    if (came.passed)
        return;
    const size_t used = strlen(so_far->names);
    snprintf(so_far->names + used, sizeof so_far->names - used, "%s%s", used > 0 ? ", " : "",
             which->name);
    so_far->failed++;
}

/* The closing sentence; whether it says PASS. */
static bool close_verdict(char *words, size_t room, const verdict *all, const options *wanted,
                          const archive *found, const result *library)
{
    const bool wrong = found->installed == DIFFERS || found->installed == NOT_READ;
    const bool passes = all->failed == 0 && !wrong && library->passed;
    size_t used = 0;
    if (passes && all->ran == CHECKS)
        used += (size_t)snprintf(words, room, "all %zu checks PASS", all->ran);
    else if (passes)
        used += (size_t)snprintf(words, room, "%zu of %d checks ran, all PASS", all->ran, CHECKS);
    else if (all->failed > 0)
        used += (size_t)snprintf(words, room, "FAIL: %zu of %zu checks FAIL (%s)", all->failed,
                                 all->ran, all->names);
    else
        used += (size_t)snprintf(words, room, "FAIL: %zu of %zu checks PASS", all->ran, all->ran);
    if (wrong)
        used += (size_t)snprintf(words + used, room - used, "; %s", archive_words(found));
    if (!library->passed)
        used += (size_t)snprintf(words + used, room - used,
                                 "; the library is not the one of version %d that this program was "
                                 "built for",
                                 CETOMUHI_VERSION);
    snprintf(words + used, room - used, ": %s, archive sha256 %s, seed %" PRIu64, library->sentence,
             found->linked, wanted->how.seed);
    return passes;
}

/* Whether all that was printed has been written. */
static bool close_output(void)
{
    const bool whole = fflush(stdout) == 0 && ferror(stdout) == 0;
    return close(STDOUT_FILENO) == 0 && whole;
}

static int run_all(const options *wanted, record *kept)
{
    static result library;
    static char words[RESULT + 1000];
    verdict all = {0, 0, ""};
    const archive found = look_at_archive();
    run_apart(identify, NULL, &wanted->how, &library);
    record_head(kept, &wanted->how, &found, library.sentence);
    for (size_t i = 0; i < CHECKS; i++)
        if (wanted->chosen[i])
            print_all(kept, i + 1, checks[i], &wanted->how, &all);
    const bool passes = close_verdict(words, sizeof words, &all, wanted, &found, &library);
    fold(stdout, "cetomuhi-check: ", 4, words);
    if (kept->out != NULL)
        fold(kept->out, "cetomuhi-check: ", 4, words);
    return passes ? ALL_PASS : SOME_FAIL;
}

int main(int argc, char **argv)
{
    options wanted;
    record kept;
    int status = ALL_PASS;
    hold_descriptors();
    heed_signals();
    if (!read_options(&wanted, argc, argv))
        return BAD_USE;
    if (wanted.help)
        print_help();
    else if (wanted.list)
        print_list();
    else if (!begin_record(&kept, wanted.protocol))
        return BAD_USE;
    else {
        status = run_all(&wanted, &kept);
        if (!end_record(&kept)) {
            complain("%s: the record could not be written", wanted.protocol);
            status = OUTPUT_LOST;
        }
    }
    if (!close_output()) {
        complain("standard output could not be written");
        status = OUTPUT_LOST;
    }
    return status;
}
