#include "report.h"

#include <inttypes.h>
#include <stdarg.h>

enum { WIDTH = 80, INSIDE = 4, WORDS = 13 };

void grouped(char *out, size_t room, uint64_t number)
{
    char digits[32];
    const size_t length = (size_t)snprintf(digits, sizeof digits, "%" PRIu64, number);
    size_t used = 0;
    for (size_t i = 0; i < length && used + 2 < room; i++) {
        if (i > 0 && (length - i) % 3 == 0)
            out[used++] = ',';
        out[used++] = digits[i];
    }
    out[used] = 0;
}

void fold(FILE *out, const char *head, int column, const char *words)
{
    int at = fprintf(out, "%-*s", column, head);
    bool first = true;
    while (*words != 0) {
        const int length = (int)strcspn(words, " ");
        if (!first && at + 1 + length > WIDTH) {
            at = fprintf(out, "\n%*s", column, "") - 1;
            first = true;
        }
        at += fprintf(out, "%s%.*s", first ? "" : " ", length, words);
        first = false;
        words += length;
        words += strspn(words, " ");
    }
    fputc('\n', out);
}

void report_check(FILE *out, size_t number, const check *which, const settings *how)
{
    char head[16];
    char words[1600];
    char orders[32];
    snprintf(head, sizeof head, "%2zu", number);
    snprintf(words, sizeof words, "%s: %s", which->name, which->sentence);
    fold(out, head, INSIDE, words);
    grouped(orders, sizeof orders, how->orders);
    snprintf(words, sizeof words, "%s; then %s random orders (seed %" PRIu64 "): %s", which->fixed,
             orders, how->seed, which->random);
    fold(out, "    tried", WORDS, words);
    fold(out, "    failure", WORDS, which->failure);
}

void report_result(FILE *out, const check *which, const result *came)
{
    char head[64];
    snprintf(head, sizeof head, "    %s  %s  ", came->passed ? "PASS" : "FAIL", which->name);
    fold(out, head, INSIDE + 6, came->sentence);
}

void add_words(result *came, const char *format, ...)
{
    const size_t used = strlen(came->sentence);
    va_list rest;
    va_start(rest, format);
    vsnprintf(came->sentence + used, sizeof came->sentence - used, format, rest);
    va_end(rest);
}

void add_order(result *came, const progress *doing)
{
    if (doing->order == 0)
        add_words(came, "; in the fixed order");
    else
        add_words(came, "; in random order %" PRIu64, doing->order);
}

void add_again(result *came, const check *which, const settings *how, const progress *doing)
{
    add_words(came, "; again by --only %s --seed %" PRIu64 " --orders %" PRIu64, which->name,
              how->seed, doing->order);
}
