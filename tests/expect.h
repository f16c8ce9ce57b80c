/* Calls with the answers that they must get. */
#ifndef EXPECT_H
#define EXPECT_H

#include "check.h"

/* The codes that came. */
static bool seen[23];

/* Makes a call. The code and the number are those given; a refused one keeps every byte; the state
 * is well formed after it. */
static void expect(cetomuhi_machine *machine, cetomuhi_call call, uint64_t code, uint64_t number) {
    static cetomuhi_machine before;
    uint8_t bytes[CETOMUHI_COMMAND_BYTES];
    const size_t length = cetomuhi_call_write(call, bytes, sizeof bytes);
    before = *machine;
    const cetomuhi_answer answer = cetomuhi_machine_call(machine, call);
    CHECK(answer.code == code);
    CHECK(answer.number == number);
    CHECK(answer.used == length);
    CHECK(cetomuhi_machine_well_formed(machine));
    if (answer.code != CETOMUHI_GRANTED) {
        CHECK(answer.tag == 0);
        CHECK(memcmp(machine, &before, sizeof before) == 0);
    }
    if (answer.code < COUNT(seen))
        seen[answer.code] = true;
}

static void grant(cetomuhi_machine *machine, cetomuhi_call call) {
    expect(machine, call, CETOMUHI_GRANTED, 0);
}

static void refuse(cetomuhi_machine *machine, cetomuhi_call call, uint64_t code) {
    expect(machine, call, code, 0);
}

#endif
