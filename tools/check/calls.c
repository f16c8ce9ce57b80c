#include "calls.h"

#include <inttypes.h>
#include <stdio.h>

/* A letter for each operand: p a party, r a register, b another byte, w two bytes, v eight. Then
 * the refusals from 4 on that the kind can get. */
typedef struct kind {
    const char *operands;
    uint8_t refusals[8];
} kind;

static const kind kinds[KINDS] = {
    [CETOMUHI_TAKE] = {"pwr", {4, 6, 7}},
    [CETOMUHI_SPLIT] = {"pww", {4, 6, 7, 8, 9}},
    [CETOMUHI_MERGE] = {"pw", {4, 6, 7}},
    [CETOMUHI_GIVE] = {"pwp", {4, 6, 7}},
    [CETOMUHI_REVOKE] = {"pw", {4, 5, 6, 7, 10, 11, 13}},
    [CETOMUHI_SWEEP] = {"pw", {4, 5, 11}},
    [CETOMUHI_COLLECT] = {"p", {4, 5, 11}},
    [CETOMUHI_MAP] = {"pbb", {4, 5, 12, 13, 14}},
    [CETOMUHI_UNMAP] = {"pb", {4, 5, 12, 13, 22}},
    [CETOMUHI_ZERO] = {"pb", {4, 5, 12, 14}},
    [CETOMUHI_LOAD] = {"prwr", {4, 15, 16, 17, 18}},
    [CETOMUHI_STORE] = {"prwr", {4, 15, 16, 17, 18}},
    [CETOMUHI_NARROW] = {"prwwbr", {4, 15, 17}},
    [CETOMUHI_NUMBER] = {"prv", {4}},
    [CETOMUHI_GRANT] = {"prp", {4, 15, 19}},
    [CETOMUHI_RECEIVE] = {"pr", {4, 19}},
    [CETOMUHI_TAKE_MASKED] = {"pwrb", {4, 6, 7}},
    [CETOMUHI_CREATE] = {"pbbwp", {4, 20, 21}},
    [CETOMUHI_CLAIM] = {"pbb", {4, 12, 20, 21}},
    [CETOMUHI_RELEASE] = {"pbb", {4, 12, 20, 21}},
    [CETOMUHI_DESTROY] = {"pb", {4, 20}},
};

static const char *operands_of(uint64_t number)
{
    return number > 0 && number < KINDS ? kinds[number].operands : "";
}

static size_t width(char operand)
{
    return operand == 'v' ? 8 : operand == 'w' ? 2 : 1;
}

size_t operand_count(uint64_t number)
{
    return strlen(operands_of(number));
}

size_t operand_bytes(uint64_t number, size_t operand)
{
    return width(operands_of(number)[operand]);
}

bool is_judged_by_4(uint64_t number, size_t operand)
{
    const char letter = operands_of(number)[operand];
    return letter == 'p' || letter == 'r';
}

size_t bytes_of(const cetomuhi_call *call, uint8_t out[CETOMUHI_COMMAND_BYTES])
{
    const char *letters = operands_of(call->numbers[0]);
    size_t length = 0;
    out[length++] = (uint8_t)call->numbers[0];
    for (size_t i = 0; letters[i] != 0; i++)
        for (size_t left = width(letters[i]); left > 0; left--)
            out[length++] = (uint8_t)(call->numbers[1 + i] >> 8 * (left - 1));
    return length;
}

size_t call_at(const uint8_t *input, size_t length, size_t at, cetomuhi_call *call)
{
    memset(call, 0, sizeof *call);
    if (at >= length || *operands_of(input[at]) == 0)
        return 0;
    const size_t first = at;
    const char *letters = operands_of(input[at]);
    call->numbers[0] = input[at++];
    for (size_t i = 0; letters[i] != 0; i++)
        for (size_t left = width(letters[i]); left > 0; left--) {
            if (at == length)
                return 0;
            call->numbers[1 + i] = call->numbers[1 + i] << 8 | input[at++];
        }
    return at - first;
}

uint64_t early_refusal(const cetomuhi_call *call)
{
    const uint64_t number = call->numbers[0];
    for (size_t i = 0; i < operand_count(number); i++)
        if (is_judged_by_4(number, i) && call->numbers[1 + i] > 7)
            return CETOMUHI_REFUSED_ABOVE_SEVEN;
    const bool for_manager = number >= CETOMUHI_REVOKE && number <= CETOMUHI_ZERO;
    return for_manager && call->numbers[1] != 0 ? CETOMUHI_REFUSED_NOT_MANAGER : 0;
}

bool can_answer(uint64_t number, uint64_t code)
{
    if (code == CETOMUHI_GRANTED)
        return true;
    for (size_t i = 0; number < KINDS && i < sizeof kinds[number].refusals; i++)
        if (kinds[number].refusals[i] == code)
            return true;
    return false;
}

bool names_number(uint64_t number)
{
    return number == CETOMUHI_TAKE || number == CETOMUHI_TAKE_MASKED || number == CETOMUHI_SWEEP ||
           names_tag(number);
}

bool names_tag(uint64_t number)
{
    return number == CETOMUHI_LOAD || number == CETOMUHI_RECEIVE;
}

bool writes_memory(uint64_t number)
{
    return number == CETOMUHI_SWEEP || number == CETOMUHI_ZERO || number == CETOMUHI_STORE;
}

int write_call(char *out, size_t room, const cetomuhi_call *call)
{
    const uint64_t number = call->numbers[0];
    int length = snprintf(out, room, "%s", cetomuhi_kind_word(number));
    for (size_t i = 0; i < operand_count(number); i++)
        length += snprintf(out + length, room - (size_t)length, " %" PRIu64, call->numbers[1 + i]);
    return length;
}
