#include "word_causes.h"

#include <inttypes.h>

#include "words.h"

/* The operand that names the register which must hold a capability. */
static const char *through_name(const refused *it)
{
    const uint64_t kind = it->call->numbers[0];
    return kind == CETOMUHI_LOAD || kind == CETOMUHI_STORE ? "a" : "s";
}

static cetomuhi_word register_named(const refused *it, const char *name)
{
    return cetomuhi_register_at(it->state, operand(it->call, "P"), operand(it->call, name));
}

static cetomuhi_capability through(const refused *it)
{
    return cetomuhi_capability_of(register_named(it, through_name(it)).cell);
}

/* 15 */
bool untagged(text *to, const refused *it)
{
    const char *const name = through_name(it);
    const cetomuhi_word word = register_named(it, name);
    add(to, "register %" PRIu64 " holds no capability, but ", operand(it->call, name));
    add_word(to, word, it->state);
    return word.tag == 0;
}

/* 16 */
bool no_permission(text *to, const refused *it)
{
    const unsigned has = through(it).permissions;
    const bool is_load = it->call->numbers[0] == CETOMUHI_LOAD;
    const uint64_t a = operand(it->call, "a");
    const bool plain = has & (is_load ? CETOMUHI_MAY_LOAD : CETOMUHI_MAY_STORE);
    if (plain)
        add(to, "register %" PRIu64 " holds a capability, and register %" PRIu64 " stores none",
            operand(it->call, "s"), a);
    else
        add(to, "register %" PRIu64 " may not %s", a, is_load ? "load" : "store");
    add(to, ": it has ");
    add_permissions(to, has);
    return !plain ||
           (!is_load && register_named(it, "s").tag != 0 && !(has & CETOMUHI_MAY_STORE_CAPABILITY));
}

/* From a start no narrowing begins above 65,535. */
static bool bad_narrowing(text *to, const refused *it)
{
    const cetomuhi_capability from = through(it);
    const uint64_t offset = operand(it->call, "off");
    const uint64_t length = operand(it->call, "len");
    if (length == 0) {
        add(to, "the length is 0");
        return true;
    }
    add(to, "offset %" PRIu64 " and %" PRIu64 " cells end past its %u cells", offset, length,
        from.length);
    return offset + length > from.length;
}

/* 17 */
bool out_of_bounds(text *to, const refused *it)
{
    const cetomuhi_capability from = through(it);
    if (it->call->numbers[0] == CETOMUHI_NARROW)
        return bad_narrowing(to, it);
    add(to, "register %" PRIu64 " has %u cells", operand(it->call, "a"), from.length);
    return operand(it->call, "off") >= from.length;
}

/* 18: from a start no capability reaches beyond the last page. */
bool not_mapped(text *to, const refused *it)
{
    const uint64_t cell = through(it).base + operand(it->call, "off");
    const uint64_t page = cell / CETOMUHI_PAGE_CELLS;
    const cetomuhi_page found = cetomuhi_page_at(it->state, page);
    add(to, "cell %" PRIu64 " lies in page %" PRIu64 ", which is ", cell, page);
    add_page_state(to, found);
    return found.state != CETOMUHI_PAGE_MAPPED;
}

/* 19 */
bool mailbox(text *to, const refused *it)
{
    const bool is_grant = it->call->numbers[0] == CETOMUHI_GRANT;
    const uint64_t party = operand(it->call, is_grant ? "to" : "P");
    const cetomuhi_word word = cetomuhi_mailbox_at(it->state, party);
    add(to, "the mailbox of party %" PRIu64 " is %s", party, word.tag != 0 ? "full" : "empty");
    return is_grant == (word.tag != 0);
}
