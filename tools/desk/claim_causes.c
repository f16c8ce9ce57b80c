#include "claim_causes.h"

#include <inttypes.h>

/* Whether the caller does not hold a principal in being. */
static bool not_held(text *to, const refused *it, uint64_t principal)
{
    const cetomuhi_principal found = cetomuhi_principal_at(it->state, principal);
    if (!found.in_being) {
        add(to, "there is no principal %" PRIu64, principal);
        return true;
    }
    if (found.holder == operand(it->call, "P"))
        return false;
    add(to, "principal %" PRIu64 " is held by party %u", principal, found.holder);
    return true;
}

static bool bad_child(text *to, const refused *it)
{
    const uint64_t child = operand(it->call, "child");
    if (child >= CETOMUHI_PRINCIPALS) {
        add(to, "%" PRIu64 " is above 31", child);
        return true;
    }
    add(to, "principal %" PRIu64 " is in being already", child);
    return cetomuhi_principal_at(it->state, child).in_being;
}

/* To destroy it the caller holds the parent. */
static bool not_held_from_above(text *to, const refused *it, uint64_t principal)
{
    const cetomuhi_principal found = cetomuhi_principal_at(it->state, principal);
    if (!found.in_being) {
        add(to, "there is no principal %" PRIu64, principal);
        return true;
    }
    if (principal == 0) {
        add(to, "principal 0 has no parent");
        return true;
    }
    add(to, "its parent: ");
    return not_held(to, it, found.parent);
}

/* 20 */
bool wrong_principal(text *to, const refused *it)
{
    switch (it->call->numbers[0]) {
    case CETOMUHI_CREATE:
        return not_held(to, it, operand(it->call, "parent")) || bad_child(to, it);
    case CETOMUHI_DESTROY:
        return not_held_from_above(to, it, operand(it->call, "principal"));
    default:
        return not_held(to, it, operand(it->call, "principal"));
    }
}

static bool too_little(text *to, const refused *it)
{
    const uint64_t parent = operand(it->call, "parent");
    const unsigned unspent = cetomuhi_principal_at(it->state, parent).unspent;
    add(to, "principal %" PRIu64 " has %u unspent", parent, unspent);
    return unspent < operand(it->call, "limit");
}

/* 21: no session is long enough for a count of 65,535. */
bool claim_limit(text *to, const refused *it)
{
    const uint64_t principal = operand(it->call, "principal");
    const uint64_t page = operand(it->call, "page");
    const unsigned count = cetomuhi_count_at(it->state, principal, page);
    if (it->call->numbers[0] == CETOMUHI_CREATE)
        return too_little(to, it);
    if (it->call->numbers[0] == CETOMUHI_RELEASE) {
        add(to, "principal %" PRIu64 " does not claim page %" PRIu64, principal, page);
        return count == 0;
    }
    add(to, "principal %" PRIu64 " has nothing unspent", principal);
    return count == 0 && cetomuhi_principal_at(it->state, principal).unspent == 0;
}

/* 22: the claimants, as many as there are. */
bool claimed(text *to, const refused *it)
{
    const uint64_t page = operand(it->call, "page");
    size_t count = 0;
    for (size_t principal = 0; principal < CETOMUHI_PRINCIPALS; principal++)
        if (cetomuhi_count_at(it->state, principal, page) > 0)
            add(to, "%s %zu", count++ == 0 ? "it is claimed by principal" : ",", principal);
    return count > 0;
}
