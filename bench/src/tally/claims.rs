//! What calls on principals and claims do, and why they are refused, in words.

use crate::plain::claims::{Claims, PRINCIPALS};
use crate::plain::{Action, Call, State};

/// The case that a call on this state is if it is granted; None: it is on no claim, or is refused.
pub fn if_granted(claims: &Claims, action: Action) -> Option<&'static str> {
    let unspent = |number| claims.principal(number).map(|principal| principal.unspent);
    let count = |number, page| claims.counts(number)[usize::from(page)];
    Some(match action {
        Action::Create { limit: 0, .. } => "created with limit 0",
        Action::Create { parent, limit, .. } if limit == unspent(parent)? => {
            "created with all that is unspent"
        }
        Action::Create { .. } => "created with a part of it",
        Action::Claim { principal, page } => match (unspent(principal)?, count(principal, page)) {
            (1, 0) => "first claim of a page, with the last that is unspent",
            (_, 0) => "first claim of a page",
            (0, _) => "further claim of a page, with nothing unspent",
            _ => "further claim of a page",
        },
        Action::Release { principal, page } => {
            match (unspent(principal)?, count(principal, page)) {
                (_, 1) => "last release of a page",
                _ => "release before the last",
            }
        }
        Action::Destroy { principal } => match (unspent(principal)?, claims.family(principal)) {
            (_, family) if family.is_power_of_two() => "destroyed alone",
            _ => "destroyed with descendants",
        },
        _ => return None,
    })
}

/// The case that a call with this refusal is on the state.
pub fn if_refused(state: &State, call: Call, code: u8) -> Option<&'static str> {
    match code {
        13 => claimed_but_not_mapped(state, call.action),
        20 => wrong_principal(&state.claims, call),
        21 => claim_limit(&state.claims, call.action),
        22 => Some("refused under 22, the page is Mapped and claimed"),
        _ => None,
    }
}

fn claimed_but_not_mapped(state: &State, action: Action) -> Option<&'static str> {
    let Action::Unmap { page } = action else { return None };
    let words = "refused under 13, the page is claimed, but not Mapped";
    state.claims.is_claimed(page.into()).then_some(words)
}

fn wrong_principal(claims: &Claims, Call { party, action }: Call) -> Option<&'static str> {
    let is_held = |number| claims.principal(number).is_some_and(|entry| entry.holder == party);
    Some(match action {
        Action::Create { parent, child, .. } => match (claims.principal(parent), child) {
            (None, _) => "refused under 20, create, the parent is not in being",
            (Some(entry), _) if entry.holder != party => {
                "refused under 20, create, the parent is another party's"
            }
            (_, child) if usize::from(child) >= PRINCIPALS => {
                "refused under 20, create, the child's number is above 31"
            }
            _ => "refused under 20, create, the child's number is taken",
        },
        Action::Destroy { principal: 0 } => "refused under 20, destroy, principal 0",
        Action::Destroy { principal } => match claims.principal(principal) {
            None => "refused under 20, destroy, not in being",
            Some(_) if is_held(principal) => {
                "refused under 20, destroy, the caller holds it and not its parent"
            }
            Some(_) => "refused under 20, destroy, the caller holds neither",
        },
        Action::Claim { principal, .. } | Action::Release { principal, .. } => {
            match claims.principal(principal) {
                None => "refused under 20, claim or release, not in being",
                Some(_) => "refused under 20, claim or release, another party's",
            }
        }
        _ => return None,
    })
}

fn claim_limit(claims: &Claims, action: Action) -> Option<&'static str> {
    Some(match action {
        Action::Create { .. } => "refused under 21, create, too little is unspent",
        Action::Claim { principal, page } if claims.counts(principal)[usize::from(page)] > 0 => {
            "refused under 21, claim, the count is 65,535"
        }
        Action::Claim { .. } => "refused under 21, claim, nothing is unspent",
        Action::Release { .. } => "refused under 21, release, the count is 0",
        _ => return None,
    })
}
