//! Calls on principals and claims: those that will be granted, and likely ones.

use super::granted::{by, Mood};
use super::Author;
use crate::plain::claims::{Principal, PRINCIPALS};
use crate::plain::pages::Page;
use crate::plain::table::Reservation;
use crate::plain::{Action, Call};

/// How many calls at most let go of the claims on a range.
const LETTING_GO: usize = 40;

impl Author {
    pub(super) fn create(&mut self) -> Option<Call> {
        let (parent, Principal { holder: party, unspent, .. }) = self.parent_to_be()?;
        let free = (0..PRINCIPALS as u8).filter(|n| self.state.claims.principal(*n).is_none());
        let child = self.random.pick_any(free)?;
        let limit = self.limit_to_give(unspent);
        by(party, Action::Create { parent, child, limit, holder: self.party() })
    }

    /// While families are founded, one that stands deepest; else mostly one with limit unspent.
    fn parent_to_be(&mut self) -> Option<(u8, Principal)> {
        let poor_too = self.random.one_in(6);
        let claims = &self.state.claims;
        let principals = claims.principals();
        match self.mood {
            Mood::Founding => principals.max_by_key(|(number, _)| claims.depth(*number)),
            _ => self.random.pick_any(principals.filter(|(_, it)| poor_too || it.unspent > 0)),
        }
    }

    /// All but a few while families are founded, so that a long one has limits; else a few.
    fn limit_to_give(&mut self, unspent: u16) -> u16 {
        let few = self.random.below(6) as u16;
        let limit = match self.mood {
            Mood::Founding => unspent.saturating_sub(few),
            _ => *self.random.pick(&[0, 1, 1, 2, 2, 3, 5, 8, 40, unspent / 2, unspent]),
        };
        limit.min(unspent)
    }

    pub(super) fn claim(&mut self) -> Option<Call> {
        let (principal, entry) = self.random.pick_any(self.state.claims.principals())?;
        let again = entry.unspent == 0 || self.random.one_in(4);
        let page = match again {
            true => self.counted_page(principal)?,
            false => self.page_to_claim(),
        };
        by(entry.holder, Action::Claim { principal, page })
    }

    /// Mostly a Mapped one, so that claims stand in the way of an unmap.
    fn page_to_claim(&mut self) -> u8 {
        let any = self.random.below(self.state.pages.pages().len()) as u8;
        let claimed = self.random.one_in(2);
        match self.random.one_in(5) {
            true => any,
            false => self.page_with(true, claimed).unwrap_or(any),
        }
    }

    fn counted_page(&mut self, principal: u8) -> Option<u8> {
        let counts = self.state.claims.counts(principal).iter().enumerate();
        self.random.pick_any(counts.filter(|(_, count)| **count > 0).map(|(page, _)| page as u8))
    }

    pub(super) fn release(&mut self) -> Option<Call> {
        let claiming = self.state.claims.principals().filter(|(number, _)| {
            let counts = self.state.claims.counts(*number);
            counts.iter().any(|count| *count > 0)
        });
        let (principal, entry) = self.random.pick_any(claiming)?;
        let page = self.counted_page(principal)?;
        by(entry.holder, Action::Release { principal, page })
    }

    pub(super) fn destroy(&mut self) -> Option<Call> {
        let (principal, _) = self.random.pick_any(self.state.claims.principals().skip(1))?;
        self.destroy_of(principal)
    }

    /// By the parent's holder; principal 0 has no parent.
    fn destroy_of(&self, principal: u8) -> Option<Call> {
        let parent = self.state.claims.principal(principal)?.parent?;
        by(self.state.claims.principal(parent)?.holder, Action::Destroy { principal })
    }

    /// A page that is Mapped or not, and claimed or not.
    pub(super) fn page_with(&mut self, mapped: bool, claimed: bool) -> Option<u8> {
        let pages = self.state.pages.pages().iter().enumerate();
        let fit = pages.filter(|(index, page)| {
            let is_claimed = self.state.claims.is_claimed(*index);
            (matches!(page, Page::Mapped(_)), is_claimed) == (mapped, claimed)
        });
        self.random.pick_any(fit.map(|(index, _)| index as u8))
    }

    /// An unmap of a claimed page, which gets refusal 22 if the page is Mapped, else 13.
    pub(super) fn unmap_of_a_claimed_page(&mut self, mapped: bool) -> Option<Call> {
        let page = self.page_with(mapped, true)?;
        by(0, Action::Unmap { page })
    }

    /// A release, seldom a destroy, that lets go of a claim on the page.
    pub(super) fn letting_go(&mut self, page: usize) -> Option<Call> {
        let principals = self.state.claims.principals();
        let mut claiming =
            principals.filter(|(number, _)| self.state.claims.counts(*number)[page] > 0);
        let (principal, entry) = claiming.next()?;
        let destroy = match self.random.one_in(5) {
            true => self.destroy_of(principal),
            false => None,
        };
        let release = Action::Release { principal, page: page as u8 };
        destroy.or_else(|| by(entry.holder, release))
    }

    /// Lets go of the claims on a range's Mapped pages; whether none is left.
    pub(super) fn let_go(&mut self, row: Reservation) -> bool {
        let mut calls = 0;
        for page in row.range().pages() {
            if !matches!(self.state.pages.pages()[page], Page::Mapped(_)) {
                continue;
            }
            while let Some(call) = self.letting_go(page) {
                if calls == LETTING_GO {
                    return false;
                }
                self.make(call);
                calls += 1;
            }
        }
        true
    }

    /// One of the four commands with likely operands, mostly by a party that has a say.
    pub(super) fn any_claiming(&mut self) -> Call {
        let principal = self.any_principal();
        let command = self.random.below(4);
        let page = self.any_page();
        let action = match command {
            0 => {
                let (child, limit) = (self.any_child(), self.any_limit(principal));
                let holder = self.any_register();
                Action::Create { parent: principal, child, limit, holder }
            }
            1 => Action::Claim { principal, page },
            2 => Action::Release { principal, page },
            _ => Action::Destroy { principal },
        };
        let any = self.any_party();
        let holder = |number| self.state.claims.principal(number).map(|entry| entry.holder);
        let parent = self.state.claims.principal(principal).and_then(|entry| entry.parent);
        let party = match (command, self.random.below(4)) {
            (_, 0) => None,
            (3, 1 | 2) => parent.and_then(holder),
            _ => holder(principal),
        };
        Call { party: party.unwrap_or(any), action }
    }

    fn any_principal(&mut self) -> u8 {
        let any = self.random.below(256) as u8;
        let number = self.random.below(PRINCIPALS) as u8;
        let in_being = self.random.pick_any(self.state.claims.principals());
        match (self.random.below(12), in_being) {
            (0, _) => *self.random.pick(&[PRINCIPALS as u8, any]),
            (1 | 2, _) => number,
            (_, Some((number, _))) => number,
            (_, None) => 0,
        }
    }

    fn any_child(&mut self) -> u8 {
        let any = self.random.below(256) as u8;
        match self.random.below(6) {
            0 => *self.random.pick(&[PRINCIPALS as u8, any]),
            1 => 0,
            _ => self.random.below(PRINCIPALS) as u8,
        }
    }

    /// About what is unspent, or anything.
    fn any_limit(&mut self, parent: u8) -> u16 {
        let entry = self.state.claims.principal(parent);
        let unspent = entry.map_or(0, |entry| entry.unspent);
        match self.random.below(4) {
            0 => self.random.number() as u16,
            1 => unspent,
            2 => unspent.wrapping_add(1),
            _ => self.random.below(4) as u16,
        }
    }
}
