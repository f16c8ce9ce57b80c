//! Principals, their limits, and the pages that they claim.

use super::answer::Refusal;
use super::pages::PAGES;

pub const PRINCIPALS: usize = 32;
/// What all limits, spent and unspent, add up to.
pub const WHOLE_LIMIT: u16 = 8_192;

/// A principal in being. Its limit is what is unspent here and one for each page that it counts.
#[derive(Clone, Copy, Debug, PartialEq, Eq)]
pub struct Principal {
    pub holder: u8,
    /// None is principal 0's.
    pub parent: Option<u8>,
    pub unspent: u16,
}

#[derive(Clone, Debug, PartialEq, Eq)]
pub struct Claims {
    principals: [Option<Principal>; PRINCIPALS],
    /// How often each principal claims each page.
    counts: [[u16; PAGES]; PRINCIPALS],
}

impl Claims {
    /// Principal 0 is party 0's and has the whole limit; nothing is claimed.
    pub fn fresh() -> Claims {
        let mut principals = [None; PRINCIPALS];
        principals[0] = Some(Principal { holder: 0, parent: None, unspent: WHOLE_LIMIT });
        Claims { principals, counts: [[0; PAGES]; PRINCIPALS] }
    }

    /// Any principals and counts, well formed or not.
    pub fn of(
        principals: [Option<Principal>; PRINCIPALS],
        counts: [[u16; PAGES]; PRINCIPALS],
    ) -> Claims {
        Claims { principals, counts }
    }

    pub fn principal(&self, number: u8) -> Option<Principal> {
        self.principals.get(usize::from(number)).copied().flatten()
    }

    /// The principals in being, by their numbers.
    pub fn principals(&self) -> impl Iterator<Item = (u8, Principal)> + '_ {
        let numbered = (0..).zip(&self.principals);
        numbered.filter_map(|(number, principal)| Some((number, (*principal)?)))
    }

    /// The counts of a principal, in being or not.
    pub fn counts(&self, number: u8) -> &[u16; PAGES] {
        &self.counts[usize::from(number)]
    }

    pub fn is_claimed(&self, page: usize) -> bool {
        self.counts.iter().any(|counts| counts[page] > 0)
    }

    /// How many principals claim the page, each once.
    pub fn claimants(&self, page: usize) -> usize {
        self.counts.iter().filter(|counts| counts[page] > 0).count()
    }

    pub fn create(
        &mut self,
        party: u8,
        parent: u8,
        child: u8,
        limit: u16,
        holder: u8,
    ) -> Result<(), Refusal> {
        let is_free = matches!(self.principals.get(usize::from(child)), Some(None));
        let payer = held(&mut self.principals, party, parent)?;
        if !is_free {
            return Err(Refusal::WrongPrincipal);
        }
        payer.unspent = payer.unspent.checked_sub(limit).ok_or(Refusal::ClaimLimit)?;
        let created = Principal { holder, parent: Some(parent), unspent: limit };
        self.principals[usize::from(child)] = Some(created);
        Ok(())
    }

    /// A page's first count spends 1, and none goes beyond 65,535.
    pub fn claim(&mut self, party: u8, number: u8, page: usize) -> Result<(), Refusal> {
        let principal = held(&mut self.principals, party, number)?;
        let count = &mut self.counts[usize::from(number)][page];
        let more = count.checked_add(1).ok_or(Refusal::ClaimLimit)?;
        if *count == 0 {
            principal.unspent = principal.unspent.checked_sub(1).ok_or(Refusal::ClaimLimit)?;
        }
        *count = more;
        Ok(())
    }

    /// The last count of a page gives 1 back.
    pub fn release(&mut self, party: u8, number: u8, page: usize) -> Result<(), Refusal> {
        let principal = held(&mut self.principals, party, number)?;
        let count = &mut self.counts[usize::from(number)][page];
        *count = count.checked_sub(1).ok_or(Refusal::ClaimLimit)?;
        if *count == 0 {
            principal.unspent += 1;
        }
        Ok(())
    }

    /// The holder of the parent drops a principal and all below it, and the parent gets what they had.
    pub fn destroy(&mut self, party: u8, number: u8) -> Result<(), Refusal> {
        let parent = self.principal(number).and_then(|principal| principal.parent);
        let parent = parent.ok_or(Refusal::WrongPrincipal)?;
        held(&mut self.principals, party, parent)?;
        let family = self.family(number);
        let mut returned = 0;
        for (member, entry) in self.principals.iter_mut().enumerate() {
            if !is_in(family, member as u8) {
                continue;
            }
            let counts = &mut self.counts[member];
            returned += spent(counts) + entry.take().map_or(0, |principal| principal.unspent);
            counts.fill(0);
        }
        held(&mut self.principals, party, parent)?.unspent += returned;
        Ok(())
    }

    /// A principal and all below it, a bit for each. Whoever parents lead to a member is one; on the
    /// way up nobody is passed twice.
    pub fn family(&self, number: u8) -> u32 {
        let (mut family, mut others) = (1 << number, 0);
        for (member, _) in self.principals() {
            let (mut passed, mut at) = (0, member);
            while !is_in(family | others | passed, at) {
                passed |= 1 << at;
                match self.principal(at).and_then(|principal| principal.parent) {
                    Some(parent) if self.principal(parent).is_some() => at = parent,
                    _ => break,
                }
            }
            *(if is_in(family, at) { &mut family } else { &mut others }) |= passed;
        }
        family
    }

    /// How many parents lead up from a principal to 0, in well-formed claims.
    pub fn depth(&self, number: u8) -> usize {
        let parent = |number: &u8| self.principal(*number)?.parent;
        std::iter::successors(parent(&number), parent).count()
    }

    /// All principals in being stand below 0, counts are theirs and of pages that there are, and the
    /// limits add up.
    pub fn is_well_formed(&self, page_count: usize) -> bool {
        let in_being = self.principals().fold(0, |all, (number, _)| all | 1 << number);
        self.has_its_root()
            && self.family(0) == in_being
            && self.principals().all(|(_, principal)| principal.holder <= 7)
            && self.limits_add_up(page_count)
    }

    fn has_its_root(&self) -> bool {
        matches!(self.principals[0], Some(Principal { holder: 0, parent: None, .. }))
    }

    fn limits_add_up(&self, page_count: usize) -> bool {
        let mut total = 0;
        for (principal, counts) in self.principals.iter().zip(&self.counts) {
            let is_kept = match principal {
                Some(principal) => {
                    total += u32::from(principal.unspent) + u32::from(spent(counts));
                    are_all_0(&counts[page_count..])
                }
                None => are_all_0(counts),
            };
            if !is_kept {
                return false;
            }
        }
        total == u32::from(WHOLE_LIMIT)
    }
}

/// Refusal 20, or the principal, which is in being and the party's.
fn held(
    principals: &mut [Option<Principal>; PRINCIPALS],
    party: u8,
    number: u8,
) -> Result<&mut Principal, Refusal> {
    match principals.get_mut(usize::from(number)) {
        Some(Some(principal)) if principal.holder == party => Ok(principal),
        _ => Err(Refusal::WrongPrincipal),
    }
}

fn is_in(family: u32, number: u8) -> bool {
    usize::from(number) < PRINCIPALS && family >> number & 1 == 1
}

/// How many of a principal's counts are above 0. Small sums go many at a time.
fn spent(counts: &[u16]) -> u16 {
    counts.iter().map(|count| u16::from(*count > 0)).sum()
}

/// Looks at every count, which is faster than to stop at the first one above 0.
#[inline]
fn are_all_0(counts: &[u16]) -> bool {
    counts.iter().fold(0, |all, count| all | count) == 0
}
