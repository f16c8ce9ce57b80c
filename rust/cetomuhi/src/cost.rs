//! What a page costs those who claim it.

/// How the principals that claim a page share its 16 cells on the bill. Each counts once, however
/// often it claims: with n of them 16 = n × share + remainder, and the remainder is below n. With
/// none the share is 0 and the remainder 16.
///
/// ```
/// use cetomuhi::{Call, Cost, Machine, Refusal, VirtualPage};
///
/// # fn main() -> Result<(), Refusal> {
/// let mut machine = Machine::start(4, 1)?;
/// assert_eq!(machine.page_cost(2)?, Cost { share: 0, remainder: 16 });
///
/// // Three houses share page 2.
/// for house in 1..=3 {
///     let (limit, holder) = (1, house);
///     machine.call(&Call::Create { party: 0, parent: 0, child: house, limit, holder }).granted()?;
///     let page = VirtualPage(2);
///     machine.call(&Call::Claim { party: house, principal: house, page }).granted()?;
/// }
/// assert_eq!(machine.page_cost(2)?, Cost { share: 5, remainder: 1 });
/// assert_eq!(machine.page_cost(4), Err(Refusal::NoSuchPage));
/// # Ok(())
/// # }
/// ```
#[derive(Clone, Copy, Debug, Default, PartialEq, Eq, Hash)]
pub struct Cost {
    /// Cells for each of them.
    pub share: u64,
    /// Cells left over.
    pub remainder: u64,
}
