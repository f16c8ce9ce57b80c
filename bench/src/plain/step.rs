//! One call: its refusal with everything kept, or its effect and answer.

use super::answer::{Answer, Refusal};
use super::call::{read, Action, Call};
use super::capability::{self as cap, Range};
use super::pages::{FrameUse, CELLS_A_PAGE};
use super::state::{Memory, Revocation, Slot, State};
use super::table::{Standing, NOBODY};

type Outcome = Result<Answer, Refusal>;

/// Refusal 4.
#[inline]
fn up_to_seven(numbers: &[u8]) -> Result<(), Refusal> {
    refuse_if(numbers.iter().any(|number| *number > 7), Refusal::AboveSeven)
}

/// Refusal 5.
#[inline]
fn manager(party: u8) -> Result<(), Refusal> {
    refuse_if(party != 0, Refusal::NotManager)
}

#[inline]
fn refuse_if(condition: bool, refusal: Refusal) -> Result<(), Refusal> {
    if condition {
        Err(refusal)
    } else {
        Ok(())
    }
}

impl State {
    /// One command from the input's place on, with every refusal from 1 on; and the bytes used.
    pub fn command(&mut self, memory: &mut Memory, input: &[u8], place: usize) -> (Answer, usize) {
        if let Err(refusal) = self.trusted(memory) {
            return (refusal.into(), 0);
        }
        match input.get(place..).and_then(read) {
            Some((call, used)) => (self.step(memory, call), used),
            None => (Refusal::NoCommand.into(), 0),
        }
    }

    /// Commands from the input's place on, the state tested once, as many as there is room for. Each
    /// answer is four numbers: code, number, tag and bytes used. Answers how many were done, and
    /// where the run stands: at the input's end, or where a refusal 1 to 3 ended it.
    pub fn commands(
        &mut self,
        memory: &mut Memory,
        input: &[u8],
        mut place: usize,
        answers: &mut [u64],
    ) -> (usize, usize) {
        let trusted = self.trusted(memory);
        let mut done = 0;
        for told in answers.chunks_exact_mut(4) {
            let Some(rest) = input.get(place..).filter(|rest| !rest.is_empty()) else { break };
            let (answer, used) = match trusted {
                Err(refusal) => (refusal.into(), 0),
                Ok(()) => match read(rest) {
                    Some((call, used)) => (self.step(memory, call), used),
                    None => (Refusal::NoCommand.into(), 0),
                },
            };
            told.copy_from_slice(&answer.numbers(used));
            done += 1;
            place += used;
            if used == 0 {
                break;
            }
        }
        (done, place)
    }

    /// One call, with refusals 1 and 2.
    pub fn call(&mut self, memory: &mut Memory, call: Call) -> Answer {
        match self.trusted(memory) {
            Ok(()) => self.step(memory, call),
            Err(refusal) => refusal.into(),
        }
    }

    /// Refusals 1 and 2.
    fn trusted(&self, memory: &Memory) -> Result<(), Refusal> {
        refuse_if(!self.is_well_formed(), Refusal::IllFormed)?;
        let lent = self.pages.lent_cells();
        let differs = memory.cells.len() != lent || memory.tags.len() != lent;
        refuse_if(differs, Refusal::LentLength)
    }

    /// One call on a well-formed state and memory of the right length.
    #[inline]
    pub fn step(&mut self, memory: &mut Memory, call: Call) -> Answer {
        self.outcome(memory, call).unwrap_or_else(Answer::from)
    }

    #[inline]
    fn outcome(&mut self, memory: &mut Memory, Call { party: p, action }: Call) -> Outcome {
        match action {
            Action::Take { base, reg } => self.take(p, base, reg, cap::PLAIN_PERMISSIONS),
            Action::Split { base, len } => self.split(p, base, len),
            Action::Merge { base } => self.merge(p, base),
            Action::Give { base, to } => self.give(p, base, to),
            Action::Revoke { base } => self.revoke(p, base),
            Action::Sweep { n } => self.sweep(p, n, memory),
            Action::Collect => self.collect(p),
            Action::Map { page, frame } => self.map(p, page, frame),
            Action::Unmap { page } => self.unmap(p, page),
            Action::Zero { frame } => self.zero(p, frame, memory),
            Action::Load { a, off, d } => self.load(p, a, off, d, memory),
            Action::Store { a, off, s } => self.store(p, a, off, s, memory),
            Action::Narrow { s, off, len, mask, d } => self.narrow(p, s, off, len, mask, d),
            Action::Number { d, value } => self.number(p, d, value),
            Action::Grant { s, to } => self.grant(p, s, to),
            Action::Receive { d } => self.receive(p, d),
            Action::TakeMasked { base, reg, mask } => {
                self.take(p, base, reg, cap::ALL_PERMISSIONS & mask)
            }
            Action::Create { parent, child, limit, holder } => {
                self.create(p, parent, child, limit, holder)
            }
            Action::Claim { principal, page } => self.claim(p, principal, page),
            Action::Release { principal, page } => self.release(p, principal, page),
            Action::Destroy { principal } => self.destroy(p, principal),
        }
    }

    fn take(&mut self, party: u8, base: u16, reg: u8, permissions: u8) -> Outcome {
        up_to_seven(&[party, reg])?;
        let index = self.table.held_open(party, base)?;
        let row = self.table.row(index);
        row.standing = Standing::Taken;
        row.holder = 0;
        row.taker = party;
        let length = row.length;
        let cell = cap::make(base, length, permissions);
        *self.register(party, reg) = Slot { cell, tag: true };
        Ok(Answer::number(length.into()))
    }

    fn split(&mut self, party: u8, base: u16, length: u16) -> Outcome {
        up_to_seven(&[party])?;
        self.table.split(party, base, length)?;
        Ok(Answer::GRANTED)
    }

    fn merge(&mut self, party: u8, base: u16) -> Outcome {
        up_to_seven(&[party])?;
        self.table.merge(party, base)?;
        Ok(Answer::GRANTED)
    }

    fn give(&mut self, party: u8, base: u16, to: u8) -> Outcome {
        up_to_seven(&[party, to])?;
        let index = self.table.held_open(party, base)?;
        self.table.row(index).holder = to;
        Ok(Answer::GRANTED)
    }

    fn revoke(&mut self, party: u8, base: u16) -> Outcome {
        up_to_seven(&[party])?;
        manager(party)?;
        let index = self.table.held(party, base)?;
        let row = self.table.row(index);
        let range = row.range();
        refuse_if(row.standing == Standing::Revoking, Refusal::WrongStanding)?;
        refuse_if(!range.is_whole_pages(), Refusal::NotWholePages)?;
        refuse_if(self.revocation.is_some(), Refusal::RevocationOrder)?;
        self.pages.free(range)?;
        if row.standing == Standing::Open {
            row.taker = 0;
        }
        row.standing = Standing::Revoking;
        self.revocation = Some(Revocation { range, place: 0 });
        Ok(Answer::GRANTED)
    }

    fn sweep(&mut self, party: u8, count: u16, memory: &mut Memory) -> Outcome {
        up_to_seven(&[party])?;
        manager(party)?;
        let Some(running) = &mut self.revocation else {
            return Err(Refusal::RevocationOrder);
        };
        let all = self.pages.lent_cells();
        let end = all.min(running.place + usize::from(count));
        sweep_cells(self.pages.frames(), running.place, end, running.range, memory);
        running.place = end;
        Ok(Answer::number((all - end) as u64))
    }

    fn collect(&mut self, party: u8) -> Outcome {
        up_to_seven(&[party])?;
        manager(party)?;
        let range = match self.revocation {
            Some(running) if running.place == self.pages.lent_cells() => running.range,
            _ => return Err(Refusal::RevocationOrder),
        };
        for slot in self.registers.as_flattened_mut() {
            slot.tag &= !range.kills(slot.cell);
        }
        for slot in &mut self.mailboxes {
            if slot.tag && range.kills(slot.cell) {
                *slot = Slot::default();
            }
        }
        self.pages.release(range);
        let index = self.table.held(0, range.base)?;
        let row = self.table.row(index);
        row.standing = Standing::Open;
        row.taker = NOBODY;
        self.revocation = None;
        Ok(Answer::GRANTED)
    }

    fn map(&mut self, party: u8, page: u8, frame: u8) -> Outcome {
        up_to_seven(&[party])?;
        manager(party)?;
        self.pages.map(page, frame)?;
        Ok(Answer::GRANTED)
    }

    fn unmap(&mut self, party: u8, page: u8) -> Outcome {
        up_to_seven(&[party])?;
        manager(party)?;
        self.pages.unmap(page, |page| self.claims.is_claimed(page))?;
        Ok(Answer::GRANTED)
    }

    fn zero(&mut self, party: u8, frame: u8, memory: &mut Memory) -> Outcome {
        up_to_seven(&[party])?;
        manager(party)?;
        let lent = self.pages.zero(frame)?;
        memory.cells[lent.clone()].fill(0);
        memory.tags[lent].fill(0);
        Ok(Answer::GRANTED)
    }

    fn load(&mut self, party: u8, a: u8, off: u16, d: u8, memory: &Memory) -> Outcome {
        up_to_seven(&[party, a, d])?;
        let through = self.capability(party, a)?;
        refuse_if(!cap::allows(through, cap::LOAD), Refusal::NoPermission)?;
        let place = self.addressed(through, off)?;
        let cell = memory.cells[place];
        let keeps_tag = cap::allows(through, cap::LOAD_CAPABILITY) && !self.is_dying(cell);
        let loaded = Slot { cell, tag: memory.tags[place] != 0 && keeps_tag };
        *self.register(party, d) = loaded;
        Ok(Answer::slot(loaded))
    }

    fn store(&mut self, party: u8, a: u8, off: u16, s: u8, memory: &mut Memory) -> Outcome {
        up_to_seven(&[party, a, s])?;
        let through = self.capability(party, a)?;
        let stored = *self.register(party, s);
        refuse_if(!cap::allows(through, cap::STORE), Refusal::NoPermission)?;
        let needs_more = stored.tag && !cap::allows(through, cap::STORE_CAPABILITY);
        refuse_if(needs_more, Refusal::NoPermission)?;
        let place = self.addressed(through, off)?;
        memory.cells[place] = stored.cell;
        memory.tags[place] = u8::from(stored.tag && !self.is_dying(stored.cell));
        Ok(Answer::GRANTED)
    }

    fn narrow(&mut self, party: u8, s: u8, off: u16, len: u16, mask: u8, d: u8) -> Outcome {
        up_to_seven(&[party, s, d])?;
        let source = self.capability(party, s)?;
        let length = cap::length(source);
        let ends_past = u32::from(off) + u32::from(len) > u32::from(length);
        refuse_if(off >= length || len == 0 || ends_past, Refusal::OutOfBounds)?;
        let base = cap::base(source).checked_add(off).ok_or(Refusal::OutOfBounds)?;
        let cell = cap::make(base, len, cap::permissions(source) & mask);
        *self.register(party, d) = Slot { cell, tag: true };
        Ok(Answer::GRANTED)
    }

    fn number(&mut self, party: u8, d: u8, value: u64) -> Outcome {
        up_to_seven(&[party, d])?;
        *self.register(party, d) = Slot { cell: value, tag: false };
        Ok(Answer::GRANTED)
    }

    fn grant(&mut self, party: u8, s: u8, to: u8) -> Outcome {
        up_to_seven(&[party, s, to])?;
        let cell = self.capability(party, s)?;
        let mailbox = &mut self.mailboxes[usize::from(to)];
        refuse_if(mailbox.tag, Refusal::Mailbox)?;
        *mailbox = Slot { cell, tag: true };
        Ok(Answer::GRANTED)
    }

    fn receive(&mut self, party: u8, d: u8) -> Outcome {
        up_to_seven(&[party, d])?;
        let mailbox = &mut self.mailboxes[usize::from(party)];
        refuse_if(!mailbox.tag, Refusal::Mailbox)?;
        let received = std::mem::take(mailbox);
        *self.register(party, d) = received;
        Ok(Answer::slot(received))
    }

    fn create(&mut self, party: u8, parent: u8, child: u8, limit: u16, holder: u8) -> Outcome {
        up_to_seven(&[party, holder])?;
        self.claims.create(party, parent, child, limit, holder)?;
        Ok(Answer::GRANTED)
    }

    fn claim(&mut self, party: u8, principal: u8, page: u8) -> Outcome {
        up_to_seven(&[party])?;
        let page = self.pages.named_page(page)?;
        self.claims.claim(party, principal, page)?;
        Ok(Answer::GRANTED)
    }

    fn release(&mut self, party: u8, principal: u8, page: u8) -> Outcome {
        up_to_seven(&[party])?;
        let page = self.pages.named_page(page)?;
        self.claims.release(party, principal, page)?;
        Ok(Answer::GRANTED)
    }

    fn destroy(&mut self, party: u8, principal: u8) -> Outcome {
        up_to_seven(&[party])?;
        self.claims.destroy(party, principal)?;
        Ok(Answer::GRANTED)
    }

    fn register(&mut self, party: u8, register: u8) -> &mut Slot {
        &mut self.registers[usize::from(party)][usize::from(register)]
    }

    /// Refusal 15, or the capability's number.
    fn capability(&self, party: u8, register: u8) -> Result<u64, Refusal> {
        let slot = self.registers[usize::from(party)][usize::from(register)];
        refuse_if(!slot.tag, Refusal::Untagged)?;
        Ok(slot.cell)
    }

    /// Refusals 17 and 18, or the lent cell at the capability's base and the offset.
    fn addressed(&self, capability: u64, off: u16) -> Result<usize, Refusal> {
        refuse_if(off >= cap::length(capability), Refusal::OutOfBounds)?;
        let cell = usize::from(cap::base(capability)) + usize::from(off);
        self.pages.lent_place(cell)
    }

    fn is_dying(&self, capability: u64) -> bool {
        matches!(self.revocation, Some(running) if running.range.kills(capability))
    }
}

/// Clears dying tags from `place` to `end`, one run of Mapped frames after another.
fn sweep_cells(frames: &[FrameUse], place: usize, end: usize, dying: Range, memory: &mut Memory) {
    let is_swept = |cell: usize| frames[cell / CELLS_A_PAGE] == FrameUse::Mapped;
    let next_frame = |cell: usize| end.min((cell / CELLS_A_PAGE + 1) * CELLS_A_PAGE);
    let mut from = place;
    while from < end {
        let swept = is_swept(from);
        let mut to = next_frame(from);
        while to < end && is_swept(to) == swept {
            to = next_frame(to);
        }
        if swept {
            clear_dying(&memory.cells[from..to], &mut memory.tags[from..to], dying);
        }
        from = to;
    }
}

fn clear_dying(cells: &[u64], tags: &mut [u8], dying: Range) {
    for (cell, tag) in cells.iter().zip(tags) {
        *tag = if dying.kills(*cell) { 0 } else { *tag };
    }
}
