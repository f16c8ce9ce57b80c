//! The exported functions over slices of any lengths.

use cetomuhi::raw::{self, Arrays, ArraysMut, Memory};
use cetomuhi::{Call, Done, Frame, Machine, Refusal, State, ANSWER_NUMBERS, CALL_NUMBERS, VERSION};

/// A state in arrays of lengths of its own.
#[derive(Clone, Debug, PartialEq)]
struct Loose {
    numbers: Vec<u16>,
    words: Vec<u64>,
    marks: Vec<u8>,
    mail: Vec<u64>,
    flags: Vec<u8>,
    rows: Vec<u64>,
    pages: Vec<u16>,
    frames: Vec<u8>,
    principals: Vec<u64>,
    counts: Vec<u16>,
}

impl Loose {
    fn of(state: &State) -> Loose {
        Loose {
            numbers: state.numbers.into(),
            words: state.words.into(),
            marks: state.marks.into(),
            mail: state.mail.into(),
            flags: state.flags.into(),
            rows: state.rows.into(),
            pages: state.pages.into(),
            frames: state.frames.into(),
            principals: state.principals.into(),
            counts: state.counts.into(),
        }
    }

    fn arrays(&self) -> Arrays<'_> {
        Arrays {
            numbers: &self.numbers,
            words: &self.words,
            marks: &self.marks,
            mail: &self.mail,
            flags: &self.flags,
            rows: &self.rows,
            pages: &self.pages,
            frames: &self.frames,
            principals: &self.principals,
            counts: &self.counts,
        }
    }

    fn lend(&mut self) -> ArraysMut<'_> {
        ArraysMut {
            numbers: &mut self.numbers,
            words: &mut self.words,
            marks: &mut self.marks,
            mail: &mut self.mail,
            flags: &mut self.flags,
            rows: &mut self.rows,
            pages: &mut self.pages,
            frames: &mut self.frames,
            principals: &mut self.principals,
            counts: &mut self.counts,
        }
    }

    /// Array `which`, in the order above, gets another length.
    fn resize(&mut self, which: usize, length: usize) {
        match which {
            0 => self.numbers.resize(length, 0),
            1 => self.words.resize(length, 0),
            2 => self.marks.resize(length, 0),
            3 => self.mail.resize(length, 0),
            4 => self.flags.resize(length, 0),
            5 => self.rows.resize(length, 0),
            6 => self.pages.resize(length, 0),
            7 => self.frames.resize(length, 0),
            8 => self.principals.resize(length, 0),
            _ => self.counts.resize(length, 0),
        }
    }
}

const LENGTHS: [usize; 10] = [6, 64, 64, 8, 8, 64, 256, 128, 32, 8192];

#[test]
fn the_library_is_the_crates_own() {
    assert_eq!(raw::version(), VERSION);
    let sizes: Vec<usize> = (0..12).map(raw::size).collect();
    assert_eq!(sizes, [&LENGTHS[..], &[ANSWER_NUMBERS, CALL_NUMBERS]].concat());
    assert_eq!((raw::size(12), raw::size(u64::MAX)), (0, 0));
}

/// Every array one entry short, one too long, and empty: refusal 1, and nothing is written.
#[test]
fn arrays_of_other_lengths_are_refused_and_kept() {
    for (which, length) in LENGTHS.into_iter().enumerate() {
        for other in [length - 1, length + 1, 0] {
            let mut loose = Loose::of(&State::start(3, 2).expect("V and F are in range"));
            assert!(raw::well_formed(loose.arrays()));
            loose.resize(which, other);
            assert!(!raw::well_formed(loose.arrays()), "array {which} of {other}");
            let before = loose.clone();
            for page in [0, 3] {
                let (mut share, mut rest) = (5, 1);
                let code = raw::page_cost(loose.arrays(), page, &mut share, &mut rest);
                assert_eq!((code, share, rest), (1, 0, 0), "array {which} of {other}, page {page}");
            }
            let (mut cells, mut tags) = ([5; 32], [1; 32]);
            let mut answers = [9; 5];
            let memory = Memory { cells: &mut cells, tags: &mut tags };
            assert_eq!(raw::command(loose.lend(), memory, &[10, 0, 0], 0, &mut answers), 1);
            assert_eq!(answers, [1, 0, 0, 0, 9], "array {which} of {other}");
            let (mut at, mut answers) = (0, [9; 9]);
            let memory = Memory { cells: &mut cells, tags: &mut tags };
            assert_eq!(raw::commands(loose.lend(), memory, &[10, 0, 0], &mut at, &mut answers), 1);
            assert_eq!((at, answers), (0, [1, 0, 0, 0, 9, 9, 9, 9, 9]), "array {which} of {other}");
            assert_eq!(raw::start(3, 2, loose.lend()), 1);
            assert_eq!(raw::start(0, 2, loose.lend()), 1);
            assert_eq!((loose, cells, tags), (before, [5; 32], [1; 32]));
        }
    }
}

#[test]
fn without_room_for_an_answer_nothing_is_done() {
    for room in 0..ANSWER_NUMBERS {
        let mut machine = State::start(3, 2).expect("V and F are in range");
        let before = machine.clone();
        let (mut cells, mut tags) = ([0; 32], [0; 32]);
        let mut answers = vec![9; room];
        let memory = Memory { cells: &mut cells, tags: &mut tags };
        assert_eq!(raw::command(machine.lend(), memory, &[10, 0, 0], 0, &mut answers), 0);
        let memory = Memory { cells: &mut cells, tags: &mut tags };
        let mut at = 0;
        assert_eq!(raw::commands(machine.lend(), memory, &[10, 0, 0], &mut at, &mut answers), 0);
        assert!(machine == before && at == 0 && answers.iter().all(|number| *number == 9));
    }
}

/// Four frames zeroed, one of them twice, and then two bytes that are no command.
fn queue() -> Vec<u8> {
    let mut queue = Vec::new();
    for frame in [0, 1, 1, 2, 3] {
        Call::Zero { party: 0, frame: Frame(frame) }.append(&mut queue);
    }
    queue.extend([0xFF, 0xFF]);
    queue
}

#[test]
fn a_run_is_its_commands_one_by_one() {
    let queue = queue();
    let mut single = Machine::start(4, 4).expect("V and F are in range");
    let (mut expected, mut at) = (Vec::new(), 0);
    loop {
        let done = single.command(&queue, at);
        expected.push(done);
        at += done.used;
        if done.used == 0 {
            break;
        }
    }
    let codes: Vec<u8> = expected.iter().map(|done| done.answer.code()).collect();
    assert_eq!(codes, [0, 0, 14, 0, 0, 3]);

    let mut whole = Machine::start(4, 4).expect("V and F are in range");
    let run = whole.commands(&queue);
    assert_eq!((&run.answers, run.at, run.ended_by()), (&expected, 15, Some(Refusal::NoCommand)));
    assert_eq!(whole, single);

    for room in 1..8 {
        let mut cut = Machine::start(4, 4).expect("V and F are in range");
        let (mut answers, mut at, mut got) = (vec![9; ANSWER_NUMBERS * room + 3], 0, Vec::new());
        while got.len() < expected.len() {
            let done = cut.commands_into(&queue, &mut at, &mut answers);
            assert_eq!(done, room.min(expected.len() - got.len()));
            assert!(answers[ANSWER_NUMBERS * room..].iter().all(|number| *number == 9));
            got.extend(Done::each(&answers[..ANSWER_NUMBERS * done]));
        }
        assert_eq!((got, at), (expected.clone(), 15), "room for {room}");
        assert_eq!(cut, single);
    }
}

#[test]
fn a_run_at_the_end_or_beyond_does_nothing() {
    let queue = queue();
    let mut machine = Machine::start(4, 4).expect("V and F are in range");
    let before = machine.clone();
    for begin in [queue.len(), queue.len() + 1, usize::MAX] {
        let (mut at, mut answers) = (begin, [9; 8]);
        assert_eq!(machine.commands_into(&queue, &mut at, &mut answers), 0);
        assert_eq!((at, answers), (begin, [9; 8]));
        assert_eq!(machine.command(&queue, begin).answer.code(), 3);
    }
    assert_eq!(machine.commands(&[]).answers, []);
    assert_eq!(machine, before);
}

#[test]
fn memory_of_another_length_is_refused_under_2_once_a_run() {
    let (state, cells, mut tags) = Machine::start(4, 4).expect("V and F are in range").into_parts();
    tags.push(0);
    let mut machine = Machine::of(state, cells, tags);
    let run = machine.commands(&queue());
    assert_eq!((run.answers.len(), run.at, run.ended_by()), (1, 0, Some(Refusal::LentLength)));
}
