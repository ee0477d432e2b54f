//! One driver must not notice the other (document 02, L9): a run from power-on, and the same without the events that arrived in Configured and
//! concerned an interface other than k.

use crate::concerns::concerned;
use crate::draft::{lay_out, Draft, DraftEntry};
use crate::events::{Event, Lent, Outcome};
use crate::fault::Fault;
use crate::opening::{Board, CONFIGURATION, DEVICE, OTHER_SPEED, QUALIFIER};
use crate::pair::Boards;
use crate::pair_draft::valid_pair;
use crate::questions::{self, enumeration, event_for};
use crate::random::Random;
use crate::record::{bit, Record, CONFIGURED};
use crate::requests::{self, Setup};

/// Answers an event at an image.
pub type Ask<'a> = dyn FnMut(&[u8], &Event) -> Outcome + 'a;

/// An event of a run, and whether it is struck.
#[derive(Clone, Debug)]
struct Taken {
    event: Event,
    struck: bool,
}

/// "Arrived in Configured and concerned an interface other than k", judged where it arrived.
fn is_struck(board: &Board, record: &Record, event: &Event, kept: u8) -> bool {
    record.state == CONFIGURED && concerned(board, record, event).is_some_and(|interface| interface != kept)
}

/// "No struck setup arrives while a test mode waits", and "no struck event arrived while suspended".
fn premises_hold(record: &Record, event: &Event) -> bool {
    let drops_test_mode = record.waits_for_test_mode() && matches!(event, Event::Setup(_));
    !drops_test_mode && record.suspended == 0
}

/// All kinds of events; many of them concern an interface.
fn any_event(board: &Board, record: &Record, random: &mut Random) -> Event {
    match record.selected(board) {
        Some(selected) if random.percent(60) => {
            let interface = random.below(usize::from(selected.interface_count)) as u8;
            event_for(selected, interface, random)
        }
        _ => questions::event(board, record, random),
    }
}

/// An event for which the premises hold; none where none was drawn.
fn drawn(board: &Board, record: &Record, kept: u8, random: &mut Random) -> Option<Event> {
    let mut tries = (0..4).map(|_| any_event(board, record, random));
    tries.find(|event| !is_struck(board, record, event, kept) || premises_hold(record, event))
}

/// A run from power-on that reaches Configured, mostly: its events, the answers and the record at its end.
fn whole_run(boards: &Boards, kept: u8, random: &mut Random, ask: &mut Ask) -> (Vec<Taken>, Vec<Outcome>, Record) {
    let mut record = Record::fresh();
    let (mut taken, mut answers) = (Vec::new(), Vec::new());
    let mut begin = enumeration(boards, random).into_iter();
    for _ in 0..random.between(8, 40) {
        let board = boards.in_use(record.speed);
        let next = begin.next().or_else(|| drawn(board, &record, kept, random));
        let Some(event) = next else { continue };
        let struck = is_struck(board, &record, &event, kept);
        let outcome = ask(&record.image(), &event);
        record = Record::read(&outcome.image).unwrap_or(record);
        taken.push(Taken { event, struck });
        answers.push(outcome);
    }
    (taken, answers, record)
}

fn struck_run(taken: &[Taken], ask: &mut Ask) -> (Vec<Outcome>, Record) {
    let mut record = Record::fresh();
    let mut answers = Vec::new();
    for Taken { event, .. } in taken.iter().filter(|taken| !taken.struck) {
        let outcome = ask(&record.image(), event);
        record = Record::read(&outcome.image).unwrap_or(record);
        answers.push(outcome);
    }
    (answers, record)
}

/// What an event is answered, without the record that it leaves.
fn answer(outcome: &Outcome) -> Outcome {
    Outcome { image: Vec::new(), ..outcome.clone() }
}

/// "State, address, configuration, wakeup, power and interface k's setting, halts and toggles"; bytes 2, 6 and 7 too.
fn seen_by(boards: &Boards, record: &Record, kept: u8) -> Record {
    let board = boards.in_use(record.speed);
    let settings = record.selected(board).into_iter().flat_map(|selected| selected.settings_of(kept));
    let bits = settings.flat_map(|setting| &setting.endpoints).fold(0, |bits, endpoint| bits | bit(endpoint.address));
    let mut alternates = [0; 16];
    if let Some(alternate) = alternates.get_mut(usize::from(kept)) {
        *alternate = record.alternates[usize::from(kept)];
    }
    Record { alternates, halts: record.halts & bits, toggles: record.toggles & bits, ..record.clone() }
}

/// What the drivers of interface k notice: the first answer that differs, or the record.
fn noticed(boards: &Boards, taken: &[Taken], kept: u8, ask: &mut Ask, whole: (&[Outcome], &Record)) -> Option<String> {
    let (answers, end) = struck_run(taken, ask);
    let left = taken.iter().zip(whole.0).filter(|(taken, _)| !taken.struck);
    for ((taken, before), after) in left.zip(&answers) {
        if answer(before) != answer(after) {
            let event = &taken.event;
            return Some(format!(
                "{event:02x?} is answered {} in the whole run, {} without",
                before.number, after.number
            ));
        }
    }
    let (one, other) = (seen_by(boards, whole.1, kept), seen_by(boards, &end, kept));
    (one != other).then(|| format!("ends as {:02x?}, without as {:02x?}", one.image(), other.image()))
}

/// How the runs went.
#[derive(Default)]
pub struct Tally {
    pub runs: usize,
    pub events: usize,
    pub struck: usize,
    /// The first run that was noticed.
    pub noticed: Option<String>,
}

pub const RUNS_ON_A_BOARD: usize = 4;

/// One set or two, acceptable.
pub fn any_board(random: &mut Random, fault: Fault) -> Lent {
    if random.percent(50) {
        let (full, high, serial) = valid_pair(random);
        return Lent::two(full, high, serial, fault);
    }
    let draft = Draft::valid(random);
    Lent::new(draft.set(), draft.serial, fault)
}

/// So many runs of this reference by itself: whether a fault shows in them.
pub fn alone(runs: usize, seed: u64, fault: Fault) -> Tally {
    let (mut random, mut tally) = (Random::new(seed), Tally::default());
    while tally.runs < runs && tally.noticed.is_none() {
        let lent = any_board(&mut random, fault);
        let Ok(boards) = &lent.opened else { continue };
        for _ in 0..RUNS_ON_A_BOARD {
            strike(boards, &mut random, &mut tally, &mut |image, event| lent.event(image, event));
        }
    }
    tally
}

/// One run of what is lent, and its struck run.
pub fn strike(boards: &Boards, random: &mut Random, tally: &mut Tally, ask: &mut Ask) {
    let kept = random.pick(&[0, 0, 0, 1, 1, 1, 2, 3, 15, 200]);
    let (taken, answers, end) = whole_run(boards, kept, random, ask);
    tally.runs += 1;
    tally.events += taken.len();
    tally.struck += taken.iter().filter(|taken| taken.struck).count();
    if let Some(what) = noticed(boards, &taken, kept, ask, (&answers, &end)) {
        tally.noticed.get_or_insert(format!("interface {kept} notices: {what}; events {taken:02x?}"));
    }
}

// ---- counterexamples: what is noticed where a premise is left out
/// The bench set S with remote wakeup, alone or as a pair: interface 0 with one interrupt endpoint.
fn bench_board(two: bool) -> Lent {
    let device = |size| vec![18, DEVICE, 0, 2, 0xff, 0, 0, size, 0x34, 0x12, 0x78, 0x56, 0, 1, 0, 0, 0, 1];
    let body = |kind, interval| {
        let mut body = vec![9, kind, 25, 0, 1, 1, 0, 0xa0, 50, 9, 4, 0, 0, 1, 0xff, 0, 0, 0];
        body.extend([7, 5, 0x81, 3, 8, 0, interval]);
        body
    };
    let entry = |descriptor_type, body| DraftEntry { descriptor_type, index: 0, language: 0, body };
    let set = |size, interval, other_size, other_interval| {
        let mut entries = vec![entry(DEVICE, device(size)), entry(CONFIGURATION, body(CONFIGURATION, interval))];
        if two {
            entries.push(entry(QUALIFIER, vec![10, QUALIFIER, 0, 2, 0xff, 0, 0, other_size, 1, 0]));
            entries.push(entry(OTHER_SPEED, body(OTHER_SPEED, other_interval)));
        }
        lay_out(&entries)
    };
    match two {
        true => Lent::two(set(8, 10, 64, 7), set(64, 7, 8, 10), Vec::new(), Fault::None),
        false => Lent::new(set(8, 10, 64, 7), Vec::new(), Fault::None),
    }
}

fn setup(request_type: u8, code: u8, value: u16, index: u16, length: u16) -> Event {
    Event::Setup(Setup { request_type, code, value, index, length }.bytes())
}

/// From power-on to Configured, at a speed.
fn to_configured(speed: u8) -> Vec<Event> {
    vec![
        Event::BusReset(speed),
        setup(0, requests::SET_ADDRESS, 5, 0, 0),
        Event::StatusEnd,
        setup(0, requests::SET_CONFIGURATION, 1, 0, 0),
        Event::StatusEnd,
    ]
}

/// The premises, each with a run in which it alone does not hold; the kept interface does not exist, so that every driver's events are struck.
pub fn counterexamples() -> Vec<(&'static str, Option<String>)> {
    let test_mode = [
        setup(0, requests::SET_FEATURE, requests::TEST_MODE, 0x0400, 0),
        setup(0x81, requests::GET_INTERFACE, 0, 0, 1),
        Event::StatusEnd,
        setup(0x80, requests::GET_STATUS, 0, 0, 2),
    ];
    let asleep = [
        setup(0, requests::SET_FEATURE, requests::DEVICE_REMOTE_WAKEUP, 0, 0),
        Event::Suspend,
        Event::PacketPassed(0x81),
        Event::Wake,
    ];
    vec![
        ("a struck setup arrives while a test mode waits", run_of(true, 1, &test_mode)),
        ("a struck event arrives while suspended", run_of(false, 0, &asleep)),
    ]
}

fn run_of(two: bool, speed: u8, events: &[Event]) -> Option<String> {
    const MISSING: u8 = 1;
    let lent = bench_board(two);
    let boards = lent.opened.as_ref().ok()?;
    let mut record = Record::fresh();
    let (mut taken, mut answers) = (Vec::new(), Vec::new());
    for event in to_configured(speed).iter().chain(events) {
        let struck = is_struck(boards.in_use(record.speed), &record, event, MISSING);
        let outcome = lent.event(&record.image(), event);
        record = Record::read(&outcome.image)?;
        taken.push(Taken { event: event.clone(), struck });
        answers.push(outcome);
    }
    noticed(boards, &taken, MISSING, &mut |image, event| lent.event(image, event), (&answers, &record))
}
