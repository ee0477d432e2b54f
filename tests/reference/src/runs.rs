//! What is asked of a program: sets through opening, and runs of calls over the whole boundary.

use std::sync::Arc;

use crate::call::{nothing_lent, Call};
use crate::compare::Comparison;
use crate::concerns::concerned;
use crate::damage::{damaged, flipped};
use crate::draft::Draft;
use crate::events::{Block, Event, Lent, Outcome};
use crate::explained::{explain, rules_of};
use crate::fault::Fault;
use crate::kind::Kind;
use crate::octets::number;
use crate::opening::Board;
use crate::pair::{Boards, Refused};
use crate::pair_draft::{any_pair, valid_pair};
use crate::questions::{self, enumeration, event_for, fitting};
use crate::random::Random;
use crate::record::{Record, IMAGE_LENGTH};
use crate::rule::Rule;
use crate::super_draft::any_super_set;
use crate::strikes::{any_board, strike, Tally, RUNS_ON_A_BOARD};

/// The number for types 6 and 7 that are not as said.
const AGREEMENT: u8 = 24;

/// A set and its serial block: valid, damaged near a rule, or with flipped bytes.
pub fn any_set(random: &mut Random) -> (Vec<u8>, Vec<u8>) {
    let draft = Draft::valid(random);
    match random.below(20) {
        0..=6 => (draft.set(), draft.serial),
        7..=17 => damaged(draft, random),
        _ => flipped(&draft, random),
    }
}

/// Lends sets to hk_open; how often each rule was the first broken.
pub fn opening(comparison: &mut Comparison, sets: usize, seed: u64, fault: Fault) -> Vec<(Rule, usize)> {
    let mut random = Random::new(seed);
    let mut reached: Vec<(Rule, usize)> = Rule::ALL.iter().map(|&rule| (rule, 0)).collect();
    while comparison.calls < sets && !comparison.stopped() {
        let (set, serial) = any_set(&mut random);
        let lent = Arc::new(Lent::new(set, serial, fault));
        if let Err(Refused { rule, .. }) = lent.opened {
            reached[rule as usize].1 += 1;
        }
        let image = any_image(&mut random);
        comparison.ask(&lent, Call::Open { image });
    }
    // what two sets must have in common is no rule of one
    reached.retain(|(rule, _)| rule.group() != AGREEMENT);
    reached
}

/// A serial block that breaks these has been refused for the full-speed set, or is empty.
const JUDGED_IN_FULL_SET: [Rule; 4] =
    [Rule::SerialOddLength, Rule::SerialOver254, Rule::SerialLengthByte, Rule::SerialTypeByte];

/// How often each rule was the first broken, in each of two sets.
pub type ReachedByPairs = Vec<(Block, Rule, usize)>;

/// Lends pairs to hk_two_open.
pub fn opening_two(comparison: &mut Comparison, pairs: usize, seed: u64, fault: Fault) -> ReachedByPairs {
    let mut random = Random::new(seed);
    let in_block = |block| Rule::ALL.iter().map(move |&rule| (block, rule, 0));
    let mut reached: ReachedByPairs = in_block(Block::Set).chain(in_block(Block::High)).collect();
    while comparison.calls < pairs && !comparison.stopped() {
        let (full, high, serial) = any_pair(&mut random);
        let lent = Arc::new(Lent::two(full, high, serial, fault));
        if let Err(Refused { rule, block }) = lent.opened {
            let found = reached.iter_mut().find(|(in_block, broken, _)| (*in_block, *broken) == (block, rule));
            found.into_iter().for_each(|(_, _, count)| *count += 1);
        }
        let image = any_image(&mut random);
        comparison.ask(&lent, Call::TwoOpen { image });
    }
    reached.retain(|(block, rule, _)| *block == Block::Set || !JUDGED_IN_FULL_SET.contains(rule));
    reached
}

/// How often each rule was told, by the block that it was told of, for each kind of set.
pub type ReachedByRules = Vec<(Kind, u16, usize)>;

/// A second fault, so that the order of two shows: an entry's index or language, or a byte of its body, most often near its start.
fn changed_again(set: &mut [u8], random: &mut Random) {
    let entries = set.get(2).map_or(0, |&count| usize::from(count));
    if entries == 0 || set.len() < 4 + 8 * entries {
        return;
    }
    let at = 4 + 8 * random.below(entries);
    let (offset, length) = (usize::from(number(set, at + 4)), usize::from(number(set, at + 6)).max(1));
    let place = match random.below(4) {
        0 => at + random.pick(&[1, 2]),
        1 => offset + random.below(length),
        _ => offset + random.below(length.min(10)),
    };
    let byte = random.pick(&[0, 1, 2, 7, 64, 255]);
    if let Some(changed) = set.get_mut(place) {
        *changed = byte;
    }
}

/// Lends sets of each kind to hk_explain, hk_two_explain and hk_super_explain, in turn.
pub fn explaining(comparison: &mut Comparison, calls: usize, seed: u64, fault: Fault) -> ReachedByRules {
    let mut random = Random::new(seed);
    let every = |kind| rules_of(kind).into_iter().map(move |rule| (kind, rule, 0));
    let kinds = [Kind::Alone, Kind::PairedFull, Kind::PairedHigh, Kind::Super];
    let mut reached: ReachedByRules = kinds.into_iter().flat_map(every).collect();
    while comparison.calls < calls && !comparison.stopped() {
        let (lent, call, kinds) = match comparison.calls % 4 {
            0 => {
                let (set, serial) = any_set(&mut random);
                (Lent::new(set, serial, fault), Call::Explain, [Kind::Alone; 2])
            }
            1 => {
                let (mut set, serial) = any_super_set(&mut random);
                match random.below(100) {
                    0 => set.truncate(random.below(8)),
                    1 => set[2] = random.pick(&[0, 65, 255]),
                    _ => {}
                }
                (Lent::new(set, serial, fault), Call::SuperExplain, [Kind::Super; 2])
            }
            _ => {
                let (mut full, mut high, serial) = any_pair(&mut random);
                if random.percent(30) {
                    changed_again(&mut full, &mut random);
                    changed_again(&mut high, &mut random);
                }
                (Lent::two(full, high, serial, fault), Call::TwoExplain, [Kind::PairedFull, Kind::PairedHigh])
            }
        };
        let lent = Arc::new(lent);
        let told = comparison.ask(&lent, call.clone());
        let rule = u16::from_le_bytes([told.bytes[0], told.bytes[1]]);
        // the serial block of a pair is judged by the full-speed set first
        let by_high = told.part.is_some_and(|part| part.block == Block::High)
            || call == Call::TwoExplain && told.number == 6 && explain(Kind::PairedFull, &lent.set, &lent.serial, fault).is_none();
        let kind = kinds[usize::from(by_high)];
        reached.iter_mut().filter(|found| (found.0, found.1) == (kind, rule)).for_each(|found| found.2 += 1);
    }
    reached
}

/// Before opening an image may hold anything, and may have a wrong length.
fn any_image(random: &mut Random) -> Vec<u8> {
    let image = random.bytes(IMAGE_LENGTH);
    if random.percent(99) {
        image
    } else {
        questions::of_wrong_length(image, random)
    }
}

/// Runs over the whole boundary of one set; the first pair of runs that order made unlike, if there was one.
pub fn whole(comparison: &mut Comparison, calls: usize, seed: u64, fault: Fault) -> Option<String> {
    let mut asker = Asker { comparison, random: Random::new(seed), fault, unlike: None };
    while asker.comparison.calls < calls && !asker.comparison.stopped() {
        asker.visit();
        asker.packets();
    }
    asker.unlike
}

/// The same of two sets.
pub fn whole_two(comparison: &mut Comparison, calls: usize, seed: u64, fault: Fault) -> Option<String> {
    let mut asker = Asker { comparison, random: Random::new(seed), fault, unlike: None };
    while asker.comparison.calls < calls && !asker.comparison.stopped() {
        asker.visit_pair();
    }
    asker.unlike
}

/// Events at the ports of rows of records, of one set and of two; the first pair of runs that order made unlike, if there was one.
pub fn ports(comparison: &mut Comparison, calls: usize, seed: u64, fault: Fault) -> Option<String> {
    let mut asker = Asker { comparison, random: Random::new(seed), fault, unlike: None };
    while asker.comparison.calls < calls && !asker.comparison.stopped() {
        asker.visit_row();
    }
    asker.unlike
}

/// Runs from power-on and their struck runs, of one set and of two.
pub fn strikes(comparison: &mut Comparison, calls: usize, seed: u64, fault: Fault) -> Tally {
    let mut asker = Asker { comparison, random: Random::new(seed), fault, unlike: None };
    let mut tally = Tally::default();
    while asker.comparison.calls < calls && !asker.comparison.stopped() && tally.noticed.is_none() {
        asker.strike(&mut tally);
    }
    tally
}

struct Asker<'a> {
    comparison: &'a mut Comparison,
    random: Random,
    fault: Fault,
    unlike: Option<String>,
}

impl Asker<'_> {
    /// All that is asked of one pair of sets, and of one of them by itself.
    fn visit_pair(&mut self) {
        let (full, high, serial) =
            if self.random.percent(80) { valid_pair(&mut self.random) } else { any_pair(&mut self.random) };
        if self.random.percent(5) {
            // a set of a pair is none that is lent alone
            let alone = Arc::new(Lent::new(full.clone(), serial.clone(), self.fault));
            let image = any_image(&mut self.random);
            self.comparison.ask(&alone, Call::Open { image });
        }
        let lent = Arc::new(Lent::two(full, high, serial, self.fault));
        let image = any_image(&mut self.random);
        self.comparison.ask(&lent, Call::TwoOpen { image });
        self.events(&lent);
    }

    fn events(&mut self, lent: &Arc<Lent>) {
        match &lent.opened {
            Ok(boards) => {
                self.run_from_power_on(lent, boards);
                self.single_events(lent, boards);
                self.reorder(lent, boards);
            }
            Err(_) => self.refused_events(lent),
        }
    }

    /// All that is asked of one set.
    fn visit(&mut self) {
        let (set, serial) = if self.random.percent(70) {
            let draft = Draft::valid(&mut self.random);
            (draft.set(), draft.serial)
        } else {
            any_set(&mut self.random)
        };
        let lent = Arc::new(Lent::new(set, serial, self.fault));
        let image = any_image(&mut self.random);
        self.comparison.ask(&lent, Call::Open { image });
        self.events(&lent);
    }

    /// By a call for the event or by its number; where there is neither, a setup of no bytes stands in.
    fn send(&mut self, lent: &Arc<Lent>, image: &[u8], event: &Event) -> Outcome {
        if lent.high.is_some() {
            let call = questions::two_event(image, event, &mut self.random);
            return self.comparison.ask(lent, call);
        }
        let by_number = questions::numbered(image, event, &mut self.random);
        let mut calls = Call::event(image, event);
        let call = match calls.is_empty() {
            false if by_number.is_none() || self.random.percent(70) => {
                calls.swap_remove(self.random.below(calls.len()))
            }
            _ => by_number.unwrap_or(Call::Event { image: image.to_vec(), event: Event::Setup(Vec::new()) }),
        };
        self.comparison.ask(lent, call)
    }

    /// Enumerated as a host does, mostly, and then whatever comes.
    fn run_from_power_on(&mut self, lent: &Arc<Lent>, boards: &Boards) {
        let mut image = Record::fresh().image();
        let mut events = enumeration(boards, &mut self.random);
        events.truncate(self.random.between(0, 14));
        for event in &events {
            image = self.send(lent, &image, event).image;
        }
        for _ in 0..self.random.between(0, 20) {
            let Some(record) = Record::read(&image) else { return };
            let event = questions::event(boards.in_use(record.speed), &record, &mut self.random);
            image = self.send(lent, &image, &event).image;
        }
        self.count_endpoints(lent, &image);
    }

    /// From 0 to the first refusal, as a board does.
    fn count_endpoints(&mut self, lent: &Arc<Lent>, image: &[u8]) {
        let mut number = 0;
        while self.ask_endpoint(lent, image, number) {
            number += 1;
        }
    }

    fn ask_endpoint(&mut self, lent: &Arc<Lent>, image: &[u8], number: u8) -> bool {
        let image = image.to_vec();
        let call = match lent.high {
            Some(_) => Call::TwoEndpoint { image, number },
            None => Call::Endpoint { image, number },
        };
        self.comparison.ask(lent, call).number == 0
    }

    fn single_events(&mut self, lent: &Arc<Lent>, boards: &Boards) {
        for _ in 0..self.random.between(5, 30) {
            let image = questions::image(Some(boards), &mut self.random);
            let record = Record::read(&image).unwrap_or(Record::fresh());
            let event = questions::event(boards.in_use(record.speed), &record, &mut self.random);
            self.send(lent, &image, &event);
            let number = self.random.pick(&[0, 0, 1, 2, 3, 7, 29, 30, 255]);
            self.ask_endpoint(lent, &image, number);
        }
    }

    fn refused_events(&mut self, lent: &Arc<Lent>) {
        for _ in 0..self.random.between(1, 3) {
            let image = questions::image(None, &mut self.random);
            let address = self.random.byte();
            let length = self.random.pick(&[0, 7, 8, 8, 9]);
            let setup = Event::Setup(self.random.bytes(length));
            let kinds = [
                Event::StatusEnd,
                Event::BusReset(questions::reset_speed(&mut self.random)),
                Event::Halt(address),
                Event::PacketPassed(address),
                Event::Power(questions::power_source(&mut self.random)),
                Event::Suspend,
                Event::Resume,
                Event::Wake,
                questions::other_event(Vec::new(), &mut self.random),
                setup,
            ];
            let event = &kinds[self.random.below(kinds.len())];
            self.send(lent, &image, event);
            self.ask_endpoint(lent, &image, address);
        }
    }

    fn packets(&mut self) {
        let lent = Arc::new(nothing_lent(self.fault));
        for _ in 0..self.random.between(0, 8) {
            let call = questions::packet(&mut self.random);
            self.comparison.ask(&lent, call);
        }
    }

    /// Some runs on one board.
    fn strike(&mut self, tally: &mut Tally) {
        let lent = Arc::new(any_board(&mut self.random, self.fault));
        let Ok(boards) = &lent.opened else { return };
        // the calls draw too
        let mut drawing = Random::new(self.random.below(1 << 30) as u64);
        for _ in 0..RUNS_ON_A_BOARD {
            strike(boards, &mut drawing, tally, &mut |image, event| self.send(&lent, image, event));
        }
    }

    /// A row of one set or of two, acceptable or not.
    fn visit_row(&mut self) {
        let accepted = self.random.percent(85);
        let lent = if self.random.percent(50) {
            let (full, high, serial) = if accepted { valid_pair(&mut self.random) } else { any_pair(&mut self.random) };
            Arc::new(Lent::two(full, high, serial, self.fault))
        } else {
            let draft = Draft::valid(&mut self.random);
            let (set, serial) = if accepted { (draft.set(), draft.serial) } else { any_set(&mut self.random) };
            Arc::new(Lent::new(set, serial, self.fault))
        };
        let boards = lent.opened.as_ref().ok();
        let ports = self.random.pick(&[0, 1, 2, 2, 2, 3, 8, 8, 9, 40, 300]);
        let mut row: Vec<u8> = Vec::new();
        for _ in 0..ports {
            row.extend(self.record_of_row(boards));
        }
        for _ in 0..self.random.between(1, 24) {
            row = self.event_in_row(&lent, boards, &row).image;
        }
        if let Some(boards) = boards.filter(|_| ports > 1) {
            self.exchange_ports(&lent, boards, &row);
        }
    }

    /// Misfits among them.
    fn record_of_row(&mut self, boards: Option<&Boards>) -> Vec<u8> {
        match boards {
            Some(boards) if self.random.percent(85) => fitting(boards, &mut self.random).image(),
            Some(boards) => questions::nearly_fitting(boards, &mut self.random).image(),
            None => self.random.bytes(IMAGE_LENGTH),
        }
    }

    fn any_event_at(&mut self, boards: Option<&Boards>, row: &[u8], port: u64) -> Event {
        let start = port.saturating_mul(IMAGE_LENGTH as u64).min(row.len() as u64) as usize;
        let record = row.get(start..start + IMAGE_LENGTH).and_then(Record::read).unwrap_or(Record::fresh());
        match boards {
            Some(boards) => questions::event(boards.in_use(record.speed), &record, &mut self.random),
            None => Event::BusReset(0),
        }
    }

    fn event_in_row(&mut self, lent: &Arc<Lent>, boards: Option<&Boards>, row: &[u8]) -> Outcome {
        let ports = (row.len() / IMAGE_LENGTH) as u64;
        let inside = self.random.below(ports.max(1) as usize) as u64;
        let beyond =
            self.random.pick(&[ports, ports + 1, inside + 256, inside + (1 << 32), inside + (1 << 59), u64::MAX]);
        let port = if self.random.percent(85) { inside } else { beyond };
        let event = self.any_event_at(boards, row, port);
        self.comparison.ask(lent, Call::port(lent, row, port, &event))
    }

    /// "Events at different ports may be exchanged without changing any answer or record."
    fn exchange_ports(&mut self, lent: &Arc<Lent>, boards: &Boards, row: &[u8]) {
        let ports = row.len() / IMAGE_LENGTH;
        let one = self.random.below(ports - 1);
        let other = self.random.between(one + 1, ports - 1);
        let events = [one, other].map(|port| (port as u64, self.any_event_at(Some(boards), row, port as u64)));
        let ends = [[0, 1], [1, 0]].map(|order| {
            let mut answers = [None, None];
            let mut left = row.to_vec();
            for side in order {
                let (port, event) = &events[side];
                let outcome = self.comparison.ask(lent, Call::port(lent, &left, *port, event));
                left = outcome.image.clone();
                answers[side] = Some(Outcome { image: Vec::new(), ..outcome });
            }
            (answers, left)
        });
        if ends[0] != ends[1] && self.fault == Fault::None {
            self.unlike.get_or_insert(format!("order of ports decides: row {row:02x?}, events {events:?}"));
        }
    }

    /// The events of two interfaces, each in its own order, put together in two ways: ends and answers are equal.
    fn reorder(&mut self, lent: &Arc<Lent>, boards: &Boards) {
        let record = fitting(boards, &mut self.random);
        let board = boards.in_use(record.speed);
        let interfaces = record.selected(board).map_or(0, |selected| usize::from(selected.interface_count));
        if interfaces < 2 {
            return;
        }
        let one = self.random.below(interfaces - 1);
        let other = self.random.between(one + 1, interfaces - 1);
        let events = [one, other].map(|interface| self.events_for(board, &record, interface as u8));
        let first = self.run_mixed(lent, &record, &events);
        let second = self.run_mixed(lent, &record, &events);
        if first != second && self.fault == Fault::None {
            self.unlike.get_or_insert(format!("order decides: image {:02x?}, events {events:?}", record.image()));
        }
    }

    /// Some events, each of which must concern the interface.
    fn events_for(&mut self, board: &Board, record: &Record, interface: u8) -> Vec<Event> {
        let Some(selected) = record.selected(board) else { return Vec::new() };
        let count = self.random.between(1, 4);
        let events: Vec<Event> = (0..count).map(|_| event_for(selected, interface, &mut self.random)).collect();
        if let Some(event) = events.iter().find(|event| concerned(board, record, event) != Some(interface)) {
            self.unlike.get_or_insert(format!("{event:?} does not concern interface {interface}"));
        }
        events
    }

    /// The answers to each interface's events, without their images, and the image at the end.
    fn run_mixed(
        &mut self,
        lent: &Arc<Lent>,
        record: &Record,
        events: &[Vec<Event>; 2],
    ) -> ([Vec<Outcome>; 2], Vec<u8>) {
        let mut answers = [Vec::new(), Vec::new()];
        let mut image = record.image();
        while answers[0].len() < events[0].len() || answers[1].len() < events[1].len() {
            let side = self.random.below(2);
            let Some(event) = events[side].get(answers[side].len()) else { continue };
            let outcome = self.send(lent, &image, event);
            image = outcome.image.clone();
            answers[side].push(Outcome { image: Vec::new(), ..outcome });
        }
        (answers, image)
    }
}
