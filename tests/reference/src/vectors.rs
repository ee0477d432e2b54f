//! A file of questions with answers: each is answered here, and by a program where one is given.

use crate::call::{Call, PipeCall};
use crate::concerns::concerned;
use crate::events::{Event, Lent};
use crate::fault::Fault;
use crate::lister::{list, list_super};
use crate::octets::{from_hex, hex};
use crate::packets;
use crate::pipe::{Wire, AT_REST};
use crate::record::{Record, FULL_SPEED};

/// The requests of document 02 that change old answers and have landed.
const LANDED: [&str; 4] = ["l2", "l6", "l12", "l7"];

/// What is lent from now on, and the record for the next question.
struct Script {
    lent: Lent,
    record: Vec<u8>,
    pipe: Vec<u8>,
    reply: Vec<u8>,
    /// A record left is lent to the next question; not in a file that names its rules.
    carries_over: bool,
    /// The rules that the file names have all landed: only then may it ask of a board. The makers' calls do not go by them.
    landed: bool,
}

/// An answer in the file's words, with the calls that the C boundary must answer alike.
struct Told {
    text: String,
    calls: Vec<Call>,
}

/// How a file went.
pub struct Tally {
    pub questions: usize,
    pub disagreements: Vec<String>,
}

/// Answers every question; `ask` is handed the calls that a program must answer alike.
pub fn run(text: &str, ask: &mut dyn FnMut(&Lent, &Call)) -> Tally {
    let lent = Lent::new(Vec::new(), Vec::new(), Fault::None);
    let mut script = Script { lent, record: Vec::new(), pipe: AT_REST.bytes(), reply: Vec::new(), carries_over: true, landed: true };
    let mut tally = Tally { questions: 0, disagreements: Vec::new() };
    for (at, line) in text.lines().enumerate() {
        let Some((question, expected)) = line.split_once(" -> ") else {
            if script.lend(line).is_none() {
                tally.disagreements.push(format!("line {}: not understood", at + 1));
            }
            continue;
        };
        tally.questions += 1;
        match script.tell(question) {
            None => tally.disagreements.push(format!("line {}: not understood", at + 1)),
            Some(told) if told.text != expected => {
                tally.disagreements.push(format!(
                    "line {}: {question}: expected {expected}, answered {}",
                    at + 1,
                    told.text
                ));
            }
            Some(told) => told.calls.iter().for_each(|call| ask(&script.lent, call)),
        }
    }
    tally
}

impl Script {
    /// A line that lends: set, serial or record; or one that says by which rules.
    fn lend(&mut self, line: &str) -> Option<()> {
        let (what, rest) = line.split_once(' ')?;
        match (what, rest) {
            ("#", _) => return Some(()),
            ("high", "none") => {
                self.relend(self.lent.set.clone(), None, self.lent.serial.clone());
                return Some(());
            }
            ("rules", _) => {
                self.carries_over = false;
                self.landed = rest.split(' ').all(|rule| LANDED.contains(&rule));
                return Some(());
            }
            _ => {}
        }
        let bytes = from_hex(rest)?;
        match what {
            "set" => self.relend(bytes, self.lent.high.clone(), self.lent.serial.clone()),
            "high" => self.relend(self.lent.set.clone(), Some(bytes), self.lent.serial.clone()),
            "serial" => self.relend(self.lent.set.clone(), self.lent.high.clone(), bytes),
            "record" => self.record = bytes,
            "pipe" => self.pipe = bytes,
            "reply" => self.reply = bytes,
            _ => return None,
        }
        Some(())
    }

    fn relend(&mut self, set: Vec<u8>, high: Option<Vec<u8>>, serial: Vec<u8>) {
        self.lent = match high {
            Some(high) => Lent::two(set, high, serial, Fault::None),
            None => Lent::new(set, serial, Fault::None),
        };
    }

    fn lends_two(&self) -> bool {
        self.lent.high.is_some()
    }

    fn tell(&mut self, question: &str) -> Option<Told> {
        let words: Vec<&str> = question.split(' ').collect();
        let told = |text: String| Some(Told { text, calls: Vec::new() });
        match words[0] {
            "open" if self.lends_two() => Some(self.tell_call(Call::TwoOpen { image: self.record.clone() })),
            "open" => Some(self.tell_call(Call::Open { image: self.record.clone() })),
            "opensuper" => Some(self.tell_call(Call::SuperOpen { image: self.record.clone() })),
            // a refused set gives 7 and a record that does not fit 8, by any rules
            "event" if self.landed || !self.fits() => Some(self.tell_event(&event(&words[1..])?)),
            "port" if self.landed => {
                let (port, row) = (words.get(1)?.parse().ok()?, from_hex(words.get(2)?)?);
                Some(self.tell_call(Call::port(&self.lent, &row, port, &event(&words[3..])?)))
            }
            "packet" => {
                let numbers = numbers(&words[1..])?;
                Some(self.tell_call(packet_call(numbers.get(..3)?, *numbers.get(3)?)?))
            }
            "write" => {
                let (pieces, buffer) = (from_hex(words.get(1)?)?, from_hex(words.get(2)?)?);
                Some(self.tell_call(Call::Write { pieces, buffer }))
            }
            "writesuper" => {
                let (pieces, buffer) = (from_hex(words.get(1)?)?, from_hex(words.get(2)?)?);
                Some(self.tell_call(Call::SuperWrite { pieces, buffer }))
            }
            "import" => {
                let (dump, buffer) = (from_hex(words.get(1)?)?, from_hex(words.get(2)?)?);
                Some(self.tell_call(Call::Import { dump, buffer }))
            }
            "export" => Some(self.tell_call(Call::Export { buffer: from_hex(words.get(1)?)? })),
            "explain" if self.lends_two() => Some(self.tell_call(Call::TwoExplain)),
            "explain" => Some(self.tell_call(Call::Explain)),
            "explainsuper" => Some(self.tell_call(Call::SuperExplain)),
            "trim" => Some(self.tell_call(Call::Trim { set: self.lent.set.clone() })),
            "endpoint" => {
                let number = words.get(1)?.parse().ok()?;
                let image = self.record.clone();
                let call = match self.lends_two() {
                    true => Call::TwoEndpoint { image, number },
                    false => Call::Endpoint { image, number },
                };
                Some(self.tell_call(call))
            }
            "wire" if self.landed => Some(self.tell_wire(&wire(&words[1..])?)),
            "count" => tell_count(&numbers(&words[1..])?),
            "list" => told(hex(list(&self.lent.set, &self.lent.serial, Fault::None).as_bytes())),
            "listsuper" => told(hex(list_super(&self.lent.set, &self.lent.serial, Fault::None).as_bytes())),
            "fits" if self.landed => told(u8::from(self.fits()).to_string()),
            "concerns" if self.landed => told(self.concerned(&event(&words[1..])?)),
            _ => None,
        }
    }

    fn tell_call(&mut self, call: Call) -> Told {
        let outcome = call.answer(&self.lent);
        let text = call.answer_words(&outcome);
        let leaves_record =
            !matches!(call, Call::Endpoint { .. } | Call::TwoEndpoint { .. }) && !call.image().is_empty();
        if self.carries_over && leaves_record {
            self.record = outcome.image;
        }
        Told { text, calls: vec![call] }
    }

    /// By every call that there is for it.
    fn tell_event(&mut self, event: &Event) -> Told {
        if self.lends_two() {
            return self.tell_call(Call::two_event(&self.record, event));
        }
        let mut calls = Call::event(&self.record, event);
        calls.extend(Call::numbered(&self.record, event));
        let told = self.tell_call(Call::Event { image: self.record.clone(), event: event.clone() });
        Told { calls, ..told }
    }

    /// The pipe record that it leaves is lent to the next question too.
    fn tell_wire(&mut self, wire: &Wire) -> Told {
        let call = PipeCall::new(&self.record, &self.pipe, &self.reply, wire);
        let heard = call.hear(&self.lent);
        let call = Call::pipe(&self.lent, call);
        let text = call.answer_words(&call.answer(&self.lent));
        if self.carries_over {
            (self.record, self.pipe) = (heard.image, heard.pipe);
        }
        Told { text, calls: vec![call] }
    }

    fn fits(&self) -> bool {
        match (&self.lent.opened, Record::read(&self.record)) {
            (Ok(boards), Some(record)) => record.fits(boards.in_use(record.speed)),
            _ => false,
        }
    }

    fn concerned(&self, event: &Event) -> String {
        let interface = match (&self.lent.opened, Record::read(&self.record)) {
            (Ok(boards), Some(record)) => {
                let board = boards.in_use(record.speed);
                record.fits(board).then(|| concerned(board, &record, event)).flatten()
            }
            _ => None,
        };
        interface.map_or("-".to_string(), |interface| interface.to_string())
    }
}

fn event(words: &[&str]) -> Option<Event> {
    let byte = |at: usize| u8::from_str_radix(words.get(at)?, 16).ok();
    match *words.first()? {
        "setup" => Some(Event::Setup(from_hex(words.get(1)?)?)),
        "status" => Some(Event::StatusEnd),
        "reset" if words.len() == 1 => Some(Event::BusReset(FULL_SPEED)),
        "reset" => Some(Event::BusReset(byte(1)?)),
        "halt" => Some(Event::Halt(byte(1)?)),
        "passed" => Some(Event::PacketPassed(byte(1)?)),
        "power" => Some(Event::Power(byte(1)?)),
        "suspend" => Some(Event::Suspend),
        "resume" => Some(Event::Resume),
        "wake" => Some(Event::Wake),
        "other" => Some(Event::of_number(byte(1)?, byte(2)?, &from_hex(words.get(3)?)?)),
        _ => None,
    }
}

fn wire(words: &[&str]) -> Option<Wire> {
    let value = || words.get(1)?.parse().ok();
    match *words.first()? {
        "setup" => Some(Wire::Setup(from_hex(words.get(1)?)?)),
        "taken" => Some(Wire::Taken),
        "received" => Some(Wire::Received(value()?)),
        "reset" => Some(Wire::Reset(value()?)),
        "reply" => Some(Wire::Reply),
        "room" => Some(Wire::Room(value()?)),
        "accept" => Some(Wire::Accept),
        "refuse" => Some(Wire::Refuse),
        "other" => {
            let number = u8::from_str_radix(words.get(1)?, 16).ok()?;
            Some(Wire::of_number(number, words.get(2)?.parse().ok()?, &from_hex(words.get(3)?)?))
        }
        _ => None,
    }
}

fn numbers(words: &[&str]) -> Option<Vec<u32>> {
    words.iter().map(|word| word.parse().ok()).collect()
}

fn packet_call(numbers: &[u32], packet: u32) -> Option<Call> {
    let &[reply_length, asked, size] = numbers else { return None };
    Some(Call::Packet { reply_length: reply_length as usize, asked: u16::try_from(asked).ok()?, size, packet })
}

/// The C boundary has no count: packet count − 1 is there and packet count is not.
fn tell_count(numbers: &[u32]) -> Option<Told> {
    let &[reply_length, asked, size] = numbers else { return None };
    let count = packets::count(reply_length as usize, u16::try_from(asked).ok()?, size, Fault::None);
    let text = count.map_or("15 0".to_string(), |count| format!("0 {count}"));
    let end = count.unwrap_or(0) as u32;
    let around = [end.saturating_sub(1), end];
    let calls = around.into_iter().map(|packet| packet_call(numbers, packet)).collect::<Option<Vec<Call>>>()?;
    Some(Told { text, calls })
}
