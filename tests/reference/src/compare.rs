//! Puts calls to a program through pipes and compares each answer with the reference's.

use std::io::{self, BufReader, BufWriter, Write};
use std::process::{Child, ChildStdin, ChildStdout, Command as Process, Stdio};
use std::sync::atomic::{AtomicBool, Ordering};
use std::sync::mpsc::{channel, Receiver, Sender};
use std::sync::Arc;
use std::thread::{spawn, JoinHandle};
use std::time::Instant;

use crate::call::Call;
use crate::events::{Lent, Outcome};
use crate::octets::hex;
use crate::protocol::{Command, Response, FLAGS};
use crate::random::Random;

/// A call on its way, with the answer that it must get.
struct Pending {
    lent: Arc<Lent>,
    call: Call,
    flags: u8,
    expected: Response,
}

/// What the answers showed.
#[derive(Default)]
pub struct Findings {
    pub differences: usize,
    /// The first call that was answered otherwise, counted from 1.
    pub first: Option<usize>,
    /// The difference with the smallest set.
    smallest: Option<(usize, String)>,
}

pub struct Comparison {
    program: Child,
    commands: BufWriter<ChildStdin>,
    pending: Sender<Pending>,
    reader: JoinHandle<Findings>,
    stop: Arc<AtomicBool>,
    loaded: Option<Arc<Lent>>,
    placement: Random,
    pub start: Instant,
    pub calls: usize,
    /// How often each number was given back.
    pub numbers: [usize; 256],
}

impl Comparison {
    /// Starts a program (a command and its arguments, parted by spaces); so many differences are enough.
    pub fn start(program: &str, patience: usize) -> io::Result<Comparison> {
        let mut words = program.split_whitespace();
        let mut process = Process::new(words.next().ok_or(io::ErrorKind::InvalidInput)?);
        let mut program = process.args(words).stdin(Stdio::piped()).stdout(Stdio::piped()).spawn()?;
        let commands = BufWriter::with_capacity(1 << 16, program.stdin.take().ok_or(io::ErrorKind::BrokenPipe)?);
        let responses = program.stdout.take().ok_or(io::ErrorKind::BrokenPipe)?;
        let stop = Arc::new(AtomicBool::new(false));
        let (pending, answered) = channel();
        let stop_there = stop.clone();
        let reader = spawn(move || {
            let findings = read_answers(responses, &answered, patience);
            stop_there.store(true, Ordering::Relaxed);
            findings
        });
        let (placement, start) = (Random::new(0), Instant::now());
        Ok(Comparison {
            program,
            commands,
            pending,
            reader,
            stop,
            loaded: None,
            placement,
            start,
            calls: 0,
            numbers: [0; 256],
        })
    }

    /// Sends a call without waiting for its answer; gives the reference's.
    pub fn ask(&mut self, lent: &Arc<Lent>, call: Call) -> Outcome {
        let outcome = call.answer(lent);
        let expected = Response::of(&call, &outcome);
        let flags = self.placement.byte() & FLAGS;
        if self.send(lent, &call, flags).is_err() {
            self.stop.store(true, Ordering::Relaxed);
        }
        // the reader may have had enough already
        let _ = self.pending.send(Pending { lent: lent.clone(), call, flags, expected });
        self.calls += 1;
        self.numbers[usize::from(outcome.number)] += 1;
        outcome
    }

    fn send(&mut self, lent: &Arc<Lent>, call: &Call, flags: u8) -> io::Result<()> {
        let loaded = self.loaded.replace(lent.clone());
        let held = |same: fn(&Lent, &Lent) -> bool| loaded.as_ref().is_some_and(|loaded| same(loaded, lent));
        if !held(|one, other| one.set == other.set) {
            Command::Set(lent.set.clone()).write(flags, &mut self.commands)?;
        }
        if !held(|one, other| one.serial == other.serial) {
            Command::Serial(lent.serial.clone()).write(flags, &mut self.commands)?;
        }
        if let Some(high) = lent.high.as_ref().filter(|_| !held(|one, other| one.high == other.high)) {
            Command::High(high.clone()).write(flags, &mut self.commands)?;
        }
        Command::Call(call.clone()).write(flags, &mut self.commands)
    }

    pub fn stopped(&self) -> bool {
        self.stop.load(Ordering::Relaxed)
    }

    /// Waits for the answers that are still to come.
    pub fn finish(mut self) -> io::Result<Findings> {
        // a program that has ended cannot take the rest; the reader tells
        let _ = self.commands.flush();
        drop(self.commands);
        drop(self.pending);
        let findings = self.reader.join().map_err(|_| io::ErrorKind::Other)?;
        let status = self.program.wait()?;
        if findings.differences == 0 && !status.success() {
            return Err(io::Error::new(io::ErrorKind::Other, format!("the program ended with {status}")));
        }
        Ok(findings)
    }
}

fn read_answers(responses: ChildStdout, answered: &Receiver<Pending>, patience: usize) -> Findings {
    let mut responses = BufReader::with_capacity(1 << 16, responses);
    let mut findings = Findings::default();
    for (at, pending) in answered.iter().enumerate() {
        let response = Response::read(&mut responses);
        let got = match &response {
            Ok(response) if *response == pending.expected => continue,
            Ok(response) => response.describe(),
            Err(_) => "no answer: the program has ended".to_string(),
        };
        findings.add(at + 1, &pending, &got);
        if response.is_err() || findings.differences == patience {
            break;
        }
    }
    findings
}

impl Findings {
    fn add(&mut self, call: usize, pending: &Pending, got: &str) {
        self.differences += 1;
        self.first.get_or_insert(call);
        let weight = pending.lent.set.len() + pending.lent.high.as_ref().map_or(0, Vec::len);
        match &self.smallest {
            Some((smallest, _)) if *smallest <= weight => {}
            _ => self.smallest = Some((weight, pending.reproduction(call, got))),
        }
    }

    /// The smallest difference as it is printed.
    pub fn reproduction(&self) -> &str {
        self.smallest.as_ref().map_or("", |(_, text)| text)
    }
}

impl Pending {
    /// Lines of a vector file, so that the call can be put to the program again.
    fn reproduction(&self, call: usize, got: &str) -> String {
        let outcome = self.call.answer(&self.lent);
        format!(
            "call {call}, placement {}, as a vector:\nset {}\nhigh {}\nserial {}\nrecord {}\n{}{} -> {}\ngot {got}\n",
            self.flags,
            hex(&self.lent.set),
            self.lent.high.as_ref().map_or("none".to_string(), |high| hex(high)),
            hex(&self.lent.serial),
            hex(self.call.image()),
            self.call.loans(),
            self.call.question(),
            self.call.answer_words(&outcome)
        )
    }
}
