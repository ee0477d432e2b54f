//! The reference in the harness's place: answers the harness's commands on standard input and output.

use std::io::{self, BufReader, BufWriter, Write};

use crate::call::Call;
use crate::events::Lent;
use crate::fault::Fault;
use crate::protocol::{Command, Response};

/// What is lent, opened as one set and as a pair when a call first asks.
struct Blocks {
    set: Vec<u8>,
    high: Vec<u8>,
    serial: Vec<u8>,
    alone: Option<Lent>,
    pair: Option<Lent>,
    fault: Fault,
}

impl Blocks {
    fn lend(&mut self, set: Vec<u8>, high: Vec<u8>, serial: Vec<u8>) {
        *self = Blocks { set, high, serial, alone: None, pair: None, fault: self.fault };
    }

    fn answer(&mut self, call: &Call) -> Response {
        let (set, serial, fault) = (&self.set, &self.serial, self.fault);
        let outcome = match call {
            // the set to be trimmed comes with the call
            Call::Trim { set } => call.answer(&Lent::new(set.clone(), serial.clone(), fault)),
            _ if call.takes_two() => {
                let opened = || Lent::two(set.clone(), self.high.clone(), serial.clone(), fault);
                call.answer(self.pair.get_or_insert_with(opened))
            }
            _ => call.answer(self.alone.get_or_insert_with(|| Lent::new(set.clone(), serial.clone(), fault))),
        };
        Response::of(call, &outcome)
    }
}

pub fn serve(fault: Fault) -> io::Result<()> {
    let mut commands = BufReader::with_capacity(1 << 16, io::stdin().lock());
    let mut responses = BufWriter::with_capacity(1 << 16, io::stdout().lock());
    let (set, high, serial) = (Vec::new(), Vec::new(), Vec::new());
    let mut lent = Blocks { set, high, serial, alone: None, pair: None, fault };
    loop {
        // the other side may wait for what is still held back here
        if commands.buffer().is_empty() {
            responses.flush()?;
        }
        let Blocks { set, high, serial, .. } = &mut lent;
        let (set, high, serial) = (std::mem::take(set), std::mem::take(high), std::mem::take(serial));
        match Command::read(&mut commands)? {
            None => return responses.flush(),
            Some(Command::Set(set)) => lent.lend(set, high, serial),
            Some(Command::Serial(serial)) => lent.lend(set, high, serial),
            Some(Command::High(high)) => lent.lend(set, high, serial),
            Some(Command::Call(call)) => {
                (lent.set, lent.high, lent.serial) = (set, high, serial);
                lent.answer(&call).write(&mut responses)?;
            }
        }
    }
}
