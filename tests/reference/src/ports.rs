//! A row of records, one for each port of an instrument: an event at one of them (document 02, L8).

use crate::events::{Event, Lent, Outcome};
use crate::fault::Fault;
use crate::record::{Record, IMAGE_LENGTH, NOTHING_WAITS};

/// "18 port number not below the row's length, before 7, nothing changed"; else that port's record alone is lent to the event.
pub fn event(lent: &Lent, row: &[u8], port: u64, event: &Event) -> Outcome {
    let fault = lent.fault;
    let ports = row.len() / IMAGE_LENGTH;
    let Some(port) = port_in(ports, port, fault) else { return refused(lent, row) };
    if fault == Fault::EveryRecordMustFit && !every_record_fits(lent, row) {
        return Outcome { number: 8, bytes: Vec::new(), part: None, image: row.to_vec() };
    }
    let at = |port: usize| port * IMAGE_LENGTH..(port + 1) * IMAGE_LENGTH;
    let outcome = lent.event(&row[at(port)], event);
    let mut left = row.to_vec();
    let written = if fault == Fault::NeighbourWritten { (port + 1) % ports } else { port };
    left[at(written)].copy_from_slice(&outcome.image);
    if fault == Fault::ResetOfEveryPort && matches!(event, Event::BusReset(_)) && outcome.number == 0 {
        (0..ports).for_each(|other| left[at(other)].copy_from_slice(&outcome.image));
    }
    Outcome { image: left, ..outcome }
}

/// The port's place in a row of so many records.
fn port_in(ports: usize, port: u64, fault: Fault) -> Option<usize> {
    let port = match fault {
        Fault::PortByLowByte => port & 0xff,
        Fault::PortByLowFourBytes => port & 0xffff_ffff,
        Fault::PortsFromOne => port.wrapping_sub(1),
        _ => port,
    };
    let port = usize::try_from(port).ok()?;
    match fault {
        Fault::PortTakenAsLength if port == ports && ports > 0 => Some(ports - 1),
        Fault::RowOfNineRefused if ports > 8 => None,
        _ => (port < ports).then_some(port),
    }
}

fn refused(lent: &Lent, row: &[u8]) -> Outcome {
    let mut image = row.to_vec();
    if lent.fault == Fault::RefusedPortDropsWaiting && !image.is_empty() {
        image[2] = NOTHING_WAITS;
    }
    let number = match lent.fault {
        Fault::PortAfterSet if lent.opened.is_err() => 7,
        Fault::EmptyRowDoesNotFit if row.is_empty() => 8,
        _ => 18,
    };
    Outcome { number, bytes: Vec::new(), part: None, image }
}

fn every_record_fits(lent: &Lent, row: &[u8]) -> bool {
    let Ok(boards) = &lent.opened else { return true };
    let mut records = row.chunks(IMAGE_LENGTH).filter_map(Record::read);
    records.all(|record| record.fits(boards.in_use(record.speed)))
}
