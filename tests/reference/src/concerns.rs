//! Which interface an event concerns.

use crate::events::Event;
use crate::opening::Board;
use crate::record::Record;
use crate::requests::Setup;

const INTERFACE: u8 = 1;
const ENDPOINT: u8 = 2;

pub fn concerned(board: &Board, record: &Record, event: &Event) -> Option<u8> {
    let selected = record.selected(board)?;
    let lists = |address: u8| {
        let setting = selected.settings.iter().find(|setting| setting.lists(address))?;
        Some(setting.interface)
    };
    match event {
        Event::Setup(bytes) => {
            let setup = Setup::read(bytes)?;
            let low_byte = u8::try_from(setup.index).ok()?;
            match setup.recipient() {
                INTERFACE if low_byte < selected.interface_count => Some(low_byte),
                ENDPOINT => lists(low_byte),
                _ => None,
            }
        }
        Event::Halt(address) | Event::PacketPassed(address) => lists(*address),
        Event::StatusEnd | Event::BusReset(_) | Event::Power(_) => None,
        Event::Suspend | Event::Resume | Event::Wake | Event::Other { .. } => None,
    }
}
