//! The lister's text.

use crate::descriptors::Configuration;
use crate::fault::Fault;
use crate::opening::Board;
use crate::superspeed;

pub fn list(set: &[u8], serial: &[u8], fault: Fault) -> String {
    let opened = Board::open(set, serial, fault);
    text(opened.map(|board| board.configurations).map_err(|rule| rule.group()), fault)
}

/// Of a SuperSpeed set.
pub fn list_super(set: &[u8], serial: &[u8], fault: Fault) -> String {
    text(superspeed::configurations(set, serial, fault), fault)
}

fn text(opened: Result<Vec<Configuration>, u8>, fault: Fault) -> String {
    match opened {
        Err(number) => format!("REFUSED {number}\n"),
        Ok(configurations) => {
            let each = configurations.iter().enumerate();
            let lines: String = each.map(|(index, configuration)| lines(index, configuration, fault)).collect();
            format!("ACCEPTED {}\n{lines}", configurations.len())
        }
    }
}

fn lines(index: usize, configuration: &Configuration, fault: Fault) -> String {
    let value = match fault {
        Fault::IndexInsteadOfValue => index,
        _ => usize::from(configuration.value),
    };
    let interfaces = match fault {
        Fault::SettingsInsteadOfInterfaces => configuration.settings.len(),
        _ => usize::from(configuration.interface_count),
    };
    let mut text = format!("C {value} {interfaces}\n");
    for setting in &configuration.settings {
        if fault == Fault::FirstSettingsOnly && setting.alternate > 0 {
            continue;
        }
        text += &format!("I {} {} {}\n", setting.interface, setting.alternate, setting.endpoint_count);
        for endpoint in &setting.endpoints {
            let transfer_type = match fault {
                Fault::AttributesInsteadOfTransferType => endpoint.attributes,
                _ => endpoint.transfer_type(),
            };
            let size = match fault {
                Fault::PacketSizeByLowByte => endpoint.packet_size & 0xff,
                _ => endpoint.packet_size,
            };
            text += &format!("E {} {transfer_type} {size}\n", endpoint.address);
        }
    }
    text
}
