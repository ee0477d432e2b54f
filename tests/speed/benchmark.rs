//! benchmark SETUP ROUNDS SET SERIAL CONFIGURATION: the plain program that tests/benchmark sets beside the library.
//! benchmark serve: answers opening and setups on standard input, as tests/reference/src/protocol.rs describes.
//!
//! tests/speed/benchmark.c has the first form's arguments too, and prints the same line.

mod plain;

use plain::{event, open, Image};
use std::io::{self, BufReader, BufWriter, Read, Write};
use std::{env, fs, hint::black_box, time::Instant};

const FRESH: Image = {
    let mut image = [0; 32];
    image[2] = 255;
    image
};

type Answer = Result<[u8; 2], u8>;

/// What the instruction counter looks at.
#[no_mangle]
#[inline(never)]
fn measured(set: &[u8], serial: &[u8], image: &mut Image, setup: &[u8]) -> Answer {
    event(set, serial, image, setup)
}

fn measure(arguments: &[String]) {
    let setup = u64::from_str_radix(&arguments[1], 16).unwrap().to_be_bytes();
    let rounds: u32 = arguments[2].parse().unwrap();
    let (set, serial) = (fs::read(&arguments[3]).unwrap(), fs::read(&arguments[4]).unwrap());
    let mut image = FRESH;
    image[..4].copy_from_slice(&[2, 5, 255, arguments[5].parse().unwrap()]);
    let mut answer = event(&set, &serial, &mut image, &setup); // the first call may run the linker too
    let start = Instant::now();
    for _ in 0..rounds {
        answer = black_box(measured(black_box(&set), black_box(&serial), black_box(&mut image), black_box(&setup)));
    }
    let nanoseconds = start.elapsed().as_nanos() / u128::from(rounds);
    let (number, bytes) = answer.map_or_else(|number| (number, [0, 0]), |bytes| (0, bytes));
    println!("{nanoseconds} {number} {} {}", bytes[0], bytes[1]);
}

// ---- answers to the harness's commands
fn read_block(commands: &mut impl Read) -> io::Result<Vec<u8>> {
    let mut length = [0; 4];
    commands.read_exact(&mut length)?;
    let mut block = vec![0; u32::from_le_bytes(length) as usize];
    commands.read_exact(&mut block)?;
    Ok(block)
}

/// An image that is not 32 bytes gives 8: before opening, and at an event behind 7.
fn opened(set: &[u8], serial: &[u8], image: &mut [u8]) -> Answer {
    let image: &mut Image = image.try_into().map_err(|_| 8)?;
    *image = FRESH;
    open(set, serial, image).map(|_| [0, 0])
}

fn happened(set: &[u8], serial: &[u8], image: &mut [u8], setup: &[u8]) -> Answer {
    match image.try_into() {
        Ok(image) => event(set, serial, image, setup),
        Err(_) => Err(open(set, serial, &FRESH).map_or(7, |_| 8)),
    }
}

fn respond(responses: &mut impl Write, answer: Answer, count: u8, image: &[u8]) -> io::Result<()> {
    let (number, count, bytes) = answer.map_or_else(|number| (number, 0, [0, 0]), |bytes| (0, count, bytes));
    responses.write_all(&[0, number, count, bytes[0], bytes[1], 0])?;
    responses.write_all(&[0; 8])?;
    responses.write_all(&(image.len() as u32).to_le_bytes())?;
    responses.write_all(image)
}

fn serve() -> io::Result<()> {
    let (mut commands, mut responses) = (BufReader::new(io::stdin()), BufWriter::new(io::stdout()));
    let (mut set, mut serial, mut operation) = (Vec::new(), Vec::new(), [0; 2]);
    loop {
        if commands.buffer().is_empty() {
            responses.flush()?;
        }
        if commands.read_exact(&mut operation).is_err() {
            return responses.flush();
        }
        let mut block = read_block(&mut commands)?;
        match operation[0] {
            b'S' => set = block,
            b'U' => serial = block,
            b'o' => respond(&mut responses, opened(&set, &serial, &mut block), 0, &block)?,
            b's' => {
                let setup = read_block(&mut commands)?;
                respond(&mut responses, happened(&set, &serial, &mut block, &setup), 2, &block)?;
            }
            _ => return Err(io::ErrorKind::InvalidInput.into()),
        }
    }
}

fn main() -> io::Result<()> {
    let arguments: Vec<String> = env::args().collect();
    if arguments[1] == "serve" {
        return serve();
    }
    measure(&arguments);
    Ok(())
}
