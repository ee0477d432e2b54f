//! The commands, and what they print.

use std::io;
use std::path::Path;
use std::process::ExitCode;
use std::sync::Arc;

use crate::compare::{Comparison, Findings};
use crate::events::{Block, Lent};
use crate::fault::{self, Fault};
use crate::files;
use crate::makers;
use crate::octets::kebab;
use crate::pipe_runs::{self, EVENTS, ORDERS, STAGES};
use crate::runs;
use crate::serve::serve;
use crate::strikes;
use crate::super_draft;
use crate::transfers;
use crate::vectors;

const DEFAULT_SETS: usize = 100_000;
const DEFAULT_CALLS: usize = 200_000;
const DEFAULT_WRITES: usize = 50_000;
const DEFAULT_DUMPS: usize = 50_000;
const DEFAULT_TRIMS: usize = 50_000;
const DEFAULT_PAIRS: usize = 100_000;
const DEFAULT_PAIR_CALLS: usize = 200_000;
const DEFAULT_PORT_CALLS: usize = 100_000;
const DEFAULT_STRIKES: usize = 200_000;
const DEFAULT_WIRE_CALLS: usize = 200_000;
const DEFAULT_RUNS: usize = 20_000;
const DEFAULT_SUPERS: usize = 100_000;
const DEFAULT_EXPLAINED: usize = 200_000;

/// The numbers that opening gives back, and all of them.
const OPENING_NUMBERS: [u8; 7] = [0, 1, 2, 3, 4, 5, 6];
const NUMBERS: [u8; 18] = [0, 1, 2, 3, 4, 5, 6, 7, 8, 9, 10, 11, 12, 13, 14, 15, 16, 19];

/// The same where two sets are lent.
const PAIR_OPENING_NUMBERS: [u8; 8] = [0, 1, 2, 3, 4, 5, 6, 24];
const PAIR_NUMBERS: [u8; 19] = [0, 1, 2, 3, 4, 5, 6, 7, 8, 9, 10, 11, 12, 13, 14, 16, 17, 19, 24];

/// Those of an event at a port.
const PORT_NUMBERS: [u8; 13] = [0, 7, 8, 9, 10, 11, 12, 13, 14, 16, 17, 18, 19];

/// Those of an event of the wire.
const WIRE_NUMBERS: [u8; 11] = [0, 7, 8, 9, 10, 11, 12, 13, 14, 16, 17];

/// So many differences are enough to choose the smallest from.
const PATIENCE: usize = 1_000;

pub const USAGE: &str = "\
reference vectors [--least N] FILE..            answers every question of the files, at least N (1) in each, and compares
reference run-vectors --program CMD [--least N] FILE..
                                                the same, and through a harness
reference compare --program CMD [--sets N] [--calls N] [--pairs N] [--pair-calls N] [--port-calls N] [--strikes N] [--wire-calls N] [--transfers N] [--writes N] [--dumps N] [--trims N]
                  [--supers N] [--explained N] [--seed S] [--fault NAME]
                                                sets through opening, calls over the whole boundary, or both; the same with two sets lent; events at ports;
                                                runs from power-on, whole and with the other drivers' events struck; events of the wire; whole transfers;
                                                streams of pieces; dumps; sets to trim; SuperSpeed sets, opened and written; sets and pairs of
                                                every kind explained;
                                                from 100,000 sets and 200,000 calls on each rule and number must be reached
reference faults --program CMD [--seed S]       every planted fault must be noticed
reference serve [--fault NAME]                  the reference in a harness's place
reference list SET SERIAL [--fault NAME]        the lister's text for two files
reference open-pair FULL HIGH SERIAL            the number that opening two sets gives, for three files
reference list-super SET SERIAL                 the same of a SuperSpeed set
reference generate DIR N [--seed S]             N sets as files set-XXXX.bin and unit-XXXX.bin
reference pipe-vectors N [--seed S]             a file of N questions or a few more of the pipe, with answers
reference samples DIR [--seed S]                the bench set and sets of 16,384 bytes as files, for the stack test
reference lister --program CMD --directory DIR [--sets N] [--seed S]
                                                runs a lister on set.bin and unit.bin in DIR, with and without faults";

/// Words without a name, and values of `--name value`.
pub struct Arguments {
    words: Vec<String>,
    options: Vec<(String, String)>,
}

impl Arguments {
    pub fn read(arguments: impl Iterator<Item = String>) -> Option<Arguments> {
        let mut read = Arguments { words: Vec::new(), options: Vec::new() };
        let mut arguments = arguments;
        while let Some(argument) = arguments.next() {
            match argument.strip_prefix("--") {
                Some(name) => read.options.push((name.to_string(), arguments.next()?)),
                None => read.words.push(argument),
            }
        }
        Some(read)
    }

    fn option(&self, name: &str) -> Option<&str> {
        self.options.iter().find(|(given, _)| given == name).map(|(_, value)| value.as_str())
    }

    fn number(&self, name: &str) -> Result<Option<usize>, String> {
        let read = |text: &str| text.parse().map_err(|_| format!("--{name} takes a number"));
        self.option(name).map(read).transpose()
    }

    fn seed(&self) -> Result<u64, String> {
        Ok(self.number("seed")?.unwrap_or(1) as u64)
    }

    fn program(&self) -> Result<&str, String> {
        self.option("program").ok_or("--program is missing".to_string())
    }

    fn fault(&self) -> Result<Fault, String> {
        let name = self.option("fault").unwrap_or("none");
        Fault::named(name).ok_or(format!("no fault is named {name}"))
    }
}

/// Success, or a failure that has been told already.
type Verdict = Result<bool, String>;

pub fn run(arguments: &Arguments) -> ExitCode {
    let words: Vec<&str> = arguments.words.iter().map(String::as_str).collect();
    let verdict = match words.as_slice() {
        ["vectors", files @ ..] => run_vectors(arguments, files, None),
        ["run-vectors", files @ ..] => {
            arguments.program().and_then(|program| run_vectors(arguments, files, Some(program)))
        }
        ["compare"] => compare(arguments),
        ["faults"] => faults(arguments),
        ["serve"] => arguments.fault().and_then(answer_commands),
        ["list", set, serial] => list(arguments, set, serial),
        ["open-pair", full, high, serial] => open_pair([full, high, serial]),
        ["list-super", set, serial] => {
            print!("{}", files::list_super_files(set, serial));
            Ok(true)
        }
        ["generate", directory, count] => generate(arguments, directory, count),
        ["pipe-vectors", count] => {
            let count = count.parse().map_err(|_| "pipe-vectors takes a number".to_string());
            count.and_then(|count| {
                print!("{}", pipe_runs::vectors(count, arguments.seed()?));
                Ok(true)
            })
        }
        ["samples", directory] => samples(arguments, directory),
        ["lister"] => lister(arguments),
        _ => Err(format!("usage:\n{USAGE}")),
    };
    match verdict {
        Ok(true) => ExitCode::SUCCESS,
        Ok(false) => ExitCode::FAILURE,
        Err(message) => {
            eprintln!("reference: {message}");
            ExitCode::from(2)
        }
    }
}

fn told(error: io::Error) -> String {
    error.to_string()
}

fn answer_commands(fault: Fault) -> Verdict {
    match serve(fault) {
        // the other side has seen enough
        Err(error) if error.kind() != io::ErrorKind::BrokenPipe => Err(told(error)),
        _ => Ok(true),
    }
}

fn run_vectors(arguments: &Arguments, files: &[&str], program: Option<&str>) -> Verdict {
    let least = arguments.number("least")?.unwrap_or(1);
    let mut right = true;
    for file in files {
        let text = std::fs::read_to_string(file).map_err(|error| format!("{file}: {error}"))?;
        let mut comparison = program.map(|program| Comparison::start(program, PATIENCE)).transpose().map_err(told)?;
        let tally = vectors::run(&text, &mut |lent: &Lent, call| {
            if let Some(comparison) = &mut comparison {
                comparison.ask(&Arc::new(lent.clone()), call.clone());
            }
        });
        for disagreement in &tally.disagreements {
            println!("{disagreement}");
        }
        println!("{file}: {} questions, {} disagree", tally.questions, tally.disagreements.len());
        right &= tally.disagreements.is_empty();
        if tally.questions < least {
            println!("{file}: TOO FEW questions, at least {least} belong there");
            right = false;
        }
        if let Some(comparison) = comparison {
            let calls = comparison.calls;
            right &= agrees(&format!("{file}: {calls} calls"), &comparison.finish().map_err(told)?);
        }
    }
    Ok(right)
}

/// Prints a line, and the smallest difference if there is one.
fn agrees(what: &str, findings: &Findings) -> bool {
    println!("{what}, {} differ", findings.differences);
    print!("{}", findings.reproduction());
    findings.differences == 0
}

fn compare(arguments: &Arguments) -> Verdict {
    let (sets, calls) = (arguments.number("sets")?, arguments.number("calls")?);
    let writes = arguments.number("writes")?;
    let dumps = arguments.number("dumps")?;
    let trims = arguments.number("trims")?;
    let supers = arguments.number("supers")?;
    let explained = arguments.number("explained")?;
    let (pairs, pair_calls) = (arguments.number("pairs")?, arguments.number("pair-calls")?);
    let port_calls = arguments.number("port-calls")?;
    let strikes = arguments.number("strikes")?;
    let (wire_calls, transfers) = (arguments.number("wire-calls")?, arguments.number("transfers")?);
    let named =
        [sets, calls, writes, dumps, trims, supers, explained, pairs, pair_calls, port_calls, strikes, wire_calls, transfers];
    let both = named.iter().all(Option::is_none);
    let mut right = true;
    if let Some(pairs) = pairs {
        right &= compare_pairs(arguments, pairs)?;
    }
    if let Some(calls) = pair_calls {
        right &= compare_whole_of_two(arguments, calls)?;
    }
    if let Some(calls) = strikes {
        right &= compare_strikes(arguments, calls)?;
    }
    if let Some(calls) = wire_calls {
        right &= compare_wires(arguments, calls)?;
    }
    if let Some(transfers) = transfers {
        right &= compare_transfers(arguments, transfers)?;
    }
    if let Some(calls) = port_calls {
        right &= compare_ports(arguments, calls)?;
    }
    if let Some(writes) = writes {
        right &= compare_writer(arguments, writes)?;
    }
    if let Some(dumps) = dumps {
        right &= compare_dumps(arguments, dumps)?;
    }
    if let Some(trims) = trims {
        right &= compare_trims(arguments, trims)?;
    }
    if let Some(supers) = supers {
        right &= compare_supers(arguments, supers)?;
    }
    if let Some(calls) = explained {
        right &= compare_explained(arguments, calls)?;
    }
    if sets.is_some() || both {
        right &= compare_opening(arguments, sets.unwrap_or(DEFAULT_SETS))?;
    }
    if calls.is_some() || both {
        right &= compare_whole(arguments, calls.unwrap_or(DEFAULT_CALLS))?;
    }
    Ok(right)
}

fn compare_opening(arguments: &Arguments, sets: usize) -> Verdict {
    let mut comparison = Comparison::start(arguments.program()?, PATIENCE).map_err(told)?;
    let rules = runs::opening(&mut comparison, sets, arguments.seed()?, arguments.fault()?);
    let numbers = comparison.numbers;
    let same = ended(comparison, "opening", "sets")?;
    let by_name =
        rules.iter().map(|(rule, count)| (format!("{} {}", rule.group(), kebab(&format!("{rule:?}"))), *count));
    let demanded = sets >= DEFAULT_SETS;
    Ok(same & reached(&numbered(&numbers, &OPENING_NUMBERS), demanded) & reached(&by_name.collect::<Vec<_>>(), demanded))
}

fn compare_whole(arguments: &Arguments, calls: usize) -> Verdict {
    let mut comparison = Comparison::start(arguments.program()?, PATIENCE).map_err(told)?;
    let unlike = runs::whole(&mut comparison, calls, arguments.seed()?, arguments.fault()?);
    let numbers = comparison.numbers;
    let same = ended(comparison, "whole boundary", "calls")?;
    if let Some(unlike) = &unlike {
        println!("{unlike}");
    }
    Ok(same & unlike.is_none() & reached(&numbered(&numbers, &NUMBERS), calls >= DEFAULT_CALLS))
}

fn compare_pairs(arguments: &Arguments, pairs: usize) -> Verdict {
    let mut comparison = Comparison::start(arguments.program()?, PATIENCE).map_err(told)?;
    let rules = runs::opening_two(&mut comparison, pairs, arguments.seed()?, arguments.fault()?);
    let numbers = comparison.numbers;
    let same = ended(comparison, "opening of two", "pairs")?;
    let by_name = rules.iter().map(|(block, rule, count)| {
        let set = if *block == Block::High { "high-speed set" } else { "full-speed set" };
        (format!("{} {} of the {set}", rule.group(), kebab(&format!("{rule:?}"))), *count)
    });
    let demanded = pairs >= DEFAULT_PAIRS;
    let by_name: Vec<(String, usize)> = by_name.collect();
    Ok(same & reached(&numbered(&numbers, &PAIR_OPENING_NUMBERS), demanded) & reached(&by_name, demanded))
}

fn compare_whole_of_two(arguments: &Arguments, calls: usize) -> Verdict {
    let mut comparison = Comparison::start(arguments.program()?, PATIENCE).map_err(told)?;
    let unlike = runs::whole_two(&mut comparison, calls, arguments.seed()?, arguments.fault()?);
    let numbers = comparison.numbers;
    let same = ended(comparison, "whole boundary of two", "calls")?;
    if let Some(unlike) = &unlike {
        println!("{unlike}");
    }
    Ok(same & unlike.is_none() & reached(&numbered(&numbers, &PAIR_NUMBERS), calls >= DEFAULT_PAIR_CALLS))
}

fn compare_ports(arguments: &Arguments, calls: usize) -> Verdict {
    let mut comparison = Comparison::start(arguments.program()?, PATIENCE).map_err(told)?;
    let unlike = runs::ports(&mut comparison, calls, arguments.seed()?, arguments.fault()?);
    let numbers = comparison.numbers;
    let same = ended(comparison, "ports", "calls")?;
    if let Some(unlike) = &unlike {
        println!("{unlike}");
    }
    Ok(same & unlike.is_none() & reached(&numbered(&numbers, &PORT_NUMBERS), calls >= DEFAULT_PORT_CALLS))
}

/// Every event in every stage, every order and every number.
fn compare_wires(arguments: &Arguments, calls: usize) -> Verdict {
    let mut comparison = Comparison::start(arguments.program()?, PATIENCE).map_err(told)?;
    let tally = pipe_runs::wires(&mut comparison, calls, arguments.seed()?, arguments.fault()?);
    let numbers = comparison.numbers;
    let same = ended(comparison, "pipe", "events")?;
    let demanded = calls >= DEFAULT_WIRE_CALLS;
    let in_stages = STAGES.iter().zip(tally.met).flat_map(|(stage, counts)| {
        let of_event = move |(event, count): (&&str, usize)| (format!("{event} in {stage}"), count);
        EVENTS.iter().zip(counts).map(of_event).collect::<Vec<_>>()
    });
    let in_stages: Vec<(String, usize)> = in_stages.collect();
    let orders: Vec<(String, usize)> = ORDERS.iter().map(|order| format!("order {order}")).zip(tally.orders).collect();
    let met = reached(&in_stages, demanded) & reached(&orders, demanded);
    Ok(same & met & reached(&numbered(&numbers, &WIRE_NUMBERS), demanded))
}

/// What a host sees of whole transfers is what the library's own events say.
fn compare_transfers(arguments: &Arguments, most: usize) -> Verdict {
    let mut comparison = Comparison::start(arguments.program()?, PATIENCE).map_err(told)?;
    let tally = transfers::compared(&mut comparison, most, arguments.seed()?, arguments.fault()?);
    let same = ended(comparison, "transfers", "events of the wire")?;
    println!("transfers: {} runs of {} transfers, {} packets", tally.runs, tally.transfers, tally.packets);
    if let Some(noticed) = &tally.noticed {
        println!("the host does NOT see what it should: {noticed}");
    }
    Ok(same & tally.noticed.is_none())
}

/// The law holds in every run, and each premise is needed: a run without it is noticed.
fn compare_strikes(arguments: &Arguments, calls: usize) -> Verdict {
    let mut comparison = Comparison::start(arguments.program()?, PATIENCE).map_err(told)?;
    let tally = runs::strikes(&mut comparison, calls, arguments.seed()?, arguments.fault()?);
    let same = ended(comparison, "strikes", "calls")?;
    println!("strikes: {} runs of {} events, {} of them struck", tally.runs, tally.events, tally.struck);
    if let Some(noticed) = &tally.noticed {
        println!("a driver was NOT left alone: {noticed}");
    }
    let mut needed = true;
    for (premise, noticed) in strikes::counterexamples() {
        println!("where {premise}: {}", noticed.as_deref().unwrap_or("NOT noticed, so the premise is not needed"));
        needed &= noticed.is_some();
    }
    Ok(same & tally.noticed.is_none() & needed & (tally.struck > 0))
}

fn compare_writer(arguments: &Arguments, calls: usize) -> Verdict {
    let mut comparison = Comparison::start(arguments.program()?, PATIENCE).map_err(told)?;
    makers::writing(&mut comparison, calls, arguments.seed()?, arguments.fault()?);
    let numbers = comparison.numbers;
    let same = ended(comparison, "writer", "streams")?;
    Ok(same & reached(&[0, 20, 21, 22].map(|number| (format!("number {number}"), numbers[number])), calls >= DEFAULT_WRITES))
}

fn compare_dumps(arguments: &Arguments, calls: usize) -> Verdict {
    let mut comparison = Comparison::start(arguments.program()?, PATIENCE).map_err(told)?;
    makers::dumping(&mut comparison, calls, arguments.seed()?, arguments.fault()?);
    let numbers = comparison.numbers;
    let same = ended(comparison, "dumps", "dumps and sets")?;
    let given = [0, 1, 2, 3, 4, 5, 6, 21, 22, 23];
    Ok(same & reached(&given.map(|number| (format!("number {number}"), numbers[number])), calls >= DEFAULT_DUMPS))
}

fn compare_trims(arguments: &Arguments, calls: usize) -> Verdict {
    let mut comparison = Comparison::start(arguments.program()?, PATIENCE).map_err(told)?;
    let freed = makers::trimming(&mut comparison, calls, arguments.seed()?, arguments.fault()?);
    let numbers = comparison.numbers;
    let same = ended(comparison, "trim", "sets")?;
    let kinds = [("nothing freed", freed.nothing), ("strings freed", freed.strings), ("string 0 freed too", freed.zero)];
    let kinds = kinds.map(|(name, count)| (name.to_string(), count));
    let demanded = calls >= DEFAULT_TRIMS;
    Ok(same & reached(&numbered(&numbers, &OPENING_NUMBERS), demanded) & reached(&kinds, demanded))
}

fn compare_supers(arguments: &Arguments, sets: usize) -> Verdict {
    let (seed, fault) = (arguments.seed()?, arguments.fault()?);
    let mut comparison = Comparison::start(arguments.program()?, PATIENCE).map_err(told)?;
    let rules = super_draft::opening(&mut comparison, sets, seed, fault);
    let numbers = comparison.numbers;
    let same = ended(comparison, "SuperSpeed opening", "calls")?;
    let demanded = sets >= DEFAULT_SUPERS;
    let by_name = rules.iter().map(|(rule, count)| (format!("{} {}", rule.group(), kebab(&format!("{rule:?}"))), *count));
    let met = reached(&numbered(&numbers, &OPENING_NUMBERS), demanded) & reached(&by_name.collect::<Vec<_>>(), demanded);
    let mut comparison = Comparison::start(arguments.program()?, PATIENCE).map_err(told)?;
    super_draft::writing(&mut comparison, sets / 4, seed, fault);
    let numbers = comparison.numbers;
    let written = ended(comparison, "SuperSpeed writer", "streams")?;
    let met = met & reached(&[0, 20, 21, 22].map(|number| (format!("number {number}"), numbers[number])), demanded);
    Ok(same & written & met)
}

/// Each rule of each kind of set is told of some.
fn compare_explained(arguments: &Arguments, calls: usize) -> Verdict {
    let mut comparison = Comparison::start(arguments.program()?, PATIENCE).map_err(told)?;
    let rules = runs::explaining(&mut comparison, calls, arguments.seed()?, arguments.fault()?);
    let same = ended(comparison, "explained", "sets and pairs")?;
    let by_number = rules.iter().map(|(kind, rule, count)| (format!("rule {rule} {}", kebab(&format!("{kind:?}"))), *count));
    Ok(same & reached(&by_number.collect::<Vec<_>>(), calls >= DEFAULT_EXPLAINED))
}

/// Tells how a comparison went and how long it took.
fn ended(comparison: Comparison, part: &str, unit: &str) -> Verdict {
    let (start, calls) = (comparison.start, comparison.calls);
    let findings = comparison.finish().map_err(told)?;
    Ok(agrees(&format!("{part}: {calls} {unit} in {:.1} s", start.elapsed().as_secs_f64()), &findings))
}

fn numbered(counts: &[usize; 256], numbers: &[u8]) -> Vec<(String, usize)> {
    numbers.iter().map(|&number| (format!("number {number}"), counts[usize::from(number)])).collect()
}

/// Prints how often each was reached; whether all were, where that is demanded: a short run misses some.
fn reached(counts: &[(String, usize)], demanded: bool) -> bool {
    let mark = if demanded { "  NOT REACHED" } else { "  not reached, by so few" };
    for (name, count) in counts {
        println!("  {count:>8}  {name}{}", if *count == 0 { mark } else { "" });
    }
    !demanded || counts.iter().all(|(_, count)| *count > 0)
}

/// One comparison for each planted fault, to the first difference.
fn faults(arguments: &Arguments) -> Verdict {
    let (program, seed) = (arguments.program()?, arguments.seed()?);
    let mut unnoticed = 0;
    for fault in Fault::at_boundary() {
        let mut comparison = Comparison::start(program, 1).map_err(told)?;
        if fault::OPENING.contains(&fault) {
            runs::opening(&mut comparison, DEFAULT_SETS, seed, fault);
        } else if fault::WRITER.contains(&fault) {
            makers::writing(&mut comparison, DEFAULT_CALLS, seed, fault);
        } else if fault::DUMPS.contains(&fault) {
            makers::dumping(&mut comparison, DEFAULT_CALLS, seed, fault);
        } else if fault::TRIM.contains(&fault) {
            makers::trimming(&mut comparison, DEFAULT_CALLS, seed, fault);
        } else if fault::PAIRS.contains(&fault) {
            runs::opening_two(&mut comparison, DEFAULT_PAIRS, seed, fault);
        } else if fault::SPEEDS.contains(&fault) {
            runs::whole_two(&mut comparison, DEFAULT_PAIR_CALLS, seed, fault);
        } else if fault::SUPER.contains(&fault) {
            super_draft::opening(&mut comparison, DEFAULT_SUPERS, seed, fault);
        } else if fault::EXPLAINED.contains(&fault) {
            runs::explaining(&mut comparison, DEFAULT_EXPLAINED, seed, fault);
        } else if fault::PORTS.contains(&fault) {
            runs::ports(&mut comparison, DEFAULT_PORT_CALLS, seed, fault);
        } else if fault::PIPE.contains(&fault) || fault::TRANSFERS.contains(&fault) {
            pipe_runs::wires(&mut comparison, DEFAULT_WIRE_CALLS, seed, fault);
        } else if fault::STRIKES.contains(&fault) {
            runs::strikes(&mut comparison, DEFAULT_STRIKES, seed, fault);
        } else {
            runs::whole(&mut comparison, DEFAULT_CALLS, seed, fault);
        }
        let findings = comparison.finish().map_err(told)?;
        unnoticed += usize::from(findings.first.is_none());
        print_fault(fault, findings.first, "calls");
    }
    for &fault in fault::STRIKES {
        // a driver that is not left alone shows in its runs, without another implementation
        let tally = strikes::alone(DEFAULT_RUNS, seed, fault);
        unnoticed += usize::from(tally.noticed.is_none());
        print_fault(fault, tally.noticed.map(|_| tally.runs), "runs");
    }
    for fault in fault::LOOP.iter().chain(fault::TRANSFERS).copied() {
        // nor does a host trust a device that breaks the pipe's promises
        let tally = transfers::alone(DEFAULT_RUNS, seed, fault);
        unnoticed += usize::from(tally.noticed.is_none());
        print_fault(fault, tally.noticed.map(|_| tally.transfers), "transfers");
    }
    println!("faults: {} planted, {unnoticed} not noticed", Fault::at_boundary().chain(fault::LOOP.iter().copied()).count());
    Ok(unnoticed == 0)
}

fn print_fault(fault: Fault, first: Option<usize>, unit: &str) {
    let noticed = first.map_or("NOT NOTICED".to_string(), |first| format!("noticed after {first} {unit}"));
    println!("  {:<45} {noticed}", fault.name());
}

fn list(arguments: &Arguments, set: &str, serial: &str) -> Verdict {
    print!("{}", files::list_files(set, serial, arguments.fault()?));
    Ok(true)
}

fn open_pair(files: [&str; 3]) -> Verdict {
    let [full, high, serial] = files.map(|file| std::fs::read(file).unwrap_or_default());
    let opened = Lent::two(full, high, serial, Fault::None).opened;
    println!("{}", opened.map_or_else(|refused| refused.number(), |_| 0));
    Ok(true)
}

fn generate(arguments: &Arguments, directory: &str, count: &str) -> Verdict {
    let count = count.parse().map_err(|_| "generate takes a directory and a number".to_string())?;
    files::generate(Path::new(directory), count, arguments.seed()?).map_err(told)?;
    Ok(true)
}

fn samples(arguments: &Arguments, directory: &str) -> Verdict {
    files::write_samples(Path::new(directory), arguments.seed()?).map_err(told)?;
    Ok(true)
}

fn lister(arguments: &Arguments) -> Verdict {
    let directory = Path::new(arguments.option("directory").ok_or("--directory is missing")?);
    let (program, seed) = (arguments.program()?, arguments.seed()?);
    let sets = arguments.number("sets")?.unwrap_or(500);
    let run = |fault| files::compare_lister(program, directory, sets, seed, fault).map_err(told);
    let difference = run(Fault::None)?;
    match difference {
        None => println!("lister: {sets} sets, 0 differ"),
        Some(at) => println!("lister: set {at} differs; it stands in {}", directory.display()),
    }
    let mut right = difference.is_none();
    for &fault in fault::LISTER.iter().take_while(|_| difference.is_none()) {
        let first = run(fault)?;
        right &= first.is_some();
        print_fault(fault, first, "sets");
    }
    Ok(right)
}
