//! A user of the library in safe Rust: the same commands as `c/user.c`, with the program's words, lines and statuses.
#![forbid(unsafe_code)]

use foshqarel::{Change, Error, Receipt, Subject};
use std::fs;
use std::process::ExitCode;

type Outcome = Result<String, Failure>;

enum Failure {
    Library(Error),
    File,
}

impl From<Error> for Failure {
    fn from(error: Error) -> Failure {
        Failure::Library(error)
    }
}

impl From<std::io::Error> for Failure {
    fn from(_error: std::io::Error) -> Failure {
        Failure::File
    }
}

/// The program's line of a refusal.
fn refusal_line(subject: Subject, number: u32, place: Option<u64>, function: Option<u64>) -> String {
    let or_dash = |place: Option<u64>| place.map_or("-".to_string(), |place| place.to_string());
    let behind = place.map_or(String::new(), |place| format!(" {place}"));
    match subject {
        Subject::Block => format!("reject {number}{behind}\n"),
        Subject::Check => format!("refused check {number} {} {}\n", or_dash(function), or_dash(place)),
        Subject::Load => format!("refused load {number}{behind}\n"),
        Subject::Assemble => format!("refused assemble {number}{behind}\n"),
        Subject::Text => format!("refused text {number}\n"),
        Subject::Calls => format!("refused calls {number}{behind}\n"),
        Subject::Deploy => format!("refused deploy {number} {}\n", or_dash(place)),
        Subject::World => format!("refused world {number} {}\n", or_dash(place)),
    }
}

fn receipt_text(receipt: &Receipt) -> String {
    let ended = match receipt.outcome {
        0 => "returned".to_string(),
        1 => format!("returned i32:{}", receipt.value),
        2 => format!("returned i64:{}", receipt.value),
        3 => format!("trapped {}", receipt.code),
        4 => "out-of-fuel".to_string(),
        _ => format!("rejected {}", receipt.code),
    };
    let asks = if receipt.asks == 0 { String::new() } else { format!(" asks {}", receipt.asks) };
    format!("{ended} fuel {}{asks}", receipt.fuel)
}

fn kind_word(kind: u32) -> &'static str {
    if kind == 0 { "map" } else { "counter" }
}

fn lock_text(change: &Change) -> String {
    format!("{} {}:{}", kind_word(change.kind), change.contract, change.key)
}

fn digest_line(word: &str, world: &[u8]) -> Outcome {
    let digits: String = foshqarel::digest(world)?.iter().map(|byte| format!("{byte:02x}")).collect();
    Ok(format!("{word} {digits}\n"))
}

fn written(word: &str, name: &str, bytes: &[u8]) -> Outcome {
    fs::write(name, bytes)?;
    Ok(format!("{word} {} bytes\n", bytes.len()))
}

fn deploy(world: &str, modules: &[&str], onto: Option<&str>) -> Outcome {
    let mut bytes = match onto {
        Some(old) => fs::read(old)?,
        None => foshqarel::new_world()?,
    };
    // the number of contracts stands behind the magic and the version
    let before = bytes.get(8..10).map_or(0, |count| u16::from_le_bytes([count[0], count[1]]));
    for module in modules {
        bytes = foshqarel::extend(&bytes, &fs::read(module)?)?;
    }
    fs::write(world, &bytes)?;
    let behind = onto.map_or(String::new(), |_old| format!(" onto {before}"));
    Ok(format!("deployed {} contracts{behind}\n", modules.len()))
}

fn mine(world: &str, calls: &str, block: &str, next: &str, fuel: u64) -> Outcome {
    let (world, calls) = (fs::read(world)?, fs::read(calls)?);
    let (block_bytes, next_bytes) = foshqarel::mine(&world, &calls, fuel)?;
    fs::write(block, &block_bytes)?;
    fs::write(next, &next_bytes)?;
    let receipts = foshqarel::receipts(&block_bytes)?;
    let mut text = String::new();
    for (position, receipt) in receipts.iter().enumerate() {
        text += &format!("{position} call {} {}\n", receipt.call, receipt_text(receipt));
    }
    for call in 0..foshqarel::calls(&calls)? {
        if !receipts.iter().any(|receipt| u64::from(receipt.call) == call) {
            text += &format!("left {call}\n");
        }
    }
    let used: u64 = receipts.iter().map(|receipt| receipt.fuel).sum();
    text += &format!("fuel {used}\n");
    Ok(text + &digest_line("before", &world)? + &digest_line("after", &next_bytes)?)
}

fn validate(world: &str, calls: &str, block: &str, next: Option<&str>, fuel: u64) -> Outcome {
    let after = foshqarel::verify(&fs::read(world)?, &fs::read(calls)?, fuel, &fs::read(block)?)?;
    if let Some(next) = next {
        fs::write(next, &after)?;
    }
    Ok("accept\n".to_string() + &digest_line("after", &after)?)
}

fn call(world: &str, words: &[&str]) -> Outcome {
    let line = words.join(" ") + "\n";
    let (receipt, changes) = foshqarel::call(&fs::read(world)?, line.as_bytes(), 0)?;
    let mut text = receipt_text(&receipt) + "\n";
    for change in &changes {
        let mode = ["read", "add", "excl"][change.mode as usize];
        text += &format!("lock {} {mode}\n", lock_text(change));
    }
    for change in &changes {
        let number = |is_there: bool, number: u64| if is_there { number.to_string() } else { "-".to_string() };
        let before = number(change.presence & 1 != 0, change.before);
        let later = number(change.presence & 2 != 0, change.later);
        if before != later {
            text += &format!("{} {before} -> {later}\n", lock_text(change));
        }
    }
    Ok(text)
}

fn cells(world: &str) -> Outcome {
    let world = fs::read(world)?;
    let mut text = String::new();
    for cell in foshqarel::cells(&world)? {
        let again = foshqarel::cell(&world, cell.contract, cell.kind, cell.key)?;
        assert_eq!(again, Some(cell.number));
        text += &format!("{} {}:{} {}\n", kind_word(cell.kind), cell.contract, cell.key, cell.number);
    }
    Ok(text)
}

fn run(words: &[&str], fuel: u64) -> Option<Outcome> {
    Some(match words {
        ["asm", text, module] => (|| written("assembled", module, &foshqarel::assemble(&fs::read(text)?)?))(),
        ["text", module, text] => (|| written("text", text, &foshqarel::text(&fs::read(module)?)?))(),
        ["check", module] => (|| Ok(format!("valid {} functions\n", foshqarel::check(&fs::read(module)?)?)))(),
        ["deploy", world, modules @ .., "--onto", old] => deploy(world, modules, Some(old)),
        ["deploy", world, modules @ ..] => deploy(world, modules, None),
        ["mine", world, calls, block, next] => mine(world, calls, block, next, fuel),
        ["validate", world, calls, block] => validate(world, calls, block, None, fuel),
        ["validate", world, calls, block, next] => validate(world, calls, block, Some(next), fuel),
        ["call", world, words @ ..] => call(world, words),
        ["cells", world] => cells(world),
        _ => return None,
    })
}

fn main() -> ExitCode {
    let words: Vec<String> = std::env::args().skip(1).collect();
    let mut words: Vec<&str> = words.iter().map(String::as_str).collect();
    let mut fuel = 0;
    // `--fuel N` and what stands behind it, as `--workers N`, which a library without threads does not need
    if let Some(at) = words.iter().position(|word| *word == "--fuel") {
        fuel = words.get(at + 1).and_then(|word| word.parse().ok()).unwrap_or(0);
        words.truncate(at);
    }
    match run(&words, fuel) {
        Some(Ok(text)) => {
            print!("{text}");
            ExitCode::SUCCESS
        }
        Some(Err(Failure::Library(Error::Refused { subject, number, place, function, sentence }))) => {
            print!("{}", refusal_line(subject, number, place, function));
            eprintln!("{sentence}");
            ExitCode::from(1)
        }
        None => ExitCode::from(2),
        Some(Err(Failure::File)) => ExitCode::from(3),
        Some(Err(Failure::Library(Error::NoMemory))) => ExitCode::from(4),
    }
}
