// The oracle's subcommands: the Rust as the judge of books, positions and single steps; pictures, the trainer and claims.

mod board;
mod book;
mod books;
mod claims;
mod coverage;
mod drawn;
mod game;
mod lawful;
mod layout;
mod lessons;
mod noflag;
mod packed;
mod packed_steps;
mod picture;
mod pictures;
mod player;
mod position;
mod positions;
mod printout;
mod random;
mod sections;
mod slider;
mod steps;
mod trainer;

use books::Kind;
use printout::printout;
use std::io::{BufWriter, Read, Write};
use std::process::ExitCode;
use steps::{Start, Step};

const USAGE: &str = "usage:
  oracle play                        a book on standard input: its printout
  oracle positions                   the P and Run positions of document 01, and those of the requests
  oracle books SEED COUNT [KIND]     packed books: small, large, deep, damaged or mixed
  oracle answers [--sum]             packed books on standard input: their printouts, or their sums
  oracle noflag-books SEED COUNT     packed books for the no-flag class
  oracle noflag-answers              packed books on standard input: what the class prints of each
  oracle scrub-words SEED CASE       a book on standard input: K, ROOM and drags for it
  oracle scrub-told K ROOM N..       a book on standard input: what is told of each drag
  oracle pick NUMBER                 packed books on standard input: the one of this number, from 1
  oracle steps SEED COUNT [START]    packed single steps from positions: lawful or spoiled
  oracle outcomes [--whole]          packed steps on standard input: a line of the outcome of each, or of the whole
  oracle coverage SEED COUNT [KIND]  what such books reach
  oracle draws                       packed books on standard input: their pictures
  oracle pictures SEED COUNT         packed pictures, many of them damaged
  oracle views                       packed pictures on standard input: what is printed of each
  oracle hints                       packed books on standard input: the hint for the last board of each
  oracle practices SEED COUNT        packed practices: questions and reports in a row, some of them damaged
  oracle lessons                     packed practices on standard input: what is printed of each
  oracle visits SEED COUNT           packed books with claims, right, wrong and broken
  oracle verdicts                    packed books on standard input: the checker's line for each
  oracle claims                      packed books on standard input: what the second program writes for each";

type Outcome = Result<bool, String>;

fn main() -> ExitCode {
    let arguments: Vec<String> = std::env::args().skip(1).collect();
    let words: Vec<&str> = arguments.iter().map(String::as_str).collect();
    match run(&words) {
        Ok(true) => ExitCode::SUCCESS,
        Ok(false) => ExitCode::FAILURE,
        Err(message) => {
            eprintln!("oracle: {message}");
            ExitCode::from(2)
        }
    }
}

fn run(words: &[&str]) -> Outcome {
    match words {
        ["play"] => write(printout(&input()?).as_bytes()),
        ["positions"] => Ok(positions::agree()),
        ["books", seed, count] => made(seed, count, |seed, i| books::book(seed, i, Kind::Mixed)),
        ["books", seed, count, kind] => {
            let kind = kind_named(kind)?;
            made(seed, count, |seed, i| books::book(seed, i, kind))
        }
        ["answers"] => answers(printout),
        ["answers", "--sum"] => answers(sum),
        ["noflag-books", seed, count] => made(seed, count, noflag::book),
        ["noflag-answers"] => answers(noflag::printout),
        ["scrub-words", seed, case] => write(slider::words(number(seed)?, number(case)?, &input()?).as_bytes()),
        ["scrub-told", words @ ..] => write(slider::told(&input()?, words)?.as_bytes()),
        ["pick", book] => pick(number(book)?),
        ["steps", seed, count] => write_steps(number(seed)?, number(count)?, Start::Lawful),
        ["steps", seed, count, start] => write_steps(number(seed)?, number(count)?, start_named(start)?),
        ["outcomes"] => outcomes(Step::outcome_line),
        ["outcomes", "--whole"] => outcomes(Step::whole_line),
        ["coverage", seed, count] => cover(number(seed)?, number(count)?, Kind::Mixed),
        ["coverage", seed, count, kind] => cover(number(seed)?, number(count)?, kind_named(kind)?),
        ["draws"] => answers(picture::draw),
        ["pictures", seed, count] => made(seed, count, pictures::picture),
        ["views"] => answers(picture::view),
        ["hints"] => answers(trainer::hint_of_book),
        ["practices", seed, count] => made(seed, count, lessons::practice),
        ["lessons"] => answers(trainer::practice),
        ["visits", seed, count] => made(seed, count, claims::visiting),
        ["verdicts"] => answers(claims::check),
        ["claims"] => written(claims::claim),
        _ => Err(USAGE.into()),
    }
}

fn number(word: &str) -> Result<u64, String> {
    word.parse().map_err(|_| format!("{word} is not a number"))
}

fn kind_named(word: &str) -> Result<Kind, String> {
    Kind::named(word).ok_or(format!("{word} is not a kind of books"))
}

fn start_named(word: &str) -> Result<Start, String> {
    Start::named(word).ok_or(format!("{word} is not a start of steps"))
}

/// As many packed inputs as are asked for, made by seed and number.
fn made(seed: &str, count: &str, of: impl Fn(u64, u64) -> Vec<u8>) -> Outcome {
    let (seed, count) = (number(seed)?, number(count)?);
    let mut packed = Vec::new();
    for i in 0..count {
        packed::pack(&mut packed, &of(seed, i));
    }
    write(&packed)
}

fn answers(of: fn(&[u8]) -> String) -> Outcome {
    written(|book| of(book).into_bytes())
}

fn written(of: impl Fn(&[u8]) -> Vec<u8>) -> Outcome {
    let stream = input()?;
    let mut out = BufWriter::new(std::io::stdout());
    for book in packed::unpack(&stream)? {
        out.write_all(&of(book)).map_err(said)?;
    }
    out.flush().map_err(said)?;
    Ok(true)
}

/// A printout's 64-bit FNV-1a sum and its length.
fn sum(book: &[u8]) -> String {
    let text = printout(book);
    let mix = |hash: u64, byte: u8| (hash ^ u64::from(byte)).wrapping_mul(0x0000_0100_0000_01b3);
    let hash = text.bytes().fold(0xcbf2_9ce4_8422_2325, mix);
    format!("{hash:016x} {}\n", text.len())
}

fn pick(number: u64) -> Outcome {
    let stream = input()?;
    let books = packed::unpack(&stream)?;
    let place = usize::try_from(number).ok().and_then(|number| number.checked_sub(1));
    let book = place.and_then(|place| books.get(place)).ok_or(format!("no book {number} among {}", books.len()))?;
    write(book)
}

fn write_steps(seed: u64, count: u64, start: Start) -> Outcome {
    let mut packed = Vec::new();
    for number in 0..count {
        match steps::step(seed, number, start) {
            Ok(step) => packed_steps::pack(&mut packed, &step),
            Err(message) => return broken(&message),
        }
    }
    write(&packed)
}

fn outcomes(line: fn(&Step) -> Result<String, String>) -> Outcome {
    let stream = input()?;
    let mut out = BufWriter::new(std::io::stdout());
    for (before, step) in packed_steps::unpack(&stream)?.iter().enumerate() {
        match line(step) {
            Ok(line) => writeln!(out, "{line}").map_err(said)?,
            Err(message) => return broken(&format!("step {}: {message}", before + 1)),
        }
    }
    out.flush().map_err(said)?;
    Ok(true)
}

/// A promise of the papers does not hold.
fn broken(message: &str) -> Outcome {
    eprintln!("oracle: {message}");
    Ok(false)
}

fn cover(seed: u64, count: u64, kind: Kind) -> Outcome {
    coverage::report(seed, count, kind);
    Ok(true)
}

fn input() -> Result<Vec<u8>, String> {
    let mut bytes = Vec::new();
    std::io::stdin().read_to_end(&mut bytes).map_err(said)?;
    Ok(bytes)
}

fn write(bytes: &[u8]) -> Outcome {
    std::io::stdout().write_all(bytes).map_err(said)?;
    Ok(true)
}

fn said(error: std::io::Error) -> String {
    error.to_string()
}
