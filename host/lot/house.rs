//! The house's commands: a store in a file, and what it gives to the practices.

use std::ffi::OsStr;

use lotlog::file::Writer;
use lotlog::{Answer, Digest, ELEMENTS_MOST, HEADER_BYTES, PROOF_MOST, RECORD_BYTES};

use crate::files::{must_be_one, read_store, Output};
use crate::said::{Call, Outcome, Said, Stop, Trouble, FALSE, UNABLE};
use crate::teller::Teller;
use crate::text::{hex, shown};
use crate::words::Words;

/// The most bytes of an entry.
pub const ENTRY_MOST: usize = 4_096;

/// An answer that is no refusal.
pub fn done(answer: Answer, call: Call) -> Result<u64, Stop> {
    match answer.number {
        0 => Ok(answer.beside[0]),
        _ => Err(Said::refused(answer, call).into()),
    }
}

/// The same of a call that answers with its number alone.
pub fn done_alone(number: u64, call: Call) -> Result<(), Stop> {
    done(Answer { number, beside: [0; 3] }, call).map(|_| ())
}

/// Room for so many elements. More than a log can have is more than any address too, so the wrapper
/// need not see it whole.
fn room(words: &Words) -> Result<usize, Trouble> {
    match words.needed_number("--room")? {
        number if number <= ELEMENTS_MOST as u64 => Ok(number as usize),
        _ => Err(Trouble::new(format!("a log has room for at most {} elements", ELEMENTS_MOST))),
    }
}

pub fn init(words: &Words, _: &Teller) -> Outcome {
    let name = words.word(0);
    let (log, room) = (words.needed_number("--log")?, room(words)?);
    Writer::create(words.own(name)?, log, room).map_err(|error| Stop::of(name, error))?;
    Ok(Said::good(format!("log {}, room {}", log, room)).with("log", log).with("room", room as u64))
}

/// The log's number, which stands in the header of a store that is in order.
fn log_of(store: &[u8]) -> u64 {
    let mut log = [0; 8];
    log.copy_from_slice(&store[8..HEADER_BYTES]);
    u64::from_be_bytes(log)
}

pub fn grow(words: &Words, _: &Teller) -> Outcome {
    let name = words.word(0);
    let room = room(words)?;
    let mut writer = Writer::open(words.own(name)?).map_err(|error| Stop::of(name, error))?;
    let present = (writer.store().len() - HEADER_BYTES) / RECORD_BYTES;
    if room < present {
        return Err(Trouble::of(name, &format!("it has room for {} already", present)).into());
    }
    if room > present {
        writer.grow(room - present).map_err(|error| Stop::of(name, error))?;
    }
    let count = done(lotlog::count(writer.store()), Call::Makes)?;
    let log = log_of(writer.store());
    let said = Said::good(format!("log {}, room {}, count {}", log, room, count));
    Ok(said.with("log", log).with("room", room as u64).with("count", count))
}

/// T at a length.
pub fn digest_of(store: &[u8], at: u64) -> Result<Digest, Stop> {
    let mut digest = [0; 32];
    done_alone(lotlog::digest_at(store, at, &mut digest), Call::Makes)?;
    Ok(digest)
}

pub fn count(words: &Words, _: &Teller) -> Outcome {
    let store = read_store(words.word(0))?;
    let count = done(lotlog::count(&store), Call::Makes)?;
    Ok(Said::good(count.to_string()).with("count", count))
}

pub fn digest(words: &Words, _: &Teller) -> Outcome {
    let at = words.words_from(1).first().map(|word| words.number(word)).transpose()?;
    let store = read_store(words.word(0))?;
    let at = at.map_or_else(|| done(lotlog::count(&store), Call::Makes), Ok)?;
    let digest = hex(&digest_of(&store, at)?);
    Ok(Said::good(format!("{} {}", at, digest)).with("count", at).with("digest", digest))
}

/// Sound, or which element is wrong, as the program `lot_audit` says it; the number goes beside.
pub fn audit(words: &Words, _: &Teller) -> Outcome {
    let answer = lotlog::audit(&read_store(words.word(0))?);
    let first = answer.beside[0];
    if answer.number == 12 {
        let refused = Said::refused(answer, Call::Checks);
        let mut said = Said::good(format!("wrong {}", first)).status(FALSE).with("answer", "wrong");
        said.fields.extend(refused.fields);
        return Ok(said.aside(refused.line));
    }
    let count = done(answer, Call::Checks)?;
    Ok(Said::good(format!("sound {}", count)).with("answer", "sound").with("count", count))
}

/// A refusal of two stores in the words of `lot_compare`; its meaning goes beside it, and which of
/// them are damaged.
fn not_compared(answer: Answer, names: &[&OsStr], stores: &[Vec<u8>]) -> Said {
    let mut said = Said::refused(answer, Call::Checks);
    let meaning = std::mem::replace(&mut said.line, format!("refused {}", answer.number));
    let damaged = names.iter().zip(stores).filter(|(_, store)| lotlog::count(store).number == 1);
    let damaged: Vec<String> = damaged.map(|(name, _)| shown(name)).collect();
    match &damaged[..] {
        [] => said.aside(meaning),
        names => said.aside(format!("{}: {}", meaning, names.join(", "))),
    }
}

/// Whether two stores agree, in the line of the program `lot_compare`, whatever their size.
pub fn compare_stores(words: &Words, teller: &Teller) -> Outcome {
    let names = words.names_from(0);
    must_be_one(&names)?;
    let read = |name: &OsStr| {
        read_store(name).map_err(|trouble| {
            let unread = Said::good("unread").status(UNABLE).with("answer", "unread");
            teller.tell(&unread).err().unwrap_or(trouble)
        })
    };
    let stores = [read(names[0])?, read(names[1])?];
    let answer = lotlog::compare(&stores[0], &stores[1]);
    let [kind, element, byte] = answer.beside;
    let differs = |line: &str| Said::good(line).status(FALSE).with("answer", line);
    Ok(match (answer.number, kind) {
        (0, 0) => Said::good("equal").with("answer", "equal"),
        (0, 1) => differs("first shorter"),
        (0, 2) => differs("second shorter"),
        (0, _) => Said::good(format!("differ {} {}", element, byte))
            .status(FALSE)
            .with("answer", "differ")
            .with("element", element)
            .with("byte", byte),
        _ => not_compared(answer, &names, &stores),
    })
}

/// What the two commands that make proofs have in common: a store, a number, a length and a place.
fn proved(
    words: &Words,
    build: fn(&[u8], u64, u64, &mut [u8]) -> Answer,
) -> Result<(u64, u64, u64), Stop> {
    let name = words.word(0);
    let (from, at) = (words.number(words.word(1))?, words.chosen_number("--at")?);
    let out = Output::of(&words.needed("-o")?[0], &[name])?;
    let store = read_store(name)?;
    let at = at.map_or_else(|| done(lotlog::count(&store), Call::Makes), Ok)?;
    let mut proof = vec![0; PROOF_MOST];
    let length = done(build(&store, from, at, &mut proof), Call::Makes)?;
    out.write(&proof[..length as usize])?;
    Ok((from, at, length))
}

pub fn prove(words: &Words, _: &Teller) -> Outcome {
    let (element, of, bytes) = proved(words, lotlog::build_membership)?;
    let said = Said::good(format!("element {} of {}, {} bytes", element, of, bytes));
    Ok(said.with("element", element).with("of", of).with("bytes", bytes))
}

pub fn prove_growth(words: &Words, _: &Teller) -> Outcome {
    let (from, to, bytes) = proved(words, lotlog::build_advancement)?;
    let said = Said::good(format!("{} to {}, {} bytes", from, to, bytes));
    Ok(said.with("from", from).with("to", to).with("bytes", bytes))
}
