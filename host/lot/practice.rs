//! The practice's commands: what it holds, and what it checks with it.

use std::ffi::OsStr;

use lotlog::file::{create_held, replace_held};
use lotlog::{Digest, Held, Side, HELD_BYTES, HELD_FILE_MOST, LEVELS, PROOF_MOST};

use crate::files::{is_one_place, must_be_one, read_first, Output};
use crate::house::{done, done_alone, ENTRY_MOST};
use crate::json::Value;
use crate::said::{Call, Outcome, Said, Stop, Trouble, FALSE};
use crate::teller::Teller;
use crate::text::{hex, hops, shown};
use crate::words::Words;

/// The bytes of each buffer of a dispute.
const MESSAGE_MOST: usize = 4_097;

/// A held state, read from its file.
fn held_in(name: &OsStr) -> Result<Held, Stop> {
    let file = read_first(name, HELD_FILE_MOST + 1)?;
    let mut held = [0; HELD_BYTES];
    done_alone(lotlog::held_read(&file, &mut held), Call::Makes)?;
    Ok(held)
}

/// The parts of a held state, as it stands in bytes.
struct Parts {
    log: u64,
    count: u64,
    digest: Digest,
    rows: Vec<Digest>,
}

impl Parts {
    fn of(held: &Held) -> Parts {
        let number =
            |at: usize| held[at..at + 8].iter().fold(0, |sum, &byte| sum << 8 | u64::from(byte));
        let digest = |at: usize| {
            let mut digest = [0; 32];
            digest.copy_from_slice(&held[at..at + 32]);
            digest
        };
        let rows = (0..LEVELS).map(|row| digest(48 + 32 * row)).collect();
        Parts { log: number(0), count: number(8), digest: digest(16), rows }
    }

    /// Which rows are in use: those of the bits of the count that are 1.
    fn in_use(&self) -> Vec<u64> {
        (0..LEVELS as u64).filter(|row| self.count >> row & 1 == 1).collect()
    }

    /// The lengths whose digests are held, and these: the count's, and for each row in use that of
    /// the count with the bits up to the row's cleared.
    fn digests(&self) -> Vec<(u64, Digest)> {
        let of_row = |row: u64| (self.count >> row >> 1 << row << 1, self.rows[row as usize]);
        let rows = self.in_use().into_iter().map(of_row);
        std::iter::once((self.count, self.digest)).chain(rows).collect()
    }

    fn said(&self) -> Said {
        let rows: Vec<String> = self.in_use().iter().map(u64::to_string).collect();
        let rows = if rows.is_empty() { "none".to_string() } else { rows.join(" ") };
        let digest = hex(&self.digest);
        Said::good(format!(
            "log {}, count {}, digest {}, rows {}",
            self.log, self.count, digest, rows
        ))
        .with("log", self.log)
        .with("count", self.count)
        .with("digest", digest)
        .with("rows", Value::Numbers(self.in_use()))
    }
}

pub fn hold(words: &Words, _: &Teller) -> Outcome {
    let name = words.word(0);
    let log = words.needed_number("--log")?;
    let mut held = [0; HELD_BYTES];
    done_alone(lotlog::held_start(log, &mut held), Call::Makes)?;
    create_held(words.own(name)?, &held).map_err(|error| Stop::of(name, error))?;
    Ok(Parts::of(&held).said())
}

pub fn show(words: &Words, _: &Teller) -> Outcome {
    Ok(Parts::of(&held_in(words.word(0))?).said())
}

pub fn advance(words: &Words, _: &Teller) -> Outcome {
    let name = words.word(0);
    let path = words.own(name)?;
    let (to, digest) = (words.number(words.word(1))?, words.digest(words.word(2))?);
    let before = held_in(name)?;
    let proof = read_first(words.word(3), PROOF_MOST + 1)?;
    let mut held = before;
    let answer = lotlog::check_advancement(&mut held, to, &digest, &proof);
    let good = done(answer, Call::Checks)?;
    replace_held(path, &before, &held).map_err(|error| Stop::of(name, error))?;
    let from = Parts::of(&before).count;
    let said = Said::good(format!("accepted: {} to {}, after {}", from, to, hops(good)));
    Ok(said.with("answer", "accepted").with("from", from).with("to", to).with("hops", good))
}

/// What a membership proof is checked against.
pub struct Claim<'a> {
    pub element: u64,
    pub of: u64,
    pub digest: Digest,
    pub entry: &'a OsStr,
    pub proof: &'a OsStr,
}

impl Claim<'_> {
    /// The entry and the proof.
    pub fn read(&self) -> Result<(Vec<u8>, Vec<u8>), Trouble> {
        let entry = read_first(self.entry, ENTRY_MOST + 1)?;
        Ok((entry, read_first(self.proof, PROOF_MOST + 1)?))
    }

    /// What the library says of it.
    pub fn checked(&self, entry: &[u8], proof: &[u8]) -> Said {
        let Claim { element, of, digest, .. } = self;
        let answer = lotlog::check_membership(entry, *element, *of, digest, proof);
        if answer.number != 0 {
            return Said::refused(answer, Call::Checks);
        }
        let good = answer.beside[0];
        Said::good(format!("accepted: element {} of {}, after {}", element, of, hops(good)))
            .with("answer", "accepted")
            .with("element", *element)
            .with("of", *of)
            .with("hops", good)
    }
}

pub fn verify(words: &Words, _: &Teller) -> Outcome {
    must_be_one(&words.names_from(0))?;
    let told = (words.chosen_number("--at")?, words.chosen("--digest"));
    let (of, digest, first) = match (told, words.count()) {
        ((None, None), 4) => {
            let held = Parts::of(&held_in(words.word(0))?);
            (held.count, held.digest, 1)
        }
        ((Some(at), Some(digest)), 3) => (at, words.digest(&digest[0])?, 0),
        _ => return Err(words.wrong("either HELD, or both --at and --digest").into()),
    };
    let element = words.number(words.word(first))?;
    let (entry, proof) = (words.word(first + 1), words.word(first + 2));
    let claim = Claim { element, of, digest, entry, proof };
    let (entry, proof) = claim.read()?;
    Ok(claim.checked(&entry, &proof))
}

/// Whether someone else was told the same of a length as is held.
pub fn compare(words: &Words, _: &Teller) -> Outcome {
    let (at, told) = (words.number(words.word(1))?, words.digest(words.word(2))?);
    let held = Parts::of(&held_in(words.word(0))?);
    let digests = held.digests();
    let known = digests.iter().find(|(length, _)| *length == at);
    let (_, digest) = known.ok_or_else(|| unknown(words.word(0), at, &digests))?;
    if *digest == told {
        return Ok(Said::good("same").with("answer", "same").with("count", at));
    }
    let said = Said::good("different").status(FALSE).with("answer", "different").with("count", at);
    let said = said.with("held", hex(digest));
    Ok(said.aside(format!("at {} the held log has {}: the other is another log", at, hex(digest))))
}

/// A length of which the held state does not say anything.
fn unknown(name: &OsStr, at: u64, digests: &[(u64, Digest)]) -> Trouble {
    let known: Vec<String> = digests.iter().map(|(length, _)| length.to_string()).collect();
    Trouble::of(name, &format!("it has digests at {}, none at {}", known.join(", "), at))
}

pub fn dispute(words: &Words, _: &Teller) -> Outcome {
    let (element, of) = (words.number(words.word(0))?, words.number(words.word(1))?);
    let digest = words.digest(words.word(2))?;
    let inputs = words.names_from(3);
    must_be_one(&inputs)?;
    let outputs = words.needed("-o")?;
    let outs = [Output::of(&outputs[0], &inputs)?, Output::of(&outputs[1], &inputs)?];
    if is_one_place(&outputs[0], &outputs[1]) || outputs.iter().any(|name| name == "-") {
        return Err(words.wrong("-o takes two different files").into());
    }
    let claim = |entry, proof| Claim { element, of, digest, entry, proof };
    let first = claim(inputs[0], inputs[1]).read()?;
    let second = claim(inputs[2], inputs[3]).read()?;
    let sides = [&first, &second].map(|(entry, proof)| Side { entry, proof });
    let mut messages = [[0; MESSAGE_MOST]; 2];
    let [one, other] = &mut messages;
    let answer = lotlog::dispute(sides, element, of, &digest, [one, other]);
    if done(answer, Call::Checks)? == 1 {
        return Ok(Said::good("same").with("answer", "same"));
    }
    for (at, out) in outs.iter().enumerate() {
        out.write(&messages[at][..answer.beside[1 + at] as usize])?;
    }
    let names: Vec<String> = outputs.iter().map(|name| shown(name)).collect();
    let line = format!("two messages of one SHA-256: sha256sum {}", in_shell(&names));
    let said = Said::good(line).status(FALSE).with("answer", "two messages");
    Ok(said.with("files", Value::Texts(names)))
}

/// Names as a shell takes them.
fn in_shell(names: &[String]) -> String {
    let is_plain = |letter: char| letter.is_ascii_alphanumeric() || "._/+-".contains(letter);
    let quote = |name: &String| match name.chars().all(is_plain) {
        true => name.clone(),
        false => format!("'{}'", name.replace('\'', "'\\''")),
    };
    names.iter().map(quote).collect::<Vec<_>>().join(" ")
}
