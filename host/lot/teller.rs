//! Telling: answers on standard output, complaints on standard error.

use std::io::{self, Write};

use crate::json::{object, Fields};
use crate::said::{system_words, Said, Trouble, UNABLE};
use crate::words::Words;

/// Tells answers and complaints.
pub struct Teller<'a> {
    pub command: &'a str,
    pub json: bool,
    pub quiet: bool,
    /// Standard output has the bytes that were asked for, and the line goes to standard error.
    pub aside: bool,
}

impl<'a> Teller<'a> {
    pub fn of(words: &'a Words) -> Teller<'a> {
        let aside = words.writes_to_standard_output();
        Teller { command: words.command.name, json: words.json, quiet: words.quiet, aside }
    }

    /// Tells an answer.
    pub fn tell(&self, said: &Said) -> Result<(), Trouble> {
        if self.quiet {
            return Ok(());
        }
        if let Some(aside) = &said.aside {
            self.complain(aside);
        }
        if said.line.is_empty() {
            return Ok(());
        }
        let line =
            if self.json { self.object(said.status, &said.fields) } else { said.line.clone() };
        self.write(&format!("{}\n", line))
            .map_err(|error| Trouble::new(format!("standard output: {}", system_words(&error))))
    }

    fn write(&self, text: &str) -> io::Result<()> {
        if self.aside {
            return io::stderr().write_all(text.as_bytes());
        }
        let mut out = io::stdout();
        out.write_all(text.as_bytes())?;
        out.flush()
    }

    /// Tells why there is no answer.
    pub fn tell_trouble(&self, trouble: &Trouble) {
        if self.json {
            let fields = vec![("error", trouble.text.clone().into())];
            // where standard error can't be written there is nobody to tell
            let _ = writeln!(io::stderr(), "{}", self.object(UNABLE, &fields));
            return;
        }
        self.complain(&trouble.text);
        if let Some(usage) = &trouble.usage {
            let _ = writeln!(io::stderr(), "{}", usage);
        }
    }

    fn complain(&self, text: &str) {
        if self.json {
            return;
        }
        let command =
            if self.command.is_empty() { "lot".into() } else { format!("lot {}", self.command) };
        let _ = writeln!(io::stderr(), "{}: {}", command, text);
    }

    /// An object that says which command it is the answer of.
    fn object(&self, status: u8, fields: &Fields) -> String {
        let head = [("command", self.command.into()), ("status", u64::from(status).into())];
        object(head.iter().chain(fields))
    }
}
