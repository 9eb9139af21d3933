//! The path between two elements as a picture in text, and where a proof along it breaks.

use lotlog::Answer;

use crate::files::must_be_one;
use crate::json::{Fields, Value};
use crate::practice::Claim;
use crate::said::{Call, Outcome, Said, GOOD};
use crate::teller::Teller;
use crate::text::hops;
use crate::words::Words;

/// The bytes of a digest.
const DIGEST: u64 = 32;

/// A component of a membership proof.
struct Component {
    element: u64,
    /// The level of the hop that reaches it; the first is reached by none.
    level: Option<u32>,
    /// Where it begins in the proof.
    from: u64,
    /// The elements whose digests it has behind its d.
    links: Vec<u64>,
}

impl Component {
    fn of(element: u64, level: Option<u32>, from: u64) -> Component {
        let links = (0..=element.trailing_zeros()).map(|level| element - (1 << level)).collect();
        Component { element, level, from, links }
    }

    fn bytes(&self) -> u64 {
        DIGEST * (1 + self.links.len() as u64)
    }

    fn end(&self) -> u64 {
        self.from + self.bytes()
    }

    /// Its links, that which the hop follows in brackets.
    fn links_shown(&self) -> String {
        let shown = |(level, link): (usize, &u64)| match self.level == Some(level as u32) {
            true => format!(" [T({})]", link),
            false => format!(" T({})", link),
        };
        self.links.iter().enumerate().map(shown).collect()
    }

    fn fields(&self) -> Fields {
        let mut fields: Fields = vec![("element", self.element.into())];
        fields.extend(self.level.map(|level| ("level", u64::from(level).into())));
        fields.push(("from", self.from.into()));
        fields.push(("bytes", self.bytes().into()));
        fields.push(("links", Value::Numbers(self.links.clone())));
        fields
    }
}

/// The level of the hop from an element towards a later one.
fn hop_level(from: u64, to: u64) -> u32 {
    let fits = |level: &u32| from + (1 << level) <= to;
    (0..=from.trailing_zeros()).rev().find(fits).unwrap_or(0)
}

/// The components from one element to another, which is not before it.
fn path(from: u64, to: u64) -> Vec<Component> {
    let mut components = vec![Component::of(from, None, 0)];
    let (mut element, mut end) = (from, components[0].end());
    while element < to {
        let level = hop_level(element, to);
        element += 1 << level;
        components.push(Component::of(element, Some(level), end));
        end = components[components.len() - 1].end();
    }
    components
}

pub fn draw(words: &Words, _: &Teller) -> Outcome {
    let (element, of) = (words.number(words.word(0))?, words.number(words.word(1))?);
    match words.words_from(2) {
        [] => Ok(drawn_path(element, of)),
        [digest, entry, proof] => {
            let digest = words.digest(digest)?;
            must_be_one(&[entry, proof])?;
            drawn_proof(&Claim { element, of, digest, entry, proof })
        }
        _ => Err(words.wrong("a proof is drawn with DIGEST ENTRY PROOF").into()),
    }
}

/// Why there is no path between two positions, if there is none. The library says it: where there
/// is a path it refuses the proof, which is empty.
fn no_path(element: u64, of: u64) -> Option<Answer> {
    let asked = lotlog::check_membership(&[], element, of, &[0; 32], &[]);
    Some(asked).filter(|asked| asked.number == 4)
}

fn drawn_path(element: u64, of: u64) -> Said {
    match no_path(element, of) {
        Some(refused) => Said::refused(refused, Call::Makes),
        None => drawn(element, of, &path(element, of), None),
    }
}

/// The path with what the check of a proof found on it.
fn drawn_proof(claim: &Claim) -> Outcome {
    let Claim { element, of, digest, .. } = *claim;
    let (entry, proof) = claim.read()?;
    let said = claim.checked(&entry, &proof);
    if no_path(element, of).is_some() {
        return Ok(said);
    }
    let answer = lotlog::check_membership(&entry, element, of, &digest, &proof);
    Ok(drawn(element, of, &path(element, of), Some((answer, said))))
}

/// The picture, and with a proof its verdict.
fn drawn(element: u64, of: u64, components: &[Component], verdict: Option<(Answer, Said)>) -> Said {
    let made = components.len() as u64;
    let bytes = components.last().map_or(0, Component::end);
    let count =
        format!("{}, {} component{}", hops(made - 1), made, if made == 1 { "" } else { "s" });
    let mut lines = vec![format!("element {} of {}: {}, {} bytes", element, of, count, bytes)];
    let answer = verdict.as_ref().map(|(answer, _)| *answer);
    let width = of.to_string().len().max(4);
    for (hop, component) in components.iter().enumerate() {
        lines.extend(hop_line(component, hop as u64, width, answer));
        lines.push(component_line(component, hop as u64, made, width, answer));
    }
    let mut fields: Fields = vec![];
    let mut status = GOOD;
    if let Some((_, said)) = verdict {
        lines.push(said.line);
        fields = said.fields;
        status = said.status;
    }
    let places = [("element", element), ("of", of), ("hops", made - 1), ("bytes", bytes)];
    let is_new = |fields: &Fields, name: &str| fields.iter().all(|(known, _)| *known != name);
    for (name, number) in places {
        if is_new(&fields, name) {
            fields.push((name, number.into()));
        }
    }
    fields.push(("components", Value::Objects(components.iter().map(Component::fields).collect())));
    Said { status, line: lines.join("\n"), fields, aside: None }
}

/// The hop that reaches a component, and what the check found there.
fn hop_line(
    component: &Component,
    hop: u64,
    width: usize,
    answer: Option<Answer>,
) -> Option<String> {
    let level = component.level?;
    let (bar, found) = match answer {
        Some(answer) if answer.number == 10 && answer.beside[0] + 1 == hop => {
            ("X", "   broken: the link in brackets is not the T of the element above")
        }
        Some(answer) if matches!(answer.number, 0 | 10 | 11) && answer.beside[0] >= hop => {
            ("|", "   good")
        }
        _ => ("|", ""),
    };
    Some(format!("{:>width$}   level {}{}", bar, level, found, width = width))
}

fn component_line(
    component: &Component,
    hop: u64,
    made: u64,
    width: usize,
    answer: Option<Answer>,
) -> String {
    let found = match answer.map_or(0, |answer| answer.number) {
        8 if hop == 0 => "   broken: d is not the entry's",
        11 if hop + 1 == made => "   broken: its T is not the digest",
        _ => "",
    };
    let Component { element, from, .. } = component;
    let (end, links) = (component.end() - 1, component.links_shown());
    format!("{:>width$}   bytes {} to {}: d{}{}", element, from, end, links, found, width = width)
}
