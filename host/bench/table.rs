//! The figures of checking, a row for each workload: its sizes and its times.

use crate::timing::Timing;

/// A workload with its sizes and its times. A ratio is the proved checker's time to that of the way.
pub struct Row {
    pub name: &'static str,
    pub bytes: usize,
    pub messages: usize,
    pub distinct: usize,
    pub blocks: usize,
    pub proved: Timing,
    pub plain: Timing,
    pub floor: Timing,
    /// OpenSSL's hash with its extensions off, and on.
    pub off: Timing,
    pub on: Timing,
    /// Nanoseconds for a block of a long message, and the part of the proved checker's time that its
    /// blocks would take so.
    pub block: f64,
    pub share: f64,
}

/// The time of a way, and what the proved checker's is to it.
fn beside(way: &Timing) -> String {
    format!(" {:>9.2} {:>6.2}", way.time / 1e6, way.ratio)
}

pub fn print(rows: &[Row]) {
    println!(
        "{:<20} {:>15} {:>10} {:>10} {:>10}",
        "", "bytes of proofs", "messages", "different", "blocks"
    );
    for Row { name, bytes, messages, distinct, blocks, .. } in rows {
        println!("{:<20} {:>15} {:>10} {:>10} {:>10}", name, bytes, messages, distinct, blocks);
    }
    let head = |way: &str| format!(" {:>9} {:>6}", format!("{} ms", way), "ratio");
    let [plain, floor, off, on] = ["plain", "floor", "off", "on"].map(head);
    print!("{:<20} {:>9}{}{}", "", "proved ms", plain, floor);
    println!(" {:>9} {:>9}{}{}", "block ns", "blocks %", off, on);
    for row in rows {
        let [plain, floor, off, on] = [&row.plain, &row.floor, &row.off, &row.on].map(beside);
        print!("{:<20} {:>9.2}{}{}", row.name, row.proved.time / 1e6, plain, floor);
        println!(" {:>9.1} {:>9.1}{}{}", row.block, 100.0 * row.share, off, on);
    }
}

/// The highest of a figure.
pub fn most(rows: &[Row], figure: impl Fn(&Row) -> f64) -> f64 {
    rows.iter().map(figure).fold(0.0, f64::max)
}
