//! What quotes are counted by: how long the sheet is, what came of them, and which of two
//! refusals goes first.

use crate::quotes::{area, Given, Got, SHEET};
use crate::read::Read;
use crate::report::Report;

/// The clause of row 22 that a quote has more than a composer.
pub const SHEET_CLAUSE: &str = "22: a sheet under 49 bytes";

/// The names of what goes before what.
pub const ORDERS: [&str; 21] = [
    "34 before the file's refusal",
    "34 before 20",
    "34 before 21",
    "34 before 22",
    "34 before 22 of the sheet",
    "34 before 23",
    "35 before the file's refusal",
    "35 before 20",
    "35 before 21",
    "35 before 22",
    "35 before 22 of the sheet",
    "35 before 23",
    "the file's refusal before 20",
    "the file's refusal before 21",
    "the file's refusal before 22",
    "the file's refusal before 22 of the sheet",
    "the file's refusal before 23",
    "20 before 22 of the sheet",
    "21 before 22 of the sheet",
    "22 before 22 of the sheet",
    "22 of the sheet before 23",
];

/// The names of how long a sheet is.
pub const SHEETS: [&str; 7] = [
    "a sheet of 0 bytes",
    "a sheet of 1 byte",
    "a sheet of 2 to 47 bytes",
    "a sheet of 48 bytes",
    "a sheet of 49 bytes",
    "a sheet of 50 bytes",
    "a longer sheet",
];

/// The names of what came of quotes.
pub const QUOTED: [&str; 15] = [
    "answered, no pixel covered",
    "answered, pixels covered",
    "refused",
    "refused under 1.2, answered under 1.02",
    "an area of over 32 bits",
    "edition 1 without a masks line is as with masks=off",
    "edition 2 without a masks line is as with masks=on",
    "masks=on is as edition 2 without the line",
    "masks=off is as edition 1 without the line",
    "masks on, and more pixels without",
    "masks off, and fewer pixels with them",
    "cut in two halves",
    "scrambled settings have a comma",
    "scrambled settings are faulty",
    "scrambled settings are sound",
];

/// The name of a sheet's length.
pub fn sheet_name(length: usize) -> &'static str {
    match length {
        0 => "a sheet of 0 bytes",
        1 => "a sheet of 1 byte",
        2..=47 => "a sheet of 2 to 47 bytes",
        48 => "a sheet of 48 bytes",
        49 => "a sheet of 49 bytes",
        50 => "a sheet of 50 bytes",
        _ => "a longer sheet",
    }
}

/// Counts what came of a quote, and what went before what, under 1.2.
pub fn note(
    read: &Read,
    (number, sheet): (Option<u32>, usize),
    given: &Given,
    [newer, older]: &[Got; 2],
    report: &mut Report,
) {
    let said = newer.said;
    report.quoted.add(match (said.number, older.said.number) {
        (0, 0) if said.value.covered == 0 => "answered, no pixel covered",
        (0, 0) => "answered, pixels covered",
        (0, number) => return report.differs(format!("{number} under 1.02 alone")),
        (_, 0) => "refused under 1.2, answered under 1.02",
        _ => "refused",
    });
    if area(newer).is_some_and(|area| area > u32::MAX.into()) {
        report.quoted.add("an area of over 32 bits");
    }
    if let Given::Scrambled(_) = given {
        report.quoted.add(match said.number {
            34 => "scrambled settings have a comma",
            35 => "scrambled settings are faulty",
            _ => "scrambled settings are sound",
        });
        return;
    }
    // All that is wrong, in the request's order.
    let file = read.refusals()[0];
    let settings = given.refusal().map(|refusal| match refusal.number {
        34 => "34",
        _ => "35",
    });
    let of_question = |numbers: &[u32]| number.filter(|number| numbers.contains(number));
    let early = of_question(&[20, 21, 22]).map(|number| match number {
        20 => "20",
        21 => "21",
        _ => "22",
    });
    let all = [
        settings,
        file.map(|_| "the file's refusal"),
        early,
        (sheet < SHEET).then_some("22 of the sheet"),
        of_question(&[23]).map(|_| "23"),
    ];
    let mut all = all.into_iter().flatten();
    let Some(first) = all.next() else {
        return;
    };
    if let Given::Faulty(faulty) = given {
        if (said.number, said.place) == (faulty.refusal.number, faulty.refusal.place) {
            report.clauses.add(faulty.name);
        }
    }
    if first == "22 of the sheet" && said.number == 22 {
        report.clauses.add(SHEET_CLAUSE);
    }
    for later in all {
        report.orders.add(&format!("{first} before {later}"));
    }
}
