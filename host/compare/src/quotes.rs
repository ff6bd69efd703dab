//! Quotes: number, place, count, length, and every lent byte, under both releases; and
//! what a quote has in common with the composers, of the library's own answers.

use crate::lent::{Enclosed, Sheeted};
use crate::planes::{plain, COMPOSERS};
use crate::quoted::{note, sheet_name};
use crate::read::Read;
use crate::reader::answer;
use crate::report::{name, Report};
use czi::calls::{self, Answer, Plain, Quoted};
use generate::ask::{ask_clauses, draw, first_of_another_type, Ask, Cut};
use generate::{scramble_settings, FaultySettings, Random, Settings, Sound};
use reference::{quote, File, Question, Refusal, Release};

/// A shorter sheet is refused.
pub const SHEET: usize = 49;

/// A sound file gets so many quotes that pass 34 and 35, and so many by faulty settings.
const SOUND: usize = 3;
const FAULTY: usize = 6;

/// And so many by scrambled ones, of which nothing is foretold.
const SCRAMBLED: usize = 2;

/// And so many of spoiled questions.
const SPOILED: usize = 4;

/// Settings, and what is known of them.
pub enum Given {
    /// Sound ones.
    Sound(Settings),
    /// Refused ones.
    Faulty(FaultySettings),
    /// Any.
    Scrambled(Vec<u8>),
}

impl Given {
    /// Sound or faulty ones.
    fn draw(random: &mut Random) -> Given {
        match random.percent(55) {
            true => Given::Sound(Settings::draw(random)),
            false => Given::Faulty(FaultySettings::draw(random)),
        }
    }

    fn bytes(&self) -> Vec<u8> {
        match self {
            Given::Sound(settings) => settings.bytes(),
            Given::Faulty(faulty) => faulty.bytes.clone(),
            Given::Scrambled(bytes) => bytes.clone(),
        }
    }

    /// 34 or 35 as foretold.
    pub fn refusal(&self) -> Option<Refusal> {
        match self {
            Given::Faulty(faulty) => Some(faulty.refusal),
            _ => None,
        }
    }
}

/// What is lent before a call, and all that a call is given.
struct Case<'a> {
    ask: &'a Ask,
    plain: Plain<'a>,
    settings: Enclosed,
    lent: Sheeted,
}

impl<'a> Case<'a> {
    fn new(ask: &'a Ask, settings: &[u8], sheet: usize, random: &mut Random) -> Case<'a> {
        Case {
            ask,
            plain: plain(ask, random),
            settings: Enclosed::new(settings, random.word()),
            lent: Sheeted::new(ask.target, ask.map, sheet, random.word()),
        }
    }

    /// For a line about a difference.
    fn shown(&self) -> String {
        let (settings, sheet) = (self.settings.part(), self.lent.sheet.lent().len());
        let settings = settings.escape_ascii();
        format!("\"{settings}\", a sheet of {sheet}, {:?}", self.plain)
    }
}

/// What a quote said and left.
#[derive(Debug, PartialEq)]
pub struct Got {
    /// Number, place, count and length.
    pub said: Answer<Quoted>,
    left: Sheeted,
}

/// Quotes of every kind of a sound file.
pub fn check(read: &Read, sound: &Sound, random: &mut Random, report: &mut Report) {
    for _ in 0..SOUND {
        let (ask, settings) = (draw(sound, random), Settings::draw(random));
        let sheet = enough(random);
        check_sound(read, sound, (&ask, sheet), settings, random, report);
    }
    for _ in 0..FAULTY {
        let (ask, faulty) = (draw(sound, random), FaultySettings::draw(random));
        let asked = (&ask, None, enough(random));
        let given = Given::Faulty(faulty);
        check_given(read, Some(sound), asked, &given, random, report);
    }
    for _ in 0..SCRAMBLED {
        let given = Given::Scrambled(scramble_settings(random));
        let ask = draw(sound, random);
        let asked = (&ask, None, any_length(random));
        check_given(read, Some(sound), asked, &given, random, report);
    }
    for _ in 0..SPOILED {
        let clause = &ask_clauses()[random.below(ask_clauses().len())];
        let drawn = draw(sound, random);
        if let Some(ask) = clause.spoil(sound, random, drawn) {
            let given = Given::draw(random);
            let asked = (&ask, Some(clause.number), any_length(random));
            check_given(read, Some(sound), asked, &given, random, report);
        }
    }
}

/// A quote of a damaged file, or of one at a limit.
pub fn check_damaged(read: &Read, sound: &Sound, random: &mut Random, report: &mut Report) {
    let given = Given::draw(random);
    let (mut ask, mut number) = (draw(sound, random), None);
    if random.percent(40) {
        let clause = &ask_clauses()[random.below(ask_clauses().len())];
        if let Some(spoiled) = clause.spoil(sound, random, ask.clone()) {
            (ask, number) = (spoiled, Some(clause.number));
        }
    }
    let asked = (&ask, number, any_length(random));
    check_given(read, None, asked, &given, random, report);
}

/// A sheet that is long enough.
fn enough(random: &mut Random) -> usize {
    random.pick(&[49, 49, 49, 50, 51, 64, 100])
}

/// A sheet of some length.
fn any_length(random: &mut Random) -> usize {
    let short = random.below(SHEET);
    random.pick(&[0, 1, short, 48, 48, 49, 49, 50, 80])
}

/// Sound settings and a question that passes 20 to 22, then its window in two halves.
fn check_sound(
    read: &Read,
    sound: &Sound,
    (ask, sheet): (&Ask, usize),
    settings: Settings,
    random: &mut Random,
    report: &mut Report,
) {
    for freedom in settings.freedoms() {
        report.settings_freedoms.add(freedom);
    }
    let given = Given::Sound(settings.clone());
    let asked = (ask, None, sheet);
    let whole = check_given(read, Some(sound), asked, &given, random, report);
    if whole[0].said.number != 0 || !random.percent(40) {
        return;
    }
    let Some(cut) = Cut::draw(ask, random) else {
        return;
    };
    report.quoted.add("cut in two halves");
    let halves = [&cut.first, &cut.second].map(|half| {
        let given = Given::Sound(settings.alike(random));
        let asked = (half, None, enough(random));
        check_given(read, Some(sound), asked, &given, random, report)
    });
    for (k, whole) in whole.iter().enumerate() {
        let areas = [whole, &halves[0][k], &halves[1][k]].map(area);
        let [whole, first, second] = areas;
        let sum = first.zip(second).and_then(|(a, b)| a.checked_add(b));
        report.compare("the area of both halves", &sum, &whole);
    }
}

/// The area that the library wrote, nothing where the sheet is another.
pub fn area(got: &Got) -> Option<u64> {
    let written = got.said.value.written as usize;
    let text = got.left.sheet.lent().get(..written)?;
    let line = std::str::from_utf8(text).ok()?.lines().nth(1)?;
    line.strip_prefix("area_nm2=")?.parse().ok()
}

/// One quote under each release against the reference, the composers and what is
/// foretold. A question has the number that it was spoiled for. `sound` is the file's
/// plan where it is not damaged.
fn check_given(
    read: &Read,
    sound: Option<&Sound>,
    (ask, number, sheet): (&Ask, Option<u32>, usize),
    given: &Given,
    random: &mut Random,
    report: &mut Report,
) -> [Got; 2] {
    report.sheets.add(sheet_name(sheet));
    let mut case = Case::new(ask, &given.bytes(), sheet, random);
    let got = Release::ALL.map(|release| {
        let (got, wanted) = quote_under(release, read, &case, report);
        let refused = wanted.err();
        if let Some(foretold) = foretell(release, read, sound, (ask, number, sheet), given) {
            report.compare_under(
                release,
                || format!("foretold quote: {}", case.shown()),
                &refused,
                &foretold,
            );
        }
        if let Given::Sound(settings) = given {
            hold_composed(release, read, &mut case, settings, &got, report);
            if got.said.number == 0 {
                hold_alike(release, read, &case, settings, &got, random, report);
            }
        }
        report.check_unchanged(read.bytes);
        got
    });
    // Without masks the releases are as alike as composers are, and settings are refused
    // alike whatever the file is.
    let [newer, older] = &got;
    match given {
        Given::Sound(settings) if settings.masks_on() => {}
        Given::Sound(_) => {
            let what = || format!("quote: {}", case.shown());
            read.hold_alike(what, &[newer, older], report);
        }
        _ => {
            let of_settings = |got: &Got| got.said.number >= 34;
            if (of_settings(newer) || of_settings(older)) && newer != older {
                report.differs(format!("refused by one release: {}", case.shown()));
            }
        }
    }
    note(read, (number, sheet), given, &got, report);
    got
}

/// A quote under one release, against the reference.
fn quote_under(
    release: Release,
    read: &Read,
    case: &Case,
    report: &mut Report,
) -> (Got, Result<reference::Quoted, Refusal>) {
    let mut wanted = case.lent.clone();
    let file = read.under(release);
    let quoted = by_reference(file, &case.ask.question, case.settings.part(), &mut wanted);
    if quoted.is_err() && wanted != case.lent {
        report.differs("the reference changed a buffer and refused");
    }
    let lent = (&case.settings, &case.lent);
    let got = call(release, read, &case.plain, lent, report);
    let what = || format!("quote: {}", case.shown());
    report.compare_under(release, what, &got.said, &answered(quoted));
    if let Some(difference) = got.left.difference(&wanted) {
        let (release, shown) = (name(release), case.shown());
        report.differs(format!("quote under {release}: {difference}: {shown}"));
    }
    // Whatever the reference says: a refusal leaves all as it was, and counts 0.
    let Answer { number, value, .. } = got.said;
    if number != 0 && (got.left != case.lent || (value.covered, value.written) != (0, 0)) {
        let shown = case.shown();
        report.differs(format!(
            "a refused quote changed what is lent, or counts: {shown}"
        ));
    }
    (got, quoted)
}

/// A call of the library.
fn call(
    release: Release,
    read: &Read,
    plain: &Plain,
    (settings, lent): (&Enclosed, &Sheeted),
    report: &mut Report,
) -> Got {
    report.under(release).quotes += 1;
    let mut left = lent.clone();
    let (target, map) = (left.buffers.target.lend(), left.buffers.map.lend());
    let sheet = left.sheet.lend();
    let said = report.call(release, |number| {
        calls::quote(
            read.bytes,
            number,
            plain,
            settings.part(),
            target,
            map,
            sheet,
        )
    });
    if !settings.is_as_lent() {
        report.differs("the lent settings, or bytes around them, were changed");
    }
    Got { said, left }
}

/// The reference's quote.
pub fn by_reference(
    file: Result<&File, Refusal>,
    question: &Question,
    settings: &[u8],
    lent: &mut Sheeted,
) -> Result<reference::Quoted, Refusal> {
    let (target, map) = (lent.buffers.target.lend(), lent.buffers.map.lend());
    quote(file, question, settings, target, map, lent.sheet.lend())
}

/// What the reference says, as the header has it.
pub fn answered(quoted: Result<reference::Quoted, Refusal>) -> Answer<Quoted> {
    let said = quoted.map(|quoted| Quoted {
        covered: quoted.covered,
        written: quoted.written,
    });
    let nothing = Quoted {
        covered: 0,
        written: 0,
    };
    answer(said, nothing)
}

/// The refusal by the request's order: 34 or 35, the file's, then 20, 21, 22 or that of
/// the sheet, 23. Nothing where it is not foretold.
fn foretell(
    release: Release,
    read: &Read,
    sound: Option<&Sound>,
    (ask, number, sheet): (&Ask, Option<u32>, usize),
    given: &Given,
) -> Option<Option<Refusal>> {
    if matches!(given, Given::Scrambled(_)) {
        return None;
    }
    if let Some(refusal) = given.refusal().or(read.under(release).err()) {
        return Some(Some(refusal));
    }
    let at_0 = |number| Some(Some(Refusal::new(number, 0)));
    match number {
        Some(number @ 20..=22) => at_0(number),
        _ if sheet < SHEET => at_0(22),
        _ => sound.map(|sound| {
            let other = first_of_another_type(sound, ask);
            other.map(|entry| Refusal::new(23, entry.place as u64))
        }),
    }
}

/// Both composers with the settings' masks say the same, leave the same and count as
/// many, and the sheet has that count and the area; a short sheet is 22 before 23.
fn hold_composed(
    release: Release,
    read: &Read,
    case: &mut Case,
    settings: &Settings,
    got: &Got,
    report: &mut Report,
) {
    case.plain.masks = if settings.masks_on() { 1 } else { 2 };
    let is_short = case.lent.sheet.lent().len() < SHEET;
    for (composer, call) in COMPOSERS {
        let mut buffers = case.lent.buffers.clone();
        let (target, map) = (buffers.target.lend(), buffers.map.lend());
        let composed = report.call(release, |number| {
            call(read.bytes, number, &case.plain, target, map)
        });
        let wanted = match composed.number {
            0 | 22 | 23 if is_short => (22, 0, 0),
            number => (number, composed.place, composed.value.covered),
        };
        let said = (got.said.number, got.said.place, got.said.value.covered);
        let is_same = said == wanted && (said.0 != 0 || got.left.buffers == buffers);
        if !is_same {
            let (release, shown) = (name(release), case.shown());
            report.differs(format!(
                "a quote under {release} is not the {composer} composer's: {shown}"
            ));
        }
    }
    if got.said.number == 0 {
        let mut sheet = case.lent.sheet.clone();
        let text = settings.sheet(got.said.value.covered);
        let is_same = got.said.value.written == text.len() as u64;
        sheet.lend()[..text.len()].copy_from_slice(text.as_bytes());
        if !is_same || sheet != got.left.sheet {
            let shown = case.shown();
            report.differs(format!(
                "the sheet is not {text:?} and nothing else: {shown}"
            ));
        }
    }
}

/// Settings of the same meaning, the masks line said or lacking, give the same; with
/// the other choice of masks the count may be another.
fn hold_alike(
    release: Release,
    read: &Read,
    case: &Case,
    settings: &Settings,
    got: &Got,
    random: &mut Random,
    report: &mut Report,
) {
    let bytes = settings.alike(random).bytes();
    let alike = Enclosed::new(&bytes, random.word());
    let again = call(release, read, &case.plain, (&alike, &case.lent), report);
    if again != *got {
        let (shown, bytes) = (case.shown(), bytes.escape_ascii());
        report.differs(format!("another quote by \"{bytes}\": {shown}"));
    }
    report
        .quoted
        .add(match (settings.edition, settings.masks_line) {
            (1, None) => "edition 1 without a masks line is as with masks=off",
            (_, None) => "edition 2 without a masks line is as with masks=on",
            (_, Some(true)) => "masks=on is as edition 2 without the line",
            (_, Some(false)) => "masks=off is as edition 1 without the line",
        });
    let mut other = case.lent.buffers.clone();
    let plain = Plain {
        masks: if settings.masks_on() { 2 } else { 1 },
        ..case.plain
    };
    let composed = report.call(release, |number| {
        let (target, map) = (other.target.lend(), other.map.lend());
        calls::compose_quick(read.bytes, number, &plain, target, map)
    });
    if composed.value.covered != got.said.value.covered {
        report.quoted.add(match settings.masks_on() {
            true => "masks on, and more pixels without",
            false => "masks off, and fewer pixels with them",
        });
    }
}
