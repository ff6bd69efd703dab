//! Questions: refused as foretold, or answered as a painter would.

use crate::painter::{paint, Painting};
use crate::report::Report;
use generate::ask::{
    ask_clauses, ask_freedoms_of, draw, first_of_another_type, meets, selects, Ask, AskClause, Cut,
    Request, REQUEST_CLAUSES,
};
use generate::{Random, Sound};
use reference::{judge, Chosen, File, Masks, Refusal, Release};

/// A file as it is read under a release.
struct Read<'a> {
    release: Release,
    file: File<'a>,
}

/// Questions of every kind to one file, each under both releases.
pub fn check(sound: &Sound, random: &mut Random, questions: u64, report: &mut Report) {
    let read = |release| {
        let file = judge(&sound.bytes, release);
        file.map(|file| Read { release, file })
    };
    let [Ok(newer), Ok(older)] = Release::ALL.map(read) else {
        return;
    };
    let both = [newer, older];
    for _ in 0..questions {
        let ask = draw(sound, random);
        for freedom in ask_freedoms_of(sound, &ask) {
            report.ask_freedoms.add(freedom);
        }
        for read in &both {
            check_ask(read, sound, &ask, random, report);
            check_chosen(&read.file, sound, &ask, report);
        }
    }
    for clause in ask_clauses() {
        let ask = draw(sound, random);
        if let Some(spoiled) = clause.spoil(sound, random, ask) {
            for read in &both {
                check_spoiled(&read.file, sound, &spoiled, clause, report);
                check_chosen(&read.file, sound, &spoiled, report);
            }
        }
    }
    check_two_clauses(&both, sound, random, report);
    for clause in REQUEST_CLAUSES {
        if let Some(request) = clause.draw(sound, random) {
            let is_24 = |read: &Read| refused(&read.file, request) == Some(Refusal::new(24, 0));
            if both.iter().all(is_24) {
                report.clauses.add(clause.name);
            } else {
                report.differs(format!("{}: {request:?}", clause.name));
            }
        }
    }
}

/// The reference chooses the tiles that the plan does, for a window without pixels too.
fn check_chosen(file: &File, sound: &Sound, ask: &Ask, report: &mut Report) {
    let question = &ask.question;
    let of = |tile| match (selects(question, tile), meets(question, tile)) {
        (false, _) => Chosen::Not,
        (true, false) => Chosen::Selected,
        (true, true) => Chosen::Meets,
    };
    let tiles = sound.entries.iter().map(|entry| sound.tile(entry));
    let wanted: Vec<Chosen> = tiles.map(of).collect();
    report.compare("chosen", file.chosen(question), wanted);
}

/// The reference's painting, or its refusal with the buffers left as they were.
fn compose(file: &File, ask: &Ask, report: &mut Report) -> Result<Painting, Refusal> {
    let mut painting = Painting::lent(ask);
    let answer = file.compose(&ask.question, &mut painting.target, &mut painting.map);
    match answer {
        Ok(counts) => {
            report.compare("quick store count", counts.stored_quick, counts.covered);
            painting.covered = counts.covered;
            painting.stored = counts.stored_plain;
            Ok(painting)
        }
        Err(refusal) => {
            let is_as_lent = painting == Painting::lent(ask);
            report.compare("buffers as lent", is_as_lent, true);
            Err(refusal)
        }
    }
}

/// A question that passes 20 to 22.
fn check_ask(read: &Read, sound: &Sound, ask: &Ask, random: &mut Random, report: &mut Report) {
    let file = &read.file;
    let answer = compose(file, ask, report);
    if let Some(entry) = first_of_another_type(sound, ask) {
        let wanted = Refusal::new(23, entry.place as u64);
        report.outcomes.add("refused");
        report.compare("another type", answer.err(), Some(wanted));
        return;
    }
    let painting = match answer {
        Ok(painting) => painting,
        Err(refusal) => return report.differs(format!("{:?}: {refusal}", ask.question)),
    };
    if painting != paint(sound, ask, read.release) {
        let (release, question) = (read.release, &ask.question);
        report.differs(format!("painted otherwise under {release:?}: {question:?}"));
    }
    note_outcome(read, ask, &painting, report);
    check_layers(read, sound, ask, &painting, report);
    if let Some(cut) = Cut::draw(ask, random) {
        check_cut(file, ask, &painting, &cut, report);
    }
}

/// A file whose layered tiles hold the asked layer alone composes the same.
fn check_layers(read: &Read, sound: &Sound, ask: &Ask, whole: &Painting, report: &mut Report) {
    if sound.tiles.iter().all(|tile| tile.layered().is_none()) {
        return;
    }
    let bytes = sound.cut(&ask.question).bytes;
    let painting = match judge(&bytes, read.release) {
        Ok(file) => compose(&file, ask, report),
        Err(refusal) => return report.differs(format!("a file cut to one layer is {refusal}")),
    };
    if painting.as_ref() != Ok(whole) {
        let question = &ask.question;
        report.differs(format!(
            "cut to one layer it is another plane: {question:?}"
        ));
    }
    report.outcomes.add("the same of a file cut to one layer");
}

fn note_outcome(read: &Read, ask: &Ask, painting: &Painting, report: &mut Report) {
    report.outcomes.add("answered");
    let pixels = ask.question.pixels();
    report.outcomes.add(match painting.covered {
        0 => "no pixel covered",
        some if some < pixels => "some pixels covered",
        _ => "all pixels covered",
    });
    if painting.stored > painting.covered {
        let name = "the plain composer stores more than the quick one";
        report.outcomes.add(name);
    }
    if ask.question.masks == Masks::On {
        let mut without = ask.clone();
        without.question.masks = Masks::Off;
        let is_same = compose(&read.file, &without, report).as_ref() == Ok(painting);
        match read.release {
            Release::V1_2 if is_same => {}
            Release::V1_2 => report.outcomes.add("masks change the plane"),
            Release::V1_02 => report.compare("masks on under 1.02", is_same, true),
        }
    }
}

/// Both halves show at each pixel what the whole window shows.
fn check_cut(file: &File, ask: &Ask, whole: &Painting, cut: &Cut, report: &mut Report) {
    report.outcomes.add("cut in two halves");
    let mut sums = (0, 0);
    for half in [&cut.first, &cut.second] {
        let part = match compose(file, half, report) {
            Ok(part) => part,
            Err(refusal) => return report.differs(format!("a half is {refusal}")),
        };
        sums = (sums.0 + part.covered, sums.1 + part.stored);
        let pixel = ask.question.background.len();
        let across = i64::from(half.question.left) - i64::from(ask.question.left);
        let down = i64::from(half.question.top) - i64::from(ask.question.top);
        for k in 0..half.question.pixels() as usize {
            let width = half.question.width as usize;
            let (x, y) = (k % width + across as usize, k / width + down as usize);
            let j = y * ask.question.width as usize + x;
            let same = part.target[k * pixel..][..pixel] == whole.target[j * pixel..][..pixel]
                && bit(&part.map, k) == bit(&whole.map, j);
            if !same {
                return report.differs(format!("a half differs: {:?}", half.question));
            }
        }
    }
    let wanted = (whole.covered, whole.stored);
    report.compare("counts of both halves", sums, wanted);
}

fn bit(map: &[u8], index: usize) -> bool {
    map[index / 8] >> (7 - index % 8) & 1 == 1
}

/// A spoiled question is refused by its clause, 23 at the first such entry.
fn check_spoiled(file: &File, sound: &Sound, ask: &Ask, clause: &AskClause, report: &mut Report) {
    let place = match clause.number {
        23 => first_of_another_type(sound, ask).map_or(0, |e| e.place),
        _ => 0,
    };
    let wanted = Refusal::new(clause.number, place as u64);
    let got = compose(file, ask, report).err();
    report.compare(clause.name, got, Some(wanted));
    if got == Some(wanted) {
        report.clauses.add(clause.name);
    }
}

/// Two clauses at once: the lesser number is given.
fn check_two_clauses(both: &[Read; 2], sound: &Sound, random: &mut Random, report: &mut Report) {
    let clauses = ask_clauses();
    let mut two = [random.below(clauses.len()), random.below(clauses.len())];
    two.sort();
    let [first, second] = two.map(|k| &clauses[k]);
    if first.number == second.number {
        return;
    }
    let drawn = draw(sound, random);
    let spoiled = second.spoil(sound, random, drawn);
    if let Some(ask) = spoiled.and_then(|ask| first.spoil(sound, random, ask)) {
        for read in both {
            let got = compose(&read.file, &ask, report).err().map(|r| r.number);
            report.compare(first.name, got, Some(first.number));
        }
    }
}

/// The refusal of a request.
fn refused(file: &File, request: Request) -> Option<Refusal> {
    match request {
        Request::Tile(entry) => file.tile(entry).err(),
        Request::Dimension(entry, k) => file.dimension(entry, k).err(),
        Request::TilePixels(entry) => file.tile_pixels(entry).err(),
        Request::TileMetadata(entry) => file.tile_metadata(entry).err(),
        Request::TileAttachment(entry) => file.tile_attachment(entry).err(),
        Request::Attachment(entry) => file.attachment(entry).err(),
        Request::AttachmentData(entry) => file.attachment_data(entry).err(),
    }
}
