//! All records of a file at once: every row of both arrays, what is past them and
//! around them, and arrays of every length, under both releases.

use crate::lent::Lent;
use crate::read::{hide_masks, Read};
use crate::reader::{answer, dimension_record, record};
use crate::report::Report;
use czi::calls::{self, Answer, DIMENSION_NUMBERS, TILE_NUMBERS, TILE_STARTS};
use reference::{File, Refusal, Release};

type Call = fn(&[u8], u32, &mut [u64], &mut [i32]) -> Answer<u64>;

/// A call for all records of a kind.
struct Table {
    name: &'static str,
    call: Call,
    /// How many numbers a row has, and signed ones.
    row: (usize, usize),
    /// The rows have a mask's numbers, which 1.02 has as 0.
    has_masks: bool,
}

const TILES: Table = Table {
    name: "tiles",
    call: calls::tiles,
    row: (TILE_NUMBERS, TILE_STARTS),
    has_masks: true,
};

const DIMENSIONS: Table = Table {
    name: "dimensions",
    call: calls::dimensions,
    row: (DIMENSION_NUMBERS, 1),
    has_masks: false,
};

/// What the arrays of an accepted file begin with.
struct Rows {
    count: u64,
    numbers: Vec<u64>,
    starts: Vec<i32>,
}

/// The rows under each release.
type Both = [Result<Rows, Refusal>; 2];

/// Both tables. A row is compared with the reference's record, and so with what
/// the call for one record gives, which is compared with the same.
pub fn check(read: &Read, report: &mut Report) {
    let tiles = Release::ALL.map(|release| read.under(release).map(tile_rows));
    check_table(&TILES, read, &tiles, report);
    let dimensions = Release::ALL.map(|release| read.under(release).map(dimension_rows));
    check_table(&DIMENSIONS, read, &dimensions, report);
}

fn tile_rows(file: &File) -> Rows {
    let records: Vec<_> = file.tiles.iter().map(record).collect();
    Rows {
        count: records.len() as u64,
        numbers: records.iter().flat_map(|tile| tile.numbers).collect(),
        starts: records.iter().flat_map(|tile| tile.starts).collect(),
    }
}

fn dimension_rows(file: &File) -> Rows {
    let of_tile = |tile: &reference::Tile| {
        let all = tile.dimensions.iter().map(dimension_record);
        all.map(|d| (tile.number, d)).collect::<Vec<_>>()
    };
    let records: Vec<_> = file.tiles.iter().flat_map(of_tile).collect();
    let numbers = records.iter().flat_map(|(entry, d)| {
        let bits = u64::from(d.coordinate_bits);
        [*entry, d.letter, d.size, bits, d.stored]
    });
    Rows {
        count: records.len() as u64,
        numbers: numbers.collect(),
        starts: records.iter().map(|(_, d)| d.start).collect(),
    }
}

/// One table with arrays of every kind of length. There are rows under 1.02 where
/// there are any, and under 1.2 as many or none.
fn check_table(table: &Table, read: &Read, rows: &Both, report: &mut Report) {
    let more = report.salt() as usize;
    let mut ask = |numbers, starts, kind| {
        check_lent(table, read, rows, (numbers, starts), kind, report);
    };
    let Ok(Rows {
        numbers, starts, ..
    }) = &rows[1]
    else {
        return ask(more % 70, more % 13, OF_REFUSED);
    };
    let (numbers, starts) = (numbers.len(), starts.len());
    ask(numbers, starts, "arrays exactly long enough");
    let longer = (
        numbers + 1 + more % (2 * table.row.0),
        starts + 1 + more % (2 * table.row.1),
    );
    ask(longer.0, longer.1, "arrays longer than needed");
    ask(0, 0, "no arrays");
    if numbers != 0 {
        ask(numbers - 1, longer.1, "numbers one too short");
        ask(longer.0, starts - 1, "starts one too short");
    }
}

/// How arrays are lent with a refused file.
const OF_REFUSED: &str = "arrays for a refused file";

/// What a call said and left.
#[derive(Clone, Debug, PartialEq)]
struct Got {
    said: Answer<u64>,
    numbers: Lent<u64>,
    starts: Lent<i32>,
}

/// A call under each release with arrays of these lengths.
fn check_lent(
    table: &Table,
    read: &Read,
    rows: &Both,
    (numbers_length, starts_length): (usize, usize),
    kind: &'static str,
    report: &mut Report,
) {
    let salt = report.salt();
    let lent = Got {
        said: answer(Ok(0), 0),
        numbers: Lent::new(numbers_length, salt),
        starts: Lent::new(starts_length, salt >> 8),
    };
    let mut got = report.of_each(|release| {
        let mut got = lent.clone();
        let (numbers, starts) = (got.numbers.lend(), got.starts.lend());
        got.said = (table.call)(read.bytes, release, numbers, starts);
        got
    });
    let each = Release::ALL.into_iter().zip(rows.iter().zip(&got));
    for (release, (rows, got)) in each {
        report.under(release).tables += 1;
        report
            .lent
            .add(if rows.is_ok() { kind } else { OF_REFUSED });
        compare(table, release, rows, &lent, got, report);
    }
    // Under 1.02 they are the same records, and there are no masks.
    if table.has_masks && got[0].said.number == 0 {
        let held = TILE_NUMBERS * rows[0].as_ref().map_or(0, |rows| rows.count as usize);
        let numbers = got[0].numbers.lend();
        let held = held.min(numbers.len());
        hide_masks(&mut numbers[..held]);
    }
    let [newer, older] = &got;
    let what = || table.name.to_string();
    read.hold_alike(what, &[newer.said, older.said], report);
    let numbers = newer.numbers.difference(&older.numbers);
    let starts = newer.starts.difference(&older.starts);
    read.hold_alike(what, &[(numbers, starts), (None, None)], report);
}

/// What one call said and left against the reference.
fn compare(
    table: &Table,
    release: Release,
    rows: &Result<Rows, Refusal>,
    lent: &Got,
    got: &Got,
    report: &mut Report,
) {
    let mut wanted = lent.clone();
    wanted.said = match rows {
        Err(refusal) => answer(Err(*refusal), 0),
        Ok(rows) => {
            let (numbers, starts) = (wanted.numbers.lend(), wanted.starts.lend());
            let is_short = numbers.len() < rows.numbers.len() || starts.len() < rows.starts.len();
            if is_short {
                answer(Err(Refusal::new(22, 0)), 0)
            } else {
                numbers[..rows.numbers.len()].copy_from_slice(&rows.numbers);
                starts[..rows.starts.len()].copy_from_slice(&rows.starts);
                answer(Ok(rows.count), 0)
            }
        }
    };
    report.compare_under(release, || table.name.into(), &got.said, &wanted.said);
    let numbers = got.numbers.difference(&wanted.numbers);
    let starts = got.starts.difference(&wanted.starts);
    for (array, at) in [("numbers", numbers), ("starts", starts)] {
        if let Some(at) = at {
            let (table, release) = (table.name, crate::report::name(release));
            report.differs(format!("{table} under {release}: {array} differ at {at}"));
        }
    }
}
