//! The command `count`: covered pixels of a window, cut into parts that run side
//! by side. It is proved that the counts of the parts of any cut add up to that of
//! the whole, and that a part which no selected tile meets has none: such parts are
//! passed over.

use crate::answer::Answer;
use crate::arguments::{number, Arguments, Takes};
use crate::failure::Failure;
use crate::input::Input;
use crate::plane::Plane;
use crate::progress::Progress;
use crate::question::Question;
use crate::window::{Cut, Window};
use crate::{memory, release, types};
use czi::{calls, PixelType, Scan};
use std::ffi::OsString;
use std::sync::atomic::{AtomicBool, AtomicU64, AtomicUsize, Ordering::SeqCst};
use std::sync::{Barrier, Mutex};
use std::thread;

const TAKES: Takes = Takes {
    flags: &[],
    values: &[
        "--window",
        "--type",
        "--scene",
        "--masks",
        release::OPTION,
        "--jobs",
    ],
    many: &["--start"],
};

/// The most jobs that may be asked for.
const JOBS: usize = 1024;

/// The stack of a job, and what libc wants for a thread besides: where it finds none
/// it aborts, with a line of its own.
const STACK: usize = 2 << 20;
const SPARE: usize = 1 << 18;

/// So many parts are asked about at once before the jobs begin, which ask about each.
const FEW: u64 = 8;

/// Counts and answers the lines.
pub fn run(words: Vec<OsString>) -> Result<Answer, Failure> {
    let arguments = Arguments::parse(words, &TAKES)?;
    let question = Question::parse(&arguments)?;
    let release = release::parse(&arguments)?;
    let jobs = jobs(&arguments)?;
    let input = Input::open(&arguments.only_path("FILE")?)?;
    let lines = input.reading(|file| {
        let scan = Scan::new(file).release(release);
        count(&Plane::new(scan, &question, true)?, jobs)
    })?;
    Ok(Answer::lines(lines))
}

fn jobs(arguments: &Arguments) -> Result<usize, Failure> {
    let all = || thread::available_parallelism().map_or(1, |cores| cores.get());
    match arguments.text("--jobs")? {
        None => Ok(all().min(JOBS)),
        Some(word) => match number(word, "--jobs")? {
            jobs @ 1..=JOBS => Ok(jobs),
            _ => Err(Failure::Usage(format!("--jobs is 1 to {JOBS}, not {word}"))),
        },
    }
}

fn count(plane: &Plane, jobs: usize) -> Result<String, Failure> {
    let found = plane.pixel_type()?;
    let chosen = plane.chosen(found);
    let Some(window) = plane.window else {
        // No tile that is no pyramid tile: nothing is selected.
        return Ok(format!("covered=0\npixels=0\nwindows=0\n{chosen}"));
    };
    // Without a tile the type makes no difference.
    let pixel_type = found.unwrap_or(PixelType::Gray8.number());
    let memory = memory::MOST / jobs as u64;
    let cut = Cut::new(window, memory::pixels(memory, types::bytes(pixel_type)));
    let covered = sum(plane, &cut, pixel_type, jobs)
        .map_err(|failure| plane.explained(window, pixel_type, failure))?;
    let (pixels, parts) = (window.pixels(), cut.parts());
    Ok(format!(
        "covered={covered}\npixels={pixels}\nwindows={parts}\n{chosen}"
    ))
}

/// What the jobs of a count share.
struct Shared<'a> {
    plane: &'a Plane<'a>,
    cut: &'a Cut,
    pixel_type: u32,
    /// The numbers of the parts that may be met.
    parts: Vec<u64>,
    /// Which of them nobody has taken yet.
    next: AtomicUsize,
    covered: AtomicU64,
    stop: AtomicBool,
    /// The failure of the first of those parts that fails.
    failed: Mutex<Option<(usize, Failure)>>,
    progress: Progress,
}

/// The sum of the parts' counts.
fn sum(plane: &Plane, cut: &Cut, pixel_type: u32, jobs: usize) -> Result<u64, Failure> {
    let parts = cut.may_be_met(FEW, |part| plane.is_met(part))?;
    let jobs = parts.len().min(jobs);
    let shared = Shared {
        plane,
        cut,
        pixel_type,
        next: AtomicUsize::new(0),
        covered: AtomicU64::new(0),
        stop: AtomicBool::new(false),
        failed: Mutex::new(None),
        progress: Progress::new(parts.len() as u64),
        parts,
    };
    if jobs == 1 {
        shared.work(shared.buffers()?);
    } else {
        let (shared, begun) = (&shared, &Barrier::new(2));
        thread::scope(|scope| {
            for _ in 0..jobs {
                // A job takes hardly any memory itself, and the next one's is taken when
                // it runs: so what its start needs is there.
                let started = shared.buffers().and_then(|buffers| {
                    memory::is_there(STACK + SPARE)?;
                    let job = move || {
                        begun.wait();
                        shared.work(buffers);
                    };
                    let thread = thread::Builder::new().stack_size(STACK);
                    let cannot = |error| format!("a job can't be started: {error}");
                    let started = thread.spawn_scoped(scope, job);
                    started.map_err(|error| Failure::Other(cannot(error)))
                });
                match started {
                    Ok(_) => begun.wait(),
                    Err(failure) => return shared.fail(0, failure),
                };
            }
        });
    }
    shared.progress.clear();
    match shared.failed.into_inner() {
        Ok(None) => Ok(shared.covered.into_inner()),
        Ok(Some((_, failure))) => Err(failure),
        Err(_) => Err(Failure::Other("a job ended too early".to_string())),
    }
}

impl Shared<'_> {
    /// How many bytes target and map of one part have at most.
    fn lengths(&self) -> [u64; 2] {
        let size = u64::from(self.cut.width) * u64::from(self.cut.height);
        let bytes = types::bytes(self.pixel_type) as u64;
        [size * bytes, size.div_ceil(8)]
    }

    /// Room for both.
    fn buffers(&self) -> Result<[Vec<u8>; 2], Failure> {
        let [target, map] = self.lengths();
        Ok([memory::room(target)?, memory::room(map)?])
    }

    /// One job: takes parts until there are none.
    fn work(&self, mut buffers: [Vec<u8>; 2]) {
        for (buffer, length) in buffers.iter_mut().zip(self.lengths()) {
            buffer.resize(length as usize, 0);
        }
        let [mut target, mut map] = buffers;
        let background = self.plane.background(self.pixel_type);
        while !self.stop.load(SeqCst) {
            let taken = self.next.fetch_add(1, SeqCst);
            let Some(number) = self.parts.get(taken) else {
                return;
            };
            let part = self.cut.part(*number);
            match self.covered_in(part, &background, &mut target, &mut map) {
                Ok(covered) => self.covered.fetch_add(covered, SeqCst),
                Err(failure) => return self.fail(taken, failure),
            };
            self.progress.step();
        }
    }

    /// How many pixels of a part are covered.
    fn covered_in(
        &self,
        part: Window,
        background: &[u8],
        target: &mut [u8],
        map: &mut [u8],
    ) -> Result<u64, Failure> {
        if !self.plane.is_met(part)? {
            return Ok(0);
        }
        let question = self.plane.plain(part, self.pixel_type, background);
        let (file, release) = self.plane.lent();
        let answer = calls::compose_quick(file, release, &question, target, map);
        Ok(answer.result()?.covered)
    }

    /// Parts are taken in order and each that is taken is finished, so which
    /// failure is the first does not depend on the jobs.
    fn fail(&self, taken: usize, failure: Failure) {
        self.stop.store(true, SeqCst);
        if let Ok(mut failed) = self.failed.lock() {
            if failed.as_ref().is_none_or(|(other, _)| taken < *other) {
                *failed = Some((taken, failure));
            }
        }
    }
}
