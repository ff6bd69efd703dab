//! What std does not have: signals, memory that is short, which streams were
//! closed at the start, and mapped files. All unsafe code of the command is here.
//!
//! What ends the run first undoes what was begun. The names for that stand in a
//! fixed table of atomics, since a signal handler may neither allocate nor wait
//! for a lock.

#![allow(unsafe_code)]

use std::alloc::{GlobalAlloc, Layout, System};
use std::ffi::{c_char, c_int, c_void, CStr, CString};
use std::fs::File;
use std::io;
use std::os::fd::AsRawFd;
use std::os::unix::ffi::OsStrExt;
use std::path::Path;
use std::ptr::{null, null_mut};
use std::sync::atomic::{AtomicBool, AtomicPtr, Ordering::SeqCst};

const SIGHUP: c_int = 1;
const SIGINT: c_int = 2;
const SIGQUIT: c_int = 3;
const SIGBUS: c_int = 7;
const SIGSEGV: c_int = 11;
const SIGTERM: c_int = 15;
const SIGXFSZ: c_int = 25;

/// The signals by which a person ends the run.
const ENDING: [c_int; 4] = [SIGHUP, SIGINT, SIGQUIT, SIGTERM];

const SIG_DFL: usize = 0;
const SIG_IGN: usize = 1;
const SIG_BLOCK: c_int = 0;
const SIG_SETMASK: c_int = 2;
const SA_ONSTACK: c_int = 0x0800_0000;
const F_GETFD: c_int = 1;
const POSIX_FADV_DONTNEED: c_int = 4;

/// sigset_t of Linux.
type Signals = [u64; 16];

/// struct sigaction of Linux on x86-64.
#[repr(C)]
struct Action {
    handler: usize,
    mask: Signals,
    flags: c_int,
    restorer: usize,
}

/// stack_t of Linux.
#[repr(C)]
struct Stack {
    memory: *mut c_void,
    flags: c_int,
    size: usize,
}

extern "C" {
    fn sigaltstack(new: *const Stack, old: *mut Stack) -> c_int;
    fn sigaction(signal: c_int, new: *const Action, old: *mut Action) -> c_int;
    fn sigemptyset(set: *mut Signals) -> c_int;
    fn sigaddset(set: *mut Signals, signal: c_int) -> c_int;
    fn pthread_sigmask(how: c_int, new: *const Signals, old: *mut Signals) -> c_int;
    fn raise(signal: c_int) -> c_int;
    fn pause() -> c_int;
    fn geteuid() -> u32;
    fn unlink(path: *const c_char) -> c_int;
    fn rename(old: *const c_char, new: *const c_char) -> c_int;
    fn write(file: c_int, bytes: *const c_void, length: usize) -> isize;
    fn fcntl(file: c_int, command: c_int, ...) -> c_int;
    fn posix_fadvise(file: c_int, start: i64, length: i64, advice: c_int) -> c_int;
    fn _exit(code: c_int) -> !;
}

// ---- Before main.

/// std opens /dev/null for a closed stream before `main`, so this looks before
/// that. It also asks for memory for other stacks, and panics where there is
/// none, unless somebody else has set the handlers of SIGSEGV and SIGBUS.
#[used]
#[link_section = ".init_array"]
static BEFORE_MAIN: extern "C" fn() = before_main;

extern "C" fn before_main() {
    for (file, open) in (0..).zip(&OPEN) {
        // SAFETY: asks about a number, whatever stands behind it.
        open.store(unsafe { fcntl(file, F_GETFD) } != -1, SeqCst);
    }
    let stack = Stack {
        memory: (&raw mut OTHER_STACK).cast(),
        flags: 0,
        size: OTHER_STACK_SIZE,
    };
    // SAFETY: nobody else uses that memory.
    unsafe { sigaltstack(&stack, null_mut()) };
    set_handler(SIGSEGV, no_stack as extern "C" fn(c_int) as usize);
    set_handler(SIGBUS, page_is_gone as extern "C" fn(c_int) as usize);
}

const OTHER_STACK_SIZE: usize = 1 << 16;

/// What the handlers run on in the main thread, whose own stack may be full.
/// Other threads have all of theirs from the start.
static mut OTHER_STACK: [u8; OTHER_STACK_SIZE] = [0; OTHER_STACK_SIZE];

static OPEN: [AtomicBool; 3] = [const { AtomicBool::new(false) }; 3];

/// Was standard input (0), output (1) or error (2) open when the run began?
pub fn was_open(stream: usize) -> bool {
    OPEN[stream].load(SeqCst)
}

/// As which user the run goes.
pub fn user() -> u32 {
    // SAFETY: takes nothing, and never fails.
    unsafe { geteuid() }
}

// ---- What is undone.

/// One thing to undo: `from` is removed, or renamed to `to` where that is not null.
struct Slot {
    from: AtomicPtr<c_char>,
    to: AtomicPtr<c_char>,
}

/// Two outputs have three names each at most.
static TABLE: [Slot; 8] = [const {
    Slot {
        from: AtomicPtr::new(null_mut()),
        to: AtomicPtr::new(null_mut()),
    }
}; 8];

impl Slot {
    /// Undoes it and empties the slot; nothing where it is empty.
    fn undo(&self) {
        let from = self.from.swap(null_mut(), SeqCst);
        let to = self.to.load(SeqCst);
        // SAFETY: names in the table are never freed.
        unsafe {
            match (from.is_null(), to.is_null()) {
                (true, _) => 0,
                (false, true) => unlink(from),
                (false, false) => rename(from, to),
            };
        }
    }
}

fn undo_all() {
    TABLE.iter().rev().for_each(Slot::undo);
}

/// Something that is undone when this is dropped, or by a signal that ends the
/// run before; unless it is kept. Only one thread makes these.
#[must_use]
pub struct Undo(&'static Slot);

/// A path as the table has it. It is made beforehand: nothing may fail between
/// what is done and the note of how to undo it.
#[derive(Clone, Copy)]
pub struct Name(*mut c_char);

impl Name {
    /// That of a path; kept for good.
    pub fn new(path: &Path) -> io::Result<Name> {
        Ok(Name(CString::new(path.as_os_str().as_bytes())?.into_raw()))
    }
}

impl Undo {
    /// Removes the file.
    pub fn remove(name: Name) -> io::Result<Undo> {
        Undo::new(name.0, null_mut())
    }

    /// Gives the file its old name again.
    pub fn rename(from: Name, to: Name) -> io::Result<Undo> {
        Undo::new(from.0, to.0)
    }

    fn new(from: *mut c_char, to: *mut c_char) -> io::Result<Undo> {
        let free = TABLE.iter().find(|s| s.from.load(SeqCst).is_null());
        let slot = free.ok_or(io::ErrorKind::OutOfMemory)?;
        slot.to.store(to, SeqCst);
        slot.from.store(from, SeqCst);
        Ok(Undo(slot))
    }

    /// Lets it stay as it is.
    pub fn keep(self) {
        self.0.from.store(null_mut(), SeqCst);
    }
}

impl Drop for Undo {
    fn drop(&mut self) {
        undisturbed(|| self.0.undo());
    }
}

// ---- Signals.

fn set_of(signals: &[c_int]) -> Signals {
    let mut set = [0; 16];
    // SAFETY: set is one object of its type.
    unsafe {
        sigemptyset(&mut set);
        for &signal in signals {
            sigaddset(&mut set, signal);
        }
    }
    set
}

/// Runs it with the signals of a person held back until it is done. Only while
/// there is one thread.
pub fn undisturbed<T>(work: impl FnOnce() -> T) -> T {
    let mut before = [0; 16];
    // SAFETY: both are objects of their type.
    unsafe { pthread_sigmask(SIG_BLOCK, &set_of(&ENDING), &mut before) };
    let done = work();
    // SAFETY: as above.
    unsafe { pthread_sigmask(SIG_SETMASK, &before, null_mut()) };
    done
}

/// What is said where a mapped file can't be read; null for nothing.
static UNREADABLE: AtomicPtr<c_char> = AtomicPtr::new(null_mut());

/// The first handler does all; on other threads one waits for the end.
fn first_or_wait() {
    static ENDS: AtomicBool = AtomicBool::new(false);
    if ENDS.swap(true, SeqCst) {
        loop {
            // SAFETY: waits.
            unsafe { pause() };
        }
    }
}

/// Undoes what was begun and dies by the same signal.
extern "C" fn ended_by(signal: c_int) {
    first_or_wait();
    undo_all();
    set_handler(signal, SIG_DFL);
    // SAFETY: the signal is held back until this handler returns.
    unsafe { raise(signal) };
}

/// A page of the mapped file is not there: one line, exit code 1.
extern "C" fn page_is_gone(_: c_int) {
    let line = UNREADABLE.load(SeqCst);
    match line.is_null() {
        true => end(b"czi: a page of memory can't be read\n"),
        // SAFETY: the line ends in a zero byte and is never freed.
        false => end(unsafe { CStr::from_ptr(line) }.to_bytes()),
    }
}

/// The stack can't grow: one line, exit code 1.
extern "C" fn no_stack(_: c_int) {
    end(b"czi: there is no memory for the stack, or czi has a fault\n")
}

/// Undoes what was begun, says the line and ends with exit code 1. May be called
/// by a handler.
fn end(line: &[u8]) -> ! {
    // A handler that came now would wait for this one.
    // SAFETY: an object of its type.
    unsafe { pthread_sigmask(SIG_BLOCK, &set_of(&ENDING), null_mut()) };
    first_or_wait();
    undo_all();
    // SAFETY: so many bytes; then the run ends.
    unsafe {
        write(2, line.as_ptr().cast(), line.len());
        _exit(1)
    }
}

fn set_handler(signal: c_int, handler: usize) {
    let action = Action {
        handler,
        mask: set_of(&ENDING),
        flags: SA_ONSTACK,
        restorer: 0,
    };
    // SAFETY: action is one object of its type, handler a function of one number,
    // which does only what a handler may.
    unsafe { sigaction(signal, &action, null_mut()) };
}

fn is_ignored(signal: c_int) -> bool {
    let mut action = Action {
        handler: SIG_DFL,
        mask: [0; 16],
        flags: 0,
        restorer: 0,
    };
    // SAFETY: action is one object of its type.
    unsafe { sigaction(signal, null(), &mut action) };
    action.handler == SIG_IGN
}

/// Sets the other handlers. A signal that is ignored stays so, as for `nohup`; a full
/// disk and a limit on file sizes are errors of `write`.
pub fn prepare() {
    for signal in ENDING {
        if !is_ignored(signal) {
            set_handler(signal, ended_by as extern "C" fn(c_int) as usize);
        }
    }
    set_handler(SIGXFSZ, SIG_IGN);
}

// ---- Memory.

/// The system's allocator; where it has nothing left the run ends, with one line
/// and exit code 1, while std would abort.
struct Memory;

#[global_allocator]
static MEMORY: Memory = Memory;

/// Set where the run takes the memory of a whole window.
static WHOLE: AtomicBool = AtomicBool::new(false);

/// From now on parts of the window are advised where no memory is left.
pub fn advise_parts() {
    WHOLE.store(true, SeqCst);
}

fn there(memory: *mut u8) -> *mut u8 {
    if !memory.is_null() {
        return memory;
    }
    match WHOLE.load(SeqCst) {
        true => end(
            b"czi: there is no memory left; a quote composes its window whole: quote parts of \
                      it with --window, and add their areas\n",
        ),
        false => end(b"czi: there is no memory left\n"),
    }
}

// SAFETY: what the system gives and takes is passed on unchanged.
unsafe impl GlobalAlloc for Memory {
    unsafe fn alloc(&self, layout: Layout) -> *mut u8 {
        there(unsafe { System.alloc(layout) })
    }

    unsafe fn alloc_zeroed(&self, layout: Layout) -> *mut u8 {
        there(unsafe { System.alloc_zeroed(layout) })
    }

    unsafe fn realloc(&self, memory: *mut u8, layout: Layout, size: usize) -> *mut u8 {
        there(unsafe { System.realloc(memory, layout, size) })
    }

    unsafe fn dealloc(&self, memory: *mut u8, layout: Layout) {
        unsafe { System.dealloc(memory, layout) }
    }
}

// ---- Mapped files.

/// Maps an open plain file; `line` is said where a page of it can't be read,
/// and the run ends there.
///
/// A file that others change while it is read gives no answer at all: the
/// caller compares size, times and inode before it gives one.
pub fn map(file: &File, line: &str) -> io::Result<czi::Mapping> {
    UNREADABLE.store(CString::new(line)?.into_raw(), SeqCst);
    // SAFETY: SIGBUS ends the run, and what was read of a changed file is not
    // given out.
    unsafe { czi::map_file(file) }
}

/// Lets go of what the system holds of a synced file in memory, so that it is read from
/// the disk. A wish: not every disk grants it.
pub fn let_go(file: &File) {
    // SAFETY: asks about a file that is open, for its whole length.
    unsafe { posix_fadvise(file.as_raw_fd(), 0, 0, POSIX_FADV_DONTNEED) };
}
