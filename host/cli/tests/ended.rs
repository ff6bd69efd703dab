//! A run that is ended by a signal leaves everything as it was: at many moments,
//! and at two that are chosen.

mod support;

use std::os::unix::process::ExitStatusExt;
use std::process::{Command, Stdio};
use std::time::{Duration, Instant};
use support::{kill, sample, signals, until, waiting, Folder, CZI, HUP, SIDE};

fn compose(file: &str, folder: &Folder, window: &str) -> Command {
    let mut command = Command::new(CZI);
    let (out, map) = (folder.path("out"), folder.path("map"));
    command.args(["compose", file, "--out", &out, "--map", &map]);
    command.args(["--force", "--window", window]);
    command.stdout(Stdio::null()).stderr(Stdio::null());
    command
}

/// Waits for microseconds without a clock's tick in between.
fn wait_for(moment: Duration) {
    let end = Instant::now() + moment;
    while Instant::now() < end {
        std::hint::spin_loop();
    }
}

/// Large files: most moments are while they are written.
#[test]
fn while_a_large_plane_is_written() {
    let folder = Folder::new("ended-large");
    let file = sample("mosaic.czi");
    let begun = Instant::now();
    let mut whole = compose(&file, &folder, "0,0,6000,4000").spawn().unwrap();
    assert!(whole.wait().unwrap().success());
    let length = begun.elapsed().max(Duration::from_millis(20));
    let signals = signals();
    let mut ended = 0;
    for (k, signal) in (0..30).zip(signals.iter().cycle()) {
        folder.write("map", b"old map");
        let _ = std::fs::remove_file(folder.path("out"));
        let mut child = compose(&file, &folder, "0,0,6000,4000").spawn().unwrap();
        std::thread::sleep(length * k / 30);
        kill(&child, *signal);
        let status = child.wait().unwrap();
        if status.success() {
            assert_eq!(folder.names(), ["map", "out"]);
            continue;
        }
        assert_eq!(status.signal(), Some(*signal), "{status}");
        ended += 1;
        if folder.names() == ["map"] {
            assert_eq!(folder.read("map"), b"old map", "at {k}");
        } else {
            // It had done everything.
            assert_eq!(folder.names(), ["map", "out"], "at {k}");
            assert_eq!(folder.read("out").len(), 24_000_000, "at {k}");
            assert_eq!(folder.read("map").len(), 750 * 4000 + 13, "at {k}");
        }
    }
    assert!(ended >= 5, "only {ended} runs were ended by a signal");
}

/// Small files: the moments are around the two renames. Old or new, never one of each.
#[test]
fn while_the_files_are_put_in_place() {
    let folder = Folder::new("ended-small");
    let window = format!("0,0,{SIDE},{SIDE}");
    let mut outcomes = [0; 2];
    for (k, signal) in (0..200).zip(signals().iter().cycle()) {
        folder.write("out", b"old plane");
        folder.write("map", b"old map");
        let mut running = waiting(&mut compose("-", &folder, &window));
        running.go_on();
        wait_for(Duration::from_micros(20 * k));
        kill(&running.child, *signal);
        running.child.wait().unwrap();
        assert_eq!(folder.names(), ["map", "out"], "at {k}");
        let is_old = (
            folder.read("out") == b"old plane",
            folder.read("map") == b"old map",
        );
        assert_eq!(is_old.0, is_old.1, "at {k}");
        outcomes[usize::from(is_old.0)] += 1;
    }
    assert!(outcomes[1] > 0, "no run was ended before it was done");
}

/// Standard output is full, so the run stands between the renames and its end.
#[test]
fn after_the_file_was_put_in_place() {
    let folder = Folder::new("ended-after");
    for signal in signals() {
        for old in [Some(b"old plane"), None] {
            let out = folder.path("out");
            match old {
                Some(old) => drop(folder.write("out", old)),
                None => std::fs::remove_file(&out).unwrap(),
            }
            let mut child = Command::new(CZI)
                .args(["compose", &sample("mosaic.czi"), "--force", "--out", &out])
                .args(["--map", "-", "--window", "100,60,2000,2000"])
                .stdout(Stdio::piped())
                .stderr(Stdio::null())
                .spawn()
                .unwrap();
            until("the plane is in place", || {
                std::fs::metadata(&out).is_ok_and(|about| about.len() == 4_000_000)
            });
            kill(&child, signal);
            assert_eq!(child.wait().unwrap().signal(), Some(signal));
            match old {
                Some(old) => {
                    assert_eq!(folder.names(), ["out"]);
                    assert_eq!(folder.read("out"), old);
                }
                None => assert!(folder.names().is_empty(), "{:?}", folder.names()),
            }
            folder.write("out", b"");
        }
    }
}

/// As `nohup` starts it: a hangup that is ignored does not end it.
#[test]
fn an_ignored_signal_stays_ignored() {
    let folder = Folder::new("ended-nohup");
    let mut command = Command::new("sh");
    let line = "trap '' HUP; exec \"$0\" compose - --out \"$1\"";
    let out = folder.path("out");
    let running = waiting(command.args(["-c", line, CZI, &out]));
    kill(&running.child, HUP);
    let output = running.end();
    assert!(output.status.success(), "{}", output.status);
    assert_eq!(folder.names(), ["out"]);
}
