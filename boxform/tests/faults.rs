//! Faults: boxform is killed, the disk is full, many work at once.

mod common;

use common::{club, Desk, Done, BOXFORM};
use std::fs;
use std::process::{Command, Stdio};
use std::time::{Duration, Instant};

const KILLS: usize = 400;

/// A generator of numbers that are the same in every run (Knuth's MMIX).
struct Chance(u64);

impl Chance {
    /// From 0 to 1.
    fn fraction(&mut self) -> f64 {
        self.0 = self
            .0
            .wrapping_mul(6364136223846793005)
            .wrapping_add(1442695040888963407);
        (self.0 >> 11) as f64 / (1u64 << 53) as f64
    }
}

/// Kills runs of boxform at moments spread over the time that a whole one takes.
struct Killer {
    chance: Chance,
    whole: Duration,
    killed: usize,
}

impl Killer {
    fn new(seed: u64) -> Killer {
        Killer {
            chance: Chance(seed),
            whole: Duration::from_millis(20),
            killed: 0,
        }
    }

    /// Says how it went; enough runs must have been killed for that to say something.
    fn tell(&self, what: &str, done: usize) {
        let killed = self.killed;
        println!(
            "{what}: {killed} of {KILLS} runs killed, {done} had done it, no file empty or half"
        );
        assert!(killed > KILLS / 8, "only {killed} runs were killed");
    }

    fn run(&mut self, desk: &Desk, line: &str) {
        let start = Instant::now();
        let mut child = desk.boxform(line).stdout(Stdio::null()).spawn().unwrap();
        std::thread::sleep(self.whole.mul_f64(self.chance.fraction()));
        let ended = child.try_wait().unwrap();
        child.kill().unwrap();
        let status = child.wait().unwrap();
        match ended {
            // It was faster than the last whole one.
            Some(_) => self.whole = self.whole.mul_f64(0.9),
            None => self.whole = self.whole.mul_f64(1.02).min(Duration::from_millis(500)),
        }
        self.killed += usize::from(status.code().is_none());
        assert!(start.elapsed() < Duration::from_secs(60));
    }
}

/// A file is never empty or half: it is not there, or a whole new store.
#[test]
fn new_is_killed_at_any_moment() {
    let desk = Desk::new();
    desk.done("new fresh.form");
    let fresh = desk.bytes("fresh.form");
    let mut killer = Killer::new(1);
    let mut made = 0;
    for round in 0..KILLS {
        killer.run(&desk, "new x.form");
        if desk.path("x.form").exists() {
            made += 1;
            assert!(desk.bytes("x.form") == fresh, "round {round}");
            if round % 8 == 0 {
                assert_eq!(
                    desk.done("check x.form"),
                    "passes; it is as boxform left it\n"
                );
            }
            fs::remove_file(desk.path("x.form")).unwrap();
        }
    }
    killer.tell("new", made);
    desk.done("new x.form");
    assert_eq!(
        desk.names(),
        ["fresh.form", "fresh.form.sum", "x.form", "x.form.sum"]
    );
}

/// The file is the one before or the one after, it fits its sum, and the one before stands beside it.
#[test]
fn changes_are_killed_at_any_moment() {
    let desk = club();
    let line = |text: usize| format!("set-text club.form --element 3 --text {text}");
    let stores = [8, 9].map(|text| {
        desk.done(&line(text));
        desk.bytes("club.form")
    });
    let mut killer = Killer::new(2);
    let mut changed = 0;
    for round in 0..KILLS {
        let before = desk.bytes("club.form");
        let next = usize::from(before == stores[0]);
        killer.run(&desk, &line(8 + next));
        let after = desk.bytes("club.form");
        assert!(after == before || after == stores[next], "round {round}");
        assert!(stores.contains(&desk.bytes("club.form~")), "round {round}");
        changed += usize::from(after != before);
        if round % 4 == 0 {
            assert_eq!(
                desk.done("check club.form"),
                "passes; it is as boxform left it\n",
                "round {round}"
            );
        }
    }
    killer.tell("changes", changed);
    desk.done(&line(10));
    assert_eq!(desk.names(), ["club.form", "club.form.sum", "club.form~"]);
    assert_eq!(
        desk.shell("sha256sum --status -c club.form.sum").status,
        Some(0)
    );
}

/// The system ends boxform when it writes the new file: the old one is whole, and the next run clears what was left
/// behind.
#[test]
fn a_crash_loses_nothing() {
    let desk = club();
    let before = desk.bytes("club.form");
    let line = "ulimit -c 0; ulimit -f 0; exec $boxform set-text club.form --element 3 --text 8";
    assert_eq!(desk.shell(line).status, None, "a signal ends it");
    assert!(desk.bytes("club.form") == before);
    assert_eq!(desk.names().len(), 4, "what the crash left");
    desk.done("set-text club.form --element 3 --text 8");
    assert_eq!(desk.names().len(), 3);
    assert!(desk.done("print club.form").contains("<bib>8</bib>"));
}

/// Each write fails, and boxform lives to tell it.
#[test]
fn writing_fails() {
    let desk = club();
    let before = desk.files();
    for line in [
        "set-text club.form --element 3 --text 8",
        "undo club.form",
        "sum club.form",
        "new other.form",
    ] {
        let done = desk.shell(&format!("trap '' XFSZ; ulimit -f 0; exec $boxform {line}"));
        assert_eq!((done.status, done.out.as_str()), (Some(2), ""), "{line}");
        assert!(
            done.err.contains(": File too large (os error 27)"),
            "{line}: {}",
            done.err
        );
        assert_eq!(done.err.lines().count(), 1);
        assert!(before == desk.files(), "{line}");
    }
}

/// A small disk of its own, in the folder of a desk.
struct Disk {
    desk: Desk,
}

impl Disk {
    /// With a store on it; none where the system does not allow it.
    fn new(pages: usize) -> Option<Disk> {
        let desk = Desk::new();
        let size = format!("size={}", pages * 4096);
        let mut mount = Command::new("mount");
        mount
            .args(["-t", "tmpfs", "-o", &size, "boxform-test"])
            .arg(&desk.folder);
        let mounted = mount.stderr(Stdio::null()).status();
        if !mounted.is_ok_and(|status| status.success()) {
            println!("not tried: no disk can be mounted here");
            return None;
        }
        desk.done("new club.form");
        desk.done("create-definition club.form --name bib --kind pcdata");
        Some(Disk { desk })
    }

    /// Fills the disk but for so many pages.
    fn leave(&self, pages: usize) {
        let filler = self.desk.path("filler");
        let _ = fs::remove_file(&filler);
        let room = (0..)
            .take_while(|count| fs::write(&filler, vec![0; count * 4096]).is_ok())
            .count()
            - 1;
        fs::write(&filler, vec![0; room.saturating_sub(pages) * 4096]).unwrap();
    }
}

impl Drop for Disk {
    fn drop(&mut self) {
        let _ = Command::new("umount").arg(&self.desk.folder).status();
    }
}

/// A change needs three pages here, for the new file, the one before and the sums; with fewer nothing changes, and with
/// three all goes well.
#[test]
fn the_disk_is_full() {
    let Some(disk) = Disk::new(16) else {
        return;
    };
    let desk = &disk.desk;
    desk.done("add-document club.form --definition bib --text 7");
    for room in 0..3 {
        disk.leave(room);
        let full = "No space left on device (os error 28); the file is as it was\n";
        desk.fails(
            "set-text club.form --element 1 --text 8",
            2,
            &format!("boxform: club.form: {full}"),
        );
        desk.fails(
            "destroy-element club.form --element 1 --yes",
            2,
            &format!("boxform: club.form: {full}"),
        );
        desk.fails("undo club.form", 2, &format!("boxform: club.form: {full}"));
        if room < 2 {
            desk.fails(
                "new other.form",
                2,
                "boxform: other.form: No space left on device (os error 28)\n",
            );
        }
        assert_eq!(
            desk.done("check club.form"),
            "passes; it is as boxform left it\n"
        );
    }
    disk.leave(3);
    desk.done("set-text club.form --element 1 --text 8");
    assert!(desk.done("print club.form").ends_with("<bib>8</bib>\n"));
}

/// A disk that may only be read.
#[test]
fn the_disk_is_read_only() {
    let Some(disk) = Disk::new(16) else {
        return;
    };
    let desk = &disk.desk;
    let remounted = Command::new("mount")
        .args(["-o", "remount,ro"])
        .arg(&desk.folder)
        .status();
    assert!(remounted.unwrap().success());
    for line in [
        "create-definition club.form --name time --kind pcdata",
        "undo club.form",
        "sum club.form",
    ] {
        desk.fails(
            line,
            2,
            "boxform: club.form: Read-only file system (os error 30)\n",
        );
    }
    desk.fails(
        "new other.form",
        2,
        "boxform: other.form: Read-only file system (os error 30)\n",
    );
    assert_eq!(desk.done("print club.form"), "<!ELEMENT bib (#PCDATA)>\n");
}

/// Thirty write at once and lose nothing; who reads meanwhile always sees a whole store that fits its sum.
#[test]
fn many_at_once_lose_nothing() {
    let desk = Desk::new();
    desk.done("new x.form");
    let start = |index| {
        let mut command = desk.boxform(&format!(
            "create-definition x.form --name d{index} --kind empty"
        ));
        command
            .stdout(Stdio::null())
            .stderr(Stdio::piped())
            .spawn()
            .unwrap()
    };
    let started: Vec<_> = (0..30).map(start).collect();
    for _ in 0..20 {
        let done = desk.run("check x.form");
        assert_eq!(
            (done.status, done.out.as_str()),
            (Some(0), "passes; it is as boxform left it\n"),
            "{}",
            done.err
        );
    }
    for child in started {
        let done = Done::from(child.wait_with_output().unwrap());
        assert_eq!(done.status, Some(0));
        let waited = done
            .err
            .starts_with("boxform: waiting for another boxform that works in ");
        assert!(done.err.is_empty() || waited, "{}", done.err);
    }
    assert_eq!(desk.done("print x.form").lines().count(), 30);
    assert_eq!(desk.names(), ["x.form", "x.form.sum", "x.form~"]);
}

/// Ten make the same file at once: one does, and nine are told that it is there.
#[test]
fn one_alone_makes_a_file() {
    let desk = Desk::new();
    let start = |_| {
        let mut command = Command::new(BOXFORM);
        command.args(["new", "x.form"]).current_dir(&desk.folder);
        command
            .stdout(Stdio::null())
            .stderr(Stdio::piped())
            .spawn()
            .unwrap()
    };
    let started: Vec<_> = (0..10).map(start).collect();
    let ended = started
        .into_iter()
        .map(|child| child.wait_with_output().unwrap());
    assert_eq!(ended.filter(|done| done.status.success()).count(), 1);
    assert_eq!(
        desk.done("check x.form"),
        "passes; it is as boxform left it\n"
    );
}
