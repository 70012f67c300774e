//! The comparing program, run on files as its users run it.
//!
//! CORKBINGO_COMPARE names the command: `NAME FILE1 FILE2` compares two files. Without it these
//! groups are left out. CORKBINGO_PROGRAM names the linked program behind it. What is asked of each
//! run is exactly what it prints, of some also how it ends and what it says on standard error.

use crate::Group;
use crate::bench::{Bench, Outcome};
use crate::faults::{all_widths, at_the_ends, file_faults, sound_file};
use crate::product::ask;
use crate::refusals::plain;
use reference::calls::NUMBERS;
use reference::examples;
use reference::expression::{Expression, falling, x};
use reference::file::{SHORT_INPUTS, STEPS, length};
use reference::pairs::{self, SAMPLE_A, SAMPLE_B};
use reference::report::report;
use reference::signed::{self, SAMPLE_SIGNED, ZERO_SIGNED, marked_file};
use reference::sizes::{INPUTS, SIGNED};
use reference::ten_inputs;
use std::env;
use std::fs;
use std::os::unix::fs::{MetadataExt, PermissionsExt, symlink};
use std::os::unix::process::CommandExt;
use std::path::{Path, PathBuf};
use std::process::{self, Command, Stdio};
use std::thread;
use std::time::{Duration, Instant};

const NAME: &str = "CORKBINGO_COMPARE";
const LINKED: &str = "CORKBINGO_PROGRAM";

/// The longest time of a run.
const LIMIT: Duration = Duration::from_secs(60);

/// What document 01 prints for its sample files.
const SAMPLE_LINES: &str = "grid 2 4 = 8\ndiffer 1 1 : 1 0\nrun 6\n";

/// What is printed for the sample files of a signed input.
const SIGNED_LINES: &str = "grid 10 8 = 80\ndiffer -128 1 : 128 0\nrun 2\n";

pub fn groups() -> Vec<Group> {
    if env::var_os(NAME).is_none() {
        return Vec::new();
    }
    let mut list: Vec<Group> = vec![
        ("comparing program: pairs", None, compared),
        ("comparing program: refusals", None, refused),
        ("comparing program: unreadable files", None, unreadable),
        ("comparing program: several calls", None, several_calls),
        ("comparing program: status", None, status),
        ("comparing program: arguments", None, arguments),
        ("comparing program: reads and writes", None, reads),
    ];
    let last = "comparing program: forbidden files";
    if forbids() {
        list.push((last, None, forbidden));
    } else {
        println!("left out {last}: it does not run as a user who may not read everything");
    }
    list
}

/// The command, by a path that holds in every folder.
fn program() -> Outcome<PathBuf> {
    path_in(NAME)
}

/// The linked program.
fn linked() -> Outcome<PathBuf> {
    path_in(LINKED)
}

fn path_in(variable: &str) -> Outcome<PathBuf> {
    let name = env::var_os(variable).unwrap_or_default();
    fs::canonicalize(&name).map_err(|error| format!("{variable}, {name:?}: {error}"))
}

/// A new folder for files, removed at the end.
struct Folder(PathBuf);

impl Folder {
    fn new(name: &str) -> Outcome<Folder> {
        let name = format!("corkbingo-{name}-{}", process::id());
        let path = env::temp_dir().join(name);
        done(fs::create_dir(&path))?;
        Ok(Folder(path))
    }

    fn write(&self, name: &str, content: &[u8]) -> Outcome<PathBuf> {
        let path = self.0.join(name);
        done(fs::write(&path, content))?;
        Ok(path)
    }
}

impl Drop for Folder {
    fn drop(&mut self) {
        // A folder that stays behind harms no test.
        let _ = fs::remove_dir_all(&self.0);
    }
}

fn done<T>(result: std::io::Result<T>) -> Outcome<T> {
    result.map_err(|error| error.to_string())
}

/// What a run prints, what it says on standard error, and its status.
#[derive(Debug, PartialEq, Eq)]
struct Run {
    lines: String,
    said: String,
    status: i32,
}

/// A whole run. One that does not end in time is ended.
fn whole(command: &mut Command) -> Outcome<Run> {
    let mut child = done(command.stdin(Stdio::null()).spawn())?;
    let end = Instant::now() + LIMIT;
    while done(child.try_wait())?.is_none() {
        if Instant::now() > end {
            done(child.kill())?;
            done(child.wait())?;
            return Err(format!("no end after {} seconds", LIMIT.as_secs()));
        }
        thread::sleep(Duration::from_millis(1));
    }
    let output = done(child.wait_with_output())?;
    let text = |bytes| String::from_utf8(bytes).map_err(|error| error.to_string());
    let lines = text(output.stdout)?;
    ask(numbered(&lines), || format!("printed {lines:?}"))?;
    Ok(Run {
        lines,
        said: text(output.stderr)?,
        status: (output.status.code())
            .ok_or_else(|| format!("the program ended by {}", output.status))?,
    })
}

/// Lines that begin with a refusal carry a number that a condition has.
fn numbered(lines: &str) -> bool {
    let Some(refusal) = lines.strip_prefix("refused ") else {
        return true;
    };
    let number = refusal.split(' ').next().unwrap_or_default();
    NUMBERS[1..].iter().any(|known| known.to_string() == number)
}

/// What a run prints.
fn printed(command: &mut Command) -> Outcome<String> {
    let command = command.stdout(Stdio::piped()).stderr(Stdio::null());
    whole(command).map(|run| run.lines)
}

/// The same with standard error.
fn told(command: &mut Command) -> Outcome<Run> {
    whole(command.stdout(Stdio::piped()).stderr(Stdio::piped()))
}

/// Runs the program on two names.
fn run(names: [&Path; 2]) -> Outcome<String> {
    printed(Command::new(program()?).args(names))
}

/// Runs the program on two files with these contents and asks for these lines.
fn prints(bench: &mut Bench, folder: &Folder, files: [&[u8]; 2], lines: &str) -> Outcome {
    let first = folder.write("first.dp", files[0])?;
    let second = folder.write("second.dp", files[1])?;
    let found = run([&first, &second])?;
    bench.same(found.as_str(), lines, || {
        format!("files of {} and {} bytes", files[0].len(), files[1].len())
    })
}

/// The same, with the reference's lines.
fn agrees(bench: &mut Bench, folder: &Folder, files: [&[u8]; 2]) -> Outcome {
    prints(bench, folder, files, &report(files))
}

/// Document 01's lines; all pairs of both documents, of ten inputs and of signed ones; other names and
/// folders.
fn compared(bench: &mut Bench) -> Outcome {
    let folder = Folder::new("pairs")?;
    prints(bench, &folder, [&SAMPLE_A, &SAMPLE_B], SAMPLE_LINES)?;
    let swapped = "grid 2 4 = 8\ndiffer 1 1 : 0 1\nrun 6\n";
    prints(bench, &folder, [&SAMPLE_B, &SAMPLE_A], swapped)?;
    let same = "grid 2 4 = 8\nequivalent\nrun 8\n";
    prints(bench, &folder, [&SAMPLE_A, &SAMPLE_A], same)?;
    let named = [
        pairs::pairs(),
        ten_inputs::pairs(),
        signed::pairs(),
        examples::pairs(),
    ];
    for pair in named.iter().flatten() {
        agrees(bench, &folder, pair.files.each_ref().map(Vec::as_slice))?;
    }
    let top = u64::MAX;
    let wide = (x(1) - 1).file(64, &[64]);
    let lines = format!("grid 66 = 66\ndiffer 0 : {top} 0\nrun 1\n");
    prints(bench, &folder, [&wide, &x(1).file(64, &[64])], &lines)?;
    signs(bench, &folder)?;
    for (d, count) in [
        (SHORT_INPUTS, 256),
        (SHORT_INPUTS + 1, 512),
        (INPUTS, 1_024),
    ] {
        let largest = plain(1, &vec![1; d], STEPS);
        let grid = "2 ".repeat(d);
        let lines = format!("grid {grid}= {count}\nequivalent\nrun {count}\n");
        prints(bench, &folder, [&largest, &largest], &lines)?;
    }

    folder.write("a.dp", &SAMPLE_A)?;
    folder.write("b.dp", &SAMPLE_B)?;
    folder.write("a name with  spaces", &SAMPLE_A)?;
    done(symlink("b.dp", folder.0.join("link")))?;
    let inner = folder.0.join("inner");
    done(fs::create_dir(&inner))?;
    for (at, names) in [
        (&folder.0, ["a.dp", "b.dp"]),
        (&folder.0, ["./a.dp", "inner/../b.dp"]),
        (&folder.0, ["a name with  spaces", "link"]),
        (&inner, ["../a.dp", "../link"]),
    ] {
        let found = printed(Command::new(program()?).args(names).current_dir(at))?;
        bench.same(found.as_str(), SAMPLE_LINES, || format!("{names:?}"))?;
    }
    Ok(())
}

/// A minus sign before negative values of signed inputs, and nowhere else.
fn signs(bench: &mut Bench, folder: &Folder) -> Outcome {
    let low = "-9223372036854775808";
    let wide = format!("grid 66 66 = 4356\ndiffer {low} 0 : 9223372036854775808 0\nrun 1\n");
    let ten = format!(
        "grid {}= 1568336880910795776\ndiffer {}: 5 4\nrun 1\n",
        "66 ".repeat(INPUTS),
        format!("{low} ").repeat(INPUTS)
    );
    let list: [(u64, &[u64], [Expression; 2], &str); 6] = [
        (
            8,
            &[SIGNED + 8],
            [5.into(), 4.into()],
            "grid 10 = 10\ndiffer -128 : 5 4\nrun 1\n",
        ),
        (
            8,
            &[8],
            [5.into(), 4.into()],
            "grid 10 = 10\ndiffer 0 : 5 4\nrun 1\n",
        ),
        (
            8,
            &[1, SIGNED + 1, 2, SIGNED + 2],
            [x(1) * x(4), 0.into()],
            "grid 2 2 4 4 = 64\ndiffer 1 -1 0 -2 : 254 0\nrun 33\n",
        ),
        (
            4,
            &[SIGNED + 3],
            [falling(x(1) + 4, 4), 0.into()],
            "grid 6 = 6\ndiffer 0 : 8 0\nrun 5\n",
        ),
        (64, &[SIGNED + 64, 64], [x(1), 0.into()], &wide),
        (64, &[SIGNED + 64; INPUTS], [5.into(), 4.into()], &ten),
    ];
    for (m, widths, sides, lines) in list {
        let files = sides.map(|side| side.file(m, widths));
        prints(bench, folder, files.each_ref().map(Vec::as_slice), lines)?;
    }
    Ok(())
}

/// Every number, in either file, with either head; files of the greatest length and past it.
fn refused(bench: &mut Bench) -> Outcome {
    let folder = Folder::new("refusals")?;
    for widths in all_widths() {
        let sound = sound_file(widths);
        for fault in file_faults(widths).filter(|fault| at_the_ends(fault)) {
            let mut bad = sound.clone();
            (fault.make)(&mut bad);
            let line = |file| format!("refused {} {file} {}\n", fault.number, fault.step);
            prints(bench, &folder, [&bad, &sound], &line(1))?;
            prints(bench, &folder, [&sound, &bad], &line(2))?;
            prints(bench, &folder, [&bad, &bad], &line(1))?;
            agrees(bench, &folder, [&bad, &SAMPLE_A])?;
        }
        prints(bench, &folder, [&sound, &SAMPLE_A], "refused 9 0 0\n")?;
        prints(bench, &folder, [&sound, &[]], "refused 1 2 0\n")?;
    }
    prints(bench, &folder, [&[], &[]], "refused 1 1 0\n")?;
    // the two differ in the marks of their inputs alone
    let marked = marked_file(&SAMPLE_B);
    prints(bench, &folder, [&SAMPLE_A, &marked], "refused 9 0 0\n")?;
    prints(bench, &folder, [&marked, &SAMPLE_A], "refused 9 0 0\n")?;
    for (d, extras) in [
        (1, &[1, 2, 3, 9, 3_000, 60_000, 2_000_000][..]),
        (INPUTS, &[1, 9]),
    ] {
        let largest = plain(8, &vec![1; d], STEPS);
        for extra in extras {
            let mut longer = largest.clone();
            longer.resize(length(d, STEPS) + extra, 1);
            prints(bench, &folder, [&longer, &largest], "refused 6 1 0\n")?;
            prints(bench, &folder, [&largest, &longer], "refused 6 2 0\n")?;
            longer[0] = 0;
            prints(bench, &folder, [&longer, &largest], "refused 2 1 0\n")?;
        }
        let mut last = largest.clone();
        last[length(d, STEPS) - 1] = 1;
        let line = format!("refused 8 2 {}\n", STEPS - 1);
        prints(bench, &folder, [&largest, &last], &line)?;
    }
    Ok(())
}

/// Missing files, folders, and a file whose reading fails count as empty.
fn unreadable(bench: &mut Bench) -> Outcome {
    let folder = Folder::new("unreadable")?;
    let sound = folder.write("sound.dp", &SAMPLE_A)?;
    let missing = folder.0.join("missing.dp");
    let below = sound.join("below");
    let dangling = folder.0.join("dangling");
    done(symlink("missing.dp", &dangling))?;
    let failing = PathBuf::from("/proc/self/mem");
    for path in [&missing, &below, &dangling, &folder.0, &failing] {
        bench.same(&fs::read(path).is_err(), &true, || {
            format!("{} can be read", path.display())
        })?;
        for (names, line) in [
            ([path, &sound], "refused 1 1 0\n"),
            ([&sound, path], "refused 1 2 0\n"),
            ([path, path], "refused 1 1 0\n"),
        ] {
            let found = run(names.map(PathBuf::as_path))?;
            bench.same(found.as_str(), line, || format!("{names:?}"))?;
        }
    }
    let again = run([&sound, &sound])?;
    bench.same(again.as_str(), "grid 2 4 = 8\nequivalent\nrun 8\n", || {
        String::from("a sound file after unreadable ones")
    })?;
    let signed = folder.write("signed.dp", &SAMPLE_SIGNED)?;
    let zero = folder.write("zero.dp", &ZERO_SIGNED)?;
    for (names, lines) in [
        ([&signed, &zero], SIGNED_LINES),
        ([&signed, &missing], "refused 1 2 0\n"),
    ] {
        let found = run(names.map(PathBuf::as_path))?;
        bench.same(found.as_str(), lines, || format!("{names:?}"))?;
    }
    Ok(())
}

/// The program as run by a user who may not read everything: nobody in the place of root.
fn command() -> Outcome<Command> {
    let mut command = Command::new(program()?);
    if is_root() {
        command.uid(65_534).gid(65_534);
    }
    Ok(command)
}

fn is_root() -> bool {
    fs::metadata("/proc/self").is_ok_and(|own| own.uid() == 0)
}

/// Whether the program runs as a user who may not read everything.
fn forbids() -> bool {
    let sample = || {
        let folder = Folder::new("forbids")?;
        let first = folder.write("a.dp", &SAMPLE_A)?;
        let second = folder.write("b.dp", &SAMPLE_B)?;
        printed(command()?.args([first, second]))
    };
    sample() == Ok(String::from(SAMPLE_LINES))
}

/// A file without permission to read it counts as empty.
fn forbidden(bench: &mut Bench) -> Outcome {
    let folder = Folder::new("forbidden")?;
    let sound = folder.write("sound.dp", &SAMPLE_A)?;
    let shut = folder.write("shut.dp", &SAMPLE_B)?;
    done(fs::set_permissions(
        &shut,
        fs::Permissions::from_mode(0o000),
    ))?;
    let signed = folder.write("signed.dp", &SAMPLE_SIGNED)?;
    let zero = folder.write("zero.dp", &ZERO_SIGNED)?;
    for (names, line) in [
        ([&shut, &sound], "refused 1 1 0\n"),
        ([&sound, &shut], "refused 1 2 0\n"),
        ([&signed, &zero], SIGNED_LINES),
    ] {
        let found = printed(command()?.args(names))?;
        bench.same(found.as_str(), line, || format!("{names:?}"))?;
    }
    Ok(())
}

/// Grids of 1,000,000 vectors and more.
fn several_calls(bench: &mut Bench) -> Outcome {
    let folder = Folder::new("calls")?;
    let mut pair = |m, widths: &[u64], sides: [Expression; 2], lines: &str| {
        let files = sides.map(|side| side.file(m, widths));
        prints(bench, &folder, files.each_ref().map(Vec::as_slice), lines)
    };
    let million = "grid 10 10 10 10 10 10 = 1000000\nequivalent\nrun 1000000\n";
    pair(8, &[8; 6], [x(6), x(6)], million)?;
    let more = "grid 18 18 18 18 18 = 1889568\nequivalent\nrun 1889568\n";
    let sides = [x(1) * x(5) + x(2), x(2) + x(5) * x(1)];
    pair(16, &[16; 5], sides, more)?;
    // Falling factorials whose product first counts at the vector of their degrees, counted from the
    // lowest value: places 999,999 and 1,000,000 of the 1,048,576 of ten inputs of 2 bits.
    for (degrees, run, width, least) in [
        ([3, 3, 1, 0, 0, 2, 0, 3, 3, 3], 1_000_000, 2, 0),
        ([3, 3, 1, 0, 0, 2, 1, 0, 0, 0], 1_000_001, 2, 0),
        ([3, 3, 1, 0, 0, 2, 1, 0, 0, 0], 1_000_001, SIGNED + 2, -2),
    ] {
        let factor = |(index, &k): (usize, &i32)| falling(x(index + 1) - least, k);
        let factors = degrees.iter().enumerate().filter(|(_, k)| **k > 0);
        let product = factors.map(factor).reduce(|left, right| left * right);
        let product = product.ok_or("no degrees")?;
        let factorials: u64 = degrees
            .map(|k| (1..=k as u64).product::<u64>())
            .iter()
            .product();
        let vector = degrees.map(|k| (least + k).to_string()).join(" ");
        let grid = "grid 4 4 4 4 4 4 4 4 4 4 = 1048576";
        let lines = format!("{grid}\ndiffer {vector} : {factorials} 0\nrun {run}\n");
        pair(64, &[width; 10], [product, 0.into()], &lines)?;
    }
    Ok(())
}

/// How the command ends: 0 for equivalent, 1 for differ, 2 for a refusal and where the answer can't
/// be written.
fn status(bench: &mut Bench) -> Outcome {
    let folder = Folder::new("status")?;
    let first = folder.write("a.dp", &SAMPLE_A)?;
    let second = folder.write("b.dp", &SAMPLE_B)?;
    let missing = folder.0.join("missing.dp");
    let signed = folder.write("signed.dp", &SAMPLE_SIGNED)?;
    let zero = folder.write("zero.dp", &ZERO_SIGNED)?;
    for (names, lines, status) in [
        ([&first, &first], "grid 2 4 = 8\nequivalent\nrun 8\n", 0),
        ([&first, &second], SAMPLE_LINES, 1),
        (
            [&signed, &signed],
            "grid 10 8 = 80\nequivalent\nrun 80\n",
            0,
        ),
        ([&signed, &zero], SIGNED_LINES, 1),
        ([&signed, &second], "refused 9 0 0\n", 2),
        ([&first, &missing], "refused 1 2 0\n", 2),
    ] {
        let run = told(Command::new(program()?).args(names))?;
        bench.same(&(run.lines.as_str(), run.status), &(lines, status), || {
            format!("{names:?}")
        })?;
        let full = done(fs::File::create("/dev/full"))?;
        let mut command = Command::new(program()?);
        let run = whole(command.args(names).stdout(full).stderr(Stdio::null()))?;
        bench.same(&run.status, &2, || format!("{names:?} to a full device"))?;
    }
    let run = told(Command::new(program()?).current_dir(&folder.0))?;
    bench.same(
        &(run.lines.as_str(), run.status),
        &(SAMPLE_LINES, 1),
        || String::from("no names"),
    )?;
    let run = told(Command::new(program()?).arg(&first).current_dir(&folder.0))?;
    bench.same(&(run.lines.as_str(), run.status), &("", 2), || {
        String::from("one name")
    })?;
    bench.same(&run.said.starts_with("usage: "), &true, || {
        format!("one name: {:?}", run.said)
    })
}

/// The linked program takes no names or two. With another count it compares nothing, though files of
/// the fixed names are there. A name that is empty or longer than any path names no file.
fn arguments(bench: &mut Bench) -> Outcome {
    let folder = Folder::new("arguments")?;
    folder.write("a.dp", &SAMPLE_A)?;
    folder.write("b.dp", &SAMPLE_B)?;
    let names = ["a.dp", "b.dp", "a.dp", "b.dp", "a.dp"];
    for count in 0..=names.len() {
        let mut command = Command::new(linked()?);
        let run = told(command.args(&names[..count]).current_dir(&folder.0))?;
        let expected = match count {
            0 | 2 => (SAMPLE_LINES, ""),
            _ => ("", "usage: compare [FILE1 FILE2]\n"),
        };
        bench.same(&(run.lines.as_str(), run.said.as_str()), &expected, || {
            format!("{count} arguments")
        })?;
    }
    folder.write("signed.dp", &SAMPLE_SIGNED)?;
    folder.write("zero.dp", &ZERO_SIGNED)?;
    let mut command = Command::new(linked()?);
    let command = command.args(["signed.dp", "zero.dp"]);
    let run = told(command.current_dir(&folder.0))?;
    bench.same(&run.lines.as_str(), &SIGNED_LINES, || {
        String::from("files of a signed input")
    })?;
    // The longest path has 4,095 bytes; slashes fill a name up.
    let filled = |length: usize| format!(".{}b.dp", "/".repeat(length - 5));
    let no_name = ("refused 1 2 0\n", "file name: empty or too long\n");
    for (name, expected) in [
        (filled(4_095), (SAMPLE_LINES, "")),
        (filled(4_096), no_name),
        (filled(5_000), no_name),
        (String::new(), no_name),
    ] {
        let mut command = Command::new(linked()?);
        let run = told(command.args(["a.dp", &name]).current_dir(&folder.0))?;
        bench.same(&(run.lines.as_str(), run.said.as_str()), &expected, || {
            format!("a name of {} bytes", name.len())
        })?;
    }
    Ok(())
}

/// Reads that bring few bytes at a time, reads that fail midway, and writes: a file of which some
/// read fails counts as empty and is named on standard error, and the report is one write.
fn reads(bench: &mut Bench) -> Outcome {
    let folder = Folder::new("reads")?;
    let library = folder.0.join("reads.so");
    let source = Path::new(env!("CARGO_MANIFEST_DIR")).join("c/reads.c");
    let mut compiler = Command::new("gcc");
    let compiled = compiler
        .args(["-shared", "-fPIC", "-o"])
        .args([&library, &source]);
    bench.same(&done(compiled.status())?.success(), &true, || {
        String::from("gcc compiles reads.c")
    })?;
    folder.write("first.dp", &SAMPLE_A)?;
    folder.write("second.dp", &SAMPLE_B)?;
    folder.write("signed.dp", &SAMPLE_SIGNED)?;
    folder.write("zero.dp", &ZERO_SIGNED)?;
    // The largest files with the short head and with the long one, and files one byte longer.
    for (name, longer_name, widths) in [
        ("largest.dp", "longer.dp", &[8; 1][..]),
        ("largest-ten.dp", "longer-ten.dp", &[1; 10]),
    ] {
        let mut file = plain(8, widths, STEPS);
        folder.write(name, &file)?;
        file.push(0);
        folder.write(longer_name, &file)?;
    }
    let command = |names: [&str; 2], variables: &[(&str, &str)]| {
        let mut command = Command::new(linked()?);
        command.args(names).current_dir(&folder.0);
        command
            .env("LD_PRELOAD", &library)
            .envs(variables.iter().copied());
        told(&mut command)
    };
    let samples = ["first.dp", "second.dp"];
    let all = "grid 10 = 10\nequivalent\nrun 10\n";
    let all_ten = "grid 2 2 2 2 2 2 2 2 2 2 = 1024\nequivalent\nrun 1024\n";
    for most in ["1", "7", "4096", "9228", "9230"] {
        for (names, lines) in [
            (samples, SAMPLE_LINES),
            (["signed.dp", "zero.dp"], SIGNED_LINES),
            (["largest.dp", "largest.dp"], all),
            (["longer.dp", "largest.dp"], "refused 6 1 0\n"),
            (["largest.dp", "longer.dp"], "refused 6 2 0\n"),
            (["largest-ten.dp", "largest-ten.dp"], all_ten),
            (["longer-ten.dp", "largest-ten.dp"], "refused 6 1 0\n"),
            (["largest-ten.dp", "longer-ten.dp"], "refused 6 2 0\n"),
        ] {
            let run = command(names, &[("READ_MOST", most)])?;
            bench.same(
                &(run.lines.as_str(), run.said.as_str()),
                &(lines, ""),
                || format!("{names:?}, {most} bytes a read"),
            )?;
        }
    }
    for fails in ["0", "1", "12", "20", "21", "38", "39"] {
        for (index, name) in samples.iter().enumerate() {
            if index == 1 && ["38", "39"].contains(&fails) {
                continue; // the file has 21 bytes, and the read at its end is the last
            }
            let run = command(samples, &[("READ_NAME", name), ("READ_FAILS", fails)])?;
            let expected = (
                format!("refused 1 {} 0\n", index + 1),
                format!("{name}: Input/output error\n"),
            );
            bench.same(&(run.lines, run.said), &expected, || {
                format!("{name} fails after {fails} bytes")
            })?;
        }
    }
    for (names, lines) in [
        (samples, SAMPLE_LINES),
        (["largest.dp", "longer.dp"], "refused 6 2 0\n"),
    ] {
        let run = command(names, &[("WRITE_SHOWN", "1")])?;
        bench.same(run.lines.as_str(), format!("[{lines}]").as_str(), || {
            format!("writes of {names:?}")
        })?;
    }
    let full = done(fs::File::create("/dev/full"))?;
    let mut command = Command::new(linked()?);
    command.args(samples).current_dir(&folder.0);
    let run = whole(command.stdout(full).stderr(Stdio::piped()))?;
    bench.same(&run.said.starts_with("standard output: "), &true, || {
        run.said.clone()
    })
}
