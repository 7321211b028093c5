//! The command, run as a user runs it.

#[allow(dead_code)]
mod common;

use std::ffi::OsStr;
use std::fs;
use std::io::Read;
use std::path::PathBuf;
use std::process::{Command, Stdio};

use common::*;

/// A file of its own for each test.
struct File(PathBuf);

impl File {
    fn new(name: &str, content: &[u8]) -> File {
        let path = PathBuf::from(env!("CARGO_TARGET_TMPDIR")).join(name);
        fs::write(&path, content).unwrap();
        File(path)
    }

    fn path(&self) -> &str {
        self.0.to_str().unwrap()
    }
}

impl Drop for File {
    fn drop(&mut self) {
        let _ = fs::remove_file(&self.0);
    }
}

fn command() -> Command {
    Command::new(env!("CARGO_BIN_EXE_ermopinaw"))
}

/// Exit status, standard output and standard error.
fn run<W: AsRef<OsStr>>(words: &[W]) -> (i32, String, String) {
    let done = command().args(words).output().unwrap();
    let text = |bytes: Vec<u8>| String::from_utf8(bytes).unwrap();
    (
        done.status.code().unwrap(),
        text(done.stdout),
        text(done.stderr),
    )
}

fn answers(expected: &str, words: &[&str]) {
    assert_eq!(
        run(words),
        (0, expected.to_string(), String::new()),
        "{words:?}"
    );
}

fn fails(part: &str, words: &[&str]) {
    let (status, out, error) = run(words);
    assert_eq!((status, &out[..]), (2, ""), "{words:?}");
    assert!(error.starts_with("ermopinaw: "), "{words:?}: {error}");
    assert!(error.contains(part), "{words:?}: {error}");
}

#[test]
fn age_says_whether_an_image_is_too_old() {
    let file = File::new("age.mmdb", &image_a().bytes());
    let age = |words: &[&str]| run(&[&["age", file.path()], words].concat());
    assert_eq!(age(&["--now", "1060"]), (0, "60\n".into(), "".into()));
    assert_eq!(
        age(&["--now", "1060", "--max", "60"]),
        (0, "60\n".into(), "".into())
    );
    assert_eq!(
        age(&["--now=1060", "--max=59"]),
        (1, "60\n".into(), "".into())
    );
    // the real clock is long past 1970
    assert_eq!(age(&["--max", "100"]).0, 1);
    assert_eq!(age(&[]).0, 0);
    assert_eq!(age(&["--max", "18446744073709551615"]).0, 0);
    fails(
        "refusal 23: ",
        &["age", file.path(), "--now", "9223372036854775808"],
    );
    // a build time that is still to come: an answer, fresh, and told
    let (status, out, error) = age(&["--now", "999", "--max", "0"]);
    assert_eq!((status, &out[..]), (0, "-1\n"));
    assert!(error.contains("still to come"));
}

#[test]
fn lookup_writes_networks_and_records() {
    let file = File::new("lookup.mmdb", &night_desk().bytes());
    answers(
        "203.0.113.9 203.0.113.0/24\n{\n  \"nurse\": \"Ana Pires\",\n  \"house\": {\n    \"street\": \"Lindenweg 4\",\n    \
         \"latitude\": 47.5,\n    \"longitude\": 7.625\n  },\n  \"phone\": [\n    \"555-0101\",\n    \"555-0102\"\n  ],\n  \
         \"ventilators\": 1\n}\n198.51.100.1 198.51.100.0/26 no data\n",
        &["lookup", file.path(), "203.0.113.9", "198.51.100.1"],
    );
    // one word that is no address does not hide the others
    let (status, out, error) = run(&["lookup", file.path(), "here", "198.51.100.1"]);
    assert_eq!(
        (status, &out[..]),
        (2, "198.51.100.1 198.51.100.0/26 no data\n")
    );
    assert_eq!(error, "ermopinaw: \"here\" is no address\n");
    let only_v4 = File::new("lookup4.mmdb", &image_a().bytes());
    fails(
        "2001:db8::1: refusal 10: ",
        &["lookup", only_v4.path(), "2001:db8::1"],
    );
}

#[test]
fn list_writes_a_line_for_each_network() {
    let file = File::new("list.mmdb", &image_a().bytes());
    answers("0.0.0.0/1 {}\n", &["list", file.path()]);
    answers(
        "0.0.0.0/1 {}\n128.0.0.0/1 -\n",
        &["list", file.path(), "--without-data"],
    );
    answers("", &["list", file.path(), "--skip-empty"]);
    answers("0.0.0.0/1 {}\n", &["list", file.path(), "10.0.0.0/8"]);
    fails("refusal 10: ", &["list", file.path(), "2001:db8::/32"]);
    let desk = File::new("list6.mmdb", &night_desk().bytes());
    assert_eq!(run(&["list", desk.path()]).1.lines().count(), 4);
    assert_eq!(
        run(&["list", desk.path(), "--aliases"]).1.lines().count(),
        7
    );
    let (_, out, _) = run(&["list", desk.path(), "203.0.113.9"]);
    assert!(
        out.starts_with("203.0.113.0/24 {\"nurse\": \"Ana Pires\", "),
        "{out}"
    );
}

#[test]
fn list_goes_on_after_errors() {
    // 0/2 leads nowhere, 64/2 to a text past the section, 128/1 to a number
    let nodes = vec![
        [Record::Node(1), Record::Data(0)],
        [Record::Data(9), Record::Data(2)],
    ];
    let image = Image::new(4, 24, nodes, vec![0xa1, 7, 0x45]);
    let file = File::new("errors.mmdb", &image.bytes());
    let (status, out, error) = run(&["list", file.path()]);
    assert_eq!((status, &out[..]), (2, "128.0.0.0/1 7\n"));
    let told: Vec<&str> = error.lines().collect();
    assert_eq!(told.len(), 2);
    assert!(told[0].contains(": refusal 11: "), "{error}");
    assert!(told[1].contains(": 64.0.0.0/2: refusal 14: "), "{error}");
}

#[test]
fn verify_and_metadata() {
    let file = File::new("verify.mmdb", &night_desk().bytes());
    answers("sound, with 3 distinct records\n", &["verify", file.path()]);
    answers(
        "database_type: \"Night-Desk\"\ndescription \"de\": \"Welche Pflegefachfrau wohin fährt\"\n\
         description \"en\": \"Which nurse drives where\"\nlanguages: \"de\" \"en\"\nbuild_epoch: 1794787200\n\
         build_time: 2026-11-16T00:00:00Z\nip_version: 6\nnode_count: 220\nrecord_size: 28\nbinary_format_version: 2.0\n",
        &["metadata", file.path()],
    );
    let mut image = image_a();
    image.separator[3] = 1;
    let file = File::new("separator.mmdb", &image.bytes());
    fails("separator.mmdb: refusal 20: ", &["verify", file.path()]);
}

#[test]
fn build_times_are_shown_as_dates() {
    for (seconds, date) in [
        (0, "1970-01-01T00:00:00Z"),
        (951_782_399, "2000-02-28T23:59:59Z"),
        (951_782_400, "2000-02-29T00:00:00Z"),
        (951_868_800, "2000-03-01T00:00:00Z"),
        (1_709_251_199, "2024-02-29T23:59:59Z"),
        (4_107_542_399, "2100-02-28T23:59:59Z"),
        (4_107_542_400, "2100-03-01T00:00:00Z"),
        ((1 << 63) - 1, "292277026596-12-04T15:30:07Z"),
    ] {
        let image = image_a().with("build_epoch", u64(seconds));
        let file = File::new(&format!("date{seconds}.mmdb"), &image.bytes());
        let (_, out, _) = run(&["metadata", file.path()]);
        assert!(
            out.contains(&format!("build_time: {date}\n")),
            "{seconds}: {out}"
        );
    }
}

#[test]
fn texts_of_an_image_do_not_reach_the_terminal_as_they_are() {
    let image = image_a().with("database_type", text("\u{1b}[2J"));
    let file = File::new("escape.mmdb", &image.bytes());
    let (_, out, _) = run(&["metadata", file.path()]);
    assert!(out.starts_with("database_type: \"\\u001b[2J\"\n"));
}

#[test]
fn what_goes_wrong_is_told_with_status_2() {
    let broken = File::new("broken.mmdb", b"no image");
    for name in ["age", "verify", "metadata", "list"] {
        fails(
            "broken.mmdb: refusal 1: the image has no metadata marker",
            &[name, broken.path()],
        );
        fails("no/such/file: ", &[name, "no/such/file"]);
        fails("takes a file", &[name]);
        fails("too many", &[name, "a", "203.0.113.9", "b"]);
    }
    fails("a command is missing", &[]);
    fails("no command \"find\"", &["find", "x"]);
    fails("no option \"--all\"", &["list", "x", "--all"]);
    fails("--max does not go with list", &["list", "x", "--max", "5"]);
    fails("--max takes", &["age", "x", "--max"]);
    fails("--max takes", &["age", "x", "--max", "-5"]);
    fails(
        "--max takes",
        &["age", "x", "--max", "99999999999999999999"],
    );
    fails("lookup takes an address", &["lookup", "x"]);
    fails("\"here\" is no network", &["list", "x", "here"]);
    fails("refusal 16: ", &["list", "x", "192.0.2.0/33"]);
    // after -- a word is a file even if it begins with -
    fails("--help: ", &["verify", "--", "--help"]);
}

#[test]
fn help_and_version() {
    let (status, out, _) = run(&["--help"]);
    assert_eq!(status, 0);
    assert!(out.contains("ermopinaw age FILE [--max SECONDS]"));
    assert_eq!(run(&["list", "-h"]).1, out);
    answers(
        concat!("ermopinaw ", env!("CARGO_PKG_VERSION"), "\n"),
        &["--version"],
    );
}

#[cfg(unix)]
#[test]
fn file_names_need_not_be_utf8() {
    use std::os::unix::ffi::OsStrExt;
    let name = OsStr::from_bytes(b"no\xffsuch");
    let (status, _, error) = run(&[OsStr::new("verify"), name]);
    assert_eq!(status, 2);
    assert!(error.starts_with("ermopinaw: no\u{fffd}such: "), "{error}");
}

#[test]
fn a_reader_that_goes_away_does_not_change_the_verdict() {
    let file = File::new("verdict.mmdb", &image_a().bytes());
    let mut child = command()
        .args(["age", file.path(), "--max", "5"])
        .stdout(Stdio::piped())
        .spawn()
        .unwrap();
    drop(child.stdout.take());
    assert_eq!(child.wait().unwrap().code(), Some(1));
}

#[cfg(target_os = "linux")]
#[test]
fn an_output_that_is_full_is_told() {
    let file = File::new("full.mmdb", &image_a().bytes());
    let full = fs::OpenOptions::new()
        .write(true)
        .open("/dev/full")
        .unwrap();
    let done = command()
        .args(["metadata", file.path()])
        .stdout(full)
        .output()
        .unwrap();
    assert_eq!(done.status.code(), Some(2));
    assert!(String::from_utf8(done.stderr)
        .unwrap()
        .starts_with("ermopinaw: standard output: "));
}

#[test]
fn a_reader_that_goes_away_ends_it_quietly() {
    let mut tree = Tree::default();
    for address in 0..20_000_u32 {
        tree.put_v4(
            [10, 0, (address >> 8) as u8, address as u8],
            32,
            Record::Data(address % 2 * 3),
        );
    }
    let data = [u16(1000), u16(2000)].concat();
    let file = File::new("pipe.mmdb", &Image::new(4, 32, tree.nodes, data).bytes());
    let mut child = command()
        .args(["list", file.path()])
        .stdout(Stdio::piped())
        .stderr(Stdio::piped())
        .spawn()
        .unwrap();
    let mut first = [0; 12];
    let mut out = child.stdout.take().unwrap();
    out.read_exact(&mut first).unwrap();
    drop(out);
    let done = child.wait_with_output().unwrap();
    assert_eq!(String::from_utf8(done.stderr).unwrap(), "");
    assert_eq!(done.status.code(), Some(0));
}
