//! Bad input: the line is named, nothing is written, and the status is 1.

use std::fs;
use std::path::PathBuf;
use std::process::{Command, Output};

const EARS: &str = "2 8 2\n0 0 0 0 0 0\n";

/// Files of one test in a folder of their own.
struct Folder(PathBuf);

impl Folder {
    fn new(test: &str) -> Folder {
        let path = PathBuf::from(env!("CARGO_TARGET_TMPDIR")).join(test);
        fs::create_dir_all(&path).expect("a folder for the test");
        Folder(path)
    }

    fn file(&self, name: &str, text: impl AsRef<[u8]>) -> PathBuf {
        let path = self.0.join(name);
        fs::write(&path, text).expect("a file for the test");
        path
    }
}

fn run(files: &[&PathBuf]) -> Output {
    Command::new(env!("CARGO_BIN_EXE_player"))
        .args(files)
        .output()
        .expect("the player runs")
}

fn assert_refused(output: &Output, said: &str) {
    let error = String::from_utf8_lossy(&output.stderr);
    assert!(error.contains(said), "{error} says nothing of {said}");
    assert!(output.stdout.is_empty(), "nothing is written: {said}");
    assert_eq!(output.status.code(), Some(1));
}

#[test]
fn schedules() {
    let folder = Folder::new("schedules");
    let bad: [(&[u8], &str); 17] = [
        (b"", "line 1: there is none"),
        (b"\n", "line 1: it is empty"),
        (b"2 8\n", "line 1: it has 2 numbers"),
        (b"2 8 2 0 0 0\n", "line 1: it has 6 numbers"),
        (b"9 8 2\n", "line 1: refused by 2"),
        (b"2 1025 2\n", "line 1: refused by 2"),
        (b"2 8 0\n", "line 1: refused by 2"),
        (b"2 8 18446744073709551615\n", "line 1: refused by 2"),
        (b"2 8 2\n0 0 0 0 0\n", "line 2: it has 5 numbers"),
        (b"2 8 2\n0 0 0 0 0 0\n2 8 2\n", "line 3: it has 3 numbers"),
        (b"2 8 2\n\n0 0 0 0 0 0\n", "line 2: it is empty"),
        (
            b"2 8 2\n0 0  0 0 0 0\n",
            "line 2: numbers are parted by one space",
        ),
        (
            b"2 8 2\n0 0 0 0 0 0 \n",
            "line 2: numbers are parted by one space",
        ),
        (b"2 8 2\r\n0 0 0 0 0 0\r\n", "line 1: \"2\\r\" is no number"),
        (b"2 8 2\n0 0 0 -1 0 0\n", "line 2: \"-1\" is no number"),
        (b"2 8 2\n0 0 0 \xff 0 0\n", "line 2:"),
        (
            b"2 8 2\n0 0 0 18446744073709551616 0 0",
            "line 2: 18446744073709551616 is above",
        ),
    ];
    for (text, said) in bad {
        assert_refused(&run(&[&folder.file("schedule", text)]), said);
    }
}

#[test]
fn captions() {
    let folder = Folder::new("captions");
    let schedule = folder.file("schedule", EARS);
    let bad: [(&[u8], &str); 7] = [
        (b"0 no tab\n", "line 1: it has no tab"),
        (b"title\tEars\n\n", "line 2: it has no tab"),
        (
            b"title\tEars\ntitle\tEyes\n",
            "line 2: title has a text already",
        ),
        (b"0\tone\n0\ttwo\n", "line 2: 0 has a text already"),
        (
            b"1\tthere is one step only\n",
            "line 1: the schedule has no step 1",
        ),
        (b"one\ttext\n", "line 1: \"one\" is no step's number"),
        (b"0\t\xff\n", "line 1: it is not UTF-8"),
    ];
    for (text, said) in bad {
        let captions = folder.file("side", text);
        assert_refused(&run(&[&schedule, &captions]), said);
    }
}

#[test]
fn files_that_are_not_there() {
    let folder = Folder::new("none");
    let none = folder.0.join("none");
    let schedule = folder.file("schedule", EARS);
    assert_refused(&run(&[]), "usage: player SCHEDULE [CAPTIONS]");
    assert_refused(&run(&[&none]), "none: ");
    assert_refused(&run(&[&schedule, &none]), "none: ");
}

/// What is accepted: leading zeros, a last line without a newline, no step at all, a step of any numbers.
#[test]
fn accepted() {
    let folder = Folder::new("accepted");
    for text in [
        EARS,
        "02 8 2\n000 0 0 0 0 0",
        "1 1 1",
        "1 1 1\n9 99 9 9 9 9\n",
    ] {
        let output = run(&[&folder.file("schedule", text)]);
        assert!(
            output.status.success() && output.stderr.is_empty(),
            "{text}"
        );
        assert!(output.stdout.ends_with(b"</html>\n"), "{text}");
    }
}

/// The side file with the schedule's name is taken by itself; its text is no markup.
#[test]
fn the_side_file_beside_the_schedule() {
    let folder = Folder::new("beside");
    let schedule = folder.file("story.txt", EARS);
    folder.file(
        "story.txt.captions",
        "title\tLeft < right & \"both\"\n0\tIt begins.</script>\n",
    );
    let page = String::from_utf8(run(&[&schedule]).stdout).expect("text");
    assert!(page.contains("<title>Left &lt; right &amp; &quot;both&quot;</title>"));
    assert!(page.contains("<p class=\"caption\">It begins.&lt;/script&gt;</p>"));
    assert_eq!(page.matches("</script>").count(), 2);
}
