//! Scripts in words: the notation of docs/SCRIPTS.md, held against the tool
//! that reads it, tools/scenes.

use outside::compare::{compare, Plan};
use outside::cover::Cover;
use outside::plan;
use outside::program::Program;
use outside::script::lines;
use outside::words::{answer_in_words, laid_out, piece_in_words, script_in_words};
use std::fs;
use std::io::Write;
use std::path::{Path, PathBuf};
use std::process::{Command, Stdio};
use std::time::Duration;

const OUTSIDE: &str = env!("CARGO_BIN_EXE_outside");

/// What tools/scenes prints; it must not find anything wrong.
fn scenes(words: &[&str], input: &[u8]) -> Vec<u8> {
    let tool = Path::new(env!("CARGO_MANIFEST_DIR")).join("../../tools/scenes");
    let mut child = Command::new(tool)
        .args(words)
        .stdin(Stdio::piped())
        .stdout(Stdio::piped())
        .spawn()
        .expect("tools/scenes runs: it needs python3");
    child.stdin.take().expect("a pipe").write_all(input).expect("it reads");
    let done = child.wait_with_output().expect("it ends");
    assert!(done.status.success(), "tools/scenes {words:?} refused it");
    done.stdout
}

/// A folder for one test, empty at first.
fn folder(name: &str) -> PathBuf {
    let path = Path::new(env!("CARGO_TARGET_TMPDIR")).join(name);
    let _ = fs::remove_dir_all(&path); // it may not be there
    fs::create_dir_all(&path).expect("a folder can be made");
    path
}

fn hex(text: &str) -> Vec<u8> {
    let digits: Vec<u8> = text.bytes().filter(|byte| *byte != b' ').collect();
    let pairs = digits.chunks(2).map(|pair| std::str::from_utf8(pair).expect("digits"));
    pairs.map(|pair| u8::from_str_radix(pair, 16).expect("digits")).collect()
}

/// A record of a kind with a field: its data, and filler that nobody reads.
fn with_field(front: &str, data: &str, field: usize) -> Vec<u8> {
    let mut record = hex(front);
    let data = hex(data);
    record.push(data.len() as u8);
    record.extend(&data);
    record.resize(6 + field, 0x5a);
    record
}

#[test]
fn records() {
    let make = "01 00 fffffff6 00000032 00000014 0004 02 0000012c 00000064 000001f4 000003e8";
    let header = "0007 00000fad 00001391 ffffd8f1";
    let stamps = "number 7 sent 4013 echo 5009 receipt 2^32-9999";
    let message = |data: &str| with_field("07 00000064", data, 128);
    for (record, words) in [
        (
            hex(make),
            "make initiator at 2^32-10 age 50 spread 20 jump 4 errors 2 silence 300 life-sign 100 \
             wait 500 retry 1000"
                .to_string(),
        ),
        (hex("02 00000064"), "tick 100".to_string()),
        (hex("03 ffffd8f0"), "connect 4294957296".to_string()),
        (hex("04 ffffd8f1"), "confirm 2^32-9999".to_string()),
        (hex("05 00000000"), "disconnect 0".to_string()),
        (with_field("06 00000064", "c0ffee", 100), "data 100 c0ffee".to_string()),
        (with_field("06 00000064", "", 100), "data 100 empty".to_string()),
        (with_field("06 00000064", "01 0000000000 02", 100), "data 100 01 00*5 02".to_string()),
        (message(&format!("01 {header}")), format!("message 100 start {stamps}")),
        (message(&format!("02 {header}")), format!("message 100 answ1 {stamps}")),
        (message(&format!("03 {header}")), format!("message 100 answ2 {stamps}")),
        (
            message(&format!("04 {header} fffffc15 000003e4")),
            format!("message 100 est {stamps} minimum -1003 maximum 996"),
        ),
        (message(&format!("05 {header}")), format!("message 100 end {stamps}")),
        (message(&format!("06 {header} 02")), format!("message 100 life-sign {stamps}")),
        (message(&format!("06 {header} 03 aa")), format!("message 100 train {stamps} data aa")),
        (message("0102"), "message 100 bytes 0102".to_string()),
        (message(""), "message 100 bytes empty".to_string()),
        (hex("09"), "record 09".to_string()),
        (hex("02 000000"), "record 02000000".to_string()),
    ] {
        assert_eq!(piece_in_words(&record), words);
    }
}

#[test]
fn answers() {
    for (line, words) in [
        ("0", "0"),
        ("12 release down", "12 release down"),
        ("13 data c0ffee error", "13 data c0ffee error"),
        (
            "0 send 010000000000670000000000000000",
            "0 send start number 0 sent 103 echo 0 receipt 0",
        ),
        ("bad record", "bad record"),
        ("what is this", "what is this"),
    ] {
        assert_eq!(answer_in_words(line), words);
    }
    assert_eq!(laid_out("tick 100", "0 ask"), "tick 100                        -> 0 ask");
}

#[test]
fn the_same_words_as_the_tool_for_scenes() {
    let folder = folder("same-words");
    let printed = folder.join("lines");
    for seed in 1..=12 {
        let script = plan::script(seed);
        fs::write(&printed, lines(&script)).expect("it can be written");
        let lines_file = printed.to_str().expect("a path in UTF-8");
        let tool = scenes(&["text", "--plain", "-", lines_file], &script);
        let words = script_in_words(&script, &lines(&script));
        let first = words
            .lines()
            .zip(String::from_utf8_lossy(&tool).lines().map(str::to_string))
            .find(|(ours, theirs)| ours != theirs)
            .map(|(ours, theirs)| format!("{ours:?} and {theirs:?}"));
        assert_eq!(first, None, "seed {seed}: the first words that differ");
        assert_eq!(words.as_bytes(), tool, "seed {seed}");
    }
}

/// A program that takes an old message for a handled one. What is told about
/// it is pasted into a scene, and the scene is as good as any.
#[test]
fn a_difference_can_be_pasted_into_a_scene() {
    let folder = folder("pasted");
    let wrong = format!("{OUTSIDE} sunday | sed 's/^9 error$/0/'");
    let words = ["sh", "-c", &wrong].map(str::to_string).to_vec();
    let program = Program { words, patience: Duration::from_secs(60) };
    let plan = Plan { scripts: 20, seed: 1, long: false };
    let told = compare(&program, &plan, &mut Cover::default(), &folder).expect_err("a difference");
    assert!(told.starts_with("# seed "), "{told}");
    assert!(told.contains("\n# expected \"9 error\\n\"\n# printed  \"0\\n\"\n"), "{told}");
    assert!(told.ends_with("-> 9 error"), "{told}");

    let pasted = format!("# A scene of my own.\n{told}\n");
    let records = scenes(&["bytes", "-"], pasted.as_bytes());
    let answers = scenes(&["lines", "-"], pasted.as_bytes());
    assert_eq!(lines(&records).as_bytes(), answers);

    let kept = fs::read_dir(&folder).expect("a folder").map(|entry| entry.expect("a file").path());
    let mut kept: Vec<PathBuf> = kept.collect();
    kept.sort();
    let [script, text] = &kept[..] else { panic!("a script and its words are kept: {kept:?}") };
    let script = fs::read(script).expect("a script");
    let text = fs::read(text).expect("a text");
    assert_eq!(scenes(&["lines", "-"], &text), lines(&script).as_bytes());
}
