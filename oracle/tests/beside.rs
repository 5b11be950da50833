//! Programs that answer otherwise are found out, and the smallest text is found that shows it.

use std::fs;
use std::os::unix::fs::PermissionsExt;
use std::path::{Path, PathBuf};
use std::time::Duration;
use uluvoli_oracle::beside::mutate::Stock;
use uluvoli_oracle::beside::{Beside, LIMIT, shrink};
use uluvoli_oracle::filter::{INSPECT, REPLAY, SALVAGE};
use uluvoli_oracle::inspections;
use uluvoli_oracle::random::Random;
use uluvoli_oracle::replay::replay;
use uluvoli_oracle::salvage;
use uluvoli_oracle::texts::{self, Text};

/// A command that runs the oracle's own programs and puts what they print through a filter.
fn filtered(name: &str, filter: &str) -> PathBuf {
    let programs = Path::new(env!("CARGO_BIN_EXE_traces")).parent().unwrap();
    let run = std::env::temp_dir().join(format!("uluvoli-{name}-{}", std::process::id()));
    // The proved programs `test_traces` and `test_inspect` are `traces` here.
    let text = format!(
        "#!/bin/sh\ncase $1 in\ntest_traces) set -- traces ;;\n\
         test_inspect) set -- traces --inspect ;;\nesac\n\
         name=$1\nshift\n\"{}/$name\" \"$@\" | {filter}\n",
        programs.display()
    );
    fs::write(&run, text).unwrap();
    fs::set_permissions(&run, fs::Permissions::from_mode(0o755)).unwrap();
    run
}

/// The oracle's own programs answer as the oracle, by files and by pieces.
#[test]
fn itself() {
    let run = filtered("itself", "cat");
    let beside = Beside::new(&REPLAY, &run, LIMIT).unwrap();
    let (texts, _) = texts::all(400, 3);
    beside.agree(&texts).unwrap();
    let mut random = Random::new(4);
    for text in texts.iter().step_by(40) {
        beside.agree_piped(&mut random, text).unwrap();
    }
    fs::remove_file(run).unwrap();
}

/// So do they for texts with questions.
#[test]
fn itself_asked() {
    let run = filtered("asked", "cat");
    let beside = Beside::new(&INSPECT, &run, LIMIT).unwrap();
    let (texts, _) = inspections::all(200, 3);
    beside.agree(&texts).unwrap();
    let mut random = Random::new(4);
    for text in texts.iter().step_by(20) {
        beside.agree_piped(&mut random, text).unwrap();
    }
    fs::remove_file(run).unwrap();
}

/// So do they for damaged images.
#[test]
fn itself_salvaged() {
    let run = filtered("salvaged", "cat");
    let beside = Beside::new(&SALVAGE, &run, LIMIT).unwrap();
    let (texts, _) = salvage::texts::all(200, 3);
    beside.agree(&texts).unwrap();
    let mut random = Random::new(4);
    for text in texts.iter().step_by(20) {
        beside.agree_piped(&mut random, text).unwrap();
    }
    fs::remove_file(run).unwrap();
}

/// A program that tells a packet past the end otherwise is found out, by a text of a card, an area and a question.
#[test]
fn another_packet() {
    let run = filtered("packet", r"sed 's/^list\t!\t45/list\t000000/'");
    let beside = Beside::new(&INSPECT, &run, LIMIT).unwrap();
    let (texts, _) = inspections::all(150, 3);
    assert!(beside.agree(&texts).is_err());
    let kept = fs::read(beside.kept()).unwrap();
    assert_eq!(kept.split(|&byte| byte == b'\n').count(), 3);
    fs::remove_file(beside.kept()).unwrap();
    fs::remove_file(run).unwrap();
}

/// A program that prints one byte otherwise is found out at the first text that shows it.
#[test]
fn another_answer() {
    let run = filtered("another", r"sed 's/\tA8\t/\tA9\t/'");
    let beside = Beside::new(&REPLAY, &run, LIMIT).unwrap();
    let (texts, _) = texts::all(300, 3);
    let first = texts.iter().position(|text| text.output.contains("\tA8\t"));
    let wrong = beside.first_wrong(&texts).unwrap();
    assert_eq!(wrong.map(|wrong| wrong.at), first);
    assert!(beside.agree(&texts).is_err());
    assert!(beside.agree_piped(&mut Random::new(1), &texts[0]).is_err());
    fs::remove_file(beside.kept()).unwrap();
    fs::remove_file(run).unwrap();
}

/// A program that says too much, that stops early, or that does not end is found out.
#[test]
fn other_ends() {
    let texts = ["", "\n", "card\t0001\t0000\n", "R"].map(|text| Text::of(text.into()));
    for (name, filter, at) in [
        ("more", "sed 's/^== 0003/one more line\\n&/'", 1),
        ("after", "cat; echo", 3),
        ("less", "head -n 3", 1),
        ("fails", "cat; exit 1", 3),
        ("hangs", "head -n 3; sleep 600", 1),
    ] {
        let run = filtered(name, filter);
        let beside = Beside::new(&REPLAY, &run, Duration::from_secs(2)).unwrap();
        let wrong = beside.first_wrong(&texts).unwrap();
        assert_eq!(wrong.map(|wrong| wrong.at), Some(at), "{name}");
        fs::remove_file(run).unwrap();
    }
}

/// What is left of a large text shows the same and has no line too many.
#[test]
fn smallest() {
    let (texts, _) = texts::all(900, 2);
    let large = texts.iter().filter(|text| text.output.contains("\tAF\t"));
    let large = large.max_by_key(|text| text.input.len()).unwrap();
    assert!(large.input.len() > 60_000);
    let mut shows = |inputs: &[Vec<u8>]| {
        let shown = |input: &Vec<u8>| replay(input).contains("\tAF\t");
        Ok(inputs.iter().position(shown))
    };
    let small = shrink::smallest(large.input.clone(), &mut shows).unwrap();
    assert!(replay(&small).contains("\tAF\t"));
    let lines = small.split(|&byte| byte == b'\n').count();
    assert!(lines <= 4, "{}", small.escape_ascii());
    assert!(small.len() < 600, "{}", small.escape_ascii());
}

/// Changed texts with questions are answered, and most of them get as far as one.
#[test]
fn changed_asked() {
    let texts: Vec<Text> = Stock::new(&INSPECT, 1).take(1_000).collect();
    let ended = texts.iter().filter(|text| text.output.contains("image"));
    let ended = ended.count();
    assert!((30..500).contains(&ended), "{ended}");
    assert!(texts.iter().any(|text| text.output.contains("?\t")));
}

/// Changed texts are answered, and most of them get as far as a request.
#[test]
fn changed() {
    let texts: Vec<Text> = Stock::new(&REPLAY, 1).take(1_500).collect();
    let refused = texts.iter().filter(|text| text.output.starts_with("image"));
    let refused = refused.count();
    assert!((100..750).contains(&refused), "{refused}");
    assert!(texts.iter().any(|text| text.input.len() > 300_000));
    let again = Stock::new(&REPLAY, 1).take(1_500);
    assert!(
        again
            .zip(&texts)
            .all(|(one, other)| one.input == other.input)
    );
}
