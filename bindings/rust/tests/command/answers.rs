//! What is accepted, and what is written then.

use crate::desk::*;
use nitrasovy::aiger_obligation::{
    AigerInputPredicate, AigerOutcome, parse_ascii_aiger_transition,
    transducer_row_completeness_cnf,
};

#[test]
fn helps_and_version() {
    for words in [&["--help"][..], &["-h"], &["help"]] {
        let help = run(words).accepted();
        for subcommand in ["read", "step", "row", "terminal", "compose"] {
            assert!(help.contains(&format!("\n  {subcommand} ")), "{help}");
            let own = run(&[subcommand, "--help"]).accepted();
            assert!(
                own.contains(&format!("usage: nitrasovy {subcommand} ")),
                "{own}"
            );
            assert!(own.contains("example"), "{own}");
            assert!(own.lines().all(|line| line.len() <= 100), "{own}");
        }
    }
    assert_eq!(run(&["--version"]).accepted(), "nitrasovy 0.1.0\n");
}

/// Every example of the help can be run, on files of these names.
#[test]
fn examples_of_the_help_are_accepted() {
    let texts = [
        ("lock.aag", LOCK),
        ("model.aag", MODEL),
        ("first.aag", FIRST),
        ("second.aag", SECOND),
    ];
    for (name, text) in texts {
        file(name, text);
    }
    let mut examples = 0;
    for subcommand in ["read", "step", "row", "terminal", "compose"] {
        let help = run(&[subcommand, "--help"]).accepted();
        let (_, after) = help.split_once("example").expect("an example");
        for line in after.lines() {
            let (_, words) = line.split_once("nitrasovy ").expect("a command");
            let folder = place("");
            shell(&format!("cd '{}' && \"$0\" {words}", folder.display()), "").accepted();
            examples += 1;
        }
    }
    assert_eq!(examples, 7);
}

#[test]
fn reading() {
    let lock = file("read.aag", LOCK);
    let counts = "variables 3\ninputs 1\nlatches 1\noutputs 1\ngates 1\n";
    assert_eq!(run(&["read", "--plain", &lock]).accepted(), counts);
    let table = run(&["read", &lock]).accepted();
    for line in [
        "gates               1",
        "       0        4             6",
        "Its states are 0 to 1",
    ] {
        assert!(table.contains(line), "{table}");
    }
    let witness = file("read-witness.aag", FIRST);
    let more = "variables 1\ninputs 0\nlatches 1\noutputs 1\ngates 0\nbads 0\nconstraints 0\n";
    assert_eq!(
        run(&["read", "--plain", "--witness", &witness]).accepted(),
        more
    );
    assert_eq!(
        run(&["read", "--model", "--plain", &witness]).accepted(),
        more
    );
    let mapping = "aag 0 0 0 0 0\nc\nMAPPING\n";
    run_on(mapping.as_bytes(), &["read", "--model", "-"]).accepted();
    run_on(mapping.as_bytes(), &["read", "--witness", "-"]).refused(10);
}

#[test]
fn stepping() {
    let lock = file("step.aag", LOCK);
    assert_eq!(
        run(&["step", "--plain", &lock, "1", "1"]).accepted(),
        "1 1\n"
    );
    assert_eq!(
        run(&["step", "--plain", &lock, "1", "0x0"]).accepted(),
        "0 0\n"
    );
    let table = run(&["step", &lock, "1", "1"]).accepted();
    assert!(
        table.contains("leads to state 1 (only latch 0 is 1)"),
        "{table}"
    );
    run(&["step", &lock, "2", "0"]).refused(12);
    run(&["step", &lock, "1", "2"]).refused(12);
}

#[test]
fn rows() {
    let lock = file("row.aag", LOCK);
    assert_eq!(run(&["row", "--plain", &lock, "1", "1"]).accepted(), ROW);
    assert_eq!(
        run(&["row", &lock, "1", "--plain", "--", "1"]).accepted(),
        ROW
    );
    assert_eq!(
        run_on(LOCK.as_bytes(), &["row", "-", "1", "1", "--plain"]).accepted(),
        ROW
    );
    let constant = b"aag 1 0 1 0 0\n2 0\n";
    let two = run_on(constant, &["row", "--plain", "-", "0", "0"]).accepted();
    assert_eq!(two, "rows 2\n0 1 0\n1 0\n");
    let table = run(&["row", &lock, "1", "1"]).accepted();
    assert!(
        table.contains("       3  input 0 is 0, latch 0 is 0, gate 6 is 1\n"),
        "{table}"
    );
    run(&["row", &lock, "2"]).refused(14);
    run(&["row", &lock, "0", "1", "0"]).refused(14);
}

#[test]
fn conditions() {
    let lock = file("when.aag", "aag 4 3 1 0 0\n2\n4\n6\n8 2\n");
    let clauses = |words: &[&str]| {
        let all = [&["row", "--plain", &lock, "0"], words].concat();
        let out = run(&all).accepted();
        out.lines().skip(2).map(str::to_string).collect::<Vec<_>>()
    };
    assert_eq!(clauses(&["--when", "0=1 or 2=0"]), ["1 2 1 4"]);
    assert_eq!(
        clauses(&["--when=2=1", "--when", "1=0"]),
        ["1 1 5", "2 1 2"]
    );
    assert_eq!(clauses(&["--when", "2=1", "--inputs", "1,2"]), ["1 1 5"]);
    assert_eq!(clauses(&["--when", "never"]), ["1 0"]);
    for (wrong, inputs) in [
        ("3=1", "0,1,2"),
        ("0=1", "1,2"),
        ("0=1", "none"),
        ("0=1", "1,0"),
        ("0=1", "0,3"),
    ] {
        run(&["row", &lock, "0", "--when", wrong, "--inputs", inputs]).refused(13);
    }
    run(&["row", &lock, "0", "--when", "3=1"]).refused(13);
    run(&["terminal", &lock, "0"]).refused(14);
}

/// A row with outputs has the clauses that the library gives.
#[test]
fn outcomes() {
    let text = "aag 3 1 1 3 1\n2\n4 6\n6\n2\n5\n6 4 2\n";
    file("outcomes.aag", text);
    let model = parse_ascii_aiger_transition(text.as_bytes()).expect("a lock");
    let any = AigerInputPredicate { clauses: vec![] };
    let claims = [(0, 0), (0, 2), (1, 3)].map(|(target, outputs)| AigerOutcome { target, outputs });
    let made = transducer_row_completeness_cnf(&model, &[], 1, &any, &[0, 2], &claims);
    let word = |&(variable, positive): &(usize, bool)| 2 * variable + usize::from(positive);
    let made = made.expect("made").into_iter();
    let made: Vec<Vec<usize>> = made
        .map(|clause| clause.0.iter().map(word).collect())
        .collect();
    let out = line("row --plain --outputs 0,2 outcomes.aag 1 0:0 0:0x2 1:3").accepted();
    let number = |word: &str| word.parse().expect("a number");
    let literals = |line: &str| line.split(' ').skip(2).map(number).collect();
    let found: Vec<Vec<usize>> = out.lines().skip(1).map(literals).collect();
    assert_eq!(found, made);
    line("row --outputs none outcomes.aag 1 0:0 1:0").accepted();
    line("row --outputs 0,2 outcomes.aag 1 0:4").refused(14);
    line("row --outputs 3 outcomes.aag 1").refused(14);
    line("row --outputs 0 outcomes.aag 1 0:0x100000000000000000").refused(14);
}

#[test]
fn terminal_lists() {
    let lock = file("terminal.aag", LOCK);
    let all = run(&["terminal", "--plain", &lock, "0", "0", "1"]).accepted();
    assert_eq!(
        all,
        "rows 6\n0 2 3 4\n2 2 1 4\n4 3 0 2 5\n7 1 3\n8 1 2\n9 1 4\n"
    );
    let table = run(&["terminal", &lock, "0", "0"]).accepted();
    assert!(
        table.contains("in which some input leaves that output 0"),
        "{table}"
    );
}

#[test]
fn composing() {
    let [model, first, second] = [("c0", MODEL), ("c1", FIRST), ("c2", SECOND)]
        .map(|(name, text)| file(&format!("{name}.aag"), text));
    assert_eq!(
        run(&["compose", &model, &first, &second]).accepted(),
        COMPOSED
    );
    let piped = run_on(FIRST.as_bytes(), &["compose", &model, "-", &second]);
    assert_eq!(piped.accepted(), COMPOSED);
    let made = file("made.aag", "old");
    run(&["compose", "--output", &made, &model, &first]).refused(1);
    assert_eq!(std::fs::read_to_string(&made).expect("the old file"), "old");
    assert_eq!(
        run(&["compose", "--output", &made, &model, &first, &second]).accepted(),
        ""
    );
    assert_eq!(
        std::fs::read_to_string(&made).expect("the new file"),
        COMPOSED
    );
    let wrong = file("wrong-witness.aag", "aag 1 0 1 1 0\n2 2\n");
    let shown = run(&["compose", &model, &first, &wrong, &wrong]);
    assert!(
        shown.error.ends_with(&format!(" (in {wrong})\n")),
        "{}",
        shown.error
    );
    shown.refused(8);
    let unlike = file("unlike.aag", "aag 1 0 1 1 0\n2 3\n2\n");
    let shown = run(&["compose", &model, &first, &unlike]);
    assert!(!shown.error.contains("(in "), "{}", shown.error);
    shown.refused(18);
    let absent = vec!["absent"; 65];
    run(&[&["compose", &model], &absent[..]].concat()).refused(1);
}

/// A lock of 1,000,000 variables: 2,999,998 clauses, of which none is lost.
#[test]
fn the_largest_lock() {
    let lock = file("largest.aag", largest_lock());
    assert_eq!(
        run(&["step", "--plain", &lock, "1", "0"]).accepted(),
        "0 0\n"
    );
    let out = run(&["row", "--plain", &lock, "1"]).accepted();
    let (first, rest) = out.split_once('\n').expect("lines");
    let count: usize = first
        .strip_prefix("rows ")
        .expect("rows")
        .parse()
        .expect("a count");
    assert_eq!((rest.lines().count(), rest.ends_with('\n')), (count, true));
}
