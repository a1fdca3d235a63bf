//! The number of each refusal that can be met, by hand-made cases. 7, 15 and 20 cannot: the crate
//! lends more where the library asks for it.

use nitrasovy::Refusal;
use nitrasovy::aiger_obligation::{
    AigerInputPredicate, AigerOutcome, AigerTransition, parse_ascii_aiger_transition,
    relation_row_completeness_cnf, terminal_completeness_cnf, transducer_row_completeness_cnf,
};
use nitrasovy::composed_witness::{
    Cursor, WitnessCounts, compose_safety_witnesses_in, compose_safety_witnesses_v1, read_model,
    read_witness, take_literal,
};

/// The number of a refusal, 0 for acceptance.
fn number<T, E: Into<Refusal>>(answer: Result<T, E>) -> u8 {
    answer.map_or_else(|error| error.into().number(), |_| 0)
}

fn transition(text: &str) -> u8 {
    number(parse_ascii_aiger_transition(text.as_bytes()))
}

fn witness(text: &str) -> u8 {
    number(read_witness(text.as_bytes()))
}

fn composed(model: &str, witnesses: &[&str]) -> u8 {
    let witnesses: Vec<&[u8]> = witnesses.iter().map(|text| text.as_bytes()).collect();
    number(compose_safety_witnesses_v1(model.as_bytes(), &witnesses))
}

fn lock() -> AigerTransition {
    parse_ascii_aiger_transition(b"aag 3 1 1 1 1\n2\n4 6\n6\n6 4 2\n").expect("model K")
}

fn predicate(clauses: &[&[(usize, bool)]]) -> AigerInputPredicate {
    AigerInputPredicate {
        clauses: clauses.iter().map(|clause| clause.to_vec()).collect(),
    }
}

/// Each text is refused for this reason, by this reader.
fn each(read: fn(&str) -> u8, number: u8, texts: &[&str]) {
    for text in texts {
        assert_eq!(read(text), number, "{text:?}");
    }
}

/// A transition text after the header of a lock of one latch.
fn latch(line: &str) -> u8 {
    transition(&format!("aag 1 0 1 0 0\n{line}\n"))
}

/// A witness text of one input, with these lines after it.
fn symbols(lines: &str) -> u8 {
    witness(&format!("aag 1 1 0 0 0\n2\n{lines}\n"))
}

#[test]
fn transition_texts() {
    each(latch, 0, &["2 3", "2 3 1", "2 3\nany other line"]);
    each(latch, 3, &["2 3\n\u{e9}"]);
    let headers = "aig 1 0 1 0 0;aag 1 0 1 0;aag 1 0 1 0 0 0;aag 1 0 x 0 0;;\n";
    each(transition, 4, &headers.split(';').collect::<Vec<_>>());
    let counts = "aag 0 0 0 0 0;aag 2 0 1 0 0;aag 9 0 9 0 0;aag 66 65 1 0 0;aag 1 0 1 129 0;\
                  aag 1000001 0 1 0 1000000;aag 18446744073709551615 0 1 0 18446744073709551614";
    each(transition, 5, &counts.split(';').collect::<Vec<_>>());
    each(latch, 8, &["", "2", "2 3 5", "2 3 0 0", "2 x"]);
    each(latch, 11, &["2 4", "0 0", "3 2", "4 2"]);
    let long = vec![b'\n'; 16_777_217];
    assert_eq!(number(parse_ascii_aiger_transition(&long)), 3);
}

#[test]
fn witness_texts() {
    each(witness, 0, &["aag 0 0 0 0 0\n"]);
    each(witness, 3, &["", "aag 0 0 0 0 0", "aag 0 0 0 0 0\r\n"]);
    each(symbols, 3, &["c\n\u{80}"]);
    each(witness, 4, &["aag 0 0 0 0\n", "aag 00 0 0 0 0\n"]);
    each(witness, 5, &["aag 1 0 0 0 0\n"]);
    each(
        witness,
        6,
        &["aag 0 0 0 0 0 0 0 1\n", "aag 0 0 0 0 0 0 0 0 1\n"],
    );
    each(
        witness,
        8,
        &["aag 0 0 0 1 0\n", "aag 0 0 0 18446744073709551615 0\n"],
    );
    each(symbols, 9, &[" ", "", "i0", "i1 x", "x0 x", "i0 x\ni0 y"]);
    each(symbols, 10, &["c\n MAPPING 1", "c\nany\nINTERVENTION"]);
    each(witness, 11, &["aag 1 1 0 0 0\n4\n"]);
    let mapping = b"aag 0 0 0 0 0\nc\nMAPPING\n";
    assert_eq!(number(read_model(mapping)), 0);
}

#[test]
fn witness_counts() {
    let text = b"aag 4 1 2 3 1 1 1\n2\n4 2\n6 4\n2\n2\n3\n5\n7\n8 2 4\n";
    let counts = WitnessCounts {
        max_variable: 4,
        inputs: 1,
        latches: 2,
        outputs: 3,
        gates: 1,
        bads: 1,
        constraints: 1,
    };
    assert_eq!(read_witness(text), Ok(counts));
    assert_eq!(read_model(text), Ok(counts));
}

#[test]
fn records_and_steps() {
    assert_eq!(number(lock().validate()), 0);
    let mut wrong = lock();
    wrong.ands[0].left = 6;
    assert_eq!(number(wrong.validate()), 11);
    assert_eq!(number(wrong.evaluate(9, 9)), 11);
    assert_eq!(lock().evaluate(1, 1).ok(), Some((1, 1)));
    assert_eq!(lock().evaluate(1, 0).ok(), Some((0, 0)));
    assert_eq!(number(lock().evaluate(2, 0)), 12);
    assert_eq!(number(lock().evaluate(0, 2)), 12);
}

#[test]
fn predicates() {
    let row = |relevant: &[usize], clauses: &[&[(usize, bool)]]| {
        let answer = relation_row_completeness_cnf(&lock(), relevant, 0, &predicate(clauses), &[]);
        number(answer)
    };
    assert_eq!(row(&[0], &[&[(0, true)]]), 0);
    assert_eq!(row(&[], &[&[][..]; 64]), 0);
    assert_eq!(row(&[], &[&[][..]; 65]), 13);
    assert_eq!(row(&[1], &[]), 13);
    assert_eq!(row(&[0, 0], &[]), 13);
    assert_eq!(row(&[0; 65], &[]), 13);
    assert_eq!(row(&[0], &[&[(1, true)]]), 13);
    assert_eq!(row(&[0], &[&[(0, true); 1_024]]), 0);
    assert_eq!(row(&[0], &[&[(0, true); 1_000], &[(0, false); 25]]), 13);
}

#[test]
fn claimed_states() {
    let (lock, any) = (lock(), predicate(&[]));
    let row = |source, targets: &[usize]| {
        let row = relation_row_completeness_cnf(&lock, &[], source, &any, targets);
        number(row)
    };
    assert_eq!(row(1, &[0, 1]), 0);
    let wrong = [row(2, &[]), row(0, &[2]), row(0, &[1, 0]), row(0, &[1, 1])];
    assert_eq!(wrong, [14; 4]);
    let list = |bad, states: &[usize]| {
        let list = terminal_completeness_cnf(&lock, &[], &any, bad, states);
        number(list)
    };
    assert_eq!([list(0, &[0, 1]), list(1, &[]), list(0, &[2])], [0, 14, 14]);
}

#[test]
fn claimed_outcomes() {
    let (lock, any) = (lock(), predicate(&[]));
    let row = |observed: &[usize], claims: &[(usize, u128)]| {
        let claims = claims.iter();
        let claims = claims.map(|&(target, outputs)| AigerOutcome { target, outputs });
        let claims: Vec<_> = claims.collect();
        let row = transducer_row_completeness_cnf(&lock, &[], 0, &any, observed, &claims);
        number(row)
    };
    assert_eq!(row(&[0], &[(0, 0), (0, 1), (1, 0)]), 0);
    assert_eq!(row(&[1], &[]), 14);
    assert_eq!(row(&[0], &[(0, 2)]), 14);
    assert_eq!(row(&[0], &[(0, 1 << 64)]), 14);
    assert_eq!(row(&[0], &[(1, 0), (0, 1)]), 14);
    assert_eq!(row(&[], &[(0, 0); 65_537]), 14);
}

/// 65,536 outcomes are taken, one more is not, and no two are alike.
#[test]
fn many_outcomes() {
    let mut lock = lock();
    lock.outputs = vec![6; 17];
    let observed: Vec<usize> = (0..17).collect();
    let outcomes: Vec<_> = (0..65_537)
        .map(|outputs| AigerOutcome { target: 0, outputs })
        .collect();
    let row = |count| {
        let claims = &outcomes[..count];
        number(transducer_row_completeness_cnf(
            &lock,
            &[],
            0,
            &predicate(&[]),
            &observed,
            claims,
        ))
    };
    assert_eq!([row(65_536), row(65_537)], [0, 14]);
}

#[test]
fn compositions() {
    let model = "aag 1 0 1 0 0\n2 2\n";
    let one = "aag 1 0 1 1 0\n2 2\n2\n";
    let latch = |rest: &str| format!("aag 1 0 1 1 0\n2 2\n2\n{rest}");
    assert_eq!(composed(model, &[one, one]), 0);
    assert_eq!(composed(model, &[one]), 1);
    assert_eq!(composed(model, &vec![one; 65]), 1);
    let parts = [[0, one.len()], [1, one.len() - 1]];
    assert_eq!(
        number(compose_safety_witnesses_in(
            model.as_bytes(),
            one.as_bytes(),
            &parts
        )),
        2
    );
    assert_eq!(composed("aag 1 0 1 0 0\n2 2", &[one, one]), 3);
    assert_eq!(composed(model, &[one, ""]), 3);
    assert_eq!(composed(model, &["aag 1 1 0 0 0\n4\n", ""]), 11);
    for name in ["l0 = \n", "l0 = 0\n", "l0 = 3\n", "l0 = 4\n", "l0 = x\n"] {
        assert_eq!(composed(model, &[one, &latch(name)]), 16, "{name:?}");
    }
    assert_eq!(composed(model, &[one, "aag 1 0 1 1 0\n2 3\n2\n"]), 18);
    assert_eq!(composed(model, &[one, "aag 1 0 1 1 0\n2 2 1\n2\n"]), 18);
    assert_eq!(composed(model, &[one, "aag 1 0 1 0 0\n2 2\n"]), 19);
}

/// 2,000,000 inputs that no witness shares, and a gate behind them.
#[test]
fn a_gate_beyond_the_limit() {
    let witness = |gates: usize| {
        let mut text = format!("aag {} 1000000 0 1 {gates}\n", 1_000_000 + gates);
        (1..=1_000_000).for_each(|variable| text.push_str(&format!("{}\n", 2 * variable)));
        text.push_str("2\n");
        text.push_str(if gates == 1 { "2000002 2 4\n" } else { "" });
        text
    };
    let model = "aag 0 0 0 0 0\n";
    assert_eq!(composed(model, &[&witness(0), &witness(1)]), 17);
}

#[test]
fn literals() {
    let text = b"12\n07\n";
    let mut cursor = Cursor::default();
    assert_eq!(take_literal(text, &mut cursor).ok(), Some(12));
    assert_eq!(number(take_literal(text, &mut cursor)), 8);
    assert_eq!(cursor.at, 6);
    cursor.at = usize::MAX;
    assert_eq!(number(take_literal(text, &mut cursor)), 8);
    assert_eq!(cursor.at, usize::MAX);
}
