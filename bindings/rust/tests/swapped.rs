//! A published file that uses the original's module compiles, unchanged, with the crate's in its
//! place, and runs.

#![cfg(published_user)]

pub use nitrasovy::aiger_obligation;

include!(concat!(env!("OUT_DIR"), "/published_user.rs"));

/// In the place of a solver: a proof is what the clauses look like.
mod unsat_proof {
    use nitrasovy::unsat_proof::CnfClause;

    pub const MAX_UNSAT_PROOF_BYTES: usize = 1024 * 1024;

    pub fn generate_unsat_proof(clauses: &[CnfClause]) -> Result<Vec<u8>, String> {
        Ok(format!("{clauses:?}").into_bytes())
    }

    pub fn verify_unsat_proof(clauses: &[CnfClause], proof: &[u8]) -> Result<(), String> {
        match proof == generate_unsat_proof(clauses)? {
            true => Ok(()),
            false => Err("other clauses".into()),
        }
    }
}

#[test]
fn a_user_of_the_original_takes_the_crate() {
    let text = b"aag 3 1 1 1 1\n2\n4 6\n6\n6 4 2\n";
    let lock = aiger_obligation::parse_ascii_aiger_transition(text).expect("model K");
    let made = controller_transducer::produce_controller_transducer(&lock, [7; 32], &[0], &[0]);
    let mut made = made.expect("a transducer of a lock");
    // Input 0 leads to state 0 from both states, and input 1 keeps the state.
    let outcomes = |cell: &controller_transducer::ControllerTransducerCell| {
        let rows = cell.rows.iter();
        rows.map(|row| (row.outcome.target, row.outcome.outputs))
            .collect()
    };
    let found: Vec<Vec<_>> = made.cells.iter().map(outcomes).collect();
    assert_eq!(found, [[(0, 0), (0, 0)], [(0, 0), (1, 1)]]);
    let verify = controller_transducer::verify_controller_transducer;
    assert!(verify(&lock, [7; 32], &made).is_ok());
    made.cells[1].rows[1].proof.push(b' ');
    assert!(verify(&lock, [7; 32], &made).is_err());
}
