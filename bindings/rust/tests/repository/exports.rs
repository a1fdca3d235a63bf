//! Exports are declared alike.

use super::{finds_each, passes};

#[test]
fn exports_are_declared_alike() {
    passes("exports");
}

#[test]
fn an_export_that_is_declared_otherwise_is_found() {
    let header = "include/nitrasovy.h";
    let literals = "crates/nitrasovy/src/literals.rt";
    let exports = "crates/nitrasovy_c/src/lib.rt";
    let probes = "crates/probe_c/src/lib.rt";
    let changes = [
        (
            header,
            "uint64_t state, uint64_t input",
            "uint64_t input, uint64_t state",
            "call nit_step ",
        ),
        (
            header,
            "const uint8_t *witnesses,",
            "uint8_t *witnesses,",
            "call nit_compose ",
        ),
        (
            header,
            "const uint32_t *predicate_literals",
            "const uint64_t *predicate_literals",
            "call nit_terminal ",
        ),
        (
            header,
            "NitTaken nit_take_literal",
            "NitMade nit_take_literal",
            "call nit_take_literal ",
        ),
        (
            header,
            "uint64_t outputs[128]",
            "uint64_t outputs[64]",
            "struct NitTransition",
        ),
        (
            "crates/model/src/lib.rt",
            "pub and_count: usize",
            "pub gate_count: usize",
            "struct NitTransition",
        ),
        (
            exports,
            "cursor: &mut NitCursor",
            "cursor: &NitCursor",
            "call nit_take_literal ",
        ),
        (literals, "#[repr(C)]", "", "has a struct NitCursor, and"),
        (
            exports,
            "#[unsafe(no_mangle)]",
            "",
            "not both public and no_mangle",
        ),
        (
            literals,
            "#[unsafe(no_mangle)]",
            "",
            "nitrasovy_c has not the nit_take_literal of",
        ),
        (
            literals,
            "cursor: &mut NitCursor",
            "cursor: &NitCursor",
            "nitrasovy_c has not the nit_take_literal of",
        ),
        (
            exports,
            "(length work.old) state input)",
            "(length work.old) input state)",
            "nitrasovy_c has not the nit_step of",
        ),
        (
            exports,
            "Rattle.lists.specs.Words.{words_of}",
            "Rattle.lists.specs.Bits.{words_of}",
            "nitrasovy_c has not the nit_step_records of",
        ),
        (
            exports,
            "{CountsFlat}",
            "{CountsWidely as CountsFlat}",
            "nitrasovy_c has not the nit_read_witness of",
        ),
        (
            exports,
            "    ensures { CountsFlat",
            "    requires { witness ≡ true }\n    ensures { CountsFlat",
            "nitrasovy_c has not the nit_read_witness of",
        ),
        (
            probes,
            "fn probe_same(",
            "fn probe_sames(",
            "probe_c has not the probe_same of",
        ),
        (
            probes,
            "{ result ≡ length (decimal n) }",
            "{ result ≡ length (decimal result) }",
            "probe_c has not the probe_decimal_length of",
        ),
        (
            "bindings/rust/src/library.rs",
            "fn nit_terminal(",
            "fn nit_terminals(",
            "library.rs does not declare nit_terminal",
        ),
        (
            "README.md",
            "`nit_compose`",
            "nit_compose",
            "README.md has no nit_compose",
        ),
        (
            "docs/PROVED.md",
            "nit_compose",
            "nit_composed",
            "docs/PROVED.md does not name nit_compose",
        ),
    ];
    finds_each("exports", "exports", &changes);
}
