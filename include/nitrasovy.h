/* The calls of the proved library libnitrasovy.a (`tools/archive nitrasovy`) for C and C++.
 *
 * Every call takes any bytes, numbers and lengths. It answers with `reason` 0, or with the number of the first reason below that applies; then
 * every other field is 0. A slice is a pointer and a length in elements: the pointer is to that many readable elements, aligned, and not
 * null, also where the length is 0. Slices that a call writes (gates of the reader, work, pairs, literals, out, the cursor) are writable and
 * overlap nothing else. A `bool` is 0 or 1. The witness reader and the composer take some 300 KB of stack. Nothing more is asked.
 *
 * On a refusal result buffers (gates of the reader, pairs, literals, out) are as before. On acceptance elements past the result are as
 * before. Work words may hold anything at entry and are all 0 after every call.
 *
 * The contracts, proved for all arguments, are in crates/nitrasovy/src; docs/PROVED.md says where their definitions are. C11 or C++11.
 *
 * The reasons; docs/REQUIREMENTS.md has each as R9.1 to R9.20, in full. Of several that apply, the smallest number is the answer; but the
 * texts of a composition are gone through one by one, the model first, so that 3 to 11 of an earlier text come before those of a later one:
 *  1  not 2 to 64 witnesses
 *  2  witness pairs overlap, come out of order, or end outside their buffer
 *  3  a text is over 16,777,216 bytes long, or a byte in it is over 127; also, where a witness or a composition's model is read: it is empty,
 *     it has a byte 13, or its last byte is no line feed
 *  4  the header line: its first field is not `aag`, a number cannot be read, or there are not five counts (five to nine where a witness or a
 *     composition's model is read)
 *  5  the header's counts do not add up or are outside their limits
 *  6  the header counts justice or fairness properties
 *  7  too few gate words lent to the transition reader (three for each gate), or too few work words to it, a step or an obligation (M + 1)
 *  8  in the sections: no line, a line with another number of fields, a number that cannot be read, a wrong initializer
 *  9  among the symbols: a malformed line, an unknown kind, an index beyond its section, an input or latch that had a name already
 * 10  a comment of a witness begins with the word `MAPPING` or `INTERVENTION`
 * 11  a literal too large or in the wrong place, a second definition of a variable; a record outside the limits, or with too few gate words
 * 12  a step: no such state, or an input word that sets a bit without an input
 * 13  relevant inputs that are too many, do not rise or do not exist; a predicate of over 64 clauses or 1,024 literals, with pairs as in 2, or
 *     with a variable that is no relevant input
 * 14  no such source, claimed state, bad or observed output; claims or observed outputs that do not rise; an outcome with a
 *     bit set at place n or above, for n observed outputs; over 65,536 outcomes
 * 15  too few work words lent to the composer
 * 16  the text behind `= ` in a name is no number, or not the plain (even) literal of an input of the model, for an input, or of a latch
 * 17  the composition would need a gate beyond variable 2,000,000
 * 18  two definitions of a shared latch differ in next or reset
 * 19  some witness has neither bads nor outputs
 * 20  the result does not fit: too few bytes, literals or pairs lent */
#ifndef NITRASOVY_H
#define NITRASOVY_H

#include <stdbool.h>
#include <stddef.h>
#include <stdint.h>

#ifdef __cplusplus
extern "C" {
#endif

/* Literals as in AIGER: a variable doubled, and one more where it is negated. 0 and 1 are the constants false and true. */
typedef struct NitLatch {
    uint64_t current;
    uint64_t next;
} NitLatch;

/* A transition model. Slots past the counts are not looked at; the reader makes them 0. Its gates are three words each beside it: output,
 * left, right. */
typedef struct NitTransition {
    uint64_t max_variable;
    uint64_t input_count;
    uint64_t inputs[64];
    uint64_t latch_count;
    NitLatch latches[8];
    uint64_t output_count;
    uint64_t outputs[128];
    uint64_t and_count;
} NitTransition;

/* A model is lent as the 64-bit words of its memory: `NIT_MODEL(&model)` gives both arguments. Fewer than 213 words are no model: 11, after 7
 * for the word M. Further words are not read. */
#define NIT_MODEL_WORDS (sizeof(NitTransition) / sizeof(uint64_t))
#define NIT_MODEL(model) ((const uint64_t *)(const void *)(model)), ((size_t)NIT_MODEL_WORDS)

typedef struct NitGate {
    uint64_t output;
    uint64_t left;
    uint64_t right;
} NitGate;

/* A place in a text, in bytes. */
typedef struct NitCursor {
    uint64_t at;
} NitCursor;

typedef struct NitRead {
    uint64_t reason;
    NitTransition model;
} NitRead;

/* Bit k of `target` is latch k; bit k of `low` is output k, bit k of `high` output 64 + k. */
typedef struct NitStepped {
    uint64_t reason;
    uint64_t target;
    uint64_t high;
    uint64_t low;
} NitStepped;

/* How many clauses, each two words of `pairs`: offset and length, and how many literals. */
typedef struct NitMade {
    uint64_t reason;
    uint64_t clauses;
    uint64_t literals;
} NitMade;

typedef struct NitWitness {
    uint64_t reason;
    uint64_t max_variable;
    uint64_t inputs;
    uint64_t latches;
    uint64_t outputs;
    uint64_t gates;
    uint64_t bads;
    uint64_t constraints;
} NitWitness;

typedef struct NitComposed {
    uint64_t reason;
    uint64_t bytes;
} NitComposed;

typedef struct NitTaken {
    uint64_t reason;
    uint64_t value;
} NitTaken;

/* Reads a transition model. Reasons 3, 4, 5, 7, 8, 11. 7: fewer than 3A gate words, or no more than M work words. */
NitRead nit_read_transition(const uint8_t *text, size_t text_length,
                            uint64_t *gates, size_t gates_length,
                            uint64_t *work, size_t work_length);

/* One step. Reasons 7, 11, 12. More than M work words are needed. Gates are computed in listed order: where one reads a gate that is listed
 * later, the step may differ from what the clauses of a row say, in which each gate has its value wherever it is listed. */
NitStepped nit_step(const uint64_t *model, size_t model_length,
                    const uint64_t *gates, size_t gates_length,
                    uint64_t *work, size_t work_length,
                    uint64_t state, uint64_t input);

/* The same with the gates as records. Fewer than A of them is 11. */
NitStepped nit_step_records(const uint64_t *model, size_t model_length,
                            const NitGate *gates, size_t gates_length,
                            uint64_t *work, size_t work_length,
                            uint64_t state, uint64_t input);

/* The clauses of a row, a row with claimed outputs, and a terminal list. Reasons 7, 11, 13, 14, 20. Reason 0 says that the
 * clauses were made; the claim holds exactly if they are unsatisfiable.
 *
 * A literal of the result is 2 x CNF variable, plus 1 when positive, CNF variable n being AIGER variable n + 1. In a predicate the sign is the
 * same and the variable an index into `relevant`; without clauses it holds for every input, and an empty clause is false. `relevant`,
 * `observed` and `bad_output` are places in the lock's inputs or outputs, counted from 0, not literals. Lengths count words: a pair is two,
 * offset and length; an outcome three, target, high, low, and outcomes rise in that order. Bit k of an outcome is not output k but the
 * output at place k of `observed`. Words left over behind the last pair or outcome are not read.
 *
 * Every obligation of L latches, c predicate clauses, A gates and n claims has room in L + c + 3A + n + 1 pairs and L + 7A + k n + 1,025
 * literals, where k is L and the number of observed outputs together. Where that much is lent, the clauses are written at once; else they
 * are measured first. */
NitMade nit_relation_row(const uint64_t *model, size_t model_length,
                         const uint64_t *gates, size_t gates_length,
                         const uint64_t *relevant, size_t relevant_length,
                         uint64_t source,
                         const uint64_t *predicate_pairs, size_t predicate_pairs_length,
                         const uint32_t *predicate_literals, size_t predicate_literals_length,
                         const uint64_t *targets, size_t targets_length,
                         uint64_t *work, size_t work_length,
                         uint64_t *pairs, size_t pairs_length,
                         uint32_t *literals, size_t literals_length);

NitMade nit_transducer_row(const uint64_t *model, size_t model_length,
                           const uint64_t *gates, size_t gates_length,
                           const uint64_t *relevant, size_t relevant_length,
                           uint64_t source,
                           const uint64_t *predicate_pairs, size_t predicate_pairs_length,
                           const uint32_t *predicate_literals, size_t predicate_literals_length,
                           const uint64_t *observed, size_t observed_length,
                           const uint64_t *outcomes, size_t outcomes_length,
                           uint64_t *work, size_t work_length,
                           uint64_t *pairs, size_t pairs_length,
                           uint32_t *literals, size_t literals_length);

NitMade nit_terminal(const uint64_t *model, size_t model_length,
                     const uint64_t *gates, size_t gates_length,
                     const uint64_t *relevant, size_t relevant_length,
                     const uint64_t *predicate_pairs, size_t predicate_pairs_length,
                     const uint32_t *predicate_literals, size_t predicate_literals_length,
                     uint64_t bad_output,
                     const uint64_t *states, size_t states_length,
                     uint64_t *work, size_t work_length,
                     uint64_t *pairs, size_t pairs_length,
                     uint32_t *literals, size_t literals_length);

/* Reads a text as a witness, or as the model of a composition where `witness` is false. Reasons 3, 4, 5, 6, 8, 9, 10, 11. */
NitWitness nit_read_witness(const uint8_t *text, size_t text_length, bool witness);

/* Composes witnesses, given as pairs of offset and length in one buffer. Reasons 1, 2, 3 to 6, 8 to 11, 15 to 20. Needs 16 x T + 1,024 work
 * words, where T adds up M + O + B + C of the model and of every witness; `bytes` bytes of `out` are the result. */
NitComposed nit_compose(const uint8_t *model, size_t model_length,
                        const uint8_t *witnesses, size_t witnesses_length,
                        const uint64_t *witness_pairs, size_t witness_pairs_length,
                        uint64_t *work, size_t work_length,
                        uint8_t *out, size_t out_length);

/* Takes the next line of a text as one literal, by the witness reader's rule for numbers. Reason 8. The cursor moves past the line, also
 * where it is refused; with no line left it stays. */
NitTaken nit_take_literal(const uint8_t *text, size_t text_length, NitCursor *cursor);

/* The layout that the library was compiled for. */
#if defined(__cplusplus)
#define NIT_ASSERT static_assert
#else
#define NIT_ASSERT _Static_assert
#endif
NIT_ASSERT(sizeof(size_t) == 8, "the library's words are 64 bits wide");
NIT_ASSERT(NIT_MODEL_WORDS == 213, "a model is 213 words");
NIT_ASSERT(sizeof(NitRead) == 1712, "a model and its reason are 214 words");
NIT_ASSERT(sizeof(NitGate) == 24, "a gate is three words");
#undef NIT_ASSERT

#ifdef __cplusplus
}
#endif

#endif
