//! The texts of `--help`.

pub const WHOLE: &str = "\
Checks locks of drug entries and safety witnesses: ASCII AIGER circuits.

usage: nitrasovy SUBCOMMAND [OPTIONS] FILE ...

  read       what a lock, a witness or a model has in it
  step       one step of a lock: from a state, under an input word
  row        the clauses of a claim: from this state, every input leads there
  terminal   the clauses of a claim: in these states alone can an output be 0
  compose    the witnesses of a model in one text

nitrasovy SUBCOMMAND --help tells more and has an example. FILE is a file's name, or - for
standard input. A text has at most 16,777,216 bytes.

  --help     this text
  --version  the version

The exit status is 0 when the input is accepted and the whole answer is written; 1 when the
input is refused, with 'refused', a number and what it means on standard error; 2 when the
command line is wrong, an input cannot be read or the answer cannot be written.
";

pub const READ: &str = "\
Reads a circuit and shows what it has in it.

usage: nitrasovy read [--plain] FILE             a transition model (a lock)
       nitrasovy read --witness [--plain] FILE   a safety witness
       nitrasovy read --model [--plain] FILE     the model of a composition

FILE is a file's name, or - for standard input.

  --plain    for scripts: lines of a name, a space and a count, in this order: variables,
             inputs, latches, outputs, gates; with --witness or --model also bads,
             constraints

example: nitrasovy read lock.aag
";

pub const STEP: &str = "\
One step of a lock.

usage: nitrasovy step [--plain] FILE STATE INPUT

  FILE       the lock: a file's name, or - for standard input
  STATE      the state before the step, a decimal number; bit k is latch k
  INPUT      the input word, a decimal number or 0x..; bit k is input k
  --plain    for scripts: one line, the state after the step, a space, and the outputs as a
             decimal number; bit k is output k

Gates are computed in the order in which the file lists them. Where one reads a gate that is
listed later, the step may differ from what the clauses of a row say, in which each gate has
its value wherever it is listed.

example: nitrasovy step lock.aag 1 0x1
";

pub const ROW: &str = "\
Makes the clauses of a row: the claim that from a state every input leads to one of the
claimed targets. A SAT solver finds the clauses unsatisfiable exactly when the claim is true.

usage: nitrasovy row [OPTIONS] FILE SOURCE [TARGET ...]
       nitrasovy row [OPTIONS] --outputs LIST FILE SOURCE [TARGET:OUTPUTS ...]

  FILE       the lock: a file's name, or - for standard input
  SOURCE     the state before the step, a decimal number; bit k is latch k
  TARGET     a claimed state after it; several are given in rising order. Without any, the
             claim is that no input meets the conditions
  --when CONDITION
             the claim is about inputs that meet this: INPUT=0 or INPUT=1, with ' or '
             between several, such as '0=1 or 2=0'. INPUT is the input's number, from 0.
             --when may be given many times; then all of them are met. 'never' is a
             condition that no input meets
  --inputs LIST
             conditions may speak of these inputs only: rising numbers with commas between
             them, or 'none'. Without it they may speak of any
  --outputs LIST
             the claim is about these outputs too: rising numbers with commas, or 'none'.
             OUTPUTS of a target is a decimal number or 0x..; its bit k is the value of the
             k-th output in LIST. Outcomes rise by target, then by outputs
  --plain    'rows' and the count of clauses; then for each a line with its offset, its
             length and its literals. A literal is 2 x variable, plus 1 when it is positive;
             variable 0 is variable 1 of the file

examples: nitrasovy row lock.aag 1 0 1
          nitrasovy row --when '0=1' --plain lock.aag 1 1
          nitrasovy row --outputs 0 lock.aag 1 0:0 1:1
";

pub const TERMINAL: &str = "\
Makes the clauses of a terminal list: the claim that all states are listed in which some
input leaves an output, the bad one, at 0. A SAT solver finds the clauses unsatisfiable
exactly when the claim is true.

usage: nitrasovy terminal [OPTIONS] FILE BAD [STATE ...]

  FILE       the lock: a file's name, or - for standard input
  BAD        the bad output's number, from 0
  STATE      a claimed state; bit k is latch k. Several are given in rising order
  --when CONDITION, --inputs LIST, --plain
             as in nitrasovy row --help

example: nitrasovy terminal lock.aag 0 0 1
";

pub const COMPOSE: &str = "\
Composes 2 to 64 safety witnesses of a model into one text.

usage: nitrasovy compose [--output FILE] MODEL WITNESS WITNESS ...

  MODEL      the model: a file's name, or - for standard input
  WITNESS    a witness: a file's name, or - for standard input. One of all names may be -
  --output FILE
             write the text to this file, and not to standard output; a file that is there
             is written over, but not where the input is refused

example: nitrasovy compose --output both.aag model.aag first.aag second.aag
";
