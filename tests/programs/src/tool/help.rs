//! What the tool tells about itself.

use super::options::Command;
use super::{misuse, Answer};
use std::ffi::OsString;

/// What the tool can do, for people.
pub const USAGE: &str = "\
mqasm - programs of metaQASM as text and as bytes

  mqasm assemble FILE     write the program bytes of a text
  mqasm text FILE         write the text of program bytes
  mqasm check FILE        check a program
  mqasm list FILE         list the records of a whole run
  mqasm qasm FILE         write them as OpenQASM 2.0, for other programs to load
  mqasm draw FILE         draw them as a circuit
  mqasm help [COMMAND]    show this, or what one command takes
  mqasm --version         show the version

FILE is a path, or - for standard input. check, list, qasm and draw read a path
that ends in .bytes as bytes, and anything else as text. At most 65536 bytes of
a program or 2097152 of a text are read.

Options, as --limit 7 or --limit=7:
  -o FILE                 write to this file instead of standard output
Options of check, list, qasm and draw:
  --text, --bytes         what FILE holds, whatever it is called
Options of list, qasm and draw:
  --family NAME|NUMBER    list an instance of this family instead
  --sizes 3,4             the sizes of the instance, in order
  --sizes n=3,m=4         or by name
  --limit STEPS           stop after so many steps (1000000)
  --output BYTES          room for records, 12 bytes each (65536)
Options of draw:
  --width COLUMNS         how wide the drawing may be (100)
  --records               FILE holds records of 12 bytes, as the library writes
  --listing               FILE holds the lines of a list, as 'mqasm list' writes

check, list and draw end with a line of number, place, records and steps; qasm
writes nothing unless the number is 0. The exit code is 0 when the number is 0,
1 when the program is turned down, ends early or cannot be read, or the output
cannot be written, and 2 when the command is not one of these.

The text form, by example:
  // a comment, to the end of the line
  family(n) f(x: Qbit[n+1], y: Qbit) { .. }     a family with its sizes
  gate g(a: Qbit) { .. }                        a family without any
  qreg q[5]; creg c[2];                         registers
  h q[0]; t q[0]; tdg q[0]; cx q[0], q[1];      gates
  phase(3) q[0]; cphase(j-i+1) q[j], q[i];      phases: k, then operands
  f(4)(q, q[0]); g(q[1]);                       calls: sizes, then operands
  f(2)(q[1..3], q[0]);                          a slice: cells 1, 2 and 3
  gate k(p: family()(Qbit), a: Qbit) { p(a); }  a parameter that takes a family
  k(g, q[0]);                                   a call that passes the family g
  for i = 1..n { .. } reverse { .. }            loops and reversals
  measure q[0] -> c[1]; reset q[0];             at the top only
  if (c[0] == 1) { .. }                         at the top only
A slice stands for a register: only a parameter Qbit[..] takes one. Its last
cell is in it, and q[2..1] is empty.
A parameter p: family(n)(Qbit, Qbit[n]) takes a family with one size and these
operands. It is called as families are, and not passed on. Sizes in its type
name the type's own index variables.
A phase turns by one turn divided by 2 to the k, and k goes from 0 to 63.
Indexes are made of numbers up to 65535, names, +, -, * and parentheses.
#3 is the operand, family or index variable of that number, in scope or not,
and bytes \"20 00 00\"; puts bytes into a list of statements as they are.
Families 0 to 255 are called by a number of one byte (tag 36), and others by two
(tag 39); ##3(..) is a call by two bytes, whatever the number. A family that is
passed (tag 51) is ##3 by its number, and ###3(..) calls parameter 3 (tag 42).
";

const ASSEMBLE: &str = "\
mqasm assemble FILE [-o FILE]

Writes the program bytes of a text. FILE is a path, or - for standard input.
Types are not checked here; 'mqasm check' does that.
";

const TEXT: &str = "\
mqasm text FILE [-o FILE]

Writes the text of program bytes, with invented names. FILE is a path, or - for
standard input.
";

const CHECK: &str = "\
mqasm check FILE [--text|--bytes] [-o FILE]

Checks a program and ends with a line of number, place, records and steps. If
the number is not 0, a message says what to mend. FILE is a path, or - for
standard input; a path that ends in .bytes is read as bytes, anything else as
text.

Every index and size must be shown to be within its range, whatever the sizes
of its family are. There a loop's variable counts as its low or its high bound,
whichever is worse. Where this is not enough, one loop around it may make up for
it, as its body runs only where low <= high: of x: Qbit[n], x[0] is refused by
itself, and accepted inside for i = 1..n-1 { .. }.

A family that is passed must have as many sizes and operands as the type of the
parameter says, and operands of the same kinds, which take no more cells than
the type gives them, whatever the sizes are. It must be declared before the
family that it is passed to.

A cx or cphase whose operands are the same wire can never run, and is refused
wherever it stands, as cx a, a; or cx x[n+1], x[1+n]; where the indexes are only
spelled differently. Where operands come to be one wire in a run, by what a call
passes or by the values of their indexes, the run ends with 25 instead.
";

/// The options that list, qasm and draw share.
macro_rules! listing_options {
    () => {
        "  --family NAME|NUMBER    an instance of this family instead
  --sizes 3,4             the sizes of the instance, in order
  --sizes n=3,m=4         or by name
  --limit STEPS           stop after so many steps (1000000)
  --output BYTES          room for records, 12 bytes each (65536)
  --text, --bytes         what FILE holds, whatever it is called
  -o FILE                 write to this file instead of standard output
"
    };
}

const LIST: &str = concat!(
    "\
mqasm list FILE [options]

Lists the records of a whole run, or of one family, a line for each: the
operation, k where it has one, and its wires and bits, after 'if BIT VALUE'
where there is a condition. The last line has number, place, records and steps.

",
    listing_options!()
);

const QASM: &str = concat!(
    "\
mqasm qasm FILE [options]

Writes the records of a whole run, or of one family, as a text of OpenQASM 2.0,
a line for each: cx q[0],q[1]; or measure q[0] -> c1[0]; or if(c1==1) h q[2];
A phase with k = 3 is u1(2*pi/8) q[0]; and its inverse u1(-2*pi/8) q[0];
The qubits are one qreg, and each bit is a creg of its own. Only a complete list
is written; if the number is not 0, a message says why.

",
    listing_options!()
);

const DRAW: &str = concat!(
    "\
mqasm draw FILE [options]

Draws the records of a whole run, or of one family, as a circuit. Time goes from
left to right, and gates in one column do not depend on each other. A drawing
has at most 100 rows and 300 columns.

  ───    a qubit               ═══     a bit
  ●⊕     cx: control, target   M ╩     measure, and the bit that is written
  T†     tdg                   |0⟩     reset
  P(3)   phase with k = 3      P†(3)   its inverse, phasedg
  ●P(3)  cphase with k = 3     ●P†(3)  its inverse, cphasedg
  ●      on a bit: only if it is 1     ○  only if it is 0
  ✗      a cx or cphase that names this wire twice. A run ends there; where the
         check sees it, the program is refused, and only this wire is drawn.

  --width COLUMNS         how wide the drawing may be (100); the rest follows
                          below, block by block
  --records               FILE holds records of 12 bytes, as the library writes
  --listing               FILE holds the lines of a list, as 'mqasm list' writes
",
    listing_options!()
);

/// The help of one command.
pub fn of(command: Command) -> &'static str {
    match command {
        Command::Assemble => ASSEMBLE,
        Command::Text => TEXT,
        Command::Check => CHECK,
        Command::List => LIST,
        Command::Qasm => QASM,
        Command::Draw => DRAW,
    }
}

/// The help that the words after `help` ask for.
pub fn about(words: &[OsString]) -> Answer<&'static str> {
    let Some(word) = words.first() else {
        return Ok(USAGE);
    };
    let name = word.to_string_lossy();
    match Command::named(&name) {
        Some(command) => Ok(of(command)),
        None => misuse(format!("no command '{name}'")),
    }
}
