//! The commands: their words, what they take, and what they do.

use super::args::{Args, Files};
use super::problem::Done;
use super::{check, page, policies, preview, routines, running, step};

/// An option: its value's name is empty for a flag.
pub struct Opt {
    pub name: &'static str,
    pub value: &'static str,
    pub about: &'static str,
}

/// A subcommand.
pub struct Command {
    pub name: &'static str,
    /// The files, as the usage names them.
    pub operands: &'static str,
    /// What it does, in one line.
    pub line: &'static str,
    /// What else there is to know.
    pub about: &'static str,
    pub files: Files,
    pub needed: &'static [&'static Opt],
    pub options: &'static [&'static Opt],
    pub run: fn(&Args) -> Done,
}

impl Command {
    /// All options.
    pub fn options(&self) -> impl Iterator<Item = &'static Opt> {
        self.needed.iter().chain(self.options).copied()
    }

    /// An option by its name.
    pub fn option(&self, name: &str) -> Option<&'static Opt> {
        self.options().find(|option| option.name == name)
    }
}

#[rustfmt::skip]
mod options {
    use super::Opt;

    pub const OUT: Opt = Opt { name: "-o", value: "OUT", about: "the file to write; without it, or for -, standard output" };
    pub const NEEDED_OUT: Opt = Opt { name: "-o", value: "OUT", about: "the file to write, or - for standard output; it is needed" };
    pub const DRUM: Opt = Opt { name: "--drum", value: "DRUM", about: "the drum's file" };
    pub const POLICY: Opt = Opt { name: "--policy", value: "POLICY", about: "the policy's file: states, pairs or a drawing" };
    pub const READINGS: Opt = Opt { name: "--readings", value: "LIST", about: "the probe's readings, with commas or blanks between them" };
    pub const STEPS: Opt = Opt { name: "--budget", value: "STEPS", about: "the most steps of the machine; 1000 without it" };
    pub const INSTRUCTIONS: Opt = Opt { name: "--budget", value: "NUMBER", about: "the most instructions; 1000 without it" };
    pub const LOG: Opt = Opt { name: "--log", value: "CELLS", about: "the cells of the log, two for each pair; 64 without it" };
    pub const RESUME: Opt = Opt { name: "--resume", value: "", about: "ask at each pause how to go on" };
    pub const ALL: Opt = Opt { name: "--all", value: "", about: "do not ask: go through all of it" };
    pub const JSON: Opt = Opt { name: "--json", value: "", about: "print objects, one a line, as docs/FILES.md describes them" };
    pub const BUNDLES: Opt = Opt { name: "--bundles", value: "", about: "the four commands of each instruction too; wants --drum" };
    pub const SIGNED: Opt = Opt { name: "--signed", value: "", about: "show numbers of SET from 2^31 on as negative ones" };
    pub const DOT: Opt = Opt { name: "--dot", value: "", about: "Graphviz text instead of SVG; so does an OUT that ends in .dot" };
}
use options::*;

pub const COMMANDS: &[Command] = &[
    Command {
        name: "assemble",
        operands: "FILE",
        line: "turns a routine's text into its bytes",
        about: "",
        files: Files::Exactly(1),
        needed: &[&NEEDED_OUT],
        options: &[&DRUM],
        run: routines::assemble,
    },
    Command {
        name: "list",
        operands: "FILE",
        line: "prints a routine, text or bytes, as numbered text that assemble takes back",
        about: "",
        files: Files::Exactly(1),
        needed: &[],
        options: &[&DRUM, &BUNDLES, &SIGNED, &OUT],
        run: routines::list,
    },
    Command {
        name: "check",
        operands: "FILE ...",
        line: "says of each routine, text or bytes, whether a drum takes it",
        about: "A line for each file, and the worst status. Warns of events that the policy never\n\
                allows, of a GOX without landings, and of code that is never reached.\n\
                With a policy the routine is installed too.\n",
        files: Files::Some,
        needed: &[&DRUM],
        options: &[&POLICY, &JSON],
        run: check::check,
    },
    Command {
        name: "forward",
        operands: "FILE",
        line: "says whether a routine always finishes: no GOX, no jump back",
        about: "",
        files: Files::Exactly(1),
        needed: &[],
        options: &[&DRUM, &JSON],
        run: routines::forward,
    },
    Command {
        name: "run",
        operands: "FILE",
        line: "runs a routine on a drum, and prints its record",
        about: "All cells are 0 at first, but for those that the drum's file names.\n\
                With --resume each pause asks: Enter goes on with an emptied log, numbers are further\n\
                readings or, after a spent budget, a further budget; 'preview NUMBERS' looks ahead\n\
                with these readings; 'stop' stops.\n",
        files: Files::Exactly(1),
        needed: &[&DRUM, &POLICY],
        options: &[&READINGS, &STEPS, &LOG, &RESUME, &JSON],
        run: running::run,
    },
    Command {
        name: "preview",
        operands: "FILE",
        line: "shows what a run would do, and touches nothing",
        about: "Without --readings it asks for them whenever the probe is silent; Enter ends it.\n",
        files: Files::Exactly(1),
        needed: &[&DRUM, &POLICY],
        options: &[&READINGS, &STEPS, &LOG, &JSON],
        run: preview::preview,
    },
    Command {
        name: "step",
        operands: "FILE",
        line: "runs a routine as it is written, one instruction at a time, forwards and back",
        about: "It asks before each instruction; 'help' lists what can be typed.\n",
        files: Files::Exactly(1),
        needed: &[&DRUM, &POLICY],
        options: &[&READINGS, &INSTRUCTIONS, &ALL, &JSON],
        run: step::step,
    },
    Command {
        name: "page",
        operands: "FILE",
        line: "writes one HTML file in which the proved library runs a routine",
        about: "A browser opens it from the disk: it needs no network and no other file. A routine that\n\
                check refuses is refused in the same words, and nothing is written. A page takes up to\n\
                10000 steps, 4096 cells of log and 4096 readings; the viewer can change them.\n",
        files: Files::Exactly(1),
        needed: &[&DRUM, &POLICY, &NEEDED_OUT],
        options: &[&READINGS, &STEPS, &LOG],
        run: page::page,
    },
    Command {
        name: "policy precedence",
        operands: "FILE",
        line: "makes the policy of 'before' lines, and names the events that it never allows",
        about: "",
        files: Files::Exactly(1),
        needed: &[],
        options: &[&DRUM, &OUT, &JSON],
        run: policies::precedence,
    },
    Command {
        name: "policy merge",
        operands: "FILE FILE",
        line: "makes the policy that allows what both allow, with the smaller ceilings",
        about: "",
        files: Files::Exactly(2),
        needed: &[],
        options: &[&DRUM, &OUT, &JSON],
        run: policies::merge,
    },
    Command {
        name: "policy determinise",
        operands: "FILE",
        line: "makes the policy of a drawing with several arrows",
        about: "",
        files: Files::Exactly(1),
        needed: &[],
        options: &[&DRUM, &OUT, &JSON],
        run: policies::determinise,
    },
    Command {
        name: "policy show",
        operands: "FILE",
        line: "prints a policy as a table of events and states",
        about: "A line for each event, a column for each state: the state that follows, or - where\n\
                the event has no arrow.\n",
        files: Files::Exactly(1),
        needed: &[],
        options: &[&DRUM, &JSON],
        run: policies::show,
    },
    Command {
        name: "policy draw",
        operands: "FILE",
        line: "draws a policy or a drawing as SVG",
        about: "States that cannot be reached are left out. 'others' are all events that have no\n\
                arrow of their own in a state.\n",
        files: Files::Exactly(1),
        needed: &[],
        options: &[&DRUM, &OUT, &DOT, &JSON],
        run: policies::draw,
    },
];
