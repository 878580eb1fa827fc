"""The part of bench/steps-scale on lists without targets: what `load` and `target` of the crate `pepa_steps` cost.

It builds a small program around these crates, in a folder of its own that it removes at the end. README.md beside this file says what
each figure is.
"""
import os
import shutil
import subprocess
import sys
import tempfile

ROOT = os.path.dirname(os.path.dirname(os.path.realpath(__file__)))
RUNS = 15

# It loads the list of a model's first state over and over in the same buffers, and makes the target of the list's last entry. It
# prints how many entries the list has, the nanoseconds of all loads and of all targets, and how many of each there were.
PROGRAM = """//! Makes the model of standard input, loads the list of its first state over and over, and makes its last target.
#![tactic(auto)]
ghost use Rattle.pepa_model.specs.Terms.{IsTermOf};
ghost use Rattle.pepa_steps.specs.Traces.{AreFor, HasList};

use pepa_checks::check;
use pepa_lexer::tokens;
use pepa_model::{Model, Term};
use pepa_reader::read_file;
use pepa_steps::{Buffers, load, target};
use probe_attach::attach;
use std::alloc::Global;
use std::io;
use std::io::Read;
use std::time::{Clock, Instant};

/// How often the list is loaded, and its last target is made.
const TIMES: u64 = 200;

fn model_of(alloc: Global, input: &[u8]) -> Option<Model> {
    if input.len() > 1 << 20 {
        return None;
    }
    let list = tokens(alloc, input).ok()?;
    let tree = read_file(alloc, list.as_slice(), input).ok()?;
    check(alloc, &tree, list.as_slice(), input).ok()
}

fn load_often(alloc: Global, model: &Model, term: &Term, buffers: &mut Buffers)
    requires of_model { IsTermOf model.now term.now }
    requires of_buffers { AreFor model.now buffers.old }
    ensures { AreFor model.now buffers.new }
{
    for _turn in 0..TIMES {
        let _ = load(alloc, model, term, buffers);
    }
}

fn make_often(alloc: Global, model: &Model, term: &Term, buffers: &Buffers)
    requires { HasList model.now term.now buffers.now }
{
    let length = buffers.entries().len();
    if length > 0 {
        for _turn in 0..TIMES {
            let _ = target(alloc, model, term, buffers, length - 1);
        }
    }
}

fn time_targets<R: Clock + Print>(
    rt: &R,
    alloc: Global,
    model: &Model,
    term: &Term,
    buffers: &Buffers,
    loading: u128,
) -> io::Result<()>
    requires { HasList model.now term.now buffers.now }
{
    let start = Instant::now(rt)?;
    make_often(alloc, model, term, buffers);
    let making = start.elapsed(rt)?.as_nanos();
    let entries = buffers.entries().len();
    println!(rt; "{entries} {loading} {making} {TIMES}")
}

fn time_lists<R: Clock + Print>(
    rt: &R,
    alloc: Global,
    model: &Model,
    term: &Term,
    buffers: &mut Buffers,
) -> io::Result<()>
    requires of_model { IsTermOf model.now term.now }
    requires of_buffers { AreFor model.now buffers.old }
{
    let start = Instant::now(rt)?;
    load_often(alloc, model, term, buffers);
    let loading = start.elapsed(rt)?.as_nanos();
    match load(alloc, model, term, buffers) {
        Ok(()) => time_targets(rt, alloc, model, term, buffers, loading),
        Err(_) => println!(rt; "no list"),
    }
}

fn time_model<R: Clock + Print>(rt: &R, alloc: Global, model: &Model) -> io::Result<()> {
    let mut buffers = Buffers::new(alloc);
    match attach(alloc, model) {
        Ok(term) => time_lists(rt, alloc, model, &term, &mut buffers),
        Err(_) => println!(rt; "no memory"),
    }
}

fn main(rt: HostRuntime) -> io::Result<()> {
    let mut input = Vec::with_capacity(rt.alloc(), 1 << 20)?;
    rt.stdin().read_to_end(&mut input)?;
    match model_of(rt.alloc(), input.as_slice()) {
        Some(model) => time_model(&rt, rt.alloc(), &model),
        None => println!(rt; "no model"),
    }
}
"""

INVARIANTS = """-- The buffers are for the model.
use Rattle.pepa_steps.specs.Traces.{AreFor}
use Rattle.list_turns.proofs.load_often.Given as goal

abbrev pub invariant-loop-turn : goal.invariant-loop-turn
invariant-loop-turn l = AreFor l.model l.buffers
"""

# What the program calls, and the kit's crates that it names beside these.
CALLED = ("pepa_checks", "pepa_steps", "probe_attach")
KITS = "indexmap sqlite_items thiserror"


def below(names, lines):
    """The crates of ours that these stand on, with themselves, in the order of crates.txt."""
    uses = {line.split(":")[0].split(" ")[0]: line.split(":")[1].split() for line in lines if ":" in line and not line.startswith("#")}
    found, left = set(), list(names)
    while left:
        name = left.pop()
        if name in uses and name not in found:
            found.add(name)
            left += uses[name]
    return [name for name in uses if name in found]


def build(folder):
    """Builds the program in the folder, and returns its path."""
    with open(f"{ROOT}/crates.txt") as file:
        lines = file.read().splitlines()
    crates, names = f"{folder}/crates", below(CALLED, lines)
    for name in names:
        for part in ("src", "specs", "proofs"):
            if os.path.isdir(f"{ROOT}/crates/{name}/{part}"):
                shutil.copytree(f"{ROOT}/crates/{name}/{part}", f"{crates}/{name}/{part}")
    for path, text in (("src/main.rt", PROGRAM), ("proofs/load_often/Invariants.antt", INVARIANTS)):
        os.makedirs(os.path.dirname(f"{crates}/list_turns/{path}"))
        with open(f"{crates}/list_turns/{path}", "w") as file:
            file.write(text)
    with open(f"{folder}/crates.txt", "w") as file:
        file.writelines(f"{line}\n" for line in lines if line.split(":")[0].split(" ")[0] in names)
        file.write(f"list_turns: {' '.join(names)} {KITS}\n")
    shutil.copy(f"{ROOT}/HANDLES", folder)
    for name, words in [(name, ["rt", "lib"]) for name in names] + [("list_turns", ["rt", "run"])]:
        print(f"steps-scale: building {name}", file=sys.stderr)
        done = subprocess.run(words, cwd=f"{crates}/{name}", stdin=subprocess.DEVNULL, stdout=subprocess.PIPE, stderr=subprocess.STDOUT)
        if done.returncode != 0:
            sys.stderr.write(done.stdout.decode(errors="replace")[-3000:])
            sys.exit(f"steps-scale: {name} isn't built")
    return f"{crates}/list_turns/out/list_turns"


def best(program, text, entries):
    """The least nanoseconds of a load and of a target."""
    loads, targets = [], []
    for _ in range(RUNS):
        done = subprocess.run([program], input=text, stdout=subprocess.PIPE, check=True)
        found, loading, making, times = map(int, done.stdout.split())
        if found != entries:
            sys.exit(f"steps-scale: a list of {found} entries in place of {entries}")
        loads.append(loading / times)
        targets.append(making / times)
    return min(loads), min(targets)


def measured(cases):
    """For each case, which is a text and how many entries its list has, the least nanoseconds of a load and of a target."""
    with tempfile.TemporaryDirectory() as folder:
        program = build(folder)
        return [best(program, text, entries) for text, entries in cases]
