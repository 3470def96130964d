//! Makes one edit again and again over an environment, each time in a working environment of its own, so that what one
//! more edit costs can be counted. This is Rattle; `edits.py` builds it over `envstate`.
//!
//! A line of standard input is `EDIT SIZE TIMES`: `set`, `front`, `back`, `drop`, `push` or `pop`; `S`, `M` or `L` for an
//! environment of 10, 1,000 or 10,000 other variables; and how many times. All three environments are made for each line, so
//! that the allocator holds the same whichever is edited. It prints how many changes the edits made in all.
#![tactic(auto)]

use envstate::{
    Change, End, Env, EnvFault, Vars, Working, add_path, drop_path, pop_value, push_value,
};
use std::alloc::Global;
use std::io;

/// The variables that the edits name, and the others.
fn start(alloc: Global, others: usize) -> Result<Env, EnvFault> {
    let mut env = Env::new(alloc);
    env.set("P", "/usr/local/bin:/usr/bin:/bin")?;
    env.set("CC", "cc")?;
    env.set("CXX", "g++")?;
    env.set("__MODULES_PUSHENV_CXX", "gcc/9&g++:&c++")?;
    for number in 0..others {
        let name = format!(in alloc; "VARIABLE_{number}")?;
        env.set(name.as_str(), "value")?;
    }
    Ok(env)
}

fn make(alloc: Global, working: &mut Working<'_>, edit: &str) -> Result<(), EnvFault> {
    match edit {
        "set" => working.set("FOO", "on"),
        "front" => add_path(alloc, working, "P", ':', &["/opt/foo/bin"], End::Front),
        "back" => add_path(alloc, working, "P", ':', &["/opt/foo/bin"], End::Back),
        "drop" => drop_path(alloc, working, "P", ':', &["/usr/bin"]),
        "push" => push_value(alloc, working, "CC", "gcc/9", "gcc"),
        "pop" => pop_value(alloc, working, "CXX", "gcc/9"),
        _ => Ok(()),
    }
}

/// The changes of one edit.
fn edited(alloc: Global, env: &Env, edit: &str) -> Result<Vec<Change>, EnvFault> {
    let mut working = Working::over(env);
    make(alloc, &mut working, edit)?;
    working.into_changes()
}

/// How many changes the edits make, one after another.
fn changes(alloc: Global, env: &Env, edit: &str, times: usize) -> Result<u64, EnvFault> {
    let mut made: u64 = 0;
    for _ in 0..times {
        let found = edited(alloc, env, edit)?;
        made = made.wrapping_add(found.len() as u64);
    }
    Ok(made)
}

fn answer(alloc: Global, line: &str) -> Result<u64, EnvFault> {
    let small = start(alloc, 10)?;
    let middle = start(alloc, 1_000)?;
    let large = start(alloc, 10_000)?;
    let mut words = line.split(' ');
    let edit = words.next().unwrap_or("");
    let env = match words.next() {
        Some("S") => &small,
        Some("M") => &middle,
        _ => &large,
    };
    let times = words.next().unwrap_or("").parse().unwrap_or(0);
    changes(alloc, env, edit, times)
}

fn main(rt: HostRuntime) -> io::Result<()> {
    let alloc = rt.alloc();
    for line in rt.lines(alloc) {
        match answer(alloc, line?.as_str()) {
            Ok(made) => println!(rt; "{made}")?,
            Err(_) => println!(rt; "refused")?,
        }
    }
    Ok(())
}
