//! The cases that the programs under crates/ run: their input, and the output expected of them.

mod clock;
mod engine;
mod entries;
mod faults;
mod message;
mod places;
mod plans;
mod recent;
mod reply;
mod rooms;
mod route;
mod sheet;
mod situations;
mod tape;
mod text;
mod trips;
mod walk;

use crate::{program, worked};
use std::{fs, io, path::Path};
use tape::Tape;

/// The cases of a crate: their name, the folder of the program that runs them, and what makes them.
struct Cases {
    name: &'static str,
    folder: &'static str,
    make: fn() -> Tape,
}

const ALL: [Cases; 11] = [
    Cases { name: "clock", folder: "clock_cases", make: clock::tape },
    Cases { name: "sheet", folder: "sheet_cases", make: sheet::tape },
    Cases { name: "route", folder: "route_cases", make: route::tape },
    Cases { name: "message", folder: "message_cases", make: message::tape },
    Cases { name: "recent", folder: "recent_cases", make: recent::tape },
    Cases { name: "reply", folder: "reply_cases", make: reply::tape },
    Cases { name: "engine", folder: "engine_cases", make: engine::tape },
    Cases { name: "walk", folder: "walk_cases", make: walk::tape },
    Cases { name: "entries", folder: "servicebough_cases", make: entries::tape },
    Cases { name: "text", folder: "text_cases", make: text::tape },
    Cases { name: "program", folder: "walk", make: p1 },
];

/// P1 as the program `walk` reads and writes it.
fn p1() -> Tape {
    let stdin = program::input(worked::start(&worked::query(10)), &worked::yard(0));
    let stdout = program::run(&stdin);
    Tape { stdin, stdout }
}

/// Writes the cases of the given names, of all whose programs there are if none is given, below the
/// repository's top.
pub fn write(top: &Path, names: &[String]) -> io::Result<()> {
    if let Some(name) = names.iter().find(|name| ALL.iter().all(|cases| cases.name != *name)) {
        return Err(io::Error::other(format!("no cases for {name}")));
    }
    for Cases { name, folder, make } in ALL {
        let folder = top.join("crates").join(folder);
        let wanted = if names.is_empty() { folder.is_dir() } else { names.iter().any(|wanted| wanted == name) };
        if wanted {
            let Tape { stdin, stdout } = make();
            println!("{name}: {} bytes in, {} lines out", stdin.len(), stdout.lines().count());
            fs::write(folder.join("stdin"), stdin)?;
            fs::write(folder.join("stdout"), stdout)?;
        }
    }
    Ok(())
}
