//! One life of one head; the driver makes this process. See outside/README.md.
//!
//! usage: soak-head FOLDER HEAD LIFE W0 Q RELAY [STOP]

use soak::calls::Kind;
use soak::process::{run, Aim, Orders};
use std::process::ExitCode;

fn orders(words: &[String]) -> Option<Orders> {
    let [folder, head, life, core, least, relay, rest @ ..] = words else {
        return None;
    };
    let aim = match rest {
        [] => None,
        [at] => Some(Aim {
            kind: Kind::Recover,
            at: at.parse().ok()?,
        }),
        _ => return None,
    };
    Some(Orders {
        folder: folder.into(),
        head: head.parse().ok()?,
        life: life.parse().ok()?,
        core: u16::from_str_radix(core, 16).ok()?,
        least: least.parse().ok()?,
        relay: relay.parse().ok()?,
        aim,
    })
}

fn main() -> ExitCode {
    let words: Vec<String> = std::env::args().skip(1).collect();
    let Some(orders) = orders(&words) else {
        eprintln!("soak-head is started by soak");
        return ExitCode::from(2);
    };
    match run(orders) {
        Ok(()) => ExitCode::SUCCESS,
        Err(problem) => {
            eprintln!("soak-head: {problem}");
            ExitCode::FAILURE
        }
    }
}
