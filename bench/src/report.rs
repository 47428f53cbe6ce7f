//! docs/BENCHMARKS.md: the machine, the rates, the ratios.

use crate::growth;
use crate::lmdb::Lmdb;
use crate::measure::{filled, rate, Rate, OTHERS, SMALL_KEYS};
use crate::places::{Questions, WAYS};
use crate::plot::{draw, Panel};
use crate::servers::changes;
use crate::sqlite::Sqlite;
use crate::workload::{Workload, WORKLOADS};
use gemandrolo::Sizes;
use std::fmt::Write;
use std::path::Path;
use std::process::Command;

const SERVERS: [usize; 4] = [1, 2, 4, 8];
const CLIENTS: [usize; 2] = [1, 16];
const SMALL_SLOTS: usize = 64;
const FULL_SLOTS: usize = 1024;
/// Keys a slot of a full store: about nine tenths of its slots are then taken.
const FULL_KEYS: u64 = 8;

/// One size of a store: its sizes but for the clients, and its keys.
#[derive(Clone, Copy)]
struct Case {
    servers: usize,
    slots: usize,
    keys: u64,
}

pub fn write(folder: &str) {
    let load = first_line("/proc/loadavg", "");
    let mut text = head(&load);
    let mut summary = Vec::new();
    for (title, full) in [("Small stores", false), ("Full stores", true)] {
        text.push_str(&section(title, full, &mut summary));
    }
    text.push_str(&servers());
    text.push_str(&places());
    let growth = plot();
    let text = text.replace("SUMMARY", &summary.concat()) + &tail();
    std::fs::write(Path::new(folder).join("BENCHMARKS.md"), text)
        .expect("the folder can be written");
    std::fs::write(Path::new(folder).join("step-cost.svg"), growth)
        .expect("the folder can be written");
}

fn head(load: &str) -> String {
    let said = |program: &str, word: &str| {
        let told = Command::new(program)
            .arg(word)
            .output()
            .map(|o| String::from_utf8_lossy(&o.stdout).trim().to_string());
        told.unwrap_or_default()
    };
    format!(
        "# Benchmarks\n\n\
         Written by `bench/run`, all in one run; nothing here is typed by hand. `bench/count` counts instructions.\n\n\
         | | |\n|---|---|\n\
         | Processor | {}, {} threads |\n| Memory | {} |\n| System | {} |\n| Load when started | {} |\n\
         | Rust | {} |\n| Rattle kit | {} |\n| SQLite | {}, in memory, prepared statements |\n| LMDB | {}, on tmpfs, without sync |\n\n\
         A transaction is run to its end by the Rust crate's `transaction`: begin, give, work, commit, prepare and apply at each participant. Its steps are counted, refused ones too. Each rate is the best of five runs.\n\
         lookup: one key. next: the key after one. list of 32: the 32 pairs from a key on. insert: a new value for one key. delete: by turns a delete and an insert of one key. ears: two inserts. mixed: a lookup, a next key and an insert.\n\
         Sixteen clients take turns, a transaction each. The last three columns are ratios of rates: above 1 this store is the faster one.\n\
         BTreeMap has no transactions, no copies and no second client: it is the limit for one thread.\n\n\
         SUMMARY\n",
        first_line("/proc/cpuinfo", "model name"),
        std::thread::available_parallelism().map_or(1, |n| n.get()),
        first_line("/proc/meminfo", "MemTotal"),
        said("uname", "-srm"),
        load,
        said("rustc", "--version"),
        said("rt", "version"),
        Sqlite::version(),
        Lmdb::version(),
    )
}

/// What stands behind the colon in the first line that starts with a word.
fn first_line(file: &str, word: &str) -> String {
    let text = std::fs::read_to_string(file).unwrap_or_default();
    let line = text
        .lines()
        .find(|l| l.starts_with(word))
        .unwrap_or_default();
    line.split_once(':')
        .map_or(line, |(_, rest)| rest)
        .trim()
        .to_string()
}

fn case(servers: usize, full: bool) -> Case {
    if full {
        return Case {
            servers,
            slots: FULL_SLOTS,
            keys: FULL_KEYS * (servers * FULL_SLOTS) as u64,
        };
    }
    Case {
        servers,
        slots: SMALL_SLOTS,
        keys: SMALL_KEYS,
    }
}

fn section(title: &str, full: bool, summary: &mut Vec<String>) -> String {
    let mut out = format!("## {title}\n\n");
    let first = case(1, full);
    let _ = if full {
        writeln!(out, "{} slots on each server, {FULL_KEYS} keys a slot: about nine tenths of all slots are taken.\n", first.slots)
    } else {
        writeln!(
            out,
            "{} slots on each server, {} keys.\n",
            first.slots, first.keys
        )
    };
    out.push_str("| servers | keys | clients | workload | transactions a second | steps a second | to BTreeMap | to SQLite | to LMDB |\n");
    out.push_str("|--:|--:|--:|---|--:|--:|--:|--:|--:|\n");
    for servers in SERVERS {
        let case = case(servers, full);
        let others = others(case);
        for clients in CLIENTS {
            rows(
                &mut out,
                case,
                clients,
                &others,
                (!full && servers == 2 && clients == 1).then_some(&mut *summary),
            );
        }
    }
    out.push('\n');
    out
}

/// Rates of the other stores, for each workload.
fn others(case: Case) -> Vec<[Rate; 3]> {
    let sizes = Sizes {
        servers: case.servers,
        slots: case.slots,
        clients: 1,
    };
    let mut stores = OTHERS.map(|name| filled(name, sizes, case.keys));
    WORKLOADS
        .into_iter()
        .map(|w| {
            stores
                .each_mut()
                .map(|store| rate(store.as_mut(), w, case.keys))
        })
        .collect()
}

fn rows(
    out: &mut String,
    case: Case,
    clients: usize,
    others: &[[Rate; 3]],
    mut summary: Option<&mut Vec<String>>,
) {
    let sizes = Sizes {
        servers: case.servers,
        slots: case.slots,
        clients,
    };
    let mut store = filled("gemandrolo", sizes, case.keys);
    for (workload, others) in WORKLOADS.into_iter().zip(others) {
        let ours = rate(store.as_mut(), workload, case.keys);
        let [map, sqlite, lmdb] = others.map(|other| ours.transactions / other.transactions);
        let name = workload.name();
        let _ = writeln!(
            out,
            "| {} | {} | {clients} | {name} | {:.0} | {:.0} | {map:.3} | {sqlite:.2} | {lmdb:.2} |",
            case.servers, case.keys, ours.transactions, ours.steps
        );
        if let (Some(summary), Workload::Lookup | Workload::Insert | Workload::Ears) =
            (summary.as_deref_mut(), workload)
        {
            summary.push(format!(
                "- {name}, two servers, {} keys, warm copies: {sqlite:.2} times SQLite's rate, {lmdb:.2} times LMDB's, {map:.3} times BTreeMap's.\n",
                case.keys
            ));
        }
    }
}

/// What changes of the servers cost, in stores that are full for two servers.
fn servers() -> String {
    let mut out = format!(
        "## Servers come and go\n\n\
         Two servers with {FULL_KEYS} keys a slot, one client. A third server comes and goes: the shortest of fifty times. Then a third is added and the second retired, its nodes moved \
         one transaction each: the shortest of five. An add takes a version table over, slot by slot; what the others write does not depend on the slots.\n\n\
         | slots on each server | add | close | remove | retire | nodes moved | for each |\n|--:|--:|--:|--:|--:|--:|--:|\n"
    );
    for slots in [8, SMALL_SLOTS, FULL_SLOTS] {
        let c = changes(slots, FULL_KEYS);
        let _ = writeln!(
            out,
            "| {} | {:.1?} | {:.1?} | {:.1?} | {:.1?} | {} | {:.1?} |",
            c.slots,
            c.add,
            c.close,
            c.remove,
            c.retire,
            c.moved,
            c.retire / c.moved.max(1) as u32,
        );
    }
    out.push('\n');
    out
}

/// What the place of a key takes, in each of the ways.
fn places() -> String {
    let mut out = String::from(
        "## The place of a key\n\n\
         In one of 64 nodes, at random, for a key that is random or, half the time, one of the node's; two hundred rounds, in which the ways take turns, and the shortest counts. \
         Counting is what the engine does. Before it branched on each key, and the compiler made a sum of that; the branch that it left was on whether the place is 0, for the yes or no. \
         The first row is what another compiler may make of that branching: written in Rust, with the jumps held in place. \
         In full nodes the loop ends alike for each, so what a wrong guess costs there is a jump on a key.\n\n\
         | | 7 to 14 keys | 14 keys |\n|---|--:|--:|\n",
    );
    let [some, full] = [false, true].map(|full| Questions::new(full).times());
    for (way, (some, full)) in WAYS.iter().zip(some.into_iter().zip(full)) {
        let _ = writeln!(out, "| {} | {some:.1} ns | {full:.1} ns |", way.name);
    }
    out.push('\n');
    out
}

fn plot() -> String {
    draw(&[
        Panel {
            title: "a step's cost by slots",
            points: growth::by_slots(),
        },
        Panel {
            title: "by clients",
            points: growth::by_clients(),
        },
        Panel {
            title: "by the root's level",
            points: growth::by_height(),
        },
    ])
}

fn tail() -> String {
    "## Growth of a step's cost\n\n\
     ![The cost of a step by slots, clients and the root's level](step-cost.svg)\n\n\
     Two servers and ten keys for slots and clients; eight servers of 1,024 slots and 10 to 40,000 keys for the level. Drawn by `bench/run`.\n"
        .to_string()
}
