//! The static library's calls beside those of the Rust implementation and what
//! else a user might do: `bench times` prints one run's nanoseconds, a line for
//! each (table, row, column, number), `bench counts` makes the same calls for
//! callgrind to count. `tables.py` makes tables of either.

#[path = "../../compare/src/c_interface.rs"]
mod c_interface;
mod cache;
#[allow(dead_code)]
#[path = "../../compare/src/calls.rs"]
mod calls;
mod counting;
#[allow(dead_code)]
#[path = "../../compare/src/model.rs"]
mod model;
mod peers;
#[allow(dead_code)]
#[path = "../../compare/src/random.rs"]
mod random;
#[allow(dead_code)]
#[path = "../../compare/src/rules.rs"]
mod rules;
mod scaling;
mod sides;
mod timing;
mod workloads;
#[allow(dead_code)]
#[path = "../../compare/src/zone.rs"]
mod zone;

use peers::Peer;
use random::Random;
use timing::{time, Times, Work};
use workloads::{alone, any_second, mix, zone_of, Plan, KIBIBYTE};

/// Bytes of the buffer behind a zone that is shorter than the limit.
const BEYOND: usize = 1_024;
const MIXED_CALLS: usize = 200;

struct Workload {
    name: &'static str,
    plan: Plan,
    compact_every: usize,
}

const WORKLOADS: [Workload; 4] = [
    Workload {
        name: "64 KiB with 40 blocks",
        plan: Plan {
            length: 64 * KIBIBYTE,
            masters: 64,
            relocatable: 36,
            fixed: 4,
            most_data: 1_500,
            hole_every: 6,
        },
        compact_every: 100,
    },
    Workload {
        name: "64 KiB with 4,000 small blocks and 20 fixed ones",
        plan: Plan {
            length: 64 * KIBIBYTE,
            masters: 4_100,
            relocatable: 4_000,
            fixed: 20,
            most_data: 10,
            hole_every: 40,
        },
        compact_every: 100,
    },
    Workload {
        name: "1 MiB nearly empty",
        plan: Plan {
            length: 1_024 * KIBIBYTE,
            masters: 16,
            relocatable: 6,
            fixed: 2,
            most_data: 2_000,
            hole_every: 4,
        },
        compact_every: 100,
    },
    Workload {
        name: "1 MiB with 8,000 blocks and repeated compaction",
        plan: Plan {
            length: 1_024 * KIBIBYTE,
            masters: 8_188,
            relocatable: 7_900,
            fixed: 100,
            most_data: 200,
            hole_every: 8,
        },
        compact_every: 8,
    },
];

/// What is done with a row of a zone's table.
type Measure = fn(&str, &str, &Work);

/// One number of a table, as a line.
pub fn print(table: &str, row: &str, column: &str, nanoseconds: f64) {
    println!("{table}\t{row}\t{column}\t{nanoseconds:.1}");
}

fn print_times(zone: &str, row: &str, work: &Work) {
    let Times { archive, rust } = time(work);
    print(zone, row, "proved", archive);
    print(zone, row, "Rust", rust);
}

/// One workload: a mix, then each call alone. Answers the zone.
fn rows_of(workload: &Workload, measure: Measure) -> Vec<u8> {
    let mut random = Random::new(1);
    let mut zone = zone_of(&workload.plan, &mut random);
    if zone.len() < 1_024 * KIBIBYTE {
        zone.resize(zone.len() + BEYOND, 0);
    }
    let calls = mix(&zone, &workload.plan, MIXED_CALLS, workload.compact_every, &mut random);
    let second = any_second();
    let work = Work { zone: &zone, calls: &calls, second: &second, each_on_a_copy: false };
    measure(workload.name, "realistic mix", &work);
    for one in alone(&zone, &workload.plan, 24, &mut random) {
        measure(workload.name, one.name, &Work::of(&one));
    }
    zone
}

fn rows_of_pages(name: &str, pages: &cache::Pages, measure: Measure) {
    for one in cache::rows(pages, 12, &mut Random::new(3)) {
        measure(name, one.name, &Work::of(&one));
    }
}

fn main() {
    let times = match std::env::args().nth(1).as_deref() {
        Some("times") => true,
        Some("counts") => false,
        _ => panic!("times or counts"),
    };
    let measure: Measure = if times { print_times } else { counting::count };
    for workload in &WORKLOADS {
        let zone = rows_of(workload, measure);
        if times {
            for Peer { call, name, nanoseconds } in peers::times(&zone, &mut Random::new(4)) {
                print(workload.name, call, name, nanoseconds);
            }
        }
    }
    for (name, pages) in &cache::ZONES {
        rows_of_pages(name, pages, measure);
    }
    if times {
        scaling::rows();
    }
}
