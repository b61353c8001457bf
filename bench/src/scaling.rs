//! How a call's time grows when the zone's length, or the number of its
//! blocks, doubles.

use crate::peers::time_plain_read;
use crate::print;
use crate::random::Random;
use crate::timing::{time, Times, Work};
use crate::workloads::{alone, zone_of, Plan, KIBIBYTE};

/// The calls shown: each way of going over the zone is among them.
const SHOWN: [&str; 14] = [
    "check",
    "allocate relocatable",
    "allocate relocatable, growing",
    "allocate fixed",
    "free by handle",
    "resize to more",
    "read 64 bytes",
    "write 64 bytes",
    "compact",
    "sum",
    "roster",
    "census",
    "census by a mill's limits",
    "walker step",
];

/// A column of a table: the calls of one plan, and a plain read of the zone's bytes, which grows
/// with L alone and shows where the zone outgrows a cache.
fn column(table: &str, name: &str, plan: &Plan) {
    let mut random = Random::new(2);
    let zone = zone_of(plan, &mut random);
    for row in alone(&zone, plan, 12, &mut random) {
        if SHOWN.contains(&row.name) {
            let Times { archive, rust } = time(&Work::of(&row));
            print(table, row.name, &format!("{name}, proved"), archive);
            print(table, row.name, &format!("{name}, Rust"), rust);
        }
    }
    print(table, "plain read of L bytes", &format!("{name}, proved"), time_plain_read(&zone));
}

fn table(title: &str, columns: &[String], plans: &[Plan]) {
    for (name, plan) in columns.iter().zip(plans) {
        column(title, name, plan);
    }
}

pub fn rows() {
    let few =
        Plan { length: 0, masters: 64, relocatable: 36, fixed: 4, most_data: 1_000, hole_every: 6 };
    let lengths = [64, 128, 256, 512, 1_024];
    table(
        "L doubles, 40 blocks",
        &lengths.map(|length| format!("{length} KiB")),
        &lengths.map(|length| Plan { length: length * KIBIBYTE, ..few }),
    );
    let length = 1_024 * KIBIBYTE;
    let large = Plan { length, masters: 8_188, most_data: 160, hole_every: 4, ..few };
    let counts = [500, 1_000, 2_000, 4_000, 8_000];
    table(
        "the number of blocks doubles, 1 MiB",
        &counts.map(|count| format!("{count} blocks")),
        &counts.map(|count| Plan { relocatable: count - count / 50, fixed: count / 50, ..large }),
    );
    table(
        "the number of fixed blocks doubles, 1 MiB",
        &counts.map(|count| format!("{count} blocks")),
        &counts.map(|count| Plan { relocatable: count / 10, fixed: count - count / 10, ..large }),
    );
}
