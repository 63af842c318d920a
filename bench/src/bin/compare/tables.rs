//! The tables that are printed.

use crate::measure::{Figures, Measured};

const KIB: f64 = 1024.0;

pub fn print_times(all: &[Measured]) {
    println!("Milliseconds: median (least to most).");
    println!();
    println!("| File | Bytes | Plain | `settle work` | Ratio |");
    println!("|---|---|---|---|---|");
    for it in all {
        let Measured {
            name,
            bytes,
            plain,
            settle,
            ratio,
        } = it;
        let plain = plain.milliseconds;
        let settle = settle.milliseconds;
        println!("| {name} | {bytes} | {plain} | {settle} | {ratio} |");
    }
}

/// From each file to the next, and what each byte takes past the smallest file.
pub fn print_growth(all: &[Measured]) {
    println!("Growth of the medians, and nanoseconds for each byte past the first file's.");
    println!();
    println!(
        "| From | To | Bytes | Plain | `settle work` | Plain, ns a byte | `settle work`, ns a byte |"
    );
    println!("|---|---|---|---|---|---|---|");
    let Some(first) = all.first() else {
        return;
    };
    for pair in all.windows(2) {
        let [from, to] = pair else {
            continue;
        };
        println!(
            "| {} | {} | × {:.2} | × {:.2} | × {:.2} | {:.2} | {:.2} |",
            from.name,
            to.name,
            to.bytes as f64 / from.bytes as f64,
            growth(&from.plain, &to.plain),
            growth(&from.settle, &to.settle),
            nanoseconds_a_byte(first, to, |it| &it.plain),
            nanoseconds_a_byte(first, to, |it| &it.settle),
        );
    }
}

fn growth(from: &Figures, to: &Figures) -> f64 {
    to.milliseconds.median / from.milliseconds.median
}

fn nanoseconds_a_byte(from: &Measured, to: &Measured, of: fn(&Measured) -> &Figures) -> f64 {
    let milliseconds = of(to).milliseconds.median - of(from).milliseconds.median;
    milliseconds * 1e6 / to.bytes.abs_diff(from.bytes) as f64
}

pub fn print_memory(all: &[Measured]) {
    println!("Most memory, KiB.");
    println!();
    println!("| File | File's size | Plain | `settle work` | `settle work` past the file's size |");
    println!("|---|---|---|---|---|");
    for it in all {
        let size = it.bytes as f64 / KIB;
        let plain = it.plain.most_memory_kib;
        let settle = it.settle.most_memory_kib;
        let past = settle as f64 - size;
        println!(
            "| {} | {size:.0} | {plain} | {settle} | {past:.0} |",
            it.name
        );
    }
}
