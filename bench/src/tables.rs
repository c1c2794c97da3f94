//! Tables of what callgrind counted.

use crate::call::Contender;
use crate::probes::{names, tables};
use std::collections::HashMap;
use std::fs;
use std::path::Path;

// The counts by the names that they were dumped under.
fn counts(folder: &Path) -> HashMap<String, u64> {
    let texts = fs::read_dir(folder).unwrap().map(|file| fs::read_to_string(file.unwrap().path()).unwrap());
    let count = |text: String| {
        let after = |head: &str| text.lines().find_map(|line| line.strip_prefix(head));
        let name = after("desc: Trigger: Client Request: ")?.to_string();
        Some((name, after("totals: ")?.trim().parse().ok()?))
    };
    texts.filter_map(count).collect()
}

/// Prints the instructions of each probe, by contender, from the folder of callgrind's files.
pub fn print(contenders: &[Box<dyn Contender>], folder: &Path) {
    let counts = counts(folder);
    for table in tables() {
        println!("\n### {}\n", table.title);
        print!("| instructions |");
        contenders.iter().for_each(|it| print!(" {} |", it.name()));
        println!(" register to hand-written |\n|---|{}---|", "---|".repeat(contenders.len()));
        for probe in &table.probes {
            let figures: Vec<f64> = contenders
                .iter()
                .map(|contender| {
                    let [less, more] =
                        names(probe, &**contender).map(|name| counts.get(&name).copied().unwrap_or(0) as f64);
                    (more - less) / probe.calls as f64
                })
                .collect();
            print!("| {} |", probe.name);
            figures.iter().for_each(|figure| print!(" {figure:.0} |"));
            println!(" {:.2} |", figures[0] / figures[1]);
        }
    }
}
