//! The register beside hand-written Rust and SQLite. README.md has the commands.

mod call;
mod callgrind;
mod check;
mod days;
mod hand;
mod linked;
mod probes;
#[cfg(sqlite)]
mod sql;
mod tables;
mod times;

use call::Contender;

// The register first, since the others are held against it.
fn contenders() -> Vec<Box<dyn Contender>> {
    vec![
        Box::new(linked::Linked::new()),
        hand::Hand::new(),
        #[cfg(sqlite)]
        Box::new(sql::Sql::new()),
        #[cfg(sqlite)]
        Box::new(sql::Plain::new()),
    ]
}

fn main() {
    let words: Vec<String> = std::env::args().skip(1).collect();
    let words: Vec<&str> = words.iter().map(String::as_str).collect();
    let mut contenders = contenders();
    if words == ["times"] {
        return times::print(&mut contenders);
    }
    contenders.retain(|it| it.keeps_the_rules());
    match words[..] {
        ["check"] => check::check(&mut contenders),
        ["count"] => probes::count(&mut contenders),
        ["tables", folder] => tables::print(&contenders, folder.as_ref()),
        _ => panic!("check, times, count or tables FOLDER"),
    }
}
