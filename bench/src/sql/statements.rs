//! The tables, and the statements over them.

use super::sqlite::{Database, Statement};

/// The tables. States are 0 Running, 1 Validated, 2 Committed, 3 Aborted; a decision is null, -1 for Aborted, or a stamp. A line's id is
/// its number. Nothing is ever rolled back, so no journal is kept.
pub const TABLES: [&str; 17] = [
    "PRAGMA journal_mode = OFF",
    "PRAGMA synchronous = OFF",
    "PRAGMA temp_store = MEMORY",
    "CREATE TABLE cells (key INTEGER PRIMARY KEY, value INTEGER, wrote INTEGER, saw INTEGER)",
    "CREATE TABLE transactions (number INTEGER PRIMARY KEY, decision INTEGER)",
    "CREATE TABLE rows_ (id INTEGER PRIMARY KEY, number INTEGER, ground INTEGER, state INTEGER, lower INTEGER, upper INTEGER)",
    "CREATE TABLE reads (id INTEGER PRIMARY KEY, number INTEGER, key INTEGER, ground INTEGER, value INTEGER, seen INTEGER)",
    "CREATE TABLE writes (id INTEGER PRIMARY KEY, number INTEGER, key INTEGER, ground INTEGER, value INTEGER)",
    "CREATE TABLE notes (id INTEGER PRIMARY KEY, ground INTEGER, first INTEGER, second INTEGER, apart INTEGER)",
    "CREATE UNIQUE INDEX row_of ON rows_ (number, ground)",
    "CREATE UNIQUE INDEX read_of ON reads (number, key)",
    "CREATE UNIQUE INDEX write_of ON writes (number, key)",
    "CREATE INDEX read_at ON reads (key)",
    "CREATE INDEX write_at ON writes (key)",
    "CREATE INDEX note_first ON notes (first, ground)",
    "CREATE INDEX note_second ON notes (second, ground)",
    "BEGIN",
];

macro_rules! statements {
    ($($name:ident: $sql:literal,)*) => {
        pub struct Statements {
            $(pub $name: Statement,)*
        }

        impl Statements {
            pub fn new(database: &Database) -> Statements {
                Statements { $($name: database.prepare($sql),)* }
            }
        }
    };
}

statements! {
    // A day is one transaction of SQLite.
    end_day: "COMMIT",
    begin_day: "BEGIN",
    no_transactions: "DELETE FROM transactions",
    no_rows: "DELETE FROM rows_",
    no_reads: "DELETE FROM reads",
    no_writes: "DELETE FROM writes",
    no_notes: "DELETE FROM notes",
    last: "SELECT ifnull(max(number), 0) FROM transactions",
    count_transactions: "SELECT count(*) FROM transactions",
    begin: "INSERT INTO transactions VALUES (?1, NULL)",
    decision: "SELECT decision IS NULL, decision FROM transactions WHERE number = ?1",
    decide: "UPDATE transactions SET decision = ?2 WHERE number = ?1",
    cell: "SELECT value, wrote FROM cells WHERE key = ?1",
    row: "SELECT state, lower, upper FROM rows_ WHERE number = ?1 AND ground = ?2",
    any_write: "SELECT 1 FROM writes WHERE number = ?1 LIMIT 1",
    read_line: "SELECT value, seen FROM reads WHERE number = ?1 AND key = ?2",
    free: "SELECT 256 - ifnull((SELECT max(id) FROM rows_), 0), 512 - ifnull((SELECT max(id) FROM reads), 0),
        512 - ifnull((SELECT max(id) FROM writes), 0), 4096 - ifnull((SELECT max(id) FROM notes), 0)",
    readers: "SELECT count(*) FROM reads l JOIN rows_ r ON r.number = l.number AND r.ground = l.ground
        WHERE l.key = ?1 AND l.number <> ?2 AND r.state < 2",
    writers: "SELECT count(*) FROM writes l JOIN rows_ r ON r.number = l.number AND r.ground = l.ground
        WHERE l.key = ?1 AND l.number <> ?2 AND r.state < 2",
    add_row: "INSERT INTO rows_ (number, ground, state, lower, upper) VALUES (?1, ?2, 0, 0, 268435455)",
    add_read: "INSERT INTO reads (number, key, ground, value, seen) VALUES (?1, ?2, ?3, ?4, ?5)",
    add_write: "INSERT INTO writes (number, key, ground, value) VALUES (?1, ?2, ?3, ?4)",
    set_write: "UPDATE writes SET value = ?3 WHERE number = ?1 AND key = ?2 RETURNING 1",
    note_before_writers: "INSERT INTO notes (ground, first, second, apart)
        SELECT l.ground, ?2, l.number, 0 FROM writes l JOIN rows_ r ON r.number = l.number AND r.ground = l.ground
        WHERE l.key = ?1 AND r.state < 2 ORDER BY l.id",
    note_after_readers: "INSERT INTO notes (ground, first, second, apart)
        SELECT l.ground, l.number, ?2, 0 FROM reads l JOIN rows_ r ON r.number = l.number AND r.ground = l.ground
        WHERE l.key = ?1 AND l.number <> ?2 AND r.state < 2 ORDER BY l.id",
    note_apart: "INSERT INTO notes (ground, first, second, apart)
        SELECT l.ground, ?2, l.number, 1 FROM writes l JOIN rows_ r ON r.number = l.number AND r.ground = l.ground
        WHERE l.key = ?1 AND l.number <> ?2 AND r.state < 2 ORDER BY l.id",
    floor: "SELECT max(
        ifnull((SELECT max(seen) + 1 FROM reads WHERE number = ?1 AND ground = ?2), 0),
        ifnull((SELECT max(max(c.wrote, c.saw)) + 1 FROM writes w JOIN cells c ON c.key = w.key WHERE w.number = ?1 AND w.ground = ?2), 0))",
    // Side 0 is before the other, 1 after it, 2 apart from it. A floor, a ceiling, and how many have to make way.
    findings: "SELECT ifnull(max(r.upper + 1) FILTER (WHERE r.state > 0 AND side > 0), 0),
            ifnull(min(r.lower - 1) FILTER (WHERE r.state > 0 AND side = 0), 268435455), total(r.state = 0)
        FROM (SELECT second AS other, 2 * apart AS side FROM notes WHERE first = ?1 AND ground = ?2
            UNION ALL SELECT first, 1 + apart FROM notes WHERE second = ?1 AND ground = ?2) n
        JOIN rows_ r ON r.number = n.other AND r.ground = ?2 WHERE r.state < 3",
    lower_befores: "UPDATE rows_ SET upper = min(upper, ?3 - 1) WHERE ground = ?2 AND state = 0
        AND number IN (SELECT first FROM notes WHERE second = ?1 AND ground = ?2 AND apart = 0)",
    raise_afters: "UPDATE rows_ SET lower = max(lower, ?3 + 1) WHERE ground = ?2 AND state = 0
        AND number IN (SELECT second FROM notes WHERE first = ?1 AND ground = ?2
            UNION ALL SELECT first FROM notes WHERE second = ?1 AND ground = ?2 AND apart = 1)",
    set_row: "UPDATE rows_ SET state = ?3, lower = ?4, upper = ?5 WHERE number = ?1 AND ground = ?2",
    rows_of: "SELECT total(state = 0), total(state = 3), ifnull(max(lower), 0), ifnull(min(upper), 268435455) FROM rows_ WHERE number = ?1",
    settle_reads: "UPDATE cells SET saw = ?3 WHERE saw < ?3 AND key IN (SELECT key FROM reads WHERE number = ?1 AND ground = ?2)",
    settle_writes: "UPDATE cells SET value = w.value, wrote = ?3 FROM writes w
        WHERE w.number = ?1 AND w.ground = ?2 AND cells.key = w.key AND cells.wrote < ?3",
    add_cell: "INSERT INTO cells VALUES (?1, 0, 0, 0)",
    cells: "SELECT value, wrote, saw FROM cells ORDER BY key",
}
