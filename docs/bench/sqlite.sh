#!/bin/sh
# Rows a second of `keeper_sqlite`, in memory and on a file, beside the stock sqlite3 with the same statements on the same file
# system; and a check that the stock sqlite3 reads what `keeper_sqlite` wrote. Where sqlite3 is missing, its part is skipped.
# usage: docs/bench/sqlite.sh [FOLDER [COUNT]]
# COUNT transactions of a thousand rows (100 if none is named), a hundred times as many of one row in memory, and ten times as many
# of one row on a file.
# Writes a scratch repository into FOLDER (a new one under /tmp if none is named), proves its crates over what earlier checks of
# this checkout kept, and runs the program. It stands outside the gate, and leaves the repository as it was.
. "$(dirname "$0")/scratch.sh"
count=${2:-100}
begin sqlite_bench "${1:-}" 'hub_kit hub_devices keyed_rows keeper row_table keeper_sqlite' 'hub_kit keeper keeper_sqlite sqlite anyhow'

cat >"$bench/src/main.rt" <<'END'
//! Commits rows to keepers over SQLite, in memory and on files, and times that.
#![tactic(auto)]

use hub_kit::list::List;
use hub_kit::text::Text;
use keeper::keeper::{Batch, Item, Keeper, Row};
use keeper_sqlite::sqlite_keeper::SqliteKeeper;
use sqlite::{Connection, File, FileStore};
use std::alloc::{AllocError, Global};
use std::env;
use std::time::Instant;

const TEXT: &str = r#"{"admin":false,"created":1700000000,"last_activity":null}"#;

fn item_of(alloc: Global, number: u32) -> Result<Item, AllocError> {
    Ok(Item::Put(Row {
        kind: 1,
        key: Text::from_string(format!(in alloc; "n{number}")?),
        text: Text::from_str(alloc, TEXT)?,
    }))
}

fn batch_of(alloc: Global, first: u32, size: u32) -> Result<Batch, AllocError> {
    let mut batch = List::new(alloc);
    for at in 0..size {
        batch.push(item_of(alloc, first.saturating_add(at))?)?;
    }
    Ok(batch)
}

/// Commits so many batches of this size, of rows that are new.
fn commit_all<K: Keeper>(
    rt: &HostRuntime,
    what: &str,
    keeper: &mut K,
    count: u32,
    size: u32,
) -> anyhow::Result<()> {
    let start = Instant::now(rt)?;
    let mut failed = 0u32;
    let mut first = 1000000u32;
    for _ in 0..count {
        let batch = batch_of(rt.alloc(), first, size)?;
        if keeper.commit(&batch).is_err() {
            failed = failed.saturating_add(1);
        }
        first = first.saturating_add(size);
    }
    let took = start.elapsed(rt)?.as_millis();
    println!(rt;
        "keeper_sqlite, {what}: {count} transactions of {size} rows in {took} ms, {failed} failed"
    )?;
    Ok(())
}

fn load_all<K: Keeper>(rt: &HostRuntime, what: &str, keeper: &mut K) -> anyhow::Result<()> {
    let start = Instant::now(rt)?;
    match keeper.load() {
        Ok(rows) => {
            let took = start.elapsed(rt)?.as_millis();
            println!(rt;
                "keeper_sqlite, {what}: a load of {} rows in {took} ms",
                rows.len()
            )?;
        }
        Err(_) => println!(rt; "keeper_sqlite, {what}: the load failed")?,
    }
    Ok(())
}

/// The keeper, after so many batches of this size were committed and all rows loaded.
fn timed<K: Keeper>(
    rt: &HostRuntime,
    what: &str,
    mut keeper: K,
    count: u32,
    size: u32,
) -> anyhow::Result<K> {
    commit_all(rt, what, &mut keeper, count, size)?;
    load_all(rt, what, &mut keeper)?;
    Ok(keeper)
}

fn in_memory(rt: &HostRuntime, count: u32, size: u32) -> anyhow::Result<()> {
    let keeper = SqliteKeeper::in_memory(rt.alloc())?;
    let _keeper = timed(rt, "in memory", keeper, count, size)?;
    Ok(())
}

fn file_keeper(rt: &HostRuntime, path: &str) -> anyhow::Result<SqliteKeeper<FileStore<File>>> {
    Ok(SqliteKeeper::over(rt.alloc(), Connection::open(rt, path)?))
}

fn close(keeper: SqliteKeeper<FileStore<File>>) -> anyhow::Result<()> {
    keeper.into_connection().close()?;
    Ok(())
}

fn on_a_file(rt: &HostRuntime, path: &str, count: u32, size: u32) -> anyhow::Result<()> {
    let keeper = file_keeper(rt, path)?;
    close(timed(rt, "on a file", keeper, count, size)?)
}

/// All runs, of so many transactions of a thousand rows, and of ten and a hundred times as many of one row.
fn run_all(rt: &HostRuntime, count: u32) -> anyhow::Result<()> {
    in_memory(rt, count.saturating_mul(100), 1)?;
    in_memory(rt, count, 1000)?;
    on_a_file(rt, "few.db", 2, 2)?;
    on_a_file(rt, "one.db", count.saturating_mul(10), 1)?;
    on_a_file(rt, "many.db", count, 1000)
}

fn main(rt: HostRuntime) -> anyhow::Result<()> {
    for word in env::args(&rt)?.skip(1) {
        run_all(&rt, word.parse::<u32>().unwrap_or(0))?;
    }
    Ok(())
}
END

cd "$bench"
rm -f ./*.db ./*.db-*
rt run -- "$count"

if ! command -v sqlite3 >/dev/null; then
    echo 'sqlite3 is not installed: skipped'
    exit 0
fi
found=$(sqlite3 few.db 'PRAGMA integrity_check; SELECT kind, key, text FROM row ORDER BY kind, key; SELECT name, value FROM meta')
text='{"admin":false,"created":1700000000,"last_activity":null}'
wanted="ok
1|n1000000|$text
1|n1000001|$text
1|n1000002|$text
1|n1000003|$text
schema|2"
if [ "$found" != "$wanted" ]; then
    echo "sqlite3 reads: $found"
    exit 1
fi
[ "$(sqlite3 many.db 'PRAGMA integrity_check; SELECT count(*), count(DISTINCT key) FROM row')" = "ok
$((count * 1000))|$((count * 1000))" ] || exit 1
echo 'sqlite3 reads the rows as they were committed'

# the same statements, with the values in their text, and the same journal and syncs as keeper_sqlite's store has
statements() {
    awk -v count="$1" -v size="$2" -v text="$text" 'BEGIN {
        print "CREATE TABLE row (kind INTEGER, key TEXT, text TEXT, PRIMARY KEY (kind, key)) STRICT;"
        for (t = 0; t < count; t++) {
            print "BEGIN;"
            for (i = 0; i < size; i++)
                printf "INSERT INTO row (kind, key, text) VALUES (1, '\''n%d'\'', '\''%s'\'') " \
                       "ON CONFLICT (kind, key) DO UPDATE SET text = excluded.text;\n", 1000000 + t * size + i, text
            print "COMMIT;"
        }
    }'
}
timed() {
    what=$1
    shift
    start=$(date +%s%N)
    "$@"
    echo "sqlite3, $what in $((($(date +%s%N) - start) / 1000000)) ms"
}
run() { sqlite3 -cmd 'PRAGMA journal_mode = wal' -cmd 'PRAGMA synchronous = full' "$1" <"$2" >/dev/null; }
load() { sqlite3 "$1" 'SELECT kind, key, text FROM row ORDER BY kind, key' >/dev/null; }
statements $((count * 100)) 1 >memory.sql
statements $((count * 10)) 1 >one.sql
statements "$count" 1000 >many.sql
timed "in memory: $((count * 100)) transactions of 1 rows" run :memory: memory.sql
timed "in memory: $count transactions of 1000 rows" run :memory: many.sql
timed "on a file: $((count * 10)) transactions of 1 rows" run stock-one.db one.sql
timed "on a file: $count transactions of 1000 rows" run stock-many.db many.sql
timed "on a file: a load of $((count * 1000)) rows" load stock-many.db
timed "on keeper_sqlite's file: a load of $((count * 1000)) rows" load many.db
