#!/bin/sh
# What an opening over many users takes of a hub, and what of it the library takes alone: the least and the median of rounds in turn, in
# seconds of processor time, of `session .. --db FILE` without a request, of the library that opens, checks and closes the same file, and
# of the same with one reading of the rows, which is all that a hub asks of it.
# usage: docs/bench/opening.sh PROGRAM [ROUNDS [COUNT ..]]
# PROGRAM is the hub as `./run` links it (crates/hub/out/hub). 7 rounds over 10,000 and 100,000 users if nothing else is said. It writes a
# scratch repository of one crate over the kit's library alone, proves and links it, which takes some minutes, and makes its files in a new
# folder under /tmp; it stands outside the gate, and ends with status 1 at the first thing that isn't as it should be.
. "$(dirname "$0")/scratch.sh"
program=$(realpath "$1")
rounds=${2:-7}
[ $# -lt 2 ] || shift
shift
[ $# -gt 0 ] || set -- 10000 100000
begin library_opening '' '' 'sqlite sqlite_std_file'

cat >"$bench/src/main.rt" <<'END'
//! What the library takes of an opening: it opens a file of SQLite with its log, checks it, reads all rows of a hub's table once where the
//! second word is `read`, and closes it.
#![tactic(auto)]

use sqlite::{Connection, Options, Unknown};
use std::env;
use std::process::ExitCode;

/// As many pages in memory as a hub keeps at most.
const CACHE_PAGES: usize = 16_000;

fn main(rt: HostRuntime) -> ExitCode {
    let Ok(mut args) = env::args(&rt) else {
        return ExitCode::from(2);
    };
    let (Some(_), Some(path), Some(how)) = (args.next(), args.next(), args.next()) else {
        return ExitCode::from(2);
    };
    let Ok(files) = sqlite_std_file::open(&rt, path.as_str(), Unknown) else {
        return ExitCode::from(3);
    };
    let options = Options {
        cache_pages: CACHE_PAGES,
        ..Options::new(7)
    };
    let Ok(mut conn) = Connection::open_files(rt.alloc(), files, options) else {
        return ExitCode::from(4);
    };
    if how.as_str() == "read" {
        let rows = conn.query_all("SELECT rowid, kind, key, text FROM row ORDER BY rowid", &[]);
        let Ok(rows) = rows else {
            return ExitCode::from(5);
        };
        if rows.is_empty() {
            return ExitCode::from(6);
        }
    }
    match conn.close() {
        Ok(()) => ExitCode::from(0),
        Err(_) => ExitCode::from(7),
    }
}
END

cd "$bench"
# linked, and run once without words
rt run >"$scratch/built" 2>&1 || true
[ -x "out/library_opening" ] || { tail -20 "$scratch/built"; exit 1; }
cd "$scratch"
exec python3 - "$program" "$bench/out/library_opening" "$rounds" "$@" <<'PYTHON'
import hashlib, json, os, sqlite3, statistics, subprocess, sys

program, library, rounds = sys.argv[1], sys.argv[2], int(sys.argv[3])
WORDS = [program, "session", "1700000000", "ann", "secret-token-ann", "--admin"]
USER = '{"admin":false,"created":1700000000,"last_activity":null}'
TOKEN = {"client": None, "created": 1700000000, "expires_at": None, "hash": "", "issued_for": None, "note": "", "owner": "",
         "scopes": ["inherit"]}


def took(words):
    """Seconds of processor time of a program that reads nothing."""
    ran = subprocess.Popen(words, stdin=subprocess.DEVNULL, stdout=subprocess.DEVNULL, stderr=subprocess.PIPE)
    said = ran.stderr.read().decode()
    _, status, used = os.wait4(ran.pid, 0)
    if status:
        sys.exit(f"not as it should be: {words} ends with {os.waitstatus_to_exitcode(status)}: {said}")
    return used.ru_utime + used.ru_stime


def fill(file, count):
    """A file of a hub's with so many users, each but ann with a token; ann has the one of the words."""
    took([*WORDS, "--db", file])
    kept = sqlite3.connect(file)
    for n in range(count - 1):
        user = f"u{n:06d}"
        digest = hashlib.sha256(f"token-{n:06d}".encode()).hexdigest()
        token = {**TOKEN, "hash": digest, "owner": f"user:{user}"}
        kept.execute("INSERT INTO row VALUES (1, ?, ?)", (user, USER))
        kept.execute("INSERT INTO row VALUES (5, ?, ?)", (str(n + 2), json.dumps(token, separators=(",", ":"))))
    kept.execute("UPDATE row SET text = ? WHERE kind = 12 AND key = 'token'", (f'{{"next":{count + 1}}}',))
    kept.commit()
    kept.close()


for count in map(int, sys.argv[4:]):
    file = f"many{count}.db"
    fill(file, count)
    runs = {
        "the hub opens it": [*WORDS, "--db", file],
        "the library opens it": [library, file, "open"],
        "the library opens it and reads the rows once": [library, file, "read"],
    }
    figures = {name: [] for name in runs}
    for at in range(rounds):
        for name, words in runs.items():
            figures[name].append(took(words))
    for name, seconds in figures.items():
        print(f"{count} users, {name}: {min(seconds):.3f} s at the least, {statistics.median(seconds):.3f} at the median", flush=True)
PYTHON
