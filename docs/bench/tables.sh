#!/bin/sh
# Nanoseconds and bytes of a row of the tables: 100,000 users, 10,000 groups and 1,000,000 tokens put and looked up, and a tenth of them.
# usage: docs/bench/tables.sh [FOLDER]
# Writes a scratch repository into FOLDER (a new one under /tmp if none is named), proves its crates over what earlier checks of
# this checkout kept, and runs the program. It stands outside the gate, and leaves the repository as it was.
. "$(dirname "$0")/scratch.sh"
begin tables_bench "${1:-}" 'hub_kit keyed_rows row_indexes scope_names scope_filters hub_rows hub_tables'

cat >"$bench/src/main.rt" <<'END'
//! Time and memory of the tables, at so many users and ten times as many tokens.
#![tactic(auto)]

ghost use Rattle.std.specs.Prelude.{◌<◌};

use hub_kit::hashes::hash_of;
use hub_kit::list::List;
use hub_kit::moment::Moment;
use hub_kit::names::{UserName, read_group, read_user};
use hub_kit::text::Text;
use hub_rows::limits::Limits;
use hub_rows::records::{Group, Token, User};
use hub_tables::tables::Tables;
use keyed_rows::sorted::Sorted;
use scope_filters::holder::Owner;
use scope_names::table::ScopeTable;
use std::alloc::Global;
use std::time::{Clock, Duration, Instant};
use std::{env, fs, io};

const ASKED: u32 = 1000;
const ROUNDS: u32 = 100;

fn digit(number: u32) -> u8 {
    b"0123456789"[(number % 10) as usize]
}

/// The text of a name by its number, which is below 10,000,000.
fn name(number: u32) -> [u8; 8] {
    [
        b'n',
        digit(number / 1000000),
        digit(number / 100000),
        digit(number / 10000),
        digit(number / 1000),
        digit(number / 100),
        digit(number / 10),
        digit(number),
    ]
}

fn user(number: u32) -> Option<UserName> {
    read_user(&name(number)).ok()
}

fn limits() -> Limits {
    Limits {
        users: 10000000,
        groups: 10000000,
        services: 0,
        roles: 0,
        servers: 0,
        tokens: 10000000,
        shares: 0,
        codes: 0,
        trail_bytes: 0,
    }
}

fn put_users(tables: &mut Tables, users: u32) -> Option<()> {
    for number in 0..users {
        let row = User {
            name: user(number)?,
            admin: false,
            created: Moment::zero(),
            last_activity: None,
        };
        tables.put_user(row, Some(0)).ok()?;
    }
    Some(())
}

/// The ten members of a group by its number.
fn members(alloc: Global, group: u32) -> Option<Sorted<UserName>> {
    let mut users = Vec::new(alloc);
    for place in 0..10u32 {
        let number = group.wrapping_mul(10).wrapping_add(place);
        users.push(user(number)?).ok()?;
    }
    Some(Sorted::from_vec(users))
}

/// Groups of ten, so that each user is in one.
fn put_groups(tables: &mut Tables, alloc: Global, groups: u32) -> Option<()> {
    for number in 0..groups {
        let row = Group {
            name: read_group(&name(number)).ok()?,
            users: members(alloc, number)?,
        };
        tables.put_group(row, Some(0)).ok()?;
    }
    Some(())
}

/// A token by its number; each user has ten.
fn token(alloc: Global, number: u32) -> Option<Token> {
    Some(Token {
        id: number as u64,
        client: None,
        created: Moment::zero(),
        expires_at: None,
        hash: hash_of(alloc, &name(number)).ok()?,
        issued_for: None,
        note: Text::new(alloc),
        owner: Owner::User(user(number / 10)?),
        scopes: List::new(alloc),
    })
}

fn put_new(tables: &mut Tables, token: Token) -> Option<()> {
    if !tables.token_is_new(token.id, &token.hash) {
        return None;
    }
    tables.put_token(token, Some(0)).ok()
}

fn put_tokens(tables: &mut Tables, alloc: Global, tokens: u32) -> Option<()> {
    for number in 0..tokens {
        put_new(tables, token(alloc, number)?)?;
    }
    Some(())
}

/// The hashes of tokens, spread over all of them.
fn hashes(alloc: Global, tokens: u32) -> Option<Vec<Text>> {
    let mut hashes = Vec::new(alloc);
    for number in 0..ASKED {
        let place = number.wrapping_mul(tokens / ASKED);
        hashes.push(hash_of(alloc, &name(place)).ok()?).ok()?;
    }
    Some(hashes)
}

fn names(alloc: Global, users: u32) -> Option<Vec<UserName>> {
    let mut names = Vec::new(alloc);
    for number in 0..ASKED {
        names.push(user(number.wrapping_mul(users / ASKED))?).ok()?;
    }
    Some(names)
}

fn found_tokens(tables: &Tables, hashes: &[Text]) -> usize {
    hashes
        .iter()
        .filter(|hash| tables.token_of_hash(*hash).is_some())
        .count()
}

fn found_users(tables: &Tables, names: &[UserName]) -> usize {
    names
        .iter()
        .filter(|name| tables.user(*name).is_some())
        .count()
}

/// The tokens of an owner, by a walk over all tokens.
fn owned(tables: &Tables, owner: &Owner) -> usize {
    tables.tokens().filter(|row| row.row().owner == *owner).count()
}

/// The tokens of an owner, by the index.
fn found_owned(tables: &Tables, alloc: Global, owner: &Owner) -> usize {
    match tables.tokens_of(alloc, owner) {
        Ok(ids) => ids.len(),
        Err(_) => 0,
    }
}

/// The groups of a user.
fn found_groups(tables: &Tables, alloc: Global, user: &UserName) -> usize {
    match tables.groups_of(alloc, user) {
        Ok(names) => names.len(),
        Err(_) => 0,
    }
}

fn nanoseconds(spent: Duration) -> u64 {
    u64::try_from(spent.as_nanos()).unwrap_or(u64::MAX)
}

/// The kibibytes that the process has in memory, as Linux tells in pages of 4 KiB.
fn resident(rt: &HostRuntime) -> io::Result<u64> {
    let text = fs::read_to_string(rt, "/proc/self/statm")?;
    let pages = match text.split_whitespace().nth(1) {
        Some(word) => word.parse::<u64>().unwrap_or(0),
        None => 0,
    };
    Ok(pages.wrapping_mul(4))
}

/// A line of the time of one of so many calls, in nanoseconds.
fn print_time(rt: &HostRuntime, what: &str, spent: u64, calls: u64, counted: usize) -> io::Result<()> {
    if calls == 0 {
        return Ok(());
    }
    println!(rt; "  {what}: {} ns each, {counted} found", spent / calls)
}

/// A line of what so many puts took.
fn print_puts(rt: &HostRuntime, what: &str, spent: u64, kibibytes: u64, rows: u64) -> io::Result<()> {
    if rows == 0 {
        return Ok(());
    }
    println!(rt;
        "  put {rows} {what}: {} ns and {} bytes a row",
        spent / rows,
        kibibytes.wrapping_mul(1024) / rows
    )
}

fn time_user_looks(rt: &HostRuntime, tables: &Tables, users: u32) -> io::Result<()> {
    let Some(names) = names(rt.alloc(), users) else {
        return Ok(());
    };
    let start = Instant::now(rt)?;
    let mut found = 0;
    for _ in 0..ROUNDS {
        found = found_users(tables, &names);
    }
    let spent = nanoseconds(start.elapsed(rt)?);
    print_time(rt, "user by name", spent, 100000, found)
}

fn time_token_looks(rt: &HostRuntime, tables: &Tables, tokens: u32) -> io::Result<()> {
    let Some(hashes) = hashes(rt.alloc(), tokens) else {
        return Ok(());
    };
    let start = Instant::now(rt)?;
    let mut found = 0;
    for _ in 0..ROUNDS {
        found = found_tokens(tables, &hashes);
    }
    let spent = nanoseconds(start.elapsed(rt)?);
    print_time(rt, "token by hash", spent, 100000, found)
}

fn time_walk(rt: &HostRuntime, tables: &Tables) -> io::Result<()> {
    let Some(name) = user(7) else {
        return Ok(());
    };
    let start = Instant::now(rt)?;
    let found = owned(tables, &Owner::User(name));
    let spent = nanoseconds(start.elapsed(rt)?);
    print_time(rt, "tokens of an owner by a walk", spent, 1, found)
}

fn time_owner_looks(rt: &HostRuntime, tables: &Tables, users: u32) -> io::Result<()> {
    let Some(names) = names(rt.alloc(), users) else {
        return Ok(());
    };
    let start = Instant::now(rt)?;
    let mut found = 0;
    for name in &names {
        found = found_owned(tables, rt.alloc(), &Owner::User(*name));
    }
    let spent = nanoseconds(start.elapsed(rt)?);
    print_time(rt, "tokens of an owner by the index", spent, ASKED as u64, found)
}

fn time_group_looks(rt: &HostRuntime, tables: &Tables, users: u32) -> io::Result<()> {
    let Some(names) = names(rt.alloc(), users) else {
        return Ok(());
    };
    let start = Instant::now(rt)?;
    let mut found = 0;
    for name in &names {
        found = found_groups(tables, rt.alloc(), name);
    }
    let spent = nanoseconds(start.elapsed(rt)?);
    print_time(rt, "groups of a user", spent, ASKED as u64, found)
}

fn time_users(rt: &HostRuntime, tables: &mut Tables, users: u32) -> io::Result<()> {
    let before = resident(rt)?;
    let start = Instant::now(rt)?;
    if put_users(tables, users).is_none() {
        println!(rt; "  no room for the users")?;
    }
    let spent = nanoseconds(start.elapsed(rt)?);
    let taken = resident(rt)?.wrapping_sub(before);
    print_puts(rt, "users", spent, taken, users as u64)
}

fn time_groups(rt: &HostRuntime, tables: &mut Tables, groups: u32) -> io::Result<()> {
    let before = resident(rt)?;
    let start = Instant::now(rt)?;
    if put_groups(tables, rt.alloc(), groups).is_none() {
        println!(rt; "  no room for the groups")?;
    }
    let spent = nanoseconds(start.elapsed(rt)?);
    let taken = resident(rt)?.wrapping_sub(before);
    print_puts(rt, "groups", spent, taken, groups as u64)
}

fn time_tokens(rt: &HostRuntime, tables: &mut Tables, tokens: u32) -> io::Result<()> {
    let before = resident(rt)?;
    let start = Instant::now(rt)?;
    if put_tokens(tables, rt.alloc(), tokens).is_none() {
        println!(rt; "  no room for the tokens")?;
    }
    let spent = nanoseconds(start.elapsed(rt)?);
    let taken = resident(rt)?.wrapping_sub(before);
    print_puts(rt, "tokens", spent, taken, tokens as u64)
}

fn time_tables(rt: &HostRuntime, users: u32) -> io::Result<()> {
    let Ok(scopes) = ScopeTable::new(rt.alloc(), &[]) else {
        return Ok(());
    };
    let mut tables = Tables::new(rt.alloc(), limits(), scopes);
    let tokens = users.wrapping_mul(10);
    let groups = users / 10;
    println!(rt; "{users} users, {groups} groups, {tokens} tokens")?;
    time_users(rt, &mut tables, users)?;
    time_groups(rt, &mut tables, groups)?;
    time_tokens(rt, &mut tables, tokens)?;
    time_user_looks(rt, &tables, users)?;
    time_token_looks(rt, &tables, tokens)?;
    time_group_looks(rt, &tables, users)?;
    time_owner_looks(rt, &tables, users)?;
    time_walk(rt, &tables)
}

fn main(rt: HostRuntime) -> io::Result<()> {
    for word in env::args(&rt)?.skip(1) {
        time_tables(&rt, word.parse::<u32>().unwrap_or(0))?;
    }
    Ok(())
}
END

cd "$bench"
rt run -- 10000
rt run -- 100000
