#!/bin/sh
# Time of a start and a stop of a server through a connection, with no other live server and with 999 others, and of a GET of a user with
# 100 live named servers. The keeper, the spawner and the route link are in memory.
# usage: docs/bench/servers.sh [FOLDER]
# Writes a scratch repository into FOLDER (a new one under /tmp if none is named), proves its crates over what earlier checks of
# this checkout kept, and runs the program. It stands outside the gate, and leaves the repository as it was.
. "$(dirname "$0")/scratch.sh"
begin servers_bench "${1:-}" "$(below hub_run)" \
    'hub_run hub_core hub_opening hub_machine scope_names scope_filters server_life keeper hub_devices hub_kit http_wire desk'
mkdir -p "$bench/proofs/least"

cat >"$bench/proofs/least/Invariants.antt" <<'END'
use Rattle.std.proofs.Common.{◌≡◌}
use Rattle.servers_bench.proofs.least.Given as goal

abbrev pub invariant-loop-round : goal.invariant-loop-round
invariant-loop-round g l = l.pass.of ≡ l.initial.pass.of
END

cat >"$bench/src/main.rt" <<'END'
//! Time of starts and stops of servers through connections.
#![tactic(auto)]

ghost use Rattle.std.specs.Prelude.{◌≡◌, ◌≤◌, ◌^◌, IfSome, IfOk};
ghost use Rattle.hub_opening.specs.Kept.{MakeTable};

use desk::{Desk, Pass};
use hub_core::book::Book;
use hub_devices::mem_bytes::{MemSink, MemSource};
use hub_devices::mem_clock::FixedClock;
use hub_devices::mem_random::ListRandom;
use hub_devices::mem_routes::MemRouteLink;
use hub_devices::mem_spawner::MemSpawner;
use hub_kit::bytes::Bytes;
use hub_kit::list::List;
use hub_kit::moment::Moment;
use hub_kit::names::{UserName, read_user};
use hub_kit::target::Target;
use hub_kit::targets::read_target;
use hub_kit::text::Text;
use hub_machine::change::Change;
use hub_opening::config::{ConfigToken, ConfigUser, HubConfig, greatest_limits};
use hub_run::{HubKit, serve_connection};
use keeper::mem_keeper::MemKeeper;
use keeper::trail::ListTrail;
use scope_filters::holder::Owner;
use scope_filters::scope::RawScope;
use scope_names::custom::CustomRow;
use server_life::Pool;
use std::alloc::Global;
use std::io;
use std::sync::Wait;
use std::time::{Clock, Duration, Instant};

const TARGETS: u32 = 1000;
const PAIRS: u32 = 400;
const GETS: u32 = 800;
const NAMED: u32 = 100;
const ROUNDS: u32 = 15;

type MemBook = Book<MemKeeper, ListTrail<Change>>;

type MemKit = HubKit<MemSpawner, MemRouteLink, FixedClock, ListRandom>;

fn digit(number: u32) -> u8 {
    b"0123456789"[(number % 10) as usize]
}

/// The text of a name by its number, which is below 10,000.
fn name(number: u32) -> [u8; 5] {
    [
        b'u',
        digit(number / 1000),
        digit(number / 100),
        digit(number / 10),
        digit(number),
    ]
}

/// A target by its number: one of the ports from 10000 on.
fn target(alloc: Global, number: u32) -> Option<Target> {
    let port = [
        b'1',
        digit(number / 1000),
        digit(number / 100),
        digit(number / 10),
        digit(number),
    ];
    let mut text = Bytes::from_slice(alloc, b"http://127.0.0.1:").ok()?;
    text.push_all(&port).ok()?;
    read_target(alloc, text.as_slice()).ok()
}

fn targets(alloc: Global) -> Option<Vec<Target>> {
    let mut targets = Vec::new(alloc);
    for number in 0..TARGETS {
        targets.push(target(alloc, number)?).ok()?;
    }
    Some(targets)
}

fn user(name: &[u8]) -> Option<UserName> {
    read_user(name).ok()
}

/// The admin ann and as many other users as there are targets.
fn users(alloc: Global) -> Option<Vec<ConfigUser>> {
    let mut users = Vec::new(alloc);
    let ann = ConfigUser {
        name: user(b"ann")?,
        admin: true,
    };
    users.push(ann).ok()?;
    for number in 0..TARGETS {
        let other = ConfigUser {
            name: user(&name(number))?,
            admin: false,
        };
        users.push(other).ok()?;
    }
    Some(users)
}

/// The token of ann, which holds all that ann holds.
fn tokens(alloc: Global) -> Option<Vec<ConfigToken>> {
    let owner = Owner::User(user(b"ann")?);
    let text = Text::from_str(alloc, "secret-token-ann").ok()?;
    let scopes = vec![in alloc; RawScope::Inherit].ok()?;
    let token = ConfigToken {
        text,
        owner,
        scopes: List::from_vec(scopes),
    };
    vec![in alloc; token].ok()
}

fn config_of(
    alloc: Global,
    pool: Pool,
    users: Vec<ConfigUser>,
    tokens: Vec<ConfigToken>,
) -> HubConfig
    ensures trail { result.limits.trail_bytes ≤ 2 ^ 62 }
    ensures scopes { MakeTable result.custom_scopes }
{
    HubConfig {
        pool,
        hub_url: None,
        limits: greatest_limits(),
        no_trail: false,
        users: List::from_vec(users),
        groups: List::new(alloc),
        services: List::new(alloc),
        roles: List::new(alloc),
        tokens: List::from_vec(tokens),
        custom_scopes: no_scopes(alloc),
    }
}

fn no_scopes(alloc: Global) -> List<CustomRow>
    ensures { MakeTable result }
{
    List::new(alloc)
}

fn config(alloc: Global) -> Option<HubConfig>
    ensures { IfSome result (λ config. (config.limits.trail_bytes ≤ 2 ^ 62) × MakeTable config.custom_scopes) }
{
    let users = users(alloc)?;
    let tokens = tokens(alloc)?;
    let pool = Pool::new(List::from_vec(targets(alloc)?))?;
    Some(config_of(alloc, pool, users, tokens))
}

fn book(alloc: Global) -> Option<MemBook> {
    let config = config(alloc)?;
    let Ok(keeper) = MemKeeper::new(alloc, Vec::new(alloc), Vec::new(alloc)) else {
        drop(config);
        return None;
    };
    let now = Moment::up_to(1700000000);
    let book = Book::open(alloc, keeper, ListTrail::new(alloc), &config, now);
    drop(config);
    match book {
        Ok(book) => Some(book),
        Err(_) => None,
    }
}

/// A draw by its number, which is below 10,000,000.
fn draw(number: u32) -> [u8; 16] {
    [
        0,
        0,
        0,
        0,
        0,
        0,
        0,
        0,
        0,
        digit(number / 1000000),
        digit(number / 100000),
        digit(number / 10000),
        digit(number / 1000),
        digit(number / 100),
        digit(number / 10),
        digit(number),
    ]
}

/// A thousand draws from this number on.
fn draws(alloc: Global, first: u32) -> Option<Vec<[u8; 16]>> {
    let mut draws = Vec::new(alloc);
    for number in 0..1000u32 {
        draws.push(draw(first.wrapping_add(number))).ok()?;
    }
    Some(draws)
}

/// Devices that nothing was asked of yet, with draws from this number on.
fn kit(alloc: Global, first: u32) -> Option<MemKit> {
    let draws = draws(alloc, first)?;
    Some(HubKit {
        spawner: MemSpawner::new(alloc, Vec::new(alloc)),
        routes: MemRouteLink::new(alloc, Vec::new(alloc)),
        clock: FixedClock(Moment::up_to(1700000000)),
        random: ListRandom::new(draws, Vec::new(alloc)),
    })
}

/// Adds a request on a user by the number.
fn push_request(text: &mut Bytes, method: &[u8], user: u32, path: &[u8]) -> Option<()> {
    text.push_all(method).ok()?;
    text.push_all(b" /hub/api/users/").ok()?;
    text.push_all(&name(user)).ok()?;
    text.push_all(path).ok()?;
    text.push_all(b" HTTP/1.1\r\nHost: hub\r\nAuthorization: token secret-token-ann\r\n\r\n")
        .ok()
}

/// Starts and stops of the default server of the user 0.
fn pairs(alloc: Global) -> Option<Bytes> {
    let mut text = Bytes::new(alloc);
    for _ in 0..PAIRS {
        push_request(&mut text, b"POST", 0, b"/server")?;
        push_request(&mut text, b"DELETE", 0, b"/server")?;
    }
    Some(text)
}

/// GETs of a user by the number.
fn gets(alloc: Global, user: u32) -> Option<Bytes> {
    let mut text = Bytes::new(alloc);
    for _ in 0..GETS {
        push_request(&mut text, b"GET", user, b"")?;
    }
    Some(text)
}

/// Starts of the default servers of these users.
fn starts(alloc: Global, first: u32, end: u32) -> Option<Bytes> {
    let mut text = Bytes::new(alloc);
    for user in first..end {
        push_request(&mut text, b"POST", user, b"/server")?;
    }
    Some(text)
}

/// Starts of named servers of the user 1.
fn named(alloc: Global) -> Option<Bytes> {
    let mut text = Bytes::new(alloc);
    for number in 0..NAMED {
        let mut path = Bytes::from_slice(alloc, b"/servers/").ok()?;
        path.push_all(&name(number)).ok()?;
        push_request(&mut text, b"POST", 1, path.as_slice())?;
    }
    Some(text)
}

/// How many replies are good.
fn good_replies(bytes: &[u8]) -> usize {
    bytes
        .windows(11)
        .filter(|window| *window == b"HTTP/1.1 20".as_slice())
        .count()
}

/// Serves one connection with this input: the nanoseconds that it took, and how many replies were good.
fn serve<R: Wait + Clock>(
    rt: &R,
    alloc: Global,
    desk: &Desk<MemBook>,
    pass: &mut Pass<MemBook>,
    first: u32,
    text: &Bytes,
) -> io::Result<Option<(u64, usize)>>
    requires { pass.old.of ≡ desk.now }
    ensures { pass.new.of ≡ pass.old.of }
{
    let Ok(input) = Bytes::from_slice(alloc, text.as_slice()) else {
        return Ok(None);
    };
    let Some(mut kit) = kit(alloc, first) else {
        return Ok(None);
    };
    let mut source = MemSource::new(input, 65536, Vec::new(alloc));
    let mut sink = MemSink::new(alloc, Vec::new(alloc));
    let start = Instant::now(rt)?;
    let served = serve_connection(rt, alloc, desk, pass, &mut source, &mut sink, &mut kit);
    let spent = nanoseconds(start.elapsed(rt)?);
    if served.is_err() {
        return Ok(None);
    }
    Ok(Some((spent, good_replies(sink.as_slice()))))
}

fn nanoseconds(spent: Duration) -> u64 {
    u64::try_from(spent.as_nanos()).unwrap_or(u64::MAX)
}

/// The least nanoseconds of some rounds with this input, and the least number of good replies.
fn least<R: Wait + Clock>(
    rt: &R,
    alloc: Global,
    desk: &Desk<MemBook>,
    pass: &mut Pass<MemBook>,
    first: u32,
    text: &Bytes,
) -> io::Result<(u64, usize)>
    requires { pass.old.of ≡ desk.now }
    ensures { pass.new.of ≡ pass.old.of }
{
    let mut time = u64::MAX;
    let mut good = usize::MAX;
    for round in 0..ROUNDS {
        let draws = first.wrapping_add(round.wrapping_mul(1000));
        if let Some((spent, replies)) = serve(rt, alloc, desk, pass, draws, text)? {
            time = time.min(spent);
            good = good.min(replies);
        }
    }
    Ok((time, good))
}

/// Shows what one of so many calls of this input takes.
fn show<R: Wait + Clock + Print>(
    rt: &R,
    alloc: Global,
    desk: &Desk<MemBook>,
    pass: &mut Pass<MemBook>,
    what: &str,
    text: Option<Bytes>,
    calls: u32,
) -> io::Result<()>
    requires { pass.old.of ≡ desk.now }
    ensures { pass.new.of ≡ pass.old.of }
{
    let Some(text) = text else {
        return println!(rt; "{what}: no memory");
    };
    let (time, good) = least(rt, alloc, desk, pass, 0, &text)?;
    println!(rt; "{what}: {} ns each, {good} good replies", time / u64::from(calls.max(1)))
}

/// Serves a connection with this input once.
fn prepare<R: Wait + Clock + Print>(
    rt: &R,
    alloc: Global,
    desk: &Desk<MemBook>,
    pass: &mut Pass<MemBook>,
    first: u32,
    text: Option<Bytes>,
) -> io::Result<()>
    requires { pass.old.of ≡ desk.now }
    ensures { pass.new.of ≡ pass.old.of }
{
    let Some(text) = text else {
        return println!(rt; "no memory");
    };
    match serve(rt, alloc, desk, pass, first, &text)? {
        Some((_, good)) => println!(rt; "{good} servers started"),
        None => println!(rt; "no servers started"),
    }
}

/// Shows the times with none, 100 and 999 other live servers.
fn measure<R: Wait + Clock + Print>(
    rt: &R,
    alloc: Global,
    desk: &Desk<MemBook>,
    pass: &mut Pass<MemBook>,
) -> io::Result<()>
    requires { pass.old.of ≡ desk.now }
{
    show(rt, alloc, desk, pass, "a start and a stop, no other server", pairs(alloc), PAIRS)?;
    show(rt, alloc, desk, pass, "a GET of a user without servers", gets(alloc, 999), GETS)?;
    prepare(rt, alloc, desk, pass, 1000000, named(alloc))?;
    show(rt, alloc, desk, pass, "a GET of a user with 100 servers", gets(alloc, 1), GETS)?;
    show(rt, alloc, desk, pass, "a start and a stop, 100 other servers", pairs(alloc), PAIRS)?;
    prepare(rt, alloc, desk, pass, 2000000, starts(alloc, 2, 901))?;
    show(rt, alloc, desk, pass, "a start and a stop, 999 other servers", pairs(alloc), PAIRS)
}

fn main(rt: HostRuntime) -> io::Result<()> {
    let alloc = rt.alloc();
    let Some(book) = book(alloc) else {
        return println!(rt; "no memory for a book");
    };
    match Desk::open(alloc, book) {
        Ok((desk, mut pass)) => measure(&rt, alloc, &desk, &mut pass),
        Err(_) => println!(rt; "no memory for a desk"),
    }
}
END

cd "$bench"
rt run
