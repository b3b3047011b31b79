#!/bin/sh
# Microseconds of one decision over scopes: to expand an owner's scopes and a token's, to meet both, and to ask about one object.
# usage: docs/bench/scopes.sh [FOLDER]
# Writes a scratch repository into FOLDER (a new one under /tmp if none is named), proves its crates over what earlier checks of
# this checkout kept, and runs the program. It stands outside the gate, and leaves the repository as it was.
. "$(dirname "$0")/scratch.sh"
begin scopes_bench "${1:-}" 'hub_kit keyed_rows scope_names scope_filters scope_expand scope_meet'

cat >"$bench/src/main.rt" <<'END'
//! Microseconds of a decision over 64 scopes with group filters, among 10,000 groups.
#![tactic(auto)]

ghost use Rattle.std.specs.Prelude.{◌≡◌, ◌<◌, ◌≤◌, []};
ghost use Rattle.std.specs.List.{list_any};
ghost use Rattle.std.specs.Option.{unwrap_or};
ghost use Rattle.std.specs.BTreeMap.{get};
ghost use Rattle.hub_kit.specs.KeyOrder.{name_cmp};
ghost use Rattle.scope_filters.specs.Contexts.{same};

use hub_kit::list::List;
use hub_kit::names::{GroupName, UserName, read_group, read_user};
use scope_expand::expand;
use scope_filters::grant::Grant;
use scope_filters::holder::{Holder, Owner};
use scope_filters::members::Members;
use scope_filters::object::Object;
use scope_filters::scope::{RawFilter, RawScope};
use scope_meet::asks::admits;
use scope_meet::meets::meet;
use scope_names::action::Action;
use scope_names::table::ScopeTable;
use std::alloc::Global;
use std::collections::BTreeMap;
use std::io;
use std::time::{Clock, Duration, Instant};

const GROUPS: u32 = 10000;

/// The members of each group, looked up by the group's name.
#[derive(Drop)]
struct Groups {
    rows: BTreeMap<GroupName, List<UserName>>,
}

impl Members for Groups {
    ghost context = { λ s g. unwrap_or (get name_cmp s.rows g) [] };

    fn is_member(&self, user: &UserName, group: &GroupName) -> bool {
        is_among(user, self.members(group))
    }

    fn members(&self, group: &GroupName) -> &[UserName] {
        match self.rows.get(group) {
            Some(users) => users.as_slice(),
            None => &[],
        }
    }
}

fn is_among(user: &UserName, users: &[UserName]) -> bool
    ensures { result ≡ list_any (same user.now) users.now }
{
    users.iter().any(|other| *user == *other)
}

fn digit(number: u32) -> u8 {
    b"0123456789"[(number % 10) as usize]
}

/// The text of a name by its number, which is below 100,000.
fn name(number: u32) -> [u8; 9] {
    [
        b'n',
        b'a',
        b'm',
        b'e',
        digit(number / 10000),
        digit(number / 1000),
        digit(number / 100),
        digit(number / 10),
        digit(number),
    ]
}

fn user(number: u32) -> Option<UserName> {
    read_user(&name(number)).ok()
}

fn group(number: u32) -> Option<GroupName> {
    read_group(&name(number)).ok()
}

/// The members of a group by its number: those of different groups differ, and each user comes as often as any other.
fn members_of(alloc: Global, group: u32, users: u32, size: u32) -> Option<List<UserName>>
    requires { 0 < users }
{
    let mut members = List::new(alloc);
    for place in 0..size {
        let number = group.wrapping_mul(10).wrapping_add(place.wrapping_mul(977));
        members.push(user(number % users)?).ok()?;
    }
    Some(members)
}

fn all_groups(alloc: Global, users: u32, size: u32) -> Option<Groups>
    requires { 0 < users }
{
    let mut rows = BTreeMap::new(alloc);
    for number in 0..GROUPS {
        let members = members_of(alloc, number, users, size)?;
        rows.insert(group(number)?, members).ok()?;
    }
    Some(Groups { rows })
}

/// A user of the fifth group, a user of the 33rd, and 998 users of none of the scopes' groups, for whom each filter is tried.
fn objects(alloc: Global) -> Option<Vec<Object>> {
    let mut objects = Vec::new(alloc);
    objects.push(Object::User(user(40)?)).ok()?;
    objects.push(Object::User(user(320)?)).ok()?;
    for number in 0..998 {
        objects.push(Object::User(user(50000 + number * 50)?)).ok()?;
    }
    Some(objects)
}

/// Appends a scope of the action for each of the groups.
fn push_scopes(scopes: &mut Vec<RawScope>, action: Action, first: u32, end: u32) -> Option<()> {
    for number in first..end {
        let filter = RawFilter::Group(group(number)?);
        scopes.push(RawScope::Plain { action, filter }).ok()?;
    }
    Some(())
}

fn scopes(alloc: Global, actions: &[Action], first: u32, end: u32) -> Option<Vec<RawScope>> {
    let mut scopes = Vec::new(alloc);
    for action in actions {
        push_scopes(&mut scopes, *action, first, end)?;
    }
    Some(scopes)
}

fn holder() -> Option<Holder> {
    Some(Holder {
        owner: Owner::User(user(0)?),
        issued_for: None,
    })
}

/// Expands 100 times, and answers the number of actions.
fn expand_often(
    alloc: Global,
    table: &ScopeTable,
    scopes: &[RawScope],
    holder: &Holder,
) -> Option<usize> {
    let mut actions = 0;
    for _ in 0..100 {
        actions = expand(alloc, table, scopes, holder).ok()?.iter().count();
    }
    Some(actions)
}

/// Meets ten times, and answers the number of actions.
fn meet_often(alloc: Global, a: &Grant, b: &Grant, groups: &Groups) -> Option<usize> {
    let mut actions = 0;
    for _ in 0..10 {
        actions = meet(alloc, a, b, groups).ok()?.iter().count();
    }
    Some(actions)
}

/// Asks about each of the objects, and answers how many are admitted.
fn ask_all(grant: &Grant, objects: &[Object], groups: &Groups) -> usize {
    objects
        .iter()
        .filter(|object| admits(grant, Action::Servers, *object, groups))
        .count()
}

fn nanoseconds(spent: Duration) -> u64 {
    u64::try_from(spent.as_nanos()).unwrap_or(u64::MAX)
}

/// A line of the time that one of so many calls took, and of what it gave.
fn print_time<R: Print>(
    rt: &R,
    what: &str,
    spent: u64,
    calls: u64,
    count: usize,
    counted: &str,
) -> io::Result<()>
    requires { 0 < calls }
{
    let each = spent / calls;
    println!(rt;
        "  {what}: {}.{} microseconds, {count} {counted}",
        each / 1000,
        each % 1000 / 100
    )
}

/// Prints the least time of five rounds.
fn time_expand<R: Clock + Print>(
    rt: &R,
    what: &str,
    alloc: Global,
    table: &ScopeTable,
    scopes: &[RawScope],
    holder: &Holder,
) -> io::Result<()> {
    let mut least = u64::MAX;
    let mut actions = 0;
    for _ in 0..5 {
        let start = Instant::now(rt)?;
        actions = expand_often(alloc, table, scopes, holder).unwrap_or(0);
        least = least.min(nanoseconds(start.elapsed(rt)?));
    }
    print_time(rt, what, least, 100, actions, "actions")
}

fn time_meet<R: Clock + Print>(
    rt: &R,
    alloc: Global,
    a: &Grant,
    b: &Grant,
    groups: &Groups,
) -> io::Result<()> {
    let mut least = u64::MAX;
    let mut actions = 0;
    for _ in 0..5 {
        let start = Instant::now(rt)?;
        actions = meet_often(alloc, a, b, groups).unwrap_or(0);
        least = least.min(nanoseconds(start.elapsed(rt)?));
    }
    print_time(rt, "meet both", least, 10, actions, "actions")
}

fn time_admits<R: Clock + Print>(
    rt: &R,
    what: &str,
    grant: &Grant,
    objects: &[Object],
    groups: &Groups,
) -> io::Result<()> {
    let mut least = u64::MAX;
    let mut admitted = 0;
    for _ in 0..5 {
        let start = Instant::now(rt)?;
        admitted = ask_all(grant, objects, groups);
        least = least.min(nanoseconds(start.elapsed(rt)?));
    }
    print_time(rt, what, least, 1000, admitted, "of 1000 admitted")
}

/// Meets two grants, and asks the meet and each of the two.
fn time_grants<R: Clock + Print>(
    rt: &R,
    alloc: Global,
    owner: &Grant,
    token: &Grant,
    groups: &Groups,
) -> io::Result<()> {
    let Some(objects) = objects(alloc) else {
        return Ok(());
    };
    let Ok(both) = meet(alloc, owner, token, groups) else {
        return Ok(());
    };
    time_meet(rt, alloc, owner, token, groups)?;
    time_admits(rt, "ask the meet", &both, &objects, groups)?;
    time_admits(rt, "ask the owner's", owner, &objects, groups)?;
    time_admits(rt, "ask the token's", token, &objects, groups)
}

/// Expands the scopes of an owner and of a token, and times what is made of them.
fn time_scopes<R: Clock + Print>(
    rt: &R,
    alloc: Global,
    owned: &[RawScope],
    held: &[RawScope],
    groups: &Groups,
) -> io::Result<()> {
    let Some(holder) = holder() else {
        return Ok(());
    };
    let Ok(table) = ScopeTable::new(alloc, &[]) else {
        return Ok(());
    };
    let Ok(owner) = expand(alloc, &table, owned, &holder) else {
        return Ok(());
    };
    let Ok(token) = expand(alloc, &table, held, &holder) else {
        return Ok(());
    };
    time_expand(rt, "expand the owner's", alloc, &table, owned, &holder)?;
    time_expand(rt, "expand the token's", alloc, &table, held, &holder)?;
    time_grants(rt, alloc, &owner, &token, groups)
}

/// A decision over scopes of the actions, each in so many groups of so many users. The token's scopes name half of the
/// owner's groups, and as many others.
fn time_decision<R: Clock + Print>(
    rt: &R,
    alloc: Global,
    actions: &[Action],
    each: u32,
    users: u32,
    size: u32,
) -> io::Result<()>
    requires users { 0 < users }
    requires each { each ≤ 64 }
{
    println!(rt;
        "actions x groups in the scopes: {} x {each}; {GROUPS} groups of {size}; {users} users",
        actions.len()
    )?;
    let Some(groups) = all_groups(alloc, users, size) else {
        return Ok(());
    };
    let Some(owned) = scopes(alloc, actions, 0, each) else {
        return Ok(());
    };
    let Some(held) = scopes(alloc, actions, each / 2, each / 2 + each) else {
        return Ok(());
    };
    time_scopes(rt, alloc, &owned, &held, &groups)
}

fn main(rt: HostRuntime) -> io::Result<()> {
    let alloc = rt.alloc();
    let many = [
        Action::AccessServers,
        Action::ListUsers,
        Action::ReadServers,
        Action::ReadShares,
        Action::ReadUsers,
        Action::Servers,
        Action::Tokens,
        Action::UsersActivity,
    ];
    let one = [Action::Servers];
    time_decision(&rt, alloc, &many, 8, 100000, 10)?;
    time_decision(&rt, alloc, &many, 8, 100000, 50)?;
    time_decision(&rt, alloc, &one, 64, 100000, 10)?;
    time_decision(&rt, alloc, &one, 64, 100000, 50)?;
    time_decision(&rt, alloc, &one, 64, 1000, 10)?;
    time_decision(&rt, alloc, &one, 64, 1000, 50)
}
END

cd "$bench"
rt run
