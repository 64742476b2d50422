//! Scripts: all lines are read before the first event.
use crate::bytes::{Bytes, Group, GroupWriter};
use crate::packet::{Actor, Body, Change, Place, Places, Request};
use crate::streams::{Kind, KINDS};
use std::collections::BTreeMap;
use std::ops::Range;
use std::rc::Rc;

/// A word asks for at most so many copies.
const MOST_COPIES: usize = 16_777_216;

pub struct Setup {
    pub nodes: u8,
    pub servers: u8,
    pub target: u32,
    pub batch: usize,
}

pub enum Line {
    Submit { from: Actor, to: Actor, body: Body },
    Deliver(usize),
    DeliverLast,
    Settle,
    Cut(Actor),
    Heal(Actor),
    Show { node: u8, extent: u64 },
    Stop { actor: Actor, call: u64, keep: bool },
    Restart(Actor),
    Decide(u64),
    GiveUp { server: u8, range: u64, pick: Places },
    Checkpoint { server: u8, range: u64, combine: bool },
    Split { server: u8, range: u64, key: Rc<[u8]> },
    Assign { range: u64, server: u8, until: u64 },
    Renew { range: u64, server: u8, until: u64 },
    Moment(u64),
}

/// What a script says; the users that it names, in the order of their first lines.
pub struct Plan {
    pub setup: Setup,
    pub lines: Vec<Line>,
    pub users: Vec<u64>,
}

/// Why a script is not run.
pub enum Refused {
    /// It is none.
    BadScript(String),
    /// It has a line that this program does not know.
    Unknown(String),
}

/// Reads the text of a script.
pub fn read(text: &[u8]) -> Result<Plan, Refused> {
    let bad = |reason: &str| Refused::BadScript(reason.to_string());
    let text = std::str::from_utf8(text).map_err(|_| bad("a script is text"))?;
    let mut lines = text.lines().enumerate().filter(|(_, line)| !line.is_empty());
    let setup = lines.next().and_then(|(_, line)| setup_of(line)).ok_or_else(|| bad("a script begins with its setup"))?;
    let mut reader = LineReader::default();
    let mut plan = Plan { setup, lines: Vec::new(), users: Vec::new() };
    let mut words = Vec::with_capacity(8);
    for (at, text) in lines {
        words.clear();
        words.extend(text.split(' '));
        if words[0] == "merge" {
            return Err(Refused::Unknown(format!("line {}: this program knows no merge: {text}", at + 1)));
        }
        let line = reader.line(&words).filter(|line| plan.setup.has(line));
        plan.lines.push(line.ok_or_else(|| bad(&format!("line {} cannot be read: {text}", at + 1)))?);
    }
    plan.users = reader.users;
    Ok(plan)
}

impl Setup {
    /// No line shows a node outside.
    fn has(&self, line: &Line) -> bool {
        match line {
            Line::Show { node, .. } => (1..=self.nodes).contains(node),
            _ => true,
        }
    }
}

fn setup_of(line: &str) -> Option<Setup> {
    let words: Vec<&str> = line.split(' ').collect();
    let ["setup", sizes @ ..] = &words[..] else { return None };
    let [nodes, servers, target, batch] = numbers(sizes)?;
    let fits = (3..=12).contains(&nodes)
        && (1..=4).contains(&servers)
        && (4_096..=16_777_216).contains(&target)
        && (1..=1_024).contains(&batch);
    fits.then_some(Setup { nodes: nodes as u8, servers: servers as u8, target: target as u32, batch: batch as usize })
}

fn is_numeral(word: &str) -> bool {
    !word.is_empty() && word.bytes().all(|byte| byte.is_ascii_digit())
}

/// A number in digits alone.
fn number(word: &str) -> Option<u64> {
    if is_numeral(word) { word.parse().ok() } else { None }
}

fn numbers<const N: usize>(words: &[&str]) -> Option<[u64; N]> {
    let words: &[&str; N] = words.try_into().ok()?;
    let mut found = [0; N];
    for (found, word) in found.iter_mut().zip(words) {
        *found = number(word)?;
    }
    Some(found)
}

/// A node or a server; no stamp has a number of 255, which stands for all greater ones.
fn small(number: u64) -> u8 {
    number.min(255) as u8
}

/// An offset or a length; the greatest is past every end.
fn length(number: u64) -> u32 {
    number.min(u64::from(u32::MAX)) as u32
}

fn kind(number: u64) -> Option<Kind> {
    KINDS.get(usize::try_from(number).ok()?).copied()
}

fn actor(word: &str) -> Option<Actor> {
    let numbered = |digits| number(digits).filter(|number| *number > 0).map(small);
    match word.split_at_checked(1)? {
        ("m", "") => Some(Actor::Manager),
        ("p", "") => Some(Actor::Map),
        ("n", digits) => numbered(digits).map(Actor::Node),
        ("s", digits) => numbered(digits).map(Actor::Server),
        _ => None,
    }
}

/// Writes the bytes of a word: `N*c` is N copies, `-` none, and any other word itself.
fn spell(word: &str, to: &mut Vec<u8>) -> Option<()> {
    match word.split_once('*') {
        Some((count, of)) if is_numeral(count) && of.chars().count() == 1 => {
            let count = count.parse().ok().filter(|count| *count <= MOST_COPIES)?;
            match of.as_bytes() {
                [byte] => to.resize(to.len() + count, *byte),
                _ => (0..count).for_each(|_| to.extend_from_slice(of.as_bytes())),
            }
        }
        _ if word == "-" => {}
        _ => to.extend_from_slice(word.as_bytes()),
    }
    Some(())
}

/// Reads lines one after another. Buffers are kept from line to line.
#[derive(Default)]
struct LineReader {
    users: Vec<u64>,
    /// The place of each user in that list, and the next ticket.
    tickets: BTreeMap<u64, (u32, u64)>,
    buffer: Vec<u8>,
    changes: Vec<(Range<usize>, Option<Range<usize>>)>,
}

impl LineReader {
    fn line(&mut self, words: &[&str]) -> Option<Line> {
        if words.iter().any(|word| word.is_empty()) {
            return None;
        }
        let (verb, rest) = words.split_first()?;
        match (*verb, rest) {
            ("user", [user, asked @ ..]) => self.submit(number(user)?, asked),
            ("settle", []) => Some(Line::Settle),
            ("deliver", ["last"]) => Some(Line::DeliverLast),
            ("deliver", [word]) => Some(Line::Deliver(number(word)? as usize)),
            ("cut", [name]) => Some(Line::Cut(actor(name)?)),
            ("heal", [name]) => Some(Line::Heal(actor(name)?)),
            ("restart", [name]) => Some(Line::Restart(actor(name)?)),
            ("stop", [name, call, "keep"]) => Some(Line::Stop { actor: actor(name)?, call: number(call)?, keep: true }),
            ("stop", [name, call, "drop"]) => Some(Line::Stop { actor: actor(name)?, call: number(call)?, keep: false }),
            ("checkpoint", [by, range, "plain"]) => checkpoint(by, range, false),
            ("checkpoint", [by, range, "combine"]) => checkpoint(by, range, true),
            ("split", [by, range, key]) => {
                Some(Line::Split { server: small(number(by)?), range: number(range)?, key: Rc::from(key.as_bytes()) })
            }
            _ => numbered(verb, rest),
        }
    }

    fn submit(&mut self, user: u64, words: &[&str]) -> Option<Line> {
        let next = self.users.len() as u32;
        let (place, ticket) = self.tickets.entry(user).or_insert((next, 0));
        let (place, request) = (*place, Request { number: *ticket, session: 0, slot: 0 });
        *ticket += 1;
        if place == next {
            self.users.push(user);
        }
        let (to, body) = self.request(words, request)?;
        Some(Line::Submit { from: Actor::User(place), to, body })
    }

    fn request(&mut self, words: &[&str], request: Request) -> Option<(Actor, Body)> {
        let (wish, rest) = words.split_first()?;
        match (*wish, rest) {
            ("append", [node, extent, blocks @ ..]) => {
                let (node, extent) = (small(number(node)?), number(extent)?);
                let group = self.group(blocks)?;
                Some((Actor::Node(node), Body::Append { extent, generation: 0, group, request }))
            }
            ("tx", [server, range, changes @ ..]) => {
                let (server, range) = (small(number(server)?), number(range)?);
                let changes = self.changes(changes)?;
                Some((Actor::Server(server), Body::Transact { range, changes, request }))
            }
            ("get", [server, range, key]) => {
                let (server, range, key) = (small(number(server)?), number(range)?, Bytes::from(key.as_bytes()));
                Some((Actor::Server(server), Body::Get { range, key, request }))
            }
            ("route", [key]) => Some((Actor::Map, Body::Route { key: Bytes::from(key.as_bytes()), request })),
            ("create", [of]) => {
                Some((Actor::Manager, Body::CreateStream { range: 0, kind: kind(number(of)?)?, fence: 0, request }))
            }
            ("extend", [of, last, places @ ..]) => {
                let (kind, last) = (kind(number(of)?)?, last_of(last)?);
                let places = numbers(places)?.map(small);
                Some((Actor::Manager, Body::Extend { range: 0, kind, generation: 0, last, places, request }))
            }
            ("read", _) => {
                let [node, extent, offset, size] = numbers(rest)?;
                let place = Place { extent, offset: length(offset), length: length(size) };
                Some((Actor::Node(small(node)), Body::ReadAt { place, request }))
            }
            ("content", _) => {
                let [node, extent, upto] = numbers(rest)?;
                Some((Actor::Node(small(node)), Body::ReadGroups { extent, upto: length(upto), sealed: true, request }))
            }
            ("seal", [extent]) => Some((Actor::Manager, Body::SealExtent { extent: number(extent)?, request })),
            _ => None,
        }
    }

    fn group(&mut self, words: &[&str]) -> Option<Group> {
        let mut writer = GroupWriter::new(&mut self.buffer);
        for word in words {
            let mut spelled = None;
            writer.block(|to| spelled = spell(word, to));
            spelled?;
        }
        Some(writer.group())
    }

    /// The changes of these words: all their keys and values are pieces of one buffer.
    fn changes(&mut self, words: &[&str]) -> Option<Rc<[Change]>> {
        self.buffer.clear();
        self.changes.clear();
        for word in words {
            let change = self.change(word)?;
            self.changes.push(change);
        }
        let buffer = Rc::from(&self.buffer[..]);
        let piece = |places: &Range<usize>| Bytes::piece(&buffer, places.clone());
        let change = |(key, value): &(_, Option<_>)| Change { key: piece(key), value: value.as_ref().map(piece) };
        Some(self.changes.iter().map(change).collect())
    }

    /// Where the key and the value of a change stand in the buffer.
    fn change(&mut self, word: &str) -> Option<(Range<usize>, Option<Range<usize>>)> {
        let start = self.buffer.len();
        if let Some(key) = word.strip_prefix('-') {
            self.buffer.extend_from_slice(key.as_bytes());
            return Some((start..self.buffer.len(), None));
        }
        let (key, value) = word.strip_prefix('+')?.split_once('=')?;
        self.buffer.extend_from_slice(key.as_bytes());
        let middle = self.buffer.len();
        spell(value, &mut self.buffer)?;
        Some((start..middle, Some(middle..self.buffer.len())))
    }
}

fn checkpoint(by: &str, range: &str, combine: bool) -> Option<Line> {
    Some(Line::Checkpoint { server: small(number(by)?), range: number(range)?, combine })
}

fn last_of(word: &str) -> Option<Option<u64>> {
    if word == "none" { Some(None) } else { number(word).map(Some) }
}

/// Lines of a verb and numbers.
fn numbered(verb: &str, words: &[&str]) -> Option<Line> {
    match verb {
        "moment" => numbers(words).map(|[now]| Line::Moment(now)),
        "decide" => numbers(words).map(|[extent]| Line::Decide(extent)),
        "show" => {
            let [node, extent] = numbers(words)?;
            Some(Line::Show { node: small(node), extent })
        }
        "assign" => numbers(words).map(|[range, server, until]| Line::Assign { range, server: small(server), until }),
        "renew" => numbers(words).map(|[range, server, until]| Line::Renew { range, server: small(server), until }),
        "giveup" => {
            let [server, range, pick @ ..] = numbers::<5>(words)?;
            Some(Line::GiveUp { server: small(server), range, pick: pick.map(small) })
        }
        _ => None,
    }
}
