//! A script as it runs: all actors, and all packets that were sent.
use crate::effects::{tell, Effects};
use crate::manager::Manager;
use crate::map::{Hex, Map};
use crate::node::Node;
use crate::packet::{Actor, Body, Packet};
use crate::refusal::Refusal;
use crate::script::{Line, Plan, Setup};
use crate::server::Server;
use std::collections::BTreeSet;

/// One settle delivers at most so many packets.
const MOST_DELIVERIES: usize = 100_000;

struct Session {
    nodes: Vec<Node>,
    manager: Manager,
    servers: Vec<Server>,
    map: Map,
    now: u64,
    post: Vec<Packet>,
    /// No settle takes a packet below this one, nor one of these, which were delivered by their numbers.
    lowest: usize,
    delivered: BTreeSet<usize>,
    cut: Vec<Actor>,
    users: Vec<u64>,
    effects: Effects,
}

/// Runs a script, and gives what it prints.
pub fn run(plan: Plan) -> Vec<u8> {
    let Plan { setup, lines, users } = plan;
    let mut session = Session::new(&setup, users);
    lines.into_iter().for_each(|line| session.play(line));
    session.effects.out
}

/// The actor of a number, from 1.
fn numbered<T>(actors: &mut [T], number: u8) -> Option<&mut T> {
    actors.get_mut(usize::from(number).checked_sub(1)?)
}

impl Session {
    fn new(setup: &Setup, users: Vec<u64>) -> Session {
        Session {
            nodes: (1..=setup.nodes).map(Node::new).collect(),
            manager: Manager::new(setup.nodes, setup.target),
            servers: (1..=setup.servers).map(|number| Server::new(number, setup.batch)).collect(),
            map: Map::new(),
            now: 0,
            post: Vec::new(),
            lowest: 0,
            delivered: BTreeSet::new(),
            cut: Vec::new(),
            users,
            effects: Effects::default(),
        }
    }

    fn play(&mut self, line: Line) {
        match line {
            Line::Submit { from, to, body } => self.post.push(Packet { from, to, body }),
            Line::Deliver(number) => self.deliver_by_number(number),
            Line::DeliverLast => self.deliver_by_number(self.post.len().wrapping_sub(1)),
            Line::Settle => self.settle(),
            Line::Cut(actor) => self.cut.push(actor),
            Line::Heal(actor) => self.cut.retain(|other| *other != actor),
            Line::Show { node, extent } => self.nodes[usize::from(node) - 1].show(extent, &mut self.effects),
            Line::Stop { actor, call, keep } => self.stop(actor, call, keep),
            Line::Restart(actor) => self.restart(actor),
            line => {
                if let Err(refusal) = self.call(line) {
                    tell!(self.effects, "refused {refusal}");
                }
                self.post.append(&mut self.effects.sent);
            }
        }
    }

    /// Calls of the manager, of the map and of servers, each of which refuses nothing once it has stopped.
    fn call(&mut self, line: Line) -> Result<(), Refusal> {
        let effects = &mut self.effects;
        match line {
            Line::Decide(extent) if self.manager.device.up => self.manager.decide(extent, effects),
            Line::Assign { range, server, until } if self.map.device.up => {
                self.map.assign(range, server, until, self.now, effects)
            }
            Line::Renew { range, server, until } if self.map.device.up => self.map.renew(range, server, until, effects),
            Line::Moment(now) => {
                self.now = self.now.max(now);
                self.servers.iter_mut().for_each(|server| server.show_moment(now));
                Ok(())
            }
            Line::GiveUp { server, range, pick } => {
                self.running_server(server).map_or(Ok(()), |(server, effects)| server.give_up(range, pick, effects))
            }
            Line::Checkpoint { server, range, combine } => {
                self.running_server(server).map_or(Ok(()), |(server, effects)| server.checkpoint(range, combine, effects))
            }
            Line::Split { server, range, key } => {
                self.running_server(server).map_or(Ok(()), |(server, effects)| server.split(range, &key, effects))
            }
            _ => Ok(()),
        }
    }

    fn running_server(&mut self, number: u8) -> Option<(&mut Server, &mut Effects)> {
        let server = numbered(&mut self.servers, number).filter(|server| server.up)?;
        Some((server, &mut self.effects))
    }

    fn stop(&mut self, actor: Actor, call: u64, keep: bool) {
        match actor {
            Actor::Node(number) => {
                if let Some(node) = numbered(&mut self.nodes, number).filter(|node| node.device.up) {
                    node.stop(call, keep);
                }
            }
            Actor::Server(number) => {
                if let Some(server) = numbered(&mut self.servers, number) {
                    server.stop(call);
                }
            }
            Actor::Manager if self.manager.device.up => self.manager.stop(call, keep),
            Actor::Map if self.map.device.up => self.map.stop(call, keep),
            _ => {}
        }
    }

    fn restart(&mut self, actor: Actor) {
        match actor {
            Actor::Node(number) => {
                if let Some(node) = numbered(&mut self.nodes, number).filter(|node| !node.device.up) {
                    node.restart();
                }
            }
            Actor::Server(number) => {
                if let Some(server) = numbered(&mut self.servers, number).filter(|server| !server.up) {
                    server.restart(self.now);
                }
            }
            Actor::Manager if !self.manager.device.up => self.manager.restart(),
            Actor::Map if !self.map.device.up => self.map.restart(),
            _ => {}
        }
    }

    /// Delivers the lowest packet that no settle took and that is to nobody who is cut off, again and again.
    fn settle(&mut self) {
        for _ in 0..MOST_DELIVERIES {
            while self.is_passed_over() {
                self.delivered.remove(&self.lowest);
                self.lowest += 1;
            }
            if self.lowest == self.post.len() {
                return;
            }
            self.lowest += 1;
            self.deliver(self.lowest - 1);
        }
    }

    fn is_passed_over(&self) -> bool {
        let is_cut = |packet: &Packet| self.cut.contains(&packet.to);
        let was_delivered = !self.delivered.is_empty() && self.delivered.contains(&self.lowest);
        self.post.get(self.lowest).is_some_and(|packet| was_delivered || is_cut(packet))
    }

    fn deliver_by_number(&mut self, number: usize) {
        if number < self.post.len() {
            if number >= self.lowest {
                self.delivered.insert(number);
            }
            self.deliver(number);
        }
    }

    /// A packet comes to whom it is for, if that one runs.
    fn deliver(&mut self, number: usize) {
        let (packet, effects) = (&self.post[number], &mut self.effects);
        match packet.to {
            Actor::Node(number) => {
                if let Some(node) = numbered(&mut self.nodes, number).filter(|node| node.device.up) {
                    node.take(packet, effects);
                }
            }
            Actor::Server(number) => {
                if let Some(server) = numbered(&mut self.servers, number).filter(|server| server.up) {
                    server.take(packet, effects);
                }
            }
            Actor::Manager if self.manager.device.up => self.manager.take(packet, effects),
            Actor::Map if self.map.device.up => self.map.take(packet, effects),
            Actor::User(user) => report(self.users[user as usize], &packet.body, effects),
            _ => {}
        }
        self.post.append(&mut effects.sent);
    }
}

/// Prints the answer that a packet brings to a user.
fn report(user: u64, body: &Body, effects: &mut Effects) {
    match body {
        Body::Appended { request, offset } => tell!(effects, "user {user} {} appended {offset}", request.number),
        Body::Committed { request, number } => tell!(effects, "user {user} {} committed {number}", request.number),
        Body::Value { request, value: Some(value) } => tell!(effects, "user {user} {} value {}", request.number, Hex(value)),
        Body::Value { request, value: None } => tell!(effects, "user {user} {} value none", request.number),
        Body::Created { request } => tell!(effects, "user {user} {} created", request.number),
        Body::Extended { request, extent, .. } => tell!(effects, "user {user} {} extended {extent}", request.number),
        Body::Bytes { request, bytes, .. } => tell!(effects, "user {user} {} bytes {}", request.number, Hex(bytes)),
        Body::Groups { request, length, .. } => tell!(effects, "user {user} {} content {length}", request.number),
        Body::SealedIs { request, extent, length } => {
            tell!(effects, "user {user} {} sealedis {extent} {length}", request.number);
        }
        Body::RouteIs { request, range, server } => {
            tell!(effects, "user {user} {} route {range} {}", request.number, server.unwrap_or(0));
        }
        Body::Refused { request, refusal } => tell!(effects, "user {user} {} refused {refusal}", request.number),
        _ => {}
    }
}
