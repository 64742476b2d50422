//! What a step of an actor does to the world around it: packets, lines, and what is acknowledged.
use crate::bytes::{Bytes, Group};
use crate::packet::{Actor, Body, Packet, Place, Request};
use crate::refusal::Refusal;
use std::collections::BTreeMap;

#[derive(Default)]
pub struct Effects {
    pub sent: Vec<Packet>,
    pub out: Vec<u8>,
    /// The groups that were acknowledged of each extent, each with its offset, in order.
    acked: BTreeMap<u64, Vec<(u32, Group)>>,
    /// Kept from step to step, for the spelling of groups and of texts.
    pub buffer: Vec<u8>,
    pub text: Vec<u8>,
}

/// Prints a line; memory takes all of it.
macro_rules! tell {
    ($effects:expr, $($words:tt)*) => {{
        use std::io::Write;
        writeln!($effects.out, $($words)*).expect("memory takes all that is written")
    }};
}
pub(crate) use tell;

impl Effects {
    pub fn send(&mut self, from: Actor, to: Actor, body: Body) {
        self.sent.push(Packet { from, to, body });
    }

    pub fn refuse(&mut self, from: Actor, to: Actor, request: Request, refusal: Refusal) {
        self.send(from, to, Body::Refused { request, refusal });
    }

    /// Observes that a group of an extent was acknowledged.
    pub fn acked(&mut self, extent: u64, offset: u32, group: Group) {
        tell!(self, "acked {extent} {offset} {}", group.size());
        self.acked.entry(extent).or_default().push((offset, group));
    }

    /// The bytes of a place that was acknowledged.
    pub fn shown(&self, place: Place) -> Option<Bytes> {
        let groups = self.acked.get(&place.extent)?;
        let next = groups.partition_point(|(offset, _)| *offset <= place.offset);
        let (offset, group) = &groups[next.checked_sub(1)?];
        let before = place.offset - offset;
        (before + place.length <= group.size()).then(|| group.part(before as usize, place.length as usize))
    }
}
