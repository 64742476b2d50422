//! What actors send each other.
use crate::bytes::{Bytes, Group};
use crate::refusal::Refusal;
use crate::streams::{Kind, Modify, StreamList};
use std::rc::Rc;

/// A user is known by its place in the list of users.
#[derive(Clone, Copy, PartialEq, Eq)]
pub enum Actor {
    User(u32),
    Node(u8),
    Server(u8),
    Manager,
    Map,
}

/// The number of a request: a user's ticket, or the count of a server's session and, so that the answer finds it, which of the
/// server's ranges asked.
#[derive(Clone, Copy, PartialEq, Eq)]
pub struct Request {
    pub number: u64,
    pub session: u32,
    pub slot: u32,
}

/// Of what is no request.
pub const NO_REQUEST: Request = Request { number: 0, session: 0, slot: 0 };

/// The three nodes of an extent, the primary first.
pub type Places = [u8; 3];

/// Where a page, an index or a value stands.
#[derive(Clone, Copy, PartialEq, Eq, PartialOrd, Ord)]
pub struct Place {
    pub extent: u64,
    pub offset: u32,
    pub length: u32,
}

/// A change puts a value under a key, or deletes the key.
pub struct Change {
    pub key: Bytes,
    pub value: Option<Bytes>,
}

pub struct Packet {
    pub from: Actor,
    pub to: Actor,
    pub body: Body,
}

pub enum Body {
    Append { extent: u64, generation: u64, group: Group, request: Request },
    Put { extent: u64, offset: u32, group: Group },
    Have { extent: u64, length: u32 },
    Appended { request: Request, offset: u32 },
    Refused { request: Request, refusal: Refusal },

    Check { extent: u64, generation: u64, request: Request },
    Probe { extent: u64, generation: u64 },
    Probed { extent: u64, generation: u64, length: u32 },
    Checked { request: Request, length: Option<u32> },

    Make { extent: u64, fence: u64, target: u32, places: Places },
    SealExtent { extent: u64, request: Request },
    SealedIs { request: Request, extent: u64, length: u32 },
    Freeze { extent: u64 },
    Frozen { extent: u64, length: u32 },
    Seal { extent: u64, length: u32 },
    IsSealed { extent: u64 },
    Short { extent: u64, length: u32 },
    SendTail { extent: u64, from: u32, to: u8 },
    Tail { extent: u64, from: u32, length: u32, groups: Rc<[Group]> },

    ReadAt { place: Place, request: Request },
    Bytes { request: Request, extent: u64, offset: u32, bytes: Bytes },
    ReadGroups { extent: u64, upto: u32, sealed: bool, request: Request },
    Groups { request: Request, length: u32, groups: Rc<[Group]> },

    CreateStream { range: u64, kind: Kind, fence: u64, request: Request },
    Created { request: Request },
    OpenStreams { range: u64, generation: u64, request: Request },
    Opened { request: Request, lists: Box<[StreamList; 4]> },
    Confirm { range: u64, generation: u64, request: Request },
    Confirmed { request: Request },
    Extend { range: u64, kind: Kind, generation: u64, last: Option<u64>, places: Places, request: Request },
    Extended { request: Request, extent: u64, places: Places },
    Trim { range: u64, generation: u64, before: u64, to_blob: bool, request: Request },
    Trimmed { request: Request },
    MultiModify { list: Rc<[Modify]>, request: Request },
    Modified { request: Request },

    Assign { range: u64, generation: u64, until: u64 },
    Renew { range: u64, generation: u64, until: u64 },
    Route { key: Bytes, request: Request },
    RouteIs { request: Request, range: u64, server: Option<u8> },
    BeginSplit { range: u64, generation: u64, key: Rc<[u8]>, request: Request },
    SplitBegun { request: Request, low: u64, high: u64 },
    CompleteSplit { range: u64, generation: u64, request: Request },
    SplitDone { request: Request },

    Transact { range: u64, changes: Rc<[Change]>, request: Request },
    Committed { request: Request, number: u64 },
    Get { range: u64, key: Bytes, request: Request },
    Value { request: Request, value: Option<Bytes> },
}
