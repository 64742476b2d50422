//! A server's work on one stream under a generation: one request at a time, and what follows its answer.
use crate::bytes::Group;
use crate::packet::{Actor, Body, Places, Request};
use crate::refusal::Refusal;
use crate::server::Context;
use crate::streams::{Kind, StreamExtent, StreamList};

/// What a client waits for.
enum Job {
    Idle,
    Sent { extent: u64, request: Request },
    /// An extent that takes no more is sealed, and then another is asked for.
    Closing { extent: u64, request: Request },
    Growing { last: Option<u64>, request: Request },
    Checking { extent: u64, request: Request },
    /// An extent that could not be checked, or read as far as it was, is sealed.
    Shutting { extent: u64, request: Request },
    Reading(Reading),
}

#[derive(Clone, Copy)]
struct Reading {
    extent: u64,
    places: Places,
    upto: u32,
    sealed: bool,
    replica: u8,
    request: Request,
}

pub enum News {
    Appended { extent: u64, offset: u32 },
    Checked,
    Sealed,
    Content { extent: u64 },
    Fenced,
}

pub struct Client {
    range: u64,
    kind: Kind,
    generation: u64,
    pub list: StreamList,
    /// The length at which the last extent was checked.
    pub checked: Option<u32>,
    group: Option<Group>,
    job: Job,
}

impl Client {
    pub fn new(range: u64, kind: Kind, generation: u64, list: StreamList) -> Client {
        Client { range, kind, generation, list, checked: None, group: None, job: Job::Idle }
    }

    pub fn is_idle(&self) -> bool {
        matches!(self.job, Job::Idle)
    }

    pub fn awaits(&self, answered: Request) -> bool {
        match self.job {
            Job::Idle => false,
            Job::Sent { request, .. }
            | Job::Closing { request, .. }
            | Job::Growing { request, .. }
            | Job::Checking { request, .. }
            | Job::Shutting { request, .. }
            | Job::Reading(Reading { request, .. }) => request == answered,
        }
    }

    /// Appends a group: to the last extent where it is open, else to one after it.
    pub fn append(&mut self, context: &mut Context, group: Group) {
        if !self.is_idle() {
            return;
        }
        self.group = Some(group);
        let last = self.list.extents.last().map(|last| (last.extent, last.places, last.length));
        match last {
            Some((extent, places, None)) => self.send(context, extent, places),
            _ => {
                let request = context.request();
                self.grow(context, last.map(|last| last.0), request);
            }
        }
    }

    fn send(&mut self, context: &mut Context, extent: u64, places: Places) {
        let Some(group) = self.group.clone() else { return };
        let request = context.request();
        self.job = Job::Sent { extent, request };
        context.send(Actor::Node(places[0]), Body::Append { extent, generation: self.generation, group, request });
    }

    fn close(&mut self, context: &mut Context, extent: u64, request: Request) {
        self.job = Job::Closing { extent, request };
        context.send(Actor::Manager, Body::SealExtent { extent, request });
    }

    fn shut(&mut self, context: &mut Context, extent: u64, request: Request) {
        self.job = Job::Shutting { extent, request };
        context.send(Actor::Manager, Body::SealExtent { extent, request });
    }

    fn grow(&mut self, context: &mut Context, last: Option<u64>, request: Request) {
        self.job = Job::Growing { last, request };
        let (range, kind, generation, places) = (self.range, self.kind, self.generation, context.server.pick);
        context.send(Actor::Manager, Body::Extend { range, kind, generation, last, places, request });
    }

    /// Checks the length of the last extent, which is open.
    pub fn check(&mut self, context: &mut Context) {
        let Some(&StreamExtent { extent, places, .. }) = self.list.open_last() else { return };
        let request = context.request();
        self.job = Job::Checking { extent, request };
        context.send(Actor::Node(places[0]), Body::Check { extent, generation: self.generation, request });
    }

    /// Reads the extent at a position: whole where it is sealed, else as far as it was checked.
    pub fn read(&mut self, context: &mut Context, position: usize) {
        let StreamExtent { extent, places, length } = self.list.extents[position];
        let Some(upto) = length.or(self.checked) else { return };
        let request = context.request();
        self.read_groups(context, Reading { extent, places, upto, sealed: length.is_some(), replica: 0, request });
    }

    fn read_groups(&mut self, context: &mut Context, reading: Reading) {
        self.job = Job::Reading(reading);
        let Reading { extent, places, upto, sealed, replica, request } = reading;
        context.send(Actor::Node(places[usize::from(replica)]), Body::ReadGroups { extent, upto, sealed, request });
    }

    fn end(&mut self, news: News) -> Option<News> {
        (self.job, self.group) = (Job::Idle, None);
        Some(news)
    }

    /// What follows an answer that is waited for.
    pub fn reply(&mut self, context: &mut Context, body: &Body) -> Option<News> {
        match (&self.job, body) {
            (&Job::Sent { extent, .. }, &Body::Appended { offset, .. }) => return self.end(News::Appended { extent, offset }),
            (&Job::Sent { extent, .. }, Body::Refused { refusal: Refusal::NotOpen | Refusal::ExtentFull, .. }) => {
                let request = context.request();
                self.close(context, extent, request);
            }
            (_, Body::Refused { refusal: Refusal::Stale, .. }) => return self.end(News::Fenced),
            (&Job::Closing { extent, .. }, &Body::SealedIs { length, .. }) => {
                self.list.seal_last(length);
                let request = context.request();
                self.grow(context, Some(extent), request);
            }
            (Job::Shutting { .. }, &Body::SealedIs { length, .. }) => {
                self.list.seal_last(length);
                return self.end(News::Sealed);
            }
            (Job::Checking { .. }, &Body::Checked { length: Some(length), .. }) => {
                self.checked = Some(length);
                return self.end(News::Checked);
            }
            (&Job::Checking { extent, .. }, Body::Checked { length: None, .. }) => {
                let request = context.request();
                self.shut(context, extent, request);
            }
            (Job::Reading(reading), Body::Groups { .. }) => {
                let extent = reading.extent;
                return self.end(News::Content { extent });
            }
            (Job::Growing { .. }, &Body::Extended { extent, places, .. }) => {
                self.list.extents.push(StreamExtent { extent, places, length: None });
                self.checked = None;
                self.send(context, extent, places);
            }
            _ => {}
        }
        None
    }

    /// An append or a check that is not answered seals its extent. A read of a sealed extent goes to its next place. All else is
    /// asked again, with its number.
    pub fn give_up(&mut self, context: &mut Context) {
        match self.job {
            Job::Idle => {}
            Job::Sent { extent, .. } => {
                let request = context.request();
                self.close(context, extent, request);
            }
            Job::Closing { extent, request } => self.close(context, extent, request),
            Job::Growing { last, request } => self.grow(context, last, request),
            Job::Reading(reading) if reading.sealed => {
                self.read_groups(context, Reading { replica: (reading.replica + 1) % 3, ..reading });
            }
            Job::Checking { extent, .. } | Job::Reading(Reading { extent, .. }) => {
                let request = context.request();
                self.shut(context, extent, request);
            }
            Job::Shutting { extent, request } => self.shut(context, extent, request),
        }
    }
}
