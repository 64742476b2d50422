//! A record file in memory, whose actor may be told to stop in one of its next device calls.

/// A record takes four device calls: the record and a closed gate are written, sync, the gate before it is opened, sync.
const CALLS: u64 = 4;

/// What came of a record.
#[derive(Clone, Copy, PartialEq, Eq)]
pub enum Written {
    Stands,
    /// The actor has stopped, and the record stands or is lost.
    Stopped { stands: bool },
}

/// Letters, and a gate before each record and after the last; whether its actor runs, and in which of its next device calls it
/// stops (0: in none), and whether the bytes of that call are kept.
pub struct Device {
    bytes: Vec<u8>,
    syncs: u64,
    pub up: bool,
    fuse: u64,
    keep: bool,
}

impl Device {
    pub fn new() -> Device {
        Device { bytes: b"XRF2\0".to_vec(), syncs: 0, up: true, fuse: 0, keep: false }
    }

    /// Adds the record of these fields, or stops in it.
    pub fn write(&mut self, fields: &[&[u8]]) -> Written {
        if self.fuse == 0 || self.fuse > CALLS {
            self.fuse = self.fuse.saturating_sub(CALLS);
            self.add(fields);
            return Written::Stands;
        }
        let stands = self.fuse >= 3 && self.keep;
        if stands {
            self.add(fields);
        }
        self.halt();
        Written::Stopped { stands }
    }

    /// Writes the record of these fields and a closed gate, syncs, opens the gate before it, and syncs.
    fn add(&mut self, fields: &[&[u8]]) {
        let gate = self.bytes.len() - 1;
        let length: usize = fields.iter().map(|field| field.len()).sum();
        self.bytes.extend_from_slice(&(length as u32).to_be_bytes());
        fields.iter().for_each(|field| self.bytes.extend_from_slice(field));
        self.bytes.push(0);
        self.syncs += 1;
        self.bytes[gate] = 1;
        self.syncs += 1;
    }

    /// Stops at once where the call is 0, and else in that call from now.
    pub fn stop(&mut self, call: u64, keep: bool) {
        if call == 0 {
            self.halt();
        } else {
            (self.fuse, self.keep) = (call, keep);
        }
    }

    fn halt(&mut self) {
        (self.up, self.fuse, self.keep) = (false, 0, false);
    }

    /// The bodies of the records, in order.
    pub fn records(&self) -> impl Iterator<Item = &[u8]> {
        let mut rest = &self.bytes[4..];
        std::iter::from_fn(move || {
            let [1, length @ ..] = rest else { return None };
            let (length, behind) = length.split_first_chunk::<4>()?;
            let (body, gates) = behind.split_at_checked(u32::from_be_bytes(*length) as usize)?;
            rest = gates;
            Some(body)
        })
    }
}
