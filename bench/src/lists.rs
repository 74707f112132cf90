//! Timers and a table of connections on plain lists, as they were kept before they stood on trees and a
//! slab: each call walks over the list.

/// The most timers that one `due` gives.
const MAX_DUE: usize = 256;

/// A key and a direction.
type Slot = (u64, u8);

/// At most one moment for each slot, in no order.
#[derive(Default)]
pub struct ListTimers {
    entries: Vec<(Slot, u64)>,
}

impl ListTimers {
    pub fn arm(&mut self, slot: Slot, at: u64) {
        self.disarm(slot);
        self.entries.push((slot, at));
    }

    fn disarm(&mut self, slot: Slot) {
        self.entries.retain(|entry| entry.0 != slot);
    }

    fn first_due(&self, now: u64) -> Option<(Slot, u64)> {
        let due = self.entries.iter().filter(|entry| entry.1 <= now);
        due.min_by_key(|entry| (entry.1, entry.0)).copied()
    }

    pub fn due(&mut self, now: u64) -> Vec<Slot> {
        let mut given = Vec::with_capacity(MAX_DUE);
        while given.len() < MAX_DUE {
            let Some((slot, _)) = self.first_due(now) else {
                break;
            };
            self.disarm(slot);
            given.push(slot);
        }
        given
    }
}

struct Entry {
    id: u64,
    token: u64,
    value: u64,
}

/// Entries in the order of their inserts.
#[derive(Default)]
pub struct ListTable {
    entries: Vec<Entry>,
}

impl ListTable {
    /// An id and a token, as a table that nothing is removed from gives them.
    pub fn insert(&mut self, value: u64) -> (u64, u64) {
        let key = self.entries.len() as u64;
        let id = key + 1;
        let token = key + 4096 * id;
        self.entries.push(Entry { id, token, value });
        (id, token)
    }

    pub fn by_token(&self, token: u64) -> Option<u64> {
        let entry = self.entries.iter().find(|entry| entry.token == token)?;
        Some(entry.value)
    }

    pub fn by_id(&self, id: u64) -> Option<u64> {
        let entry = self.entries.iter().find(|entry| entry.id == id)?;
        Some(entry.value)
    }
}
