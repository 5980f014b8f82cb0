//! A type table by its parts, and its bytes.

/// A member: its type row, and its tag if it is optional.
pub type Member = (u16, Option<u32>);

#[derive(Clone, Debug, Default)]
pub struct Spec {
    /// Kind, then a, b, c, d, e.
    pub rows: Vec<(u8, [u16; 5])>,
    pub members: Vec<Member>,
    pub names: Vec<u8>,
    /// The lists of allowed enumerators, one after another; none in a table of version 1.
    pub entries: Option<Vec<u32>>,
}

impl Spec {
    /// A table of version 2.
    pub fn with_lists() -> Spec {
        Spec { entries: Some(vec![]), ..Spec::default() }
    }

    /// The bytes of the header: the place of type row 0.
    pub fn header(&self) -> usize {
        if self.entries.is_some() {
            14
        } else {
            12
        }
    }

    /// One more row; its number.
    pub fn row(&mut self, kind: u8, fields: [u16; 5]) -> u16 {
        self.rows.push((kind, fields));
        self.rows.len() as u16 - 1
    }

    /// A row of a kind with no fields.
    pub fn basic(&mut self, kind: u8) -> u16 {
        self.row(kind, [0; 5])
    }

    /// An enum of version 1.
    pub fn enumeration(&mut self, greatest: u32) -> u16 {
        self.row(8, [greatest as u16, (greatest >> 16) as u16, 0, 0, 0])
    }

    /// An enum of version 2, which takes the next entries.
    pub fn listed(&mut self, allowed: &[u32]) -> u16 {
        let entries = self.entries.get_or_insert_default();
        let (first, count) = (entries.len() as u16, allowed.len() as u16);
        entries.extend(allowed);
        let greatest = allowed.last().copied().unwrap_or(0);
        self.row(8, [greatest as u16, (greatest >> 16) as u16, first, count, 0])
    }

    /// A struct (9) or a parameter list (15), which takes the next member rows.
    pub fn owner(&mut self, kind: u8, members: &[Member]) -> u16 {
        let first = self.members.len() as u16;
        self.members.extend(members);
        self.row(kind, [first, members.len() as u16, 0, 0, 0])
    }

    /// An exception (13) or a class (14) of this name.
    pub fn record(&mut self, kind: u8, base: Option<u16>, name: &[u8], members: &[Member]) -> u16 {
        let at = self.names.len() as u16;
        self.names.extend(name);
        self.record_named(kind, base, (at, name.len() as u16), members)
    }

    /// The same, with its name at a place of the name bytes.
    pub fn record_named(&mut self, kind: u8, base: Option<u16>, name: (u16, u16), members: &[Member]) -> u16 {
        let first = self.members.len() as u16;
        self.members.extend(members);
        self.row(kind, [first, members.len() as u16, base.map_or(0, |base| base + 1), name.0, name.1])
    }

    pub fn bytes(&self) -> Vec<u8> {
        let mut bytes = [&b"FGT"[..], &[1 + self.entries.is_some() as u8, 0]].concat();
        for count in [self.rows.len(), self.members.len(), self.names.len()] {
            bytes.extend((count as u16).to_le_bytes());
        }
        bytes.push(0);
        if let Some(entries) = &self.entries {
            bytes.extend((entries.len() as u16).to_le_bytes());
        }
        for (kind, fields) in &self.rows {
            bytes.extend([*kind, 0]);
            bytes.extend(fields.iter().flat_map(|field| field.to_le_bytes()));
        }
        for (of, tag) in &self.members {
            bytes.extend(of.to_le_bytes());
            bytes.extend([tag.is_some() as u8, 0]);
            bytes.extend(tag.unwrap_or(0).to_le_bytes());
        }
        bytes.extend(&self.names);
        bytes.extend(self.entries.iter().flatten().flat_map(|entry| entry.to_le_bytes()));
        bytes
    }
}
