//! Initializers, entries and expressions: mostly fitted to the place that
//! they give a value to.

use crate::draft::{Draft, Form, Place};
use files::layout::*;

/// The words of an entry: kind, name, two more.
pub type Entry = [u32; 4];

/// The words of an initializer.
pub type Initializer = [u32; 8];

/// An array of more places than this is filled by repeats.
const MANY_PLACES: u32 = 12;

/// An initializer of `kind` that names the type `named` and no value.
pub fn bare(kind: u32, named: u32) -> Initializer {
    [kind, named, 0, 0, 0, 0, 0, 0]
}

/// An initializer of `kind` with the value link `value`.
pub fn with_value(kind: u32, named: u32, value: u32) -> Initializer {
    [kind, named, 0, value, 0, 0, 0, 0]
}

impl Draft {
    pub fn initializer(&mut self, record: Initializer) -> u32 {
        self.single(INITIALIZERS, &record)
    }

    /// The run of `entries`, one after another.
    pub fn entries(&mut self, entries: &[Entry]) -> (u32, u32) {
        let records: Vec<_> = entries.iter().map(|entry| entry.to_vec()).collect();
        self.run(ENTRIES, &records)
    }

    /// An initializer of `kind` 7, 8 or 9 with `entries`.
    pub fn with_entries(&mut self, kind: u32, named: u32, entries: &[Entry]) -> Initializer {
        let (first, count) = self.entries(entries);
        [kind, named, 0, 0, first, count, 0, 0]
    }

    /// A link to the type, or in the odd cases to another one or none.
    pub fn named(&mut self, ty: u32) -> u32 {
        if !self.odd() {
            return Self::link(ty);
        }
        match self.random.percent(50) {
            true => 0,
            false => self.other_link(),
        }
    }

    /// A link to a type of few nodes.
    pub fn other_link(&mut self) -> u32 {
        let few = self.types_where(|draft, ty| draft.known(ty).nodes <= 20);
        match few.is_empty() {
            true => 0,
            false => Self::link(self.random.pick(&few)),
        }
    }

    // Initializers.

    /// An initializer for `place` that names the type `named`.
    pub fn initializer_for(&mut self, place: Place, named: u32) -> u32 {
        if self.odd() {
            return self.any_initializer(named);
        }
        // Without a value the kind hardly matters.
        if self.random.percent(12) {
            let kind = self.random.pick(&[0, 3, 11]);
            return self.initializer(bare(kind, named));
        }
        let record = match self.form(place.shape).clone() {
            Form::Text(length, width) => self.string_initializer(place, named, length, width),
            Form::Enumeration { .. } => {
                let kind = self.random.pick(&[5, 6, 6]);
                let value = self.enumerated_link(place.shape, 70);
                with_value(kind, named, value)
            }
            Form::Structure(_) => self.members_initializer(8, place, named),
            Form::Block(_) => self.members_initializer(7, place, named),
            Form::Array { .. } => self.array_initializer(place, named),
            Form::Subrange { .. } => self.subrange_initializer(place, named),
            Form::Reference(_) => self.reference_initializer(),
            Form::Interface(_) => bare(1, named),
            Form::Bool | Form::Sized(..) => match self.random.percent(70) {
                true => {
                    let value = self.constant_for(place.shape);
                    with_value(3, named, Self::link(value))
                }
                false => bare(3, named),
            },
        };
        self.initializer(record)
    }

    fn string_initializer(
        &mut self,
        place: Place,
        named: u32,
        length: u32,
        width: u32,
    ) -> Initializer {
        let value = match self.random.percent(65) {
            true => Self::link(self.constant_for(place.shape)),
            false => 0,
        };
        if self.random.percent(25) {
            return with_value(3, named, value);
        }
        let value = match value {
            0 => 0,
            link if self.records.sections[CONSTANTS][link as usize - 1][0] == 8 => value,
            _ => 0,
        };
        let length = match self.odd() {
            true => self.random.pick(&[0, 1, 4, 65_536, 65_537, u32::MAX]),
            false => length,
        };
        let width = match self.odd() {
            true => 1 - width,
            false => width,
        };
        [4, named, 0, value, 0, 0, length, width]
    }

    /// Member entries over `place`, for a structure (8) or a block (7).
    fn members_initializer(&mut self, kind: u32, place: Place, named: u32) -> Initializer {
        let kind = if self.odd() { 15 - kind } else { kind };
        let entries = match self.random.percent(80) {
            true => self.members_for(place),
            false => Vec::new(),
        };
        self.with_entries(kind, named, &entries)
    }

    fn array_initializer(&mut self, place: Place, named: u32) -> Initializer {
        let entries = match self.random.percent(80) {
            true => self.items_for(place),
            false => Vec::new(),
        };
        let (first, count) = self.entries(&entries);
        if self.random.percent(50) {
            return [9, named, 0, 0, first, count, 0, 0];
        }
        let element = place.ty.and_then(|ty| self.known(ty).element);
        let element = match element {
            Some(ty) => self.named(ty),
            None => 0,
        };
        [9, INLINE, element, 0, first, count, 0, 0]
    }

    fn subrange_initializer(&mut self, place: Place, named: u32) -> Initializer {
        let value = match self.random.percent(60) {
            true => {
                let range = self.range(place.shape).expect("a subrange");
                let value = self.near(range);
                Self::link(self.integer(value))
            }
            false => 0,
        };
        match self.random.below(4) {
            0 => with_value(3, named, value),
            1 => with_value(2, INLINE, value),
            _ => with_value(2, named, value),
        }
    }

    fn reference_initializer(&mut self) -> Initializer {
        let value = match self.random.below(3) {
            0 => 0,
            1 => Self::link(self.expression([4, 0])),
            _ => Self::link(self.expression([5, 0])),
        };
        with_value(10, 0, value)
    }

    /// An initializer of any kind, its words as the kind allows them.
    pub fn any_initializer(&mut self, named: u32) -> u32 {
        let kind = self.random.below(15);
        let valued = self.random.percent(60);
        let record = match kind {
            2 => {
                let named = self.random.pick(&[named, INLINE]);
                let value = self.any_integer();
                let value = self.integer(value);
                with_value(2, named, if valued { Self::link(value) } else { 0 })
            }
            3 | 11 => {
                let value = self.any_constant();
                with_value(kind, named, if valued { Self::link(value) } else { 0 })
            }
            4 => {
                let length = self.random.below(4);
                let value = self.string(length);
                let length = self.random.pick(&[0, 1, 3, 65_536, 65_537, u32::MAX]);
                let width = self.random.below(2);
                let value = if valued { Self::link(value) } else { 0 };
                [4, named, 0, value, 0, 0, length, width]
            }
            5 | 6 => {
                let name = self.member_name();
                let value = self.single(ENTRIES, &[1, 0, name, 0]);
                with_value(kind, named, if valued { Self::link(value) } else { 0 })
            }
            7 | 8 => {
                let count = self.random.below(3);
                let entries: Vec<_> = (0..count)
                    .map(|_| {
                        let name = self.field_name();
                        self.any_entry(name)
                    })
                    .collect();
                self.with_entries(kind, named, &entries)
            }
            9 => {
                let count = self.random.below(3);
                let entries: Vec<_> = (0..count).map(|_| self.any_entry(0)).collect();
                let (first, count) = self.entries(&entries);
                match valued {
                    true => [9, named, 0, 0, first, count, 0, 0],
                    false => [9, INLINE, self.other_link(), 0, first, count, 0, 0],
                }
            }
            10 => self.reference_initializer(),
            _ => bare(kind, named),
        };
        self.initializer(record)
    }

    /// A link to an enumerated entry with a member of the shape, or 0.
    pub fn enumerated_link(&mut self, shape: u32, share: u32) -> u32 {
        if !self.random.percent(share) {
            return 0;
        }
        let entry = self.enumerated(shape, 0);
        Self::link(self.single(ENTRIES, &entry))
    }

    // Entries.

    /// An enumerated entry with a member of the shape.
    pub fn enumerated(&mut self, shape: u32, name: u32) -> Entry {
        let members = match self.form(shape) {
            Form::Enumeration { members, .. } => members.clone(),
            _ => Vec::new(),
        };
        let value = match members.is_empty() || self.odd() {
            true => self.member_name(),
            false => self.random.pick(&members),
        };
        let qualifier = match self.random.percent(30) {
            true => self.block_name(),
            false => 0,
        };
        [1, name, value, qualifier]
    }

    /// An entry for `place`: a member where `name` isn't 0, else an item of
    /// an array.
    pub fn entry_for(&mut self, place: Place, name: u32) -> Entry {
        if self.odd() {
            return self.any_entry(name);
        }
        if self.random.percent(15) {
            return [4, name, self.expression_for(place), 0];
        }
        match self.form(place.shape).clone() {
            Form::Enumeration { .. } => self.enumerated(place.shape, name),
            Form::Structure(_) | Form::Block(_) => {
                let members = self.members_for(place);
                let (first, count) = self.entries(&members);
                [3, name, first, count]
            }
            Form::Array { .. } if name != 0 => {
                let items = self.items_for(place);
                let (first, count) = self.entries(&items);
                [2, name, first, count]
            }
            Form::Reference(_) | Form::Interface(_) => [4, name, self.expression_for(place), 0],
            _ => [0, name, self.constant_for(place.shape), 0],
        }
    }

    /// An entry of any kind that may stand there.
    pub fn any_entry(&mut self, name: u32) -> Entry {
        let kind = match name {
            0 => self.random.pick(&[0, 1, 3, 4, 6]),
            _ => self.random.below(6),
        };
        match kind {
            0 => [0, name, self.any_constant(), 0],
            1 => [1, name, self.member_name(), 0],
            2 => {
                let entry = [0, 0, self.any_constant(), 0];
                let (first, count) = self.entries(&[entry]);
                [2, name, first, count]
            }
            3 => {
                let entry = [0, self.field_name(), self.any_constant(), 0];
                let (first, count) = self.entries(&[entry]);
                [3, name, first, count]
            }
            4 => [4, name, self.any_expression(), 0],
            5 => [5, name, 0, 0],
            _ => {
                let inner = [0, 0, self.any_constant(), 0];
                let inner = self.single(ENTRIES, &inner);
                let count = self.random.pick(&[0, 1, 2, 9, u32::MAX]);
                [6, 0, count, Self::link(inner)]
            }
        }
    }

    /// Entries for some of the fields of `place`.
    pub fn members_for(&mut self, place: Place) -> Vec<Entry> {
        let mut fields = self.fields(place);
        self.random.shuffle(&mut fields);
        let share = self.random.pick(&[30, 60, 100]);
        let mut members = Vec::new();
        for (name, field) in fields {
            if !self.random.percent(share) || members.len() > 6 {
                continue;
            }
            let member = self.entry_for(field, name);
            members.push(member);
            // A member named twice keeps the later value.
            if self.random.percent(6) {
                let member = self.entry_for(field, name);
                members.push(member);
            }
        }
        if self.odd() {
            let name = self.field_name();
            let member = self.any_entry(name);
            members.push(member);
        }
        members
    }

    /// Entries for some of the places of the array `place`, or in the odd
    /// cases for one more than there are.
    pub fn items_for(&mut self, place: Place) -> Vec<Entry> {
        let (count, leaf) = self.leaves(place);
        let wanted = match self.odd() {
            true => count.saturating_add(1),
            false => match self.random.below(3) {
                0 => count,
                _ => self.random.below(count + 1),
            },
        };
        let mut items = Vec::new();
        let mut filled = 0;
        while filled < wanted {
            let left = wanted - filled;
            let (item, places) = self.item(leaf, left);
            items.push(item);
            filled += places;
            if items.len() > 8 {
                break;
            }
        }
        items
    }

    /// One item of an array with `left` places, and how many it fills.
    fn item(&mut self, leaf: Place, left: u32) -> (Entry, u32) {
        let single_share = if left > MANY_PLACES { 20 } else { 65 };
        if self.random.percent(single_share) {
            return (self.entry_for(leaf, 0), 1);
        }
        let count = match self.random.below(8) {
            0 => 0,
            1 if self.odd() => left + 1,
            _ => self.random.between(1, left),
        };
        if self.random.percent(30) {
            return ([6, 0, count, 0], count);
        }
        // A repeat in a repeat: what it fills is multiplied.
        let (inner, places) = match self.random.percent(25) {
            true => self.item(leaf, (left / count.max(1)).max(1)),
            false => (self.entry_for(leaf, 0), 1),
        };
        let inner = self.single(ENTRIES, &inner);
        (
            [6, 0, count, Self::link(inner)],
            count.saturating_mul(places),
        )
    }

    // Expressions.

    pub fn expression(&mut self, words: [u32; 2]) -> u32 {
        self.single(EXPRESSIONS, &words)
    }

    /// An expression for `place`, some of them in parentheses or under a
    /// conversion.
    pub fn expression_for(&mut self, place: Place) -> u32 {
        let odd = self.odd();
        let mut inner = match self.form(place.shape).clone() {
            _ if odd => self.any_expression(),
            Form::Enumeration { .. } => {
                let entry = self.enumerated(place.shape, 0);
                let entry = self.single(ENTRIES, &entry);
                self.expression([1, entry])
            }
            Form::Reference(_) => {
                let kind = self.random.pick(&[4, 4, 5, 6]);
                self.expression([kind, 0])
            }
            Form::Bool | Form::Sized(..) | Form::Text(..) | Form::Subrange { .. } => {
                match self.random.percent(80) {
                    true => {
                        let constant = self.constant_for(place.shape);
                        self.expression([0, constant])
                    }
                    false => self.any_expression(),
                }
            }
            _ => self.any_expression(),
        };
        for _ in 0..self.random.pick(&[0, 0, 1, 1, 2]) {
            let kind = self.random.pick(&[2, 3]);
            inner = self.expression([kind, inner]);
        }
        inner
    }

    /// An expression of any kind.
    pub fn any_expression(&mut self) -> u32 {
        let there = self.records.count(EXPRESSIONS);
        let words = match self.random.below(7) {
            0 => [0, self.any_constant()],
            1 => {
                let entry = [1, 0, self.member_name(), 0];
                [1, self.single(ENTRIES, &entry)]
            }
            kind @ (2 | 3) if there > 0 => [kind, self.random.below(there)],
            kind @ (4 | 5) => [kind, 0],
            _ => [6, 0],
        };
        self.expression(words)
    }
}
