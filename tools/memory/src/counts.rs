//! What was compared: answers, leaves that were written, and the ends that
//! files reach.

use std::collections::BTreeMap;

use files::layout::{File, CHARACTERS, SHAPES};
use files::memory::forms::Form;
use files::memory::parts::Part;
use files::memory::{misfit, parts::parts, Node, ARRAY, ENUMERATED, NULL, STRING, STRUCTURE};

#[derive(Default)]
pub struct Counts {
    pub files: u64,
    pub skipped: u64,
    pub variables: u64,
    pub written: BTreeMap<String, u64>,
    pub read: BTreeMap<String, u64>,
    leaves: BTreeMap<String, u64>,
    misfits: BTreeMap<String, u64>,
    reached: BTreeMap<&'static str, u64>,
}

/// What every run of some thousand files for start memory reaches.
const REACHED: [&str; 22] = [
    "narrow character 255",
    "narrow character 256",
    "narrow character above 256",
    "wide character 65535",
    "wide character 65536",
    "wide character above 65536",
    "characters cut",
    "REAL not a number",
    "REAL infinite",
    "REAL beyond binary32",
    "REAL subnormal",
    "REAL rounded to zero",
    "REAL rounded",
    "LREAL not a number",
    "subrange over a subrange",
    "subrange over a bit string",
    "subrange over BOOL",
    "member listed twice",
    "null at no reference",
    "null at no place",
    "array of another length",
    "no bytes",
];

fn name(code: u64, none: u64) -> String {
    match code >> 32 {
        0 if code == none => "none".to_string(),
        0 => "answered".to_string(),
        number => format!("refused {number}"),
    }
}

/// What a leaf of a shape is called.
fn kind(shape: &[u32; 5]) -> String {
    let kinds = [
        "Bool", "Int", "UInt", "Real", "Bytes", "Time", "Date", "TimeOfDay", "DateAndTime", "String", "Enumeration",
        "Structure", "Array", "Subrange", "FunctionBlock", "Interface", "Reference",
    ];
    let kind = kinds.get(shape[0] as usize).unwrap_or(&"no place");
    match shape[0] {
        1..=8 => format!("{kind} {}", shape[1]),
        9 => format!("{} {kind}", ["narrow", "wide"][shape[2] as usize]),
        _ => kind.to_string(),
    }
}

impl Counts {
    pub fn wrote(&mut self, code: u64) {
        *self.written.entry(name(code, 0xFFFF_FFFF)).or_default() += 1;
    }

    pub fn read(&mut self, code: u64) {
        *self.read.entry(name(code, 0)).or_default() += 1;
    }

    /// What a variable's tree reaches, and its leaves where it is written.
    pub fn tree(&mut self, file: &File, variable: u32, tree: &[Node], written: &Result<Vec<u8>, u32>) {
        self.variables += 1;
        if let Some(misfit) = misfit(file, variable, tree) {
            *self.misfits.entry(format!("{misfit:?}")).or_default() += 1;
        }
        match parts(file, variable, tree) {
            Ok(parts) => {
                for part in parts.iter().filter(|part| !matches!(part.node[1], ARRAY | STRUCTURE)) {
                    self.leaf(file, part, written.is_ok());
                }
            }
            Err(files::memory::parts::Misfit::ArrayLength) => self.reach("array of another length"),
            Err(_) => {}
        }
        if written.as_ref().is_ok_and(|bytes| bytes.is_empty()) {
            self.reach("no bytes");
        }
    }

    fn reach(&mut self, what: &'static str) {
        *self.reached.entry(what).or_default() += 1;
    }

    fn leaf(&mut self, file: &File, part: &Part, is_written: bool) {
        let is_null = part.node[1] == NULL;
        if is_written {
            let null = if is_null { "null at " } else { "" };
            let base = part.shape;
            let mut called = format!("{null}{}", kind(&base));
            if base[0] == 13 {
                let base = file.record(SHAPES, base[1] as usize).try_into().expect("five words");
                called += &format!(" of {}", kind(&base));
            }
            *self.leaves.entry(called).or_default() += 1;
        }
        match part.node[1] {
            NULL if part.shape[0] == u32::MAX => self.reach("null at no place"),
            NULL if part.form != Form::Reference => self.reach("null at no reference"),
            3 => self.real(part),
            STRING => self.string(file, part),
            ENUMERATED => self.enumerated(part),
            _ => {}
        }
        if part.shape[0] == 13 && !is_null {
            match file.record(SHAPES, part.shape[1] as usize)[0] {
                0 => self.reach("subrange over BOOL"),
                4 => self.reach("subrange over a bit string"),
                13 => self.reach("subrange over a subrange"),
                _ => {}
            }
        }
    }

    fn real(&mut self, part: &Part) {
        let value = f64::from_bits(u64::from(part.node[4]) << 32 | u64::from(part.node[3]));
        let rounded = value as f32;
        match part.form {
            Form::LongReal if value.is_nan() => self.reach("LREAL not a number"),
            Form::Real if value.is_nan() => self.reach("REAL not a number"),
            Form::Real if value.is_infinite() => self.reach("REAL infinite"),
            Form::Real if rounded.is_infinite() => self.reach("REAL beyond binary32"),
            Form::Real if rounded.is_subnormal() => self.reach("REAL subnormal"),
            Form::Real if rounded == 0.0 && value != 0.0 => self.reach("REAL rounded to zero"),
            Form::Real if f64::from(rounded) != value => self.reach("REAL rounded"),
            _ => {}
        }
    }

    fn string(&mut self, file: &File, part: &Part) {
        let Form::Text(_, width) = part.form else {
            return;
        };
        if part.node[5] > 1 {
            self.reach("characters cut");
        }
        let names = match width {
            0 => &REACHED[0..3],
            _ => &REACHED[3..6],
        };
        let end = if width == 0 { 0xFF } else { 0xFFFF };
        for place in 0..part.node[4] {
            match file.record(CHARACTERS, (part.node[3] + place) as usize)[0] {
                character if character == end => self.reach(names[0]),
                character if character == end + 1 => self.reach(names[1]),
                character if character > end => self.reach(names[2]),
                _ => {}
            }
        }
    }

    fn enumerated(&mut self, part: &Part) {
        let Form::Enumeration(members) = &part.form else {
            return;
        };
        if members.iter().filter(|member| **member == part.node[3]).count() > 1 {
            self.reach("member listed twice");
        }
    }

    pub fn print(&self) {
        println!("{} files, {} without an answer of the Rust, {} trees", self.files, self.skipped, self.variables);
        println!("written: {}", listed(&self.written));
        println!("read: {}", listed(&self.read));
        println!("leaves of what was written: {}", listed(&self.leaves));
        println!("trees by their first node that is not held: {}", listed(&self.misfits));
        let reached = REACHED.map(|what| (what.to_string(), self.reached.get(what).copied().unwrap_or(0)));
        println!("reached: {}", listed(&BTreeMap::from(reached)));
    }
}

fn listed(counts: &BTreeMap<String, u64>) -> String {
    let each: Vec<String> = counts.iter().map(|(what, count)| format!("{what} {count}")).collect();
    each.join(", ")
}
