//! Files as a museum's controllers have them: stations with lamps, captions,
//! scenes, drives and rows of lamps through aliases. Ten types and five
//! variables for each station, and the variables of its drive.

use files::layout::*;
use files::records::Records;

// The elementary types, which are undeclared and have the same numbers as
// their shapes.
const BOOL: u32 = 0;
const INT: u32 = 1;
const REAL: u32 = 2;
const TIME: u32 = 3;
const STRING: u32 = 4;

/// The places of a row of lamps.
const LAMPS: u32 = 8;

// Names of members: those of a lamp, a drive and a station.
const ON: u32 = 1;
const LEVEL: u32 = 2;
const SCENE: u32 = 3;
const CAPTION: u32 = 4;
const SPEED: u32 = 5;
const RAMP: u32 = 6;
const POSITION: u32 = 7;
const ROW: u32 = 8;
const TITLE: u32 = 9;
const FAULT: u32 = 10;
const GRID: u32 = 11;

struct Exhibit {
    records: Records,
}

/// The types of a station's variables.
struct Types {
    scene: u32,
    level: u32,
    rows: u32,
    drive: u32,
    station: u32,
}

fn link(number: u32) -> u32 {
    number + 1
}

/// A declared type without links.
fn declared(shape: u32, declaration: u32) -> [u32; 11] {
    [shape, 0, 0, 0, declaration, 0, 0, 0, 0, INLINE, 0]
}

impl Exhibit {
    fn new() -> Self {
        let mut records = Records::default();
        records.push(SETTINGS, &[254]);
        for shape in [[0, 0, 0, 0, 0], [1, 16, 0, 0, 0], [3, 32, 0, 0, 0], [5, 32, 0, 0, 0], [9, 41, 0, 0, 0]] {
            let number = records.push(SHAPES, &shape);
            records.push(TYPES, &declared(number, 0));
        }
        Exhibit { records }
    }

    fn run(&mut self, section: usize, records: &[Vec<u32>]) -> [u32; 2] {
        let first = self.records.count(section);
        for record in records {
            self.records.push(section, record);
        }
        [first, records.len() as u32]
    }

    fn shape(&mut self, words: [u32; 5]) -> u32 {
        self.records.push(SHAPES, &words)
    }

    fn integer(&mut self, value: u32) -> u32 {
        self.records.push(CONSTANTS, &[1, 0, value, 0, 0])
    }

    fn real(&mut self, value: f64) -> u32 {
        let bits = value.to_bits();
        self.records.push(CONSTANTS, &[3, 0, bits as u32, (bits >> 32) as u32, 0])
    }

    fn truth(&mut self) -> u32 {
        self.records.push(CONSTANTS, &[0, 0, 1, 0, 0])
    }

    fn milliseconds(&mut self, value: u32) -> u32 {
        self.records.push(CONSTANTS, &[4, 0, value, 0, 0])
    }

    fn text(&mut self, text: &str) -> u32 {
        let characters: Vec<_> = text.chars().map(|character| vec![character as u32]).collect();
        let [first, count] = self.run(CHARACTERS, &characters);
        self.records.push(CONSTANTS, &[8, 0, first, count, 0])
    }

    /// An initializer of a kind with a type's name and a value's link.
    fn initializer(&mut self, kind: u32, named: u32, value: u32) -> u32 {
        self.records.push(INITIALIZERS, &[kind, link(named), 0, value, 0, 0, 0, 0])
    }

    /// An initializer of kind 7, 8 or 9 with entries.
    fn listed(&mut self, kind: u32, named: u32, [first, count]: [u32; 2]) -> u32 {
        self.records.push(INITIALIZERS, &[kind, link(named), 0, 0, first, count, 0, 0])
    }

    fn caption(&mut self, text: &str) -> u32 {
        let value = self.text(text);
        self.records.push(INITIALIZERS, &[4, link(STRING), 0, link(value), 0, 0, 41, 0])
    }

    fn entry(&mut self, words: [u32; 4]) -> u32 {
        self.records.push(ENTRIES, &words)
    }

    fn scene(&mut self, station: u32) -> u32 {
        let members: Vec<_> = (0..4).map(|member| vec![1000 + 10 * station + member]).collect();
        let [first, count] = self.run(MEMBERS, &members);
        let shape = self.shape([10, first, count, 1, 0]);
        self.records.push(TYPES, &declared(shape, 7))
    }

    fn level(&mut self, station: u32) -> u32 {
        let least = self.integer(0);
        let greatest = self.integer(100 + station);
        let start = self.integer(station % 100);
        let shape = self.shape([13, INT, least, greatest, 0]);
        let mut record = declared(shape, 2);
        record[5] = INLINE;
        record[6] = link(start);
        self.records.push(TYPES, &record)
    }

    fn shape_of(&self, ty: u32) -> u32 {
        self.records.sections[TYPES][ty as usize][0]
    }

    /// A structure whose elements have these names, types and initializers.
    fn structure(&mut self, elements: &[(u32, u32, u32)]) -> u32 {
        let fields: Vec<_> = elements.iter().map(|(name, ty, _)| vec![*name, self.shape_of(*ty), 1]).collect();
        let [first, count] = self.run(SHAPE_FIELDS, &fields);
        let shape = self.shape([11, first, count, 0, 0]);
        let elements: Vec<_> = elements.iter().map(|(name, _, start)| vec![*name, *start]).collect();
        let [first, count] = self.run(ELEMENTS, &elements);
        let mut record = declared(shape, 5);
        record[7] = first;
        record[8] = count;
        self.records.push(TYPES, &record)
    }

    fn lamp(&mut self, scene: u32, level: u32, station: u32) -> u32 {
        let truth = self.truth();
        let on = self.initializer(3, BOOL, link(truth));
        let bare = self.initializer(3, level, 0);
        let entry = self.entry([1, 0, 1000 + 10 * station + 2, 0]);
        let shown = self.initializer(6, scene, link(entry));
        let caption = self.caption("Please do not touch the glass");
        self.structure(&[(ON, BOOL, on), (LEVEL, level, bare), (SCENE, scene, shown), (CAPTION, STRING, caption)])
    }

    /// A lamp with another level, as an alias.
    fn bright(&mut self, lamp: u32) -> u32 {
        let constant = self.integer(80);
        let entries = self.run(ENTRIES, &[vec![0, LEVEL, constant, 0]]);
        let start = self.listed(8, lamp, entries);
        let mut record = declared(self.shape_of(lamp), 1);
        record[1] = link(lamp);
        record[6] = link(start);
        self.records.push(TYPES, &record)
    }

    /// An array type with entries.
    fn array(&mut self, element: u32, bounds: &[Vec<u32>], entries: [u32; 2]) -> u32 {
        let [first, count] = self.run(DIMENSIONS, bounds);
        let shape = self.shape([12, self.shape_of(element), first, count, 0]);
        let mut record = declared(shape, 4);
        record[2] = link(element);
        record[5] = INLINE;
        record[7] = entries[0];
        record[8] = entries[1];
        self.records.push(TYPES, &record)
    }

    /// A structure's entry that states a level and a caption.
    fn stated_lamp(&mut self, level: u32) -> [u32; 4] {
        let constant = self.integer(level);
        let caption = self.text("Lamp");
        let [first, count] = self.run(ENTRIES, &[vec![0, LEVEL, constant, 0], vec![0, CAPTION, caption, 0]]);
        [3, 0, first, count]
    }

    /// Two lamps and a repetition of five: the eighth is the type's own.
    fn lamps(&mut self, level: u32) -> [u32; 2] {
        let one = self.stated_lamp(level);
        let two = self.stated_lamp(level + 1);
        let repeated = self.stated_lamp(level + 2);
        let inner = self.entry(repeated);
        self.run(ENTRIES, &[one.to_vec(), two.to_vec(), vec![6, 0, 5, link(inner)]])
    }

    fn row(&mut self, lamp: u32) -> u32 {
        let entries = self.lamps(10);
        self.array(lamp, &[vec![1, LAMPS]], entries)
    }

    /// The same row under another name.
    fn rows(&mut self, row: u32) -> u32 {
        let start = self.initializer(3, row, 0);
        let record = &self.records.sections[TYPES][row as usize];
        let mut alias = declared(record[0], 1);
        alias[1] = link(row);
        alias[2] = record[2];
        alias[6] = link(start);
        self.records.push(TYPES, &alias)
    }

    fn grid(&mut self, station: u32) -> u32 {
        let constant = self.integer(7);
        let inner = self.entry([0, 0, constant, 0]);
        let entries = self.run(ENTRIES, &[vec![0, 0, constant, 0], vec![6, 0, 6, link(inner)]]);
        self.array(INT, &[vec![0, 2], vec![1, 4 + station]], entries)
    }

    fn fault(&mut self) -> u32 {
        let constant = self.integer(16);
        let start = self.initializer(3, INT, link(constant));
        let mut record = declared(INT, 1);
        record[1] = link(INT);
        record[6] = link(start);
        self.records.push(TYPES, &record)
    }

    fn drive(&mut self, station: u32, rows: u32) -> u32 {
        let speed = self.real(1.5);
        let ramp = self.milliseconds(1500);
        let parts = [
            (SPEED, REAL, self.initializer(3, REAL, link(speed))),
            (RAMP, TIME, self.initializer(3, TIME, link(ramp))),
            (POSITION, INT, self.initializer(3, INT, 0)),
            (ROW, rows, self.initializer(3, rows, 0)),
        ];
        let variables: Vec<_> = parts.iter().map(|(name, ty, start)| vec![*name, 0, link(*ty), *start]).collect();
        let fields: Vec<_> = parts.iter().map(|(name, ty, _)| vec![*name, link(*ty), 0]).collect();
        let shape = self.shape([14, 500 + station, 0, 0, 0]);
        let mut record = declared(shape, 9);
        record[7..9].copy_from_slice(&self.run(VARIABLES, &variables));
        record[9..11].copy_from_slice(&self.run(BLOCK_FIELDS, &fields));
        self.records.push(TYPES, &record)
    }

    fn station(&mut self, row: u32, grid: u32, fault: u32, drive: u32) -> u32 {
        let title = self.caption("The carousel of the year 1900");
        let elements = [
            (TITLE, STRING, title),
            (ROW, row, self.initializer(3, row, 0)),
            (GRID, grid, self.initializer(3, grid, 0)),
            (FAULT, fault, self.initializer(3, fault, 0)),
            (SPEED, drive, self.initializer(3, drive, 0)),
        ];
        self.structure(&elements)
    }

    fn types(&mut self, station: u32) -> Types {
        let scene = self.scene(station);
        let level = self.level(station);
        let lamp = self.lamp(scene, level, station);
        let bright = self.bright(lamp);
        let row = self.row(bright);
        let rows = self.rows(row);
        let grid = self.grid(station);
        let fault = self.fault();
        let drive = self.drive(station, rows);
        let whole = self.station(row, grid, fault, drive);
        Types { scene, level, rows, drive, station: whole }
    }

    fn variable(&mut self, name: u32, ty: u32, initializer: u32) {
        self.records.push(VARIABLES, &[name, 4, link(ty), initializer]);
    }

    /// A station whose lamps, grid and drive are stated in part; a row; a
    /// drive; a scene; a level.
    fn variables(&mut self, name: u32, types: &Types) {
        let lamps = self.lamps(30);
        let constant = self.integer(3);
        let members = vec![vec![2, ROW, lamps[0], lamps[1]], vec![0, FAULT, constant, 0]];
        let members = self.run(ENTRIES, &members);
        let start = self.listed(8, types.station, members);
        self.variable(name, types.station, start);
        let lamps = self.lamps(50);
        let start = self.listed(9, types.rows, lamps);
        self.variable(name + 1, types.rows, start);
        let members = self.run(ENTRIES, &[vec![0, POSITION, constant, 0]]);
        let start = self.listed(7, types.drive, members);
        self.variable(name + 2, types.drive, start);
        let start = self.initializer(3, types.scene, 0);
        self.variable(name + 3, types.scene, start);
        let start = self.initializer(3, types.level, 0);
        self.variable(name + 4, types.level, start);
    }
}

/// An exhibit of so many stations.
pub fn exhibit(stations: u32) -> Vec<u32> {
    let mut exhibit = Exhibit::new();
    for station in 0..stations {
        let types = exhibit.types(station);
        exhibit.variables(100 + 5 * station, &types);
    }
    exhibit.records.words()
}
