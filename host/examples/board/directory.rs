//! The names that a board polls, what each stands for at the station, and their settings.

use wordzike::{Group, Setting};

pub const SLOTS: usize = 120;
pub const BLOCKS: usize = 24;
pub const POINTS: usize = 16;
pub const BOOSTERS: usize = 4;

/// What a tag stands for. `Blocks` and `Points` are words, and their bits are the single blocks and points.
#[derive(Clone, Copy, Debug, PartialEq, Eq)]
pub enum Device {
    Slot(usize),
    Blocks,
    Block(usize),
    Booster(usize),
    Points,
    Point(usize),
}

pub const BLOCK_GROUP: Group = Group { number: 0, rate: 125 };
pub const BOOSTER_GROUP: Group = Group { number: 1, rate: 1000 };
pub const EXPRESS_GROUP: Group = Group { number: 3, rate: 250 };

/// Tags by rank: names in rising byte order, with their devices.
pub struct Directory {
    pub names: Vec<String>,
    pub devices: Vec<Device>,
    /// The ranks by lower-cased name, which is the order of the slices and of the picture.
    pub by_name: Vec<u32>,
}

impl Directory {
    fn new(mut tags: Vec<(String, Device)>) -> Directory {
        tags.sort_by(|a, b| a.0.cmp(&b.0));
        let mut by_name: Vec<u32> = (0..tags.len() as u32).collect();
        by_name.sort_by_key(|tag| tags[*tag as usize].0.to_ascii_lowercase());
        let (names, devices) = tags.into_iter().unzip();
        Directory { names, devices, by_name }
    }

    /// The slots of one station. Those of guests are in lower case, as their throttles write them.
    pub fn slots() -> Directory {
        let name = |n: usize| if n % 3 == 2 { format!("slot{:03}", n + 1) } else { format!("Slot{:03}", n + 1) };
        Directory::new((0..SLOTS).map(|n| (name(n), Device::Slot(n))).collect())
    }

    /// Blocks and points, each kind a word with its bits, and the boosters' currents.
    pub fn track() -> Directory {
        let mut tags = vec![("Blocks".to_owned(), Device::Blocks), ("points".to_owned(), Device::Points)];
        tags.extend((0..BLOCKS).map(|n| (format!("Blocks.{n:02}"), Device::Block(n))));
        tags.extend((0..POINTS).map(|n| (format!("points.{n:02}"), Device::Point(n))));
        tags.extend((0..BOOSTERS).map(|n| (format!("Booster{n}.Current"), Device::Booster(n))));
        Directory::new(tags)
    }

    pub fn len(&self) -> usize {
        self.names.len()
    }

    pub fn name(&self, tag: u32) -> &str {
        &self.names[tag as usize]
    }

    pub fn device(&self, tag: u32) -> Device {
        self.devices[tag as usize]
    }

    pub fn tag_of(&self, device: Device) -> u32 {
        self.devices.iter().position(|d| *d == device).expect("a device of this directory") as u32
    }

    /// The settings that go with a version of the station's tag table: every second one has wider bands.
    pub fn settings(&self, version: Option<u64>) -> Vec<Setting> {
        let wide = version.is_some_and(|v| v % 2 == 1);
        self.devices.iter().map(|device| setting(*device, wide)).collect()
    }
}

fn setting(device: Device, wide: bool) -> Setting {
    match device {
        Device::Slot(n) => Setting {
            deadband: if wide { 1.0 } else { 0.5 },
            group: (n % 10 == 0).then_some(EXPRESS_GROUP),
            described: n % 7 == 0,
        },
        Device::Block(_) => Setting { group: Some(BLOCK_GROUP), ..Setting::default() },
        Device::Booster(_) => Setting { deadband: 0.05, group: Some(BOOSTER_GROUP), described: false },
        Device::Blocks | Device::Points | Device::Point(_) => Setting::default(),
    }
}
