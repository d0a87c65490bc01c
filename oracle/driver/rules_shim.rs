//! Scripted stand-in for rules.rs: settings per tag as the history hands them in. `truthy` and `split_bit`, further
//! down, are cut from the original rules.rs by build.sh.

use std::collections::HashMap;
use std::sync::{Mutex, PoisonError};

use serde_json::{Map, Value as Json, json};

/// Settings of a tag path.
pub type Settings = Map<String, Json>;

/// A poll rate and the name it is shown under.
#[derive(Clone, Debug, PartialEq, Eq)]
pub struct Group {
    /// The group's name.
    pub name: String,
    /// The group's poll period.
    pub rate_ms: u64,
}

/// What the host hands in for one tag.
#[derive(Clone, Copy, Debug, PartialEq)]
pub struct Setting {
    pub band: Option<f64>,
    pub group: Option<(u64, u64)>,
    pub description: bool,
}

struct State {
    current: Vec<Setting>,
    handed: Vec<Setting>,
}

/// `handed` becomes `current` at `set_types`, which the worker calls on a version change or a connect.
pub struct Rules {
    index: HashMap<String, usize>,
    groups: Vec<Map<String, Json>>,
    state: Mutex<State>,
}

impl Rules {
    pub fn scripted(names: &[String], settings: Vec<Setting>, groups: &[(u64, u64)]) -> Self {
        Rules {
            index: names.iter().cloned().zip(0..).collect(),
            groups: groups
                .iter()
                .map(|(number, rate)| {
                    let mut m = Map::new();
                    m.insert("name".into(), json!(format!("{number}")));
                    m.insert("rate_ms".into(), json!(rate));
                    m
                })
                .collect(),
            state: Mutex::new(State { current: settings.clone(), handed: settings }),
        }
    }

    fn state(&self) -> std::sync::MutexGuard<'_, State> {
        self.state.lock().unwrap_or_else(PoisonError::into_inner)
    }

    /// The settings last handed in.
    pub fn handed(&self) -> Vec<Setting> {
        self.state().handed.clone()
    }

    /// The settings in force.
    pub fn current(&self) -> Vec<Setting> {
        self.state().current.clone()
    }

    /// Hands in settings with a version answer.
    pub fn hand(&self, settings: Vec<Setting>) {
        self.state().handed = settings;
    }

    pub fn set_types(&self, _plc: &str, _tag_list: &[Json], _types: &Map<String, Json>) {
        let mut state = self.state();
        state.current = state.handed.clone();
    }

    fn setting(&self, tag: &str) -> Option<Setting> {
        let at = *self.index.get(tag)?;
        self.state().current.get(at).copied()
    }

    pub fn effective(&self, _plc: &str, tag: &str) -> Settings {
        let mut result = Settings::new();
        if let Some(s) = self.setting(tag) {
            if let Some(band) = s.band {
                result.insert("deadband".into(), json!(band));
            }
            if s.description {
                result.insert("description".into(), json!("set"));
            }
        }
        result
    }

    pub fn group(&self, _plc: &str, tag: &str) -> Option<Group> {
        let (number, rate_ms) = self.setting(tag)?.group?;
        Some(Group { name: number.to_string(), rate_ms })
    }

    pub fn groups(&self, _plc: &str) -> &[Map<String, Json>] {
        &self.groups
    }
}
