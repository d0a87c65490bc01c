//! The generator: a seeded random host.

use super::*;

pub(super) const PROFILES: [&str; 8] = ["small", "mid", "full", "calm", "stormy", "edge", "groups", "aimed"];

/// Chances are per thousand.
#[derive(Clone, Copy)]
struct Profile {
    tags: (u64, u64),
    /// Calls at a place, and at most how many.
    call: u64,
    calls: u64,
    /// A call or an answer that is refused.
    wrong: u64,
    lost: u64,
    /// A result list of another length.
    length: u64,
    error: u64,
    version: u64,
    settings: u64,
    /// A wait answered at another time than its end.
    wake: u64,
    /// The clock moves at other places.
    moves: u64,
    /// Times 60, that a stop comes somewhere before the N answers.
    stop: u64,
    /// A tag has a group.
    group: u64,
    edge: bool,
    /// The clock goes to where something turns, give or take a few units in the last place.
    aim: u64,
    /// Change request N1.
    split: bool,
}

fn profile(name: &str) -> Profile {
    let base = Profile {
        tags: (1, 6),
        call: 300,
        calls: 4,
        wrong: 30,
        lost: 30,
        length: 60,
        error: 200,
        version: 150,
        settings: 200,
        wake: 300,
        moves: 300,
        stop: 4,
        group: 300,
        edge: false,
        aim: 250,
        split: false,
    };
    match name {
        "small" => base,
        "mid" => Profile { tags: (5, 40), ..base },
        "full" => Profile { tags: (100, 120), call: 200, calls: 10, length: 100, version: 60, settings: 60, ..base },
        "calm" => Profile {
            tags: (1, 30),
            call: 60,
            calls: 2,
            wrong: 5,
            lost: 3,
            length: 10,
            error: 60,
            version: 10,
            settings: 20,
            wake: 60,
            moves: 40,
            stop: 0,
            ..base
        },
        "stormy" => {
            Profile { tags: (1, 12), call: 500, calls: 6, lost: 150, stop: 12, error: 350, version: 300, ..base }
        }
        "edge" => Profile { tags: (1, 9), edge: true, wake: 400, moves: 500, ..base },
        "groups" => Profile { tags: (2, 14), group: 850, lost: 10, error: 100, moves: 150, call: 150, ..base },
        "aimed" => Profile {
            tags: (1, 5),
            call: 200,
            wrong: 10,
            lost: 15,
            error: 300,
            wake: 700,
            moves: 400,
            stop: 1,
            group: 600,
            aim: 800,
            ..base
        },
        "split" => Profile { tags: (1, 14), split: true, ..base },
        "splitfull" => Profile { tags: (90, 120), split: true, call: 150, ..base },
        _ => panic!("no profile {name}; there are {PROFILES:?}, mixed, split and splitfull"),
    }
}

#[derive(Clone)]
pub(super) struct Rng(u64);

impl Rng {
    pub(super) fn new(seed: u64) -> Rng {
        let mut z = seed.wrapping_add(0x9E37_79B9_7F4A_7C15);
        z = (z ^ (z >> 30)).wrapping_mul(0xBF58_476D_1CE4_E5B9);
        z = (z ^ (z >> 27)).wrapping_mul(0x94D0_49BB_1331_11EB);
        let mut rng = Rng((z ^ (z >> 31)) | 1);
        for _ in 0..4 {
            rng.next();
        }
        rng
    }

    pub(super) fn next(&mut self) -> u64 {
        self.0 ^= self.0 >> 12;
        self.0 ^= self.0 << 25;
        self.0 ^= self.0 >> 27;
        self.0.wrapping_mul(0x2545_F491_4F6C_DD1D)
    }

    /// 0 to n - 1.
    pub(super) fn below(&mut self, n: u64) -> u64 {
        (self.next() >> 11) % n.max(1)
    }

    pub(super) fn range(&mut self, low: u64, high: u64) -> u64 {
        low + self.below(high - low + 1)
    }

    pub(super) fn chance(&mut self, per_thousand: u64) -> bool {
        self.below(1000) < per_thousand
    }

    pub(super) fn of<T: Copy>(&mut self, items: &[T]) -> T {
        items[self.below(items.len() as u64) as usize]
    }

    /// In 0..1.
    pub(super) fn unit(&mut self) -> f64 {
        (self.next() >> 11) as f64 / (1u64 << 53) as f64
    }
}

pub(super) struct Gen {
    rng: Rng,
    p: Profile,
    left: i64,
    abrupt: bool,
    stopping: bool,
    /// The place of an early stop.
    stop_at: Option<u64>,
    /// Calls still to be made at this place.
    calls: u64,
    place: u64,
    queue: VecDeque<String>,
    wall: i64,
    version: Option<u64>,
    groups: Vec<u64>,
    rates: Vec<u64>,
    ended: u32,
}

pub(super) fn new(seed: u64, n: u64, name: &str) -> (Head, Gen) {
    let mut rng = Rng::new(seed);
    let name = if name == "mixed" { rng.of(&PROFILES) } else { name };
    let p = profile(name);
    let count = if p.edge && rng.chance(50) { rng.of(&[1, 119, 120]) } else { rng.range(p.tags.0, p.tags.1) };
    let cycle = if p.edge {
        rng.of(&[0.0, 0.0, 0.001, 0.0015, 3600.0, 0.1, 1e-3 * 3.0, 1.0])
    } else {
        let odd = 0.001 + rng.unit() * 3.0;
        rng.of(&[1.0, 1.0, 0.5, 0.25, 0.1, 0.3, 0.7, 2.0, 10.0, 0.0, odd])
    };
    let unit = if cycle > 0.0 { cycle } else { 1.0 };
    let period = match rng.below(12) {
        0 => 0.0,
        1 => unit * 2.5,
        2 => unit * 3.5,
        3 => unit * 0.4,
        4 => unit * 30.0,
        5 => unit * rng.unit() * 20.0,
        6 if p.edge => 86400.0,
        7 => 3.0,
        k => unit * (k - 6) as f64,
    }
    .min(86400.0);
    let grace = match rng.below(8) {
        0 | 1 => 0.0,
        2 => unit,
        3 => unit * 2.5,
        4 => 10.0,
        5 => unit * rng.unit() * 5.0,
        6 if p.edge => 86400.0,
        _ => unit * 4.0,
    }
    .min(86400.0);
    let pool = rng.range(1, if p.edge { 16 } else { 4 });
    let groups = (0..pool).map(|_| rng.below(16)).collect();
    let ms = (unit * 1000.0).max(4.0);
    let mut rates: Vec<u64> = [0.25, 0.5, 1.0, 1.5, 2.0, 3.0].iter().map(|k| ((ms * k) as u64).max(1)).collect();
    rates.extend(if p.edge {
        vec![1, 1, 2, u32::MAX.into(), u64::from(u32::MAX) - 1]
    } else {
        vec![1, 100, 333, 1000]
    });
    let mut g = Gen {
        left: n as i64,
        abrupt: rng.chance(300),
        stopping: false,
        stop_at: (rng.chance(p.stop * 60)).then(|| rng.range(8, n.max(9))),
        calls: 0,
        place: 0,
        queue: VecDeque::new(),
        wall: rng.of(&[0, 1, 1_700_000_000_000, i64::MAX - 5_000_000]),
        version: None,
        groups,
        rates,
        ended: 0,
        rng,
        p,
    };
    let names = g.names(count as usize);
    let settings = g.settings(&names);
    let configured = g.rng.below(5);
    let configured = (0..configured)
        .map(|_| {
            let k = if g.rng.chance(700) { g.a_group() } else { g.rng.below(16) };
            (k, g.a_rate())
        })
        .collect();
    let head = Head {
        cycle,
        period,
        grace,
        names,
        settings,
        groups: configured,
        chunk: p.split.then(|| g.rng.of(&[1, 1, 2, 3, 4, 5, 7, 13, 40, 119, 120])),
    };
    (head, g)
}

impl Gen {
    fn a_group(&mut self) -> u64 {
        let i = self.rng.below(self.groups.len() as u64) as usize;
        self.groups[i]
    }

    fn a_rate(&mut self) -> u64 {
        let i = self.rng.below(self.rates.len() as u64) as usize;
        self.rates[i]
    }

    fn names(&mut self, count: usize) -> Vec<String> {
        let mut set: BTreeSet<String> = BTreeSet::new();
        let r = &mut self.rng;
        let plain = count > 40;
        while set.len() < count {
            let old: Vec<&String> = set.iter().collect();
            let one = (!old.is_empty()).then(|| old[r.below(old.len() as u64) as usize].clone());
            let name = match (r.below(10), one) {
                (0..=2, Some(word)) => {
                    let bit = r.of(&["0", "3", "31", "007", "12", "5"]);
                    format!("{word}.{bit}")
                }
                (3 | 4, Some(name)) => name
                    .bytes()
                    .map(|b| {
                        let b = if r.chance(500) { b ^ 32 } else { b };
                        (if b.is_ascii_alphabetic() { b } else { b ^ 32 }) as char
                    })
                    .collect::<String>()
                    .chars()
                    .zip(name.chars())
                    .map(|(new, old)| if old.is_ascii_alphabetic() { new } else { old })
                    .collect(),
                (5, _) => r.of(&["a.b", ".5", "5.", "a..3", "A.3x", "P.Q.12", "p.q", "Q.9", "x.", "."]).to_owned(),
                (6, _) => {
                    let n = if r.chance(200) { 40 } else { r.range(1, 12) };
                    (0..n).map(|_| r.range(33, 126) as u8 as char).collect()
                }
                (7 | 8, _) if plain => {
                    let i = r.below(400);
                    if r.chance(500) { format!("Tag{i:03}") } else { format!("tag{i:03}") }
                }
                _ => {
                    let n = r.range(1, 3);
                    (0..n).map(|_| r.of(&b"AaBbCc_~^[`09Zz"[..]) as char).collect()
                }
            };
            if (1..=40).contains(&name.len()) && !(self.p.split && name.ends_with('}')) {
                set.insert(name);
            }
        }
        set.into_iter().collect()
    }

    fn settings(&mut self, names: &[String]) -> Vec<Setting> {
        let mut alike: HashMap<String, Setting> = HashMap::new();
        names
            .iter()
            .map(|name| {
                let key = name.to_ascii_lowercase();
                if let Some(s) = alike.get(&key) {
                    return *s;
                }
                let s = self.setting();
                alike.insert(key, s);
                s
            })
            .collect()
    }

    fn setting(&mut self) -> Setting {
        let band = match self.rng.below(12) {
            0..=3 => None,
            4 => Some(0.0),
            5 => Some(-0.0),
            6 | 7 => Some(0.5),
            8 => Some(1.0),
            9 => Some(2.5),
            10 => Some(self.rng.of(&[-1.0, 5e-324, 1e308, f64::MAX, 0.1])),
            _ => Some(self.rng.unit() * 3.0),
        };
        let group = self.rng.chance(self.p.group).then(|| (self.a_group(), self.a_rate()));
        Setting { band, group, description: self.rng.chance(250) }
    }

    fn a_value(&mut self) -> Val {
        const BIG: i64 = 1 << 53;
        let r = &mut self.rng;
        match r.below(20) {
            0 => Val::Null,
            1 | 2 => Val::Bool(r.chance(500)),
            3..=6 => Val::Int(r.range(0, 4) as i64 - 2),
            7 => Val::Int(r.of(&[BIG, BIG + 1, BIG + 2, BIG - 1, -BIG, -BIG - 1, BIG + 3])),
            8 => Val::Int(r.of(&[i64::MAX, i64::MIN, i64::MAX - 1, i64::MAX - 511, i64::MAX - 513])),
            9 => Val::Int(r.next() as i64),
            10 | 11 => Val::Float(r.of(&[0.0, -0.0, 1.0, -1.0, 0.0, -0.0])),
            12..=14 => Val::Float(r.range(0, 8) as f64 * 0.25 + 9.0),
            15 => Val::Float(r.of(&[BIG as f64, 1e308, -1e308, f64::MAX, f64::MIN, 5e-324, 2.5, 1e-310])),
            16 => loop {
                let v = f64::from_bits(r.next());
                if v.is_finite() {
                    break Val::Float(v);
                }
            },
            _ => Val::Float(10.0 + r.unit()),
        }
    }

    /// A value for a tag: often the cached or published one, or one near it.
    fn value_of(&mut self, tag: usize, host: &Host) -> Val {
        if self.rng.chance(350) {
            return self.a_value();
        }
        let name = &host.head.names[tag];
        let entry = {
            let inner = lock(&host.worker.shared.inner);
            if self.rng.chance(500) { inner.cache.get(name).cloned() } else { inner.published.get(name).cloned() }
        };
        let Some(old) = entry.map(|e| Val::of_json(&e.value)) else {
            return self.a_value();
        };
        let band = host.rules.current()[tag].band.unwrap_or(0.0);
        let step = match self.rng.below(8) {
            0..=2 => 0.0,
            3 => band,
            4 => -band,
            5 => band / 2.0,
            6 => -band / 2.0,
            _ => band * 1.5,
        };
        let odd = self.rng.below(8);
        match old {
            Val::Int(i) if odd == 0 => Val::Float(i as f64),
            Val::Int(i) => Val::Int(i.saturating_add(step as i64)),
            Val::Float(f) => {
                let v = f + step;
                let v = match odd {
                    0 => v.next_up(),
                    1 => v.next_down(),
                    2 if v == 0.0 => -v,
                    _ => v,
                };
                if v.is_finite() { Val::Float(v) } else { old }
            }
            _ => old,
        }
    }

    fn an_error(&mut self) -> Er {
        let kind = self.rng.of(&[0, 0, 0, 1, 1, 2, 2, 3, 7, 65537]);
        let message = self.rng.of(&[0, 1, 1, 2, 77, u32::MAX]);
        Er { kind, message }
    }

    fn results(&mut self, tags: &[usize], host: &Host) -> Vec<String> {
        let mut n = tags.len();
        if self.rng.chance(self.p.length) {
            n = match self.rng.below(4) {
                0 => 0,
                1 | 2 => self.rng.below(n as u64) as usize,
                _ => n + self.rng.range(1, 3) as usize,
            };
        }
        let quiet = self.rng.chance(300); // a round in which nothing fails
        (0..n)
            .map(|i| {
                if i >= tags.len() {
                    // the rest of a long list is ignored unchecked
                    let v = self.a_value();
                    return self.rng.of(&[
                        Res::Val(v),
                        Res::Val(Val::Float(f64::NAN)),
                        Res::Val(Val::Float(f64::INFINITY)),
                        Res::Err(Er { kind: 0, message: 9 }),
                    ]);
                }
                if !quiet && self.rng.chance(self.p.error) {
                    Res::Err(self.an_error())
                } else {
                    Res::Val(self.value_of(tags[i], host))
                }
            })
            .map(Res::text)
            .collect()
    }

    /// Times at which something turns: deadlines, marks, boundaries, dues.
    fn turns(&mut self, host: &Host) -> Vec<f64> {
        let inner = lock(&host.worker.shared.inner);
        let settings = host.rules.current();
        let mut t: Vec<f64> = inner.grace.values().map(|g| g.0).collect();
        let mut missing: Vec<f64> = inner.missing.values().copied().collect();
        missing.sort_by(f64::total_cmp);
        t.extend(missing);
        let mut tick = host.head.cycle;
        for (name, tier) in &inner.tiers {
            if *tier == 1 {
                if let Some((_, r)) = settings[host.index[name]].group {
                    tick = tick.min(r as f64 / 1000.0);
                }
            }
        }
        if let Some(last) = inner.last_cycle {
            t.push(last + host.head.cycle);
            t.push(last + host.head.cycle - tick / 2.0);
            t.push(last + tick);
            t.push(last + tick / 2.0);
        }
        for name in inner.tiers.keys() {
            if let Some(last) = inner.last_read.get(name) {
                let rate = settings[host.index[name]].group.map_or(host.head.cycle, |(_, r)| r as f64 / 1000.0);
                t.push(last + rate - tick / 2.0);
                t.push(last + rate);
            }
        }
        t.retain(|t| *t >= clock() && *t < clock() + 100_000.0);
        t
    }

    fn some_time(&mut self, host: &Host) -> f64 {
        let now = clock();
        let unit = if host.head.cycle > 0.0 { host.head.cycle } else { 0.01 };
        let aim = self.rng.chance(self.p.aim);
        let turns = if aim { self.turns(host) } else { Vec::new() };
        let at = match self.rng.below(12) {
            _ if !turns.is_empty() => {
                let mut t = turns[self.rng.below(turns.len() as u64) as usize];
                let by = self.rng.below(7) as i64 - 3;
                for _ in 0..by.abs() {
                    t = if by < 0 { t.next_down() } else { t.next_up() };
                }
                t
            }
            0 | 1 => now,
            // halves of a tenth of a millisecond, for round1
            2 => now + self.rng.below(8192) as f64 / 4096.0,
            3 => now + self.rng.of(&[1e-9, 1e-6, 5e-5, 1e-4, 0.00011]),
            4 => now + unit / 2.0,
            5 => now + unit,
            6 => now + unit * 1.5,
            7 => now + unit * self.rng.unit(),
            8 => now + unit * self.rng.range(2, 40) as f64,
            9 => now + self.a_rate().min(100_000) as f64 / 1000.0,
            10 => now + self.rng.of(&[0.1, 0.25, 0.3, 5.0, 10.0]),
            _ => now + self.rng.unit(),
        };
        at.clamp(now, CLOCK_LIMIT)
    }

    fn time(&mut self, ask: &Ask, host: &Host) -> f64 {
        let now = clock();
        if host.answers == 0 && host.place == 1 && self.calls == 0 && now == 0.0 {
            // where the clock starts
            let start = match self.rng.below(6) {
                0 => 0.0,
                1 => 5.0,
                2 => self.rng.unit() * 1000.0,
                3 if self.p.edge => self.rng.of(&[999_999_000.0, CLOCK_LIMIT - 1.0, -0.0]),
                _ => self.rng.below(1000) as f64,
            };
            return start;
        }
        let at = match ask {
            Ask::Wait(s) => {
                if self.rng.chance(self.p.wake) {
                    match self.rng.below(8) {
                        0 => now,
                        1 => now + s / 2.0,
                        2 => now + s - 1e-4,
                        3 => now + s - 5e-5,
                        4 => now + s - 0.00011,
                        5 => now + s * self.rng.unit(),
                        6 => now + s * (1.0 + self.rng.unit()),
                        _ => self.some_time(host),
                    }
                } else {
                    now + s
                }
            }
            Ask::Event(_) if ask.name() == "outcome" && self.rng.chance(300) => self.some_time(host),
            _ if self.rng.chance(self.p.moves) => self.some_time(host),
            _ => now,
        };
        at.clamp(now, CLOCK_LIMIT)
    }

    fn wall(&mut self) -> i64 {
        let r = &mut self.rng;
        self.wall = match r.below(20) {
            0..=3 => self.wall,
            4 => self.wall.saturating_sub(r.below(5000) as i64).max(0),
            _ => self.wall.saturating_add(r.below(1500) as i64),
        };
        self.wall
    }

    fn panel(&mut self, n: usize) -> Vec<u8> {
        let mut tags: Vec<u8> = (0..n as u8).collect();
        for i in (1..tags.len()).rev() {
            tags.swap(i, self.rng.below(i as u64 + 1) as usize);
        }
        let keep = self.rng.below(n as u64 + 1) as usize;
        tags.truncate(if self.rng.chance(300) { n } else { keep });
        let tiers: Vec<u8> = tags.iter().map(|_| self.rng.range(1, 3) as u8).collect();
        let mut bytes = vec![tags.len() as u8];
        bytes.extend(&tags);
        bytes.extend(&tiers);
        if self.rng.chance(self.p.wrong * 4) {
            let len = bytes.len();
            let k = tags.len();
            match self.rng.below(6) {
                0 => bytes.clear(),
                1 => bytes.push(1),
                2 => {
                    bytes.pop();
                }
                _ if k == 0 => {}
                3 => bytes[1 + self.rng.below(k as u64) as usize] = n as u8,
                4 => bytes[1 + self.rng.below(k as u64) as usize] = bytes[1],
                _ => bytes[len - 1] = self.rng.of(&[0, 4, 255]),
            }
        }
        bytes
    }

    fn wrong_time(&mut self) -> f64 {
        let below = clock() - 0.5;
        self.rng.of(&[
            f64::NAN,
            f64::INFINITY,
            f64::NEG_INFINITY,
            -1.0,
            CLOCK_LIMIT.next_up(),
            below,
            clock().next_down(),
        ])
    }

    fn call_time(&mut self, host: &Host) -> f64 {
        if self.rng.chance(self.p.wrong) {
            self.wrong_time()
        } else if self.rng.chance(self.p.moves / 2) {
            self.some_time(host)
        } else {
            clock()
        }
    }

    fn call(&mut self, host: &Host) -> String {
        let n = host.head.names.len() as u64;
        let wrong = self.rng.chance(self.p.wrong);
        match self.rng.below(100) {
            0..=54 => {
                let at = self.call_time(host);
                let tag = if wrong { self.rng.of(&[n, n + 1, 255, 1 << 40]) } else { self.rng.below(n) };
                let tier = if self.rng.chance(self.p.wrong) {
                    self.rng.of(&[4, 255])
                } else {
                    self.rng.of(&[0, 0, 1, 1, 1, 2, 2, 2, 3])
                };
                format!("call tier {} {tag} {tier}", hex(at))
            }
            55..=69 => {
                let marked: Vec<u64> = {
                    let inner = lock(&host.worker.shared.inner);
                    (0..n).filter(|t| inner.missing.contains_key(&host.head.names[*t as usize])).collect()
                };
                let tag = match self.rng.below(3) {
                    _ if wrong => n,
                    0 if !marked.is_empty() => self.rng.of(&marked),
                    _ => self.rng.below(n),
                };
                let value = if self.rng.chance(self.p.wrong) {
                    Val::Float(self.rng.of(&[f64::NAN, f64::INFINITY, f64::NEG_INFINITY]))
                } else {
                    self.a_value()
                };
                format!("call write {tag} {}", value.text())
            }
            75 if host.worker.state() == "connected" && self.rng.chance(200) => {
                // more than the queue holds
                for _ in 0..self.rng.range(30, 36) {
                    let v = self.a_value();
                    let t = self.rng.below(n);
                    self.queue.push_back(format!("call write {t} {}", v.text()));
                }
                "call look state".into()
            }
            70..=72 => {
                if self.rng.chance(600) {
                    // off the board, then a panel
                    for name in lock(&host.worker.shared.inner).tiers.keys() {
                        self.queue.push_back(format!("call tier {} {} 0", hex(clock()), host.index[name]));
                    }
                }
                let bytes = self.panel(n as usize);
                self.queue.push_back(format!("call load {} {}", hex(clock()), bytes_text(&bytes)));
                "call look table".into()
            }
            73 | 74 => {
                let at = self.call_time(host);
                let bytes = self.panel(n as usize);
                format!("call load {} {}", hex(at), bytes_text(&bytes))
            }
            76..=80 => {
                // one tag back and forth
                let tag = self.rng.below(n);
                for _ in 0..self.rng.range(2, 4) {
                    let tier = self.rng.below(4);
                    self.queue.push_back(format!("call tier {} {tag} {tier}", hex(clock())));
                }
                format!("call look tag {tag}")
            }
            _ => {
                let what = self.rng.of(&["state", "stats", "tiers", "groups", "table", "panel", "tag", "all"]);
                if what == "tag" {
                    let tag = if wrong { n } else { self.rng.below(n) };
                    return format!("call look tag {tag}");
                }
                format!("call look {what}")
            }
        }
    }

    /// While a list of failed writes is told: new writes, at times more than the queue holds, and a stop.
    fn at_failed(&mut self, host: &Host) {
        let n = host.head.names.len() as u64;
        let writes = match self.rng.below(40) {
            0 => self.rng.range(31, 34),
            1..=15 => self.rng.range(1, 3),
            _ => 0,
        };
        for _ in 0..writes {
            let v = self.a_value();
            let t = self.rng.below(n);
            self.queue.push_back(format!("call write {t} {}", v.text()));
        }
        if !self.stopping && self.rng.chance(self.p.stop * 8) {
            self.stopping = true;
            self.queue.push_back("call stop".into());
        }
    }

    fn answer(&mut self, ask: &Ask, host: &Host) -> String {
        let lost = self.rng.chance(self.p.lost);
        match ask {
            Ask::Begin => "begin".into(),
            Ask::Connect => format!("connect {}", if lost { "failed" } else { "ok" }),
            Ask::Version => {
                if self.rng.chance(self.p.version) || host.answers < 3 {
                    self.version =
                        self.rng.of(&[None, None, Some(1), Some(1), Some(2), Some(3), Some(0), Some(u64::MAX)]);
                }
                let settings = if self.rng.chance(self.p.settings) {
                    let s = self.settings(&host.head.names);
                    settings_text(&s)
                } else {
                    "same".into()
                };
                let v = self.version.map_or("-".into(), |v| v.to_string());
                format!("version {v} {settings}")
            }
            Ask::Read(_) | Ask::Readback(_) if lost => format!("{} lost", ask.name()),
            Ask::Read(tags) | Ask::Readback(tags) => {
                let mut t = ask.name().to_owned();
                for r in self.results(tags, host) {
                    t.push(' ');
                    t.push_str(&r);
                }
                t
            }
            Ask::Write(..) if lost => "write lost".into(),
            Ask::Write(..) if self.rng.chance(self.p.error) => {
                format!("write {}", self.an_error().text())
            }
            Ask::Write(..) => "write ok".into(),
            Ask::Describe(_) if lost => "describe failed".into(),
            Ask::Describe(tags) => {
                let mut n = tags.len();
                if self.rng.chance(self.p.length * 2) {
                    n = self.rng.below(n as u64 + 3) as usize;
                }
                let mut t = String::from("describe");
                for _ in 0..n {
                    let d = self.rng.of(&["-", "0", "7", "12345", "4294967295"]);
                    t.push(' ');
                    t.push_str(d);
                }
                t
            }
            Ask::Wait(_) => "waited".into(),
            Ask::Event(_) | Ask::End(_) => "taken".into(),
        }
    }

    /// An answer that is refused.
    fn wrong_answer(&mut self, ask: &Ask, host: &Host) -> String {
        let wall = self.wall();
        let here = clock();
        match self.rng.below(4) {
            0 => {
                let a = self.answer(ask, host);
                let t = self.wrong_time();
                // a reading that is still good falls out below
                if Host::check_clock(t).is_err() {
                    return format!("answer {} {wall} {a}", hex(t));
                }
            }
            1 => match ask {
                Ask::Read(tags) | Ask::Readback(tags) => {
                    let k = self.rng.below(tags.len() as u64) as usize;
                    let mut t = format!("answer {} {wall} {}", hex(here), ask.name());
                    for i in 0..=k {
                        let v = if i == k {
                            Val::Float(self.rng.of(&[f64::NAN, f64::INFINITY, f64::NEG_INFINITY]))
                        } else {
                            self.a_value()
                        };
                        let _ = write!(t, " {}", v.text());
                    }
                    return t;
                }
                Ask::Version => {
                    let mut s = self.settings(&host.head.names);
                    let i = self.rng.below(s.len() as u64) as usize;
                    match self.rng.below(5) {
                        0 => s.push(s[0]),
                        1 => {
                            s.pop();
                        }
                        2 => s[i].band = Some(self.rng.of(&[f64::NAN, f64::INFINITY])),
                        3 => s[i].group = Some((16, 1000)),
                        _ => s[i].group = Some((3, 0)),
                    }
                    let mut t = format!("answer {} {wall} version 5", hex(here));
                    for s in &s {
                        let _ = write!(t, " {}", setting_text(s));
                    }
                    return t;
                }
                _ => {}
            },
            _ => {}
        }
        let reading = matches!(ask, Ask::Read(_) | Ask::Readback(_));
        let other = match self.rng.below(6) {
            0 if !matches!(ask, Ask::Connect) => "connect ok",
            1 if !matches!(ask, Ask::Version) => "version 4 same",
            2 if !reading => "read lost",
            3 if !matches!(ask, Ask::Write(..)) => "write ok",
            4 if !matches!(ask, Ask::Describe(_)) => "describe failed",
            _ if !matches!(ask, Ask::Wait(_)) => "waited",
            _ => "taken",
        };
        let at = if self.rng.chance(500) { here } else { self.some_time(host) };
        format!("answer {} {wall} {other}", hex(at))
    }
}

impl Source for Gen {
    fn next(&mut self, ask: &Ask, host: &Host) -> Option<String> {
        if let Some(line) = self.queue.pop_front() {
            return Some(line);
        }
        if let Ask::End(_) = ask {
            self.ended += 1;
            return match self.ended {
                1..=3 => Some(self.call(host)),
                4 => Some(format!("answer {} {} taken", hex(clock()), self.wall)),
                5 => Some("call stop".into()),
                6 => Some("call look all".into()),
                _ => None,
            };
        }
        if self.left <= 0 {
            if self.abrupt {
                self.ended += 1;
                return (self.ended == 1).then(|| "call look all".into());
            }
            if !self.stopping {
                self.stopping = true;
                return Some("call stop".into());
            }
        }
        if self.place != host.place {
            self.place = host.place;
            self.calls = 0;
            let first = matches!(ask, Ask::Begin);
            let call = match ask.name() {
                "begin" => 700,
                "outcome" => self.p.call / 4,
                _ => self.p.call,
            };
            if self.left > -60 && self.rng.chance(call) {
                self.calls = self.rng.range(1, self.p.calls * if first { 4 } else { 1 });
            }
            if self.stop_at.is_some_and(|at| host.place >= at) && !self.stopping {
                self.stopping = true;
                return Some("call stop".into());
            }
            if first && self.rng.chance(5) {
                self.stopping = true;
                return Some("call stop".into());
            }
            if ask.name() == "failed" {
                self.at_failed(host);
                if let Some(line) = self.queue.pop_front() {
                    return Some(line);
                }
            }
        }
        if self.calls > 0 {
            self.calls -= 1;
            return Some(self.call(host));
        }
        if self.left > -60 && self.rng.chance(self.p.wrong) {
            return Some(self.wrong_answer(ask, host));
        }
        self.left -= 1;
        let answer = self.answer(ask, host);
        let at = self.time(ask, host);
        let wall = self.wall();
        Some(format!("answer {} {wall} {answer}", hex(at)))
    }
}
