//! The Rust's host of `oracle bench`: script.rs's controller behind the driver trait of the worker, and its clock behind the
//! worker's clock hook. `run` of the worker is called on this thread.

use super::script::*;
use super::timing::used;
use super::*;
use wordzike::ffi::Reply;

struct Rust {
    desk: Desk,
    worker: Arc<PlcWorker>,
    names: Vec<String>,
    index: HashMap<String, u64>,
}

thread_local! {
    static RUST: RefCell<Option<Rust>> = const { RefCell::new(None) };
}

fn with_rust<T>(f: impl FnOnce(&mut Rust) -> T) -> T {
    RUST.with_borrow_mut(|r| f(r.as_mut().expect("a host")))
}

impl Rust {
    /// One that was seen: a reply as ours would be, with the tags' ranks.
    fn see(&mut self, reply: Reply, tags: &[&str]) {
        if self.desk.seen.is_none() {
            return;
        }
        let ranks: Vec<u64> = tags.iter().map(|t| self.index[*t]).collect();
        self.desk.see(&Reply { count: ranks.len() as u64, ..reply }, ranks.into_iter());
    }

    /// The worker never looks at a result's name, so it is left empty.
    fn results(&mut self, tags: &[&str]) -> Vec<TagResult> {
        let Desk { values, turn, .. } = self.desk;
        let mut sum = 0;
        let results = tags.iter().enumerate().map(|(place, tag)| {
            sum += tag.len() as u64;
            let value = values.at(turn, place).driver();
            TagResult { tag: String::new(), value, data_type: None, error: None }
        });
        let results = results.collect();
        self.desk.asked += tags.len() as u64;
        self.desk.sum = self.desk.sum.wrapping_add(sum);
        results
    }

    fn changes(&mut self, changes: &[(String, Entry)]) {
        let mut sum = self.desk.sum;
        for (tag, e) in changes {
            let value = cells(Val::of_json(&e.value));
            sum = sum.wrapping_add(tag.len() as u64).wrapping_add(value.word).wrapping_add(e.t as u64);
        }
        self.desk.sum = sum;
        self.desk.told += changes.len() as u64;
    }

    fn event(&mut self, event: &Event) {
        match event {
            Event::Values(_, changes) => {
                self.changes(changes);
                self.see_changes(changes);
            }
            Event::Status(_, state) => {
                assert_eq!(*state, "connected");
                self.see(Reply { kind: STATUS, what: 1, ..NOTHING }, &[]);
            }
            Event::Meta(_) => self.see(Reply { kind: META, ..NOTHING }, &[]),
            Event::Info(_, tags) => {
                let tags: Vec<&str> = tags.iter().map(String::as_str).collect();
                self.see(Reply { kind: INFO, ..NOTHING }, &tags);
            }
        }
    }

    fn see_changes(&mut self, changes: &[(String, Entry)]) {
        if self.desk.seen.is_none() {
            return;
        }
        let Rust { desk, index, .. } = self;
        let list = changes.iter().flat_map(|(tag, e)| {
            assert!(e.quality == "good" && e.error.is_null(), "the script has good values alone");
            let value = cells(Val::of_json(&e.value));
            [index[tag], 1, value.kind, value.word, e.t as u64, 0, 0, 0, 0]
        });
        desk.see(&Reply { kind: VALUES, count: changes.len() as u64, ..NOTHING }, list);
    }

    fn outcome(&mut self, tag: usize, r: &WriteResult) {
        assert!(r.ok);
        let value = cells(Val::of_json(&r.value));
        self.desk.sum = self.desk.sum.wrapping_add(value.word);
        let reply = Reply { kind: OUTCOME, tag: tag as u64, value, ..NOTHING };
        self.desk.see(&reply, std::iter::empty());
    }
}

/// `back`: the next read is that of a write.
struct Quick {
    back: bool,
}

impl Plc for Quick {
    fn open(&mut self) -> Result<(), String> {
        with_rust(|r| r.see(Reply { kind: CONNECT, ..NOTHING }, &[]));
        Ok(())
    }

    fn close(&mut self) {}

    fn read(&mut self, tags: &[&str]) -> Result<Vec<TagResult>, String> {
        let kind = if std::mem::take(&mut self.back) { READ_BACK } else { READ };
        Ok(with_rust(|r| {
            r.see(Reply { kind, ..NOTHING }, tags);
            r.results(tags)
        }))
    }

    fn write(&mut self, tag: &str, value: &Value) -> Result<TagResult, String> {
        self.back = true;
        with_rust(|r| {
            let value = cells(Val::of_write(value));
            r.desk.sum = r.desk.sum.wrapping_add(tag.len() as u64).wrapping_add(value.word);
            if r.desk.seen.is_some() {
                let reply = Reply { kind: WRITE, tag: r.index[tag], value, ..NOTHING };
                r.desk.see(&reply, std::iter::empty());
            }
        });
        Ok(TagResult { tag: String::new(), value: None, data_type: None, error: None })
    }

    fn catalog(&mut self) -> Catalog {
        Catalog::default()
    }

    fn version(&mut self) -> Json {
        with_rust(|r| r.see(Reply { kind: VERSION, ..NOTHING }, &[]));
        json!(1)
    }

    fn connection_size(&self) -> usize {
        0
    }

    fn describes(&self) -> bool {
        true
    }

    fn descriptions(&mut self, tags: &[&str]) -> Result<Vec<Option<String>>, String> {
        with_rust(|r| r.see(Reply { kind: DESCRIBE, ..NOTHING }, tags));
        Ok(vec![None; tags.len()])
    }
}

struct QuickTime;

impl FakeTime for QuickTime {
    fn now(&self) -> f64 {
        clock()
    }

    fn wait(&self, shared: &Shared, seconds: f64) -> bool {
        let next = with_rust(|r| {
            r.see(Reply { kind: WAIT, seconds, ..NOTHING }, &[]);
            let next = r.desk.wait(seconds);
            CLOCK.store(r.desk.clock.to_bits(), Ordering::Relaxed);
            WALL.store(r.desk.wall(), Ordering::Relaxed);
            next
        });
        match next {
            Next::Round => {}
            Next::Write(tag, value) => queue(tag, value),
            Next::Stop => shared.stop.store(true, Ordering::SeqCst),
        }
        shared.stop.load(Ordering::SeqCst)
    }
}

/// The worker is connected, so that it keeps `done` for later.
fn queue(tag: usize, value: i64) {
    let done = Box::new(move |result| with_rust(|r| r.outcome(tag, &result)));
    with_rust(|r| r.worker.write(&r.names[tag], Val::Int(value).to_write(), done));
}

pub(super) fn worker(head: &Head, rules: Arc<Rules>) -> Arc<PlcWorker> {
    let worker = PlcWorker::new(
        PlcConfig { name: PLC.into(), ..PlcConfig::default() },
        Arc::new(|_: &PlcConfig| Ok(Box::new(Quick { back: false }) as Box<dyn Plc>)),
        WorkerOptions {
            cycle: head.cycle,
            tier2_period: head.period,
            grace_s: head.grace,
            planner: false,
            whole_max_bytes: 1500,
        },
        rules,
        Arc::new(|event| with_rust(|r| r.event(&event))),
    );
    lock(&worker.shared.hooks).time = Some(Arc::new(QuickTime));
    Arc::new(worker)
}

pub(super) fn rules(head: &Head) -> Arc<Rules> {
    Arc::new(Rules::scripted(&head.names, head.settings.clone(), &head.groups))
}

/// The Rust's worker from its creation to its stop.
pub(super) fn run(plan: &Plan, mut desk: Desk) -> Desk {
    let head = &plan.head;
    let rules = rules(head);
    let names = head.names.clone();
    let index = head.names.iter().cloned().zip(0..).collect();
    CLOCK.store(0, Ordering::Relaxed);
    WALL.store(BEGINNING, Ordering::Relaxed);
    desk.begin();
    let worker = worker(head, rules);
    for (tag, tier) in &plan.calls {
        worker.set_tier(&head.names[*tag], Some(*tier));
    }
    RUST.set(Some(Rust { desk, worker: Arc::clone(&worker), names, index }));
    worker.shared.run();
    let mut desk = RUST.take().expect("the host that was set").desk;
    desk.see(&Reply { kind: STOPPED, ..NOTHING }, std::iter::empty());
    desk
}

/// What the Rust's host does by itself in a round: results for these tags, and a look at these changes.
pub(super) fn alone(plan: &Plan, rounds: u64) -> Duration {
    let names: Vec<&str> = plan.head.names.iter().map(String::as_str).collect();
    let entry = Entry { value: json!(1), quality: "good", t: 1, error: Json::Null };
    let changes: Vec<(String, Entry)> = names.iter().map(|n| ((*n).to_owned(), entry.clone())).collect();
    let worker = worker(&plan.head, rules(&plan.head));
    let mut rust = Rust { desk: Desk::new(plan, rounds), worker, names: Vec::new(), index: HashMap::new() };
    let begun = used();
    for _ in 0..rounds {
        rust.desk.turn += 1;
        std::hint::black_box(rust.results(std::hint::black_box(&names)));
        rust.changes(std::hint::black_box(&changes));
    }
    std::hint::black_box(rust.desk.sum);
    used() - begun
}
