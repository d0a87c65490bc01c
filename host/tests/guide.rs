//! The code of docs/HOST.md, compiled and run. What stands between the marks must stand in the guide too.

use std::sync::{Condvar, Mutex};
use std::time::{Duration, Instant, SystemTime, UNIX_EPOCH};
use wordzike::*;

fn wall() -> i64 {
    SystemTime::now().duration_since(UNIX_EPOCH).map_or(0, |d| d.as_millis() as i64)
}

/// What a host brings: each request is a method, and gives the answer to it.
trait Driver {
    fn open(&mut self) -> Answer<'_>;
    fn version(&mut self) -> Answer<'_>;
    fn read(&mut self, tags: &[u32]) -> Answer<'_>;
    fn write(&mut self, tag: u32, value: Value) -> Answer<'_>;
    fn describe(&mut self, tags: &[u32]) -> Answer<'_>;
    fn wait(&mut self, engine: &mut Engine, seconds: f64) -> Answer<'_>;
    fn tell(&mut self, event: &Event);
}

// from here: the loop
fn poll(engine: &mut Engine, driver: &mut impl Driver) -> Result<(), Refusal> {
    let begun = Instant::now();
    let mut answer = Answer::Begin;
    loop {
        let reply = engine.step(begun.elapsed().as_secs_f64(), wall(), answer)?;
        answer = match reply {
            Reply::Request(Request::Connect) => driver.open(),
            Reply::Request(Request::Version) => driver.version(),
            Reply::Request(Request::Read(tags) | Request::ReadBack(tags)) => driver.read(&tags),
            Reply::Request(Request::Write(tag, value)) => driver.write(tag, value),
            Reply::Request(Request::Describe(tags)) => driver.describe(&tags),
            Reply::Request(Request::Wait(seconds)) => driver.wait(engine, seconds),
            Reply::Event(event) => {
                driver.tell(&event);
                if matches!(event, Event::Stopped(_)) {
                    return Ok(());
                }
                Answer::Taken
            }
        };
    }
}
// to here

/// Two tags; the second can be written.
struct Plc {
    settings: [Setting; 2],
    results: Vec<std::result::Result<Value, Error>>,
    level: f64,
    waits: u32,
    told: Vec<Event>,
}

impl Driver for Plc {
    fn open(&mut self) -> Answer<'_> {
        Answer::Opened
    }

    fn version(&mut self) -> Answer<'_> {
        Answer::Version(Some(7), &self.settings)
    }

    fn read(&mut self, tags: &[u32]) -> Answer<'_> {
        let value = |tag: &u32| if *tag == 0 { Value::Int(3) } else { Value::Float(self.level) };
        self.results = tags.iter().map(|tag| Ok(value(tag))).collect();
        Answer::Results(&self.results)
    }

    fn write(&mut self, tag: u32, value: Value) -> Answer<'_> {
        let (1, Value::Float(level)) = (tag, value) else {
            return Answer::Refused(Error { kind: ErrorKind::Other(4), message: 0 });
        };
        self.level = level;
        Answer::Written
    }

    fn describe(&mut self, _: &[u32]) -> Answer<'_> {
        Answer::NotDescribed
    }

    fn wait(&mut self, engine: &mut Engine, seconds: f64) -> Answer<'_> {
        std::thread::sleep(Duration::from_secs_f64(seconds));
        self.waits += 1;
        match self.waits {
            3 => engine.write(1, Value::Float(25.5)).unwrap(),
            10 => engine.stop(),
            _ => {}
        }
        Answer::Waited
    }

    fn tell(&mut self, event: &Event) {
        self.told.push(event.clone());
    }
}

fn engine(cycle: f64) -> Engine {
    let options = Options { cycle, period: 2.0 * cycle, grace: 0.0 };
    let mut engine = Engine::new(&["Count", "Level"], options, &[Setting::default(); 2], &[]).unwrap();
    engine.load(0.0, &[2, 0, 1, 2, 1]).unwrap();
    engine
}

#[test]
fn the_loop_polls_writes_and_stops() {
    let mut plc =
        Plc { settings: [Setting::default(); 2], results: Vec::new(), level: 20.0, waits: 0, told: Vec::new() };
    poll(&mut engine(0.01), &mut plc).unwrap();
    let outcome = Event::Outcome(1, Outcome::Written(Value::Float(25.5)));
    assert_eq!(plc.told[0], Event::Status(State::Connected));
    assert!(plc.told.contains(&outcome));
    assert_eq!(plc.told.last(), Some(&Event::Stopped(vec![])));
}

// from here: an engine that threads share
struct Shared {
    engine: Mutex<(Engine, bool)>, // the flag: called since the last step
    called: Condvar,
    begun: Instant,
}

impl Shared {
    /// From the polling thread alone.
    fn step(&self, answer: Answer<'_>) -> Result<Reply, Refusal> {
        let mut shared = self.engine.lock().unwrap();
        shared.1 = false;
        shared.0.step(self.begun.elapsed().as_secs_f64(), wall(), answer)
    }

    /// From any thread.
    fn write(&self, tag: u32, value: Value) -> Result<(), Refusal> {
        let mut shared = self.engine.lock().unwrap();
        shared.0.write(tag, value)?;
        shared.1 = true;
        self.called.notify_all();
        Ok(())
    }

    /// What the polling thread does at `Request::Wait`.
    fn wait(&self, seconds: f64) -> Answer<'static> {
        let shared = self.engine.lock().unwrap();
        let time = Duration::from_secs_f64(seconds);
        drop(self.called.wait_timeout_while(shared, time, |(_, called)| !*called));
        Answer::Waited
    }
}
// to here

#[test]
fn a_write_from_another_thread_ends_the_wait() {
    let settings = [Setting::default(); 2];
    let shared = Shared { engine: Mutex::new((engine(60.0), false)), called: Condvar::new(), begun: Instant::now() };
    let answers = [Answer::Begin, Answer::Opened, Answer::Version(None, &settings), Answer::Taken];
    let results = [Answer::Results(&[]), Answer::NotDescribed, Answer::Taken, Answer::Version(None, &settings)];
    let last = answers.into_iter().chain(results).map(|answer| shared.step(answer).unwrap()).last();
    let Some(Reply::Request(Request::Wait(seconds))) = last else { panic!("{last:?}") };
    assert!(seconds > 50.0);
    std::thread::scope(|threads| {
        threads.spawn(|| shared.write(1, Value::Float(1.0)).unwrap());
        let write = shared.step(shared.wait(seconds)).unwrap();
        assert_eq!(write, Reply::Request(Request::Write(1, Value::Float(1.0))));
    });
    assert!(shared.begun.elapsed() < Duration::from_secs(50));
    // the next wait is not ended by what the step has seen
    assert!(!shared.engine.lock().unwrap().1);
}

#[test]
fn the_guide_has_this_code() {
    let guide = include_str!("../../docs/HOST.md");
    let texts = [(include_str!("guide.rs"), "// from here", "// to here"), {
        (include_str!("../../include/test/loop.c"), "/* from here */", "/* to here */")
    }];
    let mut parts = 0;
    for (text, from, to) in texts {
        // the words themselves stand in this test too, but not at the beginning of a line
        for part in text.split(&format!("\n{from}")).skip(1) {
            let (_, part) = part.split_once('\n').unwrap();
            let (part, _) = part.split_once(&format!("\n{to}")).unwrap();
            assert!(guide.contains(part.trim_end()), "not in docs/HOST.md:\n{part}");
            parts += 1;
        }
    }
    assert_eq!(parts, 3);
}
