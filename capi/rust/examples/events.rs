//! The events of examples/events.c in Rust, as lines of capi/events.data.
use nekchhaul::{open, Algorithm, Attempt, Caller, Sizes, Status};

const WORDS: usize = 403;
const STOP: Status = Status::stop(7);

/// A body's run: how often another caller is to come in between, and how often the body came to its end.
struct Run {
    other: Caller,
    between: u32,
    ends: u32,
    half: bool,
}

impl Run {
    fn come_between(&mut self) {
        if self.between > 0 {
            self.between -= 1;
            // (it may be refused)
            let _ = self.other.begin().and_then(|mut t| t.write_many(&[3, WORDS - 1], &[0, 0]).and_then(|()| t.commit()));
        }
    }

    fn first_retry(&mut self, t: &mut Attempt<'_>) -> Result<(), Status> {
        self.ends += 1;
        if self.ends == 1 { t.retry() } else { Ok(()) }
    }
}

fn put(t: &mut Attempt<'_>) -> Result<(), Status> {
    t.write(1, 1)
}

fn put_last(t: &mut Attempt<'_>) -> Result<(), Status> {
    t.write(2, 1)
}

fn put_and_stop(t: &mut Attempt<'_>) -> Result<(), Status> {
    put(t)?;
    Err(STOP)
}

fn put_and_misuse(t: &mut Attempt<'_>) -> Result<(), Status> {
    put(t)?;
    t.write(WORDS, 1)
}

fn put_and_always_retry(t: &mut Attempt<'_>) -> Result<(), Status> {
    put(t)?;
    t.retry()
}

fn put_and_retry(t: &mut Attempt<'_>, run: &mut Run) -> Result<(), Status> {
    put(t)?;
    run.first_retry(t)
}

fn goes_on_after_stop(t: &mut Attempt<'_>, _: &mut Run) -> Result<(), Status> {
    match t.nested(put_and_stop) {
        Err(STOP) => put_last(t),
        answer => answer,
    }
}

fn neither(t: &mut Attempt<'_>, run: &mut Run) -> Result<(), Status> {
    t.or_else(put_and_always_retry, |t| put_last(t).and_then(|()| run.first_retry(t)))
}

fn nest_on(t: &mut Attempt<'_>) -> Result<(), Status> {
    t.nested(nest_on)
}

fn marks_deep(t: &mut Attempt<'_>, _: &mut Run) -> Result<(), Status> {
    loop {
        t.checkpoint()?;
    }
}

type Event = fn(&mut Attempt<'_>, &mut Run) -> Result<(), Status>;

const EVENTS: [(&str, Event); 17] = [
    ("done", |_, _| Ok(())),
    ("stops", |t, _| put_and_stop(t)),
    ("misuses", |t, _| put_and_misuse(t)),
    ("retries", put_and_retry),
    ("joins", |t, _| t.atomically(put)),
    ("joined_stops", |t, _| t.atomically(put_and_stop)),
    ("joined_retries", |t, run| t.atomically(|t| put_and_retry(t, run))),
    ("nests", |t, _| t.nested(put)),
    ("nested_stops", |t, _| t.nested(put_and_stop)),
    ("nested_misuses", |t, _| t.nested(put_and_misuse)),
    ("nested_retries", |t, run| t.nested(|t| put_and_retry(t, run))),
    ("goes_on_after_stop", goes_on_after_stop),
    ("either", |t, _| t.or_else(put_and_always_retry, put_last)),
    ("either_stops", |t, _| t.or_else(put_and_always_retry, put_and_stop)),
    ("neither", neither),
    ("nests_deep", |t, _| nest_on(t)),
    ("marks_deep", marks_deep),
];

/// What the loop answers.
fn answer(mine: &mut Caller, run: &mut Run, does: Event) -> String {
    let all: Vec<usize> = (3..WORDS - 1).collect();
    let mut values = [0; WORDS];
    let told = mine.atomically(|t| {
        t.read_many(&all, &mut values)?;
        run.come_between();
        t.read(WORDS - 1)?;
        for i in 0..3 {
            run.half |= t.read(i)? != 0;
        }
        t.write(0, 1)?;
        does(t, run)
    });
    match told.map_err(|status| (status.stopped(), status.name())) {
        Ok(()) => "OK".into(),
        Err((Some(n), name)) => format!("{name}+{n}"),
        Err((None, name)) => name.into(),
    }
}

fn main() -> Result<(), Status> {
    for algorithm in Algorithm::ALL {
        for (logs, between) in [(4, 0), (4, 20), (64, 0), (64, 20)] {
            for (name, does) in EVENTS {
                let mut callers = open(&Sizes { words: WORDS, records: 64, ring: 64, reads: logs, writes: logs, clock: 0 }, algorithm, 2)?;
                let (other, mut mine) = (callers.remove(1), callers.remove(0));
                let mut run = Run { other, between, ends: 0, half: false };
                let told = answer(&mut mine, &mut run, does);
                let mut words = [0; 3];
                let mut t = run.other.begin()?;
                t.read_many(&[0, 1, 2], &mut words)?;
                t.commit()?;
                let half = if run.half { " and a half was seen" } else { "" };
                println!("{name} {told} {}{}{}{half}", words[0], words[1], words[2]);
            }
        }
    }
    Ok(())
}
