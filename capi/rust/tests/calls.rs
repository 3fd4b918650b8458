//! Each call, and what it refuses, under each algorithm.
use nekchhaul::{open, Algorithm, Attempt, Caller, Hooks, Layout, Sizes, Status};
use std::panic::{catch_unwind, AssertUnwindSafe};
use std::thread;

/// Those under which attempts by hand can be taken back.
const CANCEL: [Algorithm; 4] = [Algorithm::OrecLazy, Algorithm::OrecEager, Algorithm::RingSw, Algorithm::Serial];

/// Two callers of a memory of four words, under each algorithm.
fn callers() -> impl Iterator<Item = [Caller; 2]> {
    callers_under(&Algorithm::ALL)
}

fn callers_under(algorithms: &[Algorithm]) -> impl Iterator<Item = [Caller; 2]> + '_ {
    algorithms.iter().map(|&algorithm| {
        let mut both = open(&Sizes { words: 4, records: 16, ring: 16, reads: 8, writes: 8, clock: 0 }, algorithm, 2).unwrap().into_iter();
        [both.next().unwrap(), both.next().unwrap()]
    })
}

fn words(c: &mut Caller) -> [u64; 4] {
    let mut found = [0; 4];
    c.atomically(|t| t.read_many(&[0, 1, 2, 3], &mut found)).unwrap();
    found
}

#[test]
fn typed_words_have_what_was_written() {
    let mut layout = Layout::new();
    let (double, float, flag) = (layout.place::<f64>(), layout.place::<f32>(), layout.place::<bool>());
    let numbers = layout.array::<i16>(3);
    let mut c = open(&Sizes::of(layout.words()), Algorithm::OrecLazy, 1).unwrap().remove(0);
    c.atomically(|t| {
        assert!(!t.get(flag)?);
        t.set(double, -2.5)?;
        t.set(float, 0.25)?;
        t.set(flag, true)?;
        numbers.iter().zip(-1..).try_for_each(|(word, n)| t.set(word, n))
    })
    .unwrap();
    assert_eq!(c.atomically(|t| Ok((t.get(double)?, t.get(float)?, t.get(flag)?))), Ok((-2.5, 0.25, true)));
    assert_eq!(c.atomically(|t| numbers.iter().map(|word| t.get(word)).collect()), Ok(vec![-1, 0, 1]));
    assert_eq!((numbers.len(), numbers.is_empty(), numbers.at(2).address()), (3, false, 5));
    assert!(catch_unwind(|| numbers.at(3)).is_err());
    c.take_range(0, 1).unwrap();
    let had = c.direct_get(double).unwrap();
    c.direct_set(double, 2.0 * had).unwrap();
    c.return_range().unwrap();
    assert_eq!(c.atomically(|t| t.get(double)), Ok(-5.0));
}

#[test]
fn a_body_that_stops_leaves_nothing() {
    for [mut c, _] in callers() {
        let stop = c.atomically(|t| t.write(0, 1).and(Err::<(), _>(Status::stop(5)))).unwrap_err();
        assert_eq!((stop.stopped(), stop.to_string().as_str()), (Some(5), "nekchhaul: STOP + 5"));
        assert!(catch_unwind(AssertUnwindSafe(|| c.atomically(|t| -> Result<(), Status> {
            t.write(0, 1)?;
            panic!("a body's own")
        })))
        .is_err());
        assert_eq!(c.atomically(|t| t.write(0, 1).and(t.read(4))), Err(Status::ADDRESS));
        assert_eq!(words(&mut c), [0; 4]);
        let mut runs = 0;
        c.atomically(|t| {
            runs += 1;
            t.write(1, runs)?;
            if runs < 20 { t.retry() } else { Ok(()) }
        })
        .unwrap();
        assert_eq!(words(&mut c), [0, 20, 0, 0]);
    }
}

#[test]
fn inner_bodies_stand_or_fall_with_the_outer_one() {
    for [mut c, _] in callers() {
        c.atomically(|t| {
            t.write(0, 1)?;
            t.atomically(|t| t.write(1, 1))?;
            t.nested(|t| t.write(2, 1))
        })
        .unwrap();
        assert_eq!(words(&mut c), [1, 1, 1, 0]);
        c.atomically(|t| {
            t.write(0, 2)?;
            assert_eq!(t.atomically(|t| t.write(1, 2).and(Err::<(), _>(Status::stop(0)))), Err(Status::stop(0)));
            t.atomically(|t| t.write(2, 2))
        })
        .unwrap();
        assert_eq!(words(&mut c), [2, 1, 2, 0]);
        let panics = |t: &mut Attempt<'_>| -> Result<(), Status> {
            t.write(1, 3)?;
            panic!("an inner body's own")
        };
        c.atomically(|t| {
            t.write(0, 3)?;
            assert!(catch_unwind(AssertUnwindSafe(|| t.nested(panics))).is_err());
            assert_eq!(t.nested(|t| t.write(2, 3).and(Err::<(), _>(Status::stop(1)))), Err(Status::stop(1)));
            assert_eq!(t.nested(|t| t.write(2, 3).and(t.read(9))), Err(Status::ADDRESS));
            t.nested(|t| t.write(3, 3))
        })
        .unwrap();
        assert_eq!(words(&mut c), [3, 1, 2, 3]);
        assert_eq!(c.atomically(|t| t.or_else(|t| t.write(0, 4).and(t.retry()), |t| t.read(0))), Ok(3));
        assert_eq!(c.atomically(|t| t.or_else(|t| t.retry(), |_| Err::<(), _>(Status::stop(2)))), Err(Status::stop(2)));
    }
}

#[test]
fn marks() {
    for [mut c, _] in callers() {
        c.atomically(|t| {
            t.write(0, 1)?;
            let one = t.checkpoint()?;
            t.write(0, 2)?;
            let two = t.checkpoint()?;
            t.write(0, 3)?;
            t.roll_to(two)?;
            assert_eq!((t.read(0)?, t.state()?.marks), (2, 2));
            t.drop_marks(two)?;
            t.roll_to(one)?;
            assert_eq!((t.read(0)?, t.state()?.marks), (1, 1));
            Ok(())
        })
        .unwrap();
        assert_eq!(c.atomically(|t| t.roll_to(1)), Err(Status::DEPTH));
        assert_eq!(c.atomically(|t| (1..=9).try_for_each(|_| t.checkpoint().map(drop))), Err(Status::DEEP));
    }
}

#[test]
fn what_an_irrevocable_body_wrote_stands() {
    for [mut c, _] in callers() {
        let stopped = c.atomically(|t| {
            t.become_irrevocable()?;
            assert!(t.state()?.irrevocable);
            t.write(0, 1).and(Err::<(), _>(Status::stop(0)))
        });
        assert_eq!(stopped, Err(Status::IRREVOCABLE));
        let nested = c.atomically(|t| t.become_irrevocable().and(t.nested(|t| t.write(1, 1).and(t.retry::<()>()))));
        assert_eq!(nested, Err(Status::IRREVOCABLE));
        assert_eq!(words(&mut c), [1, 1, 0, 0]);
    }
}

/// How often each hook was called, and the body run.
#[derive(Default, Debug, PartialEq)]
struct Told {
    runs: u32,
    committed: u32,
    aborted: u32,
}

impl Hooks for Told {
    fn committed(&mut self) {
        self.committed += 1;
    }
    fn aborted(&mut self) {
        self.aborted += 1;
    }
}

#[test]
fn after_each_run_of_a_body_one_hook_is_called() {
    for [mut c, _] in callers() {
        let mut told = Told::default();
        let retried = c.atomically_with(&mut told, |t, told| {
            told.runs += 1;
            if told.runs < 4 { t.write(0, 1).and(t.retry()) } else { Ok(()) }
        });
        assert_eq!((retried, &told), (Ok(()), &Told { runs: 4, committed: 1, aborted: 3 }));
        let stopped = c.atomically_with(&mut told, |t, _| t.write(0, 1).and(Err::<(), _>(Status::stop(1))));
        assert_eq!((stopped, told.aborted), (Err(Status::stop(1)), 4));
        let panicked = catch_unwind(AssertUnwindSafe(|| c.atomically_with(&mut told, |_, _| -> Result<(), Status> { panic!("a body's own") })));
        assert!(panicked.is_err() && told.aborted == 5);
        let stands = c.atomically_with(&mut told, |t, _| t.become_irrevocable().and(Err::<(), _>(Status::stop(1))));
        assert_eq!((stands, told), (Err(Status::IRREVOCABLE), Told { runs: 4, committed: 2, aborted: 5 }));
        assert_eq!(words(&mut c), [0; 4]);
    }
}

#[test]
fn many_writes_in_one_call() {
    for [mut c, _] in callers() {
        c.atomically(|t| t.write_many(&[3, 0, 3], &[1, 2, 3])).unwrap();
        assert_eq!(words(&mut c), [2, 0, 0, 3]);
        assert_eq!(c.atomically(|t| t.write_many(&[0, 1], &[9])), Err(Status::ROOM));
        let mut begun = c.begin().unwrap();
        assert_eq!(begun.write_many(&[0, 4, 1], &[7, 7, 7]), Err(Status::ADDRESS));
        begun.commit().unwrap();
        assert_eq!(words(&mut c), [7, 0, 0, 3]);
    }
    assert_eq!(nekchhaul::version().0, 131_073);
}

#[test]
fn attempts_by_hand() {
    for [mut c, mut other] in callers_under(&CANCEL) {
        let mut begun = c.begin().unwrap();
        begun.write(0, 1).unwrap();
        assert_eq!(begun.read(0), Ok(1));
        begun.commit().unwrap();
        let mut begun = c.begin().unwrap();
        begun.write(0, 2).unwrap();
        begun.cancel().unwrap();
        c.begin().unwrap().write(0, 3).unwrap();
        let mut forgotten = c.begin().unwrap();
        forgotten.write(0, 4).unwrap();
        std::mem::forget(forgotten);
        assert_eq!(words(&mut c), [1, 0, 0, 0]);
        other.take_range(0, 1).unwrap();
        let mut beside = c.begin().unwrap();
        assert_eq!(beside.read(0), Err(Status::FENCED));
        assert!(beside.state().unwrap().is_beside_range);
        assert_eq!(beside.atomically(|t| t.read(0)), Err(Status::FENCED));
        beside.write(1, 4).unwrap();
        beside.commit().unwrap();
        assert_eq!(c.atomically(|t| t.read(1)), Ok(4));
        assert_eq!(other.atomically(|t| t.write(2, 4).and(t.read(0))), Err(Status::FENCED));
        assert!(other.state().unwrap().has_range);
        other.direct_write(0, 5).unwrap();
        assert_eq!((other.direct_read(0), other.direct_read(1)), (Ok(5), Err(Status::NO_RANGE)));
        other.return_range().unwrap();
        assert_eq!(words(&mut c), [5, 4, 0, 0]);
    }
}

#[test]
fn calls_that_must_be_alone() {
    for [mut c, mut other] in callers() {
        let begun = other.begin().unwrap();
        assert_eq!(c.install_within(Algorithm::Tml, 3), Err(Status::BUSY));
        assert_eq!(c.why().unwrap().unwrap().status, Status::BUSY);
        assert_eq!(c.take_range_within(0, 1, 2), Err(Status::BUSY));
        assert_eq!(c.close_within(4, 1), Err(Status::BUSY));
        begun.commit().unwrap();
        c.install(Algorithm::Serial).unwrap();
        assert_eq!(other.atomically(|t| Ok(t.state()?.algorithm)), Ok(Some(Algorithm::Serial)));
        assert_eq!(other.state().unwrap().algorithm, None);
        c.take_range(1, 2).unwrap();
        assert_eq!(c.take_range(0, 1), Err(Status::HOLDS_RANGE));
        let beside = other.begin().unwrap();
        assert_eq!(c.return_range_within(2), Err(Status::BUSY));
        drop(beside);
        c.return_range().unwrap();
        c.learn(&mut other).unwrap();
        c.reserve(16, 16).unwrap();
        assert_eq!(c.reserve(0, 16), Err(Status::LOGS));
        assert_eq!(c.close(3), Err(Status::ROOM));
        assert_eq!(c.close(4), Ok(vec![0; 4]));
        assert_eq!(other.atomically(|t| t.read(0)), Err(Status::FENCED));
    }
    for [mut c, mut other] in callers() {
        c.take_range(0, 1).unwrap();
        drop(c); // which gives it back
        assert_eq!(other.begin().unwrap().read(0), Ok(0));
    }
    assert!(open(&Sizes { words: 0, ..Sizes::of(1) }, Algorithm::Cgl, 1).is_err());
    assert!(open(&Sizes::of(1), Algorithm::Cgl, 0).is_err());
    let [mut a, mut b] = [1, 2].map(|n| open(&Sizes::of(1), Algorithm::Cgl, n).unwrap().remove(0));
    assert_eq!(a.learn(&mut b), Err(Status::STRANGER));
}

/// A queue of one place: who puts waits until it is empty, who takes until it is full.
#[test]
fn retry_waits_for_others() {
    for [mut giver, mut taker] in callers() {
        thread::scope(|scope| {
            scope.spawn(move || {
                for n in 1..=100 {
                    giver.atomically(|t| if t.read(0)? == 0 { t.write(0, n) } else { t.retry() }).unwrap();
                }
            });
            for n in 1..=100 {
                let got = taker.atomically(|t| match t.read(0)? {
                    0 => t.retry(),
                    there => t.write(0, 0).map(|()| there),
                });
                assert_eq!(got, Ok(n));
            }
        });
    }
}

/// Threads that come and go, more of them than callers.
#[test]
fn a_table_lends_callers() {
    for callers in callers() {
        let table = nekchhaul::Table::new(callers.into()).unwrap();
        thread::scope(|scope| {
            for _ in 0..8 {
                scope.spawn(|| {
                    let mut mine = loop {
                        match table.join() {
                            Err(Status::NONE_FREE) => thread::yield_now(),
                            joined => break joined.unwrap(),
                        }
                    };
                    for _ in 0..10 {
                        mine.atomically(|t| t.read(0).and_then(|n| t.write(0, n + 1))).unwrap();
                    }
                    table.part(&mut mine).unwrap();
                    assert_eq!(table.part(&mut mine).map_err(Status::number), Err(16));
                });
            }
        });
        let (mut one, mut other) = (table.join().unwrap(), table.join().unwrap());
        assert_eq!(table.join().err(), Some(Status::NONE_FREE));
        assert_eq!(one.peek(0), Ok(80));
        assert_eq!(one.peek(4), Err(Status::ADDRESS));
        one.take_range(0, 1).unwrap();
        assert_eq!(other.peek(0), Err(Status::FENCED));
        assert_eq!(table.part(&mut one), Err(Status::HOLDS_RANGE));
        table.part_for_dead(&mut one).unwrap();
        table.part(&mut other).unwrap();
    }
}
