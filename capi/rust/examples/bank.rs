//! The bank in Rust.
use nekchhaul::{open, Algorithm, Caller, Sizes};
use std::thread;

const ACCOUNTS: usize = 64;
const BALANCE: u64 = 1000;

fn trade(mut mine: Caller, mut x: u64) {
    for _ in 0..30_000 {
        x ^= x << 13;
        x ^= x >> 7;
        x ^= x << 17;
        let from = x as usize % ACCOUNTS;
        let to = (from + 1 + (x >> 20) as usize % (ACCOUNTS - 1)) % ACCOUNTS;
        let amount = (x >> 40) % 100;
        mine.atomically(|t| {
            let (payer, payee) = (t.read(from)?, t.read(to)?);
            if payer >= amount {
                t.write(from, payer - amount)?;
                t.write(to, payee + amount)?;
            }
            Ok(())
        })
        .unwrap();
    }
}

fn main() {
    for (n, algorithm) in Algorithm::ALL.into_iter().enumerate() {
        let sizes = Sizes { words: ACCOUNTS, records: 64, ring: 64, reads: 128, writes: 64, clock: 0 };
        let mut callers = open(&sizes, algorithm, 4).unwrap();
        let mut auditor = callers.pop().unwrap();
        auditor.atomically(|t| (0..ACCOUNTS).try_for_each(|i| t.write(i, BALANCE))).unwrap();
        for trader in &mut callers {
            trader.learn(&mut auditor).unwrap();
        }
        let all: Vec<usize> = (0..ACCOUNTS).collect();
        let mut balances = [0; ACCOUNTS];
        thread::scope(|scope| {
            for (i, mine) in callers.drain(..).enumerate() {
                scope.spawn(move || trade(mine, 88172645463325252 + i as u64));
            }
            for i in 0..1000 {
                auditor.atomically(|t| t.read_many(&all, &mut balances)).unwrap();
                assert_eq!(balances.iter().sum::<u64>(), ACCOUNTS as u64 * BALANCE);
                if i % 64 == 0 {
                    auditor.install(Algorithm::ALL[(n + i / 64 + 1) % 6]).unwrap();
                }
            }
        });
        assert_eq!(auditor.close(ACCOUNTS).unwrap().iter().sum::<u64>(), ACCOUNTS as u64 * BALANCE);
    }
}
