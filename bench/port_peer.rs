//! The same round trips over channels of Rust's own library and, where it is there, of `crossbeam`: a channel to the server
//! that all clients share, and one back to each. `waits` takes by `recv`, which sleeps where nothing comes; `yields` looks
//! and yields until something does.
use std::sync::mpsc;
use std::thread;
use std::time::Instant;

const TRIPS: u64 = 100_000;

macro_rules! round_trips {
    ($name:ident, $open:expr, $open_bounded:expr, $receiver:ident, $empty:path) => {
        mod $name {
            use super::*;

            fn take<T>(from: &$receiver<T>, yields: bool) -> Option<T> {
                if !yields {
                    return from.recv().ok();
                }
                loop {
                    match from.try_recv() {
                        Ok(got) => return Some(got),
                        Err($empty) => thread::yield_now(),
                        Err(_) => return None,
                    }
                }
            }

            pub fn trips_a_second(clients: usize, yields: bool) -> u64 {
                let (to_server, packets) = $open;
                let mut replies = Vec::new();
                let mut threads = Vec::new();
                let start = Instant::now();
                for client in 0..clients {
                    let (to_client, mine) = $open_bounded;
                    let to_server = to_server.clone();
                    replies.push((to_client, 0u64));
                    threads.push(thread::spawn(move || {
                        let mut right = 0u64;
                        for number in 1..=TRIPS {
                            to_server.send((client, number)).unwrap();
                            if take(&mine, yields) == Some((number, number)) {
                                right += 1;
                            }
                        }
                        right
                    }));
                }
                drop(to_server);
                while let Some((client, number)) = take(&packets, yields) {
                    let (to_client, count) = &mut replies[client];
                    *count += 1;
                    to_client.send((*count, number)).unwrap();
                }
                let trips: u64 = threads.into_iter().map(|it| it.join().unwrap()).sum();
                (u128::from(trips) * 1_000_000 / start.elapsed().as_micros().max(1)) as u64
            }
        }
    };
}

use mpsc::Receiver as OwnReceiver;
round_trips!(own, mpsc::channel::<(usize, u64)>(), mpsc::sync_channel::<(u64, u64)>(8), OwnReceiver, mpsc::TryRecvError::Empty);

#[cfg(crossbeam)]
use crossbeam_channel::Receiver as CrossbeamReceiver;
#[cfg(crossbeam)]
round_trips!(
    crossbeam,
    crossbeam_channel::unbounded::<(usize, u64)>(),
    crossbeam_channel::bounded::<(u64, u64)>(8),
    CrossbeamReceiver,
    crossbeam_channel::TryRecvError::Empty
);

fn main() {
    for clients in [1, 2, 4, 8] {
        for (how, yields) in [("waits", false), ("yields", true)] {
            println!("own-{how} {clients} {}", own::trips_a_second(clients, yields));
            #[cfg(crossbeam)]
            println!("crossbeam-{how} {clients} {}", crossbeam::trips_a_second(clients, yields));
        }
    }
}
