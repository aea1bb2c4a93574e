//! What stations are measured against, as plain Rust programs do it: one counter that several
//! threads add to, under a lock or by a channel to the thread that owns it; and Ricart and Agrawala's
//! algorithm over channels that lose nothing, which guards the counter, keeps no journal and proves
//! nothing. Usage: counter lock|channel|peer THREADS ADDITIONS
use std::env;
use std::sync::atomic::{AtomicU64, Ordering};
use std::sync::{Mutex, mpsc};
use std::thread;
use std::time::Instant;

fn under_a_lock(threads: u64, additions: u64) -> u64 {
    let counter = Mutex::new(0);
    thread::scope(|scope| {
        for _ in 0..threads {
            scope.spawn(|| {
                for _ in 0..additions {
                    *counter.lock().unwrap() += 1;
                }
            });
        }
    });
    counter.into_inner().unwrap()
}

/// Each addition is a letter to the owner, which replies, as a section ends before the next begins.
fn by_channel(threads: u64, additions: u64) -> u64 {
    let (to_owner, letters) = mpsc::channel::<mpsc::Sender<u64>>();
    thread::scope(|scope| {
        for _ in 0..threads {
            let to_owner = to_owner.clone();
            scope.spawn(move || {
                let (reply, replies) = mpsc::channel();
                for _ in 0..additions {
                    to_owner.send(reply.clone()).unwrap();
                    replies.recv().unwrap();
                }
            });
        }
        drop(to_owner);
        let mut counter = 0;
        for reply in letters {
            counter += 1;
            reply.send(counter).unwrap();
        }
        counter
    })
}

/// What nodes send one another: a request with its stamp, the permission that it asks for, and
/// that a node has all its sections.
enum Letter {
    Request { number: u64, from: usize },
    Reply,
    Done,
}

/// A node of Ricart and Agrawala's algorithm. A letter arrives once, and in order.
struct Node {
    me: usize,
    letters: mpsc::Receiver<Letter>,
    others: Vec<mpsc::Sender<Letter>>,
    greatest: u64,
    /// The number of its own request, while it has one.
    mine: Option<u64>,
    replies: usize,
    deferred: Vec<usize>,
    done: usize,
}

impl Node {
    fn send_all(&self, letter: impl Fn() -> Letter) {
        for (to, other) in self.others.iter().enumerate() {
            if to != self.me {
                other.send(letter()).unwrap();
            }
        }
    }

    /// Waits for one letter. A request older than its own gets its reply at once.
    fn take(&mut self) {
        match self.letters.recv().unwrap() {
            Letter::Request { number, from } => {
                self.greatest = self.greatest.max(number);
                if self.mine.is_some_and(|mine| (mine, self.me) < (number, from)) {
                    self.deferred.push(from);
                } else {
                    self.others[from].send(Letter::Reply).unwrap();
                }
            }
            Letter::Reply => self.replies += 1,
            Letter::Done => self.done += 1,
        }
    }

    fn enter(&mut self) {
        let (number, from) = (self.greatest + 1, self.me);
        self.greatest = number;
        self.mine = Some(number);
        self.replies = 0;
        self.send_all(|| Letter::Request { number, from });
        while self.replies < self.others.len() - 1 {
            self.take();
        }
    }

    fn leave(&mut self) {
        self.mine = None;
        for to in self.deferred.drain(..) {
            self.others[to].send(Letter::Reply).unwrap();
        }
    }

    /// Adds 1 in each section, by a look and a store that only exclusion keeps apart. It replies to
    /// the others until all have their sections.
    fn work(&mut self, counter: &AtomicU64, additions: u64) {
        for _ in 0..additions {
            self.enter();
            let seen = counter.load(Ordering::Relaxed);
            counter.store(seen + 1, Ordering::Relaxed);
            self.leave();
        }
        self.send_all(|| Letter::Done);
        while self.done < self.others.len() - 1 {
            self.take();
        }
    }
}

fn by_peers(nodes: u64, additions: u64) -> u64 {
    let counter = AtomicU64::new(0);
    let (others, letters): (Vec<_>, Vec<_>) = (0..nodes).map(|_| mpsc::channel()).unzip();
    thread::scope(|scope| {
        for (me, letters) in letters.into_iter().enumerate() {
            let (counter, others) = (&counter, others.clone());
            scope.spawn(move || {
                let (deferred, mine) = (Vec::new(), None);
                let mut node =
                    Node { me, letters, others, greatest: 0, mine, replies: 0, deferred, done: 0 };
                node.work(counter, additions);
            });
        }
    });
    counter.into_inner()
}

fn main() {
    let words: Vec<String> = env::args().skip(1).collect();
    let [way, threads, additions] = words.as_slice() else {
        panic!("usage: counter lock|channel|peer THREADS ADDITIONS");
    };
    let (threads, additions) = (threads.parse().unwrap(), additions.parse().unwrap());
    let begun = Instant::now();
    let counted = match way.as_str() {
        "lock" => under_a_lock(threads, additions),
        "channel" => by_channel(threads, additions),
        "peer" => by_peers(threads, additions),
        _ => panic!("counter: there is no way {}", way),
    };
    assert_eq!(counted, threads * additions);
    println!("{counted} {:.6}", begun.elapsed().as_secs_f64());
}
