//! A plain host of threads, for `bench/host.py` to compare with: a lock and an inbox for each node of a token ring, and clients that add
//! to one counter. The ring is formed from the start and never changes: no gather, no recovery, no lost frames, no book and no
//! checks. What a call does is the same as in a host of the repository: it waits in its node's queue for the token, goes out in
//! a message of up to 16 calls to each other node, is ordered once the messages before it are there, takes effect once every node
//! holds it, by the least of what two visits of the token told, and is answered then. Frames go as bytes.
//!
//!     plain_host NODES DEPTH CALLS
//!
//! prints how many calls were answered, and the nanoseconds that it took.

use std::collections::VecDeque;
use std::sync::atomic::{AtomicBool, Ordering};
use std::sync::Mutex;
use std::thread;
use std::time::Instant;

const INBOX: usize = 1024;
const WINDOW: u64 = 256;
const MESSAGES_A_VISIT: usize = 8;
const CALLS_A_MESSAGE: usize = 16;

/// A client's call: add 1 under this number.
#[derive(Clone, Copy)]
struct Call {
    client: u32,
    number: u64,
}

/// What the ring hands on.
enum Frame {
    Message {
        seq: u64,
        sender: u8,
        calls: Vec<Call>,
    },
    Token {
        number: u64,
        seq: u64,
        aru: u64,
        holder: u8,
    },
}

impl Frame {
    fn spell(&self) -> Vec<u8> {
        let mut bytes = Vec::with_capacity(64);
        match self {
            Frame::Message { seq, sender, calls } => {
                bytes.push(1);
                bytes.extend(seq.to_be_bytes());
                bytes.push(*sender);
                bytes.push(calls.len() as u8);
                for call in calls {
                    bytes.extend(call.client.to_be_bytes());
                    bytes.extend(call.number.to_be_bytes());
                }
            }
            Frame::Token {
                number,
                seq,
                aru,
                holder,
            } => {
                bytes.push(2);
                bytes.extend(number.to_be_bytes());
                bytes.extend(seq.to_be_bytes());
                bytes.extend(aru.to_be_bytes());
                bytes.push(*holder);
            }
        }
        bytes
    }

    fn read(bytes: &[u8]) -> Option<Frame> {
        let word = |at: usize| Some(u64::from_be_bytes(bytes.get(at..at + 8)?.try_into().ok()?));
        match bytes.first()? {
            1 => {
                let count = usize::from(*bytes.get(10)?);
                let mut calls = Vec::with_capacity(count);
                for at in (0..count).map(|i| 11 + 12 * i) {
                    let client = u32::from_be_bytes(bytes.get(at..at + 4)?.try_into().ok()?);
                    calls.push(Call {
                        client,
                        number: word(at + 4)?,
                    });
                }
                Some(Frame::Message {
                    seq: word(1)?,
                    sender: *bytes.get(9)?,
                    calls,
                })
            }
            2 => Some(Frame::Token {
                number: word(1)?,
                seq: word(9)?,
                aru: word(17)?,
                holder: *bytes.get(25)?,
            }),
            _ => None,
        }
    }
}

/// A node. A ticket is a place among the calls that were submitted at it.
struct Node {
    me: u8,
    nodes: u8,
    queue: VecDeque<Call>,
    held: Vec<Option<(u8, Vec<Call>)>>,
    front: u64,
    safe: u64,
    last_aru: u64,
    last_token: u64,
    highest: u64,
    counter: u64,
    done: Vec<u64>,
    answers: Vec<Option<u64>>,
    next_answer: usize,
}

impl Node {
    fn new(me: u8, nodes: u8, clients: usize) -> Node {
        Node {
            me,
            nodes,
            queue: VecDeque::new(),
            held: (0..WINDOW).map(|_| None).collect(),
            front: 0,
            safe: 0,
            last_aru: 0,
            last_token: 0,
            highest: 0,
            counter: 0,
            done: vec![0; clients],
            answers: Vec::new(),
            next_answer: 0,
        }
    }

    fn submit(&mut self, call: Call) -> usize {
        self.queue.push_back(call);
        self.answers.push(None);
        self.answers.len() - 1
    }

    /// Holds a message under its number, if it is new.
    fn hold(&mut self, seq: u64, sender: u8, calls: Vec<Call>) {
        let slot = (seq % WINDOW) as usize;
        if seq <= self.safe || seq > self.safe + WINDOW || self.held[slot].is_some() {
            return;
        }
        self.held[slot] = Some((sender, calls));
        self.highest = self.highest.max(seq);
        while self.front < self.highest && self.held[((self.front + 1) % WINDOW) as usize].is_some()
        {
            self.front += 1;
        }
    }

    /// What is safe up to here takes effect, and own calls are answered.
    fn settle(&mut self, safe: u64) {
        while self.safe < safe {
            self.safe += 1;
            let Some((sender, calls)) = self.held[(self.safe % WINDOW) as usize].take() else {
                return;
            };
            for call in calls {
                if self.done[call.client as usize] < call.number {
                    self.done[call.client as usize] = call.number;
                    self.counter += 1;
                }
                if sender == self.me {
                    self.answers[self.next_answer] = Some(self.counter);
                    self.next_answer += 1;
                }
            }
        }
    }

    /// What a frame brings forth: each frame sent, and to whom; nobody stands for all others.
    fn step(&mut self, frame: Frame) -> Vec<(Option<u8>, Frame)> {
        match frame {
            Frame::Message { seq, sender, calls } => {
                self.hold(seq, sender, calls);
                Vec::new()
            }
            Frame::Token { number, .. } if number <= self.last_token => Vec::new(),
            Frame::Token {
                number,
                seq,
                aru,
                holder,
            } => self.visit(number, seq, aru, holder),
        }
    }

    fn visit(
        &mut self,
        number: u64,
        mut seq: u64,
        mut aru: u64,
        mut holder: u8,
    ) -> Vec<(Option<u8>, Frame)> {
        let mut sent = Vec::new();
        while sent.len() < MESSAGES_A_VISIT && !self.queue.is_empty() && seq < self.safe + WINDOW {
            seq += 1;
            let calls: Vec<Call> = self
                .queue
                .drain(..self.queue.len().min(CALLS_A_MESSAGE))
                .collect();
            self.hold(seq, self.me, calls.clone());
            sent.push((
                None,
                Frame::Message {
                    seq,
                    sender: self.me,
                    calls,
                },
            ));
        }
        if self.front < aru || holder == self.me || holder == 0 {
            aru = self.front;
            holder = if aru == seq { 0 } else { self.me };
        }
        self.last_token = number;
        let safe = aru.min(self.last_aru);
        self.last_aru = aru;
        self.settle(safe);
        let next = self.me % self.nodes + 1;
        sent.push((
            Some(next),
            Frame::Token {
                number: number + 1,
                seq,
                aru,
                holder,
            },
        ));
        sent
    }
}

/// Nodes behind locks, each with its inbox.
struct Host {
    nodes: Vec<Mutex<Node>>,
    inboxes: Vec<Mutex<VecDeque<Vec<u8>>>>,
    closed: AtomicBool,
}

impl Host {
    fn push(&self, to: usize, bytes: Vec<u8>) {
        let mut inbox = self.inboxes[to].lock().unwrap();
        if inbox.len() < INBOX {
            inbox.push_back(bytes);
        }
    }

    fn turn(&self, me: usize) {
        let Some(bytes) = self.inboxes[me].lock().unwrap().pop_front() else {
            thread::yield_now();
            return;
        };
        let Some(frame) = Frame::read(&bytes) else {
            return;
        };
        let sent = self.nodes[me].lock().unwrap().step(frame);
        for (to, frame) in sent {
            let bytes = frame.spell();
            match to {
                Some(to) => self.push(usize::from(to) - 1, bytes),
                None => (0..self.nodes.len())
                    .filter(|at| *at != me)
                    .for_each(|at| self.push(at, bytes.clone())),
            }
        }
    }

    /// Keeps calls in flight at a node until so many were answered.
    fn feed(&self, at: usize, depth: usize, calls: u64) -> u64 {
        let (mut open, mut number, mut answered) = (VecDeque::new(), 0, 0);
        while answered < calls {
            if number < calls && open.len() < depth {
                number += 1;
                let call = Call {
                    client: at as u32,
                    number,
                };
                open.push_back(self.nodes[at].lock().unwrap().submit(call));
            } else if open
                .front()
                .is_some_and(|ticket| self.nodes[at].lock().unwrap().answers[*ticket].is_some())
            {
                open.pop_front();
                answered += 1;
            } else {
                thread::yield_now();
            }
        }
        answered
    }
}

fn main() {
    let words: Vec<u64> = std::env::args()
        .skip(1)
        .map(|word| word.parse().expect("a number"))
        .collect();
    let (nodes, depth, calls) = (words[0] as usize, words[1] as usize, words[2]);
    let host = Host {
        nodes: (1..=nodes)
            .map(|me| Mutex::new(Node::new(me as u8, nodes as u8, nodes)))
            .collect(),
        inboxes: (0..nodes).map(|_| Mutex::new(VecDeque::new())).collect(),
        closed: AtomicBool::new(false),
    };
    host.push(
        0,
        Frame::Token {
            number: 1,
            seq: 0,
            aru: 0,
            holder: 0,
        }
        .spell(),
    );
    let begun = Instant::now();
    let answered: u64 = thread::scope(|scope| {
        for me in 0..nodes {
            let host = &host;
            scope.spawn(move || {
                while !host.closed.load(Ordering::SeqCst) {
                    host.turn(me);
                }
            });
        }
        let feeders: Vec<_> = (0..nodes)
            .map(|at| {
                let host = &host;
                scope.spawn(move || host.feed(at, depth, calls))
            })
            .collect();
        let answered = feeders
            .into_iter()
            .map(|feeder| feeder.join().unwrap())
            .sum();
        host.closed.store(true, Ordering::SeqCst);
        answered
    });
    println!("answered {answered} nanos {}", begun.elapsed().as_nanos());
}
