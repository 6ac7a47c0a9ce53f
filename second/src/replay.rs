//! Replay: a long sequence of calls that another program can make too, told by digests.
//!
//! All numbers come from one state x, which starts as the seed and stays below 2^32:
//!
//! ```text
//! draw(n), for n of 1..65536:   x := (x * 1664525 + 1013904223) mod 2^32
//!                               the number drawn is (x / 65536) mod n
//! pair:                         v := draw(2 * M), badge = v / 32, floor = v mod 32;
//!                               floor 31 becomes 4294967295;
//!                               v = 2 * M - 1 is (4294967295, 4294967295)
//! ```
//!
//! Start: all words of the store are 0; it is formatted; word j of the work area is j; the
//! mode is filling. A call is made so, with its draws in this order:
//!
//! ```text
//! c := draw(64)
//! c of 0..43    the pair; put if filling, else drop
//! c of 44..51   the pair; drop if filling, else put
//! c of 52..60   the pair; ask, then why of the same pair: two calls that count as one
//! c = 61        the pair; put, lent the work area without its last word
//! c = 62        the first pair, the second pair, n := draw(50);
//!               list into n words, word j of which is 1000 + j
//! c = 63        check
//! ```
//!
//! After the call:
//! 1. The digest of replies (see `digest`) is given the reply number, then its values: of an
//!    accepted ask held and level, why its 22 words, put and drop live, deepest, pages and the
//!    four counts, list pairs and mark, format and check 0; of a refusal three: level, page and
//!    slot for 10 to 14, else zeros. After a list it is given the slice's n words. It starts with
//!    the first format.
//! 2. After a put with reply 4: if draw(4) = 0, the mode is draining. After an accepted drop
//!    that leaves live at most M / 4 (rounded down) it is filling.
//! 3. If this is the last call, or the calls so far are a multiple of the interval, a line
//!    `calls C live L store D work D replies D` is printed: C calls so far, L word 3 of the
//!    store, and the digests of all words of the store, of all words of the work area, and of
//!    the replies so far, in 16 hexadecimal digits.
//! 4. If the call merged (accepted put or drop, deepest above 0), word j of the work area is j
//!    again.
//!
//! With damage D the calls come in rounds of D + 8. At the beginning of each round (the first
//! too) start anew as above, x and the digest of replies going on. After D calls of a round
//! two words of the store are damaged, one after the other:
//!
//! ```text
//! draw(2) = 0:  at := draw(9 + 3 * (H + Pg(1)))
//! else          a := draw(65536), b := draw(65536), at := (a * 65536 + b) mod the store's words
//! draw(6) = 0:  one more, modulo 2^32       1:  one less, modulo 2^32
//!           2:  4294967295                  3:  0
//!           4:  draw(100)                   5:  word (at + 3) mod the store's words
//! ```

use crate::call::numbered;
use crate::calls::{self, Reply, FULL};
use crate::digest::Digest;
use crate::geometry::{Geometry, HEAD_SLOTS, ONES, SLOT_WORDS};
use crate::reading;
use crate::slot::{Pair, GREATEST};
use crate::variant::Variant;

/// The calls of a round that are made on a damaged store.
const DAMAGED_CALLS: usize = 8;

/// A replay between two calls.
pub struct Replay {
    variant: Variant,
    geometry: Geometry,
    damage: Option<usize>,
    x: u64,
    filling: bool,
    calls: usize,
    store: Vec<u32>,
    work: Vec<u32>,
    replies: Digest,
}

impl Replay {
    /// A replay before its first call.
    pub fn new(variant: Variant, geometry: Geometry, seed: u32, damage: Option<usize>) -> Replay {
        let mut replay = Replay {
            variant,
            geometry,
            damage,
            x: u64::from(seed),
            filling: true,
            calls: 0,
            store: Vec::new(),
            work: Vec::new(),
            replies: Digest::new(),
        };
        if damage.is_none() {
            replay.start();
        }
        replay
    }

    /// Makes so many calls and gives the lines printed.
    pub fn lines(mut self, calls: usize, interval: usize) -> Vec<String> {
        let mut lines = Vec::new();
        while self.calls < calls {
            self.step();
            if self.calls == calls || self.calls.is_multiple_of(interval.max(1)) {
                lines.push(self.line());
            }
        }
        lines
    }

    /// The first call after which two replays differ in a word or a reply, if one of these does.
    pub fn first_difference(mut self, mut other: Replay, calls: usize) -> Option<usize> {
        while self.calls < calls {
            for replay in [&mut self, &mut other] {
                replay.step();
            }
            let same = self.store == other.store
                && self.work == other.work
                && self.replies == other.replies;
            if !same {
                return Some(self.calls);
            }
        }
        None
    }

    /// Makes the next call, with what comes before it.
    pub fn step(&mut self) -> Reply {
        self.prepare();
        self.call()
    }

    /// The store as it stands.
    pub fn store(&self) -> &[u32] {
        &self.store
    }

    /// What comes before a call: a fresh work area, a new round, or damage.
    fn prepare(&mut self) {
        if self.work.first() == Some(&ONES) {
            self.work = numbered(0, self.work.len());
        }
        if let Some(damage) = self.damage {
            let place = self.calls % (damage + DAMAGED_CALLS);
            if place == 0 {
                self.start();
            }
            if place == damage {
                self.damage_word();
                self.damage_word();
            }
        }
    }

    /// Starts anew: a formatted store, a numbered work area, filling.
    fn start(&mut self) {
        let [head, ratio, levels] = self.geometry.words();
        self.store = vec![0; self.geometry.store_words()];
        self.work = numbered(0, self.geometry.work_words());
        self.filling = true;
        let reply = calls::format(self.variant, &mut self.store, head, ratio, levels);
        self.note(reply);
    }

    /// Makes one call.
    fn call(&mut self) -> Reply {
        self.calls += 1;
        match self.draw(64) {
            0..44 if self.filling => self.put(0),
            0..44 => self.drop(),
            44..52 if self.filling => self.drop(),
            44..52 => self.put(0),
            52..61 => self.ask(),
            61 => self.put(1),
            62 => self.list(),
            _ => {
                let reply = calls::check(self.variant, &self.store);
                self.note(reply)
            }
        }
    }

    /// Puts a pair, lent the work area without so many of its last words.
    fn put(&mut self, short: usize) -> Reply {
        let pair = self.pair();
        let lent = self.work.len() - short;
        let work = &mut self.work[..lent];
        let reply = calls::put(self.variant, &mut self.store, work, pair);
        let reply = self.note(reply);
        if reply.number == FULL && self.draw(4) == 0 {
            self.filling = false;
        }
        reply
    }

    /// Drops a pair.
    fn drop(&mut self) -> Reply {
        let pair = self.pair();
        let reply = calls::drop(self.variant, &mut self.store, &mut self.work, pair);
        if reply.number == 0 && reply.values[0] as usize <= self.geometry.most() / 4 {
            self.filling = true;
        }
        self.note(reply)
    }

    /// Asks for a pair, and why the answer is as it is.
    fn ask(&mut self) -> Reply {
        let pair = self.pair();
        let reply = calls::ask(self.variant, &self.store, pair);
        self.note(reply);
        let reply = calls::why(self.variant, &self.store, pair);
        self.note(reply)
    }

    /// Lists from one pair to another.
    fn list(&mut self) -> Reply {
        let (first, last) = (self.pair(), self.pair());
        let mut slice = numbered(1000, self.draw(50) as usize);
        let reply = calls::list(self.variant, &self.store, first, last, &mut slice);
        let reply = self.note(reply);
        self.replies.add(&slice);
        reply
    }

    /// Gives a reply to the digest of replies, and hands it on.
    fn note(&mut self, reply: Reply) -> Reply {
        self.replies.add(&[reply.number]);
        self.replies.add(&reply.values);
        reply
    }

    /// Damages one word of the store.
    fn damage_word(&mut self) {
        let words = self.store.len();
        let at = if self.draw(2) == 0 {
            self.draw((HEAD_SLOTS + SLOT_WORDS * self.geometry.head_room()) as u64) as usize
        } else {
            (self.draw(65536) * 65536 + self.draw(65536)) as usize % words
        };
        self.store[at] = match self.draw(6) {
            0 => self.store[at].wrapping_add(1),
            1 => self.store[at].wrapping_sub(1),
            2 => ONES,
            3 => 0,
            4 => self.draw(100) as u32,
            _ => self.store[(at + 3) % words],
        };
    }

    /// The next number drawn, below n.
    fn draw(&mut self, n: u64) -> u64 {
        self.x = (self.x * 1_664_525 + 1_013_904_223) % (1 << 32);
        self.x / 65536 % n
    }

    /// The next pair drawn.
    fn pair(&mut self) -> Pair {
        let space = 2 * self.geometry.most() as u64;
        let v = self.draw(space);
        if v == space - 1 {
            return GREATEST;
        }
        let floor = match v % 32 {
            31 => u32::MAX,
            floor => floor as u32,
        };
        Pair {
            badge: (v / 32) as u32,
            floor,
        }
    }

    /// The line printed after a call.
    fn line(&self) -> String {
        format!(
            "calls {} live {} store {} work {} replies {}",
            self.calls,
            reading::live(&self.store),
            Digest::of(&self.store),
            Digest::of(&self.work),
            self.replies,
        )
    }
}
