//! Days run alone in plain Rust, over `std::collections::BinaryHeap`: what the library is timed against.
//! Written from docs/RULES.md alone.

use std::cmp::Reverse;
use std::collections::BinaryHeap;

/// time, receiver, sender, number: the order of messages
type Key = (u32, u8, u8, u32);

#[derive(Clone, Copy, PartialEq, Eq, PartialOrd, Ord)]
pub struct Message {
    pub key: Key,
    pub kind: u8,
    pub data: u32,
}

/// What a message is to a place.
#[derive(Clone, Copy)]
pub struct Arrival {
    pub time: u32,
    pub sender: u8,
    pub kind: u8,
    pub data: u32,
}

#[derive(Clone, Copy)]
pub struct Sent {
    pub receiver: u8,
    pub delay: u32,
    pub kind: u8,
    pub data: u32,
}

#[derive(Clone, Copy, Default)]
pub struct Place {
    pub words: [u32; 8],
    pub order: u32,
    pub sent: u32,
}

pub trait Model {
    fn places(&self) -> u8;
    fn start(&self, place: u8) -> [u32; 8];
    fn react(
        &self,
        place: u8,
        order: u32,
        words: &mut [u32; 8],
        arrival: Arrival,
    ) -> [Option<Sent>; 2];
}

pub struct Start {
    pub time: u32,
    pub receiver: u8,
    pub kind: u8,
    pub data: u32,
}

pub struct Day<M> {
    model: M,
    end: u32,
    places: Vec<Place>,
    waiting: BinaryHeap<Reverse<Message>>,
    pub journal: Vec<Message>,
}

impl<M: Model> Day<M> {
    /// With room for so many waiting messages and events.
    pub fn load(model: M, starts: &[Start], end: u32, held: usize, events: usize) -> Day<M> {
        let mut day = Day {
            places: (0..model.places())
                .map(|p| Place {
                    words: model.start(p),
                    ..Place::default()
                })
                .collect(),
            model,
            end,
            waiting: BinaryHeap::with_capacity(held),
            journal: Vec::with_capacity(events),
        };
        for (number, start) in starts.iter().enumerate() {
            day.waiting.push(Reverse(Message {
                key: (start.time, start.receiver, 255, number as u32),
                kind: start.kind,
                data: start.data,
            }));
        }
        day
    }

    pub fn order(&mut self, place: u8, order: u32) {
        self.places[usize::from(place)].order = order;
    }

    /// Whether there was a message to run.
    pub fn event(&mut self) -> bool {
        let Some(Reverse(message)) = self.waiting.pop() else {
            return false;
        };
        let (time, receiver, sender, _) = message.key;
        let place = &mut self.places[usize::from(receiver)];
        let arrival = Arrival {
            time,
            sender,
            kind: message.kind,
            data: message.data,
        };
        self.journal.push(message);
        let sends = self
            .model
            .react(receiver, place.order, &mut place.words, arrival);
        for sent in sends.into_iter().flatten() {
            let number = place.sent;
            place.sent += 1;
            let time = time + sent.delay;
            if time <= self.end {
                self.waiting.push(Reverse(Message {
                    key: (time, sent.receiver, receiver, number),
                    kind: sent.kind,
                    data: sent.data,
                }));
            }
        }
        true
    }

    /// The journal goes into a checksum, field by field.
    pub fn sum_up(&self, sum: u64) -> u64 {
        let mut sum = sum;
        for message in &self.journal {
            let (time, receiver, sender, number) = message.key;
            for field in [
                time,
                receiver.into(),
                sender.into(),
                number,
                message.kind.into(),
                message.data,
            ] {
                sum = sum
                    .wrapping_mul(1_099_511_628_211)
                    .wrapping_add(u64::from(field));
            }
        }
        sum
    }
}

const MODULUS: u64 = 2_147_483_647;

fn draw(x: u32) -> u32 {
    (16_807 * u64::from(x) % MODULUS) as u32
}

/// 16807 to the power 65,536 k.
fn multiplier(k: u32) -> u64 {
    let mut jump = 16_807;
    for _ in 0..16 {
        jump = jump * jump % MODULUS;
    }
    (0..k).fold(1, |m, _| m * jump % MODULUS)
}

#[derive(Clone, Copy)]
pub struct Phold {
    pub places: u8,
    pub seed: u32,
    pub replication: u8,
}

impl Model for Phold {
    fn places(&self) -> u8 {
        self.places
    }

    fn start(&self, place: u8) -> [u32; 8] {
        let stream = 32 * u32::from(self.replication) + u32::from(place);
        let first = u64::from(self.seed) * multiplier(stream) % MODULUS;
        [first as u32, 0, 0, 0, 0, 0, 0, 0]
    }

    fn react(
        &self,
        _place: u8,
        order: u32,
        words: &mut [u32; 8],
        arrival: Arrival,
    ) -> [Option<Sent>; 2] {
        let a = draw((u64::from(words[0]) % MODULUS) as u32);
        let b = draw(a);
        words[0] = b;
        words[1] = words[1].saturating_add(1);
        let sent = Sent {
            receiver: (a % u32::from(self.places)) as u8,
            delay: 1 + b % (100 * (1 + order % 256)),
            kind: 0,
            data: arrival.data,
        };
        [Some(sent), None]
    }
}

#[derive(Clone, Copy)]
pub struct Collection {
    pub farms: u8,
    pub tankers: u8,
}

const DRIVES: [u32; 10] = [600, 900, 900, 1200, 450, 1500, 1500, 750, 1050, 600];

const MILKED: u8 = 0;
const READY: u8 = 1;
const FREE: u8 = 2;
const GO: u8 = 3;
const PUMP: u8 = 4;
const LOADED: u8 = 5;
const UNLOAD: u8 = 6;
const EMPTIED: u8 = 7;

const NOTHING: [Option<Sent>; 2] = [None, None];

fn one(receiver: u8, delay: u32, kind: u8, data: u32) -> [Option<Sent>; 2] {
    [
        Some(Sent {
            receiver,
            delay,
            kind,
            data,
        }),
        None,
    ]
}

fn ignored(words: &mut [u32; 8], arrival: &Arrival) -> [Option<Sent>; 2] {
    if [MILKED, LOADED, UNLOAD].contains(&arrival.kind) {
        words[7] = words[7].saturating_add(arrival.data);
    }
    NOTHING
}

impl Collection {
    fn is_farm(&self, place: u32) -> bool {
        1 <= place && place <= u32::from(self.farms)
    }

    fn is_tanker(&self, place: u8) -> bool {
        place > self.farms && place <= self.farms + self.tankers
    }

    /// A waiting farm and a free tanker, if there are both, are sent to each other.
    fn dispatch(&self, order: u32, words: &mut [u32; 8]) -> [Option<Sent>; 2] {
        let mut chosen: Option<u8> = None;
        for farm in (1..=self.farms).filter(|farm| words[0] >> farm & 1 == 1) {
            let drive = |f: u8| DRIVES[usize::from(f) - 1];
            let better = match (chosen, order) {
                (None, _) => true,
                (Some(best), 1) => drive(farm) > drive(best),
                (Some(_), 2) => false,
                (Some(best), _) => drive(farm) < drive(best),
            };
            if better {
                chosen = Some(farm);
            }
        }
        let free = (1..=self.tankers).find(|tanker| words[1] >> tanker & 1 == 1);
        let (Some(farm), Some(tanker)) = (chosen, free) else {
            return NOTHING;
        };
        words[0] &= !(1 << farm);
        words[1] &= !(1 << tanker);
        one(self.farms + tanker, 1, GO, farm.into())
    }

    fn dairy(&self, order: u32, words: &mut [u32; 8], arrival: Arrival) -> [Option<Sent>; 2] {
        let from = arrival.sender;
        if arrival.kind == READY && self.is_farm(from.into()) {
            words[0] |= 1 << from;
            self.dispatch(order, words)
        } else if arrival.kind == FREE && self.is_tanker(from) {
            words[1] |= 1 << (from - self.farms);
            self.dispatch(order, words)
        } else if arrival.kind == UNLOAD && self.is_tanker(from) {
            let begins = words[2].max(arrival.time);
            let ends = begins.saturating_add(60 + arrival.data / 20);
            words[2] = ends;
            words[3] = words[3].saturating_add(arrival.data);
            one(from, (ends - arrival.time).clamp(1, 86_400), EMPTIED, 0)
        } else {
            ignored(words, &arrival)
        }
    }

    fn farm(&self, words: &mut [u32; 8], arrival: Arrival) -> [Option<Sent>; 2] {
        let ready = Sent {
            receiver: 0,
            delay: 1,
            kind: READY,
            data: 0,
        };
        if arrival.kind == MILKED && arrival.sender == 255 {
            words[0] = words[0].saturating_add(arrival.data);
            if words[1] != 0 {
                return NOTHING;
            }
            words[1] = 1;
            [Some(ready), None]
        } else if arrival.kind == PUMP && self.is_tanker(arrival.sender) {
            let load = words[0].min(20_000);
            words[0] -= load;
            words[1] = u32::from(words[0] > 0);
            let mut sends = one(arrival.sender, 1 + load / 10, LOADED, load);
            if words[0] > 0 {
                sends[1] = Some(ready);
            }
            sends
        } else {
            ignored(words, &arrival)
        }
    }

    fn tanker(&self, words: &mut [u32; 8], arrival: Arrival) -> [Option<Sent>; 2] {
        let drive = |farm: u32| DRIVES[farm as usize - 1];
        match (words[0], arrival.kind) {
            (0, GO) if arrival.sender == 0 && self.is_farm(arrival.data) => {
                words[0] = 1;
                words[1] = arrival.data;
                one(arrival.data as u8, drive(arrival.data), PUMP, 0)
            }
            (1, LOADED) if u32::from(arrival.sender) == words[1] && self.is_farm(words[1]) => {
                words[0] = 2;
                one(0, drive(words[1]), UNLOAD, arrival.data)
            }
            (2, EMPTIED) if arrival.sender == 0 => {
                words[0] = 0;
                one(0, 1, FREE, 0)
            }
            _ => ignored(words, &arrival),
        }
    }
}

impl Model for Collection {
    fn places(&self) -> u8 {
        1 + self.farms + self.tankers
    }

    fn start(&self, place: u8) -> [u32; 8] {
        let mut words = [0; 8];
        if place == 0 {
            words[1] = (1..=self.tankers).fold(0, |mask, tanker| mask | 1 << tanker);
        }
        words
    }

    fn react(
        &self,
        place: u8,
        order: u32,
        words: &mut [u32; 8],
        arrival: Arrival,
    ) -> [Option<Sent>; 2] {
        if place == 0 {
            self.dairy(order, words, arrival)
        } else if self.is_farm(place.into()) {
            self.farm(words, arrival)
        } else {
            self.tanker(words, arrival)
        }
    }
}
