//! Messages as trees, and the table that gives them numbers.
//!
//! Equal messages are one shared node: a pair of a pair of a pair, hundreds
//! deep and each of two equal halves, is a node for each layer and not a tree
//! of all its leaves. Two messages are equal exactly when they are the same
//! node, so comparing and hashing never walk down a tree.

use std::collections::{HashMap, HashSet};
use std::hash::{Hash, Hasher};
use std::rc::Rc;

pub const MAX_TERMS: usize = 512;
pub const MAX_NONCE_OR_KEY: u8 = 95;

/// A message: a shared node of a tree. It cannot be printed, since a deep one
/// would be endless as a tree.
#[derive(Clone)]
pub struct Message(Rc<Shape>);

/// What a message is, by the kinds 0 to 6 of the paper.
#[derive(Clone, PartialEq, Eq, Hash)]
pub enum Shape {
    Principal(u8),
    Time(u32),
    Nonce(u8),
    LongTermKey(u8),
    SessionKey(u8),
    Pair(Message, Message),
    /// A body locked under a key.
    Encrypted(Message, Message),
}

impl PartialEq for Message {
    fn eq(&self, other: &Message) -> bool {
        Rc::ptr_eq(&self.0, &other.0)
    }
}

impl Eq for Message {}

impl Hash for Message {
    fn hash<H: Hasher>(&self, state: &mut H) {
        Rc::as_ptr(&self.0).hash(state);
    }
}

/// How a message is taken apart, layer by layer.
impl Message {
    pub fn shape(&self) -> &Shape {
        &self.0
    }

    pub fn principal(&self) -> Option<u8> {
        match *self.shape() {
            Shape::Principal(p) => Some(p),
            _ => None,
        }
    }

    pub fn time(&self) -> Option<u32> {
        match *self.shape() {
            Shape::Time(t) => Some(t),
            _ => None,
        }
    }

    pub fn nonce(&self) -> Option<u8> {
        match *self.shape() {
            Shape::Nonce(i) => Some(i),
            _ => None,
        }
    }

    pub fn long_term_key(&self) -> Option<u8> {
        match *self.shape() {
            Shape::LongTermKey(p) => Some(p),
            _ => None,
        }
    }

    pub fn session_key(&self) -> Option<u8> {
        match *self.shape() {
            Shape::SessionKey(i) => Some(i),
            _ => None,
        }
    }

    pub fn pair(&self) -> Option<(&Message, &Message)> {
        match self.shape() {
            Shape::Pair(left, right) => Some((left, right)),
            _ => None,
        }
    }

    pub fn encrypted(&self) -> Option<(&Message, &Message)> {
        match self.shape() {
            Shape::Encrypted(body, key) => Some((body, key)),
            _ => None,
        }
    }

    /// The parts directly below, in the order in which they are added.
    fn parts(&self) -> Vec<&Message> {
        match self.shape() {
            Shape::Pair(first, second) | Shape::Encrypted(first, second) => vec![first, second],
            _ => vec![],
        }
    }
}

/// The term table, and the pool of all messages that were ever spoken of.
#[derive(Default)]
pub struct Terms {
    pool: HashMap<Shape, Message>,
    table: Vec<Message>,
    numbers: HashMap<Message, u16>,
}

impl Terms {
    /// The one message of this shape. Making it does not make it a term.
    pub fn make(&mut self, shape: Shape) -> Message {
        if let Some(message) = self.pool.get(&shape) {
            return message.clone();
        }
        let message = Message(Rc::new(shape.clone()));
        self.pool.insert(shape, message.clone());
        message
    }

    pub fn pair(&mut self, left: Message, right: Message) -> Message {
        self.make(Shape::Pair(left, right))
    }

    pub fn encrypt(&mut self, body: Message, key: Message) -> Message {
        self.make(Shape::Encrypted(body, key))
    }

    /// [p, q, .., r]: the pair of p and the pair of q and so on.
    pub fn list(&mut self, shapes: &[Shape]) -> Message {
        let mut messages: Vec<Message> = shapes.iter().map(|s| self.make(s.clone())).collect();
        let last = messages.pop().expect("a list has a last part");
        messages.into_iter().rev().fold(last, |rest, first| self.pair(first, rest))
    }

    pub fn count(&self) -> usize {
        self.table.len()
    }

    /// All terms, by rising number.
    pub fn present(&self) -> &[Message] {
        &self.table
    }

    pub fn at(&self, number: u16) -> Option<&Message> {
        self.table.get(usize::from(number))
    }

    pub fn number(&self, message: &Message) -> Option<u16> {
        self.numbers.get(message).copied()
    }

    /// The parts of the messages that are not terms yet, each once and in the
    /// order of adding: after its own parts, left before right, body before key.
    pub fn missing(&self, messages: &[Message]) -> Vec<Message> {
        let mut list = Vec::new();
        let mut seen = HashSet::new();
        for message in messages {
            self.list_missing(message, &mut list, &mut seen);
        }
        list
    }

    /// A term's parts are terms, so nothing below a term is missing; what was
    /// seen is not entered again, so the work is that of the distinct parts.
    fn list_missing(
        &self,
        message: &Message,
        list: &mut Vec<Message>,
        seen: &mut HashSet<Message>,
    ) {
        if self.numbers.contains_key(message) || !seen.insert(message.clone()) {
            return;
        }
        for part in message.parts() {
            self.list_missing(part, list, seen);
        }
        list.push(message.clone());
    }

    pub fn has_room_for(&self, new: usize) -> bool {
        self.count() + new <= MAX_TERMS
    }

    /// Makes terms of messages that `missing` listed.
    pub fn add(&mut self, missing: Vec<Message>) {
        for message in missing {
            self.numbers.insert(message.clone(), self.table.len() as u16);
            self.table.push(message);
        }
    }
}
