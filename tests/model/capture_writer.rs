//! Captures, written from what they hold: sound ones, and those with a wrong body in place of a
//! frame's or a group's.

use crate::captures::Body;
use crate::frames::coded_length;

const ENTRY_SIZE: usize = 8;

/// What an entry of a section stands for.
#[derive(Clone, Debug, PartialEq, Eq)]
pub enum Item {
    Frame(Frame),
    Group(Vec<Item>),
    /// A body of any bytes, under a kind.
    Body(u8, Vec<u8>),
}

/// The data is of the coded length.
#[derive(Clone, Debug, PartialEq, Eq)]
pub struct Frame {
    pub identifier: u32,
    pub code: u32,
    pub nonce: [u8; 12],
    pub data: Vec<u8>,
}

/// What a field of a capture is.
#[derive(Clone, Copy, Debug, PartialEq, Eq)]
pub enum Field {
    Count,
    Kind,
    Length,
    Offset,
    Identifier,
    Code,
    Nonce,
    Data,
    Body,
}

/// A capture, the bodies of its frames in walking order, and its fields with their places.
#[derive(Clone, Default)]
pub struct Written {
    pub bytes: Vec<u8>,
    pub frames: Vec<Body>,
    pub fields: Vec<(Field, Body)>,
}

impl Item {
    /// The length of the body.
    pub fn size(&self) -> usize {
        match self {
            Item::Frame(frame) => 17 + frame.data.len(),
            Item::Group(items) => section_size(items),
            Item::Body(_, bytes) => bytes.len(),
        }
    }

    /// The bytes of the body.
    pub fn body(&self) -> Vec<u8> {
        let mut written = Written::default();
        written.body(self);
        written.bytes
    }

    fn kind(&self) -> u8 {
        match self {
            Item::Frame(_) => 0,
            Item::Group(_) => 1,
            Item::Body(kind, _) => *kind,
        }
    }
}

impl Frame {
    /// A frame of zeros.
    pub fn blank(code: u32) -> Frame {
        Frame {
            identifier: 0,
            code,
            nonce: [0; 12],
            data: vec![0; coded_length(code).expect("a length code")],
        }
    }
}

pub fn section_size(items: &[Item]) -> usize {
    let bodies: usize = items.iter().map(Item::size).sum();
    2 + ENTRY_SIZE * items.len() + bodies
}

/// The capture whose outermost section holds these.
pub fn write(items: &[Item]) -> Written {
    let mut written = Written::default();
    written.section(items);
    written
}

impl Written {
    fn section(&mut self, items: &[Item]) {
        let mut offset = 2 + ENTRY_SIZE * items.len();
        self.number(Field::Count, items.len(), 2);
        for item in items {
            self.number(Field::Kind, item.kind().into(), 1);
            self.number(Field::Length, item.size(), 3);
            self.number(Field::Offset, offset, 4);
            offset += item.size();
        }
        for item in items {
            self.body(item);
        }
    }

    fn body(&mut self, item: &Item) {
        match item {
            Item::Frame(frame) => self.frame(frame),
            Item::Group(items) => self.section(items),
            Item::Body(_, bytes) => self.field(Field::Body, bytes),
        }
    }

    fn frame(&mut self, frame: &Frame) {
        let place = self.bytes.len();
        self.number(Field::Identifier, frame.identifier as usize, 4);
        self.number(Field::Code, frame.code as usize, 1);
        self.field(Field::Nonce, &frame.nonce);
        self.field(Field::Data, &frame.data);
        let size = self.bytes.len() - place;
        self.frames.push(Body { place, size });
    }

    fn number(&mut self, field: Field, number: usize, size: usize) {
        let bytes = number.to_be_bytes();
        self.field(field, &bytes[bytes.len() - size..]);
    }

    fn field(&mut self, field: Field, bytes: &[u8]) {
        let place = self.bytes.len();
        let size = bytes.len();
        self.fields.push((field, Body { place, size }));
        self.bytes.extend(bytes);
    }
}
