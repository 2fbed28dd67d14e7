//! The objects of document 01, with the channels of T-02 and the windows of T-04: their kinds, their ops and what each op
//! does.

#[derive(Clone, Copy, PartialEq, Eq, Debug)]
pub enum Kind {
    Register,
    Queue,
    Stack,
    Window,
    Channel,
}

pub const KINDS: [(Kind, &str); 5] = [
    (Kind::Register, "register"),
    (Kind::Queue, "queue"),
    (Kind::Stack, "stack"),
    (Kind::Window, "window"),
    (Kind::Channel, "channel"),
];

#[derive(Clone, Copy, PartialEq, Eq, Debug)]
pub enum Op {
    Write,
    Read,
    Push,
    Pop,
    Peek,
}

pub const OPS: [(Op, &str); 5] =
    [(Op::Write, "write"), (Op::Read, "read"), (Op::Push, "push"), (Op::Pop, "pop"), (Op::Peek, "peek")];

/// An object; the width is there for windows and channels only. A channel's is its capacity.
#[derive(Clone, Copy, PartialEq, Eq, Debug)]
pub struct Object {
    pub kind: Kind,
    pub width: Option<usize>,
}

/// The values that an object holds, the oldest first.
pub type State = Vec<u64>;

impl Kind {
    pub fn word(self) -> &'static str {
        KINDS.iter().find(|pair| pair.0 == self).expect("every kind has a word").1
    }

    /// Does the kind have this op?
    pub fn has(self, op: Op) -> bool {
        match self {
            Kind::Register | Kind::Window => matches!(op, Op::Write | Op::Read),
            Kind::Queue | Kind::Stack | Kind::Channel => matches!(op, Op::Push | Op::Pop | Op::Peek),
        }
    }

    /// Does a number stand in the width field? It is a window's width or a channel's capacity.
    pub fn has_width(self) -> bool {
        matches!(self, Kind::Window | Kind::Channel)
    }
}

impl Op {
    pub fn word(self) -> &'static str {
        OPS.iter().find(|pair| pair.0 == self).expect("every op has a word").1
    }

    /// write and push take a value; read, pop and peek take none.
    pub fn takes_value(self) -> bool {
        matches!(self, Op::Write | Op::Push)
    }
}

impl Object {
    /// A register starts at 0; a queue, a stack, a channel and a window start empty.
    pub fn start(&self) -> State {
        match self.kind {
            Kind::Register => vec![0],
            Kind::Queue | Kind::Stack | Kind::Window | Kind::Channel => vec![],
        }
    }

    /// How many of the values written to it are read: the last k of a window, the last one of a register.
    pub fn reads(&self) -> usize {
        match self.kind {
            Kind::Window => self.width.expect("a window has a width"),
            _ => 1,
        }
    }

    /// How many values a channel holds at most.
    pub fn capacity(&self) -> usize {
        self.width.expect("a channel has a capacity")
    }

    /// The lengths of the answers that the op can give.
    pub fn answer_lengths(&self, op: Op) -> Vec<usize> {
        match (op, self.kind) {
            // A push onto a channel that is full answers the pushed value.
            (Op::Push, Kind::Channel) => vec![0, 1],
            (Op::Write | Op::Push, _) => vec![0],
            // A window of width k answers all values written to it while there are fewer than k.
            (Op::Read, Kind::Window) => (0..=self.reads()).collect(),
            (Op::Read, _) => vec![1],
            (Op::Pop | Op::Peek, _) => vec![0, 1],
        }
    }
}

/// What the objects do. A wrong checker overrides one of these; the defaults are those of the documents.
pub trait ObjectRules {
    /// What the object holds at first.
    fn start(&self, object: &Object) -> State {
        object.start()
    }

    /// How many of the values written to a register or a window are read.
    fn reads(&self, object: &Object) -> usize {
        object.reads()
    }

    /// Is it a channel with no slot left? The last slot is usable.
    fn full(&self, object: &Object, state: &State) -> bool {
        object.kind == Kind::Channel && state.len() >= object.capacity()
    }

    /// The op changes the state and gives its answer.
    fn act(&self, object: &Object, state: &mut State, op: Op, value: Option<u64>) -> Vec<u64> {
        match op {
            Op::Write => {
                state.push(value.expect("a write has a value"));
                // What is no longer among the last values is dropped.
                while state.len() > self.reads(object) {
                    state.remove(0);
                }
                vec![]
            }
            Op::Read => state.clone(),
            // A push onto a full channel changes nothing and answers the pushed value.
            Op::Push if self.full(object, state) => vec![value.expect("a push has a value")],
            Op::Push => {
                state.push(value.expect("a push has a value"));
                vec![]
            }
            Op::Pop | Op::Peek if state.is_empty() => vec![],
            Op::Pop | Op::Peek => {
                // A stack gives its newest value, a queue and a channel their oldest.
                let place = if object.kind == Kind::Stack { state.len() - 1 } else { 0 };
                let answer = vec![state[place]];
                if op == Op::Pop {
                    state.remove(place);
                }
                answer
            }
        }
    }
}
