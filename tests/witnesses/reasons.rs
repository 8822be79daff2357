// Reasons of refusals, by which cases name them.
use super::Reason;

pub const REASONS: [Reason; 18] = [
    Reason::TooLong,
    Reason::NotEnded,
    Reason::Shape,
    Reason::Name,
    Reason::Number,
    Reason::Range,
    Reason::Marks,
    Reason::Order,
    Reason::KnownName,
    Reason::TooManyTasks,
    Reason::NoTask,
    Reason::Method,
    Reason::Position,
    Reason::ShortBuffer,
    Reason::OtherTask,
    Reason::TooManyAccesses,
    Reason::Blocking,
    Reason::NoText,
];
