//! A step as the twelve numbers of include/hyaloneth_wire.h: the kind byte, then the value of each tag's field at the tag's place.

use crate::model::{flag, Step};

pub use crate::engine::PLACES;

pub type Numbers = [u32; PLACES];

pub fn of_step(step: Step) -> Numbers {
    let mut numbers = [0; PLACES];
    let mut put = |kind: u32, places: &[(usize, u32)]| {
        numbers[0] = kind;
        for &(place, value) in places {
            numbers[place] = value;
        }
    };
    match step {
        Step::Load { component, block, word } => put(0x10, &[(1, component.into()), (2, block.into()), (3, word.into())]),
        Step::Store { component, block, word, value } => {
            put(0x11, &[(1, component.into()), (2, block.into()), (3, word.into()), (4, value)]);
        }
        Step::Send { component, block, target, plain, owner, data } => {
            put(0x12, &[(1, component.into()), (2, block.into()), (5, target.into())]);
            put(0x12, &[(6, plain.into()), (7, owner.into()), (8, data.into())]);
        }
        Step::Deliver { position } => put(0x13, &[(9, position.into())]),
        Step::Raise { component, block } => put(0x14, &[(1, component.into()), (2, block.into())]),
        Step::Lower { component, block } => put(0x15, &[(1, component.into()), (2, block.into())]),
        Step::Forward { component, block } => put(0x16, &[(1, component.into()), (2, block.into())]),
    }
    numbers
}

/// The step that numbers encode: none where a value is not one of its field, or a place that the kind does not have is not 0.
pub fn to_step(numbers: &[u32]) -> Option<Step> {
    let byte = |place: usize| numbers.get(place).and_then(|&number| u8::try_from(number).ok());
    let mark = |place: usize| byte(place).and_then(flag);
    let (component, block) = (byte(1), byte(2));
    let step = match numbers.first()? {
        0x10 => Step::Load { component: component?, block: block?, word: byte(3)? },
        0x11 => Step::Store { component: component?, block: block?, word: byte(3)?, value: *numbers.get(4)? },
        0x12 => Step::Send { component: component?, block: block?, target: byte(5)?, plain: byte(6)?, owner: mark(7)?, data: mark(8)? },
        0x13 => Step::Deliver { position: byte(9)? },
        0x14 => Step::Raise { component: component?, block: block? },
        0x15 => Step::Lower { component: component?, block: block? },
        0x16 => Step::Forward { component: component?, block: block? },
        _ => return None,
    };
    (numbers.get(..PLACES)? == of_step(step)).then_some(step)
}
