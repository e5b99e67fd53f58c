//! Stand-in for the visitors: only the block driver and signature computing call them.

use super::environment::Environment;
use super::{InstructionValue, Place, Terminal};

pub fn each_instruction_value_operand(_: &InstructionValue<'_>, _: &Environment<'_>) -> Vec<Place> {
    unreachable!("operands belong to the block driver")
}

pub fn each_terminal_operand(_: &Terminal<'_>) -> Vec<Place> {
    unreachable!("operands belong to the block driver")
}
