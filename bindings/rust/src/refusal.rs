//! Why a rule, or a patch, is refused.

use std::{error, fmt};

/// Why a rule, or a patch, is refused; each with its number. With 1 to 8 nothing is written.
#[derive(Clone, Copy, Debug, PartialEq, Eq, Hash)]
#[repr(u32)]
pub enum Refusal {
    /// There are no nodes or more than 4,096, more than 8,192 list words, or bytes that are no whole records.
    Size = 1,
    /// The mode is none of 0 to 2, or the root is no node.
    Root = 2,
    /// A node's kind is above 14. Place: the node.
    Kind = 3,
    /// A boolean's or an operator's word is out of its range, or an unused word is not 0. Place: the node.
    Unused = 4,
    /// A number is NaN or minus zero. Place: the node.
    Number = 5,
    /// A node's part of the list is not inside the list, or a call has more than 255 arguments. Place: the node.
    List = 6,
    /// A node names one that is not lower than itself. Place: the node.
    Order = 7,
    /// There are more than 256 parameters.
    Parameters = 8,
    /// A name is no parameter. Place and span: the name.
    Undeclared = 9,
    /// All 256 registers are held.
    Registers = 10,
    /// An if has no else. Place and span: the if.
    Else = 11,
    /// A map's key without a value is no name. Place and span: the key.
    Key = 12,
    /// There is no room for an instruction, or 1,048,576 are made.
    Code = 13,
    /// There is no room for a constant.
    Constants = 14,
    /// An argument is marked before any instruction is made. Place and span: the call.
    Unmarked = 15,
    /// There is no room for a mark.
    Marks = 16,
    /// An argument's last instruction has no destination that can be moved. Place: the instruction.
    Destination = 17,
    /// An argument's register would be above 255. Place: the instruction.
    Sum = 18,
    /// Patching: that is no jump of the code.
    Jump = 19,
}

impl Refusal {
    /// All of them, from 1 on.
    pub const ALL: [Refusal; 19] = [
        Refusal::Size,
        Refusal::Root,
        Refusal::Kind,
        Refusal::Unused,
        Refusal::Number,
        Refusal::List,
        Refusal::Order,
        Refusal::Parameters,
        Refusal::Undeclared,
        Refusal::Registers,
        Refusal::Else,
        Refusal::Key,
        Refusal::Code,
        Refusal::Constants,
        Refusal::Unmarked,
        Refusal::Marks,
        Refusal::Destination,
        Refusal::Sum,
        Refusal::Jump,
    ];

    pub fn number(self) -> u32 {
        self as u32
    }

    /// None for 0, which is no refusal, and above 19.
    pub fn from_number(number: u32) -> Option<Refusal> {
        Refusal::ALL.get((number as usize).checked_sub(1)?).copied()
    }
}

impl fmt::Display for Refusal {
    fn fmt(&self, f: &mut fmt::Formatter<'_>) -> fmt::Result {
        f.write_str(match self {
            Refusal::Size => "too few or too many records, or bytes that are no whole ones",
            Refusal::Root => "the mode is none of 0 to 2, or the root is no node",
            Refusal::Kind => "a node's kind is above 14",
            Refusal::Unused => "a boolean or an operator is out of range, or an unused word is not 0",
            Refusal::Number => "a number is NaN or minus zero",
            Refusal::List => "a node's part of the list is not inside it, or a call has more than 255 arguments",
            Refusal::Order => "a node names one that is not lower than itself",
            Refusal::Parameters => "there are more than 256 parameters",
            Refusal::Undeclared => "a name is no parameter",
            Refusal::Registers => "all 256 registers are held",
            Refusal::Else => "an if has no else",
            Refusal::Key => "a map's key without a value is no name",
            Refusal::Code => "there is no room for an instruction, or 1,048,576 are made",
            Refusal::Constants => "there is no room for a constant",
            Refusal::Unmarked => "an argument is marked before any instruction is made",
            Refusal::Marks => "there is no room for a mark",
            Refusal::Destination => "an argument's last instruction has no destination that can be moved",
            Refusal::Sum => "an argument's register would be above 255",
            Refusal::Jump => "that is no jump of the code",
        })
    }
}

impl error::Error for Refusal {}
