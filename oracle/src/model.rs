//! Document 01 as a short program: what the lowering answers for every input. It follows the document's words and the
//! readings of its open points. From kaori it takes what the document leaves there: the order of the instructions and
//! the destinations that `patch_arguments` lists.

use crate::tree::{ABSENT, Answer, Input, MOST_ARGUMENTS, MOST_INSTRUCTIONS, MOST_LIST_WORDS, MOST_NODES};
use crate::tree::{
    CONSTANT_WORDS, INSTRUCTION_WORDS, MARK_WORDS, MOST_PARAMETERS, NODE_WORDS, Node, kind, operator, words,
};

/// Numbers of the questions, by what is wrong when the answer is no.
pub mod number {
    pub const ACCEPTED: u32 = 0;
    pub const SIZES: u32 = 1;
    pub const MODE_OR_ROOT: u32 = 2;
    pub const KIND: u32 = 3;
    pub const WORDS: u32 = 4;
    pub const NUMBER: u32 = 5;
    pub const LIST_PART: u32 = 6;
    pub const NODE_ORDER: u32 = 7;
    pub const PARAMETERS: u32 = 8;
    pub const UNDECLARED: u32 = 9;
    pub const NO_REGISTER: u32 = 10;
    pub const NO_ELSE: u32 = 11;
    pub const KEY_WITHOUT_VALUE: u32 = 12;
    pub const CODE_FULL: u32 = 13;
    pub const CONSTANTS_FULL: u32 = 14;
    pub const NOTHING_TO_MARK: u32 = 15;
    pub const MARKS_FULL: u32 = 16;
    pub const NO_DESTINATION: u32 = 17;
    pub const REGISTER_TOO_HIGH: u32 = 18;
    pub const NO_JUMP: u32 = 19;
}

/// Instruction kinds that the model writes.
mod code {
    pub const NOT: u32 = 23;
    pub const NEGATE: u32 = 24;
    pub const MOVE: u32 = 25;
    pub const LOAD_CONST: u32 = 26;
    pub const CREATE_MAP: u32 = 27;
    pub const SET_PROPERTY: u32 = 28;
    pub const SET_PROPERTY_RK: u32 = 29;
    pub const SET_PROPERTY_KR: u32 = 30;
    pub const SET_PROPERTY_KK: u32 = 31;
    pub const GET_PROPERTY_K: u32 = 33;
    pub const DEREF: u32 = 38;
    pub const CALL: u32 = 39;
    pub const RETURN: u32 = 40;
    pub const JUMP: u32 = 41;
    pub const JUMP_IF_FALSE: u32 = 42;
    pub const JUMP_IF_TRUE: u32 = 43;
    pub const LAST_JUMP: u32 = 53;
}

/// Kinds of one operation: two registers, register and constant, constant and register (0: goes the other way round).
type Shapes = [u32; 3];

/// Instruction of a value, by operator; those of greater are never asked for.
const VALUES: [Shapes; 11] = [
    [0, 1, 0],
    [2, 3, 4],
    [5, 6, 0],
    [7, 8, 9],
    [10, 11, 12],
    [13, 14, 0],
    [15, 16, 0],
    [0, 0, 0],
    [0, 0, 0],
    [17, 18, 19],
    [20, 21, 22],
];

/// Fused jump that is taken when the comparison holds.
fn fused(comparison: u32) -> Shapes {
    match comparison {
        operator::LESS => [44, 45, 46],
        operator::LESS_EQUAL => [47, 48, 49],
        operator::EQUAL => [50, 51, 0],
        _ => [52, 53, 0],
    }
}

/// The comparison that holds when this one does not, as long as no operand is NaN.
fn opposite(comparison: u32) -> u32 {
    match comparison {
        operator::EQUAL => operator::NOT_EQUAL,
        operator::NOT_EQUAL => operator::EQUAL,
        operator::LESS => operator::GREATER_EQUAL,
        operator::LESS_EQUAL => operator::GREATER,
        operator::GREATER => operator::LESS_EQUAL,
        _ => operator::LESS,
    }
}

/// Whether `patch_arguments` lists the kind as one with a destination.
fn has_listed_destination(kind: u32) -> bool {
    matches!(kind, 0..=27 | 32 | 35 | 36 | 38 | 39)
}

/// The word of a jump that holds its offset.
fn offset_word(kind: u32) -> usize {
    match kind {
        code::JUMP => 1,
        code::JUMP_IF_FALSE | code::JUMP_IF_TRUE => 2,
        _ => 3,
    }
}

#[derive(Clone, Copy)]
struct Register {
    index: u32,
    /// Taken for an intermediate value, so that it is given back; a parameter or an argument's local is not.
    temporary: bool,
}

#[derive(Clone, Copy)]
enum Operand {
    Register(Register),
    /// A constant record that is not pooled yet.
    Literal([u32; CONSTANT_WORDS]),
}

/// An operand as an instruction names it.
#[derive(Clone, Copy)]
enum Field {
    Register(u32),
    Constant(u32),
}

struct Refusal {
    number: u32,
    place: u32,
    span: [u32; 2],
}

type Step<T> = Result<T, Refusal>;

fn refused<T>(number: u32, place: u32) -> Step<T> {
    Err(Refusal { number, place, span: [0, 0] })
}

/// A buffer of records, with the number made so far.
struct Buffer {
    bytes: Vec<u8>,
    width: usize,
    count: usize,
}

impl Buffer {
    fn new(bytes: &[u8], width: usize) -> Buffer {
        Buffer { bytes: bytes.to_vec(), width, count: 0 }
    }

    fn records(&self) -> usize {
        self.bytes.len() / (4 * self.width)
    }

    fn word(&self, record: usize, word: usize) -> u32 {
        let at = 4 * (record * self.width + word);
        u32::from_le_bytes(self.bytes[at..at + 4].try_into().unwrap())
    }

    fn put(&mut self, record: usize, word: usize, value: u32) {
        let at = 4 * (record * self.width + word);
        self.bytes[at..at + 4].copy_from_slice(&value.to_le_bytes());
    }

    /// Appends a record; its place, or none when there is no room.
    fn append(&mut self, record: &[u32]) -> Option<usize> {
        if self.count == self.records() {
            return None;
        }
        for (index, &word) in record.iter().enumerate() {
            self.put(self.count, index, word);
        }
        self.count += 1;
        Some(self.count - 1)
    }

    fn find(&self, record: &[u32]) -> Option<usize> {
        (0..self.count).find(|&place| (0..self.width).all(|word| self.word(place, word) == record[word]))
    }
}

struct Walk {
    nodes: Vec<Node>,
    list: Vec<u32>,
    names: Vec<u32>,
    code: Buffer,
    constants: Buffer,
    marks: Buffer,
    held: [bool; 256],
    frame_size: u32,
    held_now: u32,
    held_most: u32,
}

/// The lowering of document 01.
pub fn lower(input: &Input) -> Answer {
    let mut walk = Walk {
        nodes: words(&input.nodes).chunks_exact(NODE_WORDS).map(|node| node.try_into().unwrap()).collect(),
        list: words(&input.list),
        names: words(&input.names),
        code: Buffer::new(&input.code, INSTRUCTION_WORDS),
        constants: Buffer::new(&input.constants, CONSTANT_WORDS),
        marks: Buffer::new(&input.marks, MARK_WORDS),
        held: [false; 256],
        frame_size: 0,
        held_now: 0,
        held_most: 0,
    };
    let outcome = walk.questions(input).and_then(|()| walk.program(input.mode, input.root));
    let counts = [walk.code.count as u32, walk.constants.count as u32];
    let result = match outcome {
        Ok(place) => [number::ACCEPTED, place, 0, 0, counts[0], counts[1], walk.frame_size, walk.names.len() as u32],
        Err(Refusal { number, place, span }) => [number, place, span[0], span[1], counts[0], counts[1], 0, 0],
    };
    Answer { result, code: walk.code.bytes, constants: walk.constants.bytes, marks: walk.marks.bytes }
}

/// Patching: 0, and the offset word set, or 19.
pub fn patch(code: &mut [u8], count: u32, index: u32, offset: u32) -> u32 {
    let mut buffer = Buffer::new(code, INSTRUCTION_WORDS);
    if index >= count || count as usize > buffer.records() {
        return number::NO_JUMP;
    }
    let kind = buffer.word(index as usize, 0);
    if !(code::JUMP..=code::LAST_JUMP).contains(&kind) {
        return number::NO_JUMP;
    }
    buffer.put(index as usize, offset_word(kind), offset);
    code.copy_from_slice(&buffer.bytes);
    number::ACCEPTED
}

/// Questions 1 to 8.
impl Walk {
    fn questions(&self, input: &Input) -> Step<()> {
        let whole = |slice: &[u8], words: usize| slice.len().is_multiple_of(4 * words);
        if !(whole(&input.nodes, NODE_WORDS) && whole(&input.list, 1) && whole(&input.names, 1))
            || self.nodes.is_empty()
            || self.nodes.len() > MOST_NODES
            || self.list.len() > MOST_LIST_WORDS
        {
            return refused(number::SIZES, 0);
        }
        if input.mode > 2 || input.root as usize >= self.nodes.len() {
            return refused(number::MODE_OR_ROOT, 0);
        }
        for place in 0..self.nodes.len() as u32 {
            self.node_questions(place)?;
        }
        if self.names.len() > MOST_PARAMETERS {
            return refused(number::PARAMETERS, 0);
        }
        Ok(())
    }

    fn node_questions(&self, place: u32) -> Step<()> {
        let [kind, a, b, c, ..] = self.nodes[place as usize];
        if kind > kind::MAP {
            return refused(number::KIND, place);
        }
        let words_fit = match kind {
            kind::NUMBER | kind::AND | kind::OR | kind::PROPERTY | kind::MAP => c == 0,
            kind::STRING | kind::NAME | kind::NOT | kind::BLOCK => [b, c] == [0, 0],
            kind::BOOLEAN => a <= 1 && [b, c] == [0, 0],
            kind::NIL => [a, b, c] == [0, 0, 0],
            kind::BINARY => a <= operator::LESS_EQUAL,
            kind::UNARY => a <= 1 && c == 0,
            _ => true,
        };
        if !words_fit {
            return refused(number::WORDS, place);
        }
        if kind == kind::NUMBER {
            let nan = b & 0x7FF0_0000 == 0x7FF0_0000 && (b & 0x000F_FFFF != 0 || a != 0);
            let minus_zero = b == 0x8000_0000 && a == 0;
            if nan || minus_zero {
                return refused(number::NUMBER, place);
            }
        }
        let (first, length) = match kind {
            kind::CALL => (b as u64, c as u64),
            kind::MAP => (a as u64, 2 * b as u64),
            _ => (0, 0),
        };
        if first + length > self.list.len() as u64 || kind == kind::CALL && c > MOST_ARGUMENTS {
            return refused(number::LIST_PART, place);
        }
        let part = &self.list[first as usize..(first + length) as usize];
        let lower = |child: u32| child < place;
        let lower_or_absent = |child: u32| child < place || child == ABSENT;
        let in_order = match kind {
            kind::BINARY => lower(b) && lower(c),
            kind::UNARY => lower(b),
            kind::NOT | kind::PROPERTY => lower(a),
            kind::AND | kind::OR => lower(a) && lower(b),
            kind::IF => lower(a) && lower(b) && lower_or_absent(c),
            kind::BLOCK => lower_or_absent(a),
            kind::CALL => lower(a) && part.iter().all(|&argument| lower(argument)),
            kind::MAP => part.chunks(2).all(|entry| lower(entry[0]) && lower_or_absent(entry[1])),
            _ => true,
        };
        if !in_order {
            return refused(number::NODE_ORDER, place);
        }
        Ok(())
    }
}

/// Registers, code, pool and marks.
impl Walk {
    /// Takes the smallest free register.
    fn take(&mut self, temporary: bool) -> Step<Register> {
        let Some(index) = self.held.iter().position(|held| !held) else {
            return refused(number::NO_REGISTER, 0);
        };
        self.held[index] = true;
        self.frame_size = self.frame_size.max(index as u32 + 1);
        self.held_now += 1;
        self.held_most = self.held_most.max(self.held_now);
        assert!(self.frame_size == self.held_most, "frame size is the most held at one moment");
        Ok(Register { index: index as u32, temporary })
    }

    fn take_unless_given(&mut self, destination: Option<Register>) -> Step<Register> {
        match destination {
            Some(register) => Ok(register),
            None => self.take(true),
        }
    }

    fn give_back(&mut self, register: Register) {
        if register.temporary {
            assert!(self.held[register.index as usize], "a register is given back twice");
            self.held[register.index as usize] = false;
            self.held_now -= 1;
        }
    }

    fn emit(&mut self, kind: u32, a: u32, b: u32, c: u32) -> Step<usize> {
        let place = if self.code.count < MOST_INSTRUCTIONS { self.code.append(&[kind, a, b, c]) } else { None };
        place.map_or_else(|| refused(number::CODE_FULL, 0), Ok)
    }

    /// The place of the first equal constant, or of a new one.
    fn pool(&mut self, constant: [u32; CONSTANT_WORDS]) -> Step<u32> {
        let place = self.constants.find(&constant).or_else(|| self.constants.append(&constant));
        place.map_or_else(|| refused(number::CONSTANTS_FULL, 0), |place| Ok(place as u32))
    }

    fn pool_name(&mut self, symbol: u32) -> Step<u32> {
        self.pool([3, symbol, 0])
    }

    /// A literal is pooled only here.
    fn field(&mut self, operand: Operand) -> Step<Field> {
        Ok(match operand {
            Operand::Register(register) => Field::Register(register.index),
            Operand::Literal(constant) => Field::Constant(self.pool(constant)?),
        })
    }

    fn give_back_operand(&mut self, operand: Operand) {
        if let Operand::Register(register) = operand {
            self.give_back(register);
        }
    }

    /// Marks the last instruction so far, for an argument of this call.
    fn mark(&mut self, call: u32) -> Step<()> {
        if self.code.count == 0 {
            return self.refused_at(number::NOTHING_TO_MARK, call);
        }
        let last = self.code.count as u32 - 1;
        self.marks.append(&[last]).map_or_else(|| refused(number::MARKS_FULL, 0), |_| Ok(()))
    }

    /// Lets a jump go to the place of the next instruction.
    fn patch_to_here(&mut self, jump: usize) {
        let word = offset_word(self.code.word(jump, 0));
        self.code.put(jump, word, (self.code.count - jump) as u32);
    }

    fn refused_at<T>(&self, number: u32, place: u32) -> Step<T> {
        let node = self.nodes[place as usize];
        Err(Refusal { number, place, span: [node[4], node[5]] })
    }
}

/// The walk.
impl Walk {
    /// The place of an accepted lowering.
    fn program(&mut self, mode: u32, root: u32) -> Step<u32> {
        for _ in 0..self.names.len() {
            self.take(false)?;
        }
        let place = if mode == 0 {
            let value = self.materialize(root, None)?;
            self.emit(code::RETURN, value.index, 0, 0)?;
            0
        } else {
            self.jump(root, mode == 2)? as u32
        };
        self.move_marked()?;
        Ok(place)
    }

    /// Each mark, in order, adds the frame size to its instruction's destination.
    fn move_marked(&mut self) -> Step<()> {
        for mark in 0..self.marks.count {
            let place = self.marks.word(mark, 0);
            if !has_listed_destination(self.code.word(place as usize, 0)) {
                return refused(number::NO_DESTINATION, place);
            }
            let sum = self.code.word(place as usize, 1) + self.frame_size;
            if sum > 255 {
                return refused(number::REGISTER_TOO_HIGH, place);
            }
            self.code.put(place as usize, 1, sum);
        }
        Ok(())
    }

    /// A value in a register: a literal is loaded.
    fn materialize(&mut self, place: u32, destination: Option<Register>) -> Step<Register> {
        match self.expression(place, destination)? {
            Operand::Register(register) => Ok(register),
            Operand::Literal(constant) => {
                let register = self.take_unless_given(destination)?;
                self.load(register, constant)?;
                Ok(register)
            }
        }
    }

    fn load(&mut self, register: Register, constant: [u32; CONSTANT_WORDS]) -> Step<()> {
        let constant = self.pool(constant)?;
        self.emit(code::LOAD_CONST, register.index, constant, 0)?;
        Ok(())
    }

    fn expression(&mut self, place: u32, destination: Option<Register>) -> Step<Operand> {
        let [kind, a, b, c, ..] = self.nodes[place as usize];
        let register = match kind {
            kind::NUMBER => return Ok(Operand::Literal([2, a, b])),
            kind::STRING => return Ok(Operand::Literal([3, a, 0])),
            kind::BOOLEAN => return Ok(Operand::Literal([1, a, 0])),
            kind::NIL => return Ok(Operand::Literal([0, 0, 0])),
            kind::NAME => self.name(place, a, destination)?,
            kind::IF => self.choice(place, destination)?,
            kind::CALL => self.call(place, destination)?,
            _ => {
                let register = self.take_unless_given(destination)?;
                match kind {
                    kind::BINARY => self.binary(register, a, b, c)?,
                    kind::UNARY => self.unary(register, [code::NEGATE, code::DEREF][a as usize], b)?,
                    kind::NOT => self.unary(register, code::NOT, a)?,
                    kind::AND => self.logical(register, code::JUMP_IF_FALSE, a, b)?,
                    kind::OR => self.logical(register, code::JUMP_IF_TRUE, a, b)?,
                    kind::BLOCK if a == ABSENT => self.load(register, [0, 0, 0])?,
                    kind::BLOCK => drop(self.materialize(a, Some(register))?),
                    kind::PROPERTY => self.property(register, a, b)?,
                    _ => self.map(register, a as usize, b as usize)?,
                }
                register
            }
        };
        Ok(Operand::Register(register))
    }

    /// A name's own register, or a Move if another destination was given.
    fn name(&mut self, place: u32, symbol: u32, destination: Option<Register>) -> Step<Register> {
        let Some(index) = self.names.iter().rposition(|&name| name == symbol) else {
            return self.refused_at(number::UNDECLARED, place);
        };
        let own = Register { index: index as u32, temporary: false };
        match destination {
            Some(register) if register.index != own.index => {
                self.emit(code::MOVE, register.index, own.index, 0)?;
                Ok(register)
            }
            Some(register) => Ok(register),
            None => Ok(own),
        }
    }

    fn binary(&mut self, register: Register, operation: u32, left: u32, right: u32) -> Step<()> {
        let mut operands = [self.expression(left, None)?, self.expression(right, None)?];
        if let [Operand::Literal(_), Operand::Literal(_)] = operands {
            // Two literals are both loaded.
            operands =
                [Operand::Register(self.materialize(left, None)?), Operand::Register(self.materialize(right, None)?)];
        }
        let fields = [self.field(operands[0])?, self.field(operands[1])?];
        let (operation, fields) = without_greater(operation, fields);
        let (kind, first, second) = shaped(VALUES[operation as usize], fields);
        self.emit(kind, register.index, first, second)?;
        self.give_back_operand(operands[0]);
        self.give_back_operand(operands[1]);
        Ok(())
    }

    fn unary(&mut self, register: Register, instruction: u32, operand: u32) -> Step<()> {
        let operand = self.materialize(operand, None)?;
        self.emit(instruction, register.index, operand.index, 0)?;
        self.give_back(operand);
        Ok(())
    }

    fn logical(&mut self, register: Register, instruction: u32, left: u32, right: u32) -> Step<()> {
        self.materialize(left, Some(register))?;
        let jump = self.emit(instruction, register.index, 0, 0)?;
        self.materialize(right, Some(register))?;
        self.patch_to_here(jump);
        Ok(())
    }

    fn choice(&mut self, place: u32, destination: Option<Register>) -> Step<Register> {
        let [_, condition, then, otherwise, ..] = self.nodes[place as usize];
        let past_then = self.jump(condition, false)?;
        let register = self.take_unless_given(destination)?;
        self.materialize(then, Some(register))?;
        let past_else = self.emit(code::JUMP, 0, 0, 0)?;
        self.patch_to_here(past_then);
        if otherwise == ABSENT {
            return self.refused_at(number::NO_ELSE, place);
        }
        self.materialize(otherwise, Some(register))?;
        self.patch_to_here(past_else);
        Ok(register)
    }

    fn call(&mut self, place: u32, destination: Option<Register>) -> Step<Register> {
        let [_, callee, first, count, ..] = self.nodes[place as usize];
        for index in 0..count {
            let local = Register { index, temporary: false };
            self.materialize(self.list[(first + index) as usize], Some(local))?;
            self.mark(place)?;
        }
        let register = self.take_unless_given(destination)?;
        let callee = self.materialize(callee, None)?;
        self.emit(code::CALL, register.index, callee.index, count)?;
        self.give_back(callee);
        Ok(register)
    }

    fn property(&mut self, register: Register, object: u32, symbol: u32) -> Step<()> {
        let object = self.materialize(object, None)?;
        let key = self.pool_name(symbol)?;
        self.emit(code::GET_PROPERTY_K, register.index, object.index, key)?;
        self.give_back(object);
        Ok(())
    }

    fn map(&mut self, register: Register, first: usize, entries: usize) -> Step<()> {
        self.emit(code::CREATE_MAP, register.index, 0, 0)?;
        for entry in 0..entries {
            let (key, value) = (self.list[first + 2 * entry], self.list[first + 2 * entry + 1]);
            let (key, value) = self.entry(key, value)?;
            let (kind, key, value) = match (key, value) {
                (Field::Register(key), Field::Register(value)) => (code::SET_PROPERTY, key, value),
                (Field::Register(key), Field::Constant(value)) => (code::SET_PROPERTY_RK, key, value),
                (Field::Constant(key), Field::Register(value)) => (code::SET_PROPERTY_KR, key, value),
                (Field::Constant(key), Field::Constant(value)) => (code::SET_PROPERTY_KK, key, value),
            };
            self.emit(kind, register.index, key, value)?;
        }
        Ok(())
    }

    /// Key and value of an entry. Their registers stay held.
    fn entry(&mut self, key: u32, value: u32) -> Step<(Field, Field)> {
        let [kind, symbol, ..] = self.nodes[key as usize];
        if kind != kind::NAME {
            if value == ABSENT {
                return self.refused_at(number::KEY_WITHOUT_VALUE, key);
            }
            let (key, value) = (self.expression(key, None)?, self.expression(value, None)?);
            return Ok((self.field(key)?, self.field(value)?));
        }
        // A name key without a value is looked up; with a value it is not.
        let value = self.expression(if value == ABSENT { key } else { value }, None)?;
        let key = Field::Constant(self.pool_name(symbol)?);
        Ok((key, self.field(value)?))
    }

    /// A jump that is taken when the node tests as `sense` says. No register of a condition is given back.
    fn jump(&mut self, place: u32, sense: bool) -> Step<usize> {
        let [kind, operation, left, right, ..] = self.nodes[place as usize];
        if kind == kind::BINARY && operation >= operator::EQUAL {
            let operands = [self.expression(left, None)?, self.expression(right, None)?];
            if !matches!(operands, [Operand::Literal(_), Operand::Literal(_)]) {
                let fields = [self.field(operands[0])?, self.field(operands[1])?];
                let comparison = if sense { operation } else { opposite(operation) };
                let (comparison, fields) = without_greater(comparison, fields);
                let (kind, first, second) = shaped(fused(comparison), fields);
                // In the KR jumps the register is declared before the constant.
                let constant_first = kind == fused(comparison)[2];
                let (first, second) = if constant_first { (second, first) } else { (first, second) };
                return self.emit(kind, first, second, 0);
            }
        }
        let value = self.materialize(place, None)?;
        let instruction = if sense { code::JUMP_IF_TRUE } else { code::JUMP_IF_FALSE };
        self.emit(instruction, value.index, 0, 0)
    }
}

/// a > b is b < a, and a >= b is b <= a.
fn without_greater(operation: u32, [left, right]: [Field; 2]) -> (u32, [Field; 2]) {
    match operation {
        operator::GREATER => (operator::LESS, [right, left]),
        operator::GREATER_EQUAL => (operator::LESS_EQUAL, [right, left]),
        _ => (operation, [left, right]),
    }
}

/// The kind for these operands, and the operands in its order: a constant on the left goes right where there is no
/// kind for it.
fn shaped(kinds: Shapes, fields: [Field; 2]) -> (u32, u32, u32) {
    match fields {
        [Field::Register(a), Field::Register(b)] => (kinds[0], a, b),
        [Field::Register(a), Field::Constant(b)] => (kinds[1], a, b),
        [Field::Constant(a), Field::Register(b)] if kinds[2] != 0 => (kinds[2], a, b),
        [Field::Constant(a), Field::Register(b)] => (kinds[1], b, a),
        [Field::Constant(_), Field::Constant(_)] => unreachable!("two literals are loaded"),
    }
}
