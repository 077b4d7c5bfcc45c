//! Expressions as they are read, for cases written by hand, and a tree as an expression, for reading a difference.

use crate::tree::{ABSENT, Node, Tree, kind};

#[derive(Clone, Debug)]
pub enum Expression {
    Number(f64),
    String(u32),
    Boolean(bool),
    Nil,
    Name(u32),
    Binary(u32, Box<[Expression; 2]>),
    Unary(u32, Box<Expression>),
    Not(Box<Expression>),
    And(Box<[Expression; 2]>),
    Or(Box<[Expression; 2]>),
    If(Box<[Expression; 2]>, Option<Box<Expression>>),
    Block(Option<Box<Expression>>),
    Call(Box<Expression>, Vec<Expression>),
    Property(Box<Expression>, u32),
    Map(Vec<(Expression, Option<Expression>)>),
}

use Expression as E;

/// Symbols of the cases: the letter's code.
pub const X: u32 = 'x' as u32;
pub const Y: u32 = 'y' as u32;
pub const Z: u32 = 'z' as u32;
pub const P: u32 = 'p' as u32;

pub fn x() -> E {
    E::Name(X)
}
pub fn y() -> E {
    E::Name(Y)
}
/// Never a parameter.
pub fn z() -> E {
    E::Name(Z)
}
pub fn number(value: f64) -> E {
    E::Number(value)
}
pub fn binary(operator: u32, left: E, right: E) -> E {
    E::Binary(operator, Box::new([left, right]))
}
pub fn negate(operand: E) -> E {
    E::Unary(0, Box::new(operand))
}
pub fn deref(operand: E) -> E {
    E::Unary(1, Box::new(operand))
}
pub fn not(operand: E) -> E {
    E::Not(Box::new(operand))
}
pub fn and(left: E, right: E) -> E {
    E::And(Box::new([left, right]))
}
pub fn or(left: E, right: E) -> E {
    E::Or(Box::new([left, right]))
}
pub fn if_else(condition: E, then: E, otherwise: E) -> E {
    E::If(Box::new([condition, then]), Some(Box::new(otherwise)))
}
pub fn if_alone(condition: E, then: E) -> E {
    E::If(Box::new([condition, then]), None)
}
pub fn block(tail: E) -> E {
    E::Block(Some(Box::new(tail)))
}
pub fn empty_block() -> E {
    E::Block(None)
}
pub fn call(callee: E, arguments: impl Into<Vec<E>>) -> E {
    E::Call(Box::new(callee), arguments.into())
}
pub fn property(object: E, symbol: u32) -> E {
    E::Property(Box::new(object), symbol)
}
pub fn map(entries: impl Into<Vec<(E, Option<E>)>>) -> E {
    E::Map(entries.into())
}

/// The tree of an expression, children before parents, every span its own.
pub fn tree(mode: u32, names: &[u32], expression: &E) -> Tree {
    let mut tree = Tree { mode, names: names.to_vec(), ..Tree::default() };
    tree.root = add(&mut tree, expression);
    tree
}

fn add(tree: &mut Tree, expression: &E) -> u32 {
    let [kind, a, b, c] = match expression {
        E::Number(value) => [kind::NUMBER, value.to_bits() as u32, (value.to_bits() >> 32) as u32, 0],
        E::String(symbol) => [kind::STRING, *symbol, 0, 0],
        E::Boolean(value) => [kind::BOOLEAN, *value as u32, 0, 0],
        E::Nil => [kind::NIL, 0, 0, 0],
        E::Name(symbol) => [kind::NAME, *symbol, 0, 0],
        E::Binary(operator, sides) => {
            let [left, right] = add_two(tree, sides);
            [kind::BINARY, *operator, left, right]
        }
        E::Unary(operator, operand) => [kind::UNARY, *operator, add(tree, operand), 0],
        E::Not(operand) => [kind::NOT, add(tree, operand), 0, 0],
        E::And(sides) => {
            let [left, right] = add_two(tree, sides);
            [kind::AND, left, right, 0]
        }
        E::Or(sides) => {
            let [left, right] = add_two(tree, sides);
            [kind::OR, left, right, 0]
        }
        E::If(parts, otherwise) => {
            let [condition, then] = add_two(tree, parts);
            [kind::IF, condition, then, add_optional(tree, otherwise.as_deref())]
        }
        E::Block(tail) => [kind::BLOCK, add_optional(tree, tail.as_deref()), 0, 0],
        E::Call(callee, arguments) => {
            let callee = add(tree, callee);
            let part: Vec<u32> = arguments.iter().map(|argument| add(tree, argument)).collect();
            [kind::CALL, callee, add_part(tree, &part), part.len() as u32]
        }
        E::Property(object, symbol) => [kind::PROPERTY, add(tree, object), *symbol, 0],
        E::Map(entries) => {
            let mut part = vec![];
            for (key, value) in entries {
                part.push(add(tree, key));
                part.push(add_optional(tree, value.as_ref()));
            }
            [kind::MAP, add_part(tree, &part), entries.len() as u32, 0]
        }
    };
    let place = tree.nodes.len() as u32;
    tree.nodes.push([kind, a, b, c, 100 + place, 200 + 2 * place]);
    place
}

fn add_two(tree: &mut Tree, sides: &[E; 2]) -> [u32; 2] {
    [add(tree, &sides[0]), add(tree, &sides[1])]
}

fn add_optional(tree: &mut Tree, expression: Option<&E>) -> u32 {
    expression.map_or(ABSENT, |expression| add(tree, expression))
}

fn add_part(tree: &mut Tree, part: &[u32]) -> u32 {
    tree.list.extend_from_slice(part);
    (tree.list.len() - part.len()) as u32
}

const OPERATORS: [&str; 11] = ["+", "-", "*", "/", "%", "==", "!=", ">", ">=", "<", "<="];

/// Longest text of a tree that is shown whole.
const MOST_SHOWN: usize = 2000;

/// A checked tree as an expression. Names and strings show their symbols.
pub fn show(tree: &Tree) -> String {
    let mut text = String::new();
    show_node(tree, tree.root, &mut text);
    if text.len() > MOST_SHOWN {
        text.truncate(MOST_SHOWN);
        text += " ...";
    }
    let names: Vec<String> = tree.names.iter().map(|&name| symbol(name)).collect();
    format!("mode {}, parameters ({}): {text}", tree.mode, names.join(", "))
}

fn symbol(symbol: u32) -> String {
    match char::from_u32(symbol) {
        Some(letter) if letter.is_ascii_lowercase() => letter.to_string(),
        _ => format!("n{symbol}"),
    }
}

fn show_node(tree: &Tree, place: u32, text: &mut String) {
    if text.len() > MOST_SHOWN {
        return;
    }
    if place == ABSENT {
        *text += "(absent)";
        return;
    }
    let node: &Node = &tree.nodes[place as usize];
    let [kind, a, b, ..] = *node;
    match kind {
        kind::NUMBER => *text += &f64::from_bits((b as u64) << 32 | a as u64).to_string(),
        kind::STRING => *text += &format!("\"{}\"", symbol(a)),
        kind::BOOLEAN => *text += if a == 1 { "true" } else { "false" },
        kind::NIL => *text += "nil",
        kind::NAME => *text += &symbol(a),
        _ => {
            *text += match kind {
                kind::BINARY => OPERATORS[a as usize],
                kind::UNARY => ["negate", "deref"][a as usize],
                kind::NOT => "not",
                kind::AND => "and",
                kind::OR => "or",
                kind::IF => "if",
                kind::BLOCK => "block",
                kind::CALL => "call",
                kind::PROPERTY => "property",
                _ => "map",
            };
            *text += "[";
            for (index, (child, _)) in tree.children(node).into_iter().enumerate() {
                if index > 0 {
                    *text += ", ";
                }
                show_node(tree, child, text);
            }
            if kind == kind::PROPERTY {
                *text += &format!(" . {}", symbol(b));
            }
            *text += "]";
        }
    }
}
