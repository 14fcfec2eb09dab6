//! Values and expressions in the format of the C library: nodes over a text, each after its operands. Encoding and
//! decoding do not recurse.
use crate::expr::{Expr, Head};
use crate::lists::{Lists, Span};
use crate::name::Name;
use crate::slots::{SlotId, StaticType, Unknown, Var};
use crate::uid::{EntityType, EntityUID};
use crate::value::{ExtensionValue, Literal, PartialValue, Value, ValueKind};
use std::collections::HashMap;
use std::sync::Arc;

/// A node: its kind, the number of its operands, the span of its text, and its number.
#[repr(C)]
#[derive(Clone, Copy, Default)]
pub(crate) struct Node {
    kind: u32,
    len: usize,
    at: Span,
    number: i64,
}

/// An attribute (part 0) or a tag (part 1) of the entity with the index `of`: its key, and the range of the nodes of
/// its value.
#[repr(C)]
#[derive(Clone, Copy)]
pub(crate) struct Term {
    pub(crate) of: usize,
    pub(crate) part: u32,
    pub(crate) key: Span,
    pub(crate) from: usize,
    pub(crate) to: usize,
}

const BOOL: u32 = 0;
const LONG: u32 = 1;
const TEXT: u32 = 2;
const UID: u32 = 3;
const SET: u32 = 4;
const RECORD: u32 = 5;
const CALL: u32 = 6;
const VAR: u32 = 7;
const SLOT: u32 = 8;
const UNKNOWN: u32 = 9;
const NOT: u32 = 10;
const AND: u32 = 11;
const EQ: u32 = 12;
const IN: u32 = 13;
const IS: u32 = 14;
const RESIDUAL: u32 = 15;

impl Node {
    fn of(kind: u32, len: usize) -> Node {
        Node {
            kind,
            len,
            ..Node::default()
        }
    }

    fn numbered(kind: u32, number: i64) -> Node {
        Node {
            kind,
            number,
            ..Node::default()
        }
    }
}

/// An encoder of partial values. It appends to a text, in which each key is written once.
pub(crate) struct Draft<'a, 'b> {
    text: &'b mut String,
    nodes: Vec<Node>,
    keys: HashMap<&'a str, Span>,
}

// A part of a value that is still to be encoded. The nodes of a value are produced from the last to the first.
enum Piece<'a> {
    Kind(&'a ValueKind),
    Key(&'a str),
    Text(&'a str),
}

impl<'a, 'b> Draft<'a, 'b> {
    /// Creates an encoder without nodes, over the text of `lists`.
    pub(crate) fn over(lists: &'b mut Lists) -> Draft<'a, 'b> {
        Draft {
            text: &mut lists.text,
            nodes: Vec::new(),
            keys: HashMap::new(),
        }
    }

    /// Returns all encoded nodes.
    pub(crate) fn into_nodes(self) -> Vec<Node> {
        self.nodes
    }

    fn push_text(&mut self, text: &str) -> Span {
        let start = self.text.len();
        self.text.push_str(text);
        Span {
            start,
            end: self.text.len(),
        }
    }

    /// Returns the span of a key.
    pub(crate) fn key(&mut self, key: &'a str) -> Span {
        if let Some(at) = self.keys.get(key) {
            return *at;
        }
        let at = self.push_text(key);
        self.keys.insert(key, at);
        at
    }

    fn text_node(&mut self, kind: u32, len: usize, text: &str) -> Node {
        let at = self.push_text(text);
        Node {
            at,
            ..Node::of(kind, len)
        }
    }

    /// Encodes a partial value. Returns the index of its first node and the index after its last node.
    pub(crate) fn term(&mut self, term: &'a PartialValue) -> (usize, usize) {
        let from = self.nodes.len();
        match term {
            PartialValue::Value(value) => self.value(&value.value),
            PartialValue::Residual(expr) => {
                self.nodes.push(Node::of(RESIDUAL, 1));
                self.expr(expr);
            }
        }
        self.nodes[from..].reverse();
        (from, self.nodes.len())
    }

    /// Encodes an expression.
    pub(crate) fn clause(&mut self, clause: &Expr) {
        let from = self.nodes.len();
        self.expr(clause);
        self.nodes[from..].reverse();
    }

    fn literal(&mut self, literal: &Literal) -> Node {
        match literal {
            Literal::Bool(truth) => Node::numbered(BOOL, i64::from(*truth)),
            Literal::Long(number) => Node::numbered(LONG, *number),
            Literal::String(text) => self.text_node(TEXT, 0, text),
            Literal::EntityUID(uid) => self.text_node(UID, 0, uid.as_str()),
        }
    }

    fn value(&mut self, kind: &'a ValueKind) {
        let mut pending = vec![Piece::Kind(kind)];
        while let Some(piece) = pending.pop() {
            let node = match piece {
                Piece::Text(text) => self.text_node(TEXT, 0, text),
                Piece::Key(key) => Node {
                    at: self.key(key),
                    ..Node::of(TEXT, 0)
                },
                Piece::Kind(ValueKind::Lit(literal)) => self.literal(literal),
                Piece::Kind(ValueKind::Set(elements)) => {
                    pending.extend(elements.iter().map(|element| Piece::Kind(&element.value)));
                    Node::of(SET, elements.len())
                }
                Piece::Kind(ValueKind::Record(fields)) => {
                    let fields = fields.iter();
                    let len = fields.len();
                    pending.extend(
                        fields
                            .flat_map(|(key, value)| [Piece::Key(key), Piece::Kind(&value.value)]),
                    );
                    Node::of(RECORD, len)
                }
                Piece::Kind(ValueKind::ExtensionValue(extension)) => {
                    pending.push(Piece::Text(&extension.arg));
                    self.text_node(CALL, 1, extension.func.as_str())
                }
            };
            self.nodes.push(node);
        }
    }

    fn head(&mut self, head: &Head, len: usize) -> Node {
        match head {
            Head::Val(literal) => self.literal(literal),
            Head::Var(var) => Node::numbered(VAR, *var as i64),
            Head::Slot(id) => Node::numbered(SLOT, *id as i64),
            Head::Unknown(unknown) => {
                let len = usize::from(unknown.type_annotation.is_some());
                self.text_node(UNKNOWN, len, &unknown.name)
            }
            Head::Set => Node::of(SET, len),
            Head::Call(name) => self.text_node(CALL, len, name.as_str()),
            Head::Not => Node::of(NOT, 0),
            Head::And => Node::of(AND, 0),
            Head::Eq => Node::of(EQ, 0),
            Head::In => Node::of(IN, 0),
            Head::Is(ty) => self.text_node(IS, 0, ty.name().as_str()),
        }
    }

    fn expr(&mut self, expr: &Expr) {
        let mut pending = vec![expr];
        while let Some(expr) = pending.pop() {
            let node = self.head(&expr.head, expr.operands().len());
            self.nodes.push(node);
            if let Head::Unknown(unknown) = &expr.head {
                if let Some(StaticType::Entity { ty }) = &unknown.type_annotation {
                    let node = self.text_node(TEXT, 0, ty.name().as_str());
                    self.nodes.push(node);
                }
            }
            pending.extend(expr.operands());
        }
    }
}

/// Decodes a partial value. Returns `None` if the nodes do not form one, which the library never returns.
pub(crate) fn read(text: &str, nodes: &[Node]) -> Option<PartialValue> {
    match nodes.split_last() {
        Some((last, operands)) if last.kind == RESIDUAL => {
            read_all(text, operands, read_expr).map(PartialValue::Residual)
        }
        _ => read_all(text, nodes, read_value).map(PartialValue::Value),
    }
}

/// Decodes an expression. Returns `None` if the nodes do not form one, which the library never returns.
pub(crate) fn read_clause(text: &str, nodes: &[Node]) -> Option<Expr> {
    read_all(text, nodes, read_expr)
}

// Decodes the nodes in order, with a stack of decoded operands, and returns the only item that is left on it.
fn read_all<T>(
    text: &str,
    nodes: &[Node],
    read: impl Fn(&str, &Node, &mut Vec<T>) -> Option<T>,
) -> Option<T> {
    let mut stack = Vec::new();
    for node in nodes {
        let item = read(text.get(node.at.start..node.at.end)?, node, &mut stack)?;
        stack.push(item);
    }
    let result = stack.pop()?;
    stack.is_empty().then_some(result)
}

// Pops `count` items from a stack. Returns them in the order in which they were pushed.
fn pop_many<T>(stack: &mut Vec<T>, count: usize) -> Option<Vec<T>> {
    let first = stack.len().checked_sub(count)?;
    Some(stack.split_off(first))
}

fn read_literal(text: &str, node: &Node) -> Option<Literal> {
    match node.kind {
        BOOL => Some(Literal::Bool(node.number == 1)),
        LONG => Some(Literal::Long(node.number)),
        TEXT => Some(Literal::String(text.to_owned())),
        UID => Some(Literal::EntityUID(Arc::new(EntityUID::from_valid_text(
            text,
        )))),
        _ => None,
    }
}

// Returns the text of a string value.
fn text_of(value: &Value) -> Option<&str> {
    match &value.value {
        ValueKind::Lit(Literal::String(text)) => Some(text),
        _ => None,
    }
}

fn read_value(text: &str, node: &Node, stack: &mut Vec<Value>) -> Option<Value> {
    match node.kind {
        SET => Some(Value::set(pop_many(stack, node.len)?, None)),
        RECORD => {
            let mut items = pop_many(stack, node.len.checked_mul(2)?)?.into_iter();
            let mut pairs = Vec::with_capacity(node.len);
            while let (Some(key), Some(value)) = (items.next(), items.next()) {
                pairs.push((text_of(&key)?.to_owned(), value));
            }
            Some(Value::record(pairs, None))
        }
        CALL => {
            let argument = stack.pop()?;
            let arg = text_of(&argument)?.to_owned();
            Some(Value::from(ExtensionValue {
                func: Name::from_valid_text(text),
                arg,
            }))
        }
        _ => Some(Value::new(ValueKind::Lit(read_literal(text, node)?), None)),
    }
}

fn read_unknown(name: &str, node: &Node, stack: &mut Vec<Expr>) -> Option<Expr> {
    if node.len == 0 {
        return Some(Expr::unknown(Unknown::new_untyped(name)));
    }
    let type_name = stack.pop()?;
    let Head::Val(Literal::String(ty)) = &type_name.head else {
        return None;
    };
    let ty = EntityType::from(Name::from_valid_text(ty));
    Some(Expr::unknown(Unknown::new_with_type(
        name,
        StaticType::Entity { ty },
    )))
}

fn read_expr(text: &str, node: &Node, stack: &mut Vec<Expr>) -> Option<Expr> {
    let place = usize::try_from(node.number);
    let (head, count) = match node.kind {
        VAR => return Some(Expr::var(*Var::ALL.get(place.ok()?)?)),
        SLOT => return Some(Expr::slot(*SlotId::ALL.get(place.ok()?)?)),
        UNKNOWN => return read_unknown(text, node, stack),
        SET => (Head::Set, node.len),
        CALL => (Head::Call(Name::from_valid_text(text)), node.len),
        NOT => (Head::Not, 1),
        AND => (Head::And, 2),
        EQ => (Head::Eq, 2),
        IN => (Head::In, 2),
        IS => (Head::Is(EntityType::from(Name::from_valid_text(text))), 1),
        _ => return Some(Expr::val(read_literal(text, node)?)),
    };
    Some(Expr::over(head, pop_many(stack, count)?))
}
