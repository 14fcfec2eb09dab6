//! Expressions: the eleven kinds of node, and their constructors.
use crate::invalid::ExprValidationError;
use crate::name::{Loc, Name};
use crate::slots::{Slot, SlotId, Unknown, Var};
use crate::uid::{EntityType, EntityUID};
use crate::value::Literal;
use std::fmt;
use std::hash::{Hash, Hasher};
use std::sync::Arc;

/// An expression: a tree of nodes of eleven kinds. Each node has an optional location.
///
/// Equality and hash use only the tree and ignore locations. `Display` writes an operand without parentheses if it is a
/// literal, variable, slot, unknown, set or call. It writes every other operand in parentheses: `(!(2 == 1)) && true`.
///
/// An expression can have any depth: comparing, hashing, writing and dropping it do not recurse. A store accepts at
/// most 1,000 levels and returns `Reason::TooDeep` for more. `clone` shares the parts of the expression.
///
/// ```
/// use cedar_store_proved::ast::{EntityType, EntityUID, Expr, Var};
/// let user = EntityType::from_normalized_str("User").unwrap();
/// let alice = EntityUID::from_normalized_str(r#"User::"alice""#).unwrap();
/// let is_user = Expr::is_entity_type(Expr::var(Var::Principal), user);
/// let is_alice = Expr::is_eq(Expr::var(Var::Principal), Expr::val(alice));
/// assert_eq!(
///     Expr::and(is_user, Expr::not(is_alice)).to_string(),
///     r#"(principal is User) && (!(principal == User::"alice"))"#
/// );
/// ```
#[derive(Clone)]
pub struct Expr {
    pub(crate) head: Head,
    // The operands, if the kind has any.
    operands: Option<Arc<Vec<Expr>>>,
    loc: Option<Loc>,
}

// The kind of a node, with its own data.
#[derive(Clone, PartialEq, Eq, Hash)]
pub(crate) enum Head {
    Val(Literal),
    Var(Var),
    Slot(SlotId),
    Unknown(Arc<Unknown>),
    Set,
    Call(Name),
    Not,
    And,
    Eq,
    In,
    Is(EntityType),
}

/// The node of an expression, with references to its data and its operands.
#[derive(Debug)]
pub enum ExprNode<'a> {
    /// A literal.
    Val(&'a Literal),
    /// A variable.
    Var(Var),
    /// A slot.
    Slot(SlotId),
    /// An unknown value.
    Unknown(&'a Unknown),
    /// A set of expressions, in the order in which they were passed.
    Set(&'a [Expr]),
    /// A call of an extension function with its arguments.
    Call(&'a Name, &'a [Expr]),
    /// The negation of an expression.
    Not(&'a Expr),
    /// The conjunction of two expressions.
    And(&'a Expr, &'a Expr),
    /// The equality of two expressions.
    Eq(&'a Expr, &'a Expr),
    /// A test whether the first expression is `in` the second.
    In(&'a Expr, &'a Expr),
    /// A test whether an expression has an entity type.
    Is(&'a Expr, &'a EntityType),
}

impl Expr {
    // Creates a node without operands.
    fn leaf(head: Head) -> Expr {
        Expr {
            head,
            operands: None,
            loc: None,
        }
    }

    /// Creates a node with operands. The caller must pass as many as the kind has.
    pub(crate) fn over(head: Head, operands: Vec<Expr>) -> Expr {
        Expr {
            head,
            operands: Some(Arc::new(operands)),
            loc: None,
        }
    }

    /// Returns the operands.
    pub(crate) fn operands(&self) -> &[Expr] {
        self.operands.as_deref().map_or(&[], Vec::as_slice)
    }

    /// Creates the expression of a literal. A new node has no location.
    pub fn val(literal: impl Into<Literal>) -> Expr {
        Expr::leaf(Head::Val(literal.into()))
    }

    /// Creates the expression of a shared uid.
    pub(crate) fn shared_uid(euid: &Arc<EntityUID>) -> Expr {
        Expr::val(Literal::EntityUID(euid.clone()))
    }

    /// Creates the expression of a variable.
    pub fn var(var: Var) -> Expr {
        Expr::leaf(Head::Var(var))
    }

    /// Creates the expression of a slot.
    pub fn slot(id: SlotId) -> Expr {
        Expr::leaf(Head::Slot(id))
    }

    /// Creates the expression of an unknown.
    pub fn unknown(unknown: Unknown) -> Expr {
        Expr::leaf(Head::Unknown(Arc::new(unknown)))
    }

    /// Creates a set of expressions. Keeps their order.
    pub fn set(exprs: impl IntoIterator<Item = Expr>) -> Expr {
        Expr::over(Head::Set, exprs.into_iter().collect())
    }

    /// Creates a call of an extension function with these arguments.
    pub fn call(name: Name, args: Vec<Expr>) -> Expr {
        Expr::over(Head::Call(name), args)
    }

    /// Creates the negation of an expression.
    // The function has the same name in `cedar-store`.
    #[allow(clippy::should_implement_trait)]
    pub fn not(operand: Expr) -> Expr {
        Expr::over(Head::Not, vec![operand])
    }

    /// Creates the conjunction of two expressions.
    pub fn and(left: Expr, right: Expr) -> Expr {
        Expr::over(Head::And, vec![left, right])
    }

    /// Creates the equality of two expressions.
    pub fn is_eq(left: Expr, right: Expr) -> Expr {
        Expr::over(Head::Eq, vec![left, right])
    }

    /// Creates a test whether the first expression is `in` the second.
    pub fn is_in(left: Expr, right: Expr) -> Expr {
        Expr::over(Head::In, vec![left, right])
    }

    /// Creates a test whether an expression has this entity type.
    pub fn is_entity_type(operand: Expr, ty: EntityType) -> Expr {
        Expr::over(Head::Is(ty), vec![operand])
    }

    /// Returns the expression with this location for its root node.
    pub fn with_maybe_source_loc(mut self, loc: Option<Loc>) -> Expr {
        self.loc = loc;
        self
    }

    /// Returns the location of the root node, if it is known.
    pub fn source_loc(&self) -> Option<&Loc> {
        self.loc.as_ref()
    }

    /// Returns the root node of the expression.
    ///
    /// # Complexity
    ///
    /// O(1).
    ///
    /// ```
    /// use cedar_store_proved::ast::{Expr, ExprNode, SlotId};
    /// let test = Expr::not(Expr::slot(SlotId::resource()));
    /// let ExprNode::Not(operand) = test.node() else { panic!() };
    /// assert!(matches!(operand.node(), ExprNode::Slot(SlotId::Resource)));
    /// ```
    pub fn node(&self) -> ExprNode<'_> {
        match (&self.head, self.operands()) {
            (Head::Val(literal), _) => ExprNode::Val(literal),
            (Head::Var(var), _) => ExprNode::Var(*var),
            (Head::Slot(id), _) => ExprNode::Slot(*id),
            (Head::Unknown(unknown), _) => ExprNode::Unknown(unknown),
            (Head::Set, operands) => ExprNode::Set(operands),
            (Head::Call(name), operands) => ExprNode::Call(name, operands),
            (Head::Not, operands) => ExprNode::Not(&operands[0]),
            (Head::And, operands) => ExprNode::And(&operands[0], &operands[1]),
            (Head::Eq, operands) => ExprNode::Eq(&operands[0], &operands[1]),
            (Head::In, operands) => ExprNode::In(&operands[0], &operands[1]),
            (Head::Is(ty), operands) => ExprNode::Is(&operands[0], ty),
        }
    }

    /// Returns all subexpressions in preorder, the expression itself first. The operands of a node are visited from
    /// right to left.
    pub fn subexpressions(&self) -> Vec<&Expr> {
        let (mut pending, mut met) = (vec![self], Vec::new());
        while let Some(expr) = pending.pop() {
            met.push(expr);
            pending.extend(expr.operands());
        }
        met
    }

    /// Returns all occurrences of slots, in the order of [`Expr::subexpressions`].
    pub fn slots(&self) -> Vec<Slot> {
        let slot = |expr: &Expr| match &expr.head {
            Head::Slot(id) => Some(Slot {
                id: *id,
                loc: expr.loc.clone(),
            }),
            _ => None,
        };
        self.subexpressions().into_iter().filter_map(slot).collect()
    }

    /// Returns all occurrences of unknowns, in the order of [`Expr::subexpressions`].
    pub fn unknowns(&self) -> Vec<&Unknown> {
        let all = self.subexpressions().into_iter();
        all.filter_map(|expr| match &expr.head {
            Head::Unknown(unknown) => Some(&**unknown),
            _ => None,
        })
        .collect()
    }

    /// Checks whether each called function is one of `ip`, `decimal`, `datetime` and `duration`.
    ///
    /// # Errors
    ///
    /// - `UnknownFunction`: another function is called. The error names the first such function in the order of
    ///   [`Expr::subexpressions`].
    pub fn try_validate(&self) -> Result<(), ExprValidationError> {
        let known_functions = ["ip", "decimal", "datetime", "duration"];
        for expr in self.subexpressions() {
            match &expr.head {
                Head::Call(name) if !known_functions.contains(&name.as_str()) => {
                    return Err(ExprValidationError::UnknownFunction { name: name.clone() });
                }
                _ => {}
            }
        }
        Ok(())
    }

    // Returns whether the expression is written without parentheses as an operand.
    fn is_unparenthesized(&self) -> bool {
        !matches!(
            self.head,
            Head::Not | Head::And | Head::Eq | Head::In | Head::Is(_)
        )
    }
}

// Moves the operands of an expression onto a list. Shared operands are only released, because other expressions use
// them.
fn push_operands(expr: &mut Expr, pending: &mut Vec<Expr>) {
    if let Some(operands) = expr.operands.take() {
        pending.extend(Arc::into_inner(operands).unwrap_or_default());
    }
}

impl Drop for Expr {
    /// Drops the tree without recursion.
    fn drop(&mut self) {
        let mut pending = Vec::new();
        push_operands(self, &mut pending);
        while let Some(mut expr) = pending.pop() {
            push_operands(&mut expr, &mut pending);
        }
    }
}

impl PartialEq for Expr {
    fn eq(&self, other: &Expr) -> bool {
        let mut pairs = vec![(self, other)];
        while let Some((one, other)) = pairs.pop() {
            let (ones, others) = (one.operands(), other.operands());
            if one.head != other.head || ones.len() != others.len() {
                return false;
            }
            if !std::ptr::eq(ones, others) {
                pairs.extend(ones.iter().zip(others));
            }
        }
        true
    }
}

impl Eq for Expr {}

impl Hash for Expr {
    fn hash<H: Hasher>(&self, state: &mut H) {
        let mut pending = vec![self];
        while let Some(expr) = pending.pop() {
            expr.head.hash(state);
            expr.operands().len().hash(state);
            pending.extend(expr.operands());
        }
    }
}

// A part of an expression that is still to be written.
enum Piece<'a> {
    Mark(&'static str),
    Type(&'a EntityType),
    Expr(&'a Expr),
}

// Pushes an operand, in parentheses if it needs them.
fn push_operand<'a>(expr: &'a Expr, pieces: &mut Vec<Piece<'a>>) {
    match expr.is_unparenthesized() {
        true => pieces.push(Piece::Expr(expr)),
        false => pieces.extend([Piece::Mark("("), Piece::Expr(expr), Piece::Mark(")")]),
    }
}

// Pushes expressions, with a separator between them and the two marks around them.
fn push_all<'a>(
    exprs: &'a [Expr],
    open: &'static str,
    close: &'static str,
    pieces: &mut Vec<Piece<'a>>,
) {
    pieces.push(Piece::Mark(open));
    for (place, expr) in exprs.iter().enumerate() {
        if place > 0 {
            pieces.push(Piece::Mark(", "));
        }
        pieces.push(Piece::Expr(expr));
    }
    pieces.push(Piece::Mark(close));
}

// Writes the part of a node before its operands, or pushes its parts in reverse order, so that the first part is popped
// first.
fn write_node<'a>(
    expr: &'a Expr,
    pending: &mut Vec<Piece<'a>>,
    f: &mut fmt::Formatter<'_>,
) -> fmt::Result {
    let first = pending.len();
    let mut join = |left, mark, right| {
        push_operand(left, pending);
        pending.push(Piece::Mark(mark));
        push_operand(right, pending);
    };
    match expr.node() {
        ExprNode::Val(literal) => write!(f, "{literal}")?,
        ExprNode::Var(var) => write!(f, "{var}")?,
        ExprNode::Slot(id) => write!(f, "{id}")?,
        ExprNode::Unknown(unknown) => write!(f, "{unknown}")?,
        ExprNode::Set(exprs) => push_all(exprs, "[", "]", pending),
        ExprNode::Call(name, args) => {
            write!(f, "{name}")?;
            push_all(args, "(", ")", pending);
        }
        ExprNode::Not(operand) => {
            f.write_str("!")?;
            push_operand(operand, pending);
        }
        ExprNode::And(left, right) => join(left, " && ", right),
        ExprNode::Eq(left, right) => join(left, " == ", right),
        ExprNode::In(left, right) => join(left, " in ", right),
        ExprNode::Is(operand, ty) => {
            push_operand(operand, pending);
            pending.extend([Piece::Mark(" is "), Piece::Type(ty)]);
        }
    }
    pending[first..].reverse();
    Ok(())
}

impl fmt::Display for Expr {
    fn fmt(&self, f: &mut fmt::Formatter<'_>) -> fmt::Result {
        let mut pending = vec![Piece::Expr(self)];
        while let Some(piece) = pending.pop() {
            match piece {
                Piece::Mark(mark) => f.write_str(mark)?,
                Piece::Type(ty) => write!(f, "{ty}")?,
                Piece::Expr(expr) => write_node(expr, &mut pending, f)?,
            }
        }
        Ok(())
    }
}

impl fmt::Debug for Expr {
    /// Writes `Expr(..)` around the output of `Display`.
    fn fmt(&self, f: &mut fmt::Formatter<'_>) -> fmt::Result {
        write!(f, "Expr({self})")
    }
}

impl<L: Into<Literal>> From<L> for Expr {
    fn from(literal: L) -> Expr {
        Expr::val(literal)
    }
}
