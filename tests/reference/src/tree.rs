//! The tree of a lesson. Positions are bytes, and no part of what a tree says: trees that differ in nothing else are equal.

pub type Name = String;

/// Two are equal where these fields are; the others are positions.
macro_rules! equal_by {
    ($kind:ty: $($field:ident),+) => {
        impl PartialEq for $kind {
            fn eq(&self, other: &$kind) -> bool {
                $(self.$field == other.$field)&&+
            }
        }
    };
}

equal_by!(Elements: ty);
equal_by!(Id: name);
equal_by!(Variable: ty, id);
equal_by!(Expr: kind);
equal_by!(Stmt: kind);
equal_by!(Method: result, id, parameters, locals, body, value);
equal_by!(Class: id, parent, fields, methods);

#[derive(Clone, Debug, PartialEq, Eq)]
pub enum Element {
    Int,
    Boolean,
    /// The grammar gives no array of it.
    Fixed,
    Class(Name),
}

#[derive(Clone, Debug, PartialEq, Eq)]
pub struct Type {
    pub element: Element,
    pub is_array: bool,
}

/// The type of a new array's elements, and where it stands.
#[derive(Clone, Debug)]
pub struct Elements {
    pub ty: Element,
    pub at: usize,
}

/// A name that is declared or used, and where it stands.
#[derive(Clone, Debug)]
pub struct Id {
    pub name: Name,
    pub at: usize,
}

#[derive(Clone, Debug)]
pub struct Variable {
    pub ty: Type,
    pub type_at: usize,
    pub id: Id,
}

#[derive(Clone, Copy, Debug, PartialEq, Eq)]
pub enum Operator {
    And,
    Less,
    Add,
    Subtract,
    Multiply,
}

/// A node's position is where it begins.
#[derive(Clone, Debug)]
pub struct Expr {
    pub at: usize,
    pub kind: ExprKind,
}

#[derive(Clone, Debug, PartialEq)]
pub enum ExprKind {
    Literal(i32),
    /// A count of thousandths.
    FixedLiteral(i32),
    Truth(bool),
    Name(Name),
    This,
    NewArray { elements: Elements, size: Box<Expr> },
    NewObject(Id),
    Not(Box<Expr>),
    Binary(Operator, Box<Expr>, Box<Expr>),
    Index(Box<Expr>, Box<Expr>),
    Length(Box<Expr>),
    Call { receiver: Box<Expr>, method: Id, arguments: Vec<Expr> },
    Get(Box<Expr>),
}

#[derive(Clone, Debug)]
pub struct Stmt {
    pub at: usize,
    pub kind: StmtKind,
}

#[derive(Clone, Debug, PartialEq)]
pub enum StmtKind {
    Block(Vec<Stmt>),
    If(Expr, Box<Stmt>, Box<Stmt>),
    While(Expr, Box<Stmt>),
    Print(Expr),
    Assign(Name, Expr),
    AssignElement(Name, Expr, Expr),
    Put(Expr, Expr),
}

#[derive(Clone, Debug)]
pub struct Method {
    pub result: Type,
    pub result_at: usize,
    pub id: Id,
    pub parameters: Vec<Variable>,
    pub locals: Vec<Variable>,
    pub body: Vec<Stmt>,
    pub value: Expr,
}

/// Its text begins at `at`, with `class`, and stops before `end`, behind its closing brace.
#[derive(Clone, Debug)]
pub struct Class {
    pub at: usize,
    pub end: usize,
    pub id: Id,
    pub parent: Option<Id>,
    pub fields: Vec<Variable>,
    pub methods: Vec<Method>,
}

#[derive(Clone, Debug, PartialEq)]
pub struct Program {
    pub main: Id,
    /// Main's, which no lesson can use.
    pub parameter: Id,
    pub statement: Stmt,
    pub classes: Vec<Class>,
}

/// The number of nodes, and the smallest position of one that is too deep.
#[derive(Default)]
pub struct Measure {
    pub nodes: usize,
    pub deep: Option<usize>,
}

const DEPTH_MOST: usize = 64;

impl Measure {
    pub fn of(program: &Program) -> Measure {
        let mut m = Measure::default();
        m.stmt(&program.statement, 1);
        m.classes(&program.classes);
        m
    }

    pub fn of_classes(classes: &[Class]) -> Measure {
        let mut m = Measure::default();
        m.classes(classes);
        m
    }

    fn classes(&mut self, classes: &[Class]) {
        for method in classes.iter().flat_map(|c| &c.methods) {
            method.body.iter().for_each(|s| self.stmt(s, 1));
            self.expr(&method.value, 1);
        }
    }

    fn node(&mut self, at: usize, depth: usize) {
        self.nodes += 1;
        if depth > DEPTH_MOST {
            self.deep = Some(self.deep.map_or(at, |d| d.min(at)));
        }
    }

    fn expr(&mut self, e: &Expr, depth: usize) {
        self.node(e.at, depth);
        match &e.kind {
            ExprKind::Literal(_) | ExprKind::FixedLiteral(_) | ExprKind::Truth(_) | ExprKind::Name(_) | ExprKind::This | ExprKind::NewObject(_) => {}
            ExprKind::NewArray { size: a, .. } | ExprKind::Not(a) | ExprKind::Length(a) | ExprKind::Get(a) => self.expr(a, depth + 1),
            ExprKind::Binary(_, a, b) | ExprKind::Index(a, b) => {
                self.expr(a, depth + 1);
                self.expr(b, depth + 1);
            }
            ExprKind::Call { receiver, arguments, .. } => {
                self.expr(receiver, depth + 1);
                arguments.iter().for_each(|a| self.expr(a, depth + 1));
            }
        }
    }

    fn stmt(&mut self, s: &Stmt, depth: usize) {
        self.node(s.at, depth);
        match &s.kind {
            StmtKind::Block(body) => body.iter().for_each(|b| self.stmt(b, depth + 1)),
            StmtKind::If(test, yes, no) => {
                self.expr(test, depth + 1);
                self.stmt(yes, depth + 1);
                self.stmt(no, depth + 1);
            }
            StmtKind::While(test, body) => {
                self.expr(test, depth + 1);
                self.stmt(body, depth + 1);
            }
            StmtKind::Print(e) | StmtKind::Assign(_, e) => self.expr(e, depth + 1),
            StmtKind::AssignElement(_, a, b) | StmtKind::Put(a, b) => {
                self.expr(a, depth + 1);
                self.expr(b, depth + 1);
            }
        }
    }
}
