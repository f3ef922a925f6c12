//! Tree to frames, request (xii): the code of main and of the methods, then a table for each name of a method.

use crate::checker::{Body, Table, FIXED};
use crate::frames::*;
use crate::tree::*;
use std::collections::HashMap;

struct Encoder<'a> {
    frames: Vec<Frame>,
    /// The lines of the calls, with the names of their methods: where a table begins is known when all code is written.
    calls: Vec<(usize, &'a str)>,
    /// The body whose code is being written.
    body: Body<'a>,
}

impl<'a> Encoder<'a> {
    fn next_line(&self) -> usize {
        self.frames.len()
    }

    fn write(&mut self, code: u8, operand: u32) {
        self.frames.push(Frame { code, operand });
    }

    /// A frame whose operand is a position in the lesson.
    fn write_at(&mut self, code: u8, at: usize) {
        self.write(code, at as u32);
    }

    /// A frame that may go on with another line, which is set when it is known: where the frame stands.
    fn write_leap(&mut self, code: u8) -> usize {
        self.write(code, 0);
        self.next_line() - 1
    }

    /// The frame at a line goes on with the line that is written next.
    fn land(&mut self, leap: usize) {
        self.frames[leap].operand = self.next_line() as u32;
    }

    /// The place of a name: a variable of the method, or else the nearest field from its class upwards.
    fn place(&self, name: &str) -> u32 {
        let (class, method) = self.body.class.zip(self.body.method).expect("main has no names");
        let variable = method.parameters.iter().chain(&method.locals).position(|v| v.id.name == name);
        let field = || self.body.table.fields(class).iter().rposition(|f| f.id.name == name).expect("the name was checked");
        variable.unwrap_or_else(|| ROW + field()) as u32
    }

    fn expr(&mut self, e: &'a Expr) {
        self.write_at(MARK, e.at);
        match &e.kind {
            ExprKind::Literal(n) | ExprKind::FixedLiteral(n) => self.write(PUSH, *n as u32),
            ExprKind::Truth(b) => self.write(PUSH, u32::from(*b)),
            ExprKind::Name(name) => self.write(LOAD, self.place(name)),
            ExprKind::This => self.write(SELF, 0),
            ExprKind::NewArray { size, .. } => {
                self.expr(size);
                self.write_at(MAKE_ARRAY, e.at);
            }
            ExprKind::NewObject(id) => self.write(MAKE_OBJECT, self.object(&id.name)),
            ExprKind::Not(part) => {
                self.expr(part);
                self.write(NEGATE, 0);
            }
            ExprKind::Binary(Operator::And, left, right) => {
                self.expr(left);
                let keep = self.write_leap(KEEP);
                self.expr(right);
                self.land(keep);
            }
            ExprKind::Binary(operator, left, right) => {
                self.expr(left);
                self.expr(right);
                self.operator(*operator, left);
            }
            ExprKind::Index(array, index) => {
                self.expr(array);
                self.expr(index);
                self.write_at(FETCH, e.at);
            }
            ExprKind::Length(array) => {
                self.expr(array);
                self.write_at(MEASURE, e.at);
            }
            ExprKind::Call { receiver, method, arguments } => {
                self.expr(receiver);
                arguments.iter().for_each(|a| self.expr(a));
                self.calls.push((self.next_line(), &method.name));
                self.write(CALL, arguments.len() as u32);
            }
            ExprKind::Get(register) => {
                self.expr(register);
                self.write_at(GET, e.at);
            }
        }
    }

    /// The operand that makes an object of a class.
    fn object(&self, name: &str) -> u32 {
        let classes = self.body.table.classes;
        let class = classes.iter().position(|c| c.id.name == name).expect("the name was checked");
        (class as u32) << FIELDS_BITS | self.body.table.fields(&classes[class]).len() as u32
    }

    /// What is done to two parts, of which this is the left one.
    fn operator(&mut self, operator: Operator, left: &Expr) {
        match operator {
            Operator::Less => self.write(OPERATE, LESS),
            Operator::Add => self.write(OPERATE, ADD),
            Operator::Subtract => self.write(OPERATE, SUBTRACT),
            Operator::Multiply if self.body.expr(left) == Ok(FIXED) => self.write(SCALE, 0),
            Operator::Multiply => self.write(OPERATE, MULTIPLY),
            Operator::And => unreachable!("`&&` leaps"),
        }
    }

    fn stmt(&mut self, s: &'a Stmt) {
        self.write_at(MARK, s.at);
        match &s.kind {
            StmtKind::Block(body) => body.iter().for_each(|b| self.stmt(b)),
            StmtKind::If(test, yes, no) => {
                self.expr(test);
                let unless = self.write_leap(UNLESS);
                self.stmt(yes);
                let jump = self.write_leap(JUMP);
                self.land(unless);
                self.stmt(no);
                self.land(jump);
            }
            StmtKind::While(test, body) => {
                let top = self.next_line();
                self.expr(test);
                let unless = self.write_leap(UNLESS);
                self.stmt(body);
                self.write(JUMP, top as u32);
                self.land(unless);
            }
            StmtKind::Print(e) => {
                self.expr(e);
                self.write_at(PRINT, s.at);
            }
            StmtKind::Assign(name, value) => {
                self.expr(value);
                self.write(SAVE, self.place(name));
            }
            StmtKind::AssignElement(name, index, value) => {
                self.write(LOAD, self.place(name));
                self.expr(index);
                self.expr(value);
                self.write_at(STORE_ELEMENT, s.at);
            }
            StmtKind::Put(register, value) => {
                self.expr(register);
                self.expr(value);
                self.write_at(PUT, s.at);
            }
        }
    }

    fn method(&mut self, class: &'a Class, method: &'a Method) {
        self.body = Body { class: Some(class), method: Some(method), ..self.body };
        method.body.iter().for_each(|s| self.stmt(s));
        self.expr(&method.value);
        self.write(RETURN, 0);
    }

    /// For each class, where the code of the method begins that its objects have of this name, by the positions of the methods' names.
    fn table(&mut self, name: &str, entries: &HashMap<usize, usize>) {
        for class in self.body.table.classes {
            match self.body.table.method(class, name) {
                Some(method) => self.write(ENTRY, entries[&method.id.at] as u32),
                None => self.write(NONE, 0),
            }
        }
    }
}

/// The frames of a lesson that is accepted.
pub fn encoded(program: &Program) -> Vec<Frame> {
    let table = Table { classes: &program.classes };
    let mut encoder = Encoder { frames: Vec::new(), calls: Vec::new(), body: Body { table: &table, class: None, method: None } };
    encoder.stmt(&program.statement);
    encoder.write(HALT, 0);
    let mut entries = HashMap::new();
    let mut names: Vec<&str> = Vec::new();
    for (class, method) in program.classes.iter().flat_map(|c| c.methods.iter().map(move |m| (c, m))) {
        entries.insert(method.id.at, encoder.next_line());
        if !names.contains(&method.id.name.as_str()) {
            names.push(&method.id.name);
        }
        encoder.method(class, method);
    }
    let mut tables = HashMap::new();
    for name in names {
        tables.insert(name, encoder.next_line() as u32);
        encoder.table(name, &entries);
    }
    for (line, name) in encoder.calls {
        encoder.frames[line].operand |= tables[name] << COUNT_BITS;
    }
    encoder.frames
}
