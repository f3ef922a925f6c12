//! Tree to text, request (v): one token after another, in the house layout, with parentheses where the tree needs them.

use crate::tree::*;

/// How tightly a form binds, the loosest first. A place names the loosest form that it takes; what is looser stands in parentheses.
type Rank = u8;

const CONJUNCTION: Rank = 0;
const COMPARISON: Rank = 1;
const SUM: Rank = 2;
const PRODUCT: Rank = 3;
const NOT: Rank = 4;
/// `new T[e]`: a `.` may follow, a `[` may not.
const NEW_ARRAY: Rank = 5;
const TIGHTEST: Rank = 6;

fn operator_rank(operator: Operator) -> Rank {
    match operator {
        Operator::And => CONJUNCTION,
        Operator::Less => COMPARISON,
        Operator::Add | Operator::Subtract => SUM,
        Operator::Multiply => PRODUCT,
    }
}

fn rank(e: &Expr) -> Rank {
    match e.kind {
        ExprKind::Binary(operator, ..) => operator_rank(operator),
        ExprKind::Not(_) => NOT,
        ExprKind::NewArray { .. } => NEW_ARRAY,
        _ => TIGHTEST,
    }
}

fn operator_mark(operator: Operator) -> &'static str {
    match operator {
        Operator::And => "&&",
        Operator::Less => "<",
        Operator::Add => "+",
        Operator::Subtract => "-",
        Operator::Multiply => "*",
    }
}

fn element_word(element: &Element) -> &str {
    match element {
        Element::Int => "int",
        Element::Boolean => "boolean",
        Element::Fixed => "fixed",
        Element::Class(name) => name,
    }
}

struct Printer {
    text: String,
}

impl Printer {
    fn token(&mut self, token: &str) {
        self.text += token;
        self.text.push(if matches!(token, ";" | "{" | "}") { '\n' } else { ' ' });
    }

    fn tokens(&mut self, tokens: &[&str]) {
        tokens.iter().for_each(|t| self.token(t));
    }

    fn program(&mut self, p: &Program) {
        self.tokens(&["class", &p.main.name, "{", "public", "static", "void", "main"]);
        self.tokens(&["(", "String", "[", "]", &p.parameter.name, ")", "{"]);
        self.stmt(&p.statement);
        self.tokens(&["}", "}"]);
        p.classes.iter().for_each(|c| self.class(c));
    }

    fn class(&mut self, c: &Class) {
        self.tokens(&["class", &c.id.name]);
        if let Some(parent) = &c.parent {
            self.tokens(&["extends", &parent.name]);
        }
        self.token("{");
        self.declarations(&c.fields);
        c.methods.iter().for_each(|m| self.method(m));
        self.token("}");
    }

    fn ty(&mut self, ty: &Type) {
        self.token(element_word(&ty.element));
        if ty.is_array {
            self.tokens(&["[", "]"]);
        }
    }

    fn variable(&mut self, v: &Variable) {
        self.ty(&v.ty);
        self.token(&v.id.name);
    }

    fn declarations(&mut self, variables: &[Variable]) {
        for v in variables {
            self.variable(v);
            self.token(";");
        }
    }

    fn method(&mut self, m: &Method) {
        self.token("public");
        self.ty(&m.result);
        self.tokens(&[&m.id.name, "("]);
        self.list(&m.parameters, Printer::variable);
        self.tokens(&[")", "{"]);
        self.declarations(&m.locals);
        m.body.iter().for_each(|s| self.stmt(s));
        self.token("return");
        self.expr(&m.value);
        self.tokens(&[";", "}"]);
    }

    /// Parameters or arguments, a comma between two.
    fn list<T>(&mut self, items: &[T], write: fn(&mut Printer, &T)) {
        for (k, item) in items.iter().enumerate() {
            if k > 0 {
                self.token(",");
            }
            write(self, item);
        }
    }

    fn stmt(&mut self, s: &Stmt) {
        match &s.kind {
            StmtKind::Block(body) => {
                self.token("{");
                body.iter().for_each(|part| self.stmt(part));
                self.token("}");
            }
            StmtKind::If(test, yes, no) => {
                self.token("if");
                self.in_parentheses(test);
                self.stmt(yes);
                self.token("else");
                self.stmt(no);
            }
            StmtKind::While(test, body) => {
                self.token("while");
                self.in_parentheses(test);
                self.stmt(body);
            }
            StmtKind::Print(shown) => {
                self.tokens(&["System", ".", "out", ".", "println"]);
                self.in_parentheses(shown);
                self.token(";");
            }
            StmtKind::Assign(target, value) => {
                self.token(target);
                self.assigned(value);
            }
            StmtKind::AssignElement(target, index, value) => {
                self.token(target);
                self.index(index);
                self.assigned(value);
            }
            StmtKind::Put(register, value) => {
                self.tokens(&["Port", ".", "put", "("]);
                self.expr(register);
                self.token(",");
                self.expr(value);
                self.tokens(&[")", ";"]);
            }
        }
    }

    fn assigned(&mut self, value: &Expr) {
        self.token("=");
        self.expr(value);
        self.token(";");
    }

    fn index(&mut self, e: &Expr) {
        self.token("[");
        self.expr(e);
        self.token("]");
    }

    fn in_parentheses(&mut self, e: &Expr) {
        self.token("(");
        self.expr(e);
        self.token(")");
    }

    /// An expression at a place that takes forms of this rank and tighter ones.
    fn part(&mut self, e: &Expr, loosest: Rank) {
        if rank(e) < loosest {
            self.in_parentheses(e);
        } else {
            self.expr(e);
        }
    }

    fn expr(&mut self, e: &Expr) {
        match &e.kind {
            ExprKind::Literal(value) => self.token(&value.to_string()),
            ExprKind::FixedLiteral(count) => self.token(&format!("{}.{:03}", count / 1000, count % 1000)),
            ExprKind::Truth(value) => self.token(&value.to_string()),
            ExprKind::Name(name) => self.token(name),
            ExprKind::This => self.token("this"),
            ExprKind::NewArray { elements, size } => {
                self.tokens(&["new", element_word(&elements.ty)]);
                self.index(size);
            }
            ExprKind::NewObject(class) => self.tokens(&["new", &class.name, "(", ")"]),
            ExprKind::Not(part) => {
                self.token("!");
                self.part(part, NOT);
            }
            ExprKind::Binary(operator, left, right) => {
                let rank = operator_rank(*operator);
                self.part(left, rank);
                self.token(operator_mark(*operator));
                self.part(right, rank + 1);
            }
            ExprKind::Index(array, index) => {
                self.part(array, TIGHTEST);
                self.index(index);
            }
            ExprKind::Length(array) => {
                self.part(array, NEW_ARRAY);
                self.tokens(&[".", "length"]);
            }
            ExprKind::Call { receiver, method, arguments } => {
                self.part(receiver, NEW_ARRAY);
                self.tokens(&[".", &method.name, "("]);
                self.list(arguments, Printer::expr);
                self.token(")");
            }
            ExprKind::Get(register) => {
                self.tokens(&["Port", ".", "get"]);
                self.in_parentheses(register);
            }
        }
    }
}

pub fn text(program: &Program) -> String {
    let mut printer = Printer { text: String::new() };
    printer.program(program);
    printer.text
}
