//! Class table and types: refusals 20 to 34, in the order of document 01.

use crate::refusal::{refuse, Refusal};
use crate::tree::*;
use std::collections::HashSet;

const VARIABLES_MOST: usize = 32;

type Judged<T> = Result<T, Refusal>;

const INT: Type = Type { element: Element::Int, is_array: false };
const BOOLEAN: Type = Type { element: Element::Boolean, is_array: false };
pub const FIXED: Type = Type { element: Element::Fixed, is_array: false };

fn class_type(name: &str) -> Type {
    Type { element: Element::Class(name.to_owned()), is_array: false }
}

/// The class table: all classes but main's.
pub struct Table<'a> {
    pub classes: &'a [Class],
}

impl<'a> Table<'a> {
    pub fn find(&self, name: &str) -> Option<&'a Class> {
        self.classes.iter().find(|c| c.id.name == name)
    }

    /// The class and those above it. It ends after as many classes as there are, so that a loop does not keep it.
    pub fn chain(&self, class: &'a Class) -> Vec<&'a Class> {
        let mut chain = vec![class];
        while let Some(parent) = chain.last().and_then(|c| c.parent.as_ref()).and_then(|p| self.find(&p.name)) {
            if chain.len() > self.classes.len() {
                break;
            }
            chain.push(parent);
        }
        chain
    }

    fn is_endless(&self, class: &'a Class) -> bool {
        self.chain(class).len() > self.classes.len()
    }

    fn is_known(&self, ty: &Type) -> bool {
        match &ty.element {
            Element::Class(name) => self.find(name).is_some(),
            _ => true,
        }
    }

    fn fits(&self, ty: &Type, wanted: &Type) -> bool {
        if ty == wanted {
            return true;
        }
        match (ty, wanted) {
            (Type { element: Element::Class(a), is_array: false }, Type { element: Element::Class(b), is_array: false }) => {
                self.find(a).map_or(false, |c| self.chain(c).iter().any(|above| above.id.name == *b))
            }
            _ => false,
        }
    }

    /// The fields that an object of the class holds, the topmost class's first.
    pub fn fields(&self, class: &'a Class) -> Vec<&'a Variable> {
        self.chain(class).into_iter().rev().flat_map(|c| &c.fields).collect()
    }

    /// The first method of a name in the nearest class from here upwards that has one.
    pub fn method(&self, class: &'a Class, name: &str) -> Option<&'a Method> {
        self.chain(class).into_iter().find_map(|c| c.methods.iter().find(|m| m.id.name == name))
    }
}

pub fn check(program: &Program) -> Judged<()> {
    let table = Table { classes: &program.classes };
    distinct_classes(program)?;
    for parent in program.classes.iter().filter_map(|c| c.parent.as_ref()) {
        if table.find(&parent.name).is_none() {
            return refuse(21, parent.at);
        }
    }
    if let Some(class) = program.classes.iter().find(|c| table.is_endless(c)) {
        return refuse(22, class.id.at);
    }
    for class in &program.classes {
        fields(&table, class)?;
        heads(&table, class)?;
    }
    Body { table: &table, class: None, method: None }.statement(&program.statement)?;
    for class in &program.classes {
        for method in &class.methods {
            body(&table, class, method)?;
        }
    }
    Ok(())
}

fn distinct_classes(program: &Program) -> Judged<()> {
    let mut seen = HashSet::from([&program.main.name]);
    match program.classes.iter().find(|c| !seen.insert(&c.id.name)) {
        Some(class) => refuse(20, class.id.at),
        None => Ok(()),
    }
}

fn known(table: &Table, ty: &Type, at: usize) -> Judged<()> {
    if table.is_known(ty) {
        Ok(())
    } else {
        refuse(24, at)
    }
}

fn fields(table: &Table, class: &Class) -> Judged<()> {
    let mut seen = HashSet::new();
    for field in &class.fields {
        known(table, &field.ty, field.type_at)?;
        if !seen.insert(&field.id.name) {
            return refuse(23, field.id.at);
        }
    }
    Ok(())
}

fn heads(table: &Table, class: &Class) -> Judged<()> {
    let mut seen = HashSet::new();
    for method in &class.methods {
        known(table, &method.result, method.result_at)?;
        if !seen.insert(&method.id.name) {
            return refuse(25, method.id.at);
        }
        variables(table, &mut Vec::new(), &method.parameters)?;
        redeclaration(table, class, method)?;
    }
    Ok(())
}

/// Parameters, or locals after the parameters: `before` has the names so far.
fn variables<'a>(table: &Table, before: &mut Vec<&'a str>, list: &'a [Variable]) -> Judged<()> {
    for v in list {
        known(table, &v.ty, v.type_at)?;
        if before.contains(&v.id.name.as_str()) {
            return refuse(27, v.id.at);
        }
        if before.len() == VARIABLES_MOST {
            return refuse(28, v.id.at);
        }
        before.push(&v.id.name);
    }
    Ok(())
}

fn redeclaration(table: &Table, class: &Class, method: &Method) -> Judged<()> {
    let parent = class.parent.as_ref().and_then(|p| table.find(&p.name));
    let upper = match parent.and_then(|p| table.method(p, &method.id.name)) {
        Some(upper) => upper,
        None => return Ok(()),
    };
    let is_equal = upper.parameters.len() == method.parameters.len() && upper.parameters.iter().zip(&method.parameters).all(|(a, b)| a.ty == b.ty);
    if is_equal && table.fits(&method.result, &upper.result) {
        Ok(())
    } else {
        refuse(26, method.id.at)
    }
}

fn body(table: &Table, class: &Class, method: &Method) -> Judged<()> {
    let mut names = method.parameters.iter().map(|p| p.id.name.as_str()).collect();
    variables(table, &mut names, &method.locals)?;
    let body = Body { table, class: Some(class), method: Some(method) };
    method.body.iter().try_for_each(|s| body.statement(s))?;
    body.part(&method.value, &method.result)
}

/// What names mean in a body; main has no class and no method.
pub struct Body<'a> {
    pub table: &'a Table<'a>,
    pub class: Option<&'a Class>,
    pub method: Option<&'a Method>,
}

impl Body<'_> {
    fn variable(&self, name: &str, at: usize) -> Judged<Type> {
        let own = self.method.and_then(|m| m.parameters.iter().chain(&m.locals).find(|v| v.id.name == name));
        let field = || self.class.and_then(|c| self.table.chain(c).into_iter().find_map(|c| c.fields.iter().find(|f| f.id.name == name)));
        match own.or_else(field) {
            Some(found) => Ok(found.ty.clone()),
            None => refuse(30, at),
        }
    }

    /// A part is judged, then must fit.
    fn part(&self, e: &Expr, wanted: &Type) -> Judged<()> {
        let ty = self.expr(e)?;
        if self.table.fits(&ty, wanted) {
            Ok(())
        } else {
            refuse(31, e.at)
        }
    }

    /// A part that must be int or fixed: which of the two it is.
    fn number(&self, e: &Expr) -> Judged<Type> {
        match self.expr(e)? {
            ty if ty == INT || ty == FIXED => Ok(ty),
            _ => refuse(31, e.at),
        }
    }

    /// A part that must be an array: the type of its elements.
    fn array(&self, ty: Type, at: usize) -> Judged<Type> {
        if ty.is_array {
            Ok(Type { is_array: false, ..ty })
        } else {
            refuse(31, at)
        }
    }

    /// The type of an expression.
    pub fn expr(&self, e: &Expr) -> Judged<Type> {
        match &e.kind {
            ExprKind::Literal(_) => Ok(INT),
            ExprKind::FixedLiteral(_) => Ok(FIXED),
            ExprKind::Truth(_) => Ok(BOOLEAN),
            ExprKind::Name(name) => self.variable(name, e.at),
            ExprKind::This => self.class.map_or(refuse(34, e.at), |c| Ok(class_type(&c.id.name))),
            ExprKind::NewArray { elements, size } => {
                let ty = Type { element: elements.ty.clone(), is_array: true };
                known(self.table, &ty, elements.at)?;
                self.part(size, &INT)?;
                Ok(ty)
            }
            ExprKind::NewObject(class) => {
                let ty = class_type(&class.name);
                known(self.table, &ty, class.at)?;
                Ok(ty)
            }
            ExprKind::Not(part) => {
                self.part(part, &BOOLEAN)?;
                Ok(BOOLEAN)
            }
            ExprKind::Binary(Operator::And, left, right) => {
                self.part(left, &BOOLEAN)?;
                self.part(right, &BOOLEAN)?;
                Ok(BOOLEAN)
            }
            ExprKind::Binary(operator, left, right) => {
                let taken = self.number(left)?;
                self.part(right, &taken)?;
                Ok(if *operator == Operator::Less { BOOLEAN } else { taken })
            }
            ExprKind::Index(array, index) => {
                let element = self.array(self.expr(array)?, array.at)?;
                self.part(index, &INT)?;
                Ok(element)
            }
            ExprKind::Length(array) => {
                self.array(self.expr(array)?, array.at)?;
                Ok(INT)
            }
            ExprKind::Call { receiver, method, arguments } => self.call(receiver, method, arguments),
            ExprKind::Get(register) => {
                self.part(register, &INT)?;
                Ok(INT)
            }
        }
    }

    fn call(&self, receiver: &Expr, method: &Id, arguments: &[Expr]) -> Judged<Type> {
        let class = match self.expr(receiver)? {
            Type { element: Element::Class(name), is_array: false } => self.table.find(&name),
            _ => return refuse(31, receiver.at),
        };
        let found = match class.and_then(|c| self.table.method(c, &method.name)) {
            Some(found) => found,
            None => return refuse(32, method.at),
        };
        if found.parameters.len() != arguments.len() {
            return refuse(33, method.at);
        }
        for (argument, parameter) in arguments.iter().zip(&found.parameters) {
            self.part(argument, &parameter.ty)?;
        }
        Ok(found.result.clone())
    }

    fn statement(&self, s: &Stmt) -> Judged<()> {
        match &s.kind {
            StmtKind::Block(body) => body.iter().try_for_each(|b| self.statement(b)),
            StmtKind::If(test, yes, no) => {
                self.part(test, &BOOLEAN)?;
                self.statement(yes)?;
                self.statement(no)
            }
            StmtKind::While(test, body) => {
                self.part(test, &BOOLEAN)?;
                self.statement(body)
            }
            StmtKind::Print(e) => self.number(e).map(drop),
            StmtKind::Assign(name, value) => {
                let ty = self.variable(name, s.at)?;
                self.part(value, &ty)
            }
            StmtKind::AssignElement(name, index, value) => {
                let element = self.array(self.variable(name, s.at)?, s.at)?;
                self.part(index, &INT)?;
                self.part(value, &element)
            }
            StmtKind::Put(register, value) => {
                self.part(register, &INT)?;
                self.part(value, &INT)
            }
        }
    }
}

/// Menu's order: again and again, the unwritten class earliest in the lesson whose parent is already written or absent.
pub fn menu(program: &Program) -> Vec<usize> {
    let mut written: Vec<&Class> = Vec::new();
    while let Some(next) = program.classes.iter().find(|c| {
        let is_written = |name: &str| written.iter().any(|w| w.id.name == name);
        !is_written(&c.id.name) && c.parent.as_ref().map_or(true, |p| is_written(&p.name))
    }) {
        written.push(next);
    }
    written.iter().map(|c| c.id.at).collect()
}
