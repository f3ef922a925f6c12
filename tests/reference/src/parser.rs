//! Tokens to tree: refusal 16. A token is taken only where some program begins with the tokens up to it, so the first that is not taken is the place.
//! A library is a list of class declarations; its tokens are taken by the same rule.

use crate::lexer::{Kind, Token};
use crate::refusal::{refuse, Refusal};
use crate::tree::*;

struct Parser<'a> {
    tokens: &'a [Token],
    next: usize,
    /// The lesson's length, where a lesson stands that ends too early.
    end: usize,
}

/// An expression, where it stands with the parentheses around it, and whether it is a `new T[e]` that no `[` may follow.
struct Parsed {
    expr: Expr,
    start: usize,
    is_new_array: bool,
}

fn plain(at: usize, kind: ExprKind) -> Parsed {
    Parsed { expr: Expr { at, kind }, start: at, is_new_array: false }
}

/// The binary operators, the loosest first.
const LEVELS: [&[(&str, Operator)]; 4] =
    [&[("&&", Operator::And)], &[("<", Operator::Less)], &[("+", Operator::Add), ("-", Operator::Subtract)], &[("*", Operator::Multiply)]];

impl Parser<'_> {
    fn at(&self) -> usize {
        self.tokens.get(self.next).map_or(self.end, |t| t.at)
    }

    fn wrong<T>(&self) -> Result<T, Refusal> {
        refuse(16, self.at())
    }

    fn is(&self, word: &str) -> bool {
        self.is_ahead(0, word)
    }

    fn is_ahead(&self, distance: usize, word: &str) -> bool {
        matches!(self.tokens.get(self.next + distance), Some(Token { kind: Kind::Word(w), .. }) if *w == word)
    }

    fn is_name_ahead(&self, distance: usize) -> bool {
        matches!(self.tokens.get(self.next + distance), Some(Token { kind: Kind::Name(_), .. }))
    }

    fn take(&mut self, word: &str) -> bool {
        let is_there = self.is(word);
        self.next += is_there as usize;
        is_there
    }

    fn expect(&mut self, words: &[&str]) -> Result<(), Refusal> {
        for word in words {
            if !self.take(word) {
                return self.wrong();
            }
        }
        Ok(())
    }

    fn id(&mut self) -> Result<Id, Refusal> {
        match self.tokens.get(self.next) {
            Some(Token { at, kind: Kind::Name(name) }) => {
                self.next += 1;
                Ok(Id { name: name.clone(), at: *at })
            }
            _ => self.wrong(),
        }
    }

    /// A plain identifier that is required here, as `out` after `System.`.
    fn word(&mut self, word: &str) -> Result<(), Refusal> {
        match self.tokens.get(self.next) {
            Some(Token { kind: Kind::Name(name), .. }) if name == word => {
                self.next += 1;
                Ok(())
            }
            _ => self.wrong(),
        }
    }

    fn program(&mut self) -> Result<Program, Refusal> {
        self.expect(&["class"])?;
        let main = self.id()?;
        self.expect(&["{", "public", "static", "void", "main", "(", "String", "[", "]"])?;
        let parameter = self.id()?;
        self.expect(&[")", "{"])?;
        let statement = self.stmt()?;
        self.expect(&["}", "}"])?;
        let classes = self.classes()?;
        Ok(Program { main, parameter, statement, classes })
    }

    /// Class declarations up to the end.
    fn classes(&mut self) -> Result<Vec<Class>, Refusal> {
        let mut classes = Vec::new();
        while self.next < self.tokens.len() {
            classes.push(self.class()?);
        }
        Ok(classes)
    }

    fn class(&mut self) -> Result<Class, Refusal> {
        let at = self.at();
        self.expect(&["class"])?;
        let id = self.id()?;
        let parent = if self.take("extends") { Some(self.id()?) } else { None };
        self.expect(&["{"])?;
        let mut fields = Vec::new();
        while self.is_type_word() || self.is_name_ahead(0) {
            fields.push(self.variable()?);
            self.expect(&[";"])?;
        }
        let mut methods = Vec::new();
        while self.is("public") {
            methods.push(self.method()?);
        }
        let end = self.at() + "}".len();
        self.expect(&["}"])?;
        Ok(Class { at, end, id, parent, fields, methods })
    }

    fn is_type_word(&self) -> bool {
        self.is("int") || self.is("boolean") || self.is("fixed")
    }

    fn ty(&mut self) -> Result<(Type, usize), Refusal> {
        let at = self.at();
        if self.take("fixed") {
            return Ok((Type { element: Element::Fixed, is_array: false }, at));
        }
        let element = if self.take("int") {
            Element::Int
        } else if self.take("boolean") {
            Element::Boolean
        } else {
            Element::Class(self.id()?.name)
        };
        let is_array = self.take("[");
        if is_array {
            self.expect(&["]"])?;
        }
        Ok((Type { element, is_array }, at))
    }

    fn variable(&mut self) -> Result<Variable, Refusal> {
        let (ty, type_at) = self.ty()?;
        let id = self.id()?;
        Ok(Variable { ty, type_at, id })
    }

    /// Whether a declaration of a local stands here: a name begins one where a name or `[]` follows. Where the lesson ends after the `[`, either could follow.
    fn is_local(&self) -> bool {
        let is_after_name = self.is_name_ahead(0) && (self.is_name_ahead(1) || (self.is_ahead(1, "[") && self.is_ahead(2, "]")));
        self.is_type_word() || is_after_name
    }

    fn method(&mut self) -> Result<Method, Refusal> {
        self.expect(&["public"])?;
        let (result, result_at) = self.ty()?;
        let id = self.id()?;
        self.expect(&["("])?;
        let mut parameters = Vec::new();
        if !self.take(")") {
            parameters.push(self.variable()?);
            while self.take(",") {
                parameters.push(self.variable()?);
            }
            self.expect(&[")"])?;
        }
        self.expect(&["{"])?;
        let mut locals = Vec::new();
        while self.is_local() {
            locals.push(self.variable()?);
            self.expect(&[";"])?;
        }
        let mut body = Vec::new();
        while !self.is("return") {
            body.push(self.stmt()?);
        }
        self.expect(&["return"])?;
        let value = self.expr()?;
        self.expect(&[";", "}"])?;
        Ok(Method { result, result_at, id, parameters, locals, body, value })
    }

    fn stmt(&mut self) -> Result<Stmt, Refusal> {
        let at = self.at();
        let kind = if self.take("{") {
            let mut body = Vec::new();
            while !self.take("}") {
                body.push(self.stmt()?);
            }
            StmtKind::Block(body)
        } else if self.take("if") {
            let test = self.in_parentheses()?;
            let yes = self.stmt()?;
            self.expect(&["else"])?;
            StmtKind::If(test, Box::new(yes), Box::new(self.stmt()?))
        } else if self.take("while") {
            let test = self.in_parentheses()?;
            StmtKind::While(test, Box::new(self.stmt()?))
        } else if self.take("System") {
            self.expect(&["."])?;
            self.word("out")?;
            self.expect(&["."])?;
            self.word("println")?;
            let shown = self.in_parentheses()?;
            self.expect(&[";"])?;
            StmtKind::Print(shown)
        } else if self.take("Port") {
            self.expect(&["."])?;
            self.word("put")?;
            self.expect(&["("])?;
            let register = self.expr()?;
            self.expect(&[","])?;
            let value = self.expr()?;
            self.expect(&[")", ";"])?;
            StmtKind::Put(register, value)
        } else {
            self.assignment()?
        };
        Ok(Stmt { at, kind })
    }

    fn assignment(&mut self) -> Result<StmtKind, Refusal> {
        let target = self.id()?.name;
        if self.take("[") {
            let index = self.expr()?;
            self.expect(&["]", "="])?;
            let value = self.expr()?;
            self.expect(&[";"])?;
            return Ok(StmtKind::AssignElement(target, index, value));
        }
        self.expect(&["="])?;
        let value = self.expr()?;
        self.expect(&[";"])?;
        Ok(StmtKind::Assign(target, value))
    }

    fn in_parentheses(&mut self) -> Result<Expr, Refusal> {
        self.expect(&["("])?;
        let e = self.expr()?;
        self.expect(&[")"])?;
        Ok(e)
    }

    fn expr(&mut self) -> Result<Expr, Refusal> {
        Ok(self.level(0)?.expr)
    }

    fn level(&mut self, k: usize) -> Result<Parsed, Refusal> {
        if k == LEVELS.len() {
            return self.unary();
        }
        let mut left = self.level(k + 1)?;
        while let Some(&(_, operator)) = LEVELS[k].iter().find(|(mark, _)| self.is(mark)) {
            self.next += 1;
            let right = self.level(k + 1)?;
            left = plain(left.start, ExprKind::Binary(operator, Box::new(left.expr), Box::new(right.expr)));
        }
        Ok(left)
    }

    fn unary(&mut self) -> Result<Parsed, Refusal> {
        let at = self.at();
        if self.take("!") {
            let part = self.unary()?;
            return Ok(plain(at, ExprKind::Not(Box::new(part.expr))));
        }
        self.postfix()
    }

    fn postfix(&mut self) -> Result<Parsed, Refusal> {
        let mut whole = self.primary()?;
        loop {
            if self.is("[") && !whole.is_new_array {
                self.next += 1;
                let index = self.expr()?;
                self.expect(&["]"])?;
                whole = plain(whole.start, ExprKind::Index(Box::new(whole.expr), Box::new(index)));
            } else if self.take(".") {
                whole = self.member(whole)?;
            } else {
                return Ok(whole);
            }
        }
    }

    fn member(&mut self, whole: Parsed) -> Result<Parsed, Refusal> {
        if self.take("length") {
            return Ok(plain(whole.start, ExprKind::Length(Box::new(whole.expr))));
        }
        let method = self.id()?;
        self.expect(&["("])?;
        let mut arguments = Vec::new();
        if !self.take(")") {
            arguments.push(self.expr()?);
            while self.take(",") {
                arguments.push(self.expr()?);
            }
            self.expect(&[")"])?;
        }
        Ok(plain(whole.start, ExprKind::Call { receiver: Box::new(whole.expr), method, arguments }))
    }

    fn primary(&mut self) -> Result<Parsed, Refusal> {
        let at = self.at();
        if self.take("(") {
            let inner = self.expr()?;
            self.expect(&[")"])?;
            return Ok(Parsed { expr: inner, start: at, is_new_array: false });
        }
        if self.take("new") {
            return self.creation(at);
        }
        if self.take("Port") {
            self.expect(&["."])?;
            self.word("get")?;
            let register = self.in_parentheses()?;
            return Ok(plain(at, ExprKind::Get(Box::new(register))));
        }
        if self.take("true") {
            return Ok(plain(at, ExprKind::Truth(true)));
        }
        if self.take("false") {
            return Ok(plain(at, ExprKind::Truth(false)));
        }
        if self.take("this") {
            return Ok(plain(at, ExprKind::This));
        }
        if let Some(literal) = self.literal() {
            self.next += 1;
            return Ok(plain(at, literal));
        }
        let id = self.id()?;
        Ok(plain(at, ExprKind::Name(id.name)))
    }

    /// The literal that stands here, if one does.
    fn literal(&self) -> Option<ExprKind> {
        match self.tokens.get(self.next)?.kind {
            Kind::Literal(value) => Some(ExprKind::Literal(value)),
            Kind::FixedLiteral(count) => Some(ExprKind::FixedLiteral(count)),
            _ => None,
        }
    }

    fn creation(&mut self, at: usize) -> Result<Parsed, Refusal> {
        let type_at = self.at();
        let ty = if self.take("int") {
            Element::Int
        } else if self.take("boolean") {
            Element::Boolean
        } else {
            let class = self.id()?;
            if self.take("(") {
                self.expect(&[")"])?;
                return Ok(plain(at, ExprKind::NewObject(class)));
            }
            Element::Class(class.name)
        };
        self.expect(&["["])?;
        let size = Box::new(self.expr()?);
        self.expect(&["]"])?;
        let elements = Elements { ty, at: type_at };
        Ok(Parsed { is_new_array: true, ..plain(at, ExprKind::NewArray { elements, size }) })
    }
}

pub fn program(tokens: &[Token], end: usize) -> Result<Program, Refusal> {
    Parser { tokens, next: 0, end }.program()
}

pub fn library(tokens: &[Token], end: usize) -> Result<Vec<Class>, Refusal> {
    Parser { tokens, next: 0, end }.classes()
}
