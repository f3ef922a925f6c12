//! Lessons that Check accepts, from a seed: classes with parents, fields, methods and bodies, each expression made for the type that its place needs.

use crate::random::Random;

#[derive(Clone, Copy, PartialEq, Eq)]
enum Element {
    Int,
    Boolean,
    Fixed,
    Class(usize),
}

#[derive(Clone, Copy, PartialEq, Eq)]
struct Type {
    element: Element,
    is_array: bool,
}

const INT: Type = Type { element: Element::Int, is_array: false };
const BOOLEAN: Type = Type { element: Element::Boolean, is_array: false };
const FIXED: Type = Type { element: Element::Fixed, is_array: false };

fn object(class: usize) -> Type {
    Type { element: Element::Class(class), is_array: false }
}

#[derive(Clone)]
struct Head {
    name: String,
    result: Type,
    parameters: Vec<Type>,
}

struct Shape {
    name: String,
    parent: Option<usize>,
    fields: Vec<(String, Type)>,
    methods: Vec<Head>,
}

/// How large a lesson becomes.
pub struct Size {
    pub classes: usize,
    pub members: usize,
    pub statements: usize,
    pub depth: usize,
}

/// What a body can name: variables and fields, and `this`.
struct Scope {
    variables: Vec<(String, Type)>,
    class: Option<usize>,
    /// Loops end by a counter that nothing else writes.
    counters: usize,
}

pub struct Generator<'a> {
    random: &'a mut Random,
    shapes: Vec<Shape>,
    size: Size,
}

/// Few names, so that fields are hidden, methods redeclared, and names shared by fields, methods, locals and classes.
const NAMES: [&str; 8] = ["a", "b", "out", "get", "x1", "length_", "println", "put"];
const LITERALS: [&str; 14] = ["0", "1", "2", "3", "7", "15", "16", "99", "255", "256", "46341", "65536", "2147483647", "1000000007"];
const FIXED_LITERALS: [&str; 12] = ["0.000", "0.001", "0.002", "0.500", "0.999", "1.000", "1.001", "1.500", "12.600", "46.341", "1465.000", "2147483.647"];

/// The name of every main class.
pub const MAIN: &str = "Main";

impl Generator<'_> {
    fn ty(&mut self) -> Type {
        if self.random.once_in(6) { FIXED } else { self.storable() }
    }

    /// A type that the grammar gives arrays of, or such an array.
    fn storable(&mut self) -> Type {
        let element = match self.random.below(4) {
            0 if !self.shapes.is_empty() => Element::Class(self.random.below(self.shapes.len())),
            1 => Element::Boolean,
            _ => Element::Int,
        };
        Type { element, is_array: self.random.once_in(4) }
    }

    /// The type of something that is printed, compared or calculated with.
    fn number_type(&mut self) -> Type {
        if self.random.once_in(4) { FIXED } else { INT }
    }

    fn type_text(&self, ty: Type) -> String {
        let element = match ty.element {
            Element::Int => "int",
            Element::Boolean => "boolean",
            Element::Fixed => "fixed",
            Element::Class(k) => &self.shapes[k].name,
        };
        format!("{}{}", element, if ty.is_array { "[]" } else { "" })
    }

    /// The class and those above it, by their numbers.
    fn chain(&self, class: usize) -> Vec<usize> {
        let mut chain = vec![class];
        while let Some(parent) = self.shapes[chain[chain.len() - 1]].parent {
            chain.push(parent);
        }
        chain
    }

    fn head(&self, class: usize, name: &str) -> Option<Head> {
        self.chain(class).iter().find_map(|&c| self.shapes[c].methods.iter().find(|m| m.name == name).cloned())
    }

    fn fits(&self, ty: Type, wanted: Type) -> bool {
        match (ty, wanted) {
            (Type { element: Element::Class(a), is_array: false }, Type { element: Element::Class(b), is_array: false }) => self.chain(a).contains(&b),
            _ => ty == wanted,
        }
    }

    /// Names, parents, fields and heads. Parents may stand after their children; a method that redeclares one has its parameters.
    fn declare(&mut self) {
        let count = self.random.below(self.size.classes + 1);
        let order: Vec<usize> = {
            let mut order: Vec<usize> = (0..count).collect();
            for k in (1..count).rev() {
                order.swap(k, self.random.below(k + 1));
            }
            order
        };
        for k in 0..count {
            let name = if self.random.once_in(6) { format!("{}{}", self.random.pick(&NAMES), k) } else { format!("C{}", k) };
            self.shapes.push(Shape { name, parent: None, fields: Vec::new(), methods: Vec::new() });
        }
        for k in 1..count {
            if !self.random.once_in(3) {
                self.shapes[order[k]].parent = Some(order[self.random.below(k)]);
            }
        }
        for &class in &order {
            for _ in 0..self.random.below(self.size.members + 1) {
                let name = self.random.pick(&NAMES).to_owned();
                let ty = self.ty();
                if !self.shapes[class].fields.iter().any(|(n, _)| *n == name) {
                    self.shapes[class].fields.push((name, ty));
                }
            }
            for _ in 0..self.random.below(self.size.members + 1) {
                let name = self.random.pick(&NAMES).to_owned();
                if self.shapes[class].methods.iter().any(|m| m.name == name) {
                    continue;
                }
                let head = match self.head(class, &name) {
                    Some(upper) => upper,
                    None => {
                        let parameters = (0..self.random.below(4)).map(|_| self.ty()).collect();
                        Head { name, result: self.ty(), parameters }
                    }
                };
                let result = match head.result {
                    Type { element: Element::Class(k), is_array: false } => object(self.subclass(k)),
                    other => other,
                };
                self.shapes[class].methods.push(Head { result, ..head });
            }
        }
    }

    /// The class or one that extends it.
    fn subclass(&mut self, class: usize) -> usize {
        let below: Vec<usize> = (0..self.shapes.len()).filter(|&k| self.chain(k).contains(&class)).collect();
        self.random.pick(&below)
    }

    fn names(&self, scope: &Scope) -> Vec<(String, Type)> {
        let mut seen = scope.variables.clone();
        for class in scope.class.map_or(Vec::new(), |c| self.chain(c)) {
            for (name, ty) in &self.shapes[class].fields {
                if !seen.iter().any(|(n, _)| n == name) {
                    seen.push((name.clone(), *ty));
                }
            }
        }
        seen
    }

    /// An expression of a type that fits.
    fn expr(&mut self, scope: &Scope, wanted: Type, depth: usize) -> String {
        if depth > 0 && self.random.once_in(8) {
            return format!("({})", self.expr(scope, wanted, depth - 1));
        }
        if depth > 0 && self.random.once_in(3) {
            if let Some(call) = self.call(scope, wanted, depth) {
                return call;
            }
        }
        if self.random.once_in(2) {
            let fitting: Vec<String> = self.names(scope).into_iter().filter(|(_, ty)| self.fits(*ty, wanted)).map(|(n, _)| n).collect();
            if !fitting.is_empty() {
                return self.random.pick(&fitting);
            }
        }
        if depth > 0 && !wanted.is_array && wanted != FIXED && self.random.once_in(6) {
            let array = Type { is_array: true, ..wanted };
            let whole = self.expr(scope, array, depth - 1);
            let index = self.expr(scope, INT, depth - 1);
            return format!("({})[{}]", whole, index);
        }
        match wanted {
            Type { is_array: true, .. } => {
                let ty = self.type_text(Type { is_array: false, ..wanted });
                let size = if self.random.once_in(5) { self.expr(scope, INT, depth.saturating_sub(1)) } else { self.random.below(6).to_string() };
                format!("(new {}[{}])", ty, size)
            }
            INT => self.integer(scope, depth),
            BOOLEAN => self.boolean(scope, depth),
            FIXED => self.fixed(scope, depth),
            Type { element: Element::Class(class), .. } => match scope.class {
                Some(own) if self.fits(object(own), wanted) && self.random.once_in(2) => "this".to_owned(),
                _ => {
                    let class = self.subclass(class);
                    format!("new {}()", self.shapes[class].name)
                }
            },
        }
    }

    fn integer(&mut self, scope: &Scope, depth: usize) -> String {
        if depth == 0 || self.random.once_in(4) {
            return self.random.pick(&LITERALS).to_owned();
        }
        match self.random.below(10) {
            0 => {
                let array = Type { is_array: true, ..self.storable() };
                format!("{}.length", self.expr(scope, array, depth - 1))
            }
            1 => format!("Port.get({})", self.register(scope, depth - 1)),
            _ => self.calculation(scope, INT, depth),
        }
    }

    fn fixed(&mut self, scope: &Scope, depth: usize) -> String {
        if depth == 0 || self.random.once_in(4) {
            return self.random.pick(&FIXED_LITERALS).to_owned();
        }
        self.calculation(scope, FIXED, depth)
    }

    /// A sum, difference or product of a type.
    fn calculation(&mut self, scope: &Scope, ty: Type, depth: usize) -> String {
        let left = self.expr(scope, ty, depth - 1);
        let right = self.expr(scope, ty, depth - 1);
        let mark = self.random.pick(&["+", "-", "*"]);
        if self.random.once_in(3) { format!("{}{}({})", left, mark, right) } else { format!("({}){}{}", left, mark, right) }
    }

    /// Mostly one of the registers that do something.
    fn register(&mut self, scope: &Scope, depth: usize) -> String {
        if self.random.once_in(12) {
            return self.expr(scope, INT, depth);
        }
        if self.random.once_in(4) { self.random.below(16).to_string() } else { self.random.below(3).to_string() }
    }

    fn boolean(&mut self, scope: &Scope, depth: usize) -> String {
        if depth == 0 || self.random.once_in(5) {
            return ["true", "false"][self.random.below(2)].to_owned();
        }
        match self.random.below(4) {
            0 if self.random.once_in(2) => format!("!{}", self.expr(scope, BOOLEAN, 0)),
            0 => format!("!({})", self.expr(scope, BOOLEAN, depth - 1)),
            1 => format!("({})&&({})", self.expr(scope, BOOLEAN, depth - 1), self.expr(scope, BOOLEAN, depth - 1)),
            _ => {
                let ty = self.number_type();
                let left = self.expr(scope, ty, depth - 1);
                format!("({})<({})", left, self.expr(scope, ty, depth - 1))
            }
        }
    }

    /// A call whose result fits, of a method of any class.
    fn call(&mut self, scope: &Scope, wanted: Type, depth: usize) -> Option<String> {
        let mut found = Vec::new();
        for class in 0..self.shapes.len() {
            for above in self.chain(class) {
                for method in &self.shapes[above].methods {
                    if self.head(class, &method.name).map_or(false, |h| self.fits(h.result, wanted)) {
                        found.push((class, method.name.clone()));
                    }
                }
            }
        }
        if found.is_empty() {
            return None;
        }
        let (class, name) = self.random.pick(&found);
        let head = self.head(class, &name)?;
        let receiver = self.expr(scope, object(class), depth.saturating_sub(2));
        let arguments: Vec<String> = head.parameters.iter().map(|&p| self.expr(scope, p, depth.saturating_sub(2))).collect();
        Some(format!("({}).{}({})", receiver, name, arguments.join(",")))
    }

    fn statement(&mut self, scope: &mut Scope, depth: usize) -> String {
        let names = self.names(scope);
        match self.random.below(if depth > 0 { 10 } else { 6 }) {
            0 | 1 => {
                let ty = self.number_type();
                format!("System.out.println({});", self.expr(scope, ty, self.size.depth))
            }
            2 => {
                let register = self.register(scope, 1);
                let value = if self.random.once_in(6) { self.expr(scope, INT, 1) } else { self.random.below(256).to_string() };
                format!("Port.put({},{});", register, value)
            }
            3 | 4 if !names.is_empty() => {
                let (name, ty) = self.random.pick(&names);
                if ty.is_array && self.random.once_in(2) {
                    let index = if self.random.once_in(4) { self.expr(scope, INT, 2) } else { self.random.below(4).to_string() };
                    let value = self.expr(scope, Type { is_array: false, ..ty }, self.size.depth);
                    return format!("{}[{}]={};", name, index, value);
                }
                format!("{}={};", name, self.expr(scope, ty, self.size.depth))
            }
            6 => {
                let test = self.expr(scope, BOOLEAN, self.size.depth);
                let yes = self.statement(scope, depth - 1);
                let no = self.statement(scope, depth - 1);
                format!("if({}){}else {}", test, yes, no)
            }
            7 if scope.class.is_some() && scope.counters < 3 => {
                let counter = format!("k{}", scope.counters);
                scope.counters += 1;
                let rounds = self.random.below(9);
                let body = self.statement(scope, depth - 1);
                format!("while({}<{}){{{}={}+1;{}}}", counter, rounds, counter, counter, body)
            }
            8 if self.random.once_in(4) => {
                let test = self.expr(scope, BOOLEAN, self.size.depth);
                format!("while({}){}", test, self.statement(scope, depth - 1))
            }
            5..=9 => {
                let count = self.random.below(self.size.statements + 1);
                let body: String = (0..count).map(|_| self.statement(scope, depth.saturating_sub(1))).collect();
                format!("{{{}}}", body)
            }
            _ => "{}".to_owned(),
        }
    }

    fn method(&mut self, class: usize, head: &Head) -> String {
        let mut variables: Vec<(String, Type)> = head.parameters.iter().enumerate().map(|(k, &p)| (format!("p{}", k), p)).collect();
        let parameters: Vec<String> = variables.iter().map(|(name, ty)| format!("{} {}", self.type_text(*ty), name)).collect();
        let mut locals = String::from("int k0;int k1;int k2;");
        for _ in 0..self.random.below(4) {
            let name = self.random.pick(&NAMES).to_owned();
            if !variables.iter().any(|(n, _)| *n == name) {
                let ty = self.ty();
                locals += &format!("{} {};", self.type_text(ty), name);
                variables.push((name, ty));
            }
        }
        let mut scope = Scope { variables, class: Some(class), counters: 0 };
        let body: String = (0..self.random.below(self.size.statements + 1)).map(|_| self.statement(&mut scope, 2)).collect();
        let value = self.expr(&scope, head.result, self.size.depth);
        format!("public {} {}({}){{{}{}return {};}}", self.type_text(head.result), head.name, parameters.join(","), locals, body, value)
    }

    fn class(&mut self, class: usize) -> String {
        let parent = self.shapes[class].parent.map_or(String::new(), |p| format!(" extends {}", self.shapes[p].name));
        let fields: String = self.shapes[class].fields.iter().map(|(name, ty)| format!("{} {};", self.type_text(*ty), name)).collect();
        let heads = self.shapes[class].methods.clone();
        let methods: String = heads.iter().map(|h| self.method(class, h)).collect();
        format!("class {}{}{{{}{}}}", self.shapes[class].name, parent, fields, methods)
    }

    fn program(&mut self) -> String {
        self.declare();
        let mut scope = Scope { variables: Vec::new(), class: None, counters: 0 };
        let count = 1 + self.random.below(self.size.statements + 1);
        let main: String = (0..count).map(|_| self.statement(&mut scope, 3)).collect();
        format!("class {}{{public static void main(String[] a){{{{{}}}}}}}{}", MAIN, main, self.classes())
    }

    fn classes(&mut self) -> String {
        (0..self.shapes.len()).map(|k| self.class(k)).collect()
    }
}

pub fn lesson(random: &mut Random, size: Size) -> String {
    Generator { random, shapes: Vec::new(), size }.program()
}

/// The classes of such a lesson alone; some have names that lessons have.
pub fn library(random: &mut Random, size: Size) -> String {
    let mut generator = Generator { random, shapes: Vec::new(), size };
    generator.declare();
    generator.classes()
}
