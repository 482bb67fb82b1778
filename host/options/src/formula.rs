//! Formulas of surfaces, `x = ..; y = ..; z = ..` in u and v, and constants such as `2*pi`.
//!
//! ```text
//! formula    = coordinate (";" coordinate)* [";"]     each of x, y and z once
//! coordinate = ("x" | "y" | "z") "=" sum
//! sum        = product (("+" | "-") product)*
//! product    = signed (("*" | "/") signed)*
//! signed     = ("+" | "-")* power
//! power      = atom ["^" signed]
//! atom       = number | "u" | "v" | "pi" | "(" sum ")" | ("sin" | "cos" | "sqrt") "(" sum ")"
//! ```
//!
//! So `-u^2` is -(u^2), and `2^u^v` is 2^(u^v). The signs −, ×, ·, ÷ and π are read too.

use std::f64::consts::PI;

/// How deep parentheses and powers may stand in each other: the parser calls itself for each.
const DEEPEST: usize = 100;

/// The most characters of a formula that are shown around a fault.
const SHOWN: usize = 72;

/// What is wrong with a formula, and at which of its characters.
#[derive(Debug, Clone, PartialEq, Eq)]
pub struct Fault {
    /// The number of the character.
    pub at: usize,
    /// What is wrong there.
    pub sentence: String,
}

impl Fault {
    /// The sentence, the line of the text that it is about, and a caret under the place.
    pub fn show(&self, text: &str) -> String {
        let characters: Vec<char> = text.chars().collect();
        let (before, after) = characters.split_at(self.at.min(characters.len()));
        let start = before.iter().rposition(|c| *c == '\n').map_or(0, |i| i + 1);
        let start = start.max(before.len().saturating_sub(SHOWN / 2));
        let end = after.iter().position(|c| *c == '\n');
        let end = end.map_or(characters.len(), |i| before.len() + i);
        let end = end.min(start + SHOWN);
        let line: String = characters[start..end]
            .iter()
            .map(|c| if c.is_control() { ' ' } else { *c })
            .collect();
        let indent = " ".repeat(before.len() - start);
        format!("{}\n    {line}\n    {indent}^", self.sentence)
    }
}

/// One step of a computation on a stack.
#[derive(Debug, Clone, Copy, PartialEq)]
enum Step {
    Number(f64),
    U,
    V,
    Unary(Unary),
    Binary(Binary),
}

#[derive(Debug, Clone, Copy, PartialEq)]
enum Unary {
    Negate,
    Sin,
    Cos,
    Sqrt,
}

#[derive(Debug, Clone, Copy, PartialEq)]
enum Binary {
    Add,
    Subtract,
    Multiply,
    Divide,
    Power,
}

/// The steps of an expression, operands before their operator.
#[derive(Debug, Clone, PartialEq)]
struct Expression(Vec<Step>);

impl Expression {
    fn at(&self, u: f64, v: f64) -> f64 {
        let mut stack = Vec::new();
        for step in &self.0 {
            let value = match *step {
                Step::Number(value) => value,
                Step::U => u,
                Step::V => v,
                Step::Unary(operator) => operator.of(pop(&mut stack)),
                Step::Binary(operator) => {
                    let right = pop(&mut stack);
                    operator.of(pop(&mut stack), right)
                }
            };
            stack.push(value);
        }
        pop(&mut stack)
    }
}

fn pop(stack: &mut Vec<f64>) -> f64 {
    stack
        .pop()
        .expect("the parser puts operands before their operator")
}

impl Unary {
    fn of(self, x: f64) -> f64 {
        match self {
            Self::Negate => -x,
            Self::Sin => x.sin(),
            Self::Cos => x.cos(),
            Self::Sqrt => x.sqrt(),
        }
    }
}

impl Binary {
    fn of(self, x: f64, y: f64) -> f64 {
        match self {
            Self::Add => x + y,
            Self::Subtract => x - y,
            Self::Multiply => x * y,
            Self::Divide => x / y,
            Self::Power => x.powf(y),
        }
    }
}

/// The three coordinates of a surface.
#[derive(Debug, Clone, PartialEq)]
pub struct Formula([Expression; 3]);

impl Formula {
    /// The formula that a text gives.
    ///
    /// # Errors
    /// The first fault of the text.
    pub fn parse(text: &str) -> Result<Self, Fault> {
        let mut parser = Parser::new(text, true);
        let mut found = [const { None }; 3];
        loop {
            let start = parser.skip_space();
            let axis = parser.axis()?;
            if found[axis].is_some() {
                return Err(fault(start, "this coordinate is given twice"));
            }
            found[axis] = Some(parser.expression()?);
            if parser.take(';').is_none() {
                parser.end("an operator or ';' belongs here")?;
            }
            if parser.peek().is_none() {
                break;
            }
        }
        let end = parser.at;
        let [x, y, z] = found;
        let given = |e: Option<_>, name| e.ok_or_else(|| fault(end, missing(name)));
        Ok(Self([given(x, 'x')?, given(y, 'y')?, given(z, 'z')?]))
    }

    /// The point of the surface at u and v.
    pub fn at(&self, u: f64, v: f64) -> [f64; 3] {
        self.0.each_ref().map(|coordinate| coordinate.at(u, v))
    }
}

fn missing(name: char) -> String {
    format!("{name} is missing: a formula gives x, y and z")
}

/// The value of an expression without u and v.
///
/// # Errors
/// The first fault of the text.
pub fn constant(text: &str) -> Result<f64, Fault> {
    let mut parser = Parser::new(text, false);
    let expression = parser.expression()?;
    parser.end("an operator belongs here")?;
    Ok(expression.at(0.0, 0.0))
}

fn fault(at: usize, sentence: impl Into<String>) -> Fault {
    let sentence = sentence.into();
    Fault { at, sentence }
}

struct Parser {
    characters: Vec<char>,
    at: usize,
    depth: usize,
    steps: Vec<Step>,
    /// Whether u and v may stand in the text.
    variables: bool,
}

impl Parser {
    fn new(text: &str, variables: bool) -> Self {
        let plain = |c| match c {
            '−' => '-',
            '×' | '·' => '*',
            '÷' => '/',
            _ => c,
        };
        Self {
            characters: text.chars().map(plain).collect(),
            at: 0,
            depth: 0,
            steps: Vec::new(),
            variables,
        }
    }

    /// The place of the next character that is no space.
    fn skip_space(&mut self) -> usize {
        self.at += self.run(char::is_whitespace);
        self.at
    }

    /// How many of the next characters are of a kind.
    fn run(&self, kind: impl Fn(char) -> bool) -> usize {
        let rest = &self.characters[self.at..];
        rest.iter().take_while(|c| kind(**c)).count()
    }

    fn peek(&mut self) -> Option<char> {
        let at = self.skip_space();
        self.characters.get(at).copied()
    }

    fn take(&mut self, wanted: char) -> Option<()> {
        (self.peek() == Some(wanted)).then(|| self.at += 1)
    }

    /// The next character if it is one of two, and whether it is the first.
    fn take_either(&mut self, first: char, second: char) -> Option<bool> {
        let is_first = self.take(first).is_some();
        (is_first || self.take(second).is_some()).then_some(is_first)
    }

    fn here(&mut self, sentence: impl Into<String>) -> Fault {
        fault(self.skip_space(), sentence)
    }

    /// The end of the text, or the fault that something else follows.
    fn end(&mut self, wanted: &str) -> Result<(), Fault> {
        match self.peek() {
            None => Ok(()),
            Some(')') => Err(self.here("this ')' closes nothing")),
            Some(_) => Err(self.here(wanted)),
        }
    }

    /// `x =`, `y =` or `z =`.
    fn axis(&mut self) -> Result<usize, Fault> {
        let axis = self.peek().and_then(|c| "xyz".find(c));
        let axis = axis.ok_or_else(|| self.here("'x =', 'y =' or 'z =' belongs here"))?;
        self.at += 1;
        match self.take('=') {
            Some(()) => Ok(axis),
            None => Err(self.here("'=' belongs here")),
        }
    }

    fn expression(&mut self) -> Result<Expression, Fault> {
        self.sum()?;
        Ok(Expression(std::mem::take(&mut self.steps)))
    }

    fn binary(&mut self, operator: Binary) {
        self.steps.push(Step::Binary(operator));
    }

    fn sum(&mut self) -> Result<(), Fault> {
        self.product()?;
        while let Some(plus) = self.take_either('+', '-') {
            self.product()?;
            self.binary(if plus { Binary::Add } else { Binary::Subtract });
        }
        Ok(())
    }

    fn product(&mut self) -> Result<(), Fault> {
        self.signed()?;
        while let Some(times) = self.take_either('*', '/') {
            self.signed()?;
            self.binary(if times {
                Binary::Multiply
            } else {
                Binary::Divide
            });
        }
        Ok(())
    }

    fn signed(&mut self) -> Result<(), Fault> {
        let mut negative = false;
        while let Some(plus) = self.take_either('+', '-') {
            negative ^= !plus;
        }
        self.power()?;
        if negative {
            self.steps.push(Step::Unary(Unary::Negate));
        }
        Ok(())
    }

    fn power(&mut self) -> Result<(), Fault> {
        if self.depth == DEEPEST {
            let sentence = format!("parentheses and powers stand more than {DEEPEST} deep here");
            return Err(self.here(sentence));
        }
        self.depth += 1;
        self.atom()?;
        if self.take('^').is_some() {
            self.signed()?;
            self.binary(Binary::Power);
        }
        self.depth -= 1;
        Ok(())
    }

    fn atom(&mut self) -> Result<(), Fault> {
        match self.peek() {
            Some('(') => self.parenthesis(),
            Some('0'..='9' | '.') => self.number(),
            Some(c) if c.is_alphabetic() => self.name(),
            _ => Err(self.here("a number, a name or '(' belongs here")),
        }
    }

    fn parenthesis(&mut self) -> Result<(), Fault> {
        self.at += 1;
        self.sum()?;
        match self.take(')') {
            Some(()) => Ok(()),
            None => Err(self.here("an operator or ')' belongs here")),
        }
    }

    fn number(&mut self) -> Result<(), Fault> {
        let start = self.at;
        self.at += self.run(|c| c.is_ascii_digit());
        if self.characters.get(self.at) == Some(&'.') {
            self.at += 1;
            self.at += self.run(|c| c.is_ascii_digit());
        }
        if let Some('e' | 'E') = self.characters.get(self.at) {
            self.at += 1;
            if let Some('+' | '-') = self.characters.get(self.at) {
                self.at += 1;
            }
            self.at += self.run(|c| c.is_ascii_digit());
        }
        let digits: String = self.characters[start..self.at].iter().collect();
        match digits.parse::<f64>() {
            Ok(value) if value.is_finite() => self.steps.push(Step::Number(value)),
            Ok(_) => return Err(fault(start, "this number is too large")),
            Err(_) => return Err(fault(start, "this is no number")),
        }
        Ok(())
    }

    fn name(&mut self) -> Result<(), Fault> {
        let start = self.at;
        self.at += self.run(char::is_alphanumeric);
        let name: String = self.characters[start..self.at].iter().collect();
        let step = match name.as_str() {
            "pi" | "π" => Step::Number(PI),
            "u" if self.variables => Step::U,
            "v" if self.variables => Step::V,
            "sin" => return self.function(Unary::Sin, &name),
            "cos" => return self.function(Unary::Cos, &name),
            "sqrt" => return self.function(Unary::Sqrt, &name),
            _ => {
                let variables = if self.variables { "u, v, " } else { "" };
                let known = format!("{variables}pi, sin, cos and sqrt");
                return Err(fault(start, format!("this is none of {known}")));
            }
        };
        self.steps.push(step);
        Ok(())
    }

    fn function(&mut self, function: Unary, name: &str) -> Result<(), Fault> {
        if self.peek() != Some('(') {
            return Err(self.here(format!("'(' belongs here, after {name}")));
        }
        self.parenthesis()?;
        self.steps.push(Step::Unary(function));
        Ok(())
    }
}

#[cfg(test)]
mod tests {
    use super::*;

    fn value(text: &str) -> f64 {
        constant(text).unwrap_or_else(|fault| panic!("{}", fault.show(text)))
    }

    /// x of a formula at u = 3, v = 5.
    fn x(text: &str) -> f64 {
        let whole = format!("x = {text}; y = 0; z = 0");
        Formula::parse(&whole).expect("a formula").at(3.0, 5.0)[0]
    }

    fn fault_of(text: &str) -> Fault {
        Formula::parse(text).expect_err("a fault")
    }

    #[test]
    fn precedence() {
        assert_eq!(value("2 + 3*4"), 14.0);
        assert_eq!(value("(2 + 3)*4"), 20.0);
        assert_eq!(value("2*3^2"), 18.0);
        assert_eq!(value("-3^2"), -9.0);
        assert_eq!(value("(-3)^2"), 9.0);
        assert_eq!(value("2^-1"), 0.5);
        assert_eq!(value("2*-3"), -6.0);
        assert_eq!(value("1 - -1"), 2.0);
        assert_eq!(value("--2"), 2.0);
        assert_eq!(value("+2"), 2.0);
        assert_eq!(x("-u^2"), -9.0);
        assert_eq!(x("-u*v"), -15.0);
    }

    #[test]
    fn associativity() {
        assert_eq!(value("10 - 4 - 3"), 3.0);
        assert_eq!(value("24/4/3"), 2.0);
        assert_eq!(value("12/3*2"), 8.0);
        assert_eq!(value("2^3^2"), 512.0);
        assert_eq!(value("2^-3^2"), 1.0 / 512.0);
    }

    #[test]
    fn numbers_names_and_functions() {
        assert_eq!(value("1.5e2"), 150.0);
        assert_eq!(value("2E-1"), 0.2);
        assert_eq!(value(".5"), 0.5);
        assert_eq!(value("2."), 2.0);
        assert_eq!(value("cos(pi)"), -1.0);
        assert_eq!(value("sin(0) + sqrt(9)"), 3.0);
        assert_eq!(x("u + v"), 8.0);
        assert_eq!(value("2 × π ÷ 4 − 1 · 3"), PI / 2.0 - 3.0);
    }

    #[test]
    fn coordinates_in_any_order() {
        let formula = Formula::parse(" z=1;x = u ;\n y = v; ").expect("a formula");
        assert_eq!(formula.at(3.0, 5.0), [3.0, 5.0, 1.0]);
    }

    #[test]
    fn faults_stand_at_their_place() {
        let cases = [
            ("", 0, "'x =', 'y =' or 'z ='"),
            ("x = u; y = v", 12, "z is missing"),
            ("x = u; x = v", 7, "twice"),
            ("x u", 2, "'='"),
            ("w = u", 0, "'x ='"),
            ("x = 2u; y = v; z = 0", 5, "an operator or ';'"),
            ("x = (u; y = v; z = 0", 6, "an operator or ')'"),
            ("x = u); y = v; z = 0", 5, "closes nothing"),
            ("x = u +; y = v; z = 0", 7, "a number, a name or '('"),
            ("x = u *", 7, "a number, a name or '('"),
            ("x = * u", 4, "a number, a name or '('"),
            ("x = sin u", 8, "after sin"),
            ("x = tan(u)", 4, "none of u, v, pi"),
            ("x = uv", 4, "none of u, v, pi"),
            ("x = 1e; y = v", 4, "no number"),
            ("x = .; y = v", 4, "no number"),
            ("x = 1e999", 4, "too large"),
            ("x = 1 $ 2", 6, "an operator or ';'"),
            ("x = u − ", 8, "a number"),
        ];
        for (text, at, part) in cases {
            let fault = fault_of(text);
            assert_eq!(fault.at, at, "{text}: {}", fault.sentence);
            assert!(fault.sentence.contains(part), "{text}: {}", fault.sentence);
        }
        assert_eq!(constant("2*u").expect_err("a fault").at, 2);
        assert_eq!(constant("2 3").expect_err("a fault").at, 2);
    }

    #[test]
    fn a_caret_stands_under_the_place() {
        let text = "x = u − tan(v); y = v; z = 0";
        let shown = fault_of(text).show(text);
        let lines: Vec<_> = shown.lines().collect();
        assert_eq!(lines[1], format!("    {text}"));
        assert_eq!(lines[2], format!("    {}^", " ".repeat(8)));
        let text = "x = u;\ny = 2v;\nz = 0";
        assert!(
            fault_of(text)
                .show(text)
                .ends_with("\n    y = 2v;\n         ^")
        );
    }

    #[test]
    fn a_caret_in_a_long_formula() {
        let text = format!("x = {}tan(v); y = 0; z = 0", "u + ".repeat(10_000));
        let shown = fault_of(&text).show(&text);
        let lines: Vec<_> = shown.lines().collect();
        assert!(lines[1].chars().count() <= SHOWN + 4);
        let caret = lines[2].find('^').expect("a caret");
        assert!(lines[1][caret..].starts_with("tan(v)"));
    }

    #[test]
    fn nesting_is_limited() {
        let nested = |depth: usize| format!("{}u{}", "(".repeat(depth), ")".repeat(depth));
        assert_eq!(x(&nested(DEEPEST - 1)), 3.0);
        let powers = |depth: usize| vec!["1"; depth].join("^");
        assert_eq!(value(&powers(DEEPEST)), 1.0);
        let deep = [
            nested(DEEPEST),
            nested(1_000_000),
            "(".repeat(1_000_000),
            "sin(".repeat(1_000_000),
            powers(1_000_000),
        ];
        for text in deep {
            let fault = fault_of(&format!("x = {text}; y = 0; z = 0"));
            assert!(fault.sentence.contains("more than 100 deep"));
        }
    }

    #[test]
    fn long_formulas_are_read() {
        let sum = vec!["1"; 500_000].join(" + ");
        assert_eq!(value(&sum), 500_000.0);
        assert_eq!(value(&format!("{}1", "-".repeat(1_000_001))), -1.0);
    }
}
