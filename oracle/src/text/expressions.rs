//! Expressions in text, both ways. Neither way recurses: a file or text may nest as deep as it likes.

use super::lexer::{Error, Token};
use super::make::Maker;
use super::show::Printer;
use super::words::{self, Spelling};
use crate::records::{join, split, tag};

/// What is still to be written of an expression.
enum Step {
    Lit(&'static str),
    Size(u32),
    Operator(u32, u32),
    /// An expression lower than the bound; on top it needs no parentheses.
    Node { number: u32, below: usize, top: bool },
    /// The end of an expression: `#` and its number where that is not the next.
    Done(u32),
}

impl Printer<'_> {
    /// Writes an expression; `?` and its number if it is not to be had or stands elsewhere already.
    pub fn expression(&mut self, root: u32) {
        let below = self.records.expressions.len();
        let mut steps = vec![Step::Node { number: root, below, top: true }];
        while let Some(step) = steps.pop() {
            match step {
                Step::Lit(s) => self.out.push_str(s),
                Step::Size(n) => self.out.push_str(&n.to_string()),
                Step::Operator(start, length) => self.text(Spelling::Operator, start, length),
                Step::Done(number) => {
                    if self.next != u64::from(number) {
                        self.out.push_str(&format!("#{number}"));
                    }
                    self.next = u64::from(number) + 1;
                }
                Step::Node { number, below, .. } if number as usize >= below || self.written[number as usize] => {
                    self.out.push_str(&format!("?{number}"));
                }
                Step::Node { number, top, .. } => {
                    self.written[number as usize] = true;
                    let steps_from = steps.len();
                    self.node(number, top, &mut steps);
                    steps.push(Step::Done(number));
                    steps[steps_from..].reverse();
                }
            }
        }
    }

    /// Writes a leaf, or adds what is to be written, in order.
    fn node(&mut self, number: u32, top: bool, steps: &mut Vec<Step>) {
        let [tag, a, b, c, d] = self.records.expressions[number as usize];
        let child = |number_of: u32, top: bool| Step::Node { number: number_of, below: number as usize, top };
        match tag {
            tag::CONST => self.out.push_str(&words::constant(join(a, b))),
            tag::USE => self.value(a, b),
            tag::OPAQUE => self.text(Spelling::Quoted, a, b),
            tag::BIN => {
                // A number of its own needs the parentheses to stand behind.
                let bare = top && u64::from(number) == u64::from(d) + 1;
                let (open, close) = if bare { ("", "") } else { ("(", ")") };
                steps.extend([Step::Lit(open), child(c, false), Step::Lit(" "), Step::Operator(a, b)]);
                steps.extend([Step::Lit(" "), child(d, false), Step::Lit(close)]);
            }
            tag::UN => steps.extend([Step::Operator(a, b), Step::Lit("("), child(c, true), Step::Lit(")")]),
            tag::LOAD => {
                steps.extend([Step::Lit("load "), Step::Size(a), Step::Lit(" ["), child(b, true), Step::Lit("]")]);
            }
            _ => self.out.push_str(&format!("?tag {:?}", [tag, a, b, c, d])),
        }
    }
}

/// What an open bracket waits for.
enum Close {
    /// Nothing: the expression of a statement.
    Top,
    /// `)` around two operands.
    Group,
    /// `)` behind an operator's one operand.
    Un([u32; 2]),
    /// `]` of a load of a size.
    Load(u32),
}

struct Open {
    close: Close,
    /// The left operand and the operator, once they are read.
    left: Option<(u32, [u32; 2])>,
}

impl Maker {
    /// Reads an expression and returns its number.
    pub fn expression(&mut self) -> Result<u32, Error> {
        let mut open = vec![Open { close: Close::Top, left: None }];
        loop {
            let Some(leaf) = self.operand(&mut open)? else { continue };
            let mut done = self.number(leaf)?;
            // Close whatever this operand completes.
            loop {
                let Some(Open { close, left }) = open.pop() else { return Ok(done) };
                let two = match left {
                    Some((left, [start, length])) => Some([tag::BIN, start, length, left, done]),
                    None if self.at_operator() => {
                        let operator = self.text(Spelling::Operator)?;
                        open.push(Open { close, left: Some((done, operator)) });
                        break;
                    }
                    None => None,
                };
                if let Close::Group = close {
                    let Some(two) = two else { return Err(self.expected("an operator")) };
                    self.literal(")")?;
                    done = self.number(two)?;
                    continue;
                }
                if let Some(two) = two {
                    done = self.number_next(two)?;
                }
                done = match close {
                    Close::Top | Close::Group => return Ok(done),
                    Close::Un([start, length]) => {
                        self.literal(")")?;
                        self.number([tag::UN, start, length, done, 0])?
                    }
                    Close::Load(size) => {
                        self.literal("]")?;
                        self.number([tag::LOAD, size, done, 0, 0])?
                    }
                };
            }
        }
    }

    /// Reads a leaf, or opens a bracket and returns none.
    fn operand(&mut self, open: &mut Vec<Open>) -> Result<Option<[u32; 5]>, Error> {
        let close = match self.peek() {
            Some(Token::Number { .. }) => {
                let [low, high] = split(self.constant()?);
                return Ok(Some([tag::CONST, low, high, 0, 0]));
            }
            Some(Token::Sign('(')) => {
                self.literal("(")?;
                Close::Group
            }
            Some(Token::Word(w)) if w == "load" => {
                self.literal("load")?;
                let size = self.small()?;
                self.literal("[")?;
                Close::Load(size)
            }
            Some(Token::Word(_)) => {
                let [register, version] = self.value()?;
                return Ok(Some([tag::USE, register, version, 0, 0]));
            }
            Some(Token::Operator(_)) => {
                let operator = self.text(Spelling::Operator)?;
                self.literal("(")?;
                Close::Un(operator)
            }
            Some(Token::Quoted(_)) => {
                let [start, length] = self.text(Spelling::Quoted)?;
                if self.peek() != Some(&Token::Sign('(')) {
                    return Ok(Some([tag::OPAQUE, start, length, 0, 0]));
                }
                self.literal("(")?;
                Close::Un([start, length])
            }
            _ => return Err(self.expected("an expression")),
        };
        open.push(Open { close, left: None });
        Ok(None)
    }

    fn at_operator(&self) -> bool {
        matches!(self.peek(), Some(Token::Operator(_) | Token::Quoted(_)))
    }
}

/// An expression with its number and where it ends in our text.
pub struct Node {
    pub record: [u32; 5],
    pub number: u32,
    pub line: usize,
    pub column: usize,
}

/// The expressions in the order of their numbers, which are 0 and up, each once.
pub fn numbered(nodes: &mut [Node]) -> Result<Vec<[u32; 5]>, Error> {
    nodes.sort_by_key(|n| n.number);
    for (i, n) in nodes.iter().enumerate() {
        if n.number as usize != i {
            let message = match (n.number as usize) < i {
                true => format!("a second expression {}", n.number),
                false => format!("expression {}, and no expression {i}", n.number),
            };
            return Err(Error { line: n.line, column: n.column, message });
        }
    }
    Ok(nodes.iter().map(|n| n.record).collect())
}
