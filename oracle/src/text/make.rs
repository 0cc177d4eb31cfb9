//! The parser: lines to records.

use super::expressions::{numbered, Node};
use super::forms::{self, Item, Of, KINDS};
use super::lexer::{tokens, Error, Token};
use super::pool::{pooled, Mention, Places};
use super::words::{self, Spelling, MARKS};
use crate::records::{split, Records};

/// The records that a text states.
pub fn records(text: &str) -> Result<Records, Error> {
    let mut maker = Maker::default();
    for line in text.lines() {
        maker.line += 1;
        maker.read(line)?;
    }
    maker.finish()
}

#[derive(Default)]
pub struct Maker {
    records: Records,
    headed: bool,
    line: usize,
    /// The tokens of the line, how many are read, and the column behind the last.
    tokens: Vec<(usize, Token)>,
    at: usize,
    end: usize,
    places: Places,
    mentions: Vec<Mention>,
    nodes: Vec<Node>,
    /// The number of the next expression unless `#` says otherwise.
    next: u64,
}

impl Maker {
    fn read(&mut self, line: &str) -> Result<(), Error> {
        let text = line.trim_start();
        if text.is_empty() || text.starts_with('#') {
            return Ok(());
        }
        let begin = line.chars().count() - text.chars().count() + 1;
        if let Some(rest) = text.strip_prefix("damage ") {
            return if rest.starts_with("6 ") {
                Ok(())
            } else {
                Err(self.error(begin, "this text shows a damaged file; no file can be made of it".into()))
            };
        }
        if text.starts_with('?') {
            return Err(self.error(begin, "a damaged place, of which nothing can be made".into()));
        }
        self.tokens = tokens(line).map_err(|(column, message)| self.error(column, message))?;
        self.at = 0;
        self.end = line.chars().count() + 1;
        self.statement_or_line()?;
        match self.peek() {
            None => Ok(()),
            Some(_) => Err(self.expected("the end of the line")),
        }
    }

    fn statement_or_line(&mut self) -> Result<(), Error> {
        match self.peek() {
            Some(Token::Number { .. }) => self.statement(),
            Some(Token::Word(w)) => match w.as_str() {
                "function" => self.function(),
                "args" => self.args(),
                "block" => {
                    let block = self.record(forms::BLOCK)?;
                    self.records.blocks.push(block);
                    Ok(())
                }
                "phi" => {
                    let phis = 8;
                    self.owned(phis)?;
                    let phi = self.record(forms::PHI)?;
                    self.records.phis.push(phi);
                    Ok(())
                }
                "name" => {
                    let name = self.record(forms::NAME)?;
                    self.records.names.push(name);
                    Ok(())
                }
                "text" => {
                    self.literal("text")?;
                    self.text(Spelling::Quoted).map(|_| ())
                }
                _ => Err(self.expected("function, args, block, phi, name, text or the address of a statement")),
            },
            _ => Err(self.expected("a word or the address of a statement")),
        }
    }

    fn function(&mut self) -> Result<(), Error> {
        if self.headed {
            return Err(self.error_here("a second function line".into()));
        }
        self.headed = true;
        let [bits, returns] = self.record(forms::FUNCTION)?;
        (self.records.edition, self.records.bits, self.records.returns) = (1, bits, returns);
        Ok(())
    }

    fn args(&mut self) -> Result<(), Error> {
        self.literal("args")?;
        while self.peek().is_some() {
            let register = self.register()?;
            self.records.args.push(register);
        }
        Ok(())
    }

    /// Counts a phi or statement for the last block, in the word that holds that count.
    fn owned(&mut self, word: usize) -> Result<(), Error> {
        match self.records.blocks.last_mut() {
            Some(block) => {
                block[word] += 1;
                Ok(())
            }
            None => Err(self.error_here("no block yet".into())),
        }
    }

    fn statement(&mut self) -> Result<(), Error> {
        let statements = 9;
        self.owned(statements)?;
        let [low, high] = split(self.address()?);
        let mut marks = 0;
        while let Some(bit) = MARKS.iter().position(|m| self.at_word(m)) {
            if marks >> bit & 1 == 1 {
                return Err(self.error_here(format!("a second {}", MARKS[bit])));
            }
            marks |= 1 << bit;
            self.at += 1;
        }
        let Some((kind, form)) = KINDS.iter().find(|(_, form)| self.begins(form)) else {
            return Err(self.expected("store, call, branch, jump, cmp, test, return, other or a value to assign"));
        };
        let fields: [u32; 7] = self.record(form)?;
        let mut statement = [0; 11];
        statement[..4].copy_from_slice(&[low, high, marks, *kind]);
        statement[4..].copy_from_slice(&fields);
        self.records.statements.push(statement);
        Ok(())
    }

    /// Whether the next token can begin a form.
    fn begins(&self, form: &[Item]) -> bool {
        match form.first() {
            Some(Item::Lit(s)) => self.at_literal(s),
            Some(Item::Has(no, yes, _)) => self.at_literal(no) || self.at_literal(yes),
            Some(Item::Value) => matches!(self.peek(), Some(Token::Word(w)) if words::register_number(w).is_some()),
            _ => false,
        }
    }

    /// The words of a record, by its form, with zeros behind them.
    fn record<const N: usize>(&mut self, form: &[Item]) -> Result<[u32; N], Error> {
        let mut words = Vec::new();
        self.form(form, &mut words)?;
        Ok(std::array::from_fn(|i| words.get(i).copied().unwrap_or(0)))
    }

    fn form(&mut self, form: &[Item], out: &mut Vec<u32>) -> Result<(), Error> {
        for item in form {
            match item {
                Item::Lit(s) => self.literal(s)?,
                Item::Number | Item::Size => out.push(self.small()?),
                Item::Register => out.push(self.register()?),
                Item::Wide => out.extend(split(self.address()?)),
                Item::Value => out.extend(self.value()?),
                Item::Expr => out.push(self.expression()?),
                Item::Text(spelling) => out.extend(self.text(*spelling)?),
                Item::Has(_, yes, of) if self.at_literal(yes) => {
                    self.literal(yes)?;
                    out.push(1);
                    self.form(of, out)?;
                }
                Item::Has(no, _, of) => {
                    self.literal(no)?;
                    out.extend(vec![0; 1 + forms::words(of)]);
                }
                Item::List(_, open, _, false) if !self.at_literal(open) => out.push(0),
                Item::List(of, open, close, always) => {
                    self.literal(open)?;
                    let empty = *always && self.at_literal(close);
                    out.push(if empty { 0 } else { self.list(*of)? });
                    self.literal(close)?;
                }
                Item::Owned(_) => out.push(0),
            }
        }
        Ok(())
    }

    /// One item or more; their number.
    fn list(&mut self, of: Of) -> Result<u32, Error> {
        let mut count = 1;
        loop {
            match of {
                Of::Expr => {
                    let expression = self.expression()?;
                    self.records.lists.push([expression, 0]);
                }
                Of::Value => {
                    let value = self.value()?;
                    self.records.lists.push(value);
                }
                Of::Version => {
                    let version = self.small()?;
                    self.records.inputs.push(version);
                }
            }
            if !self.at_literal(",") {
                return Ok(count);
            }
            self.literal(",")?;
            count += 1;
        }
    }

    // Tokens.

    pub fn peek(&self) -> Option<&Token> {
        self.tokens.get(self.at).map(|(_, t)| t)
    }

    fn column(&self) -> usize {
        self.tokens.get(self.at).map_or(self.end, |(column, _)| *column)
    }

    fn error(&self, column: usize, message: String) -> Error {
        Error { line: self.line, column, message }
    }

    fn error_here(&self, message: String) -> Error {
        self.error(self.column(), message)
    }

    pub fn expected(&self, what: &str) -> Error {
        match self.peek() {
            Some(found) => self.error_here(format!("{what} expected, not {found}")),
            None => self.error_here(format!("{what} expected, not the end of the line")),
        }
    }

    fn at_word(&self, word: &str) -> bool {
        matches!(self.peek(), Some(Token::Word(w)) if w == word)
    }

    /// Whether the next token is the first of a form's literal; of an empty one, whether there is any.
    fn at_literal(&self, literal: &str) -> bool {
        match tokens(literal).unwrap_or_default().first() {
            Some((_, first)) => self.peek() == Some(first),
            None => !literal.is_empty() && self.peek().is_some(),
        }
    }

    /// Reads the tokens of a form's literal.
    pub fn literal(&mut self, literal: &str) -> Result<(), Error> {
        for (_, token) in tokens(literal).unwrap_or_default() {
            if self.peek() != Some(&token) {
                return Err(self.expected(&token.to_string()));
            }
            self.at += 1;
        }
        Ok(())
    }

    /// A number of 32 bits.
    pub fn small(&mut self) -> Result<u32, Error> {
        match self.peek() {
            Some(Token::Number { negative: false, magnitude }) => {
                let number = u32::try_from(*magnitude).map_err(|_| self.error_here("a number over 32 bits".into()))?;
                self.at += 1;
                Ok(number)
            }
            _ => Err(self.expected("a number")),
        }
    }

    fn address(&mut self) -> Result<u64, Error> {
        match self.peek() {
            Some(Token::Number { negative: false, .. }) => self.constant(),
            _ => Err(self.expected("an address")),
        }
    }

    /// A number of 64 bits, its sign folded in.
    pub fn constant(&mut self) -> Result<u64, Error> {
        match self.peek() {
            Some(&Token::Number { negative, magnitude }) => {
                self.at += 1;
                Ok(if negative { magnitude.wrapping_neg() } else { magnitude })
            }
            _ => Err(self.expected("a number")),
        }
    }

    fn register(&mut self) -> Result<u32, Error> {
        let register = match self.peek() {
            Some(Token::Word(w)) => words::register_number(w),
            _ => None,
        };
        let register = register.ok_or_else(|| self.expected("a register"))?;
        self.at += 1;
        Ok(register)
    }

    /// Register and version.
    pub fn value(&mut self) -> Result<[u32; 2], Error> {
        let register = self.register()?;
        self.literal(".")?;
        Ok([register, self.small()?])
    }

    /// Mentions a text, `@` and its start behind it included: start and length.
    pub fn text(&mut self, spelling: Spelling) -> Result<[u32; 2], Error> {
        let column = self.column();
        let bytes = match (self.peek(), spelling) {
            (Some(Token::Quoted(t)), _) => t.clone(),
            (Some(Token::Word(w)), Spelling::Condition) if words::is_condition(w) => w.clone().into_bytes(),
            (Some(Token::Operator(o)), Spelling::Operator) => o.clone().into_bytes(),
            (_, Spelling::Condition) => return Err(self.expected("a condition")),
            (_, Spelling::Operator) => return Err(self.expected("an operator")),
            _ => return Err(self.expected("a text in quotes")),
        };
        self.at += 1;
        let start = match self.peek() {
            Some(Token::Sign('@')) => {
                self.at += 1;
                u64::from(self.small()?)
            }
            _ => self.places.expected(&bytes),
        };
        let range = match (u32::try_from(start), u32::try_from(bytes.len())) {
            (Ok(start), Ok(length)) => [start, length],
            _ => return Err(self.error(column, "the text stands past 2^32".into())),
        };
        self.places.stands(&bytes, start);
        self.mentions.push(Mention { bytes, start, line: self.line, column });
        Ok(range)
    }

    /// Numbers an expression: as `#` behind it says, else with the next number.
    pub fn number(&mut self, record: [u32; 5]) -> Result<u32, Error> {
        if self.peek() == Some(&Token::Sign('#')) {
            self.at += 1;
            let column = self.column();
            let number = self.small()?;
            return self.add(record, u64::from(number), column);
        }
        self.number_next(record)
    }

    /// Numbers an expression with the next number.
    pub fn number_next(&mut self, record: [u32; 5]) -> Result<u32, Error> {
        self.add(record, self.next, self.column())
    }

    fn add(&mut self, record: [u32; 5], number: u64, column: usize) -> Result<u32, Error> {
        let number = u32::try_from(number).map_err(|_| self.error(column, "an expression's number over 32 bits".into()))?;
        let form = forms::form_of(&forms::TAGS, record[0]).unwrap_or(&[]);
        let children = forms::parts(form, &record, forms::EXPRESSION_HEAD).into_iter().filter(|p| matches!(p.item, Item::Expr));
        if let Some(child) = children.map(|p| record[p.word]).find(|child| *child >= number) {
            return Err(self.error(column, format!("expression {number} is not above its part, expression {child}")));
        }
        self.next = u64::from(number) + 1;
        self.nodes.push(Node { record, number, line: self.line, column });
        Ok(number)
    }

    // The end.

    fn finish(mut self) -> Result<Records, Error> {
        if !self.headed {
            return Err(Error { line: self.line + 1, column: 1, message: "no function line".into() });
        }
        self.records.expressions = numbered(&mut self.nodes)?;
        self.records.text = pooled(&mut self.mentions)?;
        Ok(self.records)
    }
}
