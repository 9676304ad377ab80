//! Types as texts, as `struct(align 8) { id: u64, [u16; 4], [u8] }`, and the place of a fault in them.
//!
//! ```text
//! type   = scalar | '[' type ';' number ']' | '[' type ']'
//!        | 'struct' [ '(' mods ')' ] '{' [ field { ',' field } [ ',' ] ] '}'
//! mods   = ( 'align' number | 'packed' number ), one or both, with a ',' between them
//! field  = [ name ':' ] type
//! ```

use crate::description::{Description, Form, Members, Part};
use crate::record::Asked;
use crate::scalars::{other_than, SCALARS};
use crate::words::{number, quoted, NoNumber};
use crate::{End, Result};
use std::num::NonZeroU64;

/// A type that was read from a text.
pub struct Typed<'a> {
    text: &'a str,
    pub described: Description,
    /// Of each byte of the description the letter that it comes from.
    letters: Vec<usize>,
}

/// Whether a word that is no member is meant as the text of a type.
pub fn is_text(word: &str) -> bool {
    let begins = word.trim_start_matches([' ', '[']).strip_prefix("struct");
    begins.is_some_and(|rest| !rest.starts_with(is_of_word)) || word.contains(['{', ';'])
}

impl Typed<'_> {
    /// Reads a text. A fault is said with its place.
    pub fn read(text: &str) -> Result<Typed<'_>> {
        let mut reader = Reader::new(text);
        match reader.read() {
            Ok(()) => {
                let letters = reader.letters.into_iter().flatten().collect();
                Ok(Typed { text, described: Description::new(reader.parts), letters })
            }
            Err(fault) => Err(End::Wrong(fault.said(text))),
        }
    }

    /// Where the letter stands that the byte at a place comes from.
    pub fn place(&self, place: u64) -> String {
        Place::of(self.text, self.letter(place)).said()
    }

    /// The line of that letter, and a mark below it.
    pub fn marked(&self, place: u64) -> String {
        Place::of(self.text, self.letter(place)).marked()
    }

    fn letter(&self, place: u64) -> usize {
        usize::try_from(place).ok().and_then(|place| self.letters.get(place).copied()).unwrap_or(0)
    }
}

/// What is wrong with a text, and at which letter.
struct Fault {
    at: usize,
    /// What is wrong, before the place is named and behind it.
    what: String,
    more: String,
}

impl Fault {
    fn said(&self, text: &str) -> String {
        format!("{} at {}{}; see --help", self.what, Place::of(text, self.at).said(), self.more)
    }
}

fn fault<T>(at: usize, what: String) -> Result<T, Fault> {
    Err(Fault { at, what, more: String::new() })
}

/// A letter of a text, by its line.
struct Place<'a> {
    line: &'a str,
    /// From 1 on, where the text has several.
    line_number: Option<usize>,
    /// The letters before it in its line.
    before: usize,
}

/// As many letters of a line are shown.
const SHOWN: usize = 76;
const CUT: &str = "..";

impl Place<'_> {
    fn of(text: &str, letter: usize) -> Place<'_> {
        let mut before = letter;
        for (at, line) in text.split('\n').enumerate() {
            let letters = line.chars().count();
            if before <= letters {
                return Place { line, line_number: text.contains('\n').then_some(at + 1), before };
            }
            before -= letters + 1;
        }
        Place { line: text, line_number: None, before: 0 }
    }

    fn said(&self) -> String {
        let column = self.before + 1;
        match self.line_number {
            Some(line) => format!("line {line}, column {column}"),
            None => format!("column {column}"),
        }
    }

    /// The line, or what of a long one is near the place, and a mark below the place.
    fn marked(&self) -> String {
        let letters: Vec<char> =
            self.line.chars().map(|letter| if letter.is_control() { ' ' } else { letter }).collect();
        let first = if letters.len() <= SHOWN { 0 } else { self.before.saturating_sub(SHOWN / 2) };
        let last = letters.len().min(first + SHOWN);
        let (start, end) = (if first > 0 { CUT } else { "" }, if last < letters.len() { CUT } else { "" });
        let shown: String = letters[first..last].iter().collect();
        let space = " ".repeat(start.len() + self.before - first);
        format!("{start}{}{end}\n{space}^", shown.trim_end())
    }
}

/// A name, a number or a single sign.
struct Token<'a> {
    at: usize,
    text: &'a str,
}

fn is_of_word(letter: char) -> bool {
    letter.is_alphanumeric() || letter == '_'
}

fn tokens(text: &str) -> Vec<Token<'_>> {
    let mut tokens: Vec<Token> = Vec::new();
    let mut word = None;
    for (at, (byte, letter)) in text.char_indices().enumerate() {
        let end = byte + letter.len_utf8();
        match (is_of_word(letter), word) {
            (true, Some(start)) => {
                tokens.last_mut().expect("a word has begun").text = &text[start..end];
                continue;
            }
            (true, None) => word = Some(byte),
            (false, _) => word = None,
        }
        if !letter.is_whitespace() {
            tokens.push(Token { at, text: &text[byte..end] });
        }
    }
    tokens
}

/// Reads a text from the left. The structs, arrays and slices that are open stand in a list, so that any text can be
/// read, however deep its types stand.
struct Reader<'a> {
    tokens: Vec<Token<'a>>,
    next: usize,
    /// Where the text ends, without spaces behind it.
    end: usize,
    parts: Vec<Part>,
    /// Of each part the letters that the bytes of its head come from.
    letters: Vec<Vec<usize>>,
}

impl<'a> Reader<'a> {
    fn new(text: &'a str) -> Reader<'a> {
        let end = text.trim_end().chars().count();
        Reader { tokens: tokens(text), next: 0, end, parts: Vec::new(), letters: Vec::new() }
    }

    fn read(&mut self) -> Result<(), Fault> {
        let mut open: Vec<usize> = Vec::new();
        loop {
            let is_field = open.last().is_some_and(|holder| matches!(self.parts[*holder].form, Form::Struct(..)));
            let name = if is_field { self.name() } else { None };
            if self.begin(name)? {
                open.push(self.parts.len() - 1);
                continue;
            }
            // A type has ended, and with it each that it is the last of.
            loop {
                let Some(holder) = open.last() else { return self.nothing_more() };
                if self.goes_on(*holder)? {
                    break;
                }
                open.pop();
            }
        }
    }

    /// The first tokens of a type. Whether it is open: types that it holds follow.
    fn begin(&mut self, name: Option<String>) -> Result<bool, Fault> {
        let at = self.at();
        let (form, letters, is_open) = match self.peek() {
            "struct" => {
                self.next += 1;
                let mut letters = vec![at; 3];
                let asked = self.mods(&mut letters)?;
                letters.push(self.at());
                self.expect("{")?;
                (Form::Struct(asked, Members::Byte(0)), letters, !self.accept("}"))
            }
            "[" => {
                self.next += 1;
                // An array, if a count follows.
                (Form::Slice, vec![at], true)
            }
            word => {
                let Some(code) = SCALARS.iter().position(|scalar| *scalar == word) else { return self.no_type() };
                self.next += 1;
                (Form::Scalar(code), vec![at], false)
            }
        };
        self.parts.push(Part { name, form });
        self.letters.push(letters);
        Ok(is_open)
    }

    /// What stands behind a type that a part holds. Whether the part goes on: another member follows.
    fn goes_on(&mut self, holder: usize) -> Result<bool, Fault> {
        match self.parts[holder].form {
            Form::Struct(asked, members) => {
                let Some(members) = members.one_more() else {
                    let what = format!("more than {} members in the struct", Members::MOST);
                    return fault(self.letters[holder][0], what);
                };
                let form = Form::Struct(asked, members);
                self.parts[holder].form = form;
                // The count has a byte more where it no longer fits one.
                let letters = &mut self.letters[holder];
                letters.resize(form.length(), letters[letters.len() - 1]);
                let goes_on = self.accept(",");
                if !goes_on && self.peek() != "}" {
                    return self.missing("',' or '}'");
                }
                Ok(!self.accept("}"))
            }
            _ => {
                if self.accept(";") {
                    let at = self.at();
                    self.letters[holder].extend([at; 4]);
                    match self.number()?.and_then(|count| u32::try_from(count).ok()) {
                        Some(count) => self.parts[holder].form = Form::Array(count),
                        None => return self.no_number("count", "a count is at most 2^32 - 1"),
                    }
                    self.next += 1;
                } else if self.peek() != "]" {
                    return self.missing("';' or ']'");
                }
                self.expect("]")?;
                Ok(false)
            }
        }
    }

    /// Alignment and packing, where they are asked for. The letters are those of the struct, and become theirs.
    fn mods(&mut self, letters: &mut [usize]) -> Result<Asked, Fault> {
        let mut asked = Asked::default();
        if !self.accept("(") {
            return Ok(asked);
        }
        loop {
            let at = self.at();
            let (word, letter, asks) = match self.peek() {
                "align" => ("align", &mut letters[1], &mut asked.align),
                "packed" => ("packed", &mut letters[2], &mut asked.packed),
                _ => return self.missing("'align' or 'packed'"),
            };
            if asks.is_some() {
                return fault(at, format!("a second '{word}'"));
            }
            self.next += 1;
            *letter = self.at();
            match self.number()?.filter(|number| number.is_power_of_two()).and_then(NonZeroU64::new) {
                Some(power) => *asks = Some(power),
                None => return self.no_number(word, "it takes a power of two up to 2^63"),
            }
            self.next += 1;
            if self.accept(")") {
                return Ok(asked);
            }
            if !self.accept(",") {
                return self.missing("',' or ')'");
            }
        }
    }

    fn name(&mut self) -> Option<String> {
        let named = self.peek();
        let colon = self.tokens.get(self.next + 1).map(|token| token.text);
        if colon != Some(":") || !named.starts_with(is_of_word) {
            return None;
        }
        self.next += 2;
        Some(named.to_string())
    }

    /// The number that stands here, or none where it is above 2^64 - 1.
    fn number(&self) -> Result<Option<u64>, Fault> {
        match number(self.peek()) {
            Ok(value) => Ok(Some(value)),
            Err(NoNumber::Range) => Ok(None),
            Err(NoNumber::Digits) => self.missing("a number, decimal digits alone,"),
        }
    }

    fn no_number<T>(&self, what: &str, why: &str) -> Result<T, Fault> {
        Err(Fault { at: self.at(), what: format!("{what} {}", self.peek()), more: format!(": {why}") })
    }

    fn nothing_more(&self) -> Result<(), Fault> {
        match self.tokens.get(self.next) {
            None => Ok(()),
            Some(token) => fault(token.at, format!("{} behind the type", quoted(token.text))),
        }
    }

    fn no_type<T>(&self) -> Result<T, Fault> {
        let word = self.peek();
        if !word.starts_with(is_of_word) {
            return self.missing("a type");
        }
        let more = other_than(word, word).map_or_else(String::new, |more| format!(": {more}"));
        Err(Fault { at: self.at(), what: format!("no type {}", quoted(word)), more })
    }

    fn missing<T>(&self, what: &str) -> Result<T, Fault> {
        fault(self.at(), format!("{what} is missing"))
    }

    fn expect(&mut self, sign: &str) -> Result<(), Fault> {
        match self.accept(sign) {
            true => Ok(()),
            false => self.missing(&quoted(sign)),
        }
    }

    fn accept(&mut self, sign: &str) -> bool {
        let is_here = self.peek() == sign;
        self.next += usize::from(is_here);
        is_here
    }

    /// The next token; empty at the end.
    fn peek(&self) -> &'a str {
        self.tokens.get(self.next).map_or("", |token| token.text)
    }

    /// Where the next token stands.
    fn at(&self) -> usize {
        self.tokens.get(self.next).map_or(self.end, |token| token.at)
    }
}

#[cfg(test)]
mod tests {
    use super::*;

    const MESSAGE: &str = "struct(align 8) { id: u64, [u16; 4], struct { u8, u32 }, [u8] }";

    fn read(text: &str) -> Typed<'_> {
        Typed::read(text).unwrap_or_else(|_| panic!("{text} is read"))
    }

    fn bytes(text: &str) -> Vec<u8> {
        read(text).described.bytes
    }

    fn wrong(text: &str) -> String {
        match Typed::read(text) {
            Err(End::Wrong(said)) => said,
            _ => panic!("{text} has a fault"),
        }
    }

    #[test]
    fn texts_become_bytes() {
        assert_eq!(bytes(MESSAGE), [17, 4, 0, 4, 3, 16, 4, 0, 0, 0, 1, 17, 0, 0, 2, 0, 2, 18, 0]);
        for (code, scalar) in SCALARS.iter().enumerate() {
            assert_eq!(bytes(scalar), [code as u8]);
            assert_eq!(bytes(&format!("[{scalar}]")), [18, code as u8]);
        }
        assert_eq!(bytes("struct {}"), [17, 0, 0, 0]);
        assert_eq!(bytes("struct(packed 2, align 9223372036854775808){}"), [17, 64, 2, 0]);
        assert_eq!(bytes("struct(align 1) { u8, }"), [17, 1, 0, 1, 0]);
        assert_eq!(bytes(" [ [ bool ; 4294967295 ]\n;\t0 ] "), [16, 0, 0, 0, 0, 16, 255, 255, 255, 255, 7]);
        // A name may be any word.
        assert_eq!(bytes("struct { struct: u8, u8: u16, \u{e9}_1: [u8; 1] }"), [17, 0, 0, 3, 0, 1, 16, 1, 0, 0, 0, 0]);
        let of_members = |members: usize| bytes(&format!("struct(packed 1) {{ {} }}", "u8,".repeat(members)));
        assert_eq!(of_members(255)[..5], [17, 0, 1, 255, 0]);
        assert_eq!(of_members(256)[..6], [19, 0, 1, 0, 1, 0]);
        assert_eq!(of_members(65535)[..6], [19, 0, 1, 255, 255, 0]);
        assert_eq!(of_members(300).len(), 305);
    }

    #[test]
    fn each_byte_has_its_letter() {
        let typed = read(MESSAGE);
        let from: String = typed.letters.iter().map(|letter| &MESSAGE[*letter..=*letter]).collect();
        assert_eq!(from, "s8s{u[4444usss{uu[u");
        assert_eq!(read("struct { u8, \u{e9}: [u8] }").letters, [0, 0, 0, 7, 9, 16, 17]);
    }

    #[test]
    fn faults_have_places() {
        for (text, said) in [
            ("", "a type is missing at column 1"),
            ("  ", "a type is missing at column 1"),
            ("u128", "no type 'u128' at column 1"),
            ("\u{e9}", "no type '\u{e9}' at column 1"),
            ("[u8", "';' or ']' is missing at column 4"),
            ("[u8 ", "';' or ']' is missing at column 4"),
            ("[u8, u8]", "';' or ']' is missing at column 4"),
            ("[]", "a type is missing at column 2"),
            ("[a: u8]", "no type 'a' at column 2"),
            ("[u8; ]", "a number, decimal digits alone, is missing at column 6"),
            ("[u8; 1_0]", "a number, decimal digits alone, is missing at column 6"),
            ("[u8; -1]", "a number, decimal digits alone, is missing at column 6"),
            ("[u8; 4 4]", "']' is missing at column 8"),
            ("[u8; 4294967296]", "count 4294967296 at column 6: a count is at most 2^32 - 1"),
            ("[u8; 18446744073709551616]", "count 18446744073709551616 at column 6: a count is at most 2^32 - 1"),
            ("struct", "'{' is missing at column 7"),
            ("struct [", "'{' is missing at column 8"),
            ("struct {", "a type is missing at column 9"),
            ("struct { u8", "',' or '}' is missing at column 12"),
            ("struct { u8 u8 }", "',' or '}' is missing at column 13"),
            ("struct { , }", "a type is missing at column 10"),
            ("struct { u8,, }", "a type is missing at column 13"),
            ("struct { a: }", "a type is missing at column 13"),
            ("struct { a = u8 }", "no type 'a' at column 10"),
            ("struct { a: b: u8 }", "no type 'b' at column 13"),
            ("struct() {}", "'align' or 'packed' is missing at column 8"),
            ("struct(u8) {}", "'align' or 'packed' is missing at column 8"),
            ("struct(align) {}", "a number, decimal digits alone, is missing at column 13"),
            ("struct(align 8", "',' or ')' is missing at column 15"),
            ("struct(align 8,) {}", "'align' or 'packed' is missing at column 16"),
            ("struct(align 8, align 8) {}", "a second 'align' at column 17"),
            ("struct(packed 3) {}", "packed 3 at column 15: it takes a power of two up to 2^63"),
            ("struct(align 0) {}", "align 0 at column 14: it takes a power of two up to 2^63"),
            (
                "struct(align 18446744073709551616) {}",
                "align 18446744073709551616 at column 14: it takes a power of two up to 2^63",
            ),
            ("u8 u8", "'u8' behind the type at column 4"),
            ("struct { u8 } }", "'}' behind the type at column 15"),
            (
                "struct {\n  u8,\n  i8\n}",
                "no type 'i8' at line 3, column 3: signed integers have no code; use u8, which \
              has the same size and alignment",
            ),
        ] {
            assert_eq!(wrong(text), format!("{said}; see --help"), "{text}");
        }
        let many = format!("[struct {{ {} }}]", "u8, ".repeat(65536));
        assert_eq!(wrong(&many), "more than 65535 members in the struct at column 2; see --help");
    }

    #[test]
    fn texts_of_any_depth_are_read() {
        let deep = format!("{}u8{}", "[".repeat(100_000), "; 1]".repeat(100_000));
        let typed = read(&deep);
        assert_eq!(typed.described.bytes.len(), 5 * 100_000 + 1);
        assert_eq!(typed.place(5 * 16), "column 17");
        assert_eq!(wrong(&"[".repeat(100_000)), "a type is missing at column 100001; see --help");
    }

    #[test]
    fn marks_stand_below_their_letters() {
        assert_eq!(read("struct {\n\t[u8], u16\n}").marked(6), "\t[u8], u16\n       ^".replace('\t', " "));
        let typed = read("[u8; 4]");
        assert_eq!(typed.marked(0), "[u8; 4]\n^");
        assert_eq!(typed.marked(1), "[u8; 4]\n     ^");
        // Of a long line what is near.
        let long = format!("struct {{ {}u16 }}", "long: u8, ".repeat(20));
        let marked = read(&long).marked(24);
        let (line, mark) = marked.split_once('\n').unwrap();
        assert_eq!(&line[mark.len() - 1..], "u16 }");
        assert!(line.starts_with("..") && line.len() <= 2 * CUT.len() + SHOWN, "{line}");
        let marked = read(&long).marked(0);
        assert!(marked.starts_with("struct { long: ") && marked.ends_with("..\n^"), "{marked}");
    }

    #[test]
    fn what_is_a_text() {
        for text in ["struct", "struct { u8 }", "[struct", " struct(align 8)", "[u8; 4]", "{"] {
            assert!(is_text(text), "{text}");
        }
        for word in ["structure", "u8", "[u8]", "[[u8]]", "", "type:8:4"] {
            assert!(!is_text(word), "{word}");
        }
    }
}
