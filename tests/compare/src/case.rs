//! One case: a call with its input and the lengths of its buffers, tried on both programs.

use crate::lent::{Lent, Word};
use crate::program;
use lists::chance::Chance;
use std::fmt;

/// The calls of the product, the program among them.
#[derive(Clone, Copy, Debug, PartialEq, Eq)]
pub enum Call {
    Check,
    Edge,
    Classes,
    Cut,
    Read,
    Write,
    Face,
    Program,
}

impl Call {
    pub const ALL: [Call; 8] = [
        Call::Check,
        Call::Edge,
        Call::Classes,
        Call::Cut,
        Call::Read,
        Call::Write,
        Call::Face,
        Call::Program,
    ];

    pub fn name(self) -> &'static str {
        match self {
            Call::Check => "check",
            Call::Edge => "edge",
            Call::Classes => "classes",
            Call::Cut => "cut",
            Call::Read => "read",
            Call::Write => "write",
            Call::Face => "face",
            Call::Program => "program",
        }
    }

    /// The codes that the call can give.
    pub fn codes(self) -> &'static [usize] {
        match self {
            Call::Check => &[0, 1, 2, 3, 4, 5],
            Call::Edge => &[0, 1, 2, 3, 4, 5, 10],
            Call::Classes => &[0, 1, 2, 3, 4, 5, 8, 9],
            Call::Cut => &[0, 1, 2, 3, 4, 5, 6, 7, 9],
            Call::Read => &[0, 11, 12, 13],
            Call::Write => &[0, 1, 15],
            Call::Face => &[0],
            Call::Program => &[0, 2, 3, 4, 5, 11, 12, 13, 14],
        }
    }

    /// What the numbers of a case of this call mean.
    fn number_names(self) -> &'static [&'static str] {
        match self {
            Call::Check => &["n"],
            Call::Edge => &["n", "a", "b"],
            Call::Classes => &["n", "classes length", "work length"],
            Call::Cut => &["n", "new list length", "map length", "work length"],
            Call::Read => &["list length"],
            Call::Write => &["text length"],
            Call::Face => &["k"],
            Call::Program => &["way of feeding"],
        }
    }
}

/// A call with all that it is given.
#[derive(Clone)]
pub struct Case {
    pub call: Call,
    pub list: Vec<i32>,
    pub text: Vec<u8>,
    /// The vertex count, the indices asked about, the lengths of the buffers: as `number_names` says.
    pub numbers: Vec<u64>,
    /// The seed of what the buffers hold before the call.
    pub garbage: u64,
}

/// How a case went.
pub struct Verdict {
    /// The second program's code.
    pub code: usize,
    /// All numbers that the second program answers; none for the program.
    pub answer: Vec<u64>,
    /// What differs, in words.
    pub differences: Vec<String>,
}

impl Verdict {
    fn new(call: Call, product: &[u64], second: &[u64]) -> Verdict {
        let mut differences = Vec::new();
        if product != second {
            differences.push(format!(
                "the product answers {product:?}, the second program {second:?}"
            ));
        }
        // showing a face answers a span and no code
        let code = match call {
            Call::Face => 0,
            _ => second[0] as usize,
        };
        Verdict {
            code,
            answer: second.to_vec(),
            differences,
        }
    }

    /// Compares a buffer after both calls, guards included.
    fn buffer<T: Word>(mut self, name: &str, lent: &Lent<T>) -> Verdict {
        if let Some(place) = lent.difference() {
            self.differences
                .push(format!("the {name} differs at {place}"));
        }
        self
    }
}

impl Case {
    /// A case on a list.
    pub fn on_list(call: Call, list: &[i32], numbers: &[u64], garbage: u64) -> Case {
        Case {
            call,
            list: list.to_vec(),
            text: Vec::new(),
            numbers: numbers.to_vec(),
            garbage,
        }
    }

    /// A case on a text.
    pub fn on_text(call: Call, text: &[u8], number: u64, garbage: u64) -> Case {
        Case {
            call,
            list: Vec::new(),
            text: text.to_vec(),
            numbers: vec![number],
            garbage,
        }
    }

    /// Runs both programs and compares all that they answer and leave.
    pub fn verdict(&self) -> Verdict {
        let mut chance = Chance::new(self.garbage);
        match self.call {
            Call::Check => self.check(&mut chance),
            Call::Edge => self.edge(&mut chance),
            Call::Classes => self.classes(&mut chance),
            Call::Cut => self.cut(&mut chance),
            Call::Read => self.read(&mut chance),
            Call::Write => self.write(&mut chance),
            Call::Face => self.face(&mut chance),
            Call::Program => self.program(),
        }
    }

    fn length(&self, number: usize) -> usize {
        self.numbers[number] as usize
    }

    fn check(&self, chance: &mut Chance) -> Verdict {
        let n = self.numbers[0];
        let mut list = Lent::copy(&self.list, chance);
        let product = product::check(list.product(), n);
        let second = second::check(list.second(), n);
        Verdict::new(self.call, &product, &second).buffer("list", &list)
    }

    fn edge(&self, chance: &mut Chance) -> Verdict {
        let (n, a, b) = (
            self.numbers[0],
            self.numbers[1] as i32,
            self.numbers[2] as i32,
        );
        let mut list = Lent::copy(&self.list, chance);
        let product = product::edge(list.product(), n, a, b);
        let second = second::edge(list.second(), n, a, b);
        Verdict::new(self.call, &product, &second).buffer("list", &list)
    }

    fn classes(&self, chance: &mut Chance) -> Verdict {
        let n = self.numbers[0];
        let mut list = Lent::copy(&self.list, chance);
        let mut classes = Lent::garbage(self.length(1), chance);
        let mut work = Lent::garbage(self.length(2), chance);
        let product = product::classes(list.product(), n, classes.product(), work.product());
        let second = second::classes(list.second(), n, classes.second(), work.second());
        Verdict::new(self.call, &product, &second)
            .buffer("list", &list)
            .buffer("class buffer", &classes)
            .buffer("work", &work)
    }

    fn cut(&self, chance: &mut Chance) -> Verdict {
        let n = self.numbers[0];
        let mut list = Lent::copy(&self.list, chance);
        let mut new_list = Lent::garbage(self.length(1), chance);
        let mut map = Lent::garbage(self.length(2), chance);
        let mut work = Lent::garbage(self.length(3), chance);
        let product = product::cut(
            list.product(),
            n,
            new_list.product(),
            map.product(),
            work.product(),
        );
        let second = second::cut(
            list.second(),
            n,
            new_list.second(),
            map.second(),
            work.second(),
        );
        Verdict::new(self.call, &product, &second)
            .buffer("list", &list)
            .buffer("new list", &new_list)
            .buffer("map", &map)
            .buffer("work", &work)
    }

    fn read(&self, chance: &mut Chance) -> Verdict {
        let mut text = Lent::copy(&self.text, chance);
        let mut list = Lent::garbage(self.length(0), chance);
        let product = product::read(text.product(), list.product());
        let second = second::read(text.second(), list.second());
        Verdict::new(self.call, &product, &second)
            .buffer("text", &text)
            .buffer("list", &list)
    }

    fn write(&self, chance: &mut Chance) -> Verdict {
        let mut list = Lent::copy(&self.list, chance);
        let mut text = Lent::garbage(self.length(0), chance);
        let product = product::write(list.product(), text.product());
        let second = second::write(list.second(), text.second());
        Verdict::new(self.call, &product, &second)
            .buffer("list", &list)
            .buffer("text", &text)
    }

    fn face(&self, chance: &mut Chance) -> Verdict {
        let k = self.numbers[0];
        let mut list = Lent::copy(&self.list, chance);
        let product = product::face(list.product(), k);
        let second = second::face(list.second(), k);
        Verdict::new(self.call, &product, &second).buffer("list", &list)
    }

    fn program(&self) -> Verdict {
        let second = second::program(&self.text);
        let product = program::run(&self.text, program::Way::numbered(self.numbers[0]));
        let code = second.split(|&byte| byte == b' ').next();
        let code = String::from_utf8_lossy(code.unwrap_or_default());
        let mut differences = Vec::new();
        if product.as_ref() != Ok(&second) {
            let product = product.map(|printed| String::from_utf8_lossy(&printed).into_owned());
            let second = String::from_utf8_lossy(&second);
            differences.push(format!(
                "the program prints {product:?}, the second program {second:?}"
            ));
        }
        Verdict {
            code: code.parse().expect("a code stands first"),
            answer: Vec::new(),
            differences,
        }
    }
}

impl fmt::Display for Case {
    fn fmt(&self, f: &mut fmt::Formatter) -> fmt::Result {
        write!(f, "{}", self.call.name())?;
        for (name, number) in self.call.number_names().iter().zip(&self.numbers) {
            match *name {
                "a" | "b" => write!(f, ", {name} = {}", *number as i32)?,
                _ => write!(f, ", {name} = {number}")?,
            }
        }
        match self.call {
            Call::Read | Call::Program => {
                write!(f, ", text {:?}", String::from_utf8_lossy(&self.text))
            }
            _ => write!(f, ", list {:?}", self.list),
        }
    }
}
