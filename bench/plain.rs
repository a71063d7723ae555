//! The machine, the reader and the compiler, written plainly in Rust, with no proofs: to time the proved
//! ones beside them. Commands and output are those of the program `speed`.
use std::hint::black_box;
use std::time::Instant;

#[derive(Clone, Copy, PartialEq)]
enum Colour {
    Green,
    Blue,
}

#[derive(Clone, Copy, PartialEq, Debug)]
enum Op {
    Add,
    Sub,
    Mul,
    Lt,
}

impl Op {
    fn apply(self, x: u32, y: u32) -> u32 {
        match self {
            Op::Add => x.wrapping_add(y),
            Op::Sub => x.wrapping_sub(y),
            Op::Mul => x.wrapping_mul(y),
            Op::Lt => u32::from(x < y),
        }
    }
}

type Register = u8;

#[derive(Clone, Copy)]
enum Instruction {
    Move(Colour, Register, u32),
    Copy(Register, Register),
    Arith(Op, Register, Register, Register),
    Load(Colour, Register, Register),
    Store(Colour, Register, Register),
    Jump(Colour, Register),
    Branch(Colour, Register, Register),
    Halt,
}

// ---------------------------------------------------------------- the machine

trait Memory {
    fn load(&mut self, address: u32) -> u32;
    fn store(&mut self, address: u32, word: u32) -> bool;
}

struct Array<'a>(&'a mut [u32]);

impl Memory for Array<'_> {
    fn load(&mut self, address: u32) -> u32 {
        self.0.get(address as usize).copied().unwrap_or(0)
    }

    fn store(&mut self, address: u32, word: u32) -> bool {
        match self.0.get_mut(address as usize) {
            Some(cell) => {
                *cell = word;
                true
            }
            None => false,
        }
    }
}

struct Machine<M> {
    memory: M,
    code: Vec<Instruction>,
    registers: [u32; 32],
    green: u32,
    blue: u32,
    destination: u32,
    queue: [(u32, u32); 16],
    queued: usize,
    end: u32,
    steps: u32,
    stores: u32,
}

impl<M: Memory> Machine<M> {
    fn new(memory: M, code: Vec<Instruction>) -> Self {
        Machine {
            memory,
            code,
            registers: [0; 32],
            green: 0,
            blue: 0,
            destination: 0,
            queue: [(0, 0); 16],
            queued: 0,
            end: 0,
            steps: 0,
            stores: 0,
        }
    }

    fn get(&self, r: Register) -> u32 {
        self.registers[r as usize]
    }

    fn set(&mut self, r: Register, word: u32) -> u32 {
        self.registers[r as usize] = word;
        self.fall()
    }

    fn fall(&mut self) -> u32 {
        self.green += 1;
        self.blue += 1;
        0
    }

    fn jump(&mut self, to: u32) -> u32 {
        if self.destination == 0 || self.destination != to {
            return 5;
        }
        self.green = to;
        self.blue = to;
        self.destination = 0;
        0
    }

    fn look(&mut self, colour: Colour, address: u32) -> u32 {
        if colour == Colour::Green {
            for i in (0..self.queued).rev() {
                if self.queue[i].0 == address {
                    return self.queue[i].1;
                }
            }
        }
        self.memory.load(address)
    }

    fn commit(&mut self, address: u32, word: u32) -> u32 {
        if self.queued == 0 {
            return 6;
        }
        if self.queue[0] != (address, word) {
            return 4;
        }
        if !self.memory.store(address, word) {
            return 2;
        }
        self.queue.copy_within(1..self.queued, 0);
        self.queued -= 1;
        self.stores += 1;
        self.fall()
    }

    fn act(&mut self, instruction: Instruction) -> u32 {
        match instruction {
            Instruction::Move(_, a, n) => self.set(a, n),
            Instruction::Copy(a, b) => self.set(a, self.get(b)),
            Instruction::Arith(op, a, b, c) => self.set(a, op.apply(self.get(b), self.get(c))),
            Instruction::Load(colour, a, b) => {
                let word = self.look(colour, self.get(b));
                self.set(a, word)
            }
            Instruction::Store(Colour::Green, a, b) => {
                if self.queued == 16 {
                    return 6;
                }
                self.queue[self.queued] = (self.get(a), self.get(b));
                self.queued += 1;
                self.fall()
            }
            Instruction::Store(Colour::Blue, a, b) => self.commit(self.get(a), self.get(b)),
            Instruction::Jump(Colour::Green, a) => {
                if self.destination != 0 {
                    return 5;
                }
                self.destination = self.get(a);
                self.fall()
            }
            Instruction::Jump(Colour::Blue, a) => self.jump(self.get(a)),
            Instruction::Branch(Colour::Green, a, b) => {
                if self.destination != 0 {
                    return 5;
                }
                if self.get(a) == 0 {
                    self.destination = self.get(b);
                }
                self.fall()
            }
            Instruction::Branch(Colour::Blue, a, b) => {
                if self.get(a) == 0 {
                    return self.jump(self.get(b));
                }
                if self.destination != 0 {
                    return 5;
                }
                self.fall()
            }
            Instruction::Halt => {
                if self.destination != 0 {
                    5
                } else if self.queued != 0 {
                    6
                } else {
                    1
                }
            }
        }
    }

    fn step(&mut self) {
        self.steps += 1;
        if self.green != self.blue {
            self.end = 3;
            return;
        }
        match self.code.get(self.green as usize) {
            Some(&instruction) => self.end = self.act(instruction),
            None => self.end = 7,
        }
    }

    fn run(&mut self, n: u32) {
        for _ in 0..n {
            if self.end != 0 {
                return;
            }
            self.step();
        }
    }
}

// ---------------------------------------------------------------- marks

#[derive(Clone, Copy, PartialEq, Debug)]
enum Mark {
    Let,
    Put,
    Repeat,
    End,
    LineEnd,
    Number(u32),
    Variable(u8),
    Operator(Op),
    Open(u8),
    Close(u8),
    Comma,
    Equals,
}

// A fault: number and byte.
type Fault = (u32, usize);

fn word(bytes: &[u8]) -> Option<Mark> {
    match bytes {
        b"LET" => Some(Mark::Let),
        b"PUT" => Some(Mark::Put),
        b"REPEAT" => Some(Mark::Repeat),
        b"END" => Some(Mark::End),
        [letter @ b'A'..=b'F'] => Some(Mark::Variable(letter - b'A')),
        _ => None,
    }
}

fn number(bytes: &[u8]) -> Option<Mark> {
    if bytes.len() > 1 && bytes[0] == b'0' {
        return None;
    }
    let mut value = 0u32;
    for b in bytes {
        value = value.checked_mul(10)?.checked_add(u32::from(b - b'0'))?;
    }
    Some(Mark::Number(value))
}

fn sign(byte: u8) -> Option<Mark> {
    Some(match byte {
        b'\n' => Mark::LineEnd,
        b'+' => Mark::Operator(Op::Add),
        b'-' => Mark::Operator(Op::Sub),
        b'*' => Mark::Operator(Op::Mul),
        b'<' => Mark::Operator(Op::Lt),
        b'(' => Mark::Open(b'('),
        b'[' => Mark::Open(b'['),
        b')' => Mark::Close(b'('),
        b']' => Mark::Close(b'['),
        b',' => Mark::Comma,
        b'=' => Mark::Equals,
        _ => return None,
    })
}

fn run_end(text: &[u8], at: usize, inside: fn(&u8) -> bool) -> usize {
    let mut end = at + 1;
    while end < text.len() && inside(&text[end]) {
        end += 1;
    }
    end
}

fn scan(text: &[u8], marks: &mut Vec<(Mark, usize)>) -> Result<usize, Fault> {
    marks.clear();
    let mut at = 0;
    while at < text.len() {
        if text[at] == b' ' {
            at += 1;
            continue;
        }
        let (mark, end) = match text[at] {
            b'A'..=b'Z' => {
                let end = run_end(text, at, u8::is_ascii_uppercase);
                (word(&text[at..end]), end)
            }
            b'0'..=b'9' => {
                let end = run_end(text, at, u8::is_ascii_digit);
                (number(&text[at..end]), end)
            }
            byte => (sign(byte), at + 1),
        };
        match mark {
            Some(mark) => marks.push((mark, at)),
            None => return Err((3, at)),
        }
        at = end;
    }
    Ok(at)
}

// ---------------------------------------------------------------- the reader

#[derive(Clone, Copy)]
enum Node {
    Number(u32),
    Variable(u8),
    Cell(usize),
    Binary(Op, usize, usize),
}

#[derive(Clone, Copy)]
struct Expression {
    root: usize,
    place: usize,
}

#[derive(Clone, Copy)]
enum Statement {
    Let(u8, Expression),
    Put(Expression, Expression),
    Repeat(Expression, u32),
    End(u32),
}

struct Reader {
    marks: Vec<(Mark, usize)>,
    end: Result<usize, Fault>,
    at: usize,
    depth: u32,
    nodes: Vec<Node>,
    statements: Vec<Statement>,
    own: u32,
    repeats: u32,
}

impl Reader {
    fn new() -> Self {
        Reader {
            marks: Vec::with_capacity(8192),
            end: Ok(0),
            at: 0,
            depth: 0,
            nodes: Vec::with_capacity(8192),
            statements: Vec::with_capacity(8192),
            own: 0,
            repeats: 0,
        }
    }

    fn peek(&self) -> Option<Mark> {
        self.marks.get(self.at).map(|m| m.0)
    }

    fn place(&self) -> Result<usize, Fault> {
        match self.marks.get(self.at) {
            Some(m) => Ok(m.1),
            None => self.end,
        }
    }

    fn fault<T>(&self, number: u32) -> Result<T, Fault> {
        Err((number, self.place()?))
    }

    fn add(&mut self, node: Node) -> usize {
        self.nodes.push(node);
        self.nodes.len() - 1
    }

    fn pass(&mut self, mark: Mark) -> Result<(), Fault> {
        if self.peek() != Some(mark) {
            return self.fault(4);
        }
        self.at += 1;
        Ok(())
    }

    fn factor(&mut self) -> Result<usize, Fault> {
        match self.peek() {
            Some(Mark::Number(n)) => {
                self.at += 1;
                Ok(self.add(Node::Number(n)))
            }
            Some(Mark::Variable(v)) => {
                self.at += 1;
                Ok(self.add(Node::Variable(v)))
            }
            Some(Mark::Open(bracket)) => {
                if self.depth >= 16 {
                    return self.fault(5);
                }
                self.depth += 1;
                self.at += 1;
                let inner = self.expr()?;
                self.pass(Mark::Close(bracket))?;
                self.depth -= 1;
                if bracket == b'[' {
                    Ok(self.add(Node::Cell(inner)))
                } else {
                    Ok(inner)
                }
            }
            _ => self.fault(4),
        }
    }

    fn term(&mut self) -> Result<usize, Fault> {
        let mut left = self.factor()?;
        while self.peek() == Some(Mark::Operator(Op::Mul)) {
            self.at += 1;
            let right = self.factor()?;
            left = self.add(Node::Binary(Op::Mul, left, right));
        }
        Ok(left)
    }

    fn sum(&mut self) -> Result<usize, Fault> {
        let mut left = self.term()?;
        while let Some(Mark::Operator(op @ (Op::Add | Op::Sub))) = self.peek() {
            self.at += 1;
            let right = self.term()?;
            left = self.add(Node::Binary(op, left, right));
        }
        Ok(left)
    }

    fn expr(&mut self) -> Result<usize, Fault> {
        let left = self.sum()?;
        if self.peek() != Some(Mark::Operator(Op::Lt)) {
            return Ok(left);
        }
        self.at += 1;
        let right = self.sum()?;
        Ok(self.add(Node::Binary(Op::Lt, left, right)))
    }

    fn expression(&mut self) -> Result<Expression, Fault> {
        let place = self.place()?;
        let root = self.expr()?;
        Ok(Expression { root, place })
    }

    fn line_end(&mut self) -> Result<(), Fault> {
        if self.at == self.marks.len() {
            self.place()?;
            return Ok(());
        }
        self.pass(Mark::LineEnd)
    }

    fn spent(&self) -> u32 {
        2 * self.nodes.len() as u32 + self.own
    }

    fn line(&mut self, mark: Mark, open: &mut Vec<(usize, u32)>) -> Result<(), Fault> {
        match mark {
            Mark::LineEnd => self.at += 1,
            Mark::Let => {
                self.at += 1;
                let Some(Mark::Variable(v)) = self.peek() else {
                    return self.fault(4);
                };
                self.at += 1;
                self.pass(Mark::Equals)?;
                let value = self.expression()?;
                self.line_end()?;
                self.own += 2;
                self.statements.push(Statement::Let(v, value));
            }
            Mark::Put => {
                self.at += 1;
                let address = self.expression()?;
                self.pass(Mark::Comma)?;
                let value = self.expression()?;
                self.line_end()?;
                self.own += 2;
                self.statements.push(Statement::Put(address, value));
            }
            Mark::Repeat => {
                if open.len() >= 4 {
                    return self.fault(5);
                }
                self.at += 1;
                let count = self.expression()?;
                self.line_end()?;
                self.own += 14;
                self.repeats += 1;
                self.statements.push(Statement::Repeat(count, 0));
                open.push((self.statements.len() - 1, self.spent()));
            }
            Mark::End => {
                let Some((at, need)) = open.pop() else {
                    return self.fault(4);
                };
                self.at += 1;
                self.line_end()?;
                let body = self.spent() - need;
                if let Statement::Repeat(_, b) = &mut self.statements[at] {
                    *b = body;
                }
                self.statements.push(Statement::End(body));
            }
            _ => return self.fault(4),
        }
        Ok(())
    }

    fn read(&mut self, text: &[u8]) -> Result<(), Fault> {
        let mut marks = std::mem::take(&mut self.marks);
        self.end = scan(text, &mut marks);
        self.marks = marks;
        self.at = 0;
        self.depth = 0;
        self.own = 0;
        self.repeats = 0;
        self.nodes.clear();
        self.statements.clear();
        let mut open = Vec::with_capacity(4);
        while let Some(mark) = self.peek() {
            self.line(mark, &mut open)?;
        }
        let end = self.place()?;
        if !open.is_empty() {
            return Err((4, end));
        }
        Ok(())
    }
}

// ---------------------------------------------------------------- the compiler

fn encode(i: Instruction) -> (u32, u32) {
    let colour = |c| if c == Colour::Green { 0 } else { 1 };
    let (op, a, b, c, n) = match i {
        Instruction::Move(k, a, n) => (colour(k), a, 0, 0, n),
        Instruction::Copy(a, b) => (2, a, b, 0, 0),
        Instruction::Arith(op, a, b, c) => (3 + op as u32, a, b, c, 0),
        Instruction::Load(k, a, b) => (7 + colour(k), a, b, 0, 0),
        Instruction::Store(k, a, b) => (9 + colour(k), a, b, 0, 0),
        Instruction::Jump(k, a) => (11 + colour(k), a, 0, 0, 0),
        Instruction::Branch(k, a, b) => (13 + colour(k), a, b, 0, 0),
        Instruction::Halt => (15, 0, 0, 0, 0),
    };
    (op << 24 | u32::from(a) << 16 | u32::from(b) << 8 | u32::from(c), n)
}

fn decode(first: u32, second: u32) -> Instruction {
    let [op, a, b, c] = first.to_be_bytes();
    match op {
        0 => Instruction::Move(Colour::Green, a, second),
        1 => Instruction::Move(Colour::Blue, a, second),
        2 => Instruction::Copy(a, b),
        3 => Instruction::Arith(Op::Add, a, b, c),
        4 => Instruction::Arith(Op::Sub, a, b, c),
        5 => Instruction::Arith(Op::Mul, a, b, c),
        6 => Instruction::Arith(Op::Lt, a, b, c),
        7 => Instruction::Load(Colour::Green, a, b),
        8 => Instruction::Load(Colour::Blue, a, b),
        9 => Instruction::Store(Colour::Green, a, b),
        10 => Instruction::Store(Colour::Blue, a, b),
        11 => Instruction::Jump(Colour::Green, a),
        12 => Instruction::Jump(Colour::Blue, a),
        13 => Instruction::Branch(Colour::Green, a, b),
        14 => Instruction::Branch(Colour::Blue, a, b),
        _ => Instruction::Halt,
    }
}

struct Compiler {
    reader: Reader,
    widths: Vec<u32>,
    code: Vec<Instruction>,
    // The start of each block, and how many twins its card gives a variable.
    blocks: Vec<(u32, u8)>,
}

const COLOURS: [Colour; 2] = [Colour::Green, Colour::Blue];

fn half(colour: Colour, twin: u8) -> Register {
    2 * twin + u8::from(colour == Colour::Blue)
}

impl Compiler {
    fn new() -> Self {
        Compiler {
            reader: Reader::new(),
            widths: Vec::with_capacity(8192),
            code: Vec::with_capacity(1024),
            blocks: Vec::with_capacity(64),
        }
    }

    fn double(&mut self, make: impl Fn(Colour) -> Instruction) {
        for colour in COLOURS {
            self.code.push(make(colour));
        }
    }

    fn number(&mut self, twin: u8, n: u32) {
        self.double(|c| Instruction::Move(c, half(c, twin), n));
    }

    fn copy(&mut self, to: u8, from: u8) {
        self.double(|c| Instruction::Copy(half(c, to), half(c, from)));
    }

    fn expression(&mut self, root: usize, twin: u8) {
        match self.reader.nodes[root] {
            Node::Number(n) => self.number(twin, n),
            Node::Variable(v) => self.copy(twin, v),
            Node::Cell(address) => {
                self.expression(address, twin);
                self.double(|c| Instruction::Load(c, half(c, twin), half(c, twin)));
            }
            Node::Binary(op, left, right) => {
                self.expression(left, twin);
                self.expression(right, twin + 1);
                self.double(|c| Instruction::Arith(op, half(c, twin), half(c, twin), half(c, twin + 1)));
            }
        }
    }

    fn start_block(&mut self, twins: u8) {
        self.blocks.push((self.code.len() as u32, twins));
    }

    fn statement(&mut self, statement: Statement, open: &mut u8) {
        match statement {
            Statement::Let(v, e) => {
                self.expression(e.root, 10);
                self.copy(v, 10);
            }
            Statement::Put(a, e) => {
                self.expression(a.root, 10);
                self.expression(e.root, 11);
                self.double(|c| Instruction::Store(c, half(c, 10), half(c, 11)));
            }
            Statement::Repeat(e, body) => {
                let counter = 6 + *open;
                self.expression(e.root, 10);
                self.copy(counter, 10);
                self.start_block(counter + 1);
                let head = self.code.len() as u32;
                self.number(10, head + body + 12);
                self.double(|c| Instruction::Branch(c, half(c, counter), half(c, 10)));
                *open += 1;
            }
            Statement::End(body) => {
                *open -= 1;
                let counter = 6 + *open;
                let head = self.code.len() as u32 - body - 4;
                self.number(10, 1);
                self.double(|c| Instruction::Arith(Op::Sub, half(c, counter), half(c, counter), half(c, 10)));
                self.number(10, head);
                self.double(|c| Instruction::Jump(c, half(c, 10)));
                self.start_block(counter);
            }
        }
    }

    fn width(&self, node: Node) -> u32 {
        match node {
            Node::Number(_) | Node::Variable(_) => 1,
            Node::Cell(a) => self.widths[a],
            Node::Binary(_, l, r) => self.widths[l].max(1 + self.widths[r]),
        }
    }

    fn judge(&mut self, text: &[u8], room: usize) -> Result<(), Fault> {
        if text.len() > 8192 {
            return Err((1, 0));
        }
        if room < 2626 {
            return Err((2, 0));
        }
        self.reader.read(text)?;
        self.widths.clear();
        for i in 0..self.reader.nodes.len() {
            let width = self.width(self.reader.nodes[i]);
            self.widths.push(width);
        }
        for statement in &self.reader.statements {
            let parts: &[Expression] = match statement {
                Statement::Let(_, e) | Statement::Repeat(e, _) => &[*e],
                Statement::Put(a, e) => &[*a, *e],
                Statement::End(_) => &[],
            };
            for e in parts {
                if self.widths[e.root] > 5 {
                    return Err((5, e.place));
                }
            }
        }
        if 13 + self.reader.spent() > 1024 || self.reader.repeats > 31 {
            return Err((6, 0));
        }
        Ok(())
    }

    fn compile(&mut self, text: &[u8], out: &mut [u32]) -> Result<usize, Fault> {
        self.judge(text, out.len())?;
        self.code.clear();
        self.blocks.clear();
        self.start_block(0);
        for twin in 0..6 {
            self.number(twin, 0);
        }
        let mut open = 0;
        for i in 0..self.reader.statements.len() {
            self.statement(self.reader.statements[i], &mut open);
        }
        self.code.push(Instruction::Halt);
        out[0] = self.code.len() as u32;
        out[1] = self.blocks.len() as u32;
        let mut at = 2;
        for &i in &self.code {
            let (first, second) = encode(i);
            out[at] = first;
            out[at + 1] = second;
            at += 2;
        }
        for &(start, twins) in &self.blocks {
            let mut card = [0u8; 32];
            for t in 0..twins {
                card[2 * t as usize] = t + 1;
                card[2 * t as usize + 1] = t + 129;
            }
            out[at] = start;
            for (k, bytes) in card.chunks_exact(4).enumerate() {
                out[at + 1 + k] = u32::from_be_bytes(bytes.try_into().unwrap());
            }
            at += 9;
        }
        Ok(at)
    }
}

// ---------------------------------------------------------------- the commands

fn print_time(what: &str, count: u32, start: Instant) {
    println!("{what} {count} {}", start.elapsed().as_nanos());
}

fn time_machine(text: &[u8]) {
    let mut out = vec![0u32; 2626];
    Compiler::new().compile(text, &mut out).expect("the plan does not compile");
    let code = (0..out[0] as usize).map(|p| decode(out[2 + 2 * p], out[3 + 2 * p])).collect();
    let mut cells = vec![1u32; 4096];
    let mut machine = Machine::new(Array(&mut cells), code);
    let start = Instant::now();
    for _ in 0..100 {
        machine.run(1_000_000);
    }
    print_time("machine", machine.steps, start);
    println!("end {} stores {}", machine.end, machine.stores);
}

fn time_read(text: &[u8], times: u32) {
    let mut reader = Reader::new();
    let start = Instant::now();
    let mut read = 0;
    for _ in 0..times {
        if reader.read(black_box(text)).is_ok() {
            read += 1;
        }
        black_box(&reader.statements);
    }
    print_time("read", read, start);
}

fn time_compile(text: &[u8], times: u32) {
    let mut compiler = Compiler::new();
    let mut out = vec![0u32; 2626];
    let start = Instant::now();
    let mut compiled = 0;
    for _ in 0..times {
        if compiler.compile(black_box(text), &mut out).is_ok() {
            compiled += 1;
        }
        black_box(&out);
    }
    print_time("compile", compiled, start);
}

// Prints the words of a plan's module, one a line.
fn words(text: &[u8]) {
    let mut out = vec![0u32; 2626];
    match Compiler::new().compile(text, &mut out) {
        Ok(n) => out[..n].iter().for_each(|w| println!("{w}")),
        Err((number, place)) => println!("refused {number} {place}"),
    }
}

fn main() {
    let args: Vec<String> = std::env::args().collect();
    let text = std::fs::read(&args[2]).expect("a plan");
    let times = args.get(3).map_or(1, |n| n.parse().expect("a number"));
    match args[1].as_str() {
        "machine" => time_machine(&text),
        "read" => time_read(&text, times),
        "compile" => time_compile(&text, times),
        "words" => words(&text),
        _ => eprintln!("plain machine|words FILE, read|compile FILE TIMES"),
    }
}
