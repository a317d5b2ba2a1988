//! Regular expressions, as far as the second grammar of names needs them: letters, `[a-z]`, `(..)` that is kept, `(?:..)` that isn't, `(?!..)` for
//! what must not follow, `|`, `?`, `{n}`, `{n,m}` and `$` for the end. A `-`, a dot and a letter outside brackets stand for themselves.

/// What a pattern is made of.
enum Node {
    /// These bytes.
    Text(Vec<u8>),
    /// A byte from the first to the last.
    Class(u8, u8),
    /// The end of the bytes.
    End,
    /// One behind the other.
    Row(Vec<Node>),
    /// One of several, the first that leads to a match.
    Either(Vec<Node>),
    /// From so often to so often, as often as it can.
    Repeated(Box<Node>, usize, usize),
    /// The same, and where it stood is kept under its number.
    Kept(Box<Node>, usize),
    /// Nothing, where this doesn't follow.
    Not(Box<Node>),
}

/// A regular expression, and how many groups it keeps.
pub struct Pattern {
    node: Node,
    groups: usize,
}

/// Where each group that is kept stood, from and to.
pub type Kept = Vec<Option<(usize, usize)>>;

impl Pattern {
    /// The pattern of a text. One that is none is a mistake of whoever wrote it.
    pub fn new(text: &str) -> Pattern {
        let mut reader = Reader { text: text.as_bytes(), groups: 0 };
        let node = reader.either();
        assert!(reader.text.is_empty(), "a pattern ends before {:?}", String::from_utf8_lossy(reader.text));
        Pattern { node, groups: reader.groups }
    }

    /// What is kept where all of some bytes match.
    pub fn whole(&self, bytes: &[u8]) -> Option<Kept> {
        let (mut kept, mut found) = (vec![None; self.groups], None);
        self.node.leads(bytes, 0, &mut kept, &mut |at, kept| {
            found = (at == bytes.len()).then(|| kept.clone());
            found.is_some()
        });
        found
    }
}

/// What comes behind a match: whether it matches from an offset on, with what is kept so far.
type Next<'a> = &'a mut dyn FnMut(usize, &mut Kept) -> bool;

impl Node {
    /// Whether it matches from an offset on and leads to a match of what comes behind it.
    fn leads(&self, bytes: &[u8], at: usize, kept: &mut Kept, next: Next) -> bool {
        match self {
            Node::Text(text) => bytes[at..].starts_with(text) && next(at + text.len(), kept),
            Node::Class(first, last) => {
                bytes.get(at).is_some_and(|b| (first..=last).contains(&b)) && next(at + 1, kept)
            }
            Node::End => at == bytes.len() && next(at, kept),
            Node::Row(nodes) => row(nodes, bytes, at, kept, next),
            Node::Either(nodes) => nodes.iter().any(|node| node.leads(bytes, at, kept, next)),
            Node::Repeated(node, least, most) => repeated(node, (*least, *most), bytes, at, kept, next),
            Node::Kept(node, number) => {
                let before = kept[*number];
                let led = node.leads(bytes, at, kept, &mut |end, kept| {
                    kept[*number] = Some((at, end));
                    next(end, kept)
                });
                if !led {
                    kept[*number] = before;
                }
                led
            }
            Node::Not(node) => !node.leads(bytes, at, kept, &mut |_, _| true) && next(at, kept),
        }
    }
}

/// Nodes one behind the other.
fn row(nodes: &[Node], bytes: &[u8], at: usize, kept: &mut Kept, next: Next) -> bool {
    match nodes {
        [] => next(at, kept),
        [first, rest @ ..] => first.leads(bytes, at, kept, &mut |end, kept| row(rest, bytes, end, kept, next)),
    }
}

/// A node as often as it can be, and no less than it must.
fn repeated(node: &Node, (least, most): (usize, usize), bytes: &[u8], at: usize, kept: &mut Kept, next: Next) -> bool {
    let fewer = (least.saturating_sub(1), most.saturating_sub(1));
    let more = most > 0 && node.leads(bytes, at, kept, &mut |end, kept| repeated(node, fewer, bytes, end, kept, next));
    more || least == 0 && next(at, kept)
}

/// What is left to read of a pattern's text, and how many groups it has so far.
struct Reader<'a> {
    text: &'a [u8],
    groups: usize,
}

impl Reader<'_> {
    /// Whether the text goes on with a word, which is then read.
    fn takes(&mut self, word: &str) -> bool {
        let rest = self.text.strip_prefix(word.as_bytes());
        self.text = rest.unwrap_or(self.text);
        rest.is_some()
    }

    /// The next byte, whatever it is.
    fn byte(&mut self) -> u8 {
        let (first, rest) = self.text.split_first().expect("a pattern ends too early");
        self.text = rest;
        *first
    }

    /// Rows with `|` between them.
    fn either(&mut self) -> Node {
        let first = self.row();
        if !self.text.starts_with(b"|") {
            return first;
        }
        let mut rows = vec![first];
        while self.takes("|") {
            rows.push(self.row());
        }
        Node::Either(rows)
    }

    /// What stands up to a `|`, a `)` or the end.
    fn row(&mut self) -> Node {
        let mut nodes = vec![];
        while !matches!(self.text, [] | [b'|' | b')', ..]) {
            let node = self.one();
            match (nodes.last_mut(), self.times(node)) {
                (Some(Node::Text(text)), Node::Text(more)) => text.extend(more),
                (_, node) => nodes.push(node),
            }
        }
        Node::Row(nodes)
    }

    /// A group, a class, the end or a byte.
    fn one(&mut self) -> Node {
        if self.takes("(?!") {
            return Node::Not(self.group());
        }
        if self.takes("(?:") {
            return *self.group();
        }
        match self.byte() {
            b'(' => {
                let number = self.groups;
                self.groups += 1;
                Node::Kept(self.group(), number)
            }
            b'[' => {
                let (first, dash, last, end) = (self.byte(), self.byte(), self.byte(), self.byte());
                assert!((dash, end) == (b'-', b']'), "a class has a first and a last");
                Node::Class(first, last)
            }
            b'$' => Node::End,
            byte => Node::Text(vec![byte]),
        }
    }

    /// The inside of a group, and its end.
    fn group(&mut self) -> Box<Node> {
        let node = self.either();
        assert!(self.takes(")"), "a group has no end");
        Box::new(node)
    }

    /// A node with how often it stands there.
    fn times(&mut self, node: Node) -> Node {
        if self.takes("?") {
            return Node::Repeated(Box::new(node), 0, 1);
        }
        if !self.takes("{") {
            return node;
        }
        let least = usize::from(self.byte() - b'0');
        let most = if self.takes(",") { usize::from(self.byte() - b'0') } else { least };
        assert!(self.takes("}"), "how often has no end");
        Node::Repeated(Box::new(node), least, most)
    }
}
