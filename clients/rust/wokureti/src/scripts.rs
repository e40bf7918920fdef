//! Scripts: which frames are served, in which order, cropped and faded.
use std::fmt;

/// A node of a script. [`Node::SOURCE_0`] is source 0; the others are what the calls of a [`Script`] return.
#[derive(Clone, Copy, Debug, PartialEq, Eq, Hash, PartialOrd, Ord)]
pub struct Node(usize);

impl Node {
    /// The frames of source 0.
    pub const SOURCE_0: Node = Node(0);
}

/// A script, node by node; the last node is served. Without a node all frames of source 0 are.
///
/// ```
/// use wokureti::{Node, Script};
///
/// let mut script = Script::new();
/// let other = script.source(1);
/// let opening = script.trim(other, 0, 50);
/// let both = script.splice(opening, Node::SOURCE_0);
/// script.fade(both, 0, 25, 0, 256);
/// assert_eq!(script.to_string(), "source 1; trim 1 0 50; splice 2 0; fade 3 0 25 0 256");
/// ```
///
/// The library refuses a script with more than 16 nodes ([`Cause::Nodes`](crate::Cause::Nodes)), a node that is not of this script
/// ([`Cause::Reference`](crate::Cause::Reference)) and numbers out of range ([`Cause::Number`](crate::Cause::Number)).
#[derive(Clone, Debug, Default, PartialEq, Eq)]
pub struct Script {
    nodes: Vec<String>,
}

impl Script {
    /// The script without a node.
    pub fn new() -> Script {
        Script::default()
    }

    /// The number of nodes.
    pub fn len(&self) -> usize {
        self.nodes.len()
    }

    /// Whether there is no node.
    pub fn is_empty(&self) -> bool {
        self.nodes.is_empty()
    }

    fn add(&mut self, node: String) -> Node {
        self.nodes.push(node);
        Node(self.nodes.len())
    }

    /// The frames of a source, counted from 0: its shown packets.
    pub fn source(&mut self, source: usize) -> Node {
        self.add(format!("source {source}"))
    }

    /// At most `count` frames of a node, starting at frame `first`.
    pub fn trim(&mut self, of: Node, first: u32, count: u32) -> Node {
        self.add(format!("trim {} {first} {count}", of.0))
    }

    /// The frames of a node, then those of another one.
    pub fn splice(&mut self, before: Node, after: Node) -> Node {
        self.add(format!("splice {} {}", before.0, after.0))
    }

    /// Any number of parts, one after the other, each as by [`Script::trim`]: a node, a first frame and a count. No part is a script that is refused
    /// ([`Cause::Syntax`](crate::Cause::Syntax)). Needs a library of version 0.15.0.
    pub fn parts(&mut self, parts: &[(Node, u32, u32)]) -> Node {
        let words: String = parts.iter().map(|(of, first, count)| format!(" {} {first} {count}", of.0)).collect();
        self.add(format!("parts{words}"))
    }

    /// `width` x `height` luma samples of each frame, from column `x` and row `y`, both even. The sides are 1 to 16,383.
    pub fn crop(&mut self, of: Node, x: u32, y: u32, width: u32, height: u32) -> Node {
        self.add(format!("crop {} {x} {y} {width} {height}", of.0))
    }

    /// The frames of a node mixed with black, at a weight of 0 (black) to 256 (the picture): `from` before frame `first`, `to` starting `count` frames later, linear
    /// in between. `count` is not 0.
    pub fn fade(&mut self, of: Node, first: u32, count: u32, from: u32, to: u32) -> Node {
        self.add(format!("fade {} {first} {count} {from} {to}", of.0))
    }
}

impl fmt::Display for Script {
    /// The text of a request: `-` without nodes.
    fn fmt(&self, f: &mut fmt::Formatter<'_>) -> fmt::Result {
        match self.nodes.is_empty() {
            true => write!(f, "-"),
            false => write!(f, "{}", self.nodes.join("; ")),
        }
    }
}
