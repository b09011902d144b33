// Taken in behind map.rs, so that it sees private fields. It changes nothing.
type Shown<'a, K, V, Kind = marker::LeafOrInternal> = NodeRef<marker::Immut<'a>, K, V, Kind>;
type Edge<'a, K, V, Kind> = Handle<Shown<'a, K, V, Kind>, marker::Edge>;

/// An edge of a leaf, and the edges that lead there from the root, the lowest one first.
struct Path<'a, K, V> {
    leaf: Edge<'a, K, V, marker::Leaf>,
    inner: std::vec::Vec<Edge<'a, K, V, marker::Internal>>,
}

/// The index of an edge, if it is one of this node.
fn index_in<'a, K, V, Kind>(node: Shown<'a, K, V, Kind>, edge: Edge<'a, K, V, Kind>) -> Option<usize> {
    (0..=node.len()).find(|idx| Handle::new_edge(node, *idx) == edge)
}

impl<'a, K: 'a, V: 'a> Path<'a, K, V> {
    fn to(leaf: Edge<'a, K, V, marker::Leaf>) -> Path<'a, K, V> {
        let mut inner = std::vec::Vec::new();
        let mut node = leaf.into_node().forget_type();
        while let Ok(edge) = node.ascend() {
            inner.push(edge);
            node = edge.into_node().forget_type();
        }
        Path { leaf, inner }
    }

    fn root(&self) -> Shown<'a, K, V> {
        match self.inner.last() {
            Some(edge) => edge.into_node().forget_type(),
            None => self.leaf.into_node().forget_type(),
        }
    }

    /// The index of the path's edge in this node, if it goes through it.
    fn index(&self, node: Shown<'a, K, V>) -> Option<usize> {
        match node.force() {
            Leaf(leaf) => index_in(leaf, self.leaf),
            Internal(inner) => index_in(inner, *self.inner.get(inner.height() - 1)?),
        }
    }
}

/// Writes a tree, or what is left of it between two paths.
fn write_node<'a, K: fmt::Display + 'a, V: 'a>(node: Shown<'a, K, V>, ends: Option<&[Path<'a, K, V>; 2]>, out: &mut std::string::String) {
    use std::fmt::Write;
    let (mut first, mut last) = (0, node.len());
    let leaf = node.height() == 0;
    let _ = write!(out, "{}{}", if leaf { '[' } else { '(' }, node.len());
    if let Some([front, back]) = ends {
        first = front.index(node).unwrap_or(first);
        last = back.index(node).unwrap_or(last);
        let _ = write!(out, "@{}-{}", first, last);
    }
    out.push(':');
    for idx in first..=last {
        if let Internal(inner) = node.force() {
            out.push(' ');
            write_node(Handle::new_edge(inner, idx).descend(), ends, out);
        }
        if idx < last {
            let _ = write!(out, " {}", node.keys()[idx]);
        }
    }
    out.push(if leaf { ']' } else { ')' });
}

impl<K: Ord + fmt::Display, V> BTreeMap<K, V> {
    /// Whether there is no node.
    pub fn is_bare(&self) -> bool {
        self.root.is_shared_root()
    }

    /// Each node with its length and its keys.
    pub fn shape(&self) -> std::string::String {
        let mut out = std::string::String::new();
        if self.is_bare() {
            out.push_str("bare");
        } else {
            write_node(self.root.as_ref(), None, &mut out);
        }
        out
    }
}

impl<K: fmt::Display, V> IntoIter<K, V> {
    /// How many entries are left, and of each node that is left the length, the edges between which they lie, and their keys.
    pub fn shape(&self) -> std::string::String {
        let mut out = std::format!("walk {} ", self.length);
        let front = self.front.reborrow();
        if front.into_node().is_shared_root() {
            out.push_str("bare");
        } else {
            let ends = [Path::to(front), Path::to(self.back.reborrow())];
            write_node(ends[0].root(), Some(&ends), &mut out);
        }
        out
    }
}
