//! A tree of minima: the leaves are numbers, and every node above them is the smaller of the two below it.

pub struct Tree {
    /// Node i stands above nodes 2i and 2i + 1; node 1 is the least of all. The leaves are the last half.
    nodes: Vec<u64>,
}

impl Tree {
    /// A tree with these leaves, and others of the greatest number up to a power of two.
    pub fn over(leaves: impl ExactSizeIterator<Item = u64>) -> Tree {
        let width = leaves.len().next_power_of_two();
        let mut nodes = vec![u64::MAX; 2 * width];
        for (node, leaf) in nodes[width..].iter_mut().zip(leaves) {
            *node = leaf;
        }
        let mut tree = Tree { nodes };
        tree.fill();
        tree
    }

    pub fn least(&self) -> u64 {
        self.nodes[1]
    }

    pub fn leaf(&self, number: usize) -> u64 {
        self.nodes[self.nodes.len() / 2 + number]
    }

    /// Sets a leaf, and the nodes above it.
    pub fn set(&mut self, number: usize, value: u64) {
        let mut node = self.nodes.len() / 2 + number;
        self.nodes[node] = value;
        while node > 1 {
            node /= 2;
            self.nodes[node] = self.lesser_below(node);
        }
    }

    /// Sets a leaf alone; `fill` sets the nodes above.
    pub fn set_leaf(&mut self, number: usize, value: u64) {
        let node = self.nodes.len() / 2 + number;
        self.nodes[node] = value;
    }

    /// Sets every node above the leaves.
    pub fn fill(&mut self) {
        for node in (1..self.nodes.len() / 2).rev() {
            self.nodes[node] = self.lesser_below(node);
        }
    }

    fn lesser_below(&self, node: usize) -> u64 {
        self.nodes[2 * node].min(self.nodes[2 * node + 1])
    }
}
