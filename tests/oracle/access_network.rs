
// Appended by the build: a door to what is private to this file.
pub(crate) mod access {
    use super::{EdgeTracker, RegionTracker};

    /// The edge that the next merge takes, by the Rust's own choice: its two nodes, its weight, and its difference over that weight.
    pub(crate) fn next_edge(edges: &EdgeTracker) -> Option<([usize; 2], i32, f64)> {
        edges.pop_edge().map(|e| ([e.node1 as usize, e.node2 as usize], e.weight, e.diff))
    }

    /// A node's gates.
    pub(crate) fn gates_in(regions: &RegionTracker, node: usize) -> i64 {
        regions.get_node_size(node)
    }

    pub(crate) fn regions_in(regions: &RegionTracker, node: usize) -> &[usize] {
        &regions.regions_in_node[node]
    }
}
