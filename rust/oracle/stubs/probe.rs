
/// Appended by the oracle's build script: what a query answers and which pairs are held.
impl LineNum {
    pub fn probe_query(&self, start: u32, end: u32) -> bool {
        self.contains(Range::new(start, end))
    }

    pub fn probe_pairs(&self) -> Vec<(u32, u32)> {
        self.start2end.iter().map(|(&start, &end)| (start, end)).collect()
    }
}
