//! Texts of a bundle that are gathered as if it had no others.

/// In the order of the bundle.
pub struct Chosen<'a> {
    pub texts: Vec<&'a [u8]>,
    /// The place of each in the whole bundle.
    pub places: Vec<usize>,
}

impl<'a> Chosen<'a> {
    pub fn of(all: &[&'a [u8]], places: impl IntoIterator<Item = usize>) -> Self {
        let places: Vec<usize> = places.into_iter().collect();
        let texts = places.iter().map(|&place| all[place]).collect();
        Chosen { texts, places }
    }

    pub fn all(texts: Vec<&'a [u8]>) -> Self {
        let places = (0..texts.len()).collect();
        Chosen { texts, places }
    }

    /// The place in the whole bundle of a text that has this one among the chosen.
    pub fn in_whole(&self, text: usize) -> usize {
        self.places[text]
    }
}
