//! A build of the port behind the interface.

use crate::interface::{
    Filter, Gatherer, HalfOpen, Lent, Numbers, Port, Quotas, Ranges, Starts, Tagged,
};
use crate::ranges::List;
use lcov_sys::Calls;

#[derive(Clone, Copy)]
pub struct Build(pub Calls);

impl Port for Build {
    fn read_line(&self, line: &[u8], answer: &mut [u64]) -> u32 {
        self.0.read_line(line, answer)
    }

    fn print_line(&self, line: &[u8], out: &mut [u8], answer: &mut [u64]) -> u32 {
        self.0.print_line(line, out, answer)
    }

    fn compare_paths(&self, a: &[u8], b: &[u8]) -> u32 {
        self.0.compare_paths(a, b)
    }
}

impl Numbers for Build {
    fn read_number(&self, field: &[u8], max: u64, answer: &mut [u64]) -> u32 {
        self.0.read_number(field, max, answer)
    }
}

impl Gatherer for Build {
    fn read_text(&self, text: &[u8], lent: Lent) -> u32 {
        self.0.read_text(text, lent.scratch, lent.out, lent.answer)
    }

    fn gather(&self, bundle: &[u8], out: &mut [u8], answer: &mut [u64]) -> u32 {
        self.0.gather(bundle, out, answer)
    }

    fn gather_with(&self, bundle: &[u8], lent: Lent) -> u32 {
        self.0
            .gather_with(bundle, lent.scratch, lent.out, lent.answer)
    }

    fn gather_lossy(&self, bundle: &[u8], lent: Lent) -> u32 {
        self.0
            .gather_lossy(bundle, lent.scratch, lent.out, lent.answer)
    }

    fn totals(&self, bundle: &[u8], lent: Lent) -> u32 {
        self.0.totals(bundle, lent.scratch, lent.out, lent.answer)
    }

    fn gather_revisions(&self, bundle: &[u8], lent: Lent) -> u32 {
        self.0
            .gather_revisions(bundle, lent.scratch, lent.out, lent.answer)
    }

    fn windows(&self, bundle: &[u8], width: u32, lent: Lent) -> u32 {
        self.0
            .windows(bundle, width, lent.scratch, lent.out, lent.answer)
    }

    fn gather_quotas(&self, asked: Quotas, lent: Lent) -> u32 {
        let Quotas {
            bundle,
            labs,
            quotas,
        } = asked;
        self.0.gather_quotas(
            bundle,
            labs,
            quotas,
            lent.scratch,
            lent.out,
            lent.marks,
            lent.answer,
        )
    }

    fn filter_text(&self, asked: Filter, lent: Lent) -> u32 {
        let Filter { starts, text, list } = asked;
        let filter = match starts {
            Starts::All => Calls::filter,
            Starts::Distinct => Calls::filter_distinct_starts,
        };
        filter(
            &self.0,
            text,
            &list.pairs,
            list.used,
            lent.scratch,
            lent.out,
            lent.answer,
        )
    }
}

impl Tagged for Build {
    fn read_line_tagged(&self, tags: &[u8], line: &[u8], answer: &mut [u64]) -> u32 {
        self.0.read_line_tagged(tags, line, answer)
    }

    fn print_line_tagged(
        &self,
        tags: &[u8],
        line: &[u8],
        out: &mut [u8],
        answer: &mut [u64],
    ) -> u32 {
        self.0.print_line_tagged(tags, line, out, answer)
    }

    fn read_text_tagged(&self, tags: &[u8], text: &[u8], lent: Lent) -> u32 {
        self.0
            .read_text_tagged(tags, text, lent.scratch, lent.out, lent.answer)
    }

    fn gather_tagged(&self, tags: &[u8], bundle: &[u8], lent: Lent) -> u32 {
        self.0
            .gather_tagged(tags, bundle, lent.scratch, lent.out, lent.answer)
    }

    fn gather_lossy_tagged(&self, tags: &[u8], bundle: &[u8], lent: Lent) -> u32 {
        self.0
            .gather_lossy_tagged(tags, bundle, lent.scratch, lent.out, lent.answer)
    }

    fn totals_tagged(&self, tags: &[u8], bundle: &[u8], lent: Lent) -> u32 {
        self.0
            .totals_tagged(tags, bundle, lent.scratch, lent.out, lent.answer)
    }

    fn gather_revisions_tagged(&self, tags: &[u8], bundle: &[u8], lent: Lent) -> u32 {
        self.0
            .gather_revisions_tagged(tags, bundle, lent.scratch, lent.out, lent.answer)
    }

    fn windows_tagged(&self, tags: &[u8], bundle: &[u8], width: u32, lent: Lent) -> u32 {
        self.0
            .windows_tagged(tags, bundle, width, lent.scratch, lent.out, lent.answer)
    }

    fn gather_quotas_tagged(&self, tags: &[u8], asked: Quotas, lent: Lent) -> u32 {
        let Quotas {
            bundle,
            labs,
            quotas,
        } = asked;
        self.0.gather_quotas_tagged(
            tags,
            bundle,
            labs,
            quotas,
            lent.scratch,
            lent.out,
            lent.marks,
            lent.answer,
        )
    }

    fn filter_text_tagged(&self, tags: &[u8], asked: Filter, lent: Lent) -> u32 {
        let Filter { starts, text, list } = asked;
        let filter = match starts {
            Starts::All => Calls::filter_tagged,
            Starts::Distinct => Calls::filter_distinct_starts_tagged,
        };
        filter(
            &self.0,
            tags,
            text,
            &list.pairs,
            list.used,
            lent.scratch,
            lent.out,
            lent.answer,
        )
    }
}

impl Ranges for Build {
    fn insert_range(&self, list: &mut List, start: u32, end: u32, answer: &mut [u64]) -> u32 {
        self.0
            .insert_range(&mut list.pairs, list.used, start, end, answer)
    }

    fn query_range(&self, list: &List, start: u32, end: u32, answer: &mut [u64]) -> u32 {
        self.0
            .query_range(&list.pairs, list.used, start, end, answer)
    }
}

impl HalfOpen for Build {
    fn half_open(&self, a: u32, b: u32, answer: &mut [u64]) {
        self.0.half_open(a, b, answer)
    }
}
