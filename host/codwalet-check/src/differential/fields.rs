//! The fields of the C interface's answers by name.

use codwalet::raw::{Area, Covered, Held, Outline, Proposal};

/// An answer as a list of named numbers.
pub trait Fields {
    /// Each field with its name.
    fn fields(&self) -> Vec<(String, u64)>;
}

fn named<const N: usize>(fields: [(&str, u64); N]) -> Vec<(String, u64)> {
    fields.map(|(name, value)| (name.to_string(), value)).to_vec()
}

impl Fields for Area {
    fn fields(&self) -> Vec<(String, u64)> {
        named([
            ("refusal", self.refusal.into()),
            ("weight", self.weight.into()),
            ("rows", self.rows),
            ("columns", self.columns),
            ("population", self.population),
            ("offset", self.offset),
            ("length", self.length),
        ])
    }
}

impl Fields for Covered {
    fn fields(&self) -> Vec<(String, u64)> {
        named([
            ("MHz-pops", self.mhz_pops),
            ("cells", self.cells),
            ("refusal", self.refusal.into()),
            ("unused", self.unused.into()),
        ])
    }
}

impl Fields for Held {
    fn fields(&self) -> Vec<(String, u64)> {
        named([
            ("whole", self.whole),
            ("value", self.value),
            ("size", self.size),
            ("refusal", self.refusal.into()),
            ("unused", self.unused.into()),
        ])
    }
}

impl Fields for Proposal {
    fn fields(&self) -> Vec<(String, u64)> {
        let mut fields = named([
            ("refusal", self.refusal.into()),
            ("kind", self.kind.into()),
            ("tied", self.tied),
            ("count", self.count),
            ("target", self.target),
            ("white space", self.white_space),
        ]);
        for (place, given) in self.areas.iter().enumerate() {
            let of_area = |name: &str| format!("{name} of the area at {place}");
            fields.push((of_area("number"), given.number.into()));
            fields.push((of_area("gets"), given.gets.into()));
            fields.push((of_area("blocks"), given.blocks));
            fields.push((of_area("share"), given.share));
            fields.push((of_area("cells"), given.cells));
        }
        fields
    }
}

impl Fields for Outline {
    fn fields(&self) -> Vec<(String, u64)> {
        named([("refusal", self.refusal.into()), ("area", self.area.into()), ("needed", self.needed)])
    }
}
