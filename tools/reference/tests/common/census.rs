//! Counts of what generated inputs reach.

use reference::tally::expanded;
use std::collections::BTreeMap;

/// How often each feature was met.
#[derive(Default)]
pub struct Census {
    counts: BTreeMap<String, usize>,
}

impl Census {
    pub fn meet(&mut self, feature: impl Into<String>) {
        *self.counts.entry(feature.into()).or_default() += 1;
    }

    pub fn meet_if(&mut self, met: bool, feature: impl Into<String>) {
        if met {
            self.meet(feature);
        }
    }

    /// Every feature of the patterns was met so often, and no other was.
    pub fn assert_reaches(&self, subject: &str, least: usize, patterns: &[&str]) {
        let features: Vec<String> = patterns.iter().flat_map(|text| expanded(text)).collect();
        let seen = |feature: &String| self.counts.get(feature).copied().unwrap_or(0);
        let few = features.iter().filter(|feature| seen(feature) < least);
        let few: Vec<_> = few.map(|feature| (feature, seen(feature))).collect();
        assert!(few.is_empty(), "{subject}, below {least}: {few:#?}");
        let met = self.counts.keys();
        let others: Vec<&String> = met.filter(|met| !features.contains(met)).collect();
        assert!(others.is_empty(), "{subject}, not listed: {others:#?}");
    }
}
