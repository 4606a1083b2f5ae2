//! Counts of what families make.

use std::fmt;

/// How many families make what: of one family, of one check or of several.
#[derive(Clone, Copy, Debug, Default, PartialEq, Eq)]
pub struct FamilyCounts {
    pub chains: usize,
    /// Chains of more than one member.
    pub long_chains: usize,
    pub longest_chain: usize,
    pub uncut_circles: usize,
    pub circles_removed_whole: usize,
    pub rings: usize,
    /// Rings of more than two members, so that an arc was cut after the circle.
    pub long_rings: usize,
    pub largest_ring: usize,
}

impl FamilyCounts {
    /// One chain of so many members.
    pub fn of_chain(members: usize) -> FamilyCounts {
        let long_chains = usize::from(members > 1);
        FamilyCounts { chains: 1, long_chains, longest_chain: members, ..FamilyCounts::default() }
    }

    pub fn of_uncut_circle() -> FamilyCounts {
        FamilyCounts { uncut_circles: 1, ..FamilyCounts::default() }
    }

    pub fn of_circle_removed_whole() -> FamilyCounts {
        FamilyCounts { circles_removed_whole: 1, ..FamilyCounts::default() }
    }

    /// One ring of so many members.
    pub fn of_ring(members: usize) -> FamilyCounts {
        let long_rings = usize::from(members > 2);
        FamilyCounts { rings: 1, long_rings, largest_ring: members, ..FamilyCounts::default() }
    }

    pub fn add(&mut self, other: &FamilyCounts) {
        self.chains += other.chains;
        self.long_chains += other.long_chains;
        self.longest_chain = self.longest_chain.max(other.longest_chain);
        self.uncut_circles += other.uncut_circles;
        self.circles_removed_whole += other.circles_removed_whole;
        self.rings += other.rings;
        self.long_rings += other.long_rings;
        self.largest_ring = self.largest_ring.max(other.largest_ring);
    }

    pub fn circles(&self) -> usize {
        self.uncut_circles + self.circles_removed_whole + self.rings
    }
}

impl fmt::Display for FamilyCounts {
    fn fmt(&self, f: &mut fmt::Formatter<'_>) -> fmt::Result {
        let FamilyCounts { chains, long_chains, longest_chain, .. } = self;
        let FamilyCounts { uncut_circles, circles_removed_whole, .. } = self;
        let FamilyCounts { rings, long_rings, largest_ring, .. } = self;
        write!(f, "chains:{chains} of more than one:{long_chains} longest:{longest_chain}")?;
        write!(f, " uncut circles:{uncut_circles} removed whole:{circles_removed_whole}")?;
        write!(f, " rings:{rings} of more than two:{long_rings} largest:{largest_ring}")
    }
}
