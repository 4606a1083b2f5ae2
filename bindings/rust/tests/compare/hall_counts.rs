//! What came up in whole halls.

use oracle::family_counts::FamilyCounts;
use std::fmt;

#[derive(Default)]
pub struct HallCounts {
    pub halls: usize,
    /// Halls whose desk accepted more edits than a window holds.
    pub past_the_window: usize,
    pub asked: usize,
    pub accepted: usize,
    pub resumed: usize,
    pub windows_lost: usize,
    pub applied: usize,
    pub old: usize,
    /// Old ones from before the wall's last start.
    pub before_start: usize,
    pub ahead: usize,
    pub foreign: usize,
    pub catch_ups: CatchUpCounts,
    pub starts_after_26: usize,
    pub other_starts: usize,
    pub most_starts: usize,
    pub at_desks: FamilyCounts,
    /// Since the walls' last starts.
    pub at_walls: FamilyCounts,
}

/// Catch-ups by their outcomes.
#[derive(Default)]
pub struct CatchUpCounts {
    pub none_due: usize,
    pub written: usize,
    pub messages: usize,
    /// Of those written, how many were delivered as they are, which brought the wall level with its desk.
    pub level: usize,
    pub all_64: usize,
    pub short: usize,
    pub left_window: usize,
    /// Of these, how many had more than 64 messages due.
    pub too_many: usize,
    pub count_above: usize,
}

impl CatchUpCounts {
    pub fn all(&self) -> usize {
        self.none_due + self.written + self.short + self.left_window + self.count_above
    }
}

impl HallCounts {
    pub fn deliveries(&self) -> usize {
        self.applied + self.old + self.ahead + self.foreign
    }

    /// Fails where there were enough halls and something did not come up.
    pub fn check(&self, enough: usize) -> Result<(), String> {
        let CatchUpCounts { none_due, level, all_64, short, .. } = self.catch_ups;
        let CatchUpCounts { left_window, too_many, count_above, .. } = self.catch_ups;
        let wanted = [
            ("desks past the window", self.past_the_window),
            ("desks resumed", self.resumed),
            ("windows lost", self.windows_lost),
            ("messages from before a start", self.before_start),
            ("messages ahead", self.ahead),
            ("foreign messages", self.foreign),
            ("catch-ups with none due", none_due),
            ("walls brought level", level),
            ("catch-ups by 64", all_64),
            ("catch-ups with short rooms", short),
            ("walls too far back", too_many),
            ("walls whose messages are lost", left_window - too_many),
            ("counts above the desk's", count_above),
            ("starts after 26", self.starts_after_26),
            ("other starts", self.other_starts),
            ("chains of several members since a start", self.at_walls.long_chains),
            ("rings since a start", self.at_walls.rings),
        ];
        match wanted.iter().find(|(_, count)| *count == 0) {
            Some((name, _)) if self.halls >= enough => Err(format!("none came up: {name}")),
            _ => Ok(()),
        }
    }
}

impl fmt::Display for HallCounts {
    fn fmt(&self, f: &mut fmt::Formatter<'_>) -> fmt::Result {
        let HallCounts { asked, accepted, resumed, windows_lost, past_the_window, .. } = self;
        write!(f, "  desks    edits:{asked} accepted:{accepted} refused:{} ", asked - accepted)?;
        write!(f, "past 64:{past_the_window} ")?;
        writeln!(f, "resumed:{resumed} windows lost:{windows_lost}")?;
        let HallCounts { applied, old, before_start, ahead, foreign, .. } = self;
        write!(f, "  walls    deliveries:{} applied:{applied} old:{old} ", self.deliveries())?;
        writeln!(f, "of before the start:{before_start} ahead:{ahead} foreign:{foreign}")?;
        let CatchUpCounts { none_due, written, messages, level, all_64, .. } = self.catch_ups;
        let CatchUpCounts { short, left_window, too_many, count_above, .. } = self.catch_ups;
        write!(f, "  catch-ups:{} none due:{none_due} written:{written} ", self.catch_ups.all())?;
        write!(f, "messages:{messages} all 64:{all_64} level:{level} ")?;
        writeln!(f, "25:{short} 26:{left_window} of more than 64:{too_many} 27:{count_above}")?;
        let HallCounts { starts_after_26, other_starts, most_starts, .. } = self;
        let starts = starts_after_26 + other_starts;
        write!(f, "  starts again:{starts} after 26:{starts_after_26} ")?;
        writeln!(f, "at other times:{other_starts} most of one wall:{most_starts}")?;
        writeln!(f, "  at the desks {}", self.at_desks)?;
        writeln!(f, "  at the walls since their starts {}", self.at_walls)
    }
}
