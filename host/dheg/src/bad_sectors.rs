//! All bad sectors of an HFE image, where the library names the first alone.
//!
//! Whether a sector is bad is judged by the library on a copy of the image. A
//! sector that it names is then made good in the copy, without a change of what
//! any other sector gives, and the copy is judged again: so the next bad sector
//! is named.

mod mend;
mod sides;

#[cfg(test)]
mod tests;

use dhegluubin::{unpack, Refusal, IMAGE_LEN};
use serde_json::{json, Value};

use mend::{Mended, Mender};

/// How many bad sectors are named where nobody asks for another number. Each
/// takes one judgement of the copy, up to about a tenth of a second, and at most
/// as much again three times over where headers are taken away.
pub const USUAL_LIMIT: usize = 64;

/// Sectors of a disk (§1.1).
const DISK_SECTORS: usize = 1_440;

/// The last R of a side (§1.1).
const LAST_SECTOR: usize = 9;

/// A bad sector.
#[derive(Clone, Copy, Debug, PartialEq, Eq)]
pub struct BadSector {
    /// What the image is refused for, 4 to 7, with track, side and sector.
    pub refusal: Refusal,
    /// Whether the sectors after it on its side could not be judged.
    pub rest_unjudged: bool,
}

/// The bad sectors of an HFE image.
#[derive(Clone, Debug, Default, PartialEq, Eq)]
pub struct BadSectors {
    /// By track, side and sector.
    pub found: Vec<BadSector>,
    /// Whether there are more than were to be named.
    pub more: bool,
}

/// The bad sectors of an HFE image, not more than `limit` of them. There is none
/// where the image is good, and none where it is refused for something else than
/// a sector (§7.18).
pub fn of(hfe: &[u8], limit: usize) -> BadSectors {
    let mut bad = BadSectors::default();
    let Some(mut refusal) = refused_sector(hfe) else {
        return bad;
    };
    let Some(mut mender) = Mender::of(hfe) else {
        return bad;
    };
    while bad.found.len() < limit.min(DISK_SECTORS) {
        let mended = mender.mend(refusal);
        bad.found.push(BadSector {
            refusal,
            rest_unjudged: mended == Mended::WholeSide && place(refusal).sector != LAST_SECTOR,
        });
        match refused_sector(&mender.image()) {
            Some(next) => refusal = next,
            None => return bad,
        }
    }
    bad.more = true;
    bad
}

/// What an image is refused for, if that is a sector.
fn refused_sector(hfe: &[u8]) -> Option<Refusal> {
    let refusal = unpack(hfe, &mut vec![0; IMAGE_LEN]).err()?;
    (4..=7).contains(&refusal.number()).then_some(refusal)
}

/// Where a sector is.
#[derive(Clone, Copy, Debug, PartialEq, Eq, PartialOrd, Ord)]
struct Place {
    track: usize,
    side: usize,
    /// R, 1 to 9.
    sector: usize,
}

/// The place that a refusal of a sector names (§7.4 to §7.7).
fn place(refusal: Refusal) -> Place {
    let [_, track, side, sector] = refusal.reply().parts();
    Place {
        track,
        side,
        sector,
    }
}

impl BadSectors {
    /// In words, a line each; none where there is one alone, which the image's
    /// refusal names.
    pub fn lines(&self) -> String {
        if matches!(
            *self.found,
            [BadSector {
                rest_unjudged: false,
                ..
            }]
        ) && !self.more
        {
            return String::new();
        }
        let mut lines: String = self.found.iter().map(line).collect();
        if self.more {
            let count = self.found.len();
            lines.push_str(&format!(
                "  more than {count} sectors are bad, the others are not named\n"
            ));
        }
        lines
    }

    /// As JSON: an array of objects. Where there are more, `null` is the last.
    pub fn json(&self) -> Value {
        let found = self.found.iter().map(object);
        found.chain(self.more.then_some(Value::Null)).collect()
    }
}

/// A bad sector as JSON.
fn object(bad: &BadSector) -> Value {
    let Place {
        track,
        side,
        sector,
    } = place(bad.refusal);
    json!({
        "number": bad.refusal.number(),
        "track": track,
        "side": side,
        "sector": sector,
        "words": reason(bad.refusal),
        "rest_judged": !bad.rest_unjudged,
    })
}

/// What is wrong with a sector, without its place.
fn reason(refusal: Refusal) -> String {
    let words = refusal.to_string();
    let words = words.split_once(": ").map_or(&*words, |(_, words)| words);
    let reason = words.split_once(" at ").map_or(words, |(reason, _)| reason);
    reason.to_string()
}

/// A bad sector in words: the refusal's own, place first.
fn line(bad: &BadSector) -> String {
    let Place {
        track,
        side,
        sector,
    } = place(bad.refusal);
    let rest = match bad.rest_unjudged {
        true => ", later sectors of this side are not judged",
        false => "",
    };
    let reason = reason(bad.refusal);
    format!("  track {track}, side {side}, sector {sector}: {reason}{rest}\n")
}
