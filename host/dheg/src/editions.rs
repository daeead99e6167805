//! HFE versions, as they are told.

use std::ffi::OsStr;
use std::path::Path;

use dhegluubin::{Edition, Refusal};

use crate::failure::Failure;

/// A refusal of this HFE image. The edition is told where it is not the usual
/// one, or where it is what the image is refused for.
pub fn refused(path: &OsStr, hfe: &[u8], refusal: Refusal) -> Failure {
    let what = Path::new(path).display().to_string();
    Failure::refused(what, refusal, note(Edition::of(hfe), refusal))
}

/// What is told after a refusal.
fn note(edition: Option<Edition>, refusal: Refusal) -> Option<String> {
    match (refusal, edition) {
        // What is wrong is not in the image.
        (Refusal::Length { .. } | Refusal::Argument, _) => None,
        // Letters that are read are at fault only where the image is rewritten.
        (Refusal::HfeHeader { offset: 0 }, Some(edition)) => {
            Some(format!("{edition} is not rewritten"))
        }
        (Refusal::HfeHeader { offset: 0 }, None) => Some(format!(
            "neither {} nor {}",
            Edition::Version1,
            Edition::Version3
        )),
        (_, Some(Edition::Version3)) => Some(Edition::Version3.to_string()),
        _ => None,
    }
}

/// The edition of an image that was read, if it is to be told: not the usual
/// one, which nobody needs to hear of.
pub fn edition_to_tell(hfe: &[u8]) -> Option<Edition> {
    Edition::of(hfe).filter(|&edition| edition != Edition::Version1)
}
