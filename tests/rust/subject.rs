//! 000 itself, unchanged, over the stand-ins.
#![allow(dead_code)]

use crate::shim::{bitflags, log, winnow};

include!(env!("RES_TABLE_CONFIG_RS"));

/// What is private in 000, handed to the questions. A child module sees it; each is one line that calls its like there.
pub mod reach {
    use super::ResTableConfig;

    /// The record at the input's front, which the input then begins behind; nothing where the Rust answers an error.
    pub fn parse(input: &mut &[u8]) -> Option<ResTableConfig> {
        ResTableConfig::parse(input).ok()
    }

    /// The words of the two bytes of a language.
    pub fn unpack_language(bytes: [u8; 2]) -> String {
        ResTableConfig::default().unpack_language(bytes)
    }

    /// The words of the two bytes of a region.
    pub fn unpack_region(bytes: [u8; 2]) -> String {
        ResTableConfig::default().unpack_region(bytes)
    }

    /// The bytes that the two bytes of a language unpack to.
    pub fn language_bytes(bytes: [u8; 2]) -> [u8; 4] {
        ResTableConfig::default().unpack_language_or_region(bytes, b'a').1
    }

    /// The bytes that the two bytes of a region unpack to.
    pub fn region_bytes(bytes: [u8; 2]) -> [u8; 4] {
        ResTableConfig::default().unpack_language_or_region(bytes, b'0').1
    }

    /// Appends the words of a record's locale to a text.
    pub fn append_dir_locale(record: &ResTableConfig, text: &mut String) {
        record.append_dir_locale(text)
    }

    /// Some bytes as a subtag.
    pub fn subtag(bytes: &[u8]) -> String {
        ResTableConfig::subtag(bytes)
    }
}
