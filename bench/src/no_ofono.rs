//! The place of `ofono` where its source was not given: no task has that side.
use crate::timing::Side;

pub fn pack(_septets: &[u8]) -> Option<Side<'_>> {
    None
}

pub fn unpack(_octets: &[u8], _count: usize) -> Option<Side<'_>> {
    None
}

pub fn text_of(_septets: &[u8]) -> Option<Side<'_>> {
    None
}

pub fn septets_of(_text: &str) -> Option<Side<'_>> {
    None
}

pub fn parse(_unit: &[u8]) -> Option<Side<'_>> {
    None
}

pub fn deliver(_unit: &[u8]) -> Option<Side<'_>> {
    None
}

pub fn submit(_text: &str) -> Option<Side<'_>> {
    None
}

pub fn split(_text: &str, _index: usize) -> Option<Side<'_>> {
    None
}

pub fn join(_units: &[u8], _size: usize) -> Option<Side<'_>> {
    None
}
