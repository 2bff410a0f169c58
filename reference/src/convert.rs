//! The converter: a valid sheet taken from one layout to the other.

use crate::builder::SheetBuilder;
use crate::layout::{Front, Layout};
use crate::refusal::{Fault, Refusal};
use crate::sheet::Sheet;
use crate::tool;

/// Takes a sheet to the wide layout and gives the number, 0 if it is written.
pub fn sheet_to_wide(sheet: &[u8], output: &mut [u8], result: &mut [u8]) -> u64 {
    convert(Layout::Wide, sheet, output, result)
}

/// Takes a sheet to the narrow layout and gives the number, 0 if it is written.
pub fn sheet_to_narrow(sheet: &[u8], output: &mut [u8], result: &mut [u8]) -> u64 {
    convert(Layout::Narrow, sheet, output, result)
}

/// Takes a sheet to a layout and gives the number, 0 if it is written.
pub fn convert(layout: Layout, sheet: &[u8], output: &mut [u8], result: &mut [u8]) -> u64 {
    tool::run([sheet], output, result, |[words]| laid_out(words, layout))
}

/// The words of a valid sheet in a layout. "A sheet already in that layout is
/// written unaltered."
pub fn laid_out(words: &[u32], layout: Layout) -> Result<Vec<u32>, Refusal> {
    let sheet = tool::valid(words)?;
    if sheet.head.places > layout.most_places() {
        return Err(Refusal::new(Fault::NarrowPlaces, 0));
    }
    if sheet.head.layout == layout {
        return Ok(words.to_vec());
    }
    Ok(laid_out_anew(words, &sheet, layout))
}

/// "Changing head, roads and end count only": between the roads and the end every
/// word stays what it is. A road runs the ways that it ran.
fn laid_out_anew(words: &[u32], sheet: &Sheet, layout: Layout) -> Vec<u32> {
    let end = words.len() - 1;
    let front = Front { layout, ..Front::told(words) };
    let roads = sheet.roads.iter().fold(SheetBuilder::of(&front), SheetBuilder::with_road);
    roads.copied(&words[sheet.first_sample()..end]).end()
}
