//! The check of a sheet: "Front to back; the first fault counts."

use super::reader::Reader;
use super::{table, Head, Sheet};
use super::{MOST_SAMPLES, MOST_SIGNALS};
use crate::layout::{Front, Layout, Pair};
use crate::refusal::{Fault, Refusal};
use crate::road::{Direction, Road};
use crate::words::{self, kinds};

/// Checks the words of a sheet and a lent distance table of so many entries,
/// and decodes the sheet. It tells the refusals 1 to 14 and 17; 15 and 16 concern
/// what is lent besides and are told by the judge.
pub fn check(words: &[u32], distance_entries: usize) -> Result<Sheet, Refusal> {
    let front = Front::told(words);
    enough_distances(distance_entries, front.layout.distances_at_start())?;
    let mut reader = Reader::new(words);
    let head = head(&mut reader, &front)?;
    // The 4,096 of a narrow sheet are enough for its 64 places.
    enough_distances(distance_entries, head.places * head.places)?;
    let roads = roads(&mut reader, &head)?;
    let readings = readings(&mut reader, &head)?;
    let lines = table::lines(&mut reader, &head)?;
    end(&mut reader)?;
    Ok(Sheet { head, roads, readings, lines })
}

/// 1: fewer entries of the distance table than needed.
fn enough_distances(entries: usize, needed: usize) -> Result<(), Refusal> {
    if entries < needed {
        return Err(Refusal::new(Fault::DistanceTable, 0));
    }
    Ok(())
}

/// "Head, kind 1: bits 27..20 places n (1 to 64), 19..12 signals v (1 to 16),
/// 11..0 samples T (1 to 1,024)." Before that of a wide sheet stands a word more.
fn head(reader: &mut Reader, front: &Front) -> Result<Head, Refusal> {
    match front.layout {
        Layout::Narrow => reader.expect(kinds::HEAD, Fault::HeadKind).map(drop)?,
        Layout::Wide => wide_head(reader, front)?,
    }
    let &Front { layout, places, middle: signals, samples } = front;
    let within = front.has_places_in_limits()
        && (1..=MOST_SIGNALS).contains(&signals)
        && (1..=MOST_SAMPLES).contains(&samples);
    reader.require(within, Fault::HeadLimits)?;
    reader.pass();
    Ok(Head { layout, places, signals, samples })
}

/// 17: "a wide head with a count outside its limits, spare bits set or no kind 1
/// word with places 0 after it". The word of kind 10 is passed, the head not yet.
fn wide_head(reader: &mut Reader, front: &Front) -> Result<(), Refusal> {
    let word = reader.expect(kinds::WIDE, Fault::WideHead)?;
    let is_right = words::field(word, 27, 16) == 0 && front.has_places_in_limits();
    reader.require(is_right, Fault::WideHead)?;
    reader.pass();
    let head = reader.expect(kinds::HEAD, Fault::WideHead)?;
    reader.require(words::field(head, 27, 20) == 0, Fault::WideHead)
}

/// "Roads, none or more, two words each." A word of another kind than 2 where
/// a road could begin is the first that belongs to the samples.
fn roads(reader: &mut Reader, head: &Head) -> Result<Vec<Road>, Refusal> {
    let mut roads = Vec::new();
    let mut last = None;
    while let Some(word) = reader.peek(kinds::ROAD_PLACES) {
        let pair = head.layout.pair(word);
        let direction = road_places(reader, &pair, head, last)?;
        let weight = road_weight(reader)?;
        let Pair { first, second, .. } = pair;
        roads.push(Road { first, second, weight, direction });
        last = Some((first, second));
    }
    Ok(roads)
}

/// "Kind 2: bits 15..8 first place, 7..0 second place, 27..16 zero, first below
/// second, second below n. Each pair (first, then second) is greater than the
/// pair before." The places of a wide sheet have more bits. Of bits 27 and 26, which
/// are spare no longer, one may be set: "both set is refusal 4".
fn road_places(
    reader: &mut Reader,
    pair: &Pair,
    head: &Head,
    last: Option<(usize, usize)>,
) -> Result<Direction, Refusal> {
    let &Pair { direction, spare, first, second } = pair;
    let direction = direction.filter(|_| spare == 0);
    let direction = direction.ok_or(reader.refusal(Fault::RoadSpareBits))?;
    reader.require(first < second && second < head.places, Fault::RoadPlaces)?;
    reader.require(last < Some((first, second)), Fault::RoadOrder)?;
    reader.pass();
    Ok(direction)
}

/// "Then kind 3: weight, 1 to 268,435,455."
fn road_weight(reader: &mut Reader) -> Result<u32, Refusal> {
    let word = reader.expect(kinds::ROAD_WEIGHT, Fault::RoadWeight)?;
    let weight = words::payload(word);
    reader.require(weight != 0, Fault::RoadWeight)?;
    reader.pass();
    Ok(weight)
}

/// "Exactly v·n·T samples, kind 4: bits 26..0 a two's complement number; bit 27
/// zero."
fn readings(reader: &mut Reader, head: &Head) -> Result<Vec<i32>, Refusal> {
    let count = head.signals * head.places * head.samples;
    let mut readings = Vec::new();
    for _ in 0..count {
        let word = reader.expect(kinds::SAMPLE, Fault::SampleKind)?;
        reader.require(word & words::BIT_27 == 0, Fault::SampleBit)?;
        reader.pass();
        readings.push(words::signed27(word));
    }
    Ok(readings)
}

/// "End, kind 15: payload the count of words before it. It is the last word."
fn end(reader: &mut Reader) -> Result<(), Refusal> {
    let word = reader.expect(kinds::END, Fault::End)?;
    let count = words::payload(word) as usize;
    reader.require(count == reader.place(), Fault::End)?;
    reader.pass();
    reader.require(reader.is_at_end(), Fault::End)
}
