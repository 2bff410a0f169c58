//! Distances along allowed directions, held against other ways to find them. The
//! implementation goes by Dijkstra from each place. Here stand products of tables,
//! the list of all paths, and for cities the conditions that no other table meets;
//! each reads the roads from the sheet's words by itself.

mod common;

use common::*;
use reference::builder::SheetBuilder;
use reference::distance::NO_DISTANCE;
use reference::fast::Fast;
use reference::generate::network;
use reference::generate::random::Random;
use reference::generate::Case;
use reference::layout::{Front, Layout};
use reference::road::Road;

/// A table of as many rows as places; nothing where no path leads.
type Table = Vec<Vec<Option<u64>>>;

/// The weight of the road that leads from one place to another, read bit by bit from
/// the words of a valid sheet.
fn roads_between(words: &[u32]) -> Table {
    let Front { layout, places, .. } = Front::told(words);
    let (shift, mask) = if layout.is_wide() { (12, 0xFFF) } else { (8, 0xFF) };
    let mut table = vec![vec![None; places]; places];
    let roads = words[layout.front_words()..].chunks(2).take_while(|road| road[0] >> 28 == 2);
    for road in roads {
        let (first, second) = ((road[0] >> shift & mask) as usize, (road[0] & mask) as usize);
        let weight = Some(u64::from(road[1] & 0xFFF_FFFF));
        if road[0] >> 26 & 1 == 0 {
            table[first][second] = weight;
        }
        if road[0] >> 27 & 1 == 0 {
            table[second][first] = weight;
        }
    }
    table
}

/// The least sums of paths with one road more: those so far, or one of them and a
/// road behind it.
fn one_road_more(so_far: &Table, roads: &Table) -> Table {
    let places = 0..so_far.len();
    let entry = |from: usize, to: usize| {
        let by = |over: usize| Some(so_far[from][over]? + roads[over][to]?);
        places.clone().filter_map(by).chain(so_far[from][to]).min()
    };
    places.clone().map(|from| places.clone().map(|to| entry(from, to)).collect()).collect()
}

/// By the number of roads on a path, of which one less than places is enough.
fn by_number_of_roads(roads: &Table) -> Table {
    let places = roads.len();
    let mut table = vec![vec![None; places]; places];
    (0..places).for_each(|place| table[place][place] = Some(0));
    (1..places).fold(table, |table, _| one_road_more(&table, roads))
}

/// By all paths that come to no place twice, each gone along to its end.
fn by_all_paths(roads: &Table) -> Table {
    fn go(roads: &Table, path: &mut Vec<usize>, sum: u64, row: &mut [Option<u64>]) {
        let at = path[path.len() - 1];
        row[at] = Some(row[at].map_or(sum, |least| least.min(sum)));
        for (to, weight) in roads[at].iter().enumerate() {
            if let Some(weight) = weight.filter(|_| !path.contains(&to)) {
                path.push(to);
                go(roads, path, sum + weight, row);
                path.pop();
            }
        }
    }
    let row = |from: usize| {
        let mut row = vec![None; roads.len()];
        go(roads, &mut vec![from], 0, &mut row);
        row
    };
    (0..roads.len()).map(row).collect()
}

/// The distance table that the judge leaves, row by row.
fn lent_table(words: &[u32]) -> Table {
    let places = Front::told(words).places;
    let left = judged_by::<Fast>(&Case::of(words, places + 4));
    assert_eq!(left.number, 0);
    let entries = distances(&left, places * places);
    let entry = |&entry: &u64| (entry != NO_DISTANCE).then_some(entry);
    entries.chunks(places).map(|row| row.iter().map(entry).collect()).collect()
}

/// A sheet of one line that is true on these roads, in a layout.
fn sheet_of(layout: Layout, places: usize, roads: &[Road]) -> Vec<u32> {
    let sheet = SheetBuilder::laid_out(layout, places as u32, 1, 1);
    let sheet = roads.iter().fold(sheet, SheetBuilder::with_road);
    sheet.samples(&vec![0; places]).truth().end()
}

/// What the drawn networks have shown: roads one way, none, all one way, distances
/// unlike there and back, and one there with none back.
#[derive(Debug, Default)]
struct Shown([u32; 5]);

impl Shown {
    fn count(&mut self, roads: &[Road], table: &Table) {
        let one_way = roads.iter().filter(|road| road.direction.is_one_way()).count();
        let pairs = || (0..table.len()).flat_map(|to| (0..to).map(move |from| (from, to)));
        let both = |(from, to): (usize, usize)| (table[from][to], table[to][from]);
        let shows = [
            one_way > 0,
            one_way == 0 && !roads.is_empty(),
            one_way > 2 && one_way == roads.len(),
            pairs().map(both).any(|both| matches!(both, (Some(a), Some(b)) if a != b)),
            pairs().map(both).any(|(there, back)| there.is_some() != back.is_some()),
        ];
        self.0.iter_mut().zip(shows).for_each(|(count, shows)| *count += u32::from(shows));
    }

    fn assert_more_than(&self, least: u32) {
        assert!(self.0.iter().all(|&count| count > least), "{self:?}");
    }
}

#[test]
fn roads_are_read_from_words() {
    let roads = [Road::both_ways(0, 1, 5), Road::one_way(0, 2, 6), Road::one_way(2, 1, 7)];
    for layout in Layout::BOTH {
        let table = roads_between(&sheet_of(layout, 3, &roads));
        let expected = [[None, Some(5), Some(6)], [Some(5), None, None], [None, Some(7), None]];
        assert_eq!(table, expected);
    }
}

#[test]
fn against_all_paths_and_products() {
    for layout in Layout::BOTH {
        let mut shown = Shown::default();
        for seed in 0..1500 {
            let mut random = Random::new(seed);
            let places = random.count(1, 7);
            let roads = network::roads(&mut random, places);
            let words = sheet_of(layout, places, &roads);
            let (found, between) = (lent_table(&words), roads_between(&words));
            assert_eq!(found, by_all_paths(&between), "seed {seed}");
            assert_eq!(found, by_number_of_roads(&between), "seed {seed}");
            shown.count(&roads, &found);
        }
        shown.assert_more_than(100);
    }
}

#[test]
fn against_products_up_to_64_places() {
    for layout in Layout::BOTH {
        let mut shown = Shown::default();
        for seed in 0..60 {
            let mut random = Random::new(seed);
            let places = random.pick(&[8, 17, 30, 40, 64]);
            let roads = network::roads(&mut random, places);
            let words = sheet_of(layout, places, &roads);
            let found = lent_table(&words);
            assert_eq!(found, by_number_of_roads(&roads_between(&words)), "seed {seed}");
            shown.count(&roads, &found);
        }
        shown.assert_more_than(3);
    }
}

/// What a row of distances must meet, and no other row does, as weights are above 0:
/// its own place is at 0; where a road leads on, it leads no farther than its weight;
/// and whatever else has a distance has it by some road from a nearer place.
fn assert_is_row(from: usize, row: &[Option<u64>], roads: &[(usize, usize, u64)]) {
    let mut has_last_road = vec![false; row.len()];
    has_last_road[from] = true;
    for &(one, other, weight) in roads {
        let over = row[one].map(|sum| sum + weight);
        assert!(over.is_none() || row[other].is_some_and(|sum| Some(sum) <= over));
        has_last_road[other] |= over.is_some() && row[other] == over;
    }
    assert_eq!(row[from], Some(0));
    assert!(row.iter().zip(has_last_road).all(|(sum, has)| sum.is_none() || has));
}

#[test]
fn in_cities() {
    let mut shown = Shown::default();
    for seed in 0..40 {
        let mut random = Random::new(seed);
        let places = random.pick(&[65, 100, 300]);
        let roads = network::roads(&mut random, places);
        let words = sheet_of(Layout::Wide, places, &roads);
        let (found, between) = (lent_table(&words), roads_between(&words));
        let leads = |(from, row): (usize, &Vec<Option<u64>>)| {
            let ways = row.iter().enumerate();
            ways.filter_map(move |(to, weight)| Some((from, to, (*weight)?))).collect::<Vec<_>>()
        };
        let leads: Vec<_> = between.iter().enumerate().flat_map(leads).collect();
        found.iter().enumerate().for_each(|(from, row)| assert_is_row(from, row, &leads));
        shown.count(&roads, &found);
    }
    shown.assert_more_than(2);
}

/// With all roads turned round, every distance there is one back.
#[test]
fn roads_turned_round_exchange_rows_and_columns() {
    for seed in 0..300 {
        let mut random = Random::new(seed);
        let places = random.count(1, 20);
        let roads = network::roads(&mut random, places);
        let turn = |road: &Road| Road { direction: road.direction.turned(), ..*road };
        let turned: Vec<Road> = roads.iter().map(turn).collect();
        let [one, other] =
            [roads, turned].map(|roads| lent_table(&sheet_of(Layout::Narrow, places, &roads)));
        let exchanged = |to: usize| one.iter().map(|row| row[to]).collect();
        assert_eq!(other, (0..places).map(exchanged).collect::<Table>(), "seed {seed}");
    }
}
