//! Trees like a city's: corridors of stations with loops, links and controllers, two clocks for all,
//! and feeds shared by corridors that lie far apart. The sharing is what makes the diagram large.

use crate::equations::tree_of;
use crate::tree::Tree;
use std::fmt::Write;

#[derive(Clone, Copy, Debug)]
pub struct City {
    pub corridors: usize,
    /// Stations in each corridor, and how many of them must fail to blind it.
    pub stations: usize,
    pub blind: usize,
    pub feeds: usize,
    /// A corridor's second feed is this far from its first.
    pub apart: usize,
    /// Blind corridors that end the forecast.
    pub lost: usize,
}

/// 10,152, 93,480 and 475,944 nodes.
pub const SMALL: City = City { corridors: 10, stations: 5, blind: 3, feeds: 5, apart: 2, lost: 3 };
pub const MIDDLE: City = City { corridors: 12, stations: 6, blind: 3, feeds: 8, apart: 3, lost: 4 };
pub const LARGE: City = City { corridors: 14, stations: 6, blind: 3, feeds: 11, apart: 4, lost: 4 };
/// 900 events and 238,958 nodes.
pub const WIDE: City = City { corridors: 18, stations: 24, blind: 4, feeds: 16, apart: 4, lost: 4 };

pub fn equations(city: City) -> String {
    let mut text = String::new();
    let corridors: Vec<String> = (0..city.corridors).map(|c| format!("corridor{c}")).collect();
    let mut line = |words: String| writeln!(text, "{words}").expect("a string takes all");
    line(format!("city = at-least {} in {}", city.lost, corridors.join(", ")));
    line("clocks = clockmain and clockspare".into());
    line("p clockmain 100000\np clockspare 400000".into());
    for feed in 0..city.feeds {
        line(format!("p feed{feed} {}000000", 1 + feed % 9));
    }
    for c in 0..city.corridors {
        let stations: Vec<String> = (0..city.stations).map(|s| format!("station{c}x{s}")).collect();
        line(format!("corridor{c} = controller{c} or blind{c} or clocks"));
        line(format!("blind{c} = at-least {} in {}", city.blind, stations.join(", ")));
        line(format!("p controller{c} {}000000", 1 + c % 7));
        let (first, second) = (c % city.feeds, (c + city.apart) % city.feeds);
        line(format!("power{c} = feed{first} and feed{second}"));
        for s in 0..city.stations {
            // Every second station has a feed of its own kind: one of the two alone.
            let power = if s % 2 == 0 { format!("power{c}") } else { format!("feed{}", [first, second][s / 2 % 2]) };
            line(format!("station{c}x{s} = loop{c}x{s} or {power} or link{c}x{s}"));
            line(format!("p loop{c}x{s} {}0000000", 1 + (c + s) % 9));
            line(format!("p link{c}x{s} {}000000", 1 + (c * s) % 9));
        }
    }
    text
}

pub fn city(city: City) -> Tree {
    tree_of(&equations(city))
}
