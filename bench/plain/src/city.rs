//! Cities to measure with, from a seed: lines that run back and forth over a street grid all day.

use std::fmt::Write;

use reference::generate::rng::Rng;
use reference::timetable::Hop;

/// Between neighbouring corners of the grid.
const BLOCK_METRES: u32 = 400;
/// When the first vehicle leaves, and how long new ones go on leaving.
const FIRST_DEPARTURE: u32 = 15 * 3_600;
const OPERATION: u32 = 5 * 3_600;
/// How long a vehicle stands at a stop.
const STANDS: u32 = 15;
/// The event of an express, for which there is a surcharge.
const EXPRESS_EVENT: u8 = 2;

/// Twelve tickets: each from so many zones on, and some from so many metres or from a level on, too.
const PRICES: [u32; 12] = [180, 240, 290, 340, 380, 420, 460, 500, 540, 580, 620, 680];
const FROM_METRES: [(u8, u32); 4] = [(3, 6_000), (6, 10_000), (9, 15_000), (11, 22_000)];
const FROM_LEVEL: [(u8, u8); 2] = [(2, 1), (4, 2)];
const SURCHARGE: u32 = 150;

pub struct Size {
    hops: usize,
    stops: usize,
    paths: usize,
    /// When the first riders ask; the last ones do an hour later.
    asked: u32,
}

impl Size {
    /// A city has twenty hops to a stop, a small town eight. With fewer than a hundred hops there would
    /// be no two stops far apart.
    pub fn of(kind: &str, hops: u32) -> Option<Size> {
        let hops = hops as usize;
        match kind {
            _ if hops < 100 => None,
            "city" => Some(Size { hops, stops: hops / 20 + 2, paths: hops / 30, asked: 18 * 3_600 }),
            "town" => Some(Size { hops, stops: hops / 8 + 2, paths: hops / 20, asked: 15 * 3_600 }),
            _ => None,
        }
    }
}

/// A stop at a corner of the grid. A corner may have several, of different lines.
#[derive(Clone, Copy)]
struct Pole {
    corner: (u32, u32),
}

#[derive(Clone, Copy, PartialEq)]
enum Vehicle {
    Bus,
    Tram,
    Express,
}

impl Vehicle {
    /// How many blocks lie between its stops.
    fn stride(self) -> usize {
        if self == Vehicle::Express {
            3
        } else {
            1
        }
    }

    fn seconds_per_block(self) -> u32 {
        match self {
            Vehicle::Bus => 110,
            Vehicle::Tram => 70,
            Vehicle::Express => 32,
        }
    }

    fn level(self) -> u8 {
        match self {
            Vehicle::Bus => 0,
            Vehicle::Tram => 1,
            Vehicle::Express => 2,
        }
    }
}

struct Line {
    vehicle: Vehicle,
    stops: Vec<u32>,
}

struct City {
    side: u32,
    poles: Vec<Pole>,
    /// The stops at each corner, corner by corner.
    at_corner: Vec<Vec<u32>>,
    paths: Vec<(u32, u32, u32)>,
    lines: Vec<Line>,
}

impl City {
    fn build(size: &Size, rng: &mut Rng) -> City {
        let side = ((size.stops as f64 * 0.8).sqrt() as u32).max(4);
        let corners = (side * side) as usize;
        let mut city = City {
            side,
            poles: Vec::new(),
            at_corner: vec![Vec::new(); corners],
            paths: Vec::new(),
            lines: Vec::new(),
        };
        while city.poles.len() < size.stops {
            city.add_street(size, rng);
        }
        while city.paths.len() + 2 <= size.paths {
            city.join_neighbours(rng);
        }
        city
    }

    /// Beside an express runs a bus, which is slower and cheaper and stops at each corner.
    fn add_street(&mut self, size: &Size, rng: &mut Rng) {
        let corners = self.street(rng);
        match self.lines.len() % 5 {
            0 => {
                self.add_line(Vehicle::Express, &corners, size, rng);
                self.add_line(Vehicle::Bus, &corners, size, rng);
            }
            2 => self.add_line(Vehicle::Tram, &corners, size, rng),
            _ => self.add_line(Vehicle::Bus, &corners, size, rng),
        }
    }

    fn add_line(&mut self, vehicle: Vehicle, corners: &[(u32, u32)], size: &Size, rng: &mut Rng) {
        let mut stops = Vec::new();
        for &corner in corners.iter().step_by(vehicle.stride()) {
            match self.stop_at(corner, size, rng) {
                Some(stop) if !stops.contains(&stop) => stops.push(stop),
                _ => {}
            }
        }
        if stops.len() >= 2 {
            self.lines.push(Line { vehicle, stops });
        }
    }

    /// Along one street right through, or with one bend.
    fn street(&self, rng: &mut Rng) -> Vec<(u32, u32)> {
        let last = self.side - 1;
        let (across, along) = (rng.between(0, last), rng.between(0, last));
        let turned = rng.percent(50);
        let bend = if rng.percent(50) { along } else { last };
        let mut corners: Vec<(u32, u32)> = (0..=bend).map(|at| (at, across)).collect();
        if bend < last {
            corners.extend((across + 1..=last).map(|at| (bend, at)));
        }
        if turned {
            corners.iter_mut().for_each(|corner| *corner = (corner.1, corner.0));
        }
        corners
    }

    /// A stop that is there may be shared; a new one is joined to it by footpaths.
    fn stop_at(&mut self, corner: (u32, u32), size: &Size, rng: &mut Rng) -> Option<u32> {
        let place = (corner.0 * self.side + corner.1) as usize;
        let there = self.at_corner[place].first().copied();
        if let Some(stop) = there.filter(|_| rng.percent(70) || self.poles.len() == size.stops) {
            return Some(stop);
        }
        if self.poles.len() == size.stops {
            return None;
        }
        let stop = self.poles.len() as u32;
        self.poles.push(Pole { corner });
        self.at_corner[place].push(stop);
        if let Some(neighbour) = there.filter(|_| self.paths.len() + 2 <= size.paths) {
            self.join(stop, neighbour, rng.between(60, 200));
        }
        Some(stop)
    }

    /// Both ways.
    fn join(&mut self, stop: u32, neighbour: u32, seconds: u32) {
        self.paths.push((stop, neighbour, seconds));
        self.paths.push((neighbour, stop, seconds));
    }

    /// A footpath along one block.
    fn join_neighbours(&mut self, rng: &mut Rng) {
        let corner = rng.between(0, self.side * (self.side - 1) - 1) as usize;
        let next = corner + if rng.percent(50) { 1 } else { self.side as usize };
        let stop = self.at_corner[corner].first().copied();
        let neighbour = self.at_corner[next].first().copied();
        if let (Some(stop), Some(neighbour)) = (stop, neighbour) {
            if self.blocks(stop, neighbour) == 1 {
                self.join(stop, neighbour, rng.between(300, 400));
            }
        }
    }

    /// One zone in the middle, then two rings of four each.
    fn zone(&self, pole: Pole) -> u32 {
        let middle = f64::from(self.side - 1) / 2.0;
        let (east, north) = (f64::from(pole.corner.0) - middle, f64::from(pole.corner.1) - middle);
        let ring = (east.abs().max(north.abs()) / (middle + 0.5) * 3.0) as u32;
        let sector = u32::from(east > 0.0) + 2 * u32::from(north > 0.0);
        match ring {
            0 => 0,
            1 => 1 + sector,
            _ => 5 + sector,
        }
    }

    fn hops(&self, most: usize) -> Vec<Hop> {
        let in_a_pass: usize = self.lines.iter().map(|line| 2 * (line.stops.len() - 1)).sum();
        let passes = (most / in_a_pass + 1) as u32;
        let mut trips = Vec::new();
        for (number, line) in self.lines.iter().enumerate() {
            let back: Vec<u32> = line.stops.iter().rev().copied().collect();
            for pass in 0..passes {
                let departure = FIRST_DEPARTURE + OPERATION / passes * pass + (number as u32 * 97) % 600;
                trips.push(self.trip(line.vehicle, &line.stops, departure));
                trips.push(self.trip(line.vehicle, &back, departure + OPERATION / passes / 2));
            }
        }
        trips.sort_by_key(|hops| hops[0].departure);
        numbered(thinned(trips, most), most)
    }

    /// Trip numbers come later.
    fn trip(&self, vehicle: Vehicle, stops: &[u32], departure: u32) -> Vec<Hop> {
        let mut departure = departure;
        let mut hops = Vec::new();
        for pair in stops.windows(2) {
            let blocks = self.blocks(pair[0], pair[1]).max(1);
            let arrival = departure + blocks * vehicle.seconds_per_block();
            hops.push(Hop {
                trip: 0,
                from: pair[0],
                to: pair[1],
                departure,
                arrival,
                metres: blocks * BLOCK_METRES,
                level: vehicle.level(),
                event: if vehicle == Vehicle::Express { EXPRESS_EVENT } else { 0 },
                runs: true,
            });
            departure = arrival + STANDS;
        }
        hops
    }

    fn blocks(&self, from: u32, to: u32) -> u32 {
        let (from, to) = (self.poles[from as usize].corner, self.poles[to as usize].corner);
        from.0.abs_diff(to.0) + from.1.abs_diff(to.1)
    }
}

/// Leaves out trips all over the list, so that there are about so many hops.
fn thinned(trips: Vec<Vec<Hop>>, most: usize) -> Vec<Vec<Hop>> {
    let all: usize = trips.iter().map(Vec::len).sum();
    let (mut seen, mut kept) = (0, 0);
    let mut is_kept = |hops: &Vec<Hop>| {
        let keeps = kept * all <= seen * most;
        seen += hops.len();
        kept += if keeps { hops.len() } else { 0 };
        keeps
    };
    trips.into_iter().filter(&mut is_kept).collect()
}

/// The hops of all trips, cut off after so many.
fn numbered(trips: Vec<Vec<Hop>>, most: usize) -> Vec<Hop> {
    let numbered = trips.into_iter().zip(0..);
    let hops = numbered.flat_map(|(hops, trip)| hops.into_iter().map(move |hop| Hop { trip, ..hop }));
    hops.take(most).collect()
}

/// A board with so many questions of so many rides.
pub fn text(size: &Size, seed: u64, questions: u32, rides: u32) -> String {
    let mut rng = Rng::new(seed);
    let city = City::build(size, &mut rng);
    let mut text = String::new();
    write_board(&mut text, &city, size).expect("a string takes all lines");
    for _ in 0..questions {
        let (origin, destination) = far_apart(&city, &mut rng);
        let departure = size.asked + rng.between(0, 3_600);
        writeln!(text, "ask {origin} {destination} {departure} {rides}").expect("a string takes all lines");
    }
    text
}

fn write_board(text: &mut String, city: &City, size: &Size) -> std::fmt::Result {
    for &pole in &city.poles {
        writeln!(text, "stop {} 0", city.zone(pole))?;
    }
    for (from, to, seconds) in &city.paths {
        writeln!(text, "path {from} {to} {seconds}")?;
    }
    writeln!(text, "measure all\nlist")?;
    for hop in city.hops(size.hops) {
        let Hop { trip, from, to, departure, arrival, metres, level, event, .. } = hop;
        writeln!(text, "hop {trip} {from} {to} {departure} {arrival} {metres} {level} {event} 1")?;
    }
    write_tariff(text)?;
    writeln!(text, "room 200000 4096 225 544")
}

/// From each ticket there are the same rules to those above it, so that all tickets are free.
fn write_tariff(text: &mut String) -> std::fmt::Result {
    let prices: Vec<String> = PRICES.iter().map(u32::to_string).collect();
    writeln!(text, "table 0 0 0 0 {}", prices.join(" "))?;
    for ticket in 0..PRICES.len() {
        for target in ticket + 1..PRICES.len() {
            writeln!(text, "rule {ticket} {target} 65535 0 0 {} 0", target + 1)?;
        }
        for (target, metres) in FROM_METRES.iter().filter(|(target, _)| usize::from(*target) > ticket) {
            writeln!(text, "rule {ticket} {target} 65535 {metres} 0 0 0")?;
        }
        for (target, level) in FROM_LEVEL.iter().filter(|(target, _)| usize::from(*target) > ticket) {
            writeln!(text, "rule {ticket} {target} 65535 0 0 0 {level}")?;
        }
    }
    writeln!(text, "surcharge {EXPRESS_EVENT} {SURCHARGE}")
}

/// Two stops that are about half the city apart.
fn far_apart(city: &City, rng: &mut Rng) -> (u32, u32) {
    loop {
        let (origin, destination) = (busy_stop(city, rng), busy_stop(city, rng));
        let blocks = city.blocks(origin, destination);
        if blocks * 2 >= city.side && blocks <= city.side {
            return (origin, destination);
        }
    }
}

/// The one of a few stops at which most lines call: where many ride, and often may choose.
fn busy_stop(city: &City, rng: &mut Rng) -> u32 {
    let last = city.poles.len() as u32 - 1;
    let few: [u32; 8] = std::array::from_fn(|_| rng.between(0, last));
    let lines_at = |stop: &u32| city.lines.iter().filter(|line| line.stops.contains(stop)).count();
    few.into_iter().max_by_key(lines_at).unwrap_or(last)
}
