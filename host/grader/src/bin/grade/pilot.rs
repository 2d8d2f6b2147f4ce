//! The demo's controller: it steers at a point some way ahead on the course and keeps a speed.
use crate::car::{wrapped, Car};
use grader::{numbers, Point};

const CRUISE: f64 = 24.0;
const SLOW: f64 = 13.0;
/// Points ahead that it steers at, and that it looks over for turns.
const AIM: usize = 3;
const LOOK: usize = 12;
/// Between the axles.
const BASE: f64 = 3.24;
const HALF_PI: f64 = std::f64::consts::FRAC_PI_2;

/// The controller and the point of the course that it has come to.
pub struct Pilot {
    points: Vec<Point>,
    at: usize,
}

impl Pilot {
    pub fn on(points: Vec<Point>) -> Pilot {
        Pilot { points, at: 0 }
    }

    /// The action for the car as it stands: 1 right, 2 left, 3 gas, 4 brake, 0 nothing. An action that does not steer lets
    /// the wheels turn back, so a turn is held by steering every other tick or so.
    pub fn action(&mut self, car: &Car) -> u32 {
        self.follow(car);
        let gap = self.wanted_steer(car) - car.steer();
        let speed = car.speed();
        let wanted = self.wanted_speed();
        match () {
            () if gap > 0.04 => 2,
            () if gap < -0.04 => 1,
            () if speed > wanted + 4.0 => 4,
            () if speed < wanted => 3,
            () => 0,
        }
    }

    /// Moves on to the nearest of the next points.
    fn follow(&mut self, car: &Car) {
        let far = |k: &usize| {
            let p = self.point(*k);
            (p.x - car.x) * (p.x - car.x) + (p.y - car.y) * (p.y - car.y)
        };
        self.at = (self.at..self.at + LOOK).min_by(|a, b| far(a).total_cmp(&far(b))).unwrap_or(self.at);
    }

    /// The front wheels' angle for an arc through the point aimed at.
    fn wanted_steer(&self, car: &Car) -> f64 {
        let p = self.point(self.at + AIM);
        let (dx, dy) = (p.x - car.x, p.y - car.y);
        let away = numbers::sqrt(dx * dx + dy * dy).max(1.0);
        let heading = numbers::atan2(dy, dx).unwrap_or(0.0);
        let off = wrapped(heading - HALF_PI - car.angle).clamp(-HALF_PI, HALF_PI);
        (2.0 * BASE / away * numbers::sine(off).unwrap_or(0.0)).clamp(-0.4, 0.4)
    }

    /// Slower the more the course turns ahead.
    fn wanted_speed(&self) -> f64 {
        let turns = (0..LOOK).map(|k| wrapped(self.point(self.at + k + 1).beta - self.point(self.at + k).beta).abs());
        (CRUISE - 6.0 * turns.sum::<f64>()).max(SLOW)
    }

    fn point(&self, k: usize) -> Point {
        self.points[k % self.points.len()]
    }
}
