//! The demo's physics: a stiff body on four wheels, the front ones steered, moved by the grader's forces. It stands for a
//! host's own, is much simpler, and is no part of what is graded.
use grader::{numbers, Force, Motion, Point, Pose};

const DT: f64 = 1.0 / 50.0;
const MASS: f64 = 7.0;
const INERTIA: f64 = 18.0;
const MOST_STEER: f64 = 0.4;
const TAU: f64 = 2.0 * std::f64::consts::PI;

/// Where the wheels stand on the hull (WHEELPOS times SIZE of the reference).
const WHEELS: [[f64; 2]; 4] = [[-1.1, 1.6], [1.1, 1.6], [-1.1, -1.64], [1.1, -1.64]];

pub struct Car {
    pub x: f64,
    pub y: f64,
    /// The hull points along (-sin angle, cos angle).
    pub angle: f64,
    velocity: [f64; 2],
    spin: f64,
    joints: [f64; 4],
}

impl Car {
    pub fn at(p: Point) -> Car {
        Car { x: p.x, y: p.y, angle: wrapped(p.beta), velocity: [0.0; 2], spin: 0.0, joints: [0.0; 4] }
    }

    pub fn speed(&self) -> f64 {
        numbers::sqrt(self.velocity[0] * self.velocity[0] + self.velocity[1] * self.velocity[1])
    }

    /// The front wheels' angle to the hull.
    pub fn steer(&self) -> f64 {
        self.joints[0]
    }

    pub fn hull(&self) -> [f64; 2] {
        [self.x, self.y].map(short)
    }

    pub fn poses(&self) -> [Pose; 4] {
        [0, 1, 2, 3].map(|i| {
            let ([rx, ry], [cos, sin]) = (self.arm(i), turn(self.angle + self.joints[i]));
            Pose { x: short(self.x + rx), y: short(self.y + ry), cos: short(cos), sin: short(sin) }
        })
    }

    pub fn motions(&self) -> [Motion; 4] {
        [0, 1, 2, 3].map(|i| {
            let ([vx, vy], [cos, sin]) = (self.velocity_at(self.arm(i)), turn(self.angle + self.joints[i]));
            Motion { joint_angle: short(self.joints[i]), sin: short(sin), cos: short(cos), vx: short(vx), vy: short(vy) }
        })
    }

    /// One tick under the forces at the wheels.
    pub fn step(&mut self, forces: &[Force; 4]) {
        let mut torque = 0.0;
        for (i, f) in forces.iter().enumerate() {
            let [rx, ry] = self.arm(i);
            torque += rx * f.fy - ry * f.fx;
            self.velocity[0] += f.fx / MASS * DT;
            self.velocity[1] += f.fy / MASS * DT;
            self.joints[i] = (self.joints[i] + f.motor * DT).clamp(-MOST_STEER, MOST_STEER);
        }
        self.spin += torque / INERTIA * DT;
        self.x += self.velocity[0] * DT;
        self.y += self.velocity[1] * DT;
        self.angle = wrapped(self.angle + self.spin * DT);
    }

    /// From the hull's middle to wheel i.
    fn arm(&self, i: usize) -> [f64; 2] {
        let ([u, v], [cos, sin]) = (WHEELS[i], turn(self.angle));
        [cos * u - sin * v, sin * u + cos * v]
    }

    fn velocity_at(&self, [rx, ry]: [f64; 2]) -> [f64; 2] {
        [self.velocity[0] - self.spin * ry, self.velocity[1] + self.spin * rx]
    }
}

/// Cosine and sine by the grader's own, so that a demo is the same on every machine.
fn turn(a: f64) -> [f64; 2] {
    [numbers::cosine(a), numbers::sine(a)].map(|v| v.expect("angles are kept within half a turn"))
}

/// The angle within half a turn of 0.
pub fn wrapped(a: f64) -> f64 {
    a - TAU * (a / TAU).round()
}

/// Six places, so that the log's lines stay short; the grader is told the same numbers.
fn short(v: f64) -> f64 {
    (v * 1e6).round() / 1e6
}
