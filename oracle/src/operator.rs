//! The eleven operators: their codes, and which numbers each of them takes.

#[derive(Clone, Copy, Debug, PartialEq, Eq)]
pub enum Operator {
    Ambo,
    Chamfer,
    Dual,
    Gyro,
    Kis,
    Propellor,
    Quinto,
    Reflect,
    Reverse,
    Whirl,
    Triangulate,
}

use Operator::*;

/// In the order of their codes, from 1.
pub const OPERATORS: [Operator; 11] =
    [Ambo, Chamfer, Dual, Gyro, Kis, Propellor, Quinto, Reflect, Reverse, Whirl, Triangulate];

impl Operator {
    pub fn code(self) -> u32 {
        self as u32 + 1
    }

    pub fn from_code(code: u32) -> Option<Operator> {
        OPERATORS.into_iter().find(|operator| operator.code() == code)
    }

    pub fn name(self) -> String {
        format!("{self:?}").to_lowercase()
    }

    pub fn takes_ratio(self) -> bool {
        matches!(self, Ambo | Chamfer | Gyro | Propellor | Whirl)
    }

    pub fn takes_height(self) -> bool {
        matches!(self, Gyro | Kis | Quinto | Whirl)
    }
}

/// What a call carries beside its mesh. An operator looks only at what it takes.
#[derive(Clone, Debug, Default, PartialEq)]
pub struct Parameters {
    pub ratio: Option<f32>,
    pub height: Option<f32>,
    pub arities: Option<Vec<u32>>,
    pub faces: Option<Vec<u32>>,
    pub regular: bool,
    /// Triangulate with `shortest` false.
    pub longer: bool,
}
