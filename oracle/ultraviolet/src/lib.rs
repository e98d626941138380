//! Points of three numbers: just what the Rust text calls, each operation as document 01 says.
pub mod vec {
    use core::ops::{Add, AddAssign, Div, Mul, MulAssign, Neg, Sub};

    macro_rules! vector {
        ($name:ident, $number:ty) => {
            #[derive(Clone, Copy, Debug, Default, PartialEq)]
            pub struct $name {
                pub x: $number,
                pub y: $number,
                pub z: $number,
            }

            impl $name {
                pub const fn new(x: $number, y: $number, z: $number) -> Self {
                    Self { x, y, z }
                }

                pub fn zero() -> Self {
                    Self::new(0.0, 0.0, 0.0)
                }

                pub fn dot(&self, other: Self) -> $number {
                    (self.x * other.x + self.y * other.y) + self.z * other.z
                }

                pub fn cross(&self, other: Self) -> Self {
                    Self::new(
                        self.y * other.z - self.z * other.y,
                        self.z * other.x - self.x * other.z,
                        self.x * other.y - self.y * other.x,
                    )
                }

                pub fn mag_sq(&self) -> $number {
                    self.dot(*self)
                }

                pub fn mag(&self) -> $number {
                    self.mag_sq().sqrt()
                }

                pub fn normalized(&self) -> Self {
                    *self / self.mag()
                }
            }

            impl Add for $name {
                type Output = Self;
                fn add(self, other: Self) -> Self {
                    Self::new(self.x + other.x, self.y + other.y, self.z + other.z)
                }
            }

            impl Sub for $name {
                type Output = Self;
                fn sub(self, other: Self) -> Self {
                    Self::new(self.x - other.x, self.y - other.y, self.z - other.z)
                }
            }

            // Called by helpers that are not ported.
            impl Mul for $name {
                type Output = Self;
                fn mul(self, other: Self) -> Self {
                    Self::new(self.x * other.x, self.y * other.y, self.z * other.z)
                }
            }

            impl Mul<$number> for $name {
                type Output = Self;
                fn mul(self, by: $number) -> Self {
                    Self::new(self.x * by, self.y * by, self.z * by)
                }
            }

            impl Mul<$name> for $number {
                type Output = $name;
                fn mul(self, vector: $name) -> $name {
                    $name::new(self * vector.x, self * vector.y, self * vector.z)
                }
            }

            impl Div<$number> for $name {
                type Output = Self;
                fn div(self, by: $number) -> Self {
                    Self::new(self.x / by, self.y / by, self.z / by)
                }
            }

            impl Neg for $name {
                type Output = Self;
                fn neg(self) -> Self {
                    Self::new(-self.x, -self.y, -self.z)
                }
            }

            impl AddAssign for $name {
                fn add_assign(&mut self, other: Self) {
                    *self = *self + other;
                }
            }

            impl MulAssign<$number> for $name {
                fn mul_assign(&mut self, by: $number) {
                    *self = *self * by;
                }
            }
        };
    }

    vector!(Vec3, f32);
    vector!(DVec3, f64);
}

pub use vec::{DVec3, Vec3};
