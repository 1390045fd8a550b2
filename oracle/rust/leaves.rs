//! Stands in the place of the original's `lbfgsb/tests_driver.rs`, from where
//! its private functions can be called.

use super::geometry::{Cauchy, generalized_cauchy, primal_minimize};
use super::{Compact, solve};
use crate::{Bounds, HeldPair, Model};

/// `solve` of `lbfgsb.rs`.
impl crate::Leaves {
    pub fn solve(rows: Vec<Vec<f64>>, right: Vec<f64>) -> Option<Vec<f64>> {
        solve(rows, right)
    }
}

/// `Compact` of `lbfgsb.rs` and what `geometry.rs` does with it.
impl Model {
    pub fn new(n: usize, maxcor: usize) -> Self {
        Self { compact: Compact::new(n, maxcor) }
    }

    pub fn update(&mut self, s: Vec<f64>, y: Vec<f64>) -> bool {
        self.compact.update(s, y)
    }

    pub fn theta(&self) -> f64 {
        self.compact.theta
    }

    /// The pairs held, oldest first.
    pub fn pairs(&self) -> Vec<HeldPair> {
        let held = self.compact.pairs.iter();
        held.map(|pair| HeldPair { s: pair.s.clone(), y: pair.y.clone(), sy: pair.sy }).collect()
    }

    pub fn times(&self, v: &[f64]) -> Option<Vec<f64>> {
        self.compact.times(v)
    }

    /// The Cauchy point and its free coordinates.
    pub fn cauchy(&self, x: &[f64], g: &[f64], bounds: &Bounds) -> Option<(Vec<f64>, Vec<usize>)> {
        let cauchy = generalized_cauchy(x, g, bounds, &self.compact)?;
        Some((cauchy.point, cauchy.free))
    }

    pub fn primal(
        &self,
        x: &[f64],
        g: &[f64],
        cauchy: (Vec<f64>, Vec<usize>),
        bounds: &Bounds,
    ) -> Option<Vec<f64>> {
        let (point, free) = cauchy;
        primal_minimize(x, g, &Cauchy { point, free }, bounds, &self.compact)
    }
}
