use rcflib::errors::RCFError;
use rcflib::pointstore::PointStore;
use rcflib::types::Result;

/// The readings table: one point or none for each index. It stands in for `PointStore`.
///
/// With transforms, attributes and point sums off a tree calls `copy`, `is_equal` and
/// `reference_and_offset` only. The others stop the run, so that a stray call would be seen.
#[derive(Clone)]
pub struct Table {
    points: Vec<Option<Vec<f32>>>,
}

impl Table {
    /// Point indices are below this number.
    pub const SIZE: usize = 1024;

    pub fn new() -> Self {
        Table {
            points: vec![None; Self::SIZE],
        }
    }

    /// Writes a point. Nothing is checked here: refusals are the port's.
    pub fn put(&mut self, index: usize, point: &[f32]) {
        self.points[index] = Some(point.to_vec());
    }

    /// The point at an index, if one was written.
    pub fn point(&self, index: usize) -> Option<&[f32]> {
        self.points.get(index)?.as_deref()
    }

    fn written(&self, index: usize) -> Result<&[f32]> {
        self.point(index).ok_or(RCFError::InvalidArgument {
            msg: "index never written",
        })
    }
}

impl Default for Table {
    fn default() -> Self {
        Self::new()
    }
}

impl PointStore<u64, u64> for Table {
    fn copy(&self, index: usize) -> Result<Vec<f32>> {
        Ok(self.written(index)?.to_vec())
    }
    fn is_equal(&self, point: &[f32], index: usize) -> Result<bool> {
        Ok(point == self.written(index)?)
    }
    fn reference_and_offset(&self, index: usize) -> Result<(&[f32], usize)> {
        Ok((self.written(index)?, 0))
    }
    fn shingled_point(&self, _: &[f32]) -> Result<Vec<f32>> {
        unimplemented!()
    }
    fn size(&self) -> usize {
        unimplemented!()
    }
    fn missing_indices(&self, _: usize, _: &[usize]) -> Result<Vec<usize>> {
        unimplemented!()
    }
    fn next_indices(&self, _: usize) -> Result<Vec<usize>> {
        unimplemented!()
    }
    fn entries_seen(&self) -> u64 {
        unimplemented!()
    }
    fn add(&mut self, _: &[f32], _: u64) -> Result<(usize, usize, Option<Vec<f32>>)> {
        unimplemented!()
    }
    fn inc(&mut self, _: usize, _: usize) -> Result<()> {
        unimplemented!()
    }
    fn dec(&mut self, _: usize, _: usize) -> Result<()> {
        unimplemented!()
    }
    fn adjust_count(&mut self, _: &[((usize, usize), (usize, usize))]) -> Result<()> {
        unimplemented!()
    }
    fn compact(&mut self) -> Result<()> {
        unimplemented!()
    }
    fn label(&self, _: usize) -> Result<u64> {
        unimplemented!()
    }
    fn attribute(&self, _: usize) -> Result<u64> {
        unimplemented!()
    }
    fn point_sum(&self, _: &[(usize, usize)]) -> Result<Vec<f32>> {
        unimplemented!()
    }
    fn attribute_vec(&self, _: usize) -> Result<Vec<f32>> {
        unimplemented!()
    }
}
