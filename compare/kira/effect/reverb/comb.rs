// kira's file, whose fields are private to it, so that what reads and sets them stands in one
// module with it.
include!("comb/unchanged.rs");

impl CombFilter {
    /// `filter_store`, `buffer` and `current_index`
    pub fn memory(&mut self) -> (&mut f32, &mut [f32], &mut usize) {
        (
            &mut self.filter_store,
            &mut self.buffer,
            &mut self.current_index,
        )
    }
}
