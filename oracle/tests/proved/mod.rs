//! The proved library's calls, over slices.
#![allow(dead_code)]
use oracle::Answer;

#[cfg(library)]
#[link(name = "sequence", kind = "static")]
extern "C" {
    fn seq_check(file: *const u8, file_len: usize) -> Answer;
    fn seq_write_chart(nodes: *const u8, nodes_len: usize, out: *mut u8, out_len: usize) -> Answer;
    fn seq_remove(
        chart: *const u8,
        chart_len: usize,
        labels: *const u8,
        labels_len: usize,
        vertex: usize,
        level: usize,
        standing: *mut u8,
        standing_len: usize,
    ) -> Answer;
    fn seq_remove_together(
        chart: *const u8,
        chart_len: usize,
        labels: *const u8,
        labels_len: usize,
        loops: *const u8,
        loops_len: usize,
        standing: *mut u8,
        standing_len: usize,
    ) -> Answer;
    fn seq_restart(chart: *const u8, chart_len: usize, state: *mut u8, state_len: usize) -> Answer;
    fn seq_event(
        chart: *const u8,
        chart_len: usize,
        state: *mut u8,
        state_len: usize,
        action: u8,
    ) -> Answer;
    fn seq_shortest_way(
        chart: *const u8,
        chart_len: usize,
        state: *const u8,
        state_len: usize,
        out: *mut u8,
        out_len: usize,
    ) -> Answer;
    fn seq_write_expression(
        chart: *const u8,
        chart_len: usize,
        labels: *const u8,
        labels_len: usize,
        out: *mut u8,
        out_len: usize,
    ) -> Answer;
}

#[cfg(library)]
pub fn check(file: &[u8]) -> Answer {
    // SAFETY: the call reads these bytes and keeps no pointer.
    unsafe { seq_check(file.as_ptr(), file.len()) }
}

#[cfg(library)]
pub fn write_chart(nodes: &[u8], out: &mut [u8]) -> Answer {
    // SAFETY: as above; it writes to no bytes but those of `out`.
    unsafe { seq_write_chart(nodes.as_ptr(), nodes.len(), out.as_mut_ptr(), out.len()) }
}

#[cfg(library)]
pub fn remove(chart: &[u8], labels: &[u8], vertex: u64, level: u64, standing: &mut [u8]) -> Answer {
    // SAFETY: as above; it writes to no bytes but those of `standing`.
    unsafe {
        seq_remove(
            chart.as_ptr(),
            chart.len(),
            labels.as_ptr(),
            labels.len(),
            vertex as usize,
            level as usize,
            standing.as_mut_ptr(),
            standing.len(),
        )
    }
}

#[cfg(library)]
pub fn remove_together(chart: &[u8], labels: &[u8], loops: &[u8], standing: &mut [u8]) -> Answer {
    // SAFETY: as for a removal.
    unsafe {
        seq_remove_together(
            chart.as_ptr(),
            chart.len(),
            labels.as_ptr(),
            labels.len(),
            loops.as_ptr(),
            loops.len(),
            standing.as_mut_ptr(),
            standing.len(),
        )
    }
}

#[cfg(library)]
pub fn restart(chart: &[u8], state: &mut [u8]) -> Answer {
    // SAFETY: as above; it writes to no bytes but those of `state`.
    unsafe { seq_restart(chart.as_ptr(), chart.len(), state.as_mut_ptr(), state.len()) }
}

#[cfg(library)]
pub fn event(chart: &[u8], state: &mut [u8], action: u8) -> Answer {
    // SAFETY: as for a restart.
    unsafe {
        seq_event(
            chart.as_ptr(),
            chart.len(),
            state.as_mut_ptr(),
            state.len(),
            action,
        )
    }
}

#[cfg(library)]
pub fn shortest_way(chart: &[u8], state: &[u8], out: &mut [u8]) -> Answer {
    // SAFETY: as above; it writes to no bytes but those of `out`.
    unsafe {
        seq_shortest_way(
            chart.as_ptr(),
            chart.len(),
            state.as_ptr(),
            state.len(),
            out.as_mut_ptr(),
            out.len(),
        )
    }
}

#[cfg(library)]
pub fn write_expression(chart: &[u8], labels: &[u8], out: &mut [u8]) -> Answer {
    // SAFETY: as for a shortest way.
    unsafe {
        seq_write_expression(
            chart.as_ptr(),
            chart.len(),
            labels.as_ptr(),
            labels.len(),
            out.as_mut_ptr(),
            out.len(),
        )
    }
}

#[cfg(not(library))]
pub fn check(_: &[u8]) -> Answer {
    panic!("{MISSING}")
}

#[cfg(not(library))]
pub fn write_chart(_: &[u8], _: &mut [u8]) -> Answer {
    panic!("{MISSING}")
}

#[cfg(not(library))]
pub fn remove(_: &[u8], _: &[u8], _: u64, _: u64, _: &mut [u8]) -> Answer {
    panic!("{MISSING}")
}

#[cfg(not(library))]
pub fn remove_together(_: &[u8], _: &[u8], _: &[u8], _: &mut [u8]) -> Answer {
    panic!("{MISSING}")
}

#[cfg(not(library))]
pub fn restart(_: &[u8], _: &mut [u8]) -> Answer {
    panic!("{MISSING}")
}

#[cfg(not(library))]
pub fn event(_: &[u8], _: &mut [u8], _: u8) -> Answer {
    panic!("{MISSING}")
}

#[cfg(not(library))]
pub fn shortest_way(_: &[u8], _: &[u8], _: &mut [u8]) -> Answer {
    panic!("{MISSING}")
}

#[cfg(not(library))]
pub fn write_expression(_: &[u8], _: &[u8], _: &mut [u8]) -> Answer {
    panic!("{MISSING}")
}

#[cfg(not(library))]
const MISSING: &str =
    "no target/staticlib/libsequence.a: run `rt staticlib sequence` in the repository's root";
