//! The product's compiled code, by its C interface: a slice is a pointer and a length.

/// An entry that is given a job block, a range, a configuration block and an output for bounds or
/// their parts.
type MarkEntry =
    unsafe extern "C" fn(*const u8, usize, u8, u8, *const u8, usize, *mut u8, usize) -> u32;

/// An entry that is given a job block, a range and the outputs for a configuration and bounds.
type PlanEntry =
    unsafe extern "C" fn(*const u8, usize, u8, u8, *mut u8, usize, *mut u8, usize) -> u32;

/// An entry that is given a job block, a range, the lowest and the highest priority, a block to
/// convert and an output.
type ConvertEntry =
    unsafe extern "C" fn(*const u8, usize, u8, u8, u8, u8, *const u8, usize, *mut u8, usize) -> u32;

/// The entries of one version of the library that work on configurations, under the names that
/// they have in its archive.
macro_rules! version {
    ($bounds:literal, $mark:literal, $plan:literal) => {
        extern "C" {
            #[link_name = $bounds]
            pub fn bounds(
                jobs: *const u8,
                jobs_length: usize,
                low: u8,
                high: u8,
                configuration: *const u8,
                configuration_length: usize,
                bounds: *mut u8,
                bounds_length: usize,
            ) -> u32;

            #[link_name = $mark]
            pub fn mark(
                jobs: *const u8,
                jobs_length: usize,
                low: u8,
                high: u8,
                configuration: *const u8,
                configuration_length: usize,
                bounds: *mut u8,
                bounds_length: usize,
            ) -> u32;

            #[link_name = $plan]
            pub fn plan(
                jobs: *const u8,
                jobs_length: usize,
                low: u8,
                high: u8,
                configuration: *mut u8,
                configuration_length: usize,
                bounds: *mut u8,
                bounds_length: usize,
            ) -> u32;
        }
    };
}

mod entries {
    version!("ruzhtylen_bounds", "ruzhtylen_mark", "ruzhtylen_plan");

    extern "C" {
        pub fn ruzhtylen_same_bytes(
            a: *const u8,
            a_length: usize,
            b: *const u8,
            b_length: usize,
        ) -> u8;

        pub fn ruzhtylen_breakdown(
            jobs: *const u8,
            jobs_length: usize,
            low: u8,
            high: u8,
            configuration: *const u8,
            configuration_length: usize,
            output: *mut u8,
            output_length: usize,
        ) -> u32;

        pub fn ruzhtylen_gate_plan(
            jobs: *const u8,
            jobs_length: usize,
            low: u8,
            high: u8,
            configuration: *mut u8,
            configuration_length: usize,
            bounds: *mut u8,
            bounds_length: usize,
        ) -> u32;

        pub fn ruzhtylen_gate_mark(
            jobs: *const u8,
            jobs_length: usize,
            low: u8,
            high: u8,
            configuration: *const u8,
            configuration_length: usize,
            bounds: *mut u8,
            bounds_length: usize,
        ) -> u32;

        pub fn ruzhtylen_to_kernel(
            jobs: *const u8,
            jobs_length: usize,
            low: u8,
            high: u8,
            lowest: u8,
            highest: u8,
            configuration: *const u8,
            configuration_length: usize,
            output: *mut u8,
            output_length: usize,
        ) -> u32;

        pub fn ruzhtylen_from_kernel(
            jobs: *const u8,
            jobs_length: usize,
            low: u8,
            high: u8,
            lowest: u8,
            highest: u8,
            kernel: *const u8,
            kernel_length: usize,
            output: *mut u8,
            output_length: usize,
        ) -> u32;

        pub fn ruzhtylen_same_singly(
            a: *const u8,
            a_length: usize,
            b: *const u8,
            b_length: usize,
        ) -> bool;
    }
}

/// The entries of another version, if `bench/run` was given one.
#[cfg(before)]
mod entries_before {
    version!("before_bounds", "before_mark", "before_plan");
}

#[inline(always)]
fn call_mark(
    entry: MarkEntry,
    jobs: &[u8],
    low: u8,
    high: u8,
    configuration: &[u8],
    bounds: &mut [u8],
) -> u32 {
    // SAFETY: each pointer and length is of one slice that is lent for the call.
    unsafe {
        entry(
            jobs.as_ptr(),
            jobs.len(),
            low,
            high,
            configuration.as_ptr(),
            configuration.len(),
            bounds.as_mut_ptr(),
            bounds.len(),
        )
    }
}

#[inline(always)]
fn call_plan(
    entry: PlanEntry,
    jobs: &[u8],
    low: u8,
    high: u8,
    configuration: &mut [u8],
    bounds: &mut [u8],
) -> u32 {
    // SAFETY: each pointer and length is of one slice that is lent for the call.
    unsafe {
        entry(
            jobs.as_ptr(),
            jobs.len(),
            low,
            high,
            configuration.as_mut_ptr(),
            configuration.len(),
            bounds.as_mut_ptr(),
            bounds.len(),
        )
    }
}

/// The entries over slices.
macro_rules! over_slices {
    ($entries:ident) => {
        /// The bounds of a configuration block, full or not.
        pub fn bounds(jobs: &[u8], low: u8, high: u8, configuration: &[u8], out: &mut [u8]) -> u32 {
            super::call_mark(super::$entries::bounds, jobs, low, high, configuration, out)
        }

        /// Marks a configuration block.
        pub fn mark(jobs: &[u8], low: u8, high: u8, configuration: &[u8], out: &mut [u8]) -> u32 {
            super::call_mark(super::$entries::mark, jobs, low, high, configuration, out)
        }

        /// Plans a job block.
        pub fn plan(jobs: &[u8], low: u8, high: u8, out: &mut [u8], bounds: &mut [u8]) -> u32 {
            super::call_plan(super::$entries::plan, jobs, low, high, out, bounds)
        }
    };
}

mod now {
    over_slices!(entries);
}

pub use now::{bounds, mark, plan};

/// Another version of the library.
#[cfg(before)]
pub mod before {
    over_slices!(entries_before);
}

/// The parts of the bounds of a configuration block, full or not.
pub fn breakdown(jobs: &[u8], low: u8, high: u8, configuration: &[u8], out: &mut [u8]) -> u32 {
    let entry = entries::ruzhtylen_breakdown;
    call_mark(entry, jobs, low, high, configuration, out)
}

/// Plans a job block at the start gate.
pub fn gate_plan(jobs: &[u8], low: u8, high: u8, out: &mut [u8], bounds: &mut [u8]) -> u32 {
    call_plan(entries::ruzhtylen_gate_plan, jobs, low, high, out, bounds)
}

/// Marks a configuration block at the start gate.
pub fn gate_mark(jobs: &[u8], low: u8, high: u8, configuration: &[u8], out: &mut [u8]) -> u32 {
    let entry = entries::ruzhtylen_gate_mark;
    call_mark(entry, jobs, low, high, configuration, out)
}

/// Whether two blocks are the same bytes.
pub fn same_bytes(a: &[u8], b: &[u8]) -> bool {
    // SAFETY: each pointer and length is of one slice that is lent for the call.
    unsafe { entries::ruzhtylen_same_bytes(a.as_ptr(), a.len(), b.as_ptr(), b.len()) == 1 }
}

/// The same, one byte at a time.
pub fn same_singly(a: &[u8], b: &[u8]) -> bool {
    // SAFETY: each pointer and length is of one slice that is lent for the call.
    unsafe { entries::ruzhtylen_same_singly(a.as_ptr(), a.len(), b.as_ptr(), b.len()) }
}

#[inline(always)]
fn call_convert(
    entry: ConvertEntry,
    jobs: &[u8],
    quanta: (u8, u8),
    priorities: (u8, u8),
    block: &[u8],
    output: &mut [u8],
) -> u32 {
    // SAFETY: each pointer and length is of one slice that is lent for the call.
    unsafe {
        entry(
            jobs.as_ptr(),
            jobs.len(),
            quanta.0,
            quanta.1,
            priorities.0,
            priorities.1,
            block.as_ptr(),
            block.len(),
            output.as_mut_ptr(),
            output.len(),
        )
    }
}

/// Converts a full configuration block to kernel records.
pub fn to_kernel(
    jobs: &[u8],
    quanta: (u8, u8),
    priorities: (u8, u8),
    configuration: &[u8],
    output: &mut [u8],
) -> u32 {
    let entry = entries::ruzhtylen_to_kernel;
    call_convert(entry, jobs, quanta, priorities, configuration, output)
}

/// Converts a kernel block to a configuration block.
pub fn from_kernel(
    jobs: &[u8],
    quanta: (u8, u8),
    priorities: (u8, u8),
    kernel: &[u8],
    output: &mut [u8],
) -> u32 {
    let entry = entries::ruzhtylen_from_kernel;
    call_convert(entry, jobs, quanta, priorities, kernel, output)
}
