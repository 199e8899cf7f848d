//! Steps of a crowd by the library that crowd.h declares. Nothing but its calls is unsafe, and what they need
//! of their pointers holds for all slices: those are aligned and never null, and one that is written is lent
//! to nobody else.

pub const VERSION: u32 = 2;

/// A disc that moves on its own; `crowd.h` says what its fields are.
#[repr(C)]
#[derive(Clone, Copy, Debug, Default, PartialEq, Eq)]
pub struct Agent {
    pub x: i32,
    pub y: i32,
    pub vel_x: i32,
    pub vel_y: i32,
    pub pref_x: i32,
    pub pref_y: i32,
    pub radius: u32,
    pub speed: u32,
    pub range: u32,
    pub most: u32,
    pub horizon: u32,
    pub wall_horizon: u32,
    pub weight: u32,
    pub mark: u32,
    pub relief: u32,
}

/// A wall with two sides, from a to b.
#[repr(C)]
#[derive(Clone, Copy, Debug, Default, PartialEq, Eq)]
pub struct Segment {
    pub ax: i32,
    pub ay: i32,
    pub bx: i32,
    pub by: i32,
}

/// The first cause of a refusal.
#[repr(C)]
#[derive(Clone, Copy, Debug, Default, PartialEq, Eq)]
pub struct Fault {
    pub cause: u32,
    pub agent: u32,
    pub field: u32,
    pub segment: u32,
}

/// Why there was no step. Nothing changed.
#[derive(Clone, Copy, Debug, PartialEq, Eq)]
pub enum StepError {
    NoMemory,
    Refused(Fault),
}

const _: () = assert!(size_of::<Agent>() == 60 && size_of::<Segment>() == 16 && size_of::<Fault>() == 16);

unsafe extern "C" {
    fn crowd_version() -> u32;
    fn crowd_step(agents: *mut Agent, agent_count: usize, segments: *const Segment, segment_count: usize, ring: u32, fault: *mut Fault) -> u32;
    fn crowd_step_part(
        agents: *const Agent,
        agent_count: usize,
        segments: *const Segment,
        segment_count: usize,
        ring: u32,
        first: usize,
        moved: *mut Agent,
        moved_count: usize,
        fault: *mut Fault,
    ) -> u32;
}

fn answer(status: u32, fault: Fault) -> Result<(), StepError> {
    match status {
        0 => Ok(()),
        1 => Err(StepError::NoMemory),
        _ => Err(StepError::Refused(fault)),
    }
}

/// Whether this file is of the library's version.
pub fn is_of_this_version() -> bool {
    unsafe { crowd_version() == VERSION }
}

/// Makes of the agents the next frame, in place.
pub fn step(agents: &mut [Agent], segments: &[Segment], ring: u32) -> Result<(), StepError> {
    let mut fault = Fault::default();
    let status = unsafe { crowd_step(agents.as_mut_ptr(), agents.len(), segments.as_ptr(), segments.len(), ring, &mut fault) };
    answer(status, fault)
}

/// Makes a part of the step: the agents from number `first` on, as many as `moved` has places.
pub fn step_part(agents: &[Agent], segments: &[Segment], ring: u32, first: usize, moved: &mut [Agent]) -> Result<(), StepError> {
    let mut fault = Fault::default();
    let status = unsafe {
        crowd_step_part(
            agents.as_ptr(),
            agents.len(),
            segments.as_ptr(),
            segments.len(),
            ring,
            first,
            moved.as_mut_ptr(),
            moved.len(),
            &mut fault,
        )
    };
    answer(status, fault)
}
