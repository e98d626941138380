//! The C files: four operators by hand, the depth of a call's stack, and the thread's clock.
use crate::mesh::Mesh;
use crate::sides::Room;
use crossglimmer::Refusal;
use std::os::raw::c_void;

/// A pointer and how many elements it has.
#[repr(C)]
struct Run<P> {
    start: P,
    length: usize,
}

/// `cg_mesh` and `cg_room`.
#[repr(C)]
struct Runs<N, X> {
    offsets: Run<N>,
    corners: Run<N>,
    coords: Run<X>,
}

type Given = Runs<*const u32, *const f32>;
type Taken = Runs<*mut u32, *mut f32>;

/// Number and place of a refusal, 0 where there is none.
#[repr(C)]
struct Verdict {
    number: u32,
    place: u32,
}

extern "C" {
    fn limit_gyro(mesh: Given, room: Taken) -> bool;
    fn limit_dual(mesh: Given, room: Taken) -> bool;
    fn limit_reverse(mesh: Given, room: Taken) -> bool;
    fn limit_reflect(mesh: Given, room: Taken) -> bool;
    fn checked_reverse(mesh: Given, room: Taken) -> Verdict;
    fn checked_reflect(mesh: Given, room: Taken) -> Verdict;
    fn thread_seconds() -> f64;
    fn stack_of(call: extern "C" fn(*mut c_void), data: *mut c_void) -> usize;
}

/// The operator by hand, where there is one: for a closed mesh within the limits, and the room of the largest result.
pub fn written(name: &str) -> Option<fn(&Mesh, &mut Room)> {
    match name {
        "gyro" => Some(|mesh, room| bare(limit_gyro, mesh, room)),
        "dual" => Some(|mesh, room| bare(limit_dual, mesh, room)),
        "reverse" => Some(|mesh, room| bare(limit_reverse, mesh, room)),
        "reflect" => Some(|mesh, room| bare(limit_reflect, mesh, room)),
        _ => None,
    }
}

pub type Checked = fn(&Mesh, &mut Room) -> Result<(), Refusal>;

/// The operator by hand behind the checks of the library, where there is one: for any mesh and room.
pub fn checked(name: &str) -> Option<Checked> {
    match name {
        "reverse" => Some(|mesh, room| answered(checked_reverse, mesh, room)),
        "reflect" => Some(|mesh, room| answered(checked_reflect, mesh, room)),
        _ => None,
    }
}

type Hand<A> = unsafe extern "C" fn(Given, Taken) -> A;

fn call<A>(hand: Hand<A>, mesh: &Mesh, room: &mut Room) -> A {
    let Mesh { offsets, corners, coordinates } = mesh;
    // What `written` and `checked` ask of the mesh and the room.
    unsafe {
        hand(
            Runs { offsets: given(offsets), corners: given(corners), coords: given(coordinates) },
            Runs {
                offsets: taken(&mut room.offsets),
                corners: taken(&mut room.corners),
                coords: taken(&mut room.coords),
            },
        )
    }
}

fn given<T>(run: &[T]) -> Run<*const T> {
    Run { start: run.as_ptr(), length: run.len() }
}

fn taken<T>(run: &mut [T]) -> Run<*mut T> {
    Run { start: run.as_mut_ptr(), length: run.len() }
}

fn bare(hand: Hand<bool>, mesh: &Mesh, room: &mut Room) {
    assert!(call(hand, mesh, room), "a mesh with an edge alone");
}

fn answered(hand: Hand<Verdict>, mesh: &Mesh, room: &mut Room) -> Result<(), Refusal> {
    match call(hand, mesh, room) {
        Verdict { number: 0, .. } => Ok(()),
        Verdict { number, place } => Err(Refusal { number, place, step: 0 }),
    }
}

/// Bytes of stack that a call takes.
pub fn stack(call: &mut dyn FnMut()) -> usize {
    extern "C" fn run(data: *mut c_void) {
        let call = unsafe { &mut *(data as *mut &mut dyn FnMut()) };
        call();
    }
    let mut call = call;
    let data: *mut &mut dyn FnMut() = &mut call;
    unsafe { stack_of(run, data.cast()) }
}

/// The processor's time of this thread.
pub fn clock() -> f64 {
    unsafe { thread_seconds() }
}
