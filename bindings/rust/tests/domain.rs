//! Sizes above the domain are refused before anything is allocated, and so are lane files.

use pamitoye::{
    HEIGHTS_PER_SEGMENT, MAX_AXES, MAX_REFINEMENTS, MAX_SEGMENTS, MAX_WAYPOINTS, Path, PathError,
    SmoothingConfig,
};
use std::alloc::{GlobalAlloc, Layout, System};
use std::cell::Cell;

thread_local! {
    static CALLS: Cell<usize> = const { Cell::new(0) };
}

/// The system's allocator, whose calls are counted for each thread.
struct Counting;

// SAFETY: every call is handed on to the system's allocator with the arguments as they are.
unsafe impl GlobalAlloc for Counting {
    unsafe fn alloc(&self, layout: Layout) -> *mut u8 {
        CALLS.set(CALLS.get() + 1);
        // SAFETY: the caller's promise is this function's.
        unsafe { System.alloc(layout) }
    }

    unsafe fn dealloc(&self, cells: *mut u8, layout: Layout) {
        // SAFETY: the caller's promise is this function's.
        unsafe { System.dealloc(cells, layout) }
    }
}

#[global_allocator]
static COUNTING: Counting = Counting;

/// The refusal, and how often the allocator was called for it.
fn refused(
    points: &[f64],
    shape: (usize, usize),
    config: SmoothingConfig,
) -> (Option<PathError>, usize) {
    let before = CALLS.get();
    let error = Path::from_waypoints_fitting(points, shape, config).err();
    (error, CALLS.get() - before)
}

#[test]
fn sizes_above_the_domain() {
    let points = [0.; 4];
    let config = SmoothingConfig::default;
    let above = (Some(PathError::AboveDomain), 0);
    for more in [1, 2, 1000, usize::MAX / 2, usize::MAX - MAX_WAYPOINTS] {
        assert_eq!(refused(&points, (MAX_AXES + more, 2), config()), above);
        assert_eq!(refused(&points, (2, MAX_WAYPOINTS + more), config()), above);
        let segments = SmoothingConfig {
            max_segments: MAX_SEGMENTS + more,
            ..config()
        };
        assert_eq!(refused(&points, (2, 2), segments), above);
        let refinements = SmoothingConfig {
            max_refinements: MAX_REFINEMENTS + more,
            ..config()
        };
        assert_eq!(refused(&points, (2, 2), refinements), above);
    }
}

#[test]
fn point_cells_that_differ() {
    let points = [0.; 4];
    let differ = (Some(PathError::PointCells), 0);
    for shape in [(2, 3), (3, 2), (0, 2), (1, 3), (16, 20_000)] {
        assert_eq!(refused(&points, shape, Default::default()), differ);
    }
    // 18 comes before 20, and 20 before 1.
    let above = (Some(PathError::AboveDomain), 0);
    assert_eq!(refused(&points, (17, 5), Default::default()), above);
    assert_eq!(refused(&[f64::NAN], (1, 2), Default::default()), differ);
}

#[test]
fn the_largest_sizes_are_taken() {
    let points = vec![1.; MAX_AXES * MAX_WAYPOINTS];
    let config = SmoothingConfig {
        max_refinements: MAX_REFINEMENTS,
        max_segments: MAX_SEGMENTS,
        ..Default::default()
    };
    let path = Path::from_waypoints_fitting(&points, (MAX_AXES, MAX_WAYPOINTS), config).unwrap();
    assert_eq!(path.breaks(), [0., 1.]);
    assert_eq!(path.coefficients().len(), 6 * MAX_AXES);
}

/// A lane file that is refused takes no memory, however long it is.
#[test]
fn refused_lane_files() {
    let calls = |file: &[u8]| {
        let before = CALLS.get();
        let error = Path::from_lane_file(file).err();
        (error, CALLS.get() - before)
    };
    let long = vec![0; 10_000_000];
    assert_eq!(calls(&long), (Some(PathError::DoesNotRead), 0));
    // As many axes as bytes are left for, one after the other: it reads, and there are too many.
    let axes = 1_000_000;
    let count = [axes, axes >> 7, axes >> 14].map(|group| group as u8 | 128);
    let count = [count[0], count[1], count[2] & 127];
    let mut many = [count, count].concat();
    many.resize(6 + axes + 3 + 16, 0);
    assert_eq!(calls(&many), (Some(PathError::Malformed), 0));
    let path = Path::from_waypoints_fitting(&[0., 1.], (1, 2), Default::default()).unwrap();
    let (error, taken) = calls(&path.to_lane_file().unwrap());
    assert!(error.is_none() && taken > 0);
}

/// Queries and heights into slices of the caller's do not allocate, and neither do heights of no axis.
#[test]
fn queries_into_slices() {
    let path = Path::from_waypoints_fitting(&[0., 1.], (1, 2), Default::default()).unwrap();
    let (mut q, mut dq) = ([0.; 3], [0.; 3]);
    let mut heights = [0; HEIGHTS_PER_SEGMENT];
    let before = CALLS.get();
    path.evaluate_into(&[0., 0.5, 1.], &mut [&mut q, &mut dq])
        .unwrap();
    path.evaluate_at(0.25, &mut [&mut dq]).unwrap();
    path.heights_into(0, &mut heights).unwrap();
    assert_eq!(path.heights(1), Err(PathError::NoSuchAxis));
    assert_eq!(CALLS.get(), before);
    assert_eq!((q, dq[0]), ([0., 0.5, 1.], 0.25));
    assert_eq!((heights[0], heights[128], heights[256]), (0, 50, 100));
}
