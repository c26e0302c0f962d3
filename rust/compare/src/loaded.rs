//! Libraries that are loaded while the program runs: the pages of rust/page, and builds of other days.

use std::ffi::{CString, c_char, c_int, c_void};
use std::mem::transmute_copy;
use std::os::unix::ffi::OsStrExt;
use std::path::{Path, PathBuf};
use std::process::Command;
use std::sync::OnceLock;

use answer::{
    CHAIN_ANSWER_WORDS, CONVEX_ANSWER_WORDS, HULL_ANSWER_WORDS, OUTLINE_ANSWER_WORDS,
    OVERLAY_ANSWER_WORDS, POLYGON_ANSWER_WORDS, ROWS_ANSWER_WORDS, WALK_ANSWER_WORDS,
};

use crate::{Library, Room, TWIN};

mod c {
    use super::{c_char, c_int, c_void};

    unsafe extern "C" {
        pub fn dlopen(file: *const c_char, flags: c_int) -> *mut c_void;
        pub fn dlsym(library: *mut c_void, name: *const c_char) -> *mut c_void;
    }
    /// Every name is looked up at once.
    pub const RTLD_NOW: c_int = 2;
}

/// A call on a start and a chain that writes numbers or bytes.
type OnChain<T> = unsafe extern "C" fn(i32, i32, *const u8, usize, *mut T, usize, *mut u32) -> u32;

type WalkCall = unsafe extern "C" fn(
    i32,
    i32,
    *const u8,
    usize,
    *mut u32,
    usize,
    *mut u32,
    usize,
    *mut u8,
    usize,
    *mut u32,
) -> u32;

type OverlayCall = unsafe extern "C" fn(
    i32,
    i32,
    *const u8,
    usize,
    i32,
    i32,
    *const u8,
    usize,
    *mut i32,
    usize,
    *mut i32,
    usize,
    *mut i32,
    usize,
    *mut u32,
) -> u32;

type ChainCall = unsafe extern "C" fn(*const u8, usize, *mut u8, usize, *mut u32) -> u32;

/// The calls of a loaded library that a page has too, as include/undrwyth.h declares them.
pub struct Loaded {
    walk: WalkCall,
    hull: OnChain<i32>,
    outline: OnChain<u8>,
    polygon_of_room: OnChain<u8>,
    rows: OnChain<i32>,
    convex: unsafe extern "C" fn(i32, i32, *const u8, usize, *mut u32) -> u32,
    overlay: OverlayCall,
    chain_of_polygon: ChainCall,
    line: unsafe extern "C" fn(*const u8, usize, *mut u8, usize) -> usize,
}

/// Safe if the answer has as many words as the call's answer: each other pointer is of a slice of the length beside it.
unsafe fn on_chain<T>(
    call: OnChain<T>,
    (x, y): (i32, i32),
    chain: &[u8],
    out: &mut [T],
    answer: &mut [u32],
) -> u32 {
    let (to, room) = (out.as_mut_ptr(), out.len());
    unsafe {
        call(
            x,
            y,
            chain.as_ptr(),
            chain.len(),
            to,
            room,
            answer.as_mut_ptr(),
        )
    }
}

impl Loaded {
    /// Loads a shared library, whose calls have names with this prefix. It stays loaded.
    pub fn open(file: &Path, prefix: &str) -> &'static Loaded {
        let name = CString::new(file.as_os_str().as_bytes()).expect("a path has no zero");
        // SAFETY: the file is one that was built from this project, and does nothing when it is loaded.
        let library = unsafe { c::dlopen(name.as_ptr(), c::RTLD_NOW) };
        assert!(!library.is_null(), "{} is not loaded", file.display());
        let find = |call: &str| {
            let name = CString::new(format!("{prefix}_{call}")).expect("a name has no zero");
            let found = unsafe { c::dlsym(library, name.as_ptr()) };
            assert!(
                !found.is_null(),
                "{} has no {prefix}_{call}",
                file.display()
            );
            found
        };
        // SAFETY: a pointer to each function, as include/undrwyth.h declares it.
        unsafe {
            Box::leak(Box::new(Loaded {
                walk: transmute_copy(&find("walk")),
                hull: transmute_copy(&find("hull")),
                outline: transmute_copy(&find("outline")),
                polygon_of_room: transmute_copy(&find("polygon_of_room")),
                rows: transmute_copy(&find("rows")),
                convex: transmute_copy(&find("convex")),
                overlay: transmute_copy(&find("overlay")),
                chain_of_polygon: transmute_copy(&find("chain_of_polygon")),
                line: transmute_copy(&find("line")),
            }))
        }
    }

    pub fn walk(
        &self,
        (x, y): (i32, i32),
        ops: &[u8],
        table: &mut [u32],
        marks: &mut [u32],
        chain: &mut [u8],
        answer: &mut [u32; WALK_ANSWER_WORDS],
    ) -> u32 {
        // SAFETY: each pointer is of a slice of the length beside it, none overlaps another, and answer has its words.
        unsafe {
            (self.walk)(
                x,
                y,
                ops.as_ptr(),
                ops.len(),
                table.as_mut_ptr(),
                table.len(),
                marks.as_mut_ptr(),
                marks.len(),
                chain.as_mut_ptr(),
                chain.len(),
                answer.as_mut_ptr(),
            )
        }
    }

    pub fn hull(
        &self,
        start: (i32, i32),
        chain: &[u8],
        out: &mut [i32],
        answer: &mut [u32; HULL_ANSWER_WORDS],
    ) -> u32 {
        // SAFETY: as for walk.
        unsafe { on_chain(self.hull, start, chain, out, answer) }
    }

    pub fn outline(
        &self,
        start: (i32, i32),
        chain: &[u8],
        out: &mut [u8],
        answer: &mut [u32; OUTLINE_ANSWER_WORDS],
    ) -> u32 {
        // SAFETY: as for walk.
        unsafe { on_chain(self.outline, start, chain, out, answer) }
    }

    pub fn polygon_of_room(
        &self,
        start: (i32, i32),
        chain: &[u8],
        out: &mut [u8],
        answer: &mut [u32; POLYGON_ANSWER_WORDS],
    ) -> u32 {
        // SAFETY: as for walk.
        unsafe { on_chain(self.polygon_of_room, start, chain, out, answer) }
    }

    pub fn rows(
        &self,
        start: (i32, i32),
        chain: &[u8],
        out: &mut [i32],
        answer: &mut [u32; ROWS_ANSWER_WORDS],
    ) -> u32 {
        // SAFETY: as for walk.
        unsafe { on_chain(self.rows, start, chain, out, answer) }
    }

    pub fn convex(
        &self,
        (x, y): (i32, i32),
        chain: &[u8],
        answer: &mut [u32; CONVEX_ANSWER_WORDS],
    ) -> u32 {
        // SAFETY: as for walk.
        unsafe { (self.convex)(x, y, chain.as_ptr(), chain.len(), answer.as_mut_ptr()) }
    }

    pub fn overlay(
        &self,
        one: Room,
        other: Room,
        [first, second, both]: [&mut [i32]; 3],
        answer: &mut [u32; OVERLAY_ANSWER_WORDS],
    ) -> u32 {
        // SAFETY: as for walk.
        unsafe {
            (self.overlay)(
                one.0.0,
                one.0.1,
                one.1.as_ptr(),
                one.1.len(),
                other.0.0,
                other.0.1,
                other.1.as_ptr(),
                other.1.len(),
                first.as_mut_ptr(),
                first.len(),
                second.as_mut_ptr(),
                second.len(),
                both.as_mut_ptr(),
                both.len(),
                answer.as_mut_ptr(),
            )
        }
    }

    pub fn chain_of_polygon(
        &self,
        file: &[u8],
        chain: &mut [u8],
        answer: &mut [u32; CHAIN_ANSWER_WORDS],
    ) -> u32 {
        let (to, room) = (chain.as_mut_ptr(), chain.len());
        // SAFETY: as for walk.
        unsafe { (self.chain_of_polygon)(file.as_ptr(), file.len(), to, room, answer.as_mut_ptr()) }
    }

    pub fn line(&self, line: &[u8], out: &mut [u8]) -> usize {
        // SAFETY: as for walk.
        unsafe { (self.line)(line.as_ptr(), line.len(), out.as_mut_ptr(), out.len()) }
    }
}

/// The pages, as soon as they were loaded.
static PAGES: OnceLock<&'static Loaded> = OnceLock::new();

fn page() -> &'static Loaded {
    PAGES.get().expect("the pages were loaded")
}

/// What of the pages is compared, as soon as they were loaded; the calls that have no page are those of the twin.
pub const PAGE: Library = Library {
    walk: |start, ops, table, marks, chain, answer| {
        page().walk(start, ops, table, marks, chain, answer)
    },
    hull: |start, chain, out, answer| page().hull(start, chain, out, answer),
    outline: |start, chain, out, answer| page().outline(start, chain, out, answer),
    polygon_of_room: |start, chain, out, answer| page().polygon_of_room(start, chain, out, answer),
    rows: |start, chain, out, answer| page().rows(start, chain, out, answer),
    convex: |start, chain, answer| page().convex(start, chain, answer),
    overlay: |one, other, out, answer| page().overlay(one, other, out, answer),
    chain_of_polygon: |file, chain, answer| page().chain_of_polygon(file, chain, answer),
    line: |line, out| page().line(line, out),
    ..TWIN
};

/// The files of the pages of the calls, and of the line program.
const CALLS: [&str; 7] = [
    "walk.cpp",
    "hull.cpp",
    "outline.cpp",
    "polygon.cpp",
    "rows.cpp",
    "convex.cpp",
    "line.cpp",
];
const PROGRAM: [&str; 4] = ["judge.cpp", "line.cpp", "walk.cpp", "hull.cpp"];

/// Compiles these pages to the file in the folder; none if there is no g++.
fn compiled(folder: &Path, name: &str, flags: &[&str], sources: &[&str]) -> Option<PathBuf> {
    let root = Path::new(env!("CARGO_MANIFEST_DIR")).join("../..");
    let file = folder.join(name);
    let status = Command::new("g++")
        .args(["-std=c++17", "-O2", "-Wall", "-Wextra"])
        .args(flags)
        .arg("-I")
        .arg(root.join("include"))
        .arg("-o")
        .arg(&file)
        .args(sources.iter().map(|page| root.join("rust/page").join(page)))
        .status()
        .ok()?;
    assert!(status.success(), "g++ does not compile rust/page");
    Some(file)
}

/// Compiles the pages in this folder, and loads them; none if there is no g++.
pub fn pages(folder: &Path) -> Option<&'static Loaded> {
    let flags = ["-shared", "-fPIC", "-fvisibility=hidden"];
    let file = compiled(folder, "libpage.so", &flags, &CALLS)?;
    Some(PAGES.get_or_init(|| Loaded::open(&file, "page")))
}

/// The page's line program, compiled in this folder; none if there is no g++.
pub fn judge_page(folder: &Path) -> Option<PathBuf> {
    compiled(folder, "judge_page", &[], &PROGRAM)
}
