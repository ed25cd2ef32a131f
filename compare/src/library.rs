//! Our library's calls: the functions that `troymantle-sys` declares, linked or loaded, on slices.

use crate::case::AREAS;
use crate::link::Call;
use crate::sheet::Sheet;
use std::ffi::{CStr, CString, c_char, c_int, c_void};
use std::mem::transmute;
use std::os::unix::ffi::OsStrExt;
use std::path::Path;
use troymantle_sys::{LineColumn, Link, OffsetAt, Parse, PatternTest, Start, Step};

unsafe extern "C" {
    fn dlopen(file: *const c_char, flags: c_int) -> *mut c_void;
    fn dlsym(object: *mut c_void, name: *const c_char) -> *mut c_void;
    fn dlerror() -> *const c_char;
}

/// Every function that the object needs is looked for at once. (Linux's number.)
const RTLD_NOW: c_int = 2;

/// Calls a function with a sheet in front of its other arguments, and a slice in the place of its area 2, which a link
/// writes. Whoever uses it vouches for every pointer and length.
macro_rules! on_sheet {
    ($call:expr, $sheet:expr, $area_2:expr, $pointer:ident, $($argument:expr),*) => {{
        let Sheet { source, areas: [one, _, three, four, five], counts } = $sheet;
        $call(
            source.as_ptr(), source.len(), one.as_ptr(), one.len(), $area_2.$pointer(), $area_2.len(),
            three.as_ptr(), three.len(), four.as_ptr(), four.len(), five.as_ptr(), five.len(), counts, $($argument),*
        )
    }};
}

/// The calls of one build of our library.
#[derive(Clone, Copy)]
pub struct Library {
    parse: Parse,
    pattern_test: PatternTest,
    link: Link,
    start: Start,
    step: Step,
    /// None in a build from before these calls.
    line_column: Option<LineColumn>,
    offset_at: Option<OffsetAt>,
}

/// The static library that this program was built with.
#[cfg(feature = "ours")]
pub const LINKED: Library = Library {
    parse: troymantle_sys::troymantle_parse,
    pattern_test: troymantle_sys::troymantle_pattern_test,
    link: troymantle_sys::troymantle_link,
    start: troymantle_sys::troymantle_start,
    step: troymantle_sys::troymantle_step,
    line_column: Some(troymantle_sys::troymantle_line_column),
    offset_at: Some(troymantle_sys::troymantle_offset_at),
};

impl Library {
    /// The library in a shared object, which stays loaded.
    pub fn load(path: &Path) -> Result<Library, String> {
        let file = CString::new(path.as_os_str().as_bytes()).map_err(|_| "A path has no zero byte.".to_string())?;
        // SAFETY: the file's name ends with a zero byte.
        let object = unsafe { dlopen(file.as_ptr(), RTLD_NOW) };
        if object.is_null() {
            return Err(format!("{} cannot be loaded: {}", path.display(), said()));
        }
        let find = |name: &CStr| {
            // SAFETY: the object is loaded, and the name ends with a zero byte.
            let function = unsafe { dlsym(object, name.as_ptr()) };
            if function.is_null() { Err(format!("{}: {}", path.display(), said())) } else { Ok(function) }
        };
        // SAFETY: a function of this name has the type that is declared here.
        unsafe {
            Ok(Library {
                parse: transmute::<*mut c_void, Parse>(find(c"troymantle_parse")?),
                pattern_test: transmute::<*mut c_void, PatternTest>(find(c"troymantle_pattern_test")?),
                link: transmute::<*mut c_void, Link>(find(c"troymantle_link")?),
                start: transmute::<*mut c_void, Start>(find(c"troymantle_start")?),
                step: transmute::<*mut c_void, Step>(find(c"troymantle_step")?),
                line_column: find(c"troymantle_line_column").ok().map(|it| transmute::<*mut c_void, LineColumn>(it)),
                offset_at: find(c"troymantle_offset_at").ok().map(|it| transmute::<*mut c_void, OffsetAt>(it)),
            })
        }
    }

    /// Whether the build has the function. Only the later ones can be missing.
    pub fn has(&self, function: &str) -> bool {
        match function {
            "troymantle_line_column" => self.line_column.is_some(),
            "troymantle_offset_at" => self.offset_at.is_some(),
            _ => true,
        }
    }

    /// Where the code lies, by one of its functions.
    pub fn address(&self) -> usize {
        self.step as usize
    }

    pub fn parse(
        &self,
        source: &[u8],
        flags: u64,
        verdicts: &[u8],
        areas: &mut [&mut [u8]; AREAS],
        counts: &mut [u16; AREAS],
    ) -> u64 {
        let [one, two, three, four, five, six] = areas;
        // SAFETY: every pointer goes with the length of its own slice, and the call reads and writes only there.
        unsafe {
            (self.parse)(
                source.as_ptr(),
                source.len(),
                flags,
                verdicts.as_ptr(),
                verdicts.len(),
                one.as_mut_ptr(),
                one.len(),
                two.as_mut_ptr(),
                two.len(),
                three.as_mut_ptr(),
                three.len(),
                four.as_mut_ptr(),
                four.len(),
                five.as_mut_ptr(),
                five.len(),
                six.as_mut_ptr(),
                six.len(),
                counts,
            )
        }
    }

    pub fn pattern_test(&self, sheet: &Sheet, rule: u64) -> u64 {
        // SAFETY: the call reads the sheet and writes nothing.
        unsafe { on_sheet!((self.pattern_test), sheet, sheet.areas[1], as_ptr, rule) }
    }

    /// Area 2 of the call is lent apart, so that the call itself stays as it was.
    pub fn link(&self, call: &Call, area_2: &mut [u8], area_7: &mut [u8], area_8: &mut [u8]) -> u64 {
        let Call { sheet, names, entries, .. } = call;
        // SAFETY: every slice is lent whole, and the call writes areas 2, 7 and 8 alone.
        unsafe {
            on_sheet!(
                (self.link),
                sheet,
                area_2,
                as_mut_ptr,
                names.as_ptr(),
                names.len(),
                entries.as_ptr(),
                entries.len(),
                area_7.as_mut_ptr(),
                area_7.len(),
                area_8.as_mut_ptr(),
                area_8.len()
            )
        }
    }

    pub fn start(&self, kind: u64, n: u64, text: &[u8], numbers: &mut [u16; 5], stack: &mut [u8]) -> u64 {
        // SAFETY: every slice is lent whole; the numbers are five.
        unsafe { (self.start)(kind, n, text.as_ptr(), text.len(), numbers, stack.as_mut_ptr(), stack.len()) }
    }

    #[rustfmt::skip]
    pub fn step(&self, sheet: &Sheet, text: &[u8], numbers: &mut [u16; 5], stack: &mut [u8], row: &[u8]) -> u64 {
        let (stack, stack_length) = (stack.as_mut_ptr(), stack.len());
        // SAFETY: every slice is lent whole; the call writes the five numbers and the stack alone.
        unsafe {
            on_sheet!(
                (self.step), sheet, sheet.areas[1], as_ptr, text.as_ptr(), text.len(), numbers, stack, stack_length,
                row.as_ptr(), row.len()
            )
        }
    }

    pub fn line_column(&self, source: &[u8], offset: u64, place: &mut [u32; 2]) -> u64 {
        let call = self.line_column.expect("the library has troymantle_line_column");
        // SAFETY: the source's pointer goes with its length; the call writes the two numbers alone.
        unsafe { call(source.as_ptr(), source.len(), offset, place) }
    }

    pub fn offset_at(&self, source: &[u8], line: u64, column: u64) -> u64 {
        let call = self.offset_at.expect("the library has troymantle_offset_at");
        // SAFETY: the source's pointer goes with its length, and the call writes nothing.
        unsafe { call(source.as_ptr(), source.len(), line, column) }
    }
}

/// What went wrong in the last call of dlopen or dlsym.
fn said() -> String {
    // SAFETY: dlerror answers null or a text that stays until its next call.
    let text = unsafe { dlerror() };
    if text.is_null() {
        return "nothing is told".to_string();
    }
    // SAFETY: as above.
    unsafe { CStr::from_ptr(text) }.to_string_lossy().into_owned()
}
