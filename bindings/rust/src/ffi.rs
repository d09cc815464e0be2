//! The library's functions, and safe calls of them. Their contracts are in `crates/bajofeki_c/src/lib.rt`.

use std::cell::Cell;
use std::ffi::c_void;
use std::fmt;
use std::marker::PhantomData;

/// The codes of a cut, an edit, chunks or a page.
pub const DONE: u32 = 0;
pub const BAD_RANGE: u32 = 1;
pub const BAD_NAME: u32 = 1;
pub const NO_RULE: u32 = 4;
pub const FULL: u32 = 2;
pub const TOO_DEEP: u32 = 4;
pub const TOO_LARGE: u32 = 6;
pub const OUT_OF_MEMORY: u32 = 7;
pub const ENDED: u32 = 8;

/// What became of the rules.
#[repr(C)]
#[derive(Clone, Copy, Debug)]
pub struct Report {
    pub code: u32,
    pub line: usize,
    pub column: usize,
    pub rule: usize,
    pub other: usize,
    pub other_line: usize,
    pub other_column: usize,
    pub position: usize,
}

#[repr(C)]
#[derive(Clone, Copy, Debug, Default)]
pub struct Piece {
    pub kind: u32,
    pub rule: usize,
    pub start: usize,
    pub length: usize,
}

/// How far a text was cut.
#[repr(C)]
#[derive(Clone, Copy, Debug)]
pub struct Cut {
    pub code: u32,
    pub count: usize,
    pub end: usize,
}

#[repr(C)]
#[derive(Clone, Copy, Debug)]
pub struct Place {
    pub at: usize,
    pub line: usize,
    pub column: usize,
}

#[repr(C)]
#[derive(Clone, Copy, Debug)]
pub struct Page {
    pub code: u32,
    pub length: usize,
}

#[repr(C)]
#[derive(Clone, Copy, Debug)]
pub struct Look {
    pub code: u32,
    pub count: usize,
}

/// What a token of a rule does to the stack of modes.
#[repr(C)]
#[derive(Clone, Copy, Debug)]
pub struct Action {
    pub kind: u32,
    pub mode: usize,
}

/// What a check of rules writes, a comparison or a drawing.
#[repr(C)]
#[derive(Clone, Copy, Debug)]
pub struct Checked {
    pub code: u32,
    pub found: usize,
    pub length: usize,
}

/// What an edit changed.
#[repr(C)]
#[derive(Clone, Copy, Debug)]
pub struct Edit {
    pub code: u32,
    pub first: usize,
    pub removed: usize,
    pub inserted: usize,
    pub start: usize,
    pub old_end: usize,
    pub new_end: usize,
}

#[repr(C)]
#[derive(Clone, Copy, Debug)]
pub struct Count {
    pub code: u32,
    pub count: usize,
}

extern "C" {
    fn bajofeki_lexer_size() -> usize;
    fn bajofeki_cutter_size() -> usize;
    fn bajofeki_build(lexer: *mut c_void, rules: *const u8, length: usize);
    fn bajofeki_report(lexer: *const c_void) -> Report;
    fn bajofeki_word(lexer: *const c_void, out: *mut u32, room: usize) -> usize;
    fn bajofeki_rules(lexer: *const c_void) -> usize;
    fn bajofeki_name(lexer: *const c_void, rule: usize, out: *mut u8, room: usize) -> usize;
    fn bajofeki_skips(lexer: *const c_void, rule: usize) -> bool;
    fn bajofeki_modes(lexer: *const c_void) -> usize;
    fn bajofeki_mode_name(lexer: *const c_void, mode: usize, out: *mut u8, room: usize) -> usize;
    fn bajofeki_action(lexer: *const c_void, rule: usize, place: usize) -> Action;
    fn bajofeki_lookahead(lexer: *const c_void, mode: usize) -> Look;
    fn bajofeki_html(
        lexer: *const c_void,
        text: *const u8,
        length: usize,
        out: *mut u8,
        room: usize,
    ) -> Page;
    fn bajofeki_ansi(
        lexer: *const c_void,
        text: *const u8,
        length: usize,
        out: *mut u8,
        room: usize,
    ) -> Page;
    fn bajofeki_c_source(
        lexer: *const c_void,
        prefix: *const u8,
        length: usize,
        out: *mut u8,
        room: usize,
    ) -> Page;
    fn bajofeki_rust_source(lexer: *const c_void, out: *mut u8, room: usize) -> Page;
    fn bajofeki_free(lexer: *mut c_void);
    fn bajofeki_begin(lexer: *const c_void, cutter: *mut c_void, size: usize) -> u32;
    fn bajofeki_begin_again(lexer: *const c_void, cutter: *mut c_void, size: usize) -> u32;
    fn bajofeki_cut(
        lexer: *const c_void,
        cutter: *mut c_void,
        text: *const u8,
        length: usize,
        out: *mut Piece,
        room: usize,
    ) -> Cut;
    fn bajofeki_end(cutter: *mut c_void);
    fn bajofeki_document_size() -> usize;
    fn bajofeki_document_begin(lexer: *const c_void, document: *mut c_void);
    fn bajofeki_edit(
        document: *mut c_void,
        from: usize,
        to: usize,
        bytes: *const u8,
        length: usize,
    ) -> Edit;
    fn bajofeki_pieces(
        document: *const c_void,
        from: usize,
        to: usize,
        out: *mut Piece,
        room: usize,
    ) -> Count;
    fn bajofeki_place(document: *const c_void, at: usize) -> Place;
    fn bajofeki_offset(document: *const c_void, line: usize, column: usize) -> Place;
    // The crate keeps the text of a document itself.
    #[allow(dead_code)]
    fn bajofeki_copy(document: *const c_void, from: usize, out: *mut u8, room: usize) -> usize;
    fn bajofeki_document_end(document: *mut c_void);
    fn bajofeki_stream_size() -> usize;
    fn bajofeki_stream_begin(lexer: *const c_void, stream: *mut c_void);
    fn bajofeki_feed(stream: *mut c_void, bytes: *const u8, length: usize, is_last: bool) -> u32;
    fn bajofeki_next(stream: *mut c_void, out: *mut Piece, room: usize) -> Count;
    fn bajofeki_stream_end(stream: *mut c_void);
    fn bajofeki_check(
        name: *const u8,
        name_length: usize,
        rules: *const u8,
        length: usize,
        is_json: bool,
        out: *mut u8,
        room: usize,
    ) -> Checked;
    fn bajofeki_diff(
        name: *const u8,
        name_length: usize,
        rules: *const u8,
        length: usize,
        other_name: *const u8,
        other_name_length: usize,
        other: *const u8,
        other_length: usize,
        out: *mut u8,
        room: usize,
    ) -> Checked;
    fn bajofeki_dot(
        name: *const u8,
        name_length: usize,
        rules: *const u8,
        length: usize,
        rule: *const u8,
        rule_length: usize,
        out: *mut u8,
        room: usize,
    ) -> Checked;
    fn bajofeki_position(text: *const u8, length: usize, at: usize) -> Place;
    fn bajofeki_version() -> u32;
}

/// How a text is shown.
#[derive(Clone, Copy, Debug)]
pub enum Markup {
    Html,
    Ansi,
}

/// The name that a function writes to an array; it gives how many bytes there are.
fn name_of(writes: impl Fn(*mut u8, usize) -> usize) -> Result<String, u32> {
    let length = writes([].as_mut_ptr(), 0);
    let mut name = Vec::new();
    fit(&mut name, length)?;
    writes(name.as_mut_ptr(), length);
    Ok(string(name))
}

/// Makes an array this long, or gives the code for memory that is refused.
fn fit<T: Clone + Default>(all: &mut Vec<T>, length: usize) -> Result<(), u32> {
    all.try_reserve_exact(length.saturating_sub(all.len()))
        .map_err(|_| OUT_OF_MEMORY)?;
    all.resize(length, T::default());
    Ok(())
}

/// What the library wrote, which is UTF-8, as a string.
pub fn string(bytes: Vec<u8>) -> String {
    String::from_utf8(bytes)
        .unwrap_or_else(|error| String::from_utf8_lossy(error.as_bytes()).into_owned())
}

/// Room at a multiple of 8, and what has begun in it, which ends with it.
struct Begun {
    room: Vec<u64>,
    end: unsafe extern "C" fn(*mut c_void),
}

impl Begun {
    /// Room of this many bytes, where `begin` leaves what `end` takes.
    fn new(
        size: usize,
        end: unsafe extern "C" fn(*mut c_void),
        begin: impl FnOnce(*mut c_void),
    ) -> Result<Begun, u32> {
        let mut room: Vec<u64> = Vec::new();
        fit(&mut room, (size + 7) / 8)?;
        begin(room.as_mut_ptr().cast());
        Ok(Begun { room, end })
    }

    /// The pointer, for calls that only read what lies there.
    fn at(&self) -> *const c_void {
        self.room.as_ptr().cast()
    }

    fn at_mut(&mut self) -> *mut c_void {
        self.room.as_mut_ptr().cast()
    }
}

impl Drop for Begun {
    fn drop(&mut self) {
        // SAFETY: what has begun lies there, and is ended once. What borrows it has ended.
        unsafe { (self.end)(self.at_mut()) };
    }
}

/// A lexer, or why there is none. Threads may share it, since all calls but the drop only read it.
pub struct Held {
    begun: Begun,
}

impl Held {
    pub fn build(rules: &[u8]) -> Result<Held, u32> {
        // SAFETY: the call asks for nothing.
        let size = unsafe { bajofeki_lexer_size() };
        let begun = Begun::new(size, bajofeki_free, |room| {
            // SAFETY: the room has that size, and is given to this build alone; a slice's pointer isn't null.
            unsafe { bajofeki_build(room, rules.as_ptr(), rules.len()) }
        })?;
        Ok(Held { begun })
    }

    fn at(&self) -> *const c_void {
        self.begun.at()
    }

    pub fn report(&self) -> Report {
        // SAFETY: what was built lies there until the drop.
        unsafe { bajofeki_report(self.at()) }
    }

    pub fn word(&self) -> Result<Vec<u32>, u32> {
        // SAFETY: as for `report`; nothing is written to an array without places.
        let length = unsafe { bajofeki_word(self.at(), [].as_mut_ptr(), 0) };
        let mut word = Vec::new();
        fit(&mut word, length)?;
        // SAFETY: as for `report`; the array has this many places.
        unsafe { bajofeki_word(self.at(), word.as_mut_ptr(), length) };
        Ok(word)
    }

    pub fn rules(&self) -> usize {
        // SAFETY: as for `report`.
        unsafe { bajofeki_rules(self.at()) }
    }

    pub fn name(&self, rule: usize) -> Result<String, u32> {
        // SAFETY: as for `word`.
        name_of(|out, room| unsafe { bajofeki_name(self.at(), rule, out, room) })
    }

    pub fn skips(&self, rule: usize) -> bool {
        // SAFETY: as for `report`.
        unsafe { bajofeki_skips(self.at(), rule) }
    }

    pub fn modes(&self) -> usize {
        // SAFETY: as for `report`.
        unsafe { bajofeki_modes(self.at()) }
    }

    pub fn mode_name(&self, mode: usize) -> Result<String, u32> {
        // SAFETY: as for `word`.
        name_of(|out, room| unsafe { bajofeki_mode_name(self.at(), mode, out, room) })
    }

    pub fn action(&self, rule: usize, place: usize) -> Action {
        // SAFETY: as for `report`.
        unsafe { bajofeki_action(self.at(), rule, place) }
    }

    pub fn lookahead(&self, mode: usize) -> Look {
        // SAFETY: as for `report`.
        unsafe { bajofeki_lookahead(self.at(), mode) }
    }

    /// The page of a text: as HTML, or in colours for a terminal.
    pub fn page(&self, text: &[u8], markup: Markup) -> Result<String, u32> {
        written(2 * text.len(), |out, room| {
            // SAFETY: as for `word`; the text's slice is what it is.
            unsafe {
                let shows = match markup {
                    Markup::Html => bajofeki_html,
                    Markup::Ansi => bajofeki_ansi,
                };
                shows(self.at(), text.as_ptr(), text.len(), out, room)
            }
        })
    }

    pub fn c_source(&self, prefix: &[u8]) -> Result<String, u32> {
        written(1 << 16, |out, room| {
            // SAFETY: as for `page`.
            unsafe { bajofeki_c_source(self.at(), prefix.as_ptr(), prefix.len(), out, room) }
        })
    }

    pub fn rust_source(&self) -> Result<String, u32> {
        written(1 << 16, |out, room| {
            // SAFETY: as for `page`.
            unsafe { bajofeki_rust_source(self.at(), out, room) }
        })
    }
}

/// What a call writes into an array, which grows until all of it fits; or the call's code.
fn written(room: usize, call: impl Fn(*mut u8, usize) -> Page) -> Result<String, u32> {
    let mut all = Vec::new();
    fit(&mut all, room)?;
    loop {
        let page = call(all.as_mut_ptr(), all.len());
        if page.code != 0 {
            return Err(page.code);
        }
        if page.length <= all.len() {
            all.truncate(page.length);
            return Ok(string(all));
        }
        fit(&mut all, page.length)?;
    }
}

/// An answer about rules: its code, what the program writes, and what it says.
pub type Answer = Result<(u32, String, String), u32>;

/// The answer of a call that writes into an array, which grows until all of it fits.
fn answered(call: impl Fn(*mut u8, usize) -> Checked) -> Answer {
    let (mut all, mut said) = (Vec::new(), Vec::new());
    fit(&mut all, 1 << 16)?;
    loop {
        let checked = call(all.as_mut_ptr(), all.len());
        if checked.length <= all.len() {
            fit(&mut said, checked.length - checked.found)?;
            said.copy_from_slice(&all[checked.found..checked.length]);
            all.truncate(checked.found);
            return Ok((checked.code, string(all), string(said)));
        }
        fit(&mut all, checked.length)?;
    }
}

/// What a check of rules comes to.
pub fn check(name: &str, rules: &[u8], is_json: bool) -> Answer {
    let (file, length) = (name.as_ptr(), name.len());
    let (at, size) = (rules.as_ptr(), rules.len());
    answered(|out, room| {
        // SAFETY: slices are what they are; the array has this many places.
        unsafe { bajofeki_check(file, length, at, size, is_json, out, room) }
    })
}

/// What a comparison comes to.
pub fn diff(name: &str, rules: &[u8], other_name: &str, other: &[u8]) -> Answer {
    answered(|out, room| {
        // SAFETY: as for `check`.
        unsafe {
            bajofeki_diff(
                name.as_ptr(),
                name.len(),
                rules.as_ptr(),
                rules.len(),
                other_name.as_ptr(),
                other_name.len(),
                other.as_ptr(),
                other.len(),
                out,
                room,
            )
        }
    })
}

/// What a drawing comes to.
pub fn dot(name: &str, rules: &[u8], rule: &str) -> Answer {
    let (file, length) = (name.as_ptr(), name.len());
    let (at, size) = (rules.as_ptr(), rules.len());
    answered(|out, room| {
        // SAFETY: as for `check`.
        unsafe { bajofeki_dot(file, length, at, size, rule.as_ptr(), rule.len(), out, room) }
    })
}

/// The cut of a text. It borrows the lexer and the text, so they are the same at each call.
pub struct Cutting<'a> {
    begun: Begun,
    held: &'a Held,
    text: &'a [u8],
    code: u32,
}

impl<'a> Cutting<'a> {
    pub fn begin(held: &'a Held, text: &'a [u8]) -> Result<Cutting<'a>, u32> {
        let mut code = DONE;
        // SAFETY: the call asks for nothing.
        let size = unsafe { bajofeki_cutter_size() };
        let begun = Begun::new(size, bajofeki_end, |room| {
            // SAFETY: a lexer, or why there is none, lies there; the room has that size, and is this cut's alone.
            code = unsafe { bajofeki_begin(held.at(), room, text.len()) };
        })?;
        Ok(Cutting {
            begun,
            held,
            text,
            code,
        })
    }

    /// The cut of another text, in the memory of this one.
    pub fn begin_again(&mut self, text: &'a [u8]) {
        // SAFETY: the lexer lies there, and what `begin` left.
        self.code =
            unsafe { bajofeki_begin_again(self.held.at(), self.begun.at_mut(), text.len()) };
        self.text = text;
    }

    /// 0, or why there is no cut.
    pub fn code(&self) -> u32 {
        self.code
    }

    /// The next pieces, as many as the array takes.
    pub fn cut(&mut self, out: &mut [Piece]) -> Cut {
        // SAFETY: the lexer and the cutter lie there; the lexer and the text are those with which it began; the slices are what they are.
        unsafe {
            bajofeki_cut(
                self.held.at(),
                self.begun.at_mut(),
                self.text.as_ptr(),
                self.text.len(),
                out.as_mut_ptr(),
                out.len(),
            )
        }
    }
}

impl fmt::Debug for Cutting<'_> {
    fn fmt(&self, f: &mut fmt::Formatter<'_>) -> fmt::Result {
        f.debug_struct("Cutting")
            .field("code", &self.code)
            .finish_non_exhaustive()
    }
}

/// A text that is edited. It borrows the lexer. By the header it is one thread's at a time, so it is `Send` and not `Sync`.
pub struct HeldDocument<'a> {
    begun: Begun,
    lexer: PhantomData<(&'a Held, Cell<()>)>,
}

impl<'a> HeldDocument<'a> {
    pub fn begin(held: &'a Held) -> Result<HeldDocument<'a>, u32> {
        // SAFETY: the call asks for nothing.
        let size = unsafe { bajofeki_document_size() };
        let begun = Begun::new(size, bajofeki_document_end, |room| {
            // SAFETY: as in `Cutting::begin`.
            unsafe { bajofeki_document_begin(held.at(), room) }
        })?;
        Ok(HeldDocument {
            begun,
            lexer: PhantomData,
        })
    }

    pub fn edit(&mut self, from: usize, to: usize, new: &[u8]) -> Edit {
        // SAFETY: the document lies there, and its lexer; the slice is what it is.
        unsafe { bajofeki_edit(self.begun.at_mut(), from, to, new.as_ptr(), new.len()) }
    }

    /// Writes the pieces that hold a byte of the range, as many as the array takes, and says how many there are.
    pub fn pieces(&self, from: usize, to: usize, out: &mut [Piece]) -> Count {
        // SAFETY: as for `edit`.
        unsafe { bajofeki_pieces(self.begun.at(), from, to, out.as_mut_ptr(), out.len()) }
    }

    pub fn place(&self, at: usize) -> Place {
        // SAFETY: as for `edit`.
        unsafe { bajofeki_place(self.begun.at(), at) }
    }

    pub fn offset(&self, line: usize, column: usize) -> Place {
        // SAFETY: as for `edit`.
        unsafe { bajofeki_offset(self.begun.at(), line, column) }
    }
}

/// A text that comes in chunks. It borrows the lexer, and is one thread's at a time too.
pub struct HeldStream<'a> {
    begun: Begun,
    lexer: PhantomData<(&'a Held, Cell<()>)>,
}

impl<'a> HeldStream<'a> {
    pub fn begin(held: &'a Held) -> Result<HeldStream<'a>, u32> {
        // SAFETY: the call asks for nothing.
        let size = unsafe { bajofeki_stream_size() };
        let begun = Begun::new(size, bajofeki_stream_end, |room| {
            // SAFETY: as in `Cutting::begin`.
            unsafe { bajofeki_stream_begin(held.at(), room) }
        })?;
        Ok(HeldStream {
            begun,
            lexer: PhantomData,
        })
    }

    pub fn feed(&mut self, bytes: &[u8], is_last: bool) -> u32 {
        // SAFETY: the stream lies there, and its lexer; the slice is what it is.
        unsafe { bajofeki_feed(self.begun.at_mut(), bytes.as_ptr(), bytes.len(), is_last) }
    }

    /// The code, and how many of the next pieces that are final were written, as many as the array takes.
    pub fn next(&mut self, out: &mut [Piece]) -> (u32, usize) {
        // SAFETY: as for `feed`.
        let count = unsafe { bajofeki_next(self.begun.at_mut(), out.as_mut_ptr(), out.len()) };
        (count.code, count.count)
    }
}

/// The line and the column of an offset.
pub fn position(text: &[u8], at: usize) -> Place {
    // SAFETY: the slice is what it is.
    unsafe { bajofeki_position(text.as_ptr(), text.len(), at) }
}

pub fn version() -> u32 {
    // SAFETY: the call asks for nothing.
    unsafe { bajofeki_version() }
}
