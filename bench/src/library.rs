// Our side, as the static library exports it. A slice passes as pointer and length.
use crate::boards::Board;

extern "C" {
    fn bench_refresh_board(
        mines: *const i8,
        mines_len: usize,
        shown: *mut u8,
        shown_len: usize,
        work: *mut u16,
        work_len: usize,
        rows: usize,
        columns: usize,
        cell: u16,
    ) -> u32;

    fn bench_flow(
        rows: u8,
        columns: u8,
        mode: u8,
        question: bool,
        events: *const u8,
        events_len: usize,
        mines: *const i8,
        mines_len: usize,
        shown: *mut u8,
        shown_len: usize,
        bits: *mut u8,
        bits_len: usize,
        work: *mut u16,
        work_len: usize,
        counts: *mut u32,
        counts_len: usize,
    ) -> u16;

    fn bench_step(
        rows: u8,
        columns: u8,
        mode: u8,
        question: bool,
        events: *const u8,
        events_len: usize,
        code: u8,
        row: u8,
        column: u8,
        mines: *const i8,
        mines_len: usize,
        shown: *mut u8,
        shown_len: usize,
        bits: *mut u8,
        bits_len: usize,
        work: *mut u16,
        work_len: usize,
        counts: *mut u32,
        counts_len: usize,
    ) -> u16;

    fn bench_drag(
        kept: usize,
        book: *const u8,
        book_len: usize,
        n: usize,
        k: usize,
        mines: *mut i8,
        mines_len: usize,
        shown: *mut u8,
        shown_len: usize,
        bits: *mut u8,
        bits_len: usize,
        work: *mut u16,
        work_len: usize,
        room: *mut u8,
        room_len: usize,
    ) -> usize;
    fn bench_replay(
        book: *const u8,
        book_len: usize,
        mines: *mut i8,
        mines_len: usize,
        shown: *mut u8,
        shown_len: usize,
        bits: *mut u8,
        bits_len: usize,
        work: *mut u16,
        work_len: usize,
        text: *mut u8,
        text_len: usize,
    ) -> usize;
}

/// Opens one cell; says how many cells it opened. The work is all 0 before and after.
pub fn refresh_board(board: &Board, shown: &mut [u8], work: &mut [u16], cell: usize) -> u32 {
    let cells = board.cells();
    assert!(shown.len() == cells && work.len() >= 8 * cells + 8 && cell < cells);
    // SAFETY: the lengths are tested above, and a Board has values -1 to 8 and a size within the limits; so the contract's `requires` hold.
    unsafe {
        bench_refresh_board(
            board.ours.as_ptr(),
            board.ours.len(),
            shown.as_mut_ptr(),
            shown.len(),
            work.as_mut_ptr(),
            work.len(),
            board.rows,
            board.columns,
            cell as u16,
        )
    }
}

/// What is lent to our functions for one game, with the number and the counts that come back; the last is how many cells a step opened.
pub struct Lent {
    pub shown: Vec<u8>,
    pub bits: Vec<u8>,
    pub work: Vec<u16>,
    pub counts: [u32; 10],
    pub number: u16,
}

impl Lent {
    pub fn new(board: &Board) -> Lent {
        let cells = board.cells();
        let (shown, bits, work) = (vec![0; cells], vec![0; cells.div_ceil(8)], vec![0; 8 * cells + 8]);
        Lent { shown, bits, work, counts: [0; 10], number: 0 }
    }
}

/// A setup, and all the events by `step_flow`.
pub fn flow(board: &Board, mode: u8, events: &[u8], lent: &mut Lent) -> u16 {
    // SAFETY: the slices are whole, and the contract has no `requires`.
    unsafe {
        bench_flow(
            board.rows as u8,
            board.columns as u8,
            mode,
            false,
            events.as_ptr(),
            events.len(),
            board.ours.as_ptr(),
            board.ours.len(),
            lent.shown.as_mut_ptr(),
            lent.shown.len(),
            lent.bits.as_mut_ptr(),
            lent.bits.len(),
            lent.work.as_mut_ptr(),
            lent.work.len(),
            lent.counts.as_mut_ptr(),
            lent.counts.len(),
        )
    }
}

/// The same, but the last event by `step`; gives its answer.
pub fn step(board: &Board, mode: u8, events: &[u8], lent: &mut Lent) -> u16 {
    let (before, last) = events.split_at(events.len() - 3);
    // SAFETY: the slices are whole, and the contract has no `requires`.
    unsafe {
        bench_step(
            board.rows as u8,
            board.columns as u8,
            mode,
            false,
            before.as_ptr(),
            before.len(),
            last[0],
            last[1],
            last[2],
            board.ours.as_ptr(),
            board.ours.len(),
            lent.shown.as_mut_ptr(),
            lent.shown.len(),
            lent.bits.as_mut_ptr(),
            lent.bits.len(),
            lent.work.as_mut_ptr(),
            lent.work.len(),
            lent.counts.as_mut_ptr(),
            lent.counts.len(),
        )
    }
}

/// What a book is played and printed in: room for the largest board and the longest printout.
pub struct Rooms {
    mines: Vec<i8>,
    shown: Vec<u8>,
    bits: Vec<u8>,
    work: Vec<u16>,
    pub text: Vec<u8>,
}

impl Rooms {
    pub fn new() -> Rooms {
        let (mines, shown, bits, work) = (vec![0; 2_048], vec![0; 2_048], vec![0; 256], vec![0; 16_392]);
        Rooms { mines, shown, bits, work, text: vec![0; 172_184] }
    }
}

/// The printout of a book, whose length is given.
pub fn print_book(book: &[u8], rooms: &mut Rooms) -> usize {
    // SAFETY: the slices are whole.
    unsafe {
        bench_replay(
            book.as_ptr(),
            book.len(),
            rooms.mines.as_mut_ptr(),
            rooms.mines.len(),
            rooms.shown.as_mut_ptr(),
            rooms.shown.len(),
            rooms.bits.as_mut_ptr(),
            rooms.bits.len(),
            rooms.work.as_mut_ptr(),
            rooms.work.len(),
            rooms.text.as_mut_ptr(),
            rooms.text.len(),
        )
    }
}

/// What drags over a book are made in, and how many positions are kept.
pub struct Slides {
    pub kept: usize,
    mines: Vec<i8>,
    pub shown: Vec<u8>,
    bits: Vec<u8>,
    work: Vec<u16>,
    room: Vec<u8>,
}

impl Slides {
    /// With room for so many positions.
    pub fn new(rows: usize, columns: usize, most: usize) -> Slides {
        let cells = rows * columns;
        let bytes = cells.div_ceil(8);
        let (mines, shown, bits, work) = (vec![0; cells], vec![0; cells], vec![0; bytes], vec![0; 8 * cells + 8]);
        Slides { kept: 0, mines, shown, bits, work, room: vec![0; most * (56 + cells + bytes)] }
    }
}

/// A drag to event n.
pub fn drag(book: &[u8], n: usize, k: usize, slides: &mut Slides) {
    // SAFETY: the slices are whole, and the contract has no `requires`.
    slides.kept = unsafe {
        bench_drag(
            slides.kept,
            book.as_ptr(),
            book.len(),
            n,
            k,
            slides.mines.as_mut_ptr(),
            slides.mines.len(),
            slides.shown.as_mut_ptr(),
            slides.shown.len(),
            slides.bits.as_mut_ptr(),
            slides.bits.len(),
            slides.work.as_mut_ptr(),
            slides.work.len(),
            slides.room.as_mut_ptr(),
            slides.room.len(),
        )
    };
}
