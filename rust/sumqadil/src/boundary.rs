//! The functions of `include/sumqadil.h`, which says what each gives.

extern "C" {
    pub fn sumqadil_measure(src: *const u8, count: usize, length: &mut usize, place: &mut usize) -> u8;

    pub fn sumqadil_count_rows(src: *const u8, count: usize, rows: &mut usize, place: &mut usize) -> u8;

    pub fn sumqadil_check_frame(
        src: *const u8,
        count: usize,
        rows: &mut usize,
        conversation: &mut i32,
        from: &mut usize,
        place: &mut usize,
    ) -> u8;

    pub fn sumqadil_read_message(
        src: *const u8,
        count: usize,
        ty: *mut i32,
        ty_count: usize,
        own: *mut u8,
        own_count: usize,
        label: *mut u32,
        label_count: usize,
        number: *mut i64,
        number_count: usize,
        first: *mut i32,
        first_count: usize,
        second: *mut i32,
        second_count: usize,
        contents: *mut u32,
        contents_count: usize,
        below: *mut u32,
        below_count: usize,
        start: *mut u32,
        start_count: usize,
        end: *mut u32,
        end_count: usize,
        rows: &mut usize,
        place: &mut usize,
    ) -> u8;

    pub fn sumqadil_read_frame(
        src: *const u8,
        count: usize,
        ty: *mut i32,
        ty_count: usize,
        own: *mut u8,
        own_count: usize,
        label: *mut u32,
        label_count: usize,
        number: *mut i64,
        number_count: usize,
        first: *mut i32,
        first_count: usize,
        second: *mut i32,
        second_count: usize,
        contents: *mut u32,
        contents_count: usize,
        below: *mut u32,
        below_count: usize,
        start: *mut u32,
        start_count: usize,
        end: *mut u32,
        end_count: usize,
        rows: &mut usize,
        conversation: &mut i32,
        from: &mut usize,
        place: &mut usize,
    ) -> u8;

    pub fn sumqadil_ask(ty: i32, number: i64, what: u8, value: &mut i64) -> u8;
}
