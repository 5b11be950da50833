//! The library's functions, as `include/uluvoli.h` declares them.

extern "C" {
    pub fn uluvoli_new(
        card: *mut u8,
        card_len: usize,
        system: u16,
        version: u16,
        join: bool,
    ) -> u32;

    pub fn uluvoli_add_area(
        card: *mut u8,
        card_len: usize,
        depth: u32,
        code: u16,
        end: u16,
        version: u16,
    ) -> u32;

    pub fn uluvoli_add_service(
        card: *mut u8,
        card_len: usize,
        arena: *mut u8,
        arena_len: usize,
        depth: u32,
        code: u16,
        blocks: u32,
        version: u16,
    ) -> u32;

    pub fn uluvoli_set_limit(
        card: *mut u8,
        card_len: usize,
        upper: i32,
        lower: i32,
        generation: u8,
    ) -> u32;

    pub fn uluvoli_set_block(
        card: *const u8,
        card_len: usize,
        arena: *mut u8,
        arena_len: usize,
        code: u16,
        number: u32,
        block: *const u8,
        block_len: usize,
    ) -> u32;

    pub fn uluvoli_read(
        card: *const u8,
        card_len: usize,
        arena: *const u8,
        arena_len: usize,
        out: *mut u8,
        out_len: usize,
        open: bool,
        codes: *const u16,
        codes_len: usize,
        count: u32,
        list: *const u8,
        list_len: usize,
    ) -> u32;

    pub fn uluvoli_write(
        card: *const u8,
        card_len: usize,
        arena: *mut u8,
        arena_len: usize,
        staging: *mut u8,
        staging_len: usize,
        open: bool,
        codes: *const u16,
        codes_len: usize,
        count: u32,
        list: *const u8,
        list_len: usize,
        data: *const u8,
        data_len: usize,
    ) -> u32;

    pub fn uluvoli_board(
        card: *const u8,
        card_len: usize,
        arena: *const u8,
        arena_len: usize,
        code: u16,
        lanes: *mut u8,
        lanes_len: usize,
    ) -> u32;

    pub fn uluvoli_directory(
        card: *const u8,
        card_len: usize,
        out: *mut u16,
        out_len: usize,
        nodes: *mut usize,
    ) -> u32;

    pub fn uluvoli_total(card: *const u8, card_len: usize, code: u16, blocks: *mut u16) -> u32;

    pub fn uluvoli_key_version(
        card: *const u8,
        card_len: usize,
        code: u16,
        version: *mut u16,
    ) -> u32;

    pub fn uluvoli_area_list(
        card: *const u8,
        card_len: usize,
        areas: *const u16,
        areas_len: usize,
        well_formed: *mut bool,
    ) -> u32;

    pub fn uluvoli_service_list(
        card: *const u8,
        card_len: usize,
        services: *const u16,
        services_len: usize,
        well_formed: *mut bool,
    ) -> u32;

    pub fn uluvoli_stored_block(
        card: *const u8,
        card_len: usize,
        arena: *const u8,
        arena_len: usize,
        code: u16,
        number: u32,
        offset: *mut usize,
    ) -> u32;

    pub fn uluvoli_code_list(
        card: *const u8,
        card_len: usize,
        parent: u16,
        packet: u32,
        out: *mut u8,
        out_len: usize,
        bytes: *mut usize,
    ) -> u32;

    pub fn uluvoli_block_information(
        card: *const u8,
        card_len: usize,
        arena: *const u8,
        arena_len: usize,
        codes: *const u16,
        codes_len: usize,
        out: *mut u8,
        out_len: usize,
        bytes: *mut usize,
    ) -> u32;

    pub fn uluvoli_read_code_list(
        message: *const u8,
        message_len: usize,
        areas: *mut u16,
        areas_len: usize,
        services: *mut u16,
        services_len: usize,
        area_count: *mut usize,
        service_count: *mut usize,
        more: *mut bool,
    ) -> u32;

    pub fn uluvoli_read_block_information(
        message: *const u8,
        message_len: usize,
        assigned: *mut u16,
        assigned_len: usize,
        free_blocks: *mut u16,
        free_blocks_len: usize,
        nodes: *mut usize,
    ) -> u32;
}
