//! The functions of `libskrapnefja.a`, as `include/skrapnefja.h` declares them.
//!
//! A slice is a pointer and a length; the pointer may not be null, also if the
//! length is 0. Each function gives 0 for done, or else the row of the
//! refusal. It sets `length`, `full_length`, `reserved`, and `combo` and
//! `threshold` of a label, only if it gives 0, and `at` only if it gives 5, 10,
//! or 13 for a broken segment. `skrapnefja_open_reader` sets the first 65 bytes
//! of `keys`, if there are as many, also with rows 4 and 9: to zeros. No buffer
//! or result, and no file that is mended, may overlap anything else that is
//! passed.

extern "C" {
    pub fn skrapnefja_open_label(
        raw_key: *const u8,
        raw_key_len: usize,
        label: *const u8,
        label_len: usize,
        combo: *mut u32,
        threshold: *mut u32,
        at: *mut u64,
    ) -> u32;

    pub fn skrapnefja_make_vault(
        enc: *const u8,
        enc_len: usize,
        mac: *const u8,
        mac_len: usize,
        combo: u32,
        threshold: u32,
        out: *mut u8,
        out_len: usize,
        length: *mut u64,
    ) -> u32;

    pub fn skrapnefja_write_header(
        vault: *const u8,
        vault_len: usize,
        nonce: *const u8,
        nonce_len: usize,
        content_key: *const u8,
        content_key_len: usize,
        out: *mut u8,
        out_len: usize,
        length: *mut u64,
    ) -> u32;

    pub fn skrapnefja_open_header(
        vault: *const u8,
        vault_len: usize,
        header: *const u8,
        header_len: usize,
        out: *mut u8,
        out_len: usize,
        length: *mut u64,
        reserved: *mut u64,
    ) -> u32;

    pub fn skrapnefja_write_chunk(
        vault: *const u8,
        vault_len: usize,
        content_key: *const u8,
        content_key_len: usize,
        header_nonce: *const u8,
        header_nonce_len: usize,
        number: u64,
        nonce: *const u8,
        nonce_len: usize,
        cleartext: *const u8,
        cleartext_len: usize,
        out: *mut u8,
        out_len: usize,
        length: *mut u64,
    ) -> u32;

    pub fn skrapnefja_open_chunk(
        vault: *const u8,
        vault_len: usize,
        content_key: *const u8,
        content_key_len: usize,
        header_nonce: *const u8,
        header_nonce_len: usize,
        number: u64,
        chunk: *const u8,
        chunk_len: usize,
        out: *mut u8,
        out_len: usize,
        length: *mut u64,
        at: *mut u64,
    ) -> u32;

    pub fn skrapnefja_write_file(
        vault: *const u8,
        vault_len: usize,
        header_nonce: *const u8,
        header_nonce_len: usize,
        content_key: *const u8,
        content_key_len: usize,
        chunk_nonces: *const u8,
        chunk_nonces_len: usize,
        cleartext: *const u8,
        cleartext_len: usize,
        out: *mut u8,
        out_len: usize,
        length: *mut u64,
    ) -> u32;

    pub fn skrapnefja_open_file(
        vault: *const u8,
        vault_len: usize,
        file: *const u8,
        file_len: usize,
        out: *mut u8,
        out_len: usize,
        length: *mut u64,
        at: *mut u64,
    ) -> u32;

    pub fn skrapnefja_read_range(
        vault: *const u8,
        vault_len: usize,
        file: *const u8,
        file_len: usize,
        from: u64,
        count: u64,
        out: *mut u8,
        out_len: usize,
        length: *mut u64,
        at: *mut u64,
    ) -> u32;

    pub fn skrapnefja_mend(
        vault: *const u8,
        vault_len: usize,
        file: *mut u8,
        file_len: usize,
        from: u64,
        new_bytes: *const u8,
        new_bytes_len: usize,
        nonces: *const u8,
        nonces_len: usize,
        length: *mut u64,
        at: *mut u64,
    ) -> u32;

    pub fn skrapnefja_open_reader(
        vault: *const u8,
        vault_len: usize,
        file: *const u8,
        file_len: usize,
        keys: *mut u8,
        keys_len: usize,
        length: *mut u64,
    ) -> u32;

    pub fn skrapnefja_reader_read(
        file: *const u8,
        file_len: usize,
        keys: *const u8,
        keys_len: usize,
        from: u64,
        count: u64,
        out: *mut u8,
        out_len: usize,
        length: *mut u64,
        at: *mut u64,
    ) -> u32;

    pub fn skrapnefja_write_name(
        vault: *const u8,
        vault_len: usize,
        dir_id: *const u8,
        dir_id_len: usize,
        name: *const u8,
        name_len: usize,
        stored: *mut u8,
        stored_len: usize,
        full: *mut u8,
        full_len: usize,
        length: *mut u64,
        full_length: *mut u64,
    ) -> u32;

    pub fn skrapnefja_open_name(
        vault: *const u8,
        vault_len: usize,
        dir_id: *const u8,
        dir_id_len: usize,
        stored: *const u8,
        stored_len: usize,
        out: *mut u8,
        out_len: usize,
        length: *mut u64,
        at: *mut u64,
    ) -> u32;

    pub fn skrapnefja_open_long_name(
        vault: *const u8,
        vault_len: usize,
        dir_id: *const u8,
        dir_id_len: usize,
        stored: *const u8,
        stored_len: usize,
        full: *const u8,
        full_len: usize,
        out: *mut u8,
        out_len: usize,
        length: *mut u64,
        at: *mut u64,
    ) -> u32;

    pub fn skrapnefja_dir_path(
        vault: *const u8,
        vault_len: usize,
        dir_id: *const u8,
        dir_id_len: usize,
        out: *mut u8,
        out_len: usize,
        length: *mut u64,
    ) -> u32;

    pub fn skrapnefja_file_length(
        vault: *const u8,
        vault_len: usize,
        cleartext_length: u64,
        length: *mut u64,
    ) -> u32;

    pub fn skrapnefja_cleartext_length(
        vault: *const u8,
        vault_len: usize,
        file_length: u64,
        length: *mut u64,
    ) -> u32;

    pub fn skrapnefja_wrap_key(
        kek: *const u8,
        kek_len: usize,
        key: *const u8,
        key_len: usize,
        out: *mut u8,
        out_len: usize,
        length: *mut u64,
    ) -> u32;

    pub fn skrapnefja_unwrap_key(
        kek: *const u8,
        kek_len: usize,
        wrapped_key: *const u8,
        wrapped_key_len: usize,
        out: *mut u8,
        out_len: usize,
        length: *mut u64,
    ) -> u32;
}
