//! The C interface's functions, as include/malstrink.h has them. Nothing of it is public.
//!
//! Every call is safe on every value of its arguments, as long as a pointer and the length beside it are those of a slice, lent for
//! writing where the pointer is `*mut`: no call keeps a pointer or goes outside its slices. The callers in this crate take both from
//! one slice.
pub use crate::records::*;

extern "C" {
    pub fn malstrink_checksum8(bytes: *const u8, n: usize) -> u8;
    pub fn malstrink_crc16(bytes: *const u8, n: usize) -> u16;

    pub fn malstrink_address_pd(addr: u8) -> Answer;
    pub fn malstrink_address_reply(addr: u8) -> Answer;
    pub fn malstrink_sqn_new(n: u8) -> Answer;
    pub fn malstrink_sqn_next(n: u8) -> Answer;
    pub fn malstrink_control_decode(byte: u8) -> Control;
    pub fn malstrink_control_encode(sqn: u8, crc: bool, block: bool) -> Answer;
    pub fn malstrink_scs_type(byte: u8) -> Answer;

    pub fn malstrink_block(bytes: *const u8, n: usize) -> Block;
    pub fn malstrink_head(bytes: *const u8, n: usize) -> Head;
    pub fn malstrink_parse(bytes: *const u8, n: usize) -> Parsed;
    pub fn malstrink_read_body(code: u8, payload: *const u8, n: usize) -> Body;
    pub fn malstrink_triple(code: u8, payload: *const u8, n: usize, i: usize) -> Triple;
    pub fn malstrink_build(
        p: Packet,
        block: *const u8,
        block_n: usize,
        data: *const u8,
        data_n: usize,
        mac: Mac,
        out: *mut u8,
        out_n: usize,
    ) -> Answer;
    pub fn malstrink_build_body(
        p: Packet,
        block: *const u8,
        block_n: usize,
        data: *const u8,
        data_n: usize,
        out: *mut u8,
        out_n: usize,
    ) -> Answer;

    pub fn malstrink_aes_encrypt(key: Bytes16, block: Bytes16) -> Bytes16;
    pub fn malstrink_aes_decrypt(key: Bytes16, block: Bytes16) -> Bytes16;
    pub fn malstrink_derive(scbk: Bytes16, rnd_a: Bytes8) -> Keys;
    pub fn malstrink_client_cryptogram(s_enc: Bytes16, rnd_a: Bytes8, rnd_b: Bytes8) -> Bytes16;
    pub fn malstrink_server_cryptogram(s_enc: Bytes16, rnd_a: Bytes8, rnd_b: Bytes8) -> Bytes16;
    pub fn malstrink_initial_rmac(s_mac1: Bytes16, s_mac2: Bytes16, server: Bytes16) -> Bytes16;
    pub fn malstrink_diversify_scbk_legacy(mk: Bytes16, cuid: Bytes8) -> Bytes16;

    pub fn malstrink_pad_mac(data: *const u8, data_n: usize, out: *mut u8, out_n: usize) -> Answer;
    pub fn malstrink_pad_data(data: *const u8, data_n: usize, out: *mut u8, out_n: usize) -> Answer;
    pub fn malstrink_unpad_data(bytes: *const u8, n: usize) -> Answer;
    pub fn malstrink_complement_icv(mac: Bytes16) -> Bytes16;
    pub fn malstrink_cbc_mac(input: *const u8, n: usize, icv: Bytes16, s_mac1: Bytes16, s_mac2: Bytes16) -> Chain;
    pub fn malstrink_encrypt_data(
        s_enc: Bytes16,
        iv: Bytes16,
        data: *const u8,
        data_n: usize,
        out: *mut u8,
        out_n: usize,
    ) -> Ciphered;
    pub fn malstrink_decrypt_data(
        s_enc: Bytes16,
        iv: Bytes16,
        data: *const u8,
        data_n: usize,
        out: *mut u8,
        out_n: usize,
    ) -> Ciphered;

    pub fn malstrink_session_new(scbk: Bytes16) -> Session;
    pub fn malstrink_session_new_reader(scbk: Bytes16, cuid: Bytes8) -> Session;
    // for the tests alone: it takes a copy of the keys
    #[cfg(test)]
    pub fn malstrink_session_wipe(s: Session) -> Session;
    pub fn malstrink_session_challenge(s: Session, rnd_a: Bytes8) -> Stepped;
    pub fn malstrink_session_receive_ccrypt(s: Session, cuid: Bytes8, rnd_b: Bytes8, client: Bytes16) -> Stepped;
    pub fn malstrink_session_server_cryptogram(s: Session) -> BlockAnswer;
    pub fn malstrink_session_initial_rmac(s: Session) -> BlockAnswer;
    pub fn malstrink_session_confirm_rmac_i(s: Session, rmac_i: Bytes16) -> Stepped;
    pub fn malstrink_session_receive_challenge(s: Session, rnd_a: Bytes8, rnd_b: Bytes8) -> SteppedBlock;
    pub fn malstrink_session_receive_scrypt(s: Session, server: Bytes16) -> SteppedBlock;
    pub fn malstrink_session_mac(s: Session, bytes: *const u8, n: usize) -> SteppedBlock;
    pub fn malstrink_session_verify(s: Session, bytes: *const u8, n: usize, wire_mac: Bytes4) -> Stepped;
    pub fn malstrink_session_keys(s: Session) -> KeysAnswer;
    pub fn malstrink_session_last_other_mac(s: Session) -> BlockAnswer;
    pub fn malstrink_session_seal_data(
        s: Session,
        data: *const u8,
        data_n: usize,
        out: *mut u8,
        out_n: usize,
    ) -> Ciphered;
    pub fn malstrink_session_open_data(
        s: Session,
        data: *const u8,
        data_n: usize,
        out: *mut u8,
        out_n: usize,
    ) -> Ciphered;

    pub fn malstrink_seal(s: Session, p: ToSeal, data: *const u8, data_n: usize, out: *mut u8, out_n: usize) -> Sealed;
    pub fn malstrink_unseal(s: Session, frame: *const u8, frame_n: usize, work: *mut u8, work_n: usize) -> Unsealed;
    pub fn malstrink_payload_test(
        frame: *const u8,
        frame_n: usize,
        work: *const u8,
        work_n: usize,
        in_work: bool,
        start: usize,
        len: usize,
    ) -> Answer;
}
