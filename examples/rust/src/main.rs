//! One endpoint protects a frame, another one validates it, as the calls of macsec.h that end in `_raw` do it.
use std::ffi::c_void;

#[repr(C)]
struct Endpoint(*mut c_void);

#[repr(C)]
struct Sent { frame: *const u8, length: usize, status: u32, fate: u32, key: u16, reserved: [u64; 4] }

#[repr(C)]
struct Received {
    frame: *const u8, length: usize, status: u32, verdict: u32, sci: [u8; 8], an: u8, has_sa: bool, delivered: bool,
    pn: u64, reserved: [u64; 2],
}

extern "C" {
    fn macsec_configure_raw(e: *mut Endpoint, text: *const u8, length: usize, line: *mut u32) -> u32;
    fn macsec_free_raw(e: *mut Endpoint);
    fn macsec_send_raw(e: *mut Endpoint, frame: *const u8, length: usize, out: *mut Sent) -> u32;
    fn macsec_receive_raw(e: *mut Endpoint, frame: *const u8, length: usize, out: *mut Received) -> u32;
}

const KEY: &str = "A key 0 ad7a2bd03eac835a6f620fdcb506b345 0\n"; // a published test key

/// Creates the endpoint of a configuration.
fn made(text: &str) -> Endpoint {
    let (mut e, mut line) = (Endpoint(std::ptr::null_mut()), 0);
    let status = unsafe { macsec_configure_raw(&mut e, text.as_ptr(), text.len(), &mut line) };
    assert_eq!(status, 0, "line {line}");
    e
}

fn main() {
    let (a, b) = ("1215352400000001", "1215352400000002");
    let mut sender = made(&format!("end A gcm128 {a} 1518 sci\n{KEY}A txsa 0 0 1 conf\nA txon 0\n"));
    let receives = format!("A rxsc {a}\nA rxsa {a} 0 0 1\nA rxon {a} 0\n");
    let mut receiver = made(&format!("end A gcm128 {b} 1518 sci\n{KEY}{receives}"));
    let frame = [b"\x02\0\0\0\0\x09\x02\0\0\0\0\x08\x88\xb5".as_slice(), b"good morning"].concat();
    let mut sent = Sent { frame: frame.as_ptr(), length: 0, status: 0, fate: 0, key: 0, reserved: [0; 4] };
    let mut got: Received = unsafe { std::mem::zeroed() };
    got.frame = frame.as_ptr();
    unsafe {
        macsec_send_raw(&mut sender, frame.as_ptr(), frame.len(), &mut sent);
        macsec_receive_raw(&mut receiver, sent.frame, sent.length, &mut got);
        let text = std::str::from_utf8(&std::slice::from_raw_parts(got.frame, got.length)[14..]).unwrap();
        println!("{} octets sent, verdict {}: {text}", sent.length, got.verdict);
        macsec_free_raw(&mut sender);
        macsec_free_raw(&mut receiver);
    }
}
