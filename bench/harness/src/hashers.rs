//! The implementations of SHA-256 that are compared, ours first.

use std::ffi::CStr;
use std::os::raw::{c_char, c_int, c_void};

pub struct Hasher {
    pub name: &'static str,
    pub hash: fn(&[u8]) -> [u8; 32],
}

pub const HASHERS: [Hasher; 3] = [
    Hasher {
        name: "ours",
        hash: ours,
    },
    Hasher {
        name: "sha2, software",
        hash: sha2_software,
    },
    Hasher {
        name: "OpenSSL",
        hash: openssl,
    },
];

#[link(name = "exports", kind = "static")]
extern "C" {
    fn sizhvelar_sha256(message: *const u8, length: usize, digest: *mut [u8; 32]);
}

/// The state that OpenSSL's three calls share: `SHA256_CTX` of <openssl/sha.h>.
#[repr(C)]
struct OpensslState {
    h: [u32; 8],
    length: [u32; 2],
    data: [u32; 16],
    count: u32,
    digest_length: u32,
}

#[link(name = "crypto")]
extern "C" {
    fn SHA256_Init(state: *mut OpensslState) -> c_int;
    fn SHA256_Update(state: *mut OpensslState, message: *const c_void, length: usize) -> c_int;
    fn SHA256_Final(digest: *mut [u8; 32], state: *mut OpensslState) -> c_int;
    fn OPENSSL_info(kind: c_int) -> *const c_char;
    fn OpenSSL_version(kind: c_int) -> *const c_char;
}

fn ours(message: &[u8]) -> [u8; 32] {
    let mut digest = [0; 32];
    unsafe { sizhvelar_sha256(message.as_ptr(), message.len(), &mut digest) };
    digest
}

fn sha2_software(message: &[u8]) -> [u8; 32] {
    use sha2::Digest;
    sha2::Sha256::digest(message).into()
}

/// By the calls that go straight to the hash: OpenSSL's EVP calls cost far more on a short message.
fn openssl(message: &[u8]) -> [u8; 32] {
    let mut state = std::mem::MaybeUninit::uninit();
    let mut digest = [0; 32];
    unsafe {
        SHA256_Init(state.as_mut_ptr());
        SHA256_Update(state.as_mut_ptr(), message.as_ptr().cast(), message.len());
        SHA256_Final(&mut digest, state.as_mut_ptr());
    }
    digest
}

/// OpenSSL's version, and whether it uses the processor's SHA instructions.
pub fn openssl_says() -> String {
    const VERSION: c_int = 0;
    const CPU_SETTINGS: c_int = 1008;
    let version = unsafe { text(OpenSSL_version(VERSION)) };
    let settings = unsafe { text(OPENSSL_info(CPU_SETTINGS)) };
    let used = match sha_bit(&settings) {
        Some(true) => "used",
        Some(false) => "not used",
        None => "perhaps used",
    };
    format!("{version}: SHA instructions {used}")
}

/// The bit of the SHA instructions in settings such as `OPENSSL_ia32cap=0x7ed8320b078bffff:0x209c01a9`: bit 29 of the second
/// number, which is leaf 7 of CPUID.
fn sha_bit(settings: &str) -> Option<bool> {
    let second = settings.split(|c| c == ':' || c == ' ').nth(1)?;
    let bits = u64::from_str_radix(second.strip_prefix("0x")?, 16).ok()?;
    Some(bits >> 29 & 1 == 1)
}

unsafe fn text(from: *const c_char) -> String {
    if from.is_null() {
        return String::new();
    }
    CStr::from_ptr(from).to_string_lossy().into_owned()
}
