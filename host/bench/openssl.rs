//! OpenSSL's SHA-256, from a library file that is loaded as the program runs.
//!
//! The library chooses its code when it is loaded: by what the processor offers, and by the
//! environment variable `OPENSSL_ia32cap`, which takes away from that. The loader takes one file as
//! one library, so two copies of it, loaded under two values, choose differently in one process.
//!
//! A hash is `SHA256_Init`, `SHA256_Update` and `SHA256_Final`. `SHA256` is not asked, since it
//! searches the algorithm by its name each time, which takes longer than a short hash.

use std::env;
use std::ffi::{CStr, CString};
use std::mem::{self, MaybeUninit};
use std::os::raw::{c_char, c_int, c_void};

use lotlog::Digest;

const VARIABLE: &str = "OPENSSL_ia32cap";

/// The value that leaves nothing but the code for every x86-64 processor. Behind `~` are bits to
/// clear, here 41 and 60, for SSSE3 and AVX; `:0` clears all from 64 on, "all post-AVX extensions".
const OFF: &str = "~0x1000020000000000:0";

/// The extensions by which the code for SHA-256 is chosen, and their bits, from the variable's
/// manual page.
const EXTENSIONS: [(&str, u32); 6] = [
    ("SSSE3", 41),
    ("AVX", 60),
    ("BMI1", 64 + 3),
    ("AVX2", 64 + 5),
    ("BMI2", 64 + 8),
    ("SHA", 64 + 29),
];

/// What `OpenSSL_version` is asked for: OPENSSL_VERSION and OPENSSL_CPU_INFO.
const RELEASE: c_int = 0;
const PROCESSOR: c_int = 9;

/// That all of a library's references are found as it is loaded, and none at its first call.
const RTLD_NOW: c_int = 2;

extern "C" {
    fn dlopen(file: *const c_char, mode: c_int) -> *mut c_void;
    fn dlsym(library: *mut c_void, name: *const c_char) -> *mut c_void;
}

/// SHA256_CTX: 8 words of state, 2 of length, 16 of a block, 2 counts.
type State = [u32; 28];

/// The functions of one load of the library.
pub struct OpenSsl {
    init: unsafe extern "C" fn(*mut State) -> c_int,
    update: unsafe extern "C" fn(*mut State, *const u8, usize) -> c_int,
    finish: unsafe extern "C" fn(*mut u8, *mut State) -> c_int,
    version: unsafe extern "C" fn(c_int) -> *const c_char,
}

/// The library with its extensions off, and with all that there are, from the two copies of it that
/// the program is given.
pub fn off_and_on() -> [OpenSsl; 2] {
    let files: Vec<String> = env::args().skip(1).collect();
    let [off, on] = <[String; 2]>::try_from(files).expect("two copies of OpenSSL's library");
    let off = OpenSsl::load(&off, Some(OFF));
    let on = OpenSsl::load(&on, None);
    assert!(off.extensions().is_empty(), "extensions that are off: {:?}", off.extensions());
    [off, on]
}

impl OpenSsl {
    /// Loads a copy of the library under a value of the variable, or with all that there is.
    fn load(file: &str, value: Option<&str>) -> OpenSsl {
        match value {
            Some(value) => env::set_var(VARIABLE, value),
            None => env::remove_var(VARIABLE),
        }
        let name = text(file);
        // Safe as far as OpenSSL's own start is, which this runs.
        let library = unsafe { dlopen(name.as_ptr(), RTLD_NOW) };
        assert!(!library.is_null(), "{} can't be loaded", file);
        // Safe since the types are those of OpenSSL's headers, and the library is never closed.
        unsafe {
            OpenSsl {
                init: mem::transmute(function(library, "SHA256_Init")),
                update: mem::transmute(function(library, "SHA256_Update")),
                finish: mem::transmute(function(library, "SHA256_Final")),
                version: mem::transmute(function(library, "OpenSSL_version")),
            }
        }
    }

    pub fn hash(&self, message: &[u8], digest: &mut Digest) {
        let mut room = MaybeUninit::<State>::uninit();
        let state = room.as_mut_ptr();
        // Safe since the room has the bytes of their state, which the first call writes, and a
        // digest its 32.
        let done = unsafe {
            (self.init)(state)
                & (self.update)(state, message.as_ptr(), message.len())
                & (self.finish)(digest.as_mut_ptr(), state)
        };
        assert_eq!(done, 1);
    }

    /// The release, as the library names it, and which extensions there are to be on.
    pub fn words(&self) -> String {
        let known = EXTENSIONS.map(|(name, _)| name).join(" ");
        let offered = match &self.extensions()[..] {
            [] => "none, so that on is the same code as off".to_string(),
            some => some.join(" "),
        };
        format!("{}; of {} the processor offers {}", self.told(RELEASE), known, offered)
    }

    /// The extensions of the table that this load goes by, as it tells itself.
    fn extensions(&self) -> Vec<&'static str> {
        let told = self.told(PROCESSOR);
        let bits = bits(&told).unwrap_or_else(|| panic!("not understood: {}", told));
        EXTENSIONS.iter().filter(|(_, bit)| bits >> bit & 1 == 1).map(|(name, _)| *name).collect()
    }

    fn told(&self, what: c_int) -> String {
        // Safe since the answer is a text that stays as long as the library.
        unsafe { CStr::from_ptr((self.version)(what)) }.to_string_lossy().into_owned()
    }
}

/// The bits in a text like "CPUINFO: OPENSSL_ia32cap=0xF:0x1 env:..", where the first number has
/// those from 0 on and the second those from 64 on.
fn bits(told: &str) -> Option<u128> {
    let (_, rest) = told.split_once("OPENSSL_ia32cap=")?;
    let mut numbers = rest.split([':', ' ']);
    let mut next = || u128::from_str_radix(numbers.next()?.trim_start_matches("0x"), 16).ok();
    Some(next()? | next()? << 64)
}

fn function(library: *mut c_void, name: &str) -> *mut c_void {
    // Safe since the library is loaded.
    let found = unsafe { dlsym(library, text(name).as_ptr()) };
    assert!(!found.is_null(), "the library has no {}", name);
    found
}

fn text(words: &str) -> CString {
    CString::new(words).expect("words without a zero byte")
}
