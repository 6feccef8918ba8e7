//! Stands in for cpufeatures 0.3: `new!` makes the token of a detection at run time, by std.
//!
//! polyval calls `new!` inside the module of its intrinsics, so what the macro adds there can reach the
//! stored key and the accumulator, which are private, and stands before the names that the module imports by
//! `*`. It adds two functions on `Polyval`, by which the oracle stores and reads any record, and puts a
//! counting product in the place of the CPU's: the count of multiplies is then the crate's own.
#![no_std]

pub extern crate std;

use core::sync::atomic::{AtomicU64, Ordering};

static MULTIPLIES: AtomicU64 = AtomicU64::new(0);

/// Called by the product below, once for each.
pub fn count_multiply() {
    MULTIPLIES.fetch_add(1, Ordering::Relaxed);
}

/// The carryless products of 64 by 64 bits since the last call.
pub fn multiplies() -> u64 {
    MULTIPLIES.swap(0, Ordering::Relaxed)
}

#[macro_export]
macro_rules! new {
    ($module:ident, $($feature:tt),+) => {
        mod $module {
            #[derive(Copy, Clone)]
            pub struct InitToken(bool);

            impl InitToken {
                pub fn get(&self) -> bool {
                    self.0
                }

                pub fn init_get() -> (InitToken, bool) {
                    #[cfg(target_arch = "aarch64")]
                    let found = true $(&& $crate::std::arch::is_aarch64_feature_detected!($feature))+;
                    #[cfg(target_arch = "x86_64")]
                    let found = true $(&& $crate::std::arch::is_x86_feature_detected!($feature))+;
                    (InitToken(found), found)
                }
            }
        }

        $crate::reach_record! {}
        $crate::count_products! {}
    };
}

#[doc(hidden)]
#[macro_export]
macro_rules! reach_record {
    () => {
        impl crate::Polyval {
            /// The key that the crate expands from `h`, in the order h1 d1 h2 d2 h3 d3 h4 d4; none where the
            /// CPU lacks the instructions, since the crate then expands none.
            pub fn expanded(h: &[u8; 16]) -> Option<[FieldElement; 8]> {
                if !InitToken::init_get().1 {
                    return None;
                }
                // SAFETY: the features were just found
                let key = unsafe { expand_key(h) };
                Some([
                    key.h1, key.d1, key.h2, key.d2, key.h3, key.d3, key.h4, key.d4,
                ])
            }

            /// A hash in progress with this key and accumulator, whatever they hold.
            pub fn stored(key: &[FieldElement; 8], acc: FieldElement) -> Self {
                let [h1, d1, h2, d2, h3, d3, h4, d4] = *key;
                let expanded_key = ExpandedKey {
                    h1,
                    d1,
                    h2,
                    d2,
                    h3,
                    d3,
                    h4,
                    d4,
                };
                let (init_token, _) = InitToken::init_get();
                Self {
                    state: super::State {
                        expanded_key,
                        acc,
                        init_token,
                    },
                }
            }
        }
    };
}

#[cfg(target_arch = "aarch64")]
#[doc(hidden)]
#[macro_export]
macro_rules! count_products {
    () => {
        #[target_feature(enable = "neon", enable = "aes")]
        unsafe fn vmull_p64(a: u64, b: u64) -> u128 {
            $crate::count_multiply();
            core::arch::aarch64::vmull_p64(a, b)
        }
    };
}

#[cfg(target_arch = "x86_64")]
#[doc(hidden)]
#[macro_export]
macro_rules! count_products {
    () => {
        #[target_feature(enable = "avx", enable = "pclmulqdq")]
        unsafe fn _mm_clmulepi64_si128(a: __m128i, b: __m128i, halves: i32) -> __m128i {
            $crate::count_multiply();
            match halves {
                0x00 => core::arch::x86_64::_mm_clmulepi64_si128::<0x00>(a, b),
                0x01 => core::arch::x86_64::_mm_clmulepi64_si128::<0x01>(a, b),
                0x10 => core::arch::x86_64::_mm_clmulepi64_si128::<0x10>(a, b),
                _ => core::arch::x86_64::_mm_clmulepi64_si128::<0x11>(a, b),
            }
        }
    };
}
