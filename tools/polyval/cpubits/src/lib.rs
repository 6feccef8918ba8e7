//! Stands in for cpubits: `cpubits!` takes the 64-bit limbs, or with --cfg shim_bits="32" the 32-bit ones.
//!
//! polyval calls `cpubits!` inside its module `field_element`, so what the macro adds there can reach that
//! module's private word product. It adds one function by which the oracle calls it.
#![no_std]

#[cfg(not(shim_bits = "32"))]
#[macro_export]
macro_rules! cpubits {
    (16 | 32 => { $($narrow:tt)* } 64 => { $($wide:tt)* }) => {
        $($wide)*
        $crate::reach_word_product! {}
    };
}

#[cfg(shim_bits = "32")]
#[macro_export]
macro_rules! cpubits {
    (16 | 32 => { $($narrow:tt)* } 64 => { $($wide:tt)* }) => {
        $($narrow)*
        $crate::reach_word_product! {}
    };
}

#[doc(hidden)]
#[macro_export]
macro_rules! reach_word_product {
    () => {
        impl FieldElement {
            pub fn word_product_32(x: u32, y: u32) -> u32 {
                bmul(x, y, 0x1111_1111)
            }
        }
    };
}

#[macro_export]
macro_rules! cfg_if {
    (if #[cfg($condition:meta)] { $($then:item)* } else { $($otherwise:item)* }) => {
        $( #[cfg($condition)] $then )*
        $( #[cfg(not($condition))] $otherwise )*
    };
}
