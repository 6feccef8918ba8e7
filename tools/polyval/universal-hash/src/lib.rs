//! Stands in for universal-hash 0.6: the types and traits that polyval names, and the loop of `update`,
//! which hands fours to `proc_par_blocks` from the front and the rest to `proc_block`.
#![no_std]

use core::ops::Index;

pub trait ArraySize {
    type ArrayType<T>;
    const USIZE: usize;
}

pub mod consts {
    pub struct U4;
    pub struct U16;

    impl super::ArraySize for U4 {
        type ArrayType<T> = [T; 4];
        const USIZE: usize = 4;
    }

    impl super::ArraySize for U16 {
        type ArrayType<T> = [T; 16];
        const USIZE: usize = 16;
    }
}

#[repr(transparent)]
pub struct Array<T, U: ArraySize>(pub U::ArrayType<T>);

impl<T, U: ArraySize> Clone for Array<T, U>
where
    U::ArrayType<T>: Clone,
{
    fn clone(&self) -> Self {
        Array(self.0.clone())
    }
}

impl<T, U: ArraySize> Copy for Array<T, U> where U::ArrayType<T>: Copy {}

impl<T> From<Array<T, consts::U16>> for [T; 16] {
    fn from(array: Array<T, consts::U16>) -> Self {
        array.0
    }
}

impl<T> From<[T; 16]> for Array<T, consts::U16> {
    fn from(items: [T; 16]) -> Self {
        Array(items)
    }
}

impl<T> Index<usize> for Array<T, consts::U4> {
    type Output = T;

    fn index(&self, i: usize) -> &T {
        &self.0[i]
    }
}

impl<'a, T> IntoIterator for &'a Array<T, consts::U4> {
    type Item = &'a T;
    type IntoIter = core::slice::Iter<'a, T>;

    fn into_iter(self) -> Self::IntoIter {
        self.0.iter()
    }
}

pub mod common {
    use super::ArraySize;

    pub trait BlockSizeUser {
        type BlockSize: ArraySize;
    }

    pub trait KeySizeUser {
        type KeySize: ArraySize;
    }

    pub trait ParBlocksSizeUser: BlockSizeUser {
        type ParBlocksSize: ArraySize;
    }
}

use common::{BlockSizeUser, KeySizeUser, ParBlocksSizeUser};

pub type Block<B> = Array<u8, <B as BlockSizeUser>::BlockSize>;
pub type Key<B> = Array<u8, <B as KeySizeUser>::KeySize>;
pub type ParBlocks<B> = Array<Block<B>, <B as ParBlocksSizeUser>::ParBlocksSize>;

pub trait KeyInit: KeySizeUser + Sized {
    fn new(key: &Key<Self>) -> Self;
}

pub trait Reset {
    fn reset(&mut self);
}

pub trait UhfBackend: ParBlocksSizeUser {
    fn proc_block(&mut self, block: &Block<Self>);
    fn proc_par_blocks(&mut self, blocks: &ParBlocks<Self>);
}

pub trait UhfClosure: BlockSizeUser {
    fn call<B: UhfBackend<BlockSize = Self::BlockSize>>(self, backend: &mut B);
}

pub trait UniversalHash: BlockSizeUser + Sized {
    fn update_with_backend(&mut self, f: impl UhfClosure<BlockSize = Self::BlockSize>);

    fn finalize(self) -> Block<Self>;

    fn update(&mut self, blocks: &[Block<Self>]) {
        self.update_with_backend(InFours { blocks });
    }
}

/// What `update` does with the blocks it is given.
struct InFours<'a, BS: ArraySize> {
    blocks: &'a [Array<u8, BS>],
}

impl<BS: ArraySize> BlockSizeUser for InFours<'_, BS> {
    type BlockSize = BS;
}

impl<BS: ArraySize> UhfClosure for InFours<'_, BS> {
    fn call<B: UhfBackend<BlockSize = BS>>(self, backend: &mut B) {
        let groups = self.blocks.chunks_exact(B::ParBlocksSize::USIZE);
        let rest = groups.remainder();
        for group in groups {
            // SAFETY: ParBlocks is a transparent array of as many blocks as the group has
            backend.proc_par_blocks(unsafe { &*group.as_ptr().cast::<ParBlocks<B>>() });
        }
        for block in rest {
            backend.proc_block(block);
        }
    }
}
