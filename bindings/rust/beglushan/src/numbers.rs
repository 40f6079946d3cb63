//! What numbers are of, and who holds one.

use crate::pool::{Lent, Pool};
use crate::slot::SlotOf;
use crate::workers::{Stay, Workers};
use std_alloc::sync::Arc;

/// What numbers are of, and arrays are made for: a [`Pool`] or [`Workers`], by reference or by a count.
pub trait Numbers: sealed::Numbers {}

impl Numbers for Pool {}
impl Numbers for Workers {}
impl<N: Numbers + ?Sized> Numbers for Arc<N> {}
impl<N: Numbers + ?Sized> Numbers for &N {}

/// The guard of a number: a [`Slot`](crate::Slot), an [`OwnedSlot`](crate::OwnedSlot) or a [`Stay`].
///
/// `Slots` lends each element once because no two guards of one pool have the same number. So no other type can have this.
pub trait Holder: sealed::Holder {}

impl<P: Lent> Holder for SlotOf<P> {}
impl Holder for Stay<'_> {}

pub(crate) mod sealed {
    use super::{Arc, Lent, Pool, SlotOf, Stay, Workers};

    pub trait Numbers {
        fn key(&self) -> usize;
        fn count(&self) -> usize;
    }

    pub trait Holder {
        /// What the number is of.
        fn key(&self) -> usize;
        /// The number less one.
        fn place(&self) -> usize;
    }

    impl Numbers for Pool {
        fn key(&self) -> usize {
            Pool::key(self)
        }

        fn count(&self) -> usize {
            self.capacity()
        }
    }

    impl Numbers for Workers {
        fn key(&self) -> usize {
            Workers::key(self)
        }

        fn count(&self) -> usize {
            self.capacity()
        }
    }

    impl<N: Numbers + ?Sized> Numbers for Arc<N> {
        fn key(&self) -> usize {
            (**self).key()
        }

        fn count(&self) -> usize {
            (**self).count()
        }
    }

    impl<N: Numbers + ?Sized> Numbers for &N {
        fn key(&self) -> usize {
            (**self).key()
        }

        fn count(&self) -> usize {
            (**self).count()
        }
    }

    impl<P: Lent> Holder for SlotOf<P> {
        #[inline(always)]
        fn key(&self) -> usize {
            self.pool().key()
        }

        #[inline(always)]
        fn place(&self) -> usize {
            self.index()
        }
    }

    impl Holder for Stay<'_> {
        #[inline(always)]
        fn key(&self) -> usize {
            Stay::key(self)
        }

        #[inline(always)]
        fn place(&self) -> usize {
            self.index()
        }
    }
}
