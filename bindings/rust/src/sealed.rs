//! Only this crate has ramps: what a [`Gradient`] lends passed the library's check, so that no call on it can panic.

use alloc::boxed::Box;

use crate::kinds::Parts;
use crate::{slices, Gradient};

pub trait Sealed {
    /// What an edit changes, of a ramp of stops that owns them.
    fn parts_mut(&mut self) -> Option<&mut Parts> {
        None
    }

    fn clone_boxed<'a>(&self) -> Box<dyn Gradient + 'a>
    where
        Self: 'a;
}

impl<G: Gradient + ?Sized> Sealed for &G {
    fn clone_boxed<'a>(&self) -> Box<dyn Gradient + 'a>
    where
        Self: 'a,
    {
        Box::new(*self)
    }
}

impl<G: Gradient + ?Sized> Gradient for &G {
    fn as_slices(&self) -> slices::Ramp<'_> {
        (**self).as_slices()
    }
}

impl<G: Gradient + ?Sized> Sealed for Box<G> {
    fn parts_mut(&mut self) -> Option<&mut Parts> {
        (**self).parts_mut()
    }

    fn clone_boxed<'a>(&self) -> Box<dyn Gradient + 'a>
    where
        Self: 'a,
    {
        (**self).clone_boxed()
    }
}

impl<G: Gradient + ?Sized> Gradient for Box<G> {
    fn as_slices(&self) -> slices::Ramp<'_> {
        (**self).as_slices()
    }
}

impl Clone for Box<dyn Gradient + '_> {
    fn clone(&self) -> Self {
        (**self).clone_boxed()
    }
}

/// Makes a type that lends slices which passed the check a [`Gradient`]; of stops, it says where these are.
macro_rules! is_gradient {
    ($name:ty, $ramp:ident => $slices:expr $(, edited in $parts:tt)?) => {
        impl $crate::sealed::Sealed for $name {
            $(
                fn parts_mut(&mut self) -> Option<&mut Parts> {
                    Some(&mut self.$parts)
                }
            )?

            fn clone_boxed<'a>(&self) -> alloc::boxed::Box<dyn $crate::Gradient + 'a>
            where
                Self: 'a,
            {
                alloc::boxed::Box::new(self.clone())
            }
        }

        impl $crate::Gradient for $name {
            fn as_slices(&self) -> $crate::slices::Ramp<'_> {
                let $ramp = self;
                $slices
            }
        }
    };
}
pub(crate) use is_gradient;
