//! A stand-in for the crate `intl-memoizer`: formatters of one language, each kept by its type and its arguments.
//!
//! No call panics: a formatter is shared while a closure has it, so that the closure may ask for others.

use crate::unic_langid::LanguageIdentifier;
use std::hash::Hash;

/// A formatter that can be kept.
pub trait Memoizable {
    /// What it is made of.
    type Args: 'static + Eq + Hash + Clone;
    /// Why it can't be made.
    type Error;

    /// Makes it for a language.
    fn construct(lang: LanguageIdentifier, args: Self::Args) -> Result<Self, Self::Error>
    where
        Self: Sized;
}

/// The store of a bundle of one thread.
pub use single::IntlLangMemoizer;

mod single {
    use super::{LanguageIdentifier, Memoizable};
    use std::any::{Any, TypeId};
    use std::cell::RefCell;
    use std::collections::HashMap;
    use std::rc::Rc;

    /// Formatters of a language, for one thread.
    pub struct IntlLangMemoizer {
        lang: LanguageIdentifier,
        made: RefCell<HashMap<TypeId, Box<dyn Any>>>,
    }

    type ByArgs<I> = HashMap<<I as Memoizable>::Args, Rc<I>>;

    impl IntlLangMemoizer {
        /// None yet.
        pub fn new(lang: LanguageIdentifier) -> Self {
            Self {
                lang,
                made: RefCell::default(),
            }
        }

        /// Calls a closure with the formatter of some arguments, which is made where there is none yet.
        pub fn with_try_get<I, R, U>(&self, args: I::Args, callback: U) -> Result<R, I::Error>
        where
            I: Memoizable + 'static,
            U: FnOnce(&I) -> R,
        {
            if let Some(kept) = self.kept::<I>(&args) {
                return Ok(callback(&kept));
            }
            let new = Rc::new(I::construct(self.lang.clone(), args.clone())?);
            self.keep(args, new.clone());
            Ok(callback(&new))
        }

        fn kept<I: Memoizable + 'static>(&self, args: &I::Args) -> Option<Rc<I>> {
            let made = self.made.borrow();
            let by_args = made.get(&TypeId::of::<I>())?;
            by_args.downcast_ref::<ByArgs<I>>()?.get(args).cloned()
        }

        fn keep<I: Memoizable + 'static>(&self, args: I::Args, new: Rc<I>) {
            let mut made = self.made.borrow_mut();
            let by_args = made
                .entry(TypeId::of::<I>())
                .or_insert_with(|| Box::new(ByArgs::<I>::new()));
            if let Some(by_args) = by_args.downcast_mut::<ByArgs<I>>() {
                by_args.insert(args, new);
            }
        }
    }
}

/// The same between threads.
pub mod concurrent {
    use super::{LanguageIdentifier, Memoizable};
    use std::any::{Any, TypeId};
    use std::collections::HashMap;
    use std::sync::{Arc, Mutex, MutexGuard, PoisonError};

    type Made = HashMap<TypeId, Box<dyn Any + Send>>;
    type ByArgs<I> = HashMap<<I as Memoizable>::Args, Arc<I>>;

    /// Formatters of a language, for several threads.
    pub struct IntlLangMemoizer {
        lang: LanguageIdentifier,
        made: Mutex<Made>,
    }

    impl IntlLangMemoizer {
        /// None yet.
        pub fn new(lang: LanguageIdentifier) -> Self {
            Self {
                lang,
                made: Mutex::default(),
            }
        }

        /// Calls a closure with the formatter of some arguments, which is made where there is none yet.
        pub fn with_try_get<I, R, U>(&self, args: I::Args, callback: U) -> Result<R, I::Error>
        where
            I: Memoizable + Send + Sync + 'static,
            I::Args: Send + Sync + 'static,
            U: FnOnce(&I) -> R,
        {
            if let Some(kept) = self.kept::<I>(&args) {
                return Ok(callback(&kept));
            }
            let new = Arc::new(I::construct(self.lang.clone(), args.clone())?);
            self.keep(args, new.clone());
            Ok(callback(&new))
        }

        /// What was made. A thread that panicked in an equality of arguments left no half of a map.
        fn made(&self) -> MutexGuard<'_, Made> {
            self.made.lock().unwrap_or_else(PoisonError::into_inner)
        }

        fn kept<I>(&self, args: &I::Args) -> Option<Arc<I>>
        where
            I: Memoizable + Send + Sync + 'static,
        {
            let made = self.made();
            let by_args = made.get(&TypeId::of::<I>())?;
            by_args.downcast_ref::<ByArgs<I>>()?.get(args).cloned()
        }

        fn keep<I>(&self, args: I::Args, new: Arc<I>)
        where
            I: Memoizable + Send + Sync + 'static,
            I::Args: Send + Sync + 'static,
        {
            let mut made = self.made();
            let by_args = made
                .entry(TypeId::of::<I>())
                .or_insert_with(|| Box::new(ByArgs::<I>::new()));
            if let Some(by_args) = by_args.downcast_mut::<ByArgs<I>>() {
                by_args.insert(args, new);
            }
        }
    }
}
