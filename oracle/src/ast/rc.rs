//! `Rc`: compared and hashed by address, as the published pool documents it ("allows `Rc` values
//! to be safely compared and hashed by reference"). An `Arc` inside, since the published pool is
//! shared between threads.
use std::{
    hash::{Hash, Hasher},
    ops::Deref,
    sync::Arc,
};

pub struct Rc<T: ?Sized>(Arc<T>);

impl<T> Rc<T> {
    pub fn new(v: T) -> Self {
        Rc(Arc::new(v))
    }
}
impl<T: ?Sized> Clone for Rc<T> {
    fn clone(&self) -> Self {
        Rc(self.0.clone())
    }
}
impl<T: ?Sized> PartialEq for Rc<T> {
    fn eq(&self, o: &Self) -> bool {
        Arc::ptr_eq(&self.0, &o.0)
    }
}
impl<T: ?Sized> Eq for Rc<T> {}
impl<T: ?Sized> Hash for Rc<T> {
    fn hash<H: Hasher>(&self, h: &mut H) {
        Arc::as_ptr(&self.0).hash(h)
    }
}
impl<T: ?Sized> Deref for Rc<T> {
    type Target = T;
    fn deref(&self) -> &T {
        &self.0
    }
}
impl<T: ?Sized> AsRef<T> for Rc<T> {
    fn as_ref(&self) -> &T {
        &self.0
    }
}
