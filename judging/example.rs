//! A crate to read as an example: what is said of it stands in example.ask, and of what.

pub trait Named: Clone {}

pub trait Area<U = f64> {
    type Unit;
}

/// Its type has a bound, which is implied.
pub trait Solid: Area + Sized {
    type Face: Area;
}

#[derive(Clone, Copy, PartialEq, Eq)]
pub struct Tag;

pub struct Square;

#[derive(Clone, PartialEq, Eq, PartialOrd, Ord)]
pub struct Row<T>(pub T);

pub struct Held<'a, T: ?Sized, const N: usize>(pub [&'a T; N]);

impl Named for Tag {}

impl<T: Named> Named for Row<T> {}

/// Beside what is of a type itself: of that nothing is `Named`.
impl<T: Named> Area for T {
    type Unit = T;
}

impl Area for Square {
    type Unit = f64;
}

impl<'a, T: ?Sized + 'a, const N: usize> Area for Held<'a, T, N> {
    type Unit = u8;
}

impl<T: Named> Solid for Row<T> {
    type Face = Square;
}

/// It says what the type of a trait is.
impl<T> Area<u8> for (T,)
where
    T: Area<Unit = u8>,
{
    type Unit = T;
}

impl<T: AsRef<U>, U> AsRef<U> for Row<T> {
    fn as_ref(&self) -> &U {
        self.0.as_ref()
    }
}

/// It is told from the one before by what is sized.
impl<T: AsRef<str>> AsRef<str> for Row<T> {
    fn as_ref(&self) -> &str {
        self.0.as_ref()
    }
}

/// It is told from the one for all types: no other crate has `From<Row<T>>` for a type of its own.
impl<T> Into<Vec<T>> for Row<T> {
    fn into(self) -> Vec<T> {
        vec![self.0]
    }
}

pub trait Holds<T> {}

/// What it is over stands for itself, as a parameter.
impl<T: Area> Holds<T::Unit> for Row<T> {}

pub trait Maps<A> {
    type To;
}

/// The reference is of any region: one stands for all.
impl<A, B, F: Fn(&A) -> B> Maps<A> for F {
    type To = B;
}

/// It is told from the one before: a number is no function.
impl Maps<u8> for u8 {
    type To = <Square as Area>::Unit;
}

/// Its type has a parameter of its own, and is not spelled.
pub trait Lends {
    type Lent<'a>
    where
        Self: 'a;
}

impl<T> Lends for Row<T> {
    type Lent<'a>
        = &'a T
    where
        T: 'a;
}

impl<'a> TryFrom<&'a str> for Tag {
    type Error = ();

    fn try_from(text: &'a str) -> Result<Self, ()> {
        if text == "tag" { Ok(Tag) } else { Err(()) }
    }
}
