//! What a call is lent, argument by argument in the order of the C interface.

/// One argument, by its type.
pub enum Value<'a> {
    Size(&'a mut usize),
    Int(&'a mut i32),
    Float(&'a mut f32),
    Flag(&'a mut bool),
    Bytes(&'a mut Vec<u8>),
    Shorts(&'a mut Vec<i16>),
    Words(&'a mut Vec<u16>),
    Floats(&'a mut Vec<f32>),
}

/// One argument with its name; `owner` is the part or plane it belongs to, or nothing.
pub struct Argument<'a> {
    pub owner: &'static str,
    pub name: &'static str,
    pub value: Value<'a>,
}

impl Argument<'_> {
    pub fn full_name(&self) -> String {
        match self.owner {
            "" => self.name.to_owned(),
            owner => format!("{owner}_{}", self.name),
        }
    }

    /// Whether this is the argument with that full name.
    pub fn is(&self, full_name: &str) -> bool {
        match self.owner {
            "" => full_name == self.name,
            owner => full_name
                .strip_prefix(owner)
                .and_then(|rest| rest.strip_prefix('_'))
                .is_some_and(|rest| rest == self.name),
        }
    }

    /// Moves a slice into an allocation of exactly its length, so that nothing behind it is anyone's to read.
    pub fn tighten(&mut self) {
        fn tight<T>(slice: &mut Vec<T>) {
            *slice = std::mem::take(slice).into_boxed_slice().into_vec();
        }
        match &mut self.value {
            Value::Bytes(slice) => tight(slice),
            Value::Shorts(slice) => tight(slice),
            Value::Words(slice) => tight(slice),
            Value::Floats(slice) => tight(slice),
            Value::Size(_) | Value::Int(_) | Value::Float(_) | Value::Flag(_) => {}
        }
    }

    pub fn is_slice(&self) -> bool {
        !matches!(
            self.value,
            Value::Size(_) | Value::Int(_) | Value::Float(_) | Value::Flag(_)
        )
    }
}

/// Things that are lent to a call: numbers, slices, and groups of them.
pub trait Lent {
    /// Adds the arguments in order. A number or a slice is called `name`; a group gives `name` to its members.
    fn lend<'a>(
        &'a mut self,
        owner: &'static str,
        name: &'static str,
        list: &mut Vec<Argument<'a>>,
    );

    /// Adds the length of each slice in order.
    fn measure(&self, lengths: &mut Vec<usize>);
}

/// All arguments in order.
pub fn arguments(lent: &mut impl Lent) -> Vec<Argument<'_>> {
    let mut list = Vec::with_capacity(40);
    lent.lend("", "", &mut list);
    list
}

/// One argument: a number, or a slice.
pub trait Single {
    fn value(&mut self) -> Value<'_>;

    /// The length of a slice.
    fn length(&self) -> Option<usize> {
        None
    }
}

impl<S: Single> Lent for S {
    fn lend<'a>(
        &'a mut self,
        owner: &'static str,
        name: &'static str,
        list: &mut Vec<Argument<'a>>,
    ) {
        let value = self.value();
        list.push(Argument { owner, name, value });
    }

    fn measure(&self, lengths: &mut Vec<usize>) {
        lengths.extend(self.length());
    }
}

/// What slices are made of.
pub trait Element: Copy + 'static {
    fn slice(slice: &mut Vec<Self>) -> Value<'_>;
}

impl<T: Element> Single for Vec<T> {
    fn value(&mut self) -> Value<'_> {
        T::slice(self)
    }

    fn length(&self) -> Option<usize> {
        Some(self.len())
    }
}

macro_rules! number {
    ($type:ty, $value:ident) => {
        impl Single for $type {
            fn value(&mut self) -> Value<'_> {
                Value::$value(self)
            }
        }
    };
}

macro_rules! element {
    ($type:ty, $value:ident) => {
        impl Element for $type {
            fn slice(slice: &mut Vec<Self>) -> Value<'_> {
                Value::$value(slice)
            }
        }
    };
}

number!(usize, Size);
number!(i32, Int);
number!(f32, Float);
number!(bool, Flag);
element!(u8, Bytes);
element!(i16, Shorts);
element!(u16, Words);
element!(f32, Floats);

/// Declares a struct of lent things in the order of the C interface.
///
/// A member group in brackets gives its members no name of its own: `layer` of peel has `luma`, not `layer_luma`.
macro_rules! lent {
    ($(#[$doc:meta])* pub struct $name:ident $(<$of:ident: $bound:ident>)? { $($rest:tt)* }) => {
        lent!(@ [$(#[$doc])*] $name [$(<$of: $bound>)?] [] [] $($rest)*);
    };
    (@ $docs:tt $name:ident $of:tt [$($fields:tt)*] [$($names:tt)*] [$field:ident]: $type:ty, $($rest:tt)*) => {
        lent!(@ $docs $name $of [$($fields)* $field: $type,] [$($names)* ($field "")] $($rest)*);
    };
    (@ $docs:tt $name:ident $of:tt [$($fields:tt)*] [$($names:tt)*] $field:ident: $type:ty, $($rest:tt)*) => {
        lent!(@ $docs $name $of [$($fields)* $field: $type,] [$($names)* ($field stringify!($field))] $($rest)*);
    };
    (
        @ [$($docs:tt)*] $name:ident [$(<$of:ident: $bound:ident>)?]
        [$($field:ident: $type:ty,)*] [$(($member:ident $called:expr))*]
    ) => {
        $($docs)*
        #[derive(Clone, PartialEq)]
        pub struct $name $(<$of: $bound>)? { $(pub $field: $type,)* }

        impl $(<$of: $bound>)? $crate::check::lent::Lent for $name $(<$of>)? {
            fn lend<'a>(
                &'a mut self,
                owner: &'static str,
                name: &'static str,
                list: &mut Vec<$crate::check::lent::Argument<'a>>,
            ) {
                // A group's own name becomes the owner of its members.
                let owner = if name.is_empty() { owner } else { name };
                $(self.$member.lend(owner, $called, list);)*
            }

            fn measure(&self, lengths: &mut Vec<usize>) {
                $(self.$member.measure(lengths);)*
            }
        }
    };
}
