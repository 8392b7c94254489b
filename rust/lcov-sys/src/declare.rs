//! A call is declared once, by its safe form. The macros make of that the C function, the safe function over it, and a method of `Calls`.

/// Hands safe arguments over as C takes them: a slice as its pointer and its length, a number as it is. The first argument says what
/// is made of them: `(declare NAME -> TYPE)`, `(pointer -> TYPE)` or `(call FUNCTION)`.
macro_rules! in_c {
    ($made:tt [$($done:tt)*] ($name:ident: &[$item:ty] $(, $($rest:tt)*)?)) => {
        in_c! { $made [$($done)* ($name.as_ptr(), *const $item) ($name.len(), usize)] ($($($rest)*)?) }
    };
    ($made:tt [$($done:tt)*] ($name:ident: &mut [$item:ty] $(, $($rest:tt)*)?)) => {
        in_c! { $made [$($done)* ($name.as_mut_ptr(), *mut $item) ($name.len(), usize)] ($($($rest)*)?) }
    };
    ($made:tt [$($done:tt)*] ($name:ident: $number:ty $(, $($rest:tt)*)?)) => {
        in_c! { $made [$($done)* ($name, $number)] ($($($rest)*)?) }
    };
    ((declare $symbol:ident $($answer:tt)*) [$(($value:expr, $type:ty))*] ()) => {
        fn $symbol($(_: $type),*) $($answer)*;
    };
    ((pointer $($answer:tt)*) [$(($value:expr, $type:ty))*] ()) => {
        unsafe extern "C" fn($($type),*) $($answer)*
    };
    // SAFETY: each pointer is that of a slice, handed over with its length and lent for the call alone; the calls read and write within the
    // lengths, whatever the slices hold (proved), and keep no pointer.
    ((call $function:expr) [$(($value:expr, $type:ty))*] ()) => {
        unsafe { $function($($value),*) }
    };
}

/// The arguments stand twice: as they are split here, and as `in_c` splits them.
macro_rules! method {
    ($name:ident $arguments:tt ($($argument:ident: $type:ty),*) $($answer:tt)*) => {
        // They are those of the header.
        #[allow(clippy::too_many_arguments)]
        pub fn $name(&self, $($argument: $type),*) $($answer)* {
            in_c! { (call (self.$name)) [] $arguments }
        }
    };
}

macro_rules! calls {
    ($($(#[$about:meta])* fn $name:ident = $symbol:ident $arguments:tt $(-> $answer:ty)?;)*) => {
        extern "C" {
            $(in_c! { (declare $symbol $(-> $answer)?) [] $arguments })*
        }

        $(
            $(#[$about])*
            #[allow(clippy::too_many_arguments)]
            pub fn $name $arguments $(-> $answer)? {
                in_c! { (call $symbol) [] $arguments }
            }
        )*

        /// The calls of one build of the archive, as methods. A program can have several builds of it, as shared objects.
        #[derive(Clone, Copy)]
        pub struct Calls {
            $($name: in_c! { (pointer $(-> $answer)?) [] $arguments },)*
        }

        impl Calls {
            /// Those of the archive that is linked.
            pub const LINKED: Calls = Calls { $($name: $symbol,)* };

            /// Those that `find` gives for their names in C, or its first error.
            ///
            /// # Safety
            ///
            /// What `find` gives for a name is the function that include/lcov.h declares, and stays for as long as the calls are used.
            pub unsafe fn found<E>(find: impl Fn(&str) -> Result<*const (), E>) -> Result<Calls, E> {
                Ok(Calls {
                    $($name: std::mem::transmute::<*const (), in_c! { (pointer $(-> $answer)?) [] $arguments }>(
                        find(stringify!($symbol))?,
                    ),)*
                })
            }

            $(method! { $name $arguments $arguments $(-> $answer)? })*
        }

        /// The name of each call in C, and its type.
        #[cfg(test)]
        fn declared() -> Vec<(&'static str, &'static str)> {
            vec![$((stringify!($symbol), std::any::type_name::<in_c! { (pointer $(-> $answer)?) [] $arguments }>()),)*]
        }
    };
}

#[cfg(test)]
mod tests {
    use crate::{declared, Calls};
    use std::cell::RefCell;
    use std::convert::Infallible;

    const HEADER: &str = include_str!("../../../include/lcov.h");

    /// The name of each function of the header, and its type as Rust shows it.
    fn in_the_header() -> Vec<(String, String)> {
        let mut functions = Vec::new();
        for (answer, shown) in [("\nuint32_t lcov_", " -> u32"), ("\nvoid lcov_", "")] {
            for declaration in HEADER.split(answer).skip(1) {
                let (name, rest) = declaration.split_once('(').unwrap();
                let (arguments, _) = rest.split_once(");").unwrap();
                let types: Vec<String> = arguments.split(',').map(in_rust).collect();
                let shown = format!("unsafe extern \"C\" fn({}){shown}", types.join(", "));
                functions.push((format!("lcov_{name}"), shown));
            }
        }
        functions
    }

    fn in_rust(argument: &str) -> String {
        let argument = argument.trim();
        let (pointer, rest) = match argument.strip_prefix("const ") {
            Some(rest) => ("*const ", rest),
            None => ("*mut ", argument),
        };
        let item = match rest.split_once(' ').unwrap().0 {
            "uint8_t" => "u8",
            "uint32_t" => "u32",
            "uint64_t" => "u64",
            "size_t" => "usize",
            other => panic!("{other}"),
        };
        match (rest.contains("(*"), rest.contains('*')) {
            (true, _) => format!("{pointer}[{item}; 2]"),
            (_, true) => format!("{pointer}{item}"),
            _ => item.to_owned(),
        }
    }

    #[test]
    fn the_calls_are_those_of_the_header() {
        let mut here: Vec<(String, String)> = declared()
            .into_iter()
            .map(|(name, shown)| (name.to_owned(), shown.to_owned()))
            .collect();
        let mut there = in_the_header();
        here.sort();
        there.sort();
        assert_eq!(here, there);
    }

    extern "C" fn tells_what_it_gets(a: u32, b: u32, answer: *mut u64, answer_len: usize) {
        let told = [a.into(), b.into(), answer as u64, answer_len as u64];
        // SAFETY: the test lends more words than these.
        unsafe { answer.copy_from(told.as_ptr(), told.len()) };
    }

    #[test]
    fn a_method_hands_its_arguments_to_the_function_that_was_found() {
        let asked = RefCell::new(Vec::new());
        // SAFETY: no other call than this one is made.
        let calls = unsafe {
            Calls::found(|name| {
                asked.borrow_mut().push(name.to_owned());
                Ok::<_, Infallible>(tells_what_it_gets as *const ())
            })
        };
        let mut answer = [0; 5];
        let place = answer.as_ptr() as u64;
        calls.unwrap().half_open(7, 9, &mut answer);
        assert_eq!(answer, [7, 9, place, 5, 0]);
        let names: Vec<&str> = declared().into_iter().map(|(name, _)| name).collect();
        assert_eq!(asked.into_inner(), names);
    }

    #[test]
    fn the_first_name_that_is_not_found_is_told() {
        // SAFETY: nothing is found.
        let found = unsafe { Calls::found(|name| Err(name.to_owned())) };
        assert_eq!(found.err(), Some(declared()[0].0.to_owned()));
    }
}
