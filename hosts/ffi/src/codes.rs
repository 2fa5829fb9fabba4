//! What the calls of a library return.

/// Defines the enum `Code` of a library: each code with its number and the name that the header
/// gives it.
#[macro_export]
macro_rules! codes {
    ($($variant:ident = $number:literal, $name:literal;)*) => {
        /// What a call returns, as the header has it.
        #[allow(missing_docs, reason = "the header has it")]
        #[derive(Clone, Copy, Debug, PartialEq, Eq)]
        #[repr(u32)]
        pub enum Code {
            $($variant = $number,)*
        }

        impl Code {
            /// Each code.
            pub const ALL: &[Code] = &[$(Code::$variant,)*];

            /// The name that the header gives it.
            pub fn name(self) -> &'static std::ffi::CStr {
                match self {
                    $(Code::$variant => $name,)*
                }
            }

            /// The code of a number, if it is one.
            pub fn of(number: u32) -> Option<Code> {
                Code::ALL.iter().copied().find(|code| *code as u32 == number)
            }
        }

        impl From<Code> for u32 {
            fn from(code: Code) -> u32 {
                code as u32
            }
        }
    };
}

#[cfg(test)]
mod tests {
    codes! {
        Ok = 0, c"OK";
        Misuse = 16, c"MISUSE";
    }

    #[test]
    fn codes_have_their_numbers_and_names() {
        assert_eq!((Code::of(16), Code::of(1)), (Some(Code::Misuse), None));
        assert_eq!([Code::Ok, Code::Misuse].map(Code::name), [c"OK", c"MISUSE"]);
        assert_eq!(u32::from(Code::Misuse), 16);
    }
}
