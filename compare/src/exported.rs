//! An exported function, stated once: the C declaration of the archive's and
//! the Rust reference come from the same line.

/// The archive's function of this name, if it has one.
macro_rules! of_archive {
    ($name:ident: fn($($parameter:tt: $type:ty),* $(,)?) -> $result:ty) => {{
        #[cfg($name)]
        let found = {
            unsafe extern "C" {
                fn $name($($parameter: $type),*) -> $result;
            }
            Some($name as unsafe extern "C" fn($($type),*) -> $result)
        };
        #[cfg(not($name))]
        let found = None::<unsafe extern "C" fn($($type),*) -> $result>;
        found
    }};
}

/// The type of an input, by its length.
macro_rules! taken {
    (Volume) => {
        $crate::inputs::Volume
    };
    ($n:literal) => {
        [f64; $n]
    };
}

/// A call, by its C name, its parameters and its result: `gf_x(slice: length, ..; number: type) -> result { reference }`.
///
/// A slice's length is a number, or `Volume` where its count tells it. A lone
/// number in is an `f64` or an `f32`. The result is `[f64; length]`
/// for a lent slice, `f64` for a lone number, `bool` for a yes or no and `u32`
/// for a place. The reference sees slices of the right lengths, as arrays, and
/// gives the result or the number of a refusal.
macro_rules! call {
    ($name:ident($($parameters:tt)*) -> [f64; $m:literal] $body:block) => {
        call!(@ $name [$($parameters)*] [f64; $m] $body out (*mut f64, usize) (out.at, out.len))
    };
    ($name:ident($($parameters:tt)*) -> f64 $body:block) => {
        call!(@ $name [$($parameters)*] f64 $body out (*mut f64) (out.at))
    };
    ($name:ident($($parameters:tt)*) -> bool $body:block) => {
        call!(@ $name [$($parameters)*] bool $body out (*mut u32) (out.at.cast::<u32>()))
    };
    ($name:ident($($parameters:tt)*) -> u32 $body:block) => {
        call!(@ $name [$($parameters)*] u32 $body out (*mut u32) (out.at.cast::<u32>()))
    };
    (@ $name:ident [$($in:ident: $n:tt),* $(; $number:ident: $lone:ty)?] $answer:ty $body:block
        $out:ident ($($c_type:ty),*) ($($c_argument:expr),*)) => {{
        use $crate::call::{Call, Exported};
        use $crate::lent::{Answer, Ins, Lent, Pointer, Side};

        type Ours = unsafe extern "C" fn($($in: *const f64, _: usize,)* $($number: $lone,)? $($c_type),*) -> u32;
        type Rust = fn($($in: &[f64],)* $($number: $lone,)? &mut <$answer as Answer>::Lent) -> u32;

        fn rust($($in: &[f64],)* $($number: $lone,)? out: &mut <$answer as Answer>::Lent) -> u32 {
            $(let Some($in) = <$crate::exported::taken!($n) as $crate::lent::Taken>::seen($in) else {
                return $crate::judge::WRONG_INPUT;
            };)*
            if !<$answer as Answer>::fits(out) {
                return $crate::judge::WRONG_OUTPUT;
            }
            let answer = || -> Result<$answer, u32> { $body };
            match answer() {
                Ok(answer) => {
                    answer.store(out);
                    0
                }
                Err(refusal) => refusal,
            }
        }

        let ours: Option<Ours> =
            of_archive!($name: fn($($in: *const f64, _: usize,)* $($number: $lone,)? $(_: $c_type),*) -> u32);
        // What is lent is as long as it says, and is not lent twice.
        let ours = ours.map(|f| -> Box<dyn Side> {
            Box::new(Pointer(f, |f: Ours, ins: &Ins, $out: Lent| unsafe {
                let [$($in,)* $($number,)? ..] = *ins;
                f($($in.at.cast_const(), $in.len,)* $(<$lone as $crate::lent::Lone>::passed($number),)? $($c_argument),*)
            }))
        });
        let rust = Box::new(Pointer(rust as Rust, |f: Rust, ins: &Ins, out: Lent| unsafe {
            let [$($in,)* $($number,)? ..] = *ins;
            f($($in.slice(),)* $(<$lone as $crate::lent::Lone>::passed($number),)? <$answer as Answer>::lent(out))
        }));
        Call::<($($crate::exported::taken!($n),)* $(<$lone as $crate::lent::Lone>::Input,)?)>::new(Exported {
            name: stringify!($name),
            takes: &[$(<$crate::exported::taken!($n) as $crate::lent::Taken>::SHAPE,)* $(<$lone as $crate::lent::Lone>::SHAPE,)?],
            gives: <$answer as Answer>::SHAPE,
            ours,
            rust,
        })
    }};
}

pub(crate) use {call, of_archive, taken};
