//! Stands in for derive_more: arithmetic field by field, for a struct of
//! named fields that share one scalar type.
//!
//! As in derive_more, `Mul` and `Div` take a scalar, and `Sum` starts from
//! the empty sum of each field.

use proc_macro::{Delimiter, TokenStream, TokenTree};

/// A struct's name, its fields' names and their common type.
struct Fields {
    name: String,
    fields: Vec<String>,
    scalar: String,
}

impl Fields {
    fn of(input: TokenStream) -> Fields {
        let mut tokens = input.into_iter();
        tokens.find(|token| token.to_string() == "struct").expect("a struct");
        let name = tokens.next().expect("a name").to_string();
        let body = tokens
            .find_map(|token| match token {
                TokenTree::Group(group) if group.delimiter() == Delimiter::Brace => Some(group.stream()),
                _ => None,
            })
            .expect("named fields");
        // A field is what stands on the two sides of a colon.
        let body: Vec<String> = body.into_iter().map(|token| token.to_string()).collect();
        let colons = || (0..body.len()).filter(|&i| body[i] == ":");
        let scalar = body[colons().next().expect("a field") + 1].clone();
        assert!(
            colons().all(|i| body[i + 1] == scalar && body.get(i + 2).is_none_or(|next| next == ",")),
            "the fields of {name} have one plain type"
        );
        Fields { name, fields: colons().map(|i| body[i - 1].clone()).collect(), scalar }
    }

    /// `form` once for each field, with `#` standing for the field.
    fn each(&self, form: &str) -> String {
        self.fields.iter().map(|field| form.replace('#', field)).collect()
    }

    /// The implementation `code` of the struct.
    fn implement(&self, code: String) -> TokenStream {
        code.replace("Self_", &self.name).parse().expect("Rust")
    }

    /// A two-sided operator whose right side is `right`, read as `other`.
    fn binary(&self, op: &str, method: &str, right: &str, other: &str) -> TokenStream {
        let fields = self.each(&format!("#: ::core::ops::{op}::{method}(self.#, {other}),"));
        self.implement(format!(
            "impl ::core::ops::{op}<{right}> for Self_ {{
                type Output = Self_;
                #[inline]
                fn {method}(self, other: {right}) -> Self_ {{ Self_ {{ {fields} }} }}
            }}"
        ))
    }

    /// The assigning form of such an operator.
    fn assign(&self, op: &str, method: &str, right: &str, other: &str) -> TokenStream {
        let fields = self.each(&format!("::core::ops::{op}::{method}(&mut self.#, {other});"));
        self.implement(format!(
            "impl ::core::ops::{op}<{right}> for Self_ {{
                #[inline]
                fn {method}(&mut self, other: {right}) {{ {fields} }}
            }}"
        ))
    }
}

macro_rules! with_another {
    ($($form:ident $op:ident $method:ident;)*) => {$(
        #[proc_macro_derive($op)]
        pub fn $method(input: TokenStream) -> TokenStream {
            Fields::of(input).$form(stringify!($op), stringify!($method), "Self_", "other.#")
        }
    )*};
}

macro_rules! with_a_scalar {
    ($($form:ident $op:ident $method:ident;)*) => {$(
        #[proc_macro_derive($op)]
        pub fn $method(input: TokenStream) -> TokenStream {
            let of = Fields::of(input);
            of.$form(stringify!($op), stringify!($method), &of.scalar, "other")
        }
    )*};
}

with_another! {
    binary Add add;
    assign AddAssign add_assign;
    binary Sub sub;
    assign SubAssign sub_assign;
}

with_a_scalar! {
    binary Mul mul;
    assign MulAssign mul_assign;
    binary Div div;
    assign DivAssign div_assign;
}

#[proc_macro_derive(Neg)]
pub fn neg(input: TokenStream) -> TokenStream {
    let of = Fields::of(input);
    let fields = of.each("#: -self.#,");
    of.implement(format!(
        "impl ::core::ops::Neg for Self_ {{
            type Output = Self_;
            #[inline]
            fn neg(self) -> Self_ {{ Self_ {{ {fields} }} }}
        }}"
    ))
}

#[proc_macro_derive(Sum)]
pub fn sum(input: TokenStream) -> TokenStream {
    let of = Fields::of(input);
    let empty = of.each(&format!("#: ::core::iter::empty::<{}>().sum(),", of.scalar));
    of.implement(format!(
        "impl ::core::iter::Sum for Self_ {{
            #[inline]
            fn sum<I: Iterator<Item = Self_>>(all: I) -> Self_ {{
                all.fold(Self_ {{ {empty} }}, ::core::ops::Add::add)
            }}
        }}"
    ))
}
