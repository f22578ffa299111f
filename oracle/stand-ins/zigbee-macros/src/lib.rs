//! Stand-in for the crate `zigbee_macros`: `impl_byte`, as far as files 001 to 004 use it.
//!
//! An enum with a tag is read from one byte: the value that has its number, or the fallback with the number. A struct is
//! read field by field, little-endian, a slice by the length that its `ctx` names. A struct with a field that is read only
//! on a condition (`Binding`) gets no reader: stored bindings are left out by document 01. Nothing is written.

use proc_macro::TokenStream;
use proc_macro2::TokenStream as Tokens;
use quote::quote;
use syn::{Attribute, Expr, Fields, Item, ItemEnum, ItemStruct};

#[proc_macro]
pub fn impl_byte(input: TokenStream) -> TokenStream {
    match syn::parse_macro_input!(input as Item) {
        Item::Enum(item) => tagged(item).into(),
        Item::Struct(item) => fielded(item).into(),
        _ => panic!("impl_byte: an enum or a struct"),
    }
}

/// Takes the attribute of this name out of a list.
fn taken(attrs: &mut Vec<Attribute>, name: &str) -> Option<Attribute> {
    let index = attrs.iter().position(|a| a.path.is_ident(name))?;
    Some(attrs.remove(index))
}

/// The expression behind `#[name = expression]`, whatever it is.
fn value(attr: &Attribute) -> Tokens {
    attr.tokens.clone().into_iter().skip(1).collect()
}

/// An enum whose values are told apart by a byte.
fn tagged(mut item: ItemEnum) -> Tokens {
    taken(&mut item.attrs, "tag").expect("impl_byte: an enum has a tag");
    let mut arms = Vec::new();
    for variant in &mut item.variants {
        let name = &variant.ident;
        if taken(&mut variant.attrs, "fallback").is_some() {
            arms.push(quote!(number => Self::#name(number)));
        } else {
            let (_, number): (_, Expr) = variant.discriminant.take().expect("impl_byte: a number");
            arms.push(quote!(#number => Self::#name));
        }
    }
    let name = &item.ident;
    quote! {
        #item

        impl ::byte::TryRead<'_, ()> for #name {
            fn try_read(bytes: &[u8], (): ()) -> ::byte::Result<(Self, usize)> {
                let number = *bytes.first().ok_or(::byte::Error::Incomplete)?;
                Ok((match number { #(#arms),* }, 1))
            }
        }
    }
}

/// A struct that is read field by field.
fn fielded(mut item: ItemStruct) -> Tokens {
    let Fields::Named(fields) = &mut item.fields else {
        panic!("impl_byte: a struct has named fields");
    };
    let mut names = Vec::new();
    let mut contexts = Vec::new();
    let mut conditional = false;
    for field in &mut fields.named {
        let context = taken(&mut field.attrs, "ctx").as_ref().map(value);
        taken(&mut field.attrs, "ctx_write");
        conditional |= taken(&mut field.attrs, "parse_if").is_some();
        names.push(field.ident.clone().expect("impl_byte: a named field"));
        contexts.push(context.unwrap_or_else(|| quote!(endian)));
    }
    if conditional {
        return quote!(#item);
    }
    let name = &item.ident;
    quote! {
        #item

        impl<'a> ::byte::TryRead<'a, ::byte::ctx::Endian> for #name<'a> {
            fn try_read(bytes: &'a [u8], endian: ::byte::ctx::Endian) -> ::byte::Result<(Self, usize)> {
                use ::byte::BytesExt as _;
                let _ = endian;
                let offset = &mut 0;
                #(let #names = bytes.read_with(offset, #contexts)?;)*
                Ok((Self { #(#names),* }, *offset))
            }
        }
    }
}
