//! Stand-ins for the derive and attribute macros that the original names:
//! `thiserror::Error`, `serde::{Serialize, Deserialize}`, `serde_with::serde_as`, `async_trait::async_trait`.
//! No syn, no quote: plain token walks, enough for the shapes that occur.
use proc_macro::{Delimiter, Group, TokenStream, TokenTree as T};

fn is_punct(t: Option<&T>, c: char) -> bool {
    matches!(t, Some(T::Punct(p)) if p.as_char() == c)
}
fn is_ident(t: Option<&T>, s: &str) -> bool {
    matches!(t, Some(T::Ident(i)) if i.to_string() == s)
}

#[proc_macro_derive(Serialize, attributes(serde))]
pub fn serialize(_: TokenStream) -> TokenStream {
    TokenStream::new()
}
#[proc_macro_derive(Deserialize, attributes(serde))]
pub fn deserialize(_: TokenStream) -> TokenStream {
    TokenStream::new()
}

/// Drops the `#[serde_as(..)]` marks on the fields.
#[proc_macro_attribute]
pub fn serde_as(_: TokenStream, item: TokenStream) -> TokenStream {
    fn strip(ts: TokenStream) -> TokenStream {
        let v: Vec<T> = ts.into_iter().collect();
        let mut out = vec![];
        let mut i = 0;
        while i < v.len() {
            if is_punct(v.get(i), '#') {
                if let Some(T::Group(g)) = v.get(i + 1) {
                    if is_ident(g.stream().into_iter().next().as_ref(), "serde_as") {
                        i += 2;
                        continue;
                    }
                }
            }
            match &v[i] {
                T::Group(g) => {
                    let mut n = Group::new(g.delimiter(), strip(g.stream()));
                    n.set_span(g.span());
                    out.push(T::Group(n));
                }
                t => out.push(t.clone()),
            }
            i += 1;
        }
        out.into_iter().collect()
    }
    strip(item)
}

/// `async fn f(&self, a: &A) -> R { B }` in an impl becomes a function that returns a boxed future of the block B.
#[proc_macro_attribute]
pub fn async_trait(_: TokenStream, item: TokenStream) -> TokenStream {
    let v: Vec<T> = item.into_iter().collect();
    let last = v.len() - 1;
    v.into_iter()
        .enumerate()
        .map(|(i, t)| match t {
            T::Group(g) if i == last => T::Group(Group::new(Delimiter::Brace, methods(g.stream()))),
            t => t,
        })
        .collect()
}

fn lifetimes(ts: TokenStream) -> TokenStream {
    let mut out = vec![];
    for t in ts {
        let amp = is_punct(Some(&t), '&');
        out.push(t);
        if amp {
            out.extend("'async_trait".parse::<TokenStream>().unwrap());
        }
    }
    out.into_iter().collect()
}

fn methods(ts: TokenStream) -> TokenStream {
    let v: Vec<T> = ts.into_iter().collect();
    let mut out: Vec<T> = vec![];
    let mut i = 0;
    while i < v.len() {
        if !(is_ident(v.get(i), "async") && is_ident(v.get(i + 1), "fn")) {
            out.push(v[i].clone());
            i += 1;
            continue;
        }
        out.push(v[i + 1].clone());
        out.push(v[i + 2].clone());
        out.extend("<'async_trait>".parse::<TokenStream>().unwrap());
        let T::Group(params) = &v[i + 3] else { panic!("generic async fn") };
        out.push(T::Group(Group::new(Delimiter::Parenthesis, lifetimes(params.stream()))));
        i += 6; // past `->`
        let mut ret = vec![];
        let body = loop {
            match &v[i] {
                T::Group(g) if g.delimiter() == Delimiter::Brace => break g.clone(),
                t => ret.push(t.clone()),
            }
            i += 1;
        };
        i += 1;
        let ret: TokenStream = ret.into_iter().collect();
        out.extend(format!("-> ::std::pin::Pin<Box<dyn ::std::future::Future<Output = {ret}> + 'async_trait>>").parse::<TokenStream>().unwrap());
        let mut inner: Vec<T> = format!("if let Some(ret) = None::<{ret}> {{ return ret; }}").parse::<TokenStream>().unwrap().into_iter().collect();
        inner.extend(body.stream());
        let mut call: Vec<T> = "async move".parse::<TokenStream>().unwrap().into_iter().collect();
        call.push(T::Group(Group::new(Delimiter::Brace, inner.into_iter().collect())));
        let mut f: Vec<T> = "Box::pin".parse::<TokenStream>().unwrap().into_iter().collect();
        f.push(T::Group(Group::new(Delimiter::Parenthesis, call.into_iter().collect())));
        out.push(T::Group(Group::new(Delimiter::Brace, f.into_iter().collect())));
    }
    out.into_iter().collect()
}

/// `Display` by the `#[error("..")]` texts, `std::error::Error`, and `From` for each `#[from]`.
#[proc_macro_derive(Error, attributes(error, from))]
pub fn error(item: TokenStream) -> TokenStream {
    let v: Vec<T> = item.into_iter().collect();
    let at = v.iter().position(|t| is_ident(Some(t), "enum")).expect("an enum");
    let name = v[at + 1].to_string();
    let Some(T::Group(body)) = v.last() else { panic!("an enum body") };
    let b: Vec<T> = body.stream().into_iter().collect();
    let (mut arms, mut froms) = (String::new(), String::new());
    let mut text = String::new();
    let mut i = 0;
    while i < b.len() {
        match &b[i] {
            T::Punct(p) if p.as_char() == '#' => {
                if let Some(T::Group(g)) = b.get(i + 1) {
                    let a: Vec<T> = g.stream().into_iter().collect();
                    if is_ident(a.first(), "error") {
                        if let Some(T::Group(l)) = a.get(1) {
                            text = l.stream().to_string();
                        }
                    }
                }
                i += 2;
            }
            T::Ident(variant) => {
                let mut pat = String::new();
                let mut arg = "";
                if let Some(T::Group(g)) = b.get(i + 1) {
                    let f: Vec<T> = g.stream().into_iter().collect();
                    if g.delimiter() == Delimiter::Parenthesis {
                        pat = "(_0)".into();
                        if text.contains("{0}") {
                            arg = ", _0";
                        }
                        if is_punct(f.first(), '#') {
                            let ty: TokenStream = f[2..].iter().cloned().collect();
                            froms += &format!("impl From<{ty}> for {name} {{ fn from(e: {ty}) -> Self {{ {name}::{variant}(e) }} }}\n");
                        }
                    } else {
                        let names: Vec<String> =
                            f.windows(2).filter(|w| matches!(&w[0], T::Ident(_)) && is_punct(Some(&w[1]), ':')).map(|w| w[0].to_string()).collect();
                        pat = format!("{{ {} }}", names.join(", "));
                    }
                    i += 1;
                }
                arms += &format!("{name}::{variant} {pat} => write!(f, {text}{arg}),\n");
                i += 1;
            }
            _ => i += 1,
        }
    }
    format!(
        "impl ::std::fmt::Display for {name} {{ #[allow(unused_variables)] fn fmt(&self, f: &mut ::std::fmt::Formatter<'_>) -> ::std::fmt::Result {{ match self {{ {arms} }} }} }}
         impl ::std::error::Error for {name} {{}}
         {froms}"
    )
    .parse()
    .unwrap()
}
