//! The macros that the sux-rs files import from ambassador, impl_tools and mem_dbg.
//!
//! `Delegate` emits only the delegations the oracle calls. `MemDbg`, which in the original shows a structure's memory,
//! here gives each private field a reader `peek_<field>`: so the cells are compared with the sources unchanged.

use proc_macro::{Delimiter, TokenStream, TokenTree};

/// Leaves the trait as it is: its forwarding to references and boxes is not used here.
#[proc_macro_attribute]
pub fn autoimpl(_: TokenStream, item: TokenStream) -> TokenStream {
    item
}

/// Leaves the trait as it is: `Delegate` below knows the traits it delegates.
#[proc_macro_attribute]
pub fn delegatable_trait(_: TokenStream, item: TokenStream) -> TokenStream {
    item
}

#[proc_macro_derive(MemSize)]
pub fn mem_size(_: TokenStream) -> TokenStream {
    TokenStream::new()
}

#[proc_macro_derive(MemDbg)]
pub fn mem_dbg(item: TokenStream) -> TokenStream {
    let s = Struct::parse(item);
    let readers: String = (s.fields.iter())
        .map(|(name, ty)| format!("#[inline(always)] pub fn peek_{name}(&self) -> &{ty} {{ &self.{name} }}"))
        .collect();
    format!("{} {{ {readers} }}", s.head("", "")).parse().unwrap()
}

#[proc_macro_derive(Delegate, attributes(delegate))]
pub fn delegate(item: TokenStream) -> TokenStream {
    let s = Struct::parse(item);
    let mut out = String::new();
    for (name, target) in &s.delegated {
        let ty = &s.fields.iter().find(|(field, _)| field == target).expect("the target is a field").1;
        let hinted = |method: &str| {
            format!(
                "#[inline(always)] unsafe fn {method}<const W: usize>(&self, rank: usize, hint_pos: usize, \
                 hint_rank: usize) -> usize {{ unsafe {{ self.{target}.{method}::<W>(rank, hint_pos, hint_rank) }} }}"
            )
        };
        let (path, body) = match name.as_str() {
            "Backend" => ("crate::traits::Backend", format!("type Word = <{ty} as crate::traits::Backend>::Word;")),
            "BitLength" => (
                "crate::traits::bit_vec_ops::BitLength",
                format!("#[inline(always)] fn len(&self) -> usize {{ self.{target}.len() }}"),
            ),
            "NumBits" => (
                "crate::traits::rank_sel::NumBits",
                format!(
                    "#[inline(always)] fn num_ones(&self) -> usize {{ self.{target}.num_ones() }}
                     #[inline(always)] fn num_zeros(&self) -> usize {{ self.{target}.num_zeros() }}"
                ),
            ),
            "SelectHinted" => ("crate::traits::rank_sel::SelectHinted", hinted("select_hinted")),
            "SelectZeroHinted" => ("crate::traits::rank_sel::SelectZeroHinted", hinted("select_zero_hinted")),
            _ => continue,
        };
        out += &format!("{} {{ {body} }}\n", s.head(&format!("{path} for"), &format!("where {ty}: {path}")));
    }
    out.parse().unwrap()
}

/// What the macros need of a struct with named fields.
struct Struct {
    name: String,
    /// Parameters without their defaults, as declared and as passed.
    params: Vec<(String, String)>,
    fields: Vec<(String, String)>,
    /// Trait (last name of its path) and target of each `#[delegate]`.
    delegated: Vec<(String, String)>,
}

impl Struct {
    fn head(&self, before: &str, after: &str) -> String {
        let declared: Vec<_> = self.params.iter().map(|p| p.0.clone()).collect();
        let passed: Vec<_> = self.params.iter().map(|p| p.1.clone()).collect();
        format!("impl<{}> {before} {}<{}> {after}", declared.join(","), self.name, passed.join(","))
    }

    fn parse(item: TokenStream) -> Struct {
        let mut delegated = Vec::new();
        let mut tokens = item.into_iter();
        for token in tokens.by_ref() {
            match token {
                TokenTree::Group(g) if g.delimiter() == Delimiter::Bracket => delegated.extend(delegation(g.stream())),
                TokenTree::Ident(i) if i.to_string() == "struct" => break,
                _ => {}
            }
        }
        let name = tokens.next().expect("a struct has a name").to_string();
        let mut generics = Vec::new();
        let mut depth = 0;
        let body = loop {
            let token = tokens.next().expect("a struct has fields");
            match &token {
                TokenTree::Group(g) if g.delimiter() == Delimiter::Brace && depth == 0 => break g.stream(),
                TokenTree::Punct(p) if p.as_char() == '<' => {
                    depth += 1;
                    if depth == 1 {
                        continue;
                    }
                }
                TokenTree::Punct(p) if p.as_char() == '>' => {
                    depth -= 1;
                    if depth == 0 {
                        continue;
                    }
                }
                _ => {}
            }
            generics.push(token);
        };
        let params = (split(generics, ',').into_iter())
            .map(|param| {
                let declared = split(param, '=').swap_remove(0);
                let is_const = declared[0].to_string() == "const";
                (text(&declared), declared[usize::from(is_const)].to_string())
            })
            .collect();
        let fields = (split(body.into_iter().collect(), ',').into_iter())
            .map(|field| {
                let colon = field.iter().position(|t| t.to_string() == ":").expect("a named field");
                (field[colon - 1].to_string(), text(&field[colon + 1..]))
            })
            .collect();
        Struct { name, params, fields, delegated }
    }
}

/// `delegate(path::Trait<..>, target = "field")`
fn delegation(attribute: TokenStream) -> Option<(String, String)> {
    let tokens: Vec<_> = attribute.into_iter().collect();
    let [TokenTree::Ident(head), TokenTree::Group(inside)] = &tokens[..] else { return None };
    if head.to_string() != "delegate" {
        return None;
    }
    let parts = split(inside.stream().into_iter().collect(), ',');
    let path = split(parts[0].clone(), '<').swap_remove(0);
    let target = parts[1].last()?.to_string();
    Some((path.last()?.to_string(), target.trim_matches('"').to_string()))
}

/// Parts between separators that stand outside of angle brackets.
fn split(tokens: Vec<TokenTree>, separator: char) -> Vec<Vec<TokenTree>> {
    let mut parts = vec![Vec::new()];
    let mut depth = 0;
    for token in tokens {
        if let TokenTree::Punct(p) = &token {
            if p.as_char() == separator && depth == 0 {
                parts.push(Vec::new());
                continue;
            }
            match p.as_char() {
                '<' => depth += 1,
                '>' => depth -= 1,
                _ => {}
            }
        }
        parts.last_mut().unwrap().push(token);
    }
    parts.retain(|part| !part.is_empty());
    parts
}

fn text(tokens: &[TokenTree]) -> String {
    tokens.iter().cloned().collect::<TokenStream>().to_string()
}
