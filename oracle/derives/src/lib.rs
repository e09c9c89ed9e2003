//! As much of the derive macros as the original's files name.
//!
//! `SqlType` gives a marker type its place among the types of a result, and its MySQL type. The others have nothing to add here.

use proc_macro::{TokenStream, TokenTree};

/// Hands the item on as it is.
#[proc_macro_attribute]
pub fn __diesel_public_if(_condition: TokenStream, item: TokenStream) -> TokenStream {
    item
}

#[proc_macro_derive(SqlType, attributes(diesel))]
pub fn sql_type(item: TokenStream) -> TokenStream {
    let tokens: Vec<TokenTree> = item.into_iter().collect();
    let name = name_of(&tokens);
    let mut text = format!(
        "impl crate::sql_types::SqlType for {name} {{ type IsNull = crate::sql_types::is_nullable::NotNull; }}
         impl crate::sql_types::SingleValue for {name} {{}}"
    );
    if let Some(mysql) = mysql_type_of(&tokens) {
        text.push_str(&format!(
            "impl crate::sql_types::HasSqlType<{name}> for crate::mysql::Mysql {{
                 fn metadata(_lookup: &mut ()) -> crate::mysql::MysqlType {{ crate::mysql::MysqlType::{mysql} }}
             }}"
        ));
    }
    text.parse().expect("the impls of a marker type")
}

#[proc_macro_derive(QueryId, attributes(diesel))]
pub fn query_id(_item: TokenStream) -> TokenStream {
    TokenStream::new()
}

#[proc_macro_derive(DieselNumericOps, attributes(diesel))]
pub fn numeric_ops(_item: TokenStream) -> TokenStream {
    TokenStream::new()
}

#[proc_macro_derive(AsExpression, attributes(diesel))]
pub fn as_expression(_item: TokenStream) -> TokenStream {
    TokenStream::new()
}

#[proc_macro_derive(FromSqlRow, attributes(diesel))]
pub fn from_sql_row(_item: TokenStream) -> TokenStream {
    TokenStream::new()
}

#[proc_macro_derive(Queryable, attributes(diesel))]
pub fn queryable(_item: TokenStream) -> TokenStream {
    TokenStream::new()
}

#[proc_macro_derive(QueryableByName, attributes(diesel))]
pub fn queryable_by_name(_item: TokenStream) -> TokenStream {
    TokenStream::new()
}

/// The word after `struct`.
fn name_of(tokens: &[TokenTree]) -> String {
    let at = tokens
        .iter()
        .position(|token| token.to_string() == "struct")
        .expect("a struct");
    tokens[at + 1].to_string()
}

/// The name in `#[diesel(mysql_type(name = "..."))]`, if there is one.
fn mysql_type_of(tokens: &[TokenTree]) -> Option<String> {
    for token in tokens {
        let text: String = token.to_string().split_whitespace().collect();
        if let Some(rest) = text.strip_prefix("[diesel(mysql_type(name=\"") {
            return rest.split('"').next().map(str::to_string);
        }
    }
    None
}
