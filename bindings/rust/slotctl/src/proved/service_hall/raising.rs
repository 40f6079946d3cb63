// Erased by bindings/rust/erase from crates/service_hall/src/raising.rt, sha256 31b071cde986b121dcf8698dea4bcb953a6fb9c632b797a70bc95c76096fd8cb.
//! Tokens that are told to those who put them.

use crate::proved::model_asked::reply::Reply;

/// Returns what a client is told whose `put` of a token was answered so: the token, if it was put.
pub fn token_reply(token: u64, reply: Reply<()>) -> Reply<()> {
    match reply {
        Reply::Ok => Reply::Value(token),
        other => other,
    }
}
