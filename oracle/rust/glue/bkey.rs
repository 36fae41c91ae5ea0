//@item src/bkey.rs | pub struct Bpos {
//@item src/bkey.rs | pub struct Bkey {
//@item src/bkey.rs | pub mod key_type {
