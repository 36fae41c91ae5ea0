//@item src/extent.rs | pub mod compression {
//@item src/extent.rs | pub struct Ptr {
//@item src/extent.rs | pub struct Crc {
//@item src/extent.rs | pub struct DataExtent {
