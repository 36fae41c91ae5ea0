//@item src/util.rs | pub(crate) fn le64(
