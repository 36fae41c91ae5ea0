//! What the tests of this folder share.

use lists::lent::Calls;

/// The archive's six calls.
pub const ARCHIVE: Calls = Calls {
    place: zerglaz::ffi::place,
    release: zerglaz::ffi::release,
    discard: zerglaz::ffi::discard,
    apply: zerglaz::ffi::apply,
    sort: zerglaz::ffi::sort,
    generations: zerglaz::ffi::generations,
};
