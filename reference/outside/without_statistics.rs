//! What the libraries before version 0.8 were asked: their statistics lines were unlisted, none were compared,
//! and no gaps were kept.

use reference::Asked;

/// `struct cantuvesh_asked` as it was from version 0.2 on.
#[repr(C)]
pub struct AskedBefore {
    choice: u32,
    levels: u32,
    picl: i64,
    user: i64,
    trace: i64,
}

/// Whether such a library can be asked this.
pub fn knows(asked: Asked) -> bool {
    asked.statistics == 0 && asked.share == 0
}

/// What the reference is asked as such a library was.
pub fn asked_of(asked: Asked) -> AskedBefore {
    let Asked { choice, levels, picl, user, trace, .. } = asked;
    AskedBefore { choice, levels, picl, user, trace }
}
