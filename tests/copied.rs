//! The compiler has to turn this down: a `Panel` can't be copied, so that nobody goes on with an
//! older record.
#![crate_type = "lib"]

pub fn copied(panel: &panel::Panel) -> panel::Panel {
    *panel
}
