//! Speeds of the port beside plain programs and the originals.

#[cfg(originals)]
#[allow(dead_code)]
#[path = "../host/capacity.rs"]
mod capacity;
// The comparison calls the functions that are not measured here.
#[allow(dead_code)]
#[path = "../host/exports.rs"]
mod exports;
#[cfg(originals)]
mod formats;
#[allow(dead_code)]
#[path = "../../include/fowlcredenza.rs"]
mod fowlcredenza;
mod hash;
#[cfg(originals)]
mod lay_out;
#[cfg(originals)]
#[allow(dead_code)]
#[path = "../host/lent.rs"]
mod lent;
#[cfg(originals)]
#[path = "../host/lent_state.rs"]
mod lent_state;
#[cfg(originals)]
mod lock;
#[cfg(originals)]
mod lock_scenes;
#[allow(dead_code)]
#[path = "../host/prng.rs"]
mod prng;
#[allow(dead_code)]
#[path = "../host/scene.rs"]
mod scene;
#[allow(dead_code)]
#[path = "../host/scene_exports.rs"]
mod scene_exports;
#[path = "scene.rs"]
mod scene_speed;
#[cfg(originals)]
#[path = "../host/scene_text.rs"]
mod scene_text;
#[path = "../host/test_exports.rs"]
mod test_exports;

fn main() {
    hash::run();
    scene_speed::run();
    #[cfg(originals)]
    formats::run();
    #[cfg(originals)]
    lock::run();
}
