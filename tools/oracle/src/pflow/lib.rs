//! The seven files, unchanged, as the crate that they expect: `build.rs`
//! checks and copies them. The other modules that they name are not to be
//! had; what stands here has just the names that the seven files use.
#![allow(dead_code)]

include!(concat!(env!("OUT_DIR"), "/modules.rs"));

pub mod error {
    #[derive(Debug)]
    pub enum Error {
        Game(String),
    }
    pub type Result<T> = std::result::Result<T, Error>;
}

/// Opening books: not used.
pub mod book {
    pub struct Book {
        pub entries: Vec<(Vec<i64>, f64, Option<usize>)>,
    }
}

/// Markings by name: not used.
pub mod firing {
    pub type Marking = std::collections::HashMap<String, i64>;
}

/// The declared net: not used, the model is filled from a sheet's rows.
pub mod schema {
    pub enum ArcType {
        Normal,
        Inhibitor,
        Read,
    }

    pub struct Place {
        pub id: String,
        pub capacity: i64,
    }

    pub struct Transition {
        pub id: String,
    }

    pub struct Arc {
        pub from: String,
        pub to: String,
        pub typ: ArcType,
        pub weight: i64,
    }

    pub struct Model {
        pub places: Vec<Place>,
        pub transitions: Vec<Transition>,
        pub arcs: Vec<Arc>,
    }

    impl Place {
        pub fn is_token(&self) -> bool {
            true
        }
    }

    impl Arc {
        pub fn effective_weight(&self) -> i64 {
            self.weight
        }

        pub fn is_read_only(&self) -> bool {
            !matches!(self.typ, ArcType::Normal)
        }
    }

    impl Model {
        pub fn place_by_id(&self, id: &str) -> Option<&Place> {
            self.places.iter().find(|p| p.id == id)
        }
    }
}
