//! Number, layer and place of a refusal.

#[derive(Clone, Copy)]
pub struct Fault {
    pub number: u32,
    pub layer: u8,
    pub place: u32,
}

impl Fault {
    /// The line as a whole is no line of a day.
    pub const LINE: Fault = Fault { number: 1, layer: b'L', place: 1 };

    pub fn count(found: usize) -> Fault {
        Fault { number: 2, layer: b'L', place: found as u32 }
    }

    pub fn unreadable(field: usize) -> Fault {
        Fault { number: 3, layer: b'L', place: field as u32 }
    }

    pub fn check(number: u32, field: usize) -> Fault {
        Fault { number, layer: b'K', place: field as u32 }
    }

    pub fn series(number: u32) -> Fault {
        Fault { number, layer: b'S', place: 0 }
    }

    pub fn monitor(number: u32) -> Fault {
        Fault { number, layer: b'M', place: 0 }
    }
}
