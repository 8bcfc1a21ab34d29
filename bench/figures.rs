//! A rule's figures, laid out as the library lays them out.

#[derive(Clone, Copy, Default, PartialEq, Eq, Debug)]
#[repr(C)]
pub struct Figures {
    pub both: u64,
    pub act: u64,
    pub tgt: u64,
    pub none: u64,
    pub triggered: u64,
    pub degrees: u64,
}

impl Figures {
    pub fn add(&mut self, other: &Figures) {
        self.both += other.both;
        self.act += other.act;
        self.tgt += other.tgt;
        self.none += other.none;
        self.triggered += other.triggered;
        self.degrees += other.degrees;
    }
}
