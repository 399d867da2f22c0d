//! Names that clauses begin with.

pub fn ensures(requires: bool) -> bool {
    requires
}

pub struct Asked {
    pub requires: bool,
}

impl Asked {
    pub fn invariant(&self) -> bool {
        let decreases = Asked { requires: self.requires };
        if decreases.requires { ensures(true) } else { ensures(decreases.requires) }
    }
}

pub fn ghost(prove: u32) -> u32 {
    match prove {
        requires if requires > 1 => requires,
        ensures => ensures,
    }
}
