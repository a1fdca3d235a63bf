//! The witness layer of the proved library.

use crate::subject::witness::Subject;

#[cfg(not(feature = "stand-in"))]
use library as chosen;
#[cfg(feature = "stand-in")]
use stand_in as chosen;

/// The functions that are compared.
pub const SUBJECT: Subject = chosen::SUBJECT;

#[cfg(feature = "stand-in")]
mod stand_in {
    use crate::reading::witness as reading;
    use crate::subject::witness::Subject;

    pub const SUBJECT: Subject = Subject {
        read: reading::read,
        load: reading::load,
    };
}

#[cfg(not(feature = "stand-in"))]
mod library {
    use crate::library::nit_read_witness;
    use crate::subject::witness::{Read, Role, Subject};

    calls! {
        fn probe_load_witness(text: &[u8], witness: bool, words: &mut [u64],) -> u64;
    }

    pub const SUBJECT: Subject = Subject { read, load };

    fn read(text: &[u8], role: Role) -> Read {
        nit_read_witness(text, role == Role::Witness)
    }

    fn load(text: &[u8], role: Role, words: &mut [u64]) -> u64 {
        probe_load_witness(text, role == Role::Witness, words)
    }
}
