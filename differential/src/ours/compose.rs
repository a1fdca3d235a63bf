//! The compose layer of the proved library.

use crate::subject::compose::Subject;

#[cfg(not(feature = "stand-in"))]
use library as chosen;
#[cfg(feature = "stand-in")]
use stand_in as chosen;

/// The function that is compared.
pub const SUBJECT: Subject = chosen::SUBJECT;

#[cfg(feature = "stand-in")]
mod stand_in {
    use crate::reading::compose as reading;
    use crate::subject::compose::Subject;

    pub const SUBJECT: Subject = Subject {
        compose: reading::compose,
    };
}

#[cfg(not(feature = "stand-in"))]
mod library {
    use crate::library::nit_compose;
    use crate::subject::compose::{Asked, Composed, Lent, Subject};

    pub const SUBJECT: Subject = Subject { compose };

    fn compose(asked: &Asked, lent: &mut Lent) -> Composed {
        nit_compose(
            asked.model,
            asked.witnesses,
            asked.pairs,
            lent.work,
            lent.out,
        )
    }
}
