//! States that drawn lists of calls leave.

use reference::generate::session;
use reference::session::{Call, Engine, LedgerEngine, TableEngine};
use reference::Ledger;

pub const SESSIONS: u64 = 2_500;

/// Runs drawn lists of calls by both engines and looks at them at each write, of
/// which one comes after all other calls that change something.
pub fn each_state(mut look: impl FnMut(u64, &TableEngine, &Ledger)) {
    for seed in 1..=SESSIONS {
        let drawn = session(seed);
        let mut by_table = TableEngine::new(drawn.table.clone());
        let mut by_ledger = LedgerEngine::new(drawn.table.len());
        for call in &drawn.calls {
            if matches!(call, Call::Write(_)) {
                look(seed, &by_table, &by_ledger.ledger);
            }
            by_table.call(call);
            by_ledger.call(call);
        }
    }
}
