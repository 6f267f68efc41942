//! What the original's files expect of the crate around them. The files themselves stand unchanged in src/original,
//! where ../build puts them.

use std::future::Future;
use tokio::task::JoinSet;

#[path = "original/cmdu_codec.rs"]
pub mod cmdu_codec;
#[path = "original/tlv_cmdu_codec.rs"]
pub mod tlv_cmdu_codec;

pub mod cmdu {
    pub use crate::cmdu_codec::{CMDU, IEEE1905TLVType};
    pub use crate::tlv_cmdu_codec::TLV;
}

/// The reassembler, with a read-only view of its private buffer beside it.
pub mod cmdu_reassembler {
    include!("original/cmdu_reassembler.rs");

    /// A key of the buffer: sender, message id, time of the first fragment, fragments by number.
    pub type Held = (MacAddr, u16, Instant, Vec<CMDU>);

    impl CmduReassembler {
        pub async fn held(&self) -> Vec<Held> {
            let buffer = self.buffer.lock().await;
            let mut all: Vec<Held> = buffer
                .iter()
                .map(|(key, entry)| {
                    let fragments = entry.fragments.values().cloned().collect();
                    (key.0, key.1, entry.first_received, fragments)
                })
                .collect();
            all.sort_by_key(|held| (held.0, held.1));
            all
        }
    }
}

/// The number in the worker's span, which nobody reads here.
pub fn next_task_id() -> u32 {
    0
}

/// The worker runs as any task; names are for a console that isn't here.
pub fn spawn_join_set_named(
    _name: &str,
    _span: Option<()>,
    set: &mut JoinSet<()>,
    worker: impl Future<Output = ()> + Send + 'static,
) {
    set.spawn(worker);
}
