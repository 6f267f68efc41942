//! What the original's files expect of the crate around them. The files themselves stand unchanged in src/original,
//! where ../run puts them.

use std::future::Future;
use tokio::task::JoinSet;

#[path = "original/cmdu_codec.rs"]
pub mod cmdu_codec;
#[path = "original/tlv_cmdu_codec.rs"]
pub mod tlv_cmdu_codec;

pub mod cmdu {
    pub use crate::cmdu_codec::{CMDU, IEEE1905TLVType};
    pub use crate::tlv_cmdu_codec::TLV;
}

/// The reassembler, with what the rows need of its private buffer beside it.
pub mod cmdu_reassembler {
    include!("original/cmdu_reassembler.rs");

    /// The contents of a buffer, made before a row's first turn.
    pub struct Made(HashMap<(MacAddr, u16), FragmentBuffer>);

    impl Made {
        /// These fragments, as first received `age` ago; below 0 is a time to come, which is never too old.
        pub fn of(fragments: &[(MacAddr, CMDU)], age: i64) -> Self {
            let now = Instant::now();
            let span = Duration::from_secs(age.unsigned_abs());
            let first_received = if age < 0 { now + span } else { now - span };
            let mut buffer = HashMap::new();
            for (sender, fragment) in fragments {
                buffer
                    .entry((*sender, fragment.message_id))
                    .or_insert_with(|| FragmentBuffer { fragments: BTreeMap::new(), first_received })
                    .fragments
                    .insert(fragment.fragment, fragment.clone());
            }
            Self(buffer)
        }
    }

    impl CmduReassembler {
        /// Takes other contents in. The old ones are not dropped, so that a row's turns don't pay for it.
        pub async fn take(&self, made: Made) {
            std::mem::forget(std::mem::replace(&mut *self.buffer.lock().await, made.0));
        }

        pub async fn keys(&self) -> usize {
            self.buffer.lock().await.len()
        }
    }
}

/// The number in the worker's span, which nobody reads here.
pub fn next_task_id() -> u32 {
    0
}

/// The worker runs as any task; names are for a console that isn't here.
pub fn spawn_join_set_named(
    _name: &str,
    _span: Option<()>,
    set: &mut JoinSet<()>,
    worker: impl Future<Output = ()> + Send + 'static,
) {
    set.spawn(worker);
}
