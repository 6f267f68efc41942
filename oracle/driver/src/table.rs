//! The original's reassembler under commands: its worker goes round exactly once per sweep, at the time that the
//! command sets.

use crate::clock;
use crate::words::shown;
use driver::cmdu::CMDU;
use driver::cmdu_reassembler::{CmduReassembler, CmduReassemblyError, Held};
use pnet::datalink::MacAddr;
use std::fmt::Write;
use std::sync::atomic::{AtomicU64, Ordering};
use std::time::Duration;
use tokio::runtime::{Builder, Runtime};
use tracing::field::{Field, Visit};
use tracing::span::{Attributes, Id, Record};
use tracing::{Event, Level, Metadata, Subscriber};

/// Keys that the worker's log lines named: no fragments, none marked last, fewer than the highest number plus 1.
static LOGGED: [AtomicU64; 3] = [const { AtomicU64::new(0) }; 3];

/// Hears the worker's error lines and nothing else.
pub struct Log;

struct Line;

impl Visit for Line {
    fn record_debug(&mut self, _field: &Field, value: &dyn std::fmt::Debug) {
        let text = format!("{value:?}");
        let reasons = [": EmptyFragments", ": MissingLastFragment", ": MissingFragments"];
        for (count, reason) in LOGGED.iter().zip(reasons) {
            if text.ends_with(reason) {
                count.fetch_add(1, Ordering::Relaxed);
            }
        }
    }
}

impl Subscriber for Log {
    fn enabled(&self, metadata: &Metadata<'_>) -> bool {
        metadata.is_event() && *metadata.level() == Level::ERROR && metadata.target().ends_with("cmdu_reassembler")
    }

    fn new_span(&self, _span: &Attributes<'_>) -> Id {
        Id::from_u64(1)
    }

    fn record(&self, _span: &Id, _values: &Record<'_>) {}

    fn record_follows_from(&self, _span: &Id, _follows: &Id) {}

    fn event(&self, event: &Event<'_>) {
        event.record(&mut Line);
    }

    fn enter(&self, _span: &Id) {}

    fn exit(&self, _span: &Id) {}
}

pub struct Table {
    runtime: Runtime,
    table: CmduReassembler,
}

/// Lets the worker go round: until it has read the clock once more.
async fn once_round(readings: u64) {
    for _ in 0..10_000 {
        if clock::readings() > readings {
            return;
        }
        tokio::task::yield_now().await;
    }
    panic!("the worker doesn't go round");
}

impl Table {
    pub fn new() -> Self {
        let runtime = Builder::new_current_thread().enable_time().start_paused(true).build().expect("a runtime");
        let table = Self::fresh_in(&runtime);
        Self { runtime, table }
    }

    // The worker's first round comes at once, over an empty buffer.
    fn fresh_in(runtime: &Runtime) -> CmduReassembler {
        runtime.block_on(async {
            let readings = clock::readings();
            let table = CmduReassembler::new();
            once_round(readings).await;
            table
        })
    }

    pub fn fresh(&mut self) {
        self.table = Self::fresh_in(&self.runtime);
    }

    fn held(&self) -> Vec<Held> {
        self.runtime.block_on(self.table.held())
    }

    pub fn push(&mut self, sender: MacAddr, fragment: CMDU, time: u64) -> String {
        clock::set(time);
        let single = !self.held().iter().any(|h| h.0 == sender && h.1 == fragment.message_id);
        let metadata = (fragment.message_version, fragment.message_type, fragment.message_id);
        let answer = self.runtime.block_on(self.table.push_fragment(sender, fragment));
        match answer {
            None => "waiting".into(),
            Some(Err(CmduReassemblyError::DuplicatedFragment)) => "DuplicatedFragment".into(),
            Some(Err(CmduReassemblyError::InconsistentMetadata)) => "InconsistentMetadata".into(),
            Some(Err(CmduReassemblyError::MissingFragments)) => "MissingFragments".into(),
            Some(Err(CmduReassemblyError::MissingLastFragment)) => "MissingLastFragment".into(),
            Some(Err(other)) => format!("odd {other:?}"),
            Some(Ok(m)) if (m.message_version, m.message_type, m.message_id) != metadata => "odd metadata".into(),
            Some(Ok(m)) => {
                let form = if single { "single" } else { "joined" };
                format!("complete {form} {}", shown(&m.payload))
            }
        }
    }

    pub fn sweep(&mut self, time: u64) -> String {
        clock::set(time);
        let before = self.held().len() as u64;
        LOGGED.iter().for_each(|count| count.store(0, Ordering::Relaxed));
        self.runtime.block_on(async {
            let readings = clock::readings();
            tokio::time::advance(Duration::from_secs(3)).await;
            once_round(readings).await;
        });
        let dropped = before - self.held().len() as u64;
        let [empty, no_last, missing] = LOGGED.each_ref().map(|count| count.load(Ordering::Relaxed));
        let neither = dropped - empty - no_last - missing;
        format!("swept {empty} {no_last} {missing} {neither}")
    }

    pub fn contents(&self) -> String {
        let held = self.held();
        let places: usize = held.iter().map(|h| h.3.len()).sum();
        let mut text = format!("ok {} {places}", held.len());
        for (sender, id, first, fragments) in held {
            let _ = write!(text, " {}/{id}@{}", shown(&sender.octets()), clock::shown_at(first));
            for f in fragments {
                let last = f.is_last_fragment() as u8;
                let (version, kind) = (f.message_version, f.message_type);
                let _ = write!(text, " {}:{version}:{kind}:{last}:{}", f.fragment, shown(&f.payload));
            }
        }
        text
    }
}
