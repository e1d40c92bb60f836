//! failstop.h is C, its structs are as large as those of `ffi`, the replica's fields
//! stand at the same places, and its refusal numbers are the model's.

use std::io::Write;
use std::mem::{offset_of, size_of};
use std::process::{Command, Stdio};

use bench::ffi;
use bench::model::Refusal;

#[test]
fn header_is_c_with_the_same_structs() {
    let sizes = [
        ("failstop_timestamp", size_of::<ffi::Timestamp>()),
        ("failstop_local_time", size_of::<ffi::LocalTime>()),
        ("failstop_request", size_of::<ffi::Request>()),
        ("failstop_message", size_of::<ffi::Message>()),
        ("failstop_pending", size_of::<ffi::Pending>()),
        ("failstop_settings", size_of::<ffi::Settings>()),
        ("failstop_replica", size_of::<ffi::Replica>()),
        ("failstop_query", size_of::<ffi::Query>()),
        ("failstop_list", size_of::<ffi::List>()),
        ("failstop_request_result", size_of::<ffi::RequestResult>()),
        ("failstop_message_result", size_of::<ffi::MessageResult>()),
        ("failstop_replica_result", size_of::<ffi::ReplicaResult>()),
        ("failstop_step_result", size_of::<ffi::StepResult>()),
        ("failstop_election", size_of::<ffi::Election>()),
        ("failstop_halt_count", size_of::<ffi::HaltCount>()),
        ("failstop_vote_result", size_of::<ffi::VoteResult>()),
        ("failstop_halt_result", size_of::<ffi::HaltResult>()),
        ("failstop_player", size_of::<ffi::Player>()),
        ("failstop_block_result", size_of::<ffi::BlockResult>()),
    ];
    let asserts: String = sizes
        .iter()
        .map(|(name, size)| format!("_Static_assert(sizeof({name}) == {size}, \"{name}\");\n"))
        .collect();
    compile(&format!("#include \"failstop.h\"\n{asserts}"));
}

#[test]
fn the_replicas_fields_stand_at_the_same_places() {
    let places = [
        ("settings", offset_of!(ffi::Replica, settings)),
        ("number", offset_of!(ffi::Replica, number)),
        ("last", offset_of!(ffi::Replica, last)),
        ("variables", offset_of!(ffi::Replica, variables)),
        ("pending", offset_of!(ffi::Replica, pending)),
        ("counts", offset_of!(ffi::Replica, counts)),
        ("writes", offset_of!(ffi::Replica, writes)),
    ];
    let asserts = places.map(|(name, place)| {
        format!("_Static_assert(offsetof(failstop_replica, {name}) == {place}, \"{name}\");\n")
    });
    compile(&format!("#include \"failstop.h\"\n{}", asserts.concat()));
}

#[test]
fn the_refusals_have_the_models_numbers() {
    let numbers = [
        ("K", Refusal::K),
        ("GROUPS", Refusal::Groups),
        ("OWNER", Refusal::Owner),
        ("DELTA", Refusal::Delta),
        ("REPLICA", Refusal::Replica),
        ("LENGTH", Refusal::Length),
        ("KIND", Refusal::Kind),
        ("GROUP", Refusal::Group),
        ("PROCESS", Refusal::Process),
        ("VARIABLE", Refusal::Variable),
        ("TIME_TOO_LARGE", Refusal::TimeTooLarge),
        ("TIME_GOES_BACK", Refusal::TimeGoesBack),
        ("PENDING_FULL", Refusal::PendingFull),
        ("TOO_LITTLE_ROOM", Refusal::TooLittleRoom),
        ("LIST_TOO_LONG", Refusal::ListTooLong),
        ("NO_MAJORITY", Refusal::NoMajority),
        ("PARTIAL_RECORD", Refusal::PartialRecord),
        ("RECORD_ORDER", Refusal::RecordOrder),
        ("JOURNAL_ZERO", Refusal::JournalZero),
        ("SPARE_BYTE", Refusal::SpareByte),
        ("VALUE", Refusal::Value),
    ];
    let asserts = numbers.map(|(name, refusal)| {
        let number = refusal.number();
        format!("_Static_assert(FAILSTOP_{name} == {number}, \"{name}\");\n")
    });
    compile(&format!("#include \"failstop.h\"\n{}", asserts.concat()));
}

/// Checks a C file and writes nothing.
fn compile(text: &str) {
    let mut child = Command::new("cc")
        .args(["-std=c11", "-Wall", "-Werror", "-fsyntax-only", "-x", "c", "-I"])
        .args([concat!(env!("CARGO_MANIFEST_DIR"), "/../crates/export"), "-"])
        .stdin(Stdio::piped())
        .spawn()
        .expect("cc, which also links this test");
    child.stdin.take().expect("a pipe").write_all(text.as_bytes()).expect("cc reads all");
    assert!(child.wait().expect("cc ends").success());
}
