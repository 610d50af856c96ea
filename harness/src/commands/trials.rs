//! Trials of the calls: a `yam` that is wrong on purpose must be found.

use super::call::{Caller, How};
use super::{given, outputs, run_calls, wrong, Call, CallsSeen};
use crate::processes::Scratch;
use crate::refusals::meaning;
use std::os::unix::fs::PermissionsExt;

/// How many of the small calls find this script wrong in `yam`'s place.
fn found(script: &str, calls: &[Call]) -> usize {
    let scratch = Scratch::new().expect("a folder");
    let yam = scratch.file("yam", format!("#!/bin/sh\n{script}\n").as_bytes()).expect("a file");
    std::fs::set_permissions(&yam, std::fs::Permissions::from_mode(0o755)).expect("a run bit");
    let caller = Caller::new(&yam).expect("two folders");
    let differences = run_calls(&caller, calls, &mut CallsSeen::default()).expect("the calls are made");
    for folder in [&caller.scratch, &caller.temporary, &scratch] {
        folder.remove();
    }
    differences.len()
}

fn refused() -> Vec<Call> {
    let call = |given| given::call("a trial", given, None, How::Named).expect("a call");
    wrong::refused().iter().map(call).collect()
}

#[test]
fn a_yam_that_says_nothing_or_everything_is_found() {
    let calls: Vec<Call> = [refused(), wrong::all().expect("calls")].into_iter().flatten().collect();
    for script in
        ["exit 0", "exit 1", "exit 2", "echo refused 19; echo 'yam: refused 19: The image file has the wrong length' >&2; exit 1"]
    {
        assert!(found(script, &calls) > calls.len() / 2, "{script}");
    }
}

/// The one call of these whose image is refused by 19.
#[test]
fn a_yam_that_is_wrong_in_one_thing_is_found() {
    let call = || vec![refused().swap_remove(0)];
    let line = meaning(19).expect("a meaning");
    assert_eq!(found(&format!("echo refused 19; echo 'yam: refused 19: {line}' >&2; exit 1"), &call()), 0);
    for script in [
        format!("echo refused 19; echo 'yam: refused 19: {line}' >&2; exit 0"),
        format!("echo 'yam: refused 19: {line}' >&2; exit 1"),
        "echo refused 19; echo 'yam: refused 19: A length' >&2; exit 1".to_string(),
        "echo refused 19; exit 1".to_string(),
        format!("echo refused 19; echo 'yam: refused 19: {line}' >&2; echo >&2; exit 1"),
        format!("echo refused 19; echo 'yam: refused 19: {line}' >&2; echo half >\"$TMPDIR/half\"; exit 1"),
        format!("echo refused 19; echo 'yam: refused 19: {line}' >&2; echo half >half; exit 1"),
    ] {
        assert_eq!(found(&script, &call()), 1, "{script}");
    }
}

#[test]
fn output_that_fails_in_silence_is_found() {
    let full = outputs::failing().expect("calls");
    assert!(found("echo ended 0; exit 0", &full) > full.len() / 2);
    assert!(found("echo ended 0 2>&-; exit 3", &full) > full.len() / 2);
}

#[test]
fn statuses_that_were_never_met_are_told() {
    let unmet = CallsSeen::default().unmet();
    assert!(unmet.contains(&"trace never ended with 3".to_string()) && unmet.len() == 28);
}
