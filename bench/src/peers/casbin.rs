//! Casbin, in a program of its own that is told when to measure.

use std::fmt::Write as _;
use std::io::{BufRead, BufReader, Write};
use std::process::{Child, ChildStdin, ChildStdout, Command, Stdio};

use crate::policy::{Decision, Policy};

pub struct Enforcer {
    child: Child,
    input: Option<ChildStdin>,
    output: BufReader<ChildStdout>,
}

impl Enforcer {
    pub fn new(program: &str, policy: &Policy, decisions: &[Decision]) -> Enforcer {
        let mut child = Command::new(program)
            .stdin(Stdio::piped())
            .stdout(Stdio::piped())
            .spawn()
            .expect("the Casbin program starts");
        let mut input = child.stdin.take().expect("its input is a pipe");
        let output = BufReader::new(child.stdout.take().expect("its output is a pipe"));
        input
            .write_all(lines(policy, decisions).as_bytes())
            .expect("Casbin reads the policy");
        Enforcer {
            child,
            input: Some(input),
            output,
        }
    }

    /// Nanoseconds of one decision, all of them asked.
    pub fn round(&mut self) -> f64 {
        let input = self.input.as_mut().expect("open until dropped");
        input.write_all(b"round\n").expect("Casbin reads");
        let mut line = String::new();
        self.output.read_line(&mut line).expect("Casbin answers");
        line.trim().parse().expect("Casbin agrees and tells a time")
    }
}

impl Drop for Enforcer {
    /// The program ends with its input.
    fn drop(&mut self) {
        drop(self.input.take());
        self.child.wait().ok();
    }
}

/// Names are short: a letter for the kind of thing and its number.
fn lines(policy: &Policy, decisions: &[Decision]) -> String {
    let mut text = String::new();
    for (permission, role) in &policy.grants {
        writeln!(text, "p r{role} p{permission}").unwrap();
    }
    for (session, role) in &policy.active {
        writeln!(text, "g s{session} r{role}").unwrap();
    }
    for (senior, junior) in &policy.attachments {
        writeln!(text, "g r{senior} r{junior}").unwrap();
    }
    for decision in decisions {
        let (session, permission) = (decision.session_number(), decision.permission_number());
        let verdict = u8::from(decision.verdict);
        writeln!(text, "? s{session} p{permission} {verdict}").unwrap();
    }
    text
}
