//! Judges what passed between an LSP client and a server, by JSON-RPC 2.0 and LSP 3.17.
//!
//! ```
//! let mut session = lsp_judge::Session::new();
//! session.sent(br#"{"jsonrpc":"2.0","id":1,"method":"initialize","params":{"capabilities":{}}}"#);
//! session.got(br#"{"jsonrpc":"2.0","id":1,"result":{"capabilities":{}}}"#);
//! session.check();
//! ```

/// Whose breaches count.
#[derive(Clone, Copy, Debug, PartialEq, Eq)]
pub enum Side {
    Server,
    Client,
    Both,
}

/// The weakest level of a rule that counts.
#[derive(Clone, Copy, Debug, PartialEq, Eq)]
pub enum Level {
    Must,
    Should,
    Implied,
}

#[derive(Clone, Copy, Debug, PartialEq, Eq)]
pub enum Status {
    /// There is a message, every line was read, and no rule is broken that counts.
    Clean,
    /// A rule is broken that counts.
    Broken,
    /// There is no message.
    Nothing,
    /// A line was not read, and in what was read no rule is broken that counts.
    Unread,
}

#[repr(C)]
struct Options {
    size: u64,
    from_line: u64,
    format: u8,
    side: u8,
    level: u8,
    begins_late: u8,
    groups: u32,
}

#[repr(C)]
struct Verdict {
    size: u64,
    unread: u64,
    needed: u64,
    written: u64,
}

extern "C" {
    fn lsp_judge_log(
        options: *const Options,
        log: *const u8,
        log_len: usize,
        report: *mut u8,
        report_len: usize,
        verdict: *mut Verdict,
    ) -> u8;
    fn lsp_judge_version() -> u32;
}

/// The version of the library: major * 1,000,000 + minor * 1,000 + patch.
pub fn version() -> u32 {
    // SAFETY: it takes and reads nothing.
    unsafe { lsp_judge_version() }
}

/// Judges a recording, and returns the status and the lines of `lsp_check --json`. `None`: an allocation failed.
pub fn judge(log: &[u8], side: Side, level: Level) -> Option<(Status, String)> {
    let options = Options {
        size: size_of::<Options>() as u64,
        from_line: 0,
        format: 0,
        side: side as u8,
        level: level as u8,
        begins_late: 0,
        groups: 0,
    };
    let mut report = vec![0u8; 1 << 14];
    loop {
        let mut verdict = Verdict { size: size_of::<Verdict>() as u64, unread: 0, needed: 0, written: 0 };
        // SAFETY: the pointers and lengths are those of live values and slices that do not overlap; none is null.
        let status = unsafe {
            lsp_judge_log(&options, log.as_ptr(), log.len(), report.as_mut_ptr(), report.len(), &mut verdict)
        };
        let status = match status {
            0 => Status::Clean,
            1 => Status::Broken,
            2 => Status::Nothing,
            3 => Status::Unread,
            _ => return None,
        };
        if verdict.needed <= report.len() as u64 {
            report.truncate(verdict.written as usize);
            return Some((status, String::from_utf8_lossy(&report).into_owned()));
        }
        report.resize(verdict.needed as usize, 0);
    }
}

/// What passed, in its order.
#[derive(Default)]
pub struct Session {
    log: Vec<u8>,
}

impl Session {
    pub fn new() -> Session {
        Session::default()
    }

    /// Keeps a content part that the client sent.
    pub fn sent(&mut self, content: &[u8]) {
        self.keep(b"-> ", content);
    }

    /// Keeps a content part that the client got.
    pub fn got(&mut self, content: &[u8]) {
        self.keep(b"<- ", content);
    }

    fn keep(&mut self, mark: &[u8], content: &[u8]) {
        self.log.extend_from_slice(mark);
        // A recording has a message in each line. JSON allows "\r" just where it allows "\n".
        self.log.extend(content.iter().map(|it| if *it == b'\n' { b'\r' } else { *it }));
        self.log.push(b'\n');
    }

    /// Panics if a rule of the level `Must` is broken, by either side, or if there is no message or one was not read.
    #[track_caller]
    pub fn check(&self) {
        match judge(&self.log, Side::Both, Level::Must) {
            Some((Status::Clean, _)) => {}
            Some((status, report)) => panic!("{status:?}\n{report}in\n{}", String::from_utf8_lossy(&self.log)),
            None => panic!("out of memory"),
        }
    }
}

#[cfg(test)]
mod tests {
    use super::*;

    const GOOD: [(bool, &str); 6] = [
        (true, r#"{"jsonrpc":"2.0","id":1,"method":"initialize","params":{"capabilities":{}}}"#),
        (false, r#"{"jsonrpc":"2.0","id":1,"result":{"capabilities":{}}}"#),
        (true, r#"{"jsonrpc":"2.0","method":"initialized","params":{}}"#),
        (true, r#"{"jsonrpc":"2.0","id":2,"method":"shutdown"}"#),
        (false, r#"{"jsonrpc":"2.0","id":2,"result":null}"#),
        (true, r#"{"jsonrpc":"2.0","method":"exit"}"#),
    ];

    fn session(messages: &[(bool, &str)]) -> Session {
        let mut session = Session::new();
        for (is_sent, content) in messages {
            if *is_sent { session.sent(content.as_bytes()) } else { session.got(content.as_bytes()) }
        }
        session
    }

    #[test]
    fn a_good_session_passes() {
        session(&GOOD).check();
        assert_eq!(version(), 26_000);
    }

    #[test]
    #[should_panic(expected = "NobodyAsked")]
    fn a_second_reply_is_shown() {
        let mut messages = GOOD.to_vec();
        messages.insert(5, GOOD[4]);
        session(&messages).check();
    }

    #[test]
    fn what_counts_decides() {
        let mut messages = GOOD.to_vec();
        messages.insert(5, GOOD[4]);
        let log = session(&messages).log;
        assert_eq!(judge(&log, Side::Server, Level::Must).unwrap().0, Status::Broken);
        assert_eq!(judge(&log, Side::Client, Level::Implied).unwrap().0, Status::Clean);
    }

    #[test]
    fn nothing_is_not_clean() {
        assert_eq!(judge(&[], Side::Both, Level::Implied).unwrap().0, Status::Nothing);
        assert_eq!(judge(b"hello\n", Side::Server, Level::Must).unwrap().0, Status::Nothing);
        assert_eq!(judge(b"-> hello", Side::Server, Level::Must).unwrap().0, Status::Unread);
    }

    #[test]
    fn threads_judge_beside_one_another() {
        std::thread::scope(|scope| {
            for _ in 0..8 {
                scope.spawn(|| (0..50).for_each(|_| session(&GOOD).check()));
            }
        });
    }
}
