//! The example hosts, run as processes, each on an image file. The power_cut
//! library is loaded into them: it keeps a copy of what is sure to be on the
//! disk. hosts/test builds all of these.

pub mod whole;

use std::fs::{self, File};
use std::io::{Read, Write};
use std::os::unix::process::CommandExt;
use std::path::{Path, PathBuf};
use std::process::{Child, Command, ExitStatus, Stdio};
use std::sync::mpsc::{channel, RecvTimeoutError};
use std::thread;
use std::time::Duration;

pub const HOSTS: [&str; 3] = [
    "hosts/serve-c",
    "hosts/COUNTER",
    "rust/release/examples/serve",
];

pub const SIGHUP: i32 = 1;
pub const SIGINT: i32 = 2;
pub const SIGKILL: i32 = 9;
pub const SIGTERM: i32 = 15;

extern "C" {
    fn kill(process: i32, signal: i32) -> i32;
    fn signal(signal: i32, action: usize) -> usize;
}

/// What a process does on a signal if nobody has said otherwise: it ends.
const USUAL: usize = 0;

/// A file under target/, which must be there.
pub fn built(name: &str) -> PathBuf {
    let target = Path::new(env!("CARGO_MANIFEST_DIR")).join("../../target");
    let path = target.canonicalize().expect("target/").join(name);
    assert!(
        path.exists(),
        "{} is missing: run hosts/test",
        path.display()
    );
    path
}

/// A folder for one image file, empty at first.
pub struct Place {
    folder: PathBuf,
}

impl Place {
    pub fn new(name: &str) -> Place {
        let folder = built("hosts").join("survives").join(name);
        let _ = fs::remove_dir_all(&folder);
        fs::create_dir_all(&folder).expect("a folder for the image");
        Place { folder }
    }

    pub fn image(&self) -> PathBuf {
        self.folder.join("image")
    }

    /// The copy of what a power cut would leave.
    pub fn disk(&self) -> PathBuf {
        self.folder.join("disk")
    }

    pub fn messages(&self) -> String {
        fs::read_to_string(self.folder.join("messages")).expect("the messages of a host")
    }
}

/// A host at work.
pub struct Running {
    child: Child,
    /// The bytes of journal seen so far.
    pub seen: Vec<u8>,
}

impl Running {
    pub fn start(host: &str, place: &Place) -> Running {
        let messages = File::create(place.folder.join("messages")).expect("a file for messages");
        let mut command = Command::new(built(host));
        // A shell runs what is in the background with SIGINT ignored, nohup with SIGHUP, and that is handed on.
        // SAFETY: signal(2) may be called between fork and exec.
        unsafe {
            command.pre_exec(|| {
                for number in [SIGHUP, SIGINT, SIGTERM] {
                    signal(number, USUAL);
                }
                Ok(())
            });
        }
        let child = command
            .arg("--image")
            .arg(place.image())
            .env("LD_PRELOAD", built("hosts/power_cut.so"))
            .env("LOCK_BOARD_FILE", place.image())
            .env("LOCK_BOARD_DISK", place.disk())
            .stdin(Stdio::piped())
            .stdout(Stdio::piped())
            .stderr(messages)
            .spawn()
            .unwrap_or_else(|error| panic!("{host}: {error}"));
        Running {
            child,
            seen: Vec::new(),
        }
    }

    /// Sends request lines, which must all fit into a pipe (65,536 bytes).
    pub fn send(&mut self, lines: &[Vec<u8>]) {
        let mut text = lines.join(&b'\n');
        text.push(b'\n');
        assert!(text.len() < 60_000);
        let input = self.child.stdin.as_mut().expect("the input");
        // A host that has turned the session away no longer reads.
        let _ = input.write_all(&text);
    }

    /// Waits until so many bytes of journal were seen, or the host has ended.
    pub fn wait_for(&mut self, len: usize) {
        let output = self.child.stdout.as_mut().expect("the output");
        let mut bytes = [0; 512];
        while self.seen.len() < len {
            match output.read(&mut bytes).expect("the output is read") {
                0 => return,
                n => self.seen.extend(&bytes[..n]),
            }
        }
    }

    pub fn signal(&mut self, signal: i32) {
        // SAFETY: it takes numbers; the child has not been waited for, so its number is its own.
        assert_eq!(unsafe { kill(self.child.id() as i32, signal) }, 0);
    }

    /// Waits for the end of a host that a signal ends; its input stays open until then. A signal
    /// that meets GnuCOBOL while it starts may leave it waiting for a lock of its own for ever, so
    /// what has not ended after half a minute is killed, as an operator would.
    pub fn ended(mut self) -> (ExitStatus, Vec<u8>) {
        let process = self.child.id() as i32;
        let (ended, watch) = channel::<()>();
        let killer = thread::spawn(move || {
            if watch.recv_timeout(Duration::from_secs(30)) == Err(RecvTimeoutError::Timeout) {
                // SAFETY: it takes numbers; the child has not been waited for, so its number is its own.
                unsafe { kill(process, SIGKILL) };
            }
        });
        self.wait_for(usize::MAX);
        drop(ended);
        killer.join().expect("the watch");
        let status = self.child.wait().expect("the end of a host");
        (status, self.seen)
    }

    /// Ends the input and waits for the end of the host.
    pub fn finish(mut self) -> (ExitStatus, Vec<u8>) {
        drop(self.child.stdin.take());
        self.ended()
    }
}
