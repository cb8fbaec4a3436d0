//! QEMU's model, driven through the qtest protocol on the process's standard input and output. The guest's processor never starts.

use crate::steps::{BASE, Step};
use std::io::{BufRead, BufReader, Write};
use std::process::{Child, ChildStdin, ChildStdout, Command, Stdio};
use std::sync::{Arc, Mutex};
use std::time::Duration;

/// A QEMU that has not ended after so long is ended, so that one that hangs is an error and not a wait.
const LONGEST: Duration = Duration::from_secs(120);

pub struct Qemu {
    process: Arc<Mutex<Child>>,
    to: ChildStdin,
    from: BufReader<ChildStdout>,
    device: String,
}

/// The value read, if it was a read, and the output lines that changed: number and new level.
pub type Shown = (Option<u64>, Vec<(u8, bool)>);

impl Qemu {
    /// A machine just started, its controller's outputs watched.
    pub fn start(program: &str, device: &str) -> Result<Self, String> {
        let words = "-machine virt -accel tcg -S -nodefaults -display none -serial none -monitor none -qtest stdio -qtest-log none";
        let mut process = Command::new(program)
            .args(words.split(' '))
            .stdin(Stdio::piped())
            .stdout(Stdio::piped())
            .stderr(Stdio::null())
            .spawn()
            .map_err(|error| format!("{program}: {error}"))?;
        let (to, from) = (process.stdin.take().unwrap(), BufReader::new(process.stdout.take().unwrap()));
        let process = Arc::new(Mutex::new(process));
        let watched = process.clone();
        std::thread::spawn(move || {
            std::thread::sleep(LONGEST);
            let _ = watched.lock().unwrap().kill();
        });
        let mut qemu = Qemu { process, to, from, device: device.into() };
        qemu.ask(&format!("irq_intercept_out {device}"))?;
        Ok(qemu)
    }

    pub fn make(&mut self, step: Step) -> Result<Shown, String> {
        let letter = |width| match width {
            1 => 'b',
            2 => 'w',
            4 => 'l',
            _ => 'q',
        };
        let command = match step {
            Step::Raise(input) => format!("set_irq_in {} unnamed-gpio-in {input} 1", self.device),
            Step::Lower(input) => format!("set_irq_in {} unnamed-gpio-in {input} 0", self.device),
            Step::Read { width, offset } => format!("read{} {:#x}", letter(width), BASE + offset),
            Step::Write { width, offset, value } => format!("write{} {:#x} {value:#x}", letter(width), BASE + offset),
        };
        self.ask(&command)
    }

    /// Sends a command and reads up to its answer; the changes of lines come before it.
    fn ask(&mut self, command: &str) -> Result<Shown, String> {
        let gone = |_| format!("QEMU ended at '{command}'");
        writeln!(self.to, "{command}").and_then(|()| self.to.flush()).map_err(gone)?;
        let mut changes = Vec::new();
        loop {
            let mut line = String::new();
            if self.from.read_line(&mut line).map_err(gone)? == 0 {
                return Err(format!("QEMU ended at '{command}'"));
            }
            match *line.split_whitespace().collect::<Vec<_>>() {
                ["OK"] => return Ok((None, changes)),
                ["OK", value] => return number(value).map(|value| (Some(value), changes)).ok_or(line),
                ["IRQ", level @ ("raise" | "lower"), vector] => {
                    changes.push((vector.parse().map_err(|_| line.clone())?, level == "raise"));
                }
                _ => return Err(format!("QEMU answers '{}' to '{command}'", line.trim())),
            }
        }
    }
}

fn number(word: &str) -> Option<u64> {
    u64::from_str_radix(word.strip_prefix("0x")?, 16).ok()
}

impl Drop for Qemu {
    fn drop(&mut self) {
        // It may have ended by itself, and then there is nothing to end.
        let mut process = self.process.lock().unwrap();
        let _ = process.kill();
        let _ = process.wait();
    }
}
