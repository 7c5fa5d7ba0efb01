//! The serial port of a board, on Linux.

use crate::Follower;
use crate::following::{Views, now};
use core::mem;
use core::time::Duration;
use std::boxed::Box;
use std::collections::BTreeSet;
use std::fs::{self, File};
use std::io::{self, ErrorKind, Read, Write};
use std::os::unix::fs::OpenOptionsExt;
use std::path::{Path, PathBuf};
use std::process::{Command, Stdio};
use std::string::ToString;
use std::vec::Vec;
use std::{format, thread};

// Numbers of Linux, which the standard library doesn't export.
#[cfg(any(target_arch = "mips", target_arch = "mips64", target_arch = "sparc64"))]
compile_error!("Port doesn't know the numbers of this processor: build without the feature std");
const O_NOCTTY: i32 = 0o400;
const O_NONBLOCK: i32 = 0o4000;

/// The longest time that a write waits for the port, in milliseconds.
const PATIENCE: u64 = 2000;
/// Locks the port, which is its standard input, and sets it up. The port marks altered bytes. Its
/// status says what has failed.
const SET_UP: &str = "command -v flock >/dev/null && command -v stty >/dev/null || exit 3
flock -n 0 || { test $? = 1 && exit 2; exit 4; }
stty 9600 raw -echo cs8 -parenb -cstopb -crtscts clocal inpck parmrk";

/// The prefixes of the names of USB and Bluetooth serial ports.
const KINDS: [&str; 3] = ["rfcomm", "ttyACM", "ttyUSB"];

/// Lists the names of the serial ports that may be boards, which are those of USB and Bluetooth. It
/// opens none.
///
/// The name is the port's first one in `/dev/serial/by-id`, which stays the same, or otherwise that
/// in `/dev`. Names in `by-id` are listed first; both groups are sorted.
///
/// ```
/// for path in dgt::ports() {
///     println!("{}", path.display());
/// }
/// ```
#[must_use]
pub fn ports() -> Vec<PathBuf> {
    ports_in(Path::new("/dev"))
}

fn ports_in(dev: &Path) -> Vec<PathBuf> {
    // A link with a dot is not yet complete.
    let mut paths = paths_in(&dev.join("serial/by-id"), |name| !name.starts_with('.'));
    paths.extend(paths_in(dev, |name| KINDS.iter().any(|kind| name.starts_with(kind))));
    let mut devices = BTreeSet::new();
    paths.retain(|path| fs::canonicalize(path).is_ok_and(|device| devices.insert(device)));
    paths
}

/// The paths of a folder's entries with such names, sorted. None if there is no such folder.
fn paths_in(folder: &Path, is_named: impl Fn(&str) -> bool) -> Vec<PathBuf> {
    let entries = fs::read_dir(folder).into_iter().flatten().flatten();
    let named = entries.filter(|entry| is_named(&entry.file_name().to_string_lossy()));
    let mut paths: Vec<_> = named.map(|entry| entry.path()).collect();
    paths.sort();
    paths
}

/// Opens a port again, for [`follow`].
pub type Reopen = Box<dyn FnMut() -> io::Result<Port> + Send>;

/// Follows the board on a serial port, and reopens the port if it was unplugged.
///
/// ```no_run
/// for view in dgt::follow("/dev/ttyUSB0")? {
///     if let (Some(picture), false) = (view.picture, view.in_doubt) {
///         println!("{picture}");
///     }
/// }
/// # Ok::<(), std::io::Error>(())
/// ```
///
/// # Errors
///
/// Those of [`Port::open`].
pub fn follow(path: impl Into<PathBuf>) -> io::Result<Views<Reopen, Port>> {
    follow_with(path, Follower::default())
}

/// The same with this follower, which has another period or patience:
/// `follow_with("/dev/ttyUSB0", Follower::new(5000, 6))` asks every five seconds.
///
/// # Errors
///
/// Those of [`Port::open`].
pub fn follow_with(
    path: impl Into<PathBuf>,
    follower: Follower,
) -> io::Result<Views<Reopen, Port>> {
    let path = path.into();
    Views::with_follower(Box::new(move || Port::open(&path)), follower)
}

/// A serial port: 9600 baud, 8 bits, no parity, 1 stop bit, raw. It is closed with the object.
/// Programs that lock ports with `flock` can't open it; any other could, and take its bytes.
///
/// The standard library can neither set up a port nor wait for one. Therefore the commands `stty`
/// and `flock` set it up, and a read returns `WouldBlock` if nothing was received.
#[derive(Debug)]
pub struct Port {
    file: File,
    marks: Marks,
    is_disturbed: bool,
}

/// The error of a port, with its path and what to do about it.
fn named(path: &Path, fault: &io::Error) -> io::Error {
    let text = match fault.kind() {
        ErrorKind::NotFound => {
            "no such port (plug the board in; /dev/serial/by-id lists the ports)".into()
        }
        ErrorKind::PermissionDenied => "permission denied (join the group dialout)".into(),
        ErrorKind::ResourceBusy => "in use by another program (end that one first)".into(),
        _ => fault.to_string(),
    };
    io::Error::new(fault.kind(), format!("{}: {text}", path.display()))
}

/// A partial mark of the port. `ff ff` is the byte ff, and `ff 00` precedes a byte with a wrong
/// stop bit, or the 00 of a break.
#[derive(Debug, Default, PartialEq)]
enum Marks {
    #[default]
    Nothing,
    Mark,
    Altered,
}

impl Marks {
    /// Removes the marks and the altered bytes. Returns how many bytes are left, and whether any
    /// was altered.
    fn take(&mut self, bytes: &mut [u8]) -> (usize, bool) {
        let (mut kept, mut is_altered) = (0, false);
        for at in 0..bytes.len() {
            let byte = bytes[at];
            *self = match (&self, byte) {
                (Marks::Nothing, 0xff) => Marks::Mark,
                (Marks::Mark, 0) => Marks::Altered,
                (Marks::Altered, _) => {
                    is_altered = true;
                    Marks::Nothing
                }
                _ => {
                    bytes[kept] = byte;
                    kept += 1;
                    Marks::Nothing
                }
            };
        }
        (kept, is_altered)
    }
}

impl Port {
    /// Opens a port, locks it and sets it up. It never waits for a board.
    ///
    /// ```
    /// use dgt::Port;
    ///
    /// let fault = Port::open("/dev/null").unwrap_err();
    /// assert_eq!(fault.kind(), std::io::ErrorKind::InvalidInput);
    /// assert_eq!(fault.to_string(), "/dev/null: not a serial port");
    /// ```
    ///
    /// # Errors
    ///
    /// The error of opening the file, such as `NotFound` or `PermissionDenied`. `ResourceBusy` if
    /// another program uses the port, `InvalidInput` if it isn't a serial port, and `Unsupported`
    /// if a command that this call needs is missing. The text names the path, and says what to do.
    pub fn open(path: impl AsRef<Path>) -> io::Result<Self> {
        Port::open_path(path.as_ref()).map_err(|fault| named(path.as_ref(), &fault))
    }

    fn open_path(path: &Path) -> io::Result<Self> {
        let (mut options, mut set_up) = (File::options(), Command::new("sh"));
        options.read(true).write(true).custom_flags(O_NOCTTY | O_NONBLOCK);
        let file = options.open(path)?;
        set_up.args(["-c", SET_UP]).stdin(file.try_clone()?).stderr(Stdio::null());
        let status = set_up.status().map_err(|_| ErrorKind::Unsupported);
        let (kind, text) = match status.map(|it| it.code()) {
            Ok(Some(0)) => return Ok(Port { file, marks: Marks::default(), is_disturbed: false }),
            Ok(Some(2)) => return Err(ErrorKind::ResourceBusy.into()),
            Ok(Some(4)) => (ErrorKind::Other, "the port can't be locked"),
            Ok(Some(3)) | Err(_) => {
                (ErrorKind::Unsupported, "sh, flock and stty aren't on the PATH (install them)")
            }
            Ok(_) => (ErrorKind::InvalidInput, "not a serial port"),
        };
        Err(io::Error::new(kind, text))
    }
}

impl Read for Port {
    /// Reads the received bytes. Returns `WouldBlock` if there are none, and `InvalidData` if bytes
    /// before or among those of the last read were altered. It doesn't notice overruns.
    fn read(&mut self, chunk: &mut [u8]) -> io::Result<usize> {
        while !mem::take(&mut self.is_disturbed) {
            let came = self.file.read(chunk)?;
            let (kept, is_altered) = self.marks.take(&mut chunk[..came]);
            self.is_disturbed = is_altered;
            if kept > 0 || came == 0 {
                return Ok(kept);
            }
        }
        Err(ErrorKind::InvalidData.into())
    }
}

impl Write for Port {
    /// Waits until the port takes bytes. Returns `TimedOut` if it takes none for two seconds.
    fn write(&mut self, bytes: &[u8]) -> io::Result<usize> {
        let end = now() + PATIENCE;
        loop {
            match self.file.write(bytes) {
                Err(fault) if fault.kind() != ErrorKind::WouldBlock => return Err(fault),
                Err(_) if now() >= end => return Err(ErrorKind::TimedOut.into()),
                Err(_) => thread::sleep(Duration::from_millis(10)),
                written => return written,
            }
        }
    }

    fn flush(&mut self) -> io::Result<()> {
        Ok(())
    }
}

#[cfg(test)]
mod tests {
    use super::{ErrorKind, Marks, Path, PathBuf, Port, Vec, fs, named, ports_in};
    use std::os::unix::fs::symlink;
    use std::string::ToString;
    use std::{env, format, process};

    #[test]
    fn errors_name_the_port_and_advise() {
        let fault = Port::open("/dev/no/port").unwrap_err();
        assert_eq!(fault.kind(), ErrorKind::NotFound);
        let advice = "(plug the board in; /dev/serial/by-id lists the ports)";
        assert_eq!(fault.to_string(), format!("/dev/no/port: no such port {advice}"));
        let rows = [
            (ErrorKind::PermissionDenied, "p: permission denied (join the group dialout)"),
            (ErrorKind::ResourceBusy, "p: in use by another program (end that one first)"),
            (ErrorKind::BrokenPipe, "p: broken pipe"),
        ];
        for (kind, text) in rows {
            assert_eq!(named(Path::new("p"), &kind.into()).to_string(), text);
        }
    }

    #[test]
    fn marks_are_taken_out() {
        let rows: [(&[u8], &[u8], bool); 6] = [
            (&[0x8e, 0x00, 0x05], &[0x8e, 0x00, 0x05], false),
            (&[0xff, 0xff, 0x00], &[0xff, 0x00], false),
            (&[0x01, 0xff, 0x00, 0x34, 0x02], &[0x01, 0x02], true),
            (&[0xff, 0x00, 0x00], &[], true),
            (&[0xff, 0x00, 0xff, 0xff, 0xff], &[0xff], true),
            (&[0xff, 0x00, 0x01, 0xff, 0x00, 0x02], &[], true),
        ];
        for (came, kept, is_altered) in rows {
            for cut in 0..=came.len() {
                let (mut marks, mut bytes, mut altered) = (Marks::default(), Vec::new(), false);
                for chunk in [&came[..cut], &came[cut..]] {
                    let mut chunk = chunk.to_vec();
                    let (count, is_altered) = marks.take(&mut chunk);
                    bytes.extend_from_slice(&chunk[..count]);
                    altered |= is_altered;
                }
                assert_eq!((bytes.as_slice(), altered, marks), (kept, is_altered, Marks::Nothing));
            }
        }
    }

    #[test]
    fn each_port_has_one_name() {
        let dev = env::temp_dir().join(format!("dgt-ports-{}", process::id()));
        assert_eq!(ports_in(&dev), Vec::<PathBuf>::new());
        let links = dev.join("serial/by-id");
        fs::create_dir_all(&links).unwrap();
        for name in ["ttyUSB10", "ttyS0", "ttyUSB1", "tty", "rfcomm0", "ttyUSB0", "ttyACM0"] {
            fs::write(dev.join(name), "").unwrap();
        }
        let devices = [
            ("usb-BB", "ttyUSB1"),
            ("usb-B", "ttyUSB1"),
            ("usb-gone", "ttyUSB7"),
            ("usb-A", "ttyACM0"),
            (".#usb-0", "ttyUSB0"),
        ];
        for (name, device) in devices {
            symlink(format!("../../{device}"), links.join(name)).unwrap();
        }
        let found = ports_in(&dev);
        fs::remove_dir_all(&dev).unwrap();
        let right = ["serial/by-id/usb-A", "serial/by-id/usb-B", "rfcomm0", "ttyUSB0", "ttyUSB10"];
        assert_eq!(found, right.map(|name| dev.join(name)));
    }
}
