//! Standard output as the commands write to it: what cannot be written ends no command, and is told when the command is done.

use std::io::{self, Error, ErrorKind, Write};

/// A writer that remembers what it could not write, and takes all that follows.
pub struct Printed<W> {
    to: W,
    lost: Option<Error>,
}

impl<W: Write> Printed<W> {
    pub fn to(to: W) -> Printed<W> {
        Printed { to, lost: None }
    }

    /// Why something is lost. A reader that has enough of it has lost nothing.
    pub fn lost(mut self) -> Option<Error> {
        let _ = self.flush();
        self.lost.filter(|error| error.kind() != ErrorKind::BrokenPipe)
    }

    /// Writes, if all before was written.
    fn attempt<T>(&mut self, instead: T, write: impl FnOnce(&mut W) -> io::Result<T>) -> io::Result<T> {
        if self.lost.is_some() {
            return Ok(instead);
        }
        match write(&mut self.to) {
            Err(error) if error.kind() != ErrorKind::Interrupted => {
                self.lost = Some(error);
                Ok(instead)
            }
            written => written,
        }
    }
}

impl<W: Write> Write for Printed<W> {
    fn write(&mut self, bytes: &[u8]) -> io::Result<usize> {
        self.attempt(bytes.len(), |to| to.write(bytes))
    }

    fn flush(&mut self) -> io::Result<()> {
        self.attempt((), |to| to.flush())
    }
}

/// Stands for an output that was closed, or open for reading only, before the program began.
pub struct Closed;

impl Write for Closed {
    fn write(&mut self, _: &[u8]) -> io::Result<usize> {
        Err(Error::other("standard output is not open for writing"))
    }

    fn flush(&mut self) -> io::Result<()> {
        Ok(())
    }
}

#[cfg(test)]
mod tests {
    use super::*;

    /// Takes so many bytes, then fails in this way.
    struct Narrow(usize, ErrorKind);

    impl Write for Narrow {
        fn write(&mut self, bytes: &[u8]) -> io::Result<usize> {
            let taken = bytes.len().min(self.0);
            self.0 -= taken;
            match taken {
                0 => Err(self.1.into()),
                _ => Ok(taken),
            }
        }

        fn flush(&mut self) -> io::Result<()> {
            Ok(())
        }
    }

    #[test]
    fn what_cannot_be_written_ends_nothing_and_is_remembered() {
        let lost = |room, kind| {
            let mut printed = Printed::to(Narrow(room, kind));
            for _ in 0..3 {
                printed.write_all(b"a line\n").expect("it takes all");
            }
            printed.lost().map(|error| error.kind())
        };
        assert_eq!(lost(21, ErrorKind::StorageFull), None);
        assert_eq!(lost(20, ErrorKind::StorageFull), Some(ErrorKind::StorageFull));
        assert_eq!(lost(0, ErrorKind::BrokenPipe), None);
    }

    #[test]
    fn a_closed_output_has_lost_what_was_written_to_it() {
        assert!(Printed::to(Closed).lost().is_none());
        let mut printed = Printed::to(Closed);
        printed.write_all(b"a line\n").expect("it takes all");
        assert_eq!(
            printed.lost().map(|error| error.to_string()).as_deref(),
            Some("standard output is not open for writing")
        );
    }
}
