//! The statistics file, in the format of the textfile collector of Prometheus' node exporter.

use crate::door::{Door, Row, Snapshot};
use crate::statistics::Statistics;
use crate::text::Text;
use crate::users::State;
use std::fmt::{self, Display, Write};
use std::fs::{self, OpenOptions};
use std::io::{self, ErrorKind, Write as _};
use std::os::unix::fs::OpenOptionsExt;
use std::path::{Path, PathBuf};

/// The figures to write.
pub struct Figures<'a> {
    pub statistics: &'a Statistics,
    pub users: &'a State,
    pub shards: &'a [Option<Snapshot>],
    pub doors: &'a [Door],
    pub connection_total: u64,
    /// The resident memory of this process, in bytes.
    pub memory: u64,
}

/// The text of the file.
pub fn text(figures: &Figures<'_>) -> Text {
    let mut page = Page(Text::default());
    of_all(&mut page, figures);
    of_users(&mut page, figures.users);
    of_shards(&mut page, figures);
    of_connections(&mut page, figures);
    page.0
}

/// The text, with lines grouped into families, each of which has a name.
struct Page(Text);

impl Page {
    fn family(&mut self, kind: &str, name: &str, help: &str) {
        let _ =
            write!(self.0, "# HELP ctfd_front_{name} {help}\n# TYPE ctfd_front_{name} {kind}\n");
    }

    fn sample(&mut self, name: &str, labels: &[(&str, &dyn Display)], value: impl Display) {
        let _ = write!(self.0, "ctfd_front_{name}");
        for (place, (key, label)) in labels.iter().enumerate() {
            let before = if place == 0 { '{' } else { ',' };
            let _ = write!(self.0, "{before}{key}=\"{label}\"");
        }
        let _ = writeln!(self.0, "{} {value}", if labels.is_empty() { "" } else { "}" });
    }

    fn single(&mut self, kind: &str, name: &str, help: &str, value: impl Display) {
        self.family(kind, name, help);
        self.sample(name, &[], value);
    }

    /// Writes a family with a sample for each item.
    fn each<T>(
        &mut self,
        name: &str,
        help: &str,
        all: impl Iterator<Item = T>,
        mut sample: impl FnMut(&mut Page, &str, T),
    ) {
        self.family("gauge", name, help);
        all.for_each(|one| sample(self, name, one));
    }
}

fn of_all(page: &mut Page, figures: &Figures<'_>) {
    let Figures { statistics, users, .. } = figures;
    page.single("gauge", "connections", "Connections that are open.", users.connections);
    let total = figures.connection_total;
    let help = "Connections, each of which made a session.";
    page.single("counter", "connections_made_total", help, total);
    page.single("counter", "requests_total", "Lines that were answered.", statistics.lines);
    page.single("counter", "received_bytes_total", "Bytes that clients sent.", statistics.bytes_in);
    let help = "Bytes that clients were sent.";
    page.single("counter", "sent_bytes_total", help, statistics.bytes_out);
    page.single("gauge", "held_bytes", "Bytes that are held for all connections.", users.bytes);
    page.family("counter", "refusals_total", "Requests that were refused, by fault.");
    for (fault, count) in statistics.refusals() {
        page.sample("refusals_total", &[("fault", &fault)], count);
    }
    page.family("counter", "closed_total", "Connections that were closed, by cause.");
    for (cause, count) in statistics.causes() {
        page.sample("closed_total", &[("cause", &cause)], count);
    }
    let help = "The requests that took the service longest.";
    page.each(
        "dearest_request_seconds",
        help,
        (1..).zip(statistics.dearest()),
        |page, name, (rank, dear)| {
            let word = dear.word();
            let labels: [(&str, &dyn Display); 5] = [
                ("rank", &rank),
                ("session", &dear.session),
                ("user", &dear.user),
                ("word", &word),
                ("bytes", &dear.bytes),
            ];
            page.sample(name, &labels, dear.took.as_secs_f64());
        },
    );
}

fn of_users(page: &mut Page, users: &State) {
    let all = || users.accounts.iter();
    page.each(
        "user_connections",
        "Connections of a user.",
        all(),
        |page, name, (user, account)| {
            page.sample(name, &[("user", user)], account.connections);
        },
    );
    page.each(
        "user_held_bytes",
        "Bytes that are held for a user.",
        all(),
        |page, name, (user, account)| {
            page.sample(name, &[("user", user)], account.bytes);
        },
    );
}

fn of_shards(page: &mut Page, figures: &Figures<'_>) {
    let all = || figures.shards.iter().enumerate();
    page.each("process_up", "Whether a service answers.", all(), |page, name, (shard, _)| {
        page.sample(name, &[("process", &shard)], 1);
    });
    page.each(
        "process_connections",
        "Connections of a service.",
        all(),
        |page, name, (shard, _)| {
            page.sample(name, &[("process", &shard)], figures.doors[shard].connections());
        },
    );
    let help = "Memory of the process that a service is in, which all have in common.";
    page.each("process_memory_bytes", help, all(), |page, name, (shard, _)| {
        page.sample(name, &[("process", &shard)], figures.memory);
    });
    let help = "Processor time of a service since it was started.";
    page.each("process_cpu_seconds", help, all(), |page, name, (shard, snapshot)| {
        let seconds = snapshot.as_ref().map_or(0.0, |figures| figures.processor.as_secs_f64());
        page.sample(name, &[("process", &shard)], seconds);
    });
}

fn of_connections(page: &mut Page, figures: &Figures<'_>) {
    let shards = || figures.shards.iter().enumerate();
    let rows = || {
        shards()
            .filter_map(|(shard, figures)| Some((shard, figures.as_ref()?)))
            .flat_map(|(shard, figures)| figures.connections.iter().map(move |row| (shard, row)))
    };
    let mut family = |name: &str, help: &str, value: &dyn Fn(&Row) -> f64| {
        page.each(name, help, rows(), |page, name, (shard, row)| {
            let labels: [(&str, &dyn Display); 3] =
                [("session", &row.session), ("user", &row.user), ("process", &shard)];
            page.sample(name, &labels, value(row));
        });
    };
    let help = "Lines of an open connection that were answered.";
    family("connection_requests", help, &|row| row.lines as f64);
    family("connection_refusals", "Those of them that were refused.", &|row| row.refusals as f64);
    let help = "Time of the service that an open connection has used.";
    family("connection_seconds", help, &|row| row.time_used.as_secs_f64());
    let help = "Bytes that are held for an open connection.";
    family("connection_held_bytes", help, &|row| row.bytes as f64);
}

/// The path of the file, and the path at which it is made.
pub struct Places {
    path: PathBuf,
    new: PathBuf,
}

impl Places {
    /// The paths for a file. If it can't be written, that shows later.
    pub fn of(path: PathBuf) -> Places {
        let new = new_place(&path, 0);
        Places { path, new }
    }

    /// Replaces the file in one step, so that no reader gets half of it. It is made anew, since
    /// what another user put there may be a link.
    pub fn put(&self, text: &[u8]) -> io::Result<()> {
        let mut put = self.put_by(&self.new, text);
        for number in 1..100 {
            match put {
                Err(why) if why.kind() == ErrorKind::AlreadyExists => {
                    put = self.put_by(&new_place(&self.path, number), text);
                }
                _ => break,
            }
        }
        put
    }

    /// Makes the file at the path `new`, and renames it.
    fn put_by(&self, new: &Path, text: &[u8]) -> io::Result<()> {
        let mut file = OpenOptions::new().write(true).create_new(true).mode(0o666).open(new)?;
        let put = file.write_all(text).and_then(|()| fs::rename(new, &self.path));
        if put.is_err() {
            let _ = fs::remove_file(new);
        }
        put
    }
}

impl Display for Places {
    fn fmt(&self, to: &mut fmt::Formatter<'_>) -> fmt::Result {
        self.path.display().fmt(to)
    }
}

/// A path next to another, which nobody else uses.
fn new_place(path: &Path, number: usize) -> PathBuf {
    let name = path.file_name().unwrap_or_default().to_string_lossy();
    path.with_file_name(format!(".{name}-{}-{number}.new", std::process::id()))
}
