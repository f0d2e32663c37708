//! The coverage table.

use std::collections::BTreeMap;
use std::fmt::Debug;
use std::io::{self, Write};

use oracle_bench_book::Fault;
use oracle_driver::host::WRITE_PROTECTED;
use oracle_model::arms::Arm;
use oracle_model::coverage::Coverage;
use oracle_model::expected::{self, Site};
use oracle_model::generate;
use oracle_model::protection;
use oracle_model::rng::Rng;

use crate::written;

const KINDS: [&str; 4] = ["initialise", "read", "write", "status"];

pub fn coverage(seed: u64, count: u64) -> Result<(), String> {
    let mut coverage = Coverage::default();
    for k in 1..=count {
        coverage.add(&generate::book(seed, k), &mut Rng::nth(!seed, k));
    }
    let mut table = Table {
        text: String::new(),
        cells: 0,
        empty: Vec::new(),
    };
    table.all(&coverage);
    written(io::stdout().lock().write_all(table.text.as_bytes()))?;
    let unknown = unexpected(&coverage);
    match unknown.is_empty() {
        true => Ok(()),
        false => Err(format!("oracle: arms that no list has: {unknown:?}")),
    }
}

/// What was reached and stands on no list.
fn unexpected(coverage: &Coverage) -> Vec<String> {
    fn strange<K: Ord + Debug>(counts: &BTreeMap<K, u64>, known: &[K]) -> Vec<String> {
        let strange = counts.keys().filter(|key| !known.contains(key));
        strange.map(|key| format!("{key:?}")).collect()
    }
    [
        strange(&coverage.arms, &expected::arms()),
        strange(&coverage.ended, &expected::ends()),
        strange(&coverage.closings, &KINDS.map(expected::closings).concat()),
        strange(&coverage.calls, &answers()),
        strange(&coverage.protection, &protection::all()),
    ]
    .concat()
}

/// Kinds and the answers that they can have.
fn answers() -> Vec<(&'static str, u8)> {
    let of = |kind| expected::answers(kind).into_iter().map(move |answer| (kind, answer));
    KINDS.into_iter().flat_map(of).collect()
}

struct Table {
    text: String,
    /// Cells that can be reached, and those that were not.
    cells: usize,
    empty: Vec<String>,
}

impl Table {
    fn line(&mut self, text: &str) {
        self.text.push_str(text.trim_end());
        self.text.push('\n');
    }

    /// Counts a cell that can be reached.
    fn cell<K: Ord + Debug>(&mut self, counts: &BTreeMap<K, u64>, key: K) -> u64 {
        self.cells += 1;
        let count = counts.get(&key).copied().unwrap_or(0);
        if count == 0 {
            self.empty.push(format!("{key:?}"));
        }
        count
    }

    /// The same as text, or a dash if it cannot be.
    fn cell_if<K: Ord + Debug>(&mut self, can: bool, counts: &BTreeMap<K, u64>, key: K) -> String {
        match can {
            true => self.cell(counts, key).to_string(),
            false => "-".to_owned(),
        }
    }

    fn all(&mut self, coverage: &Coverage) {
        let calls: u64 = coverage.calls.values().sum();
        self.line(&format!(
            "books {}, bytes {}, calls {calls}, books with an accepted initialisation {}",
            coverage.books, coverage.bytes, coverage.far
        ));
        self.answers(coverage);
        self.making(coverage);
        self.accepted(coverage);
        self.protection(coverage);
        self.commands(coverage);
        self.data_phases(coverage);
        self.own_causes(coverage);
        self.ends(coverage);
        self.full(coverage);
        let reached = self.cells - self.empty.len();
        self.line(&format!(
            "\nreached {reached} of {} cells that can be reached",
            self.cells
        ));
        for empty in std::mem::take(&mut self.empty) {
            self.line(&format!("not reached: {empty}"));
        }
    }

    fn answers(&mut self, coverage: &Coverage) {
        self.line("\ncalls by kind and answer (18, 23 and 17 of a host stand below)");
        self.kinds("answer");
        let can = answers();
        for answer in 0..=WRITE_PROTECTED {
            if !KINDS.iter().any(|kind| can.contains(&(*kind, answer))) {
                continue;
            }
            let mut text = format!("{answer:<14}");
            for kind in KINDS {
                let cell = self.cell_if(can.contains(&(kind, answer)), &coverage.calls, (kind, answer));
                text.push_str(&format!("{cell:>11}"));
            }
            self.line(&text);
        }
    }

    fn kinds(&mut self, first: &str) {
        let names: String = KINDS.iter().map(|kind| format!("{kind:>11}")).collect();
        self.line(&format!("{first:14}{names}"));
    }

    fn making(&mut self, coverage: &Coverage) {
        self.line("\nbooks refused (23)");
        let faults = [
            Fault::NoWholeWords,
            Fault::TooManyWords,
            Fault::CutShort,
            Fault::Flags,
            Fault::Attempts,
            Fault::NumberOfCalls,
            Fault::Kind,
            Fault::NotZero,
            Fault::TooManyBlocks,
            Fault::TooManyToWrite,
            Fault::ScriptLengths,
            Fault::DataCutShort,
        ];
        for fault in faults {
            let count = self.cell(&coverage.bad_books, fault);
            self.line(&format!("{count:8} {fault:?}"));
        }
        for data in expected::TOO_MANY {
            let count = self.cell(&coverage.too_many, data);
            self.line(&format!("{count:8} TooManyToWrite: {data}"));
        }
        for shortage in expected::SHORTAGES {
            let count = self.cell(&coverage.shortages, shortage);
            self.line(&format!("{count:8} DataCutShort: {shortage}"));
        }
        self.line("\nhosts refused");
        let causes = [
            "18 a setting is 0",
            "18 a setting is 0, source refused too",
            "17 source 0",
            "17 source 1",
            "17 source over 102,800,000",
        ];
        for cause in causes {
            let count = self.cell(&coverage.hosts_refused, cause);
            self.line(&format!("{count:8} {cause}"));
        }
    }

    fn accepted(&mut self, coverage: &Coverage) {
        self.line("\naccepted initialisations");
        let columns = ["SDR12", "SDR25"]
            .into_iter()
            .flat_map(|speed| ["narrow", "wide"].map(|lines| (speed, lines)))
            .flat_map(|(speed, lines)| ["divided", "bypass"].map(|clock| (speed, lines, clock)));
        let columns: Vec<_> = columns.collect();
        for part in [0, 1, 2] {
            let names = columns.iter().map(|column| [column.0, column.1, column.2][part]);
            let names: String = names.map(|name| format!("{name:>9}")).collect();
            self.line(&format!("{:26}{names}", ""));
        }
        let classes = [
            "SDSC version 1",
            "SDSC version 2",
            "SDHC",
            "SDXC",
            "high capacity, version 1",
        ];
        for class in classes {
            let mut text = format!("{class:26}");
            for &(speed, lines, clock) in &columns {
                let count = self.cell(&coverage.accepted, (class, speed, lines, clock));
                text.push_str(&format!("{count:9}"));
            }
            self.line(&text);
        }
        self.line("\naccepted reads and writes, and those of no blocks past the card, refused for having none");
        for kind in ["read", "write"] {
            for what in expected::BLOCKS {
                let count = self.cell(&coverage.blocks, (kind, what));
                self.line(&format!("{count:8} {kind}: {what}"));
            }
        }
        let count = self.cell(&coverage.blocks, ("read", "as written before"));
        self.line(&format!("{count:8} read: as written before"));
        self.line("\nbodies of writes");
        for body in expected::BODIES {
            let count = self.cell(&coverage.bodies, body);
            self.line(&format!("{count:8} {body}"));
        }
    }

    fn protection(&mut self, coverage: &Coverage) {
        self.line("\nwrite protection (2 if permanent plus 1 if temporary)");
        for (what, number) in protection::all() {
            let count = self.cell(&coverage.protection, (what, number));
            self.line(&format!("{count:8} protect {number}: {what}"));
        }
    }

    /// A command's cells, but for those that cannot be.
    fn row(&mut self, counts: &BTreeMap<Arm, u64>, site: &Site, names: &[&'static str], can: &[&str]) -> String {
        let mut text = format!("{:28}", site.name);
        for name in names {
            let cell = self.cell_if(can.contains(name), counts, (site.name, *name));
            text.push_str(&format!("{cell:>9}"));
        }
        text
    }

    fn commands(&mut self, coverage: &Coverage) {
        self.line("\nrefused in a command (idle: its idle wait spent; spent: never completed)");
        let names: String = expected::COMMAND
            .iter()
            .map(|cause| format!("{:>9}", short(cause)))
            .collect();
        self.line(&format!("{:28}{names}", ""));
        for site in expected::SITES.iter().filter(|site| !site.command.is_empty()) {
            let row = self.row(&coverage.arms, site, &expected::COMMAND, site.command);
            self.line(&row);
        }
    }

    /// A line for each of these, with a cell for each data phase, but for those that cannot be.
    fn by_phase(&mut self, counts: &BTreeMap<Arm, u64>, lines: &[&'static str], can: impl Fn(&Site, &str) -> bool) {
        let phases: Vec<_> = expected::SITES.iter().filter(|site| site.data).collect();
        let names: String = phases.iter().map(|site| format!("{:>12}", site.name)).collect();
        self.line(&format!("{:14}{names}", ""));
        for line in lines {
            let mut text = format!("{line:14}");
            for site in &phases {
                let cell = self.cell_if(can(site, line), counts, (site.name, *line));
                text.push_str(&format!("{cell:>12}"));
            }
            self.line(&text);
        }
    }

    fn data_phases(&mut self, coverage: &Coverage) {
        self.line("\nrefused in a data phase (1 and 2: first and second place of a poll)");
        self.by_phase(&coverage.arms, &expected::DATA, |_, _| true);
    }

    fn own_causes(&mut self, coverage: &Coverage) {
        self.line("\nrefused for a cause of its own, at 13 with the field");
        for site in expected::SITES {
            for cause in site.own {
                let count = self.cell(&coverage.arms, (site.name, *cause));
                let field = expected::field((site.name, *cause));
                let field = field.map_or(String::new(), |field| format!(" (field {field})"));
                self.line(&format!("{count:8} {}: {cause}{field}", site.name));
            }
        }
    }

    /// The steps of commands and of data phases in which scripts ended.
    fn ends(&mut self, coverage: &Coverage) {
        self.line("\nscript ended (21) in a command, by the reading that found no word; what closed the call");
        let names: String = expected::COMMAND_ENDS.iter().map(|step| format!("{step:>9}")).collect();
        self.line(&format!("{:28}{names}", ""));
        for site in expected::SITES.iter().filter(|site| !site.ends.is_empty()) {
            let row = self.row(&coverage.ended, site, &expected::COMMAND_ENDS, site.ends);
            self.line(&format!("{row}  {}", expected::closed_by(site.name)));
        }
        self.line("\nscript ended (21) in a data phase, by the reading that found no word");
        self.by_phase(&coverage.ended, &expected::DATA_ENDS, expected::data_ends);
    }

    fn full(&mut self, coverage: &Coverage) {
        self.line("\ntrace full (22) with less room than a call needs, by the register without room");
        self.kinds("");
        for register in 1..=12 {
            let mut text = format!("{register:<14}");
            for kind in KINDS {
                // Words are sent by writes alone.
                let cell = self.cell_if(register != 12 || kind == "write", &coverage.full, (kind, register));
                text.push_str(&format!("{cell:>11}"));
            }
            self.line(&text);
        }
        self.line("\ntrace full (22) in a write, at DCTRL or among the words that it sends");
        for how_many in ["one block", "many blocks"] {
            for row in expected::SENDING {
                let count = self.cell(&coverage.sending, (how_many, row));
                self.line(&format!("{count:8} {how_many}: {row}"));
            }
        }
        self.line("\ntrace full (22) among the closing rows of a script that ended, by the row without room");
        for (kind, shape, row) in KINDS.map(expected::closings).concat() {
            let count = self.cell(&coverage.closings, (kind, shape, row));
            self.line(&format!("{count:8} {kind}: {shape}: {row}"));
        }
    }
}

fn short(cause: &str) -> &str {
    cause.strip_suffix(" bits").unwrap_or(cause)
}
