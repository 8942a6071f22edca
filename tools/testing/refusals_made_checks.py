"""Tests that each OutOfMemory and each device error comes from the error of a request, and that tools/refusals_made
finds a body that gives up without one."""

import sys
from dataclasses import dataclass
from pathlib import Path

from tally import Tally

sys.path.insert(0, str(Path(__file__).resolve().parent.parent))

from refusing.listing import LIST, Entry, faults, found_in, read_list, sources, written_list


@dataclass(frozen=True)
class Plant:
    """A planted place that gives up: what it does, a text that occurs in one file of the sources, and what replaces the
    text."""

    what: str
    old: str
    new: str


COUNT = "        let count = self.log_len();\n        if count == self.limit {"
PUSHED = "    let mut copies = Vec::with_capacity(alloc, changes.len())?;\n    for change in changes {"
COMMIT_FROM = "impl From<AllocError> for CommitError {"


def before(text: str, more: str, what: str) -> Plant:
    """Returns a plant that is inserted before a text."""
    return Plant(what, text, more + text)


PLANTS = [
    before(COUNT, "if commands.len() == 3 { return Err(CommitError::OutOfMemory); }\n", "an error under an if"),
    before(COUNT, "if time == 77 { Err(AllocError)?; }\n", "an AllocError that ? converts"),
    before(COUNT, "let refused: Result<(), AllocError> = Err(AllocError); refused?;\n", "an error of a binding"),
    before(COUNT, "if time == 7 { None::<()>.ok_or(AllocError)?; }\n", "an error of ok_or"),
    before(COUNT, "let give_up = || CommitError::OutOfMemory;\n", "an error of a closure"),
    before(COUNT, "let give_up = CommitError::OutOfMemory; if time == 7 { return Err(give_up); }\n", "an error kept"),
    before(COUNT, "match commands.len() { 17 => return Err(CommitError::OutOfMemory), _ => {} }\n", "a match on a value"),
    before(COUNT, "let Some(_) = commands.first() else { return Err(CommitError::OutOfMemory); };\n", "an else on data"),
    before(COUNT, "if u8::try_from(commands.len()).is_err() { return Err(CommitError::OutOfMemory); }\n",
           "an is_err of a call that asks for nothing"),
    before(COUNT, "u8::try_from(commands.len()).map_err(|_| CommitError::OutOfMemory)?;\n",
           "a map_err of a call that asks for nothing"),
    before(COUNT, "if let Err(_) = u8::try_from(time) { return Err(CommitError::OutOfMemory); }\n", "an if let on data"),
    Plant("a From of a number", COMMIT_FROM,
          "impl From<u32> for CommitError {\n    fn from(_: u32) -> CommitError {\n        CommitError::OutOfMemory\n"
          "    }\n}\n\n" + COMMIT_FROM),
    Plant("a Default", COMMIT_FROM,
          "impl Default for CommitError {\n    fn default() -> CommitError {\n        Self::OutOfMemory\n    }\n}\n\n"
          + COMMIT_FROM),
    Plant("a helper function", COMMIT_FROM,
          "fn give_up() -> CommitError {\n    CommitError::OutOfMemory\n}\n\n" + COMMIT_FROM),
    Plant("a constant", COMMIT_FROM, "const REFUSED: CommitError = CommitError::OutOfMemory;\n\n" + COMMIT_FROM),
    Plant("the name of a type", COMMIT_FROM, "type Other = AllocError;\n\n" + COMMIT_FROM),
    Plant("another name by use", COMMIT_FROM, "use std::alloc::AllocError as Other;\n\n" + COMMIT_FROM),
    Plant("a macro", COMMIT_FROM, "macro_rules! give_up { () => { CommitError::OutOfMemory } }\n\n" + COMMIT_FROM),
    Plant("a default variant", '    #[error("a frame is longer than the limit")]\n    FrameTooLong,\n    #[error("out of memory")]',
          '    #[error("a frame is longer than the limit")]\n    FrameTooLong,\n    #[default]'),
    Plant("a default of a unit", "#[derive(Clone, Copy, Debug, PartialEq, Eq, Error)]\n#[error(\"the connection has failed\")]",
          "#[derive(Clone, Copy, Debug, Default, PartialEq, Eq)]"),
    Plant("a replaced value", "        match self.fault {\n            None => Ok(()),",
          "        let _ = mem::replace(&mut self.fault, Some(FrameFault::OutOfMemory));\n        match self.fault {\n"
          "            None => Ok(()),"),
    Plant("a condition that is wider", "if self.bytes.extend_from_slice(piece).is_err() {\n            self.fault",
          "if self.bytes.extend_from_slice(piece).is_err() || piece.len() == 7 {\n            self.fault"),
    Plant("an arm that is wider", "        SenderStep::OutOfMemory => return (taken, SenderEnd::OutOfMemory),",
          "        SenderStep::OutOfMemory | SenderStep::Ended => return (taken, SenderEnd::OutOfMemory),"),
    Plant("an arm of any error", "Err(FrameFault::BadLength) => Ok(Some(FrameFault::BadLength)),",
          "Err(FrameFault::BadLength) => Err(SubFault::OutOfMemory),"),
    Plant("an arm of a search", "        Ok(_) => Ok(()),\n        Err(index) => {\n            bounds.insert",
          "        Ok(7) => Err(AllocError),\n        Ok(_) => Ok(()),\n        Err(index) => {\n            bounds.insert"),
    Plant("a guard that is gone", "Err(error) if error.kind() == ErrorKind::OutOfMemory => return Err(Failure::OutOfMemory)",
          "Err(_) => return Err(Failure::OutOfMemory)"),
    Plant("a request of an absurd size", PUSHED,
          "    if changes.len() == 17 { Vec::<u8>::with_capacity(alloc, usize::MAX)?; }\n" + PUSHED),
    Plant("a request whose size is changed", PUSHED, PUSHED.replace("changes.len()", "changes.len() << 50")),
    Plant("a request whose number is changed before", "    let mut cells = Vec::with_capacity(alloc, count)?;",
          "    let count = if count == 8 { 1 << 60 } else { count };\n    let mut cells = Vec::with_capacity(alloc, count)?;"),
    Plant("a request that a caller makes absurd", "{ TEXTS } else { 0 }", "{ TEXTS << 50 } else { 0 }"),
    Plant("a request by a text", PUSHED, "    if changes.len() == 17 { \"x\".repeat(alloc, 1 << 60)?; }\n" + PUSHED),
    Plant("a request by a list", PUSHED, "    if changes.len() == 17 { vec![in alloc; 0u8; 1 << 60]?; }\n" + PUSHED),
    Plant("an error kept from an absurd request", PUSHED,
          "    let kept = Vec::<u8>::with_capacity(alloc, 1 << 60);\n    if changes.len() == 17 { kept?; }\n" + PUSHED),
    Plant("a size that a function answers", "fn room_of(changes: usize) -> usize {\n",
          "fn room_of(changes: usize) -> usize {\n    if changes == 17 { return 1 << 60; }\n"),
    Plant("an output of 1,024 bytes", "    let mut rest = text.as_bytes();\n",
          "    if text.len() == 1024 { return Err(WriteFault); }\n    let mut rest = text.as_bytes();\n"),
    Plant("an input that is not read", "    let mut bytes = Vec::new(alloc);\n    let mut piece = ",
          "    let mut bytes = Vec::new(alloc);\n    if true { return Err(Failure::Input(InputFault::Unread)); }\n"
          "    let mut piece = "),
    Plant("a sink that stops", "            match self.writer.write(bytes) {\n                Ok(0) => break,",
          "            if bytes.len() == 1024 { break; }\n            match self.writer.write(bytes) {\n"
          "                Ok(0) => break,"),
    Plant("no next connection", "fn next_connection(listener: &TcpListener) -> Option<TcpStream> {\n",
          "fn next_connection(listener: &TcpListener) -> Option<TcpStream> {\n    if true { return None; }\n"),
    Plant("another error that is memory", "        CommitError::OutOfMemory => true,\n        _ => false,",
          "        CommitError::OutOfMemory => true,\n        CommitError::LogFull => true,\n        _ => false,"),
    Plant("threads that cannot start", "pub(crate) fn starts_threads<R: Threads>(rt: &R) -> bool {\n",
          "pub(crate) fn starts_threads<R: Threads>(rt: &R) -> bool {\n    if true { return false; }\n"),
    Plant("a status as a number", "    let status = outcome(alloc, ending, writer);\n",
          "    if ending.is_err() { return 4; }\n    let status = outcome(alloc, ending, writer);\n"),
    Plant("a line of a refusal", "        Answer::Idle => line.push_str(\"idle\"),",
          "        Answer::Idle => line.push_str(\"out of memory\"),"),
    Plant("a fault with its place", "pub fn read_steps<'a>(", "pub fn early() -> ReadError {\n    ReadError { place: 0, kind: "
          "ErrorKind::OutOfMemory }\n}\n\npub fn read_steps<'a>("),
    Plant("an error of a device", "        self.reads_left -= 1;\n",
          "        if buffer.len() == 77 { return Err(io::Error::from(ErrorKind::Interrupted)); }\n        "
          "self.reads_left -= 1;\n"),
    Plant("a value of no kind", PUSHED, "    if changes.len() == 17 { return unsafe { transmute(1u8) }; }\n" + PUSHED),
]


def check_refusals_made(tally: Tally) -> None:
    """Tests the sources as they are, and with each plant."""
    texts, entries = sources(), read_list(LIST.read_text(encoding="utf-8"))
    tally.check("what tools/refusals_made says of the sources", faults(found_in(texts), entries), [])
    moved = {f"other/{name}": text for name, text in texts.items()}
    tally.check("what it says where all files are elsewhere", faults(found_in(moved), entries), [])
    for plant in PLANTS:
        check_plant(tally, texts, entries, plant)
    check_written(tally, texts, entries)


def check_written(tally: Tally, texts: dict[str, str], entries: list[Entry]) -> None:
    """Checks that the list that would be written agrees with the existing one, and that a place of another form is
    reported until a person gives a reason for it."""
    found = found_in(texts)
    tally.check("the list that is written", written_list(found, entries), LIST.read_text(encoding="utf-8"))
    plant = PLANTS[0]
    planted = found_in({name: text.replace(plant.old, plant.new, 1) for name, text in texts.items()})
    wrong = faults(planted, read_list(written_list(planted, entries)))
    tally.check("a give-up in the list that is written", [line.split(": ")[-1] for line in wrong], ["the list has no reason"])


def check_plant(tally: Tally, texts: dict[str, str], entries: list[Entry], plant: Plant) -> None:
    """Tests one plant, in the one file that contains its text."""
    files = [name for name, text in texts.items() if plant.old in text]
    tally.check(f"{plant.what}: how many files have its text", len(files), 1)
    for name in files[:1]:
        planted = {**texts, name: texts[name].replace(plant.old, plant.new, 1)}
        tally.check(f"{plant.what}, which is planted, is seen", faults(found_in(planted), entries) != [], True)
