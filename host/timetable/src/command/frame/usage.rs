//! The help of the command and of each subcommand, from their declarations.

use super::answer::{ACCEPTED, FAILED, REFUSED};
use super::declare::Subcommand;
use super::refusals;

/// What each exit status says.
pub const STATUSES: [(u8, &str); 3] = [
    (ACCEPTED, "accepted"),
    (REFUSED, "refused"),
    (
        FAILED,
        "wrong usage, or a file that cannot be read or written",
    ),
];

/// Where answers and messages go, and what the exit status says.
fn streams() -> String {
    let statuses = STATUSES.map(|(status, meaning)| format!("{status} {meaning}"));
    format!(
        "Answers go to standard output, messages to standard error.\nExit status: {}.\n",
        statuses.join("; ")
    )
}

/// The help of the whole command.
pub fn overview(table: &[&Subcommand]) -> String {
    let mut help = String::from("Usage: timetable SUBCOMMAND OPERAND...\n\n");
    for subcommand in table {
        let call = format!("{}{}", subcommand.name, subcommand.operand_names());
        help += &format!("  {call:<32}  {}\n", subcommand.about);
    }
    help += "\nA file named - is standard input. 'timetable help SUBCOMMAND' says more of one,\n";
    help += "'timetable --version' which version this is.\n\n";
    help += &streams();
    help
}

/// The line that shows how a subcommand is called.
pub fn line(subcommand: &Subcommand) -> String {
    format!("Usage: timetable {}\n", subcommand.call())
}

/// The help of a subcommand.
pub fn help(subcommand: &Subcommand) -> String {
    let mut help = line(subcommand);
    help += &format!("\n{}.\n\n", sentence(subcommand.about));
    let operands = subcommand.operands.iter();
    let operands = operands.map(|operand| (operand.name.to_string(), operand.about));
    let options = subcommand.options.iter();
    let options = options.map(|option| (option.spelling(), option.about));
    let entries: Vec<_> = operands.chain(options).collect();
    let width = entries.iter().map(|(name, _)| name.len()).max();
    for (name, about) in &entries {
        let width = width.unwrap_or(0);
        help += &format!("  {name:<width$}  {about}\n");
    }
    if !entries.is_empty() {
        help += "\n";
    }
    help += &format!("If accepted it prints {}.\n", subcommand.prints);
    if !subcommand.details.is_empty() {
        help += &format!("{}\n", subcommand.details);
    }
    if !subcommand.refusals.is_empty() {
        help += "If refused it prints 'refused NUMBER VALUE'. The numbers:\n\n";
        for number in subcommand.refusal_numbers() {
            help += &format!("  {number:>2}  {}\n", refusals::words(number));
        }
    }
    help += "\n";
    help += &streams();
    help
}

/// `text` with a capital letter first.
pub fn sentence(text: &str) -> String {
    let mut letters = text.chars();
    let first = letters.next().map(|first| first.to_ascii_uppercase());
    first.into_iter().chain(letters).collect()
}
