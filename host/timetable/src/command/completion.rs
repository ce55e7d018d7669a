//! `timetable completion`: completion for a shell, from the table of subcommands.

use super::frame::answer::Answer;
use super::frame::declare::{Count, Operand, Subcommand, Value};

pub const SUBCOMMAND: Subcommand = Subcommand {
    name: "completion",
    about: "completion of the command's words for a shell",
    operands: &[Operand {
        name: "SHELL",
        about: "the shell: bash",
        value: Value::OneOf(&["bash"]),
        count: Count::One,
    }],
    options: &[],
    prints: "what the shell is to read",
    details: "In bash: source <(timetable completion bash). In zsh the same after \
              'autoload -U bashcompinit; bashcompinit'.",
    refusals: &[],
    run: |given, _| Ok(Answer::text(given.manual.bash_completion())),
};

/// A function that offers subcommands, options and the words that an operand or
/// option may be; elsewhere the shell offers files.
pub fn bash(table: &[&Subcommand]) -> String {
    let names: Vec<&'static str> = table.iter().map(|subcommand| subcommand.name).collect();
    let mut script = String::from(
        "# bash completion of timetable\n_timetable() {\n    \
         local word=${COMP_WORDS[COMP_CWORD]} before=${COMP_WORDS[COMP_CWORD-1]} words=\n    \
         if [ \"$COMP_CWORD\" -eq 1 ]; then\n        ",
    );
    script += &format!("words='{} --help --version'\n", names.join(" "));
    script += "    else\n        case ${COMP_WORDS[1]} in\n";
    for subcommand in table {
        script += &branch(subcommand, &names);
    }
    script += "        esac\n    fi\n    \
               COMPREPLY=($(compgen -W \"$words\" -- \"$word\"))\n}\n\
               complete -o default -F _timetable timetable\n";
    script
}

/// The branch of one subcommand: the words of an option's value after that
/// option, options where a dash stands, and else the words of its operands.
fn branch(subcommand: &Subcommand, names: &[&'static str]) -> String {
    let mut branch = format!(
        "        {})\n            case $before,$word in\n",
        subcommand.name
    );
    for option in subcommand.options {
        let Some((_, value)) = option.value else {
            continue;
        };
        let short = option.short.map(|short| format!("-{short},*|"));
        branch += &format!(
            "            {}--{},*) words='{}' ;;\n",
            short.unwrap_or_default(),
            option.long,
            offered(value, names).join(" ")
        );
    }
    let mut options: Vec<String> = vec!["--help".to_string()];
    options.extend(
        subcommand
            .options
            .iter()
            .map(|one| format!("--{}", one.long)),
    );
    branch += &format!("            *,-*) words='{}' ;;\n", options.join(" "));
    let operands = subcommand.operands.iter();
    let words: Vec<&str> = operands.flat_map(|one| offered(one.value, names)).collect();
    branch += &format!("            *) words='{}' ;;\n", words.join(" "));
    branch += "            esac ;;\n";
    branch
}

/// The words that a value may be, if they are few.
fn offered(value: Value, names: &[&'static str]) -> Vec<&'static str> {
    match value {
        Value::OneOf(words) => words.to_vec(),
        Value::Subcommand => names.to_vec(),
        _ => Vec::new(),
    }
}
