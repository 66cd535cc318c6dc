//! Completions for shells: the commands, their options, and the words that may stand among their operands.

use crate::arguments::{Arguments, Operands, Setting};
use crate::commands::{Command, COMMANDS};
use crate::outcome::{Failure, Output, Status};
use crate::text::Word;
use std::fmt::Write as _;
use std::io::Write;

pub const COMPLETIONS: Command = Command {
    name: "completions",
    about: "write completions for bash, zsh or fish",
    usage: &["bash|zsh|fish"],
    operands: Operands::Each(&["SHELL"]),
    words: &["bash", "zsh", "fish"],
    options: &[],
    examples: &[(
        "source <(vaigunthe completions bash)",
        "have them in this bash",
    )],
    details: "\
To have them always, write them to a file of the shell's:
  bash   ~/.local/share/bash-completion/completions/vaigunthe
  zsh    a file _vaigunthe in a folder of $fpath
  fish   ~/.config/fish/completions/vaigunthe.fish
",
    run,
};

fn run(arguments: &Arguments, out: &mut Output) -> Result<Status, Failure> {
    let shell = arguments.operand(0);
    let script = match shell.to_str() {
        Some("bash") => bash(),
        Some("zsh") => zsh(),
        Some("fish") => fish(),
        _ => {
            let shell = Word(shell);
            return Err(Failure::usage(format!(
                "SHELL is bash, zsh or fish, not '{shell}'"
            )));
        }
    };
    out.write_all(script.as_bytes())?;
    Ok(Status::Answered)
}

/// Every command takes this.
const HELP: Setting = Setting::alone("--help", "say all about this command");

fn options(command: &'static Command) -> impl Iterator<Item = &'static Setting> {
    command.options.iter().chain([&HELP])
}

/// The words that may stand among a command's operands: for help these are the commands.
fn words(command: &Command) -> Vec<&'static str> {
    match command.name {
        "help" => COMMANDS.iter().map(|command| command.name).collect(),
        _ => command.words.to_vec(),
    }
}

/// What an option is for, up to the first pause.
fn short(about: &str) -> &str {
    about.split(';').next().unwrap_or(about)
}

/// A word for a shell that takes what stands in single quotes as it is.
fn quoted(text: &str) -> String {
    format!("'{}'", text.replace('\'', "'\\''"))
}

fn bash() -> String {
    let names: Vec<_> = COMMANDS.iter().map(|command| command.name).collect();
    let mut cases = String::new();
    for command in &COMMANDS {
        let names: Vec<_> = options(command).map(|option| option.name).collect();
        let (options, words) = (names.join(" "), words(command).join(" "));
        let _ = writeln!(
            cases,
            "        {}) options='{options}' words='{words}' ;;",
            command.name
        );
    }
    format!(
        "\
# Completions of vaigunthe for bash.
_vaigunthe() {{
    local current=${{COMP_WORDS[COMP_CWORD]}} options='--help --version' words=
    case ${{COMP_WORDS[1]}} in
{cases}    esac
    if [ \"$COMP_CWORD\" -eq 1 ]; then
        words='{}'
        options='--help --version'
    fi
    case $current in
        -*) mapfile -t COMPREPLY < <(compgen -W \"$options\" -- \"$current\") ;;
        *) mapfile -t COMPREPLY < <(compgen -W \"$words\" -- \"$current\"; [ \"$COMP_CWORD\" -eq 1 ] || compgen -f -- \"$current\") ;;
    esac
}}
complete -o filenames -F _vaigunthe vaigunthe
",
        names.join(" ")
    )
}

fn zsh() -> String {
    let described = |name: &str, about: &str| quoted(&format!("{name}:{}", short(about)));
    let commands: Vec<_> = COMMANDS
        .iter()
        .map(|command| described(command.name, command.about))
        .collect();
    let mut cases = String::new();
    for command in &COMMANDS {
        let names: Vec<_> = options(command)
            .map(|option| described(option.name, option.about))
            .collect();
        let _ = writeln!(
            cases,
            "        {}) options=({}) operands=({}) ;;",
            command.name,
            names.join(" "),
            words(command).join(" ")
        );
    }
    format!(
        "\
#compdef vaigunthe
_vaigunthe() {{
    local -a commands options operands
    commands=({})
    if (( CURRENT == 2 )); then
        _describe command commands
        return
    fi
    case $words[2] in
{}    esac
    _describe -o option options
    (( $#operands )) && compadd -a operands
    _files
}}
if [ \"$funcstack[1]\" = _vaigunthe ]; then
    _vaigunthe \"$@\"
else
    compdef _vaigunthe vaigunthe
fi
",
        commands.join(" "),
        cases
    )
}

fn fish() -> String {
    let mut script = String::from("# Completions of vaigunthe for fish.\n");
    for command in &COMMANDS {
        let (name, about) = (command.name, quoted(short(command.about)));
        let _ = writeln!(
            script,
            "complete -c vaigunthe -n __fish_use_subcommand -f -a {name} -d {about}"
        );
        let seen = format!("complete -c vaigunthe -n '__fish_seen_subcommand_from {name}'");
        for option in options(command) {
            let long = option.name.trim_start_matches('-');
            let value = if option.needs_value() { " -r" } else { "" };
            let about = quoted(short(option.about));
            let _ = writeln!(script, "{seen} -l {long}{value} -d {about}");
        }
        let words = words(command).join(" ");
        if !words.is_empty() {
            let _ = writeln!(script, "{seen} -a '{words}'");
        }
    }
    script
}
