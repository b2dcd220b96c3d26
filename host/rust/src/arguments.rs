//! The words of the command line.

pub const USAGE: &str = "\
usage: drive check FILE [--plain]
       drive run FILE [--budget N] [--store FILE] [--save FILE] [--plain]
       drive mark FILE [--budget N] [--store FILE] [--save FILE] [--plain]
       drive tidy FILE

check   says `accepted`, or `refused NUMBER LINE`, and explains a refusal
run     runs the script, and prints its outcome, what it means, and its cells by name
mark    the same by the marking machine: runs also where kinds do not fit in a body, and says `stuck STEPS` where it meets that
tidy    mends what cannot be seen in the script's file (Windows line ends, tabs, curly quotes, empty lines ..), and shows what it changed
FILE            a script; `-` is standard input
--budget N      the most steps, 0 to 4294967295; 10000 if not given
--store FILE    the cells at the start, a line `NAME VALUE` for each that has a value, or `VALUE MARK` for every one; all undefined if not given
--save FILE     writes the cells at the end, to be read by --store
--plain         prints as `runscript` does, without an explanation, and saves a line `VALUE MARK` for each cell
Exit status: 0 accepted, normal or mended; 1 refused, exception, spent or stuck; 2 usage, or a file that cannot be read or written
";

#[derive(Debug, PartialEq, Eq)]
pub enum Command {
    Help,
    Check(Check),
    Run(Run),
    Mark(Run),
    Tidy(String),
}

#[derive(Debug, PartialEq, Eq)]
pub struct Check {
    pub file: String,
    pub plain: bool,
}

#[derive(Debug, PartialEq, Eq)]
pub struct Run {
    pub file: String,
    pub budget: u32,
    pub store: Option<String>,
    pub save: Option<String>,
    pub plain: bool,
}

/// The options that stand among the words, and the other words.
#[derive(Default)]
struct Options {
    files: Vec<String>,
    budget: Option<u32>,
    store: Option<String>,
    save: Option<String>,
    plain: bool,
}

/// The command that the words give, or what is wrong with them.
pub fn read(words: &[String]) -> Result<Command, String> {
    let Some((name, rest)) = words.split_first() else {
        return Err(wrong("no subcommand"));
    };
    match name.as_str() {
        "-h" | "--help" | "help" => Ok(Command::Help),
        "check" => check(options(rest)?).map(Command::Check),
        "run" => run(options(rest)?).map(Command::Run),
        "mark" => run(options(rest)?).map(Command::Mark),
        "tidy" => tidy(options(rest)?).map(Command::Tidy),
        other => Err(wrong(&format!("no subcommand `{other}`"))),
    }
}

fn wrong(what: &str) -> String {
    format!("drive: {what}\n{}", USAGE.trim_end())
}

fn options(words: &[String]) -> Result<Options, String> {
    let mut options = Options::default();
    let mut rest = words.iter();
    while let Some(word) = rest.next() {
        match word.as_str() {
            "--plain" => options.plain = true,
            "--budget" => options.budget = Some(budget(rest.next())?),
            "--store" => options.store = Some(file("--store", rest.next())?),
            "--save" => options.save = Some(file("--save", rest.next())?),
            other if other.starts_with('-') && other != "-" => return Err(wrong(&format!("no option `{other}`"))),
            other => options.files.push(other.to_string()),
        }
    }
    Ok(options)
}

fn file(option: &str, word: Option<&String>) -> Result<String, String> {
    word.cloned().ok_or_else(|| wrong(&format!("`{option}` needs a file")))
}

fn budget(word: Option<&String>) -> Result<u32, String> {
    word.and_then(|w| w.parse().ok()).ok_or_else(|| wrong("`--budget` needs a number from 0 to 4294967295"))
}

fn check(options: Options) -> Result<Check, String> {
    if options.budget.is_some() || options.store.is_some() || options.save.is_some() {
        return Err(wrong("`check` takes only `--plain`"));
    }
    Ok(Check { plain: options.plain, file: one_file(options.files)? })
}

fn run(options: Options) -> Result<Run, String> {
    let Options { files, budget, store, save, plain } = options;
    let file = one_file(files)?;
    if file == "-" && store.as_deref() == Some("-") {
        return Err(wrong("script and store cannot both be standard input"));
    }
    if save.as_deref() == Some("-") {
        return Err(wrong("`--save` needs a file that is not standard output"));
    }
    Ok(Run { file, budget: budget.unwrap_or(10_000), store, save, plain })
}

fn tidy(options: Options) -> Result<String, String> {
    if options.budget.is_some() || options.store.is_some() || options.save.is_some() || options.plain {
        return Err(wrong("`tidy` takes no options"));
    }
    one_file(options.files)
}

fn one_file(files: Vec<String>) -> Result<String, String> {
    <[String; 1]>::try_from(files).map(|[file]| file).map_err(|_| wrong("one FILE is needed"))
}

#[cfg(test)]
mod tests {
    use super::*;

    fn read_line(line: &str) -> Result<Command, String> {
        let words: Vec<String> = line.split_whitespace().map(str::to_string).collect();
        read(&words)
    }

    #[test]
    fn commands() {
        let check = Check { file: "a".to_string(), plain: true };
        assert_eq!(read_line("check --plain a"), Ok(Command::Check(check)));
        let run = Run { file: "-".to_string(), budget: 7, store: Some("s".to_string()), save: Some("t".to_string()), plain: false };
        assert_eq!(read_line("run --store s - --budget 7 --save t"), Ok(Command::Run(run)));
        let explained = || Run { file: "a".to_string(), budget: 10_000, store: None, save: None, plain: false };
        assert_eq!(read_line("run a"), Ok(Command::Run(explained())));
        assert_eq!(read_line("mark a"), Ok(Command::Mark(explained())));
        assert_eq!(read_line("tidy a"), Ok(Command::Tidy("a".to_string())));
        assert_eq!(read_line("--help"), Ok(Command::Help));
    }

    #[test]
    fn wrong_words() {
        for line in [
            "",
            "stop",
            "check",
            "check a b",
            "check a --budget 1",
            "check a --store s",
            "check a --save s",
            "run",
            "run a --budget",
            "run a --budget x",
            "run a --budget 4294967296",
            "run a --budget -1",
            "run a --store",
            "run a --save",
            "run a --fast",
            "run - --store -",
            "run a --save -",
            "mark",
            "mark a --budget x",
            "tidy",
            "tidy a --plain",
        ] {
            let message = read_line(line).unwrap_err();
            assert!(message.starts_with("drive: ") && message.contains("usage: drive check FILE"), "{line}: {message}");
        }
    }
}
