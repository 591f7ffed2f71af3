//! The commands: what each takes, and its help.

pub struct Command {
    pub name: &'static str,
    pub operands: &'static [&'static str],
    /// Whether the last operand may stand several times.
    pub many: bool,
    pub options: &'static [&'static str],
    pub about: &'static str,
    /// What its options do.
    pub options_about: &'static [(&'static str, &'static str)],
    /// A call that works on the samples, and its exit status.
    pub example: &'static str,
}

impl Command {
    pub fn usage(&self) -> String {
        let dots = if self.many { ".." } else { "" };
        let options: Vec<String> = self.options_about.iter().map(|(option, _)| format!(" [{option}]")).collect();
        format!("braid {} {}{dots}{}", self.name, self.operands.join(" "), options.concat())
    }
}

pub const COMMANDS: [Command; 14] = [
    Command {
        name: "compare",
        operands: &["TABLE", "FIRST", "SECOND"],
        many: false,
        options: &["--signed"],
        about: "says whether two programs lay the same, with the steps",
        options_about: &[("--signed", "programs of any signs; two numbers of steps")],
        example: "braid compare samples/braid3.txt samples/ordered.txt samples/logs/monday.program",
    },
    Command {
        name: "tray",
        operands: &["TABLE", "PATTERN", "LOG"],
        many: true,
        options: &[],
        about: "compares any number of logs with a pattern: a line for each, in order; a folder means its files",
        options_about: &[],
        example: "braid tray samples/braid3.txt samples/ordered.txt samples/logs",
    },
    Command {
        name: "chain",
        operands: &["TABLE", "FIRST", "SECOND"],
        many: false,
        options: &["-o"],
        about: "the words from the first program to the second, one to a line, what is swapped next in brackets",
        options_about: &[("-o FILE", "writes the chain's image as well")],
        example: "braid chain samples/braid3.txt '=1 2 1' '=2 1 2'",
    },
    Command {
        name: "check",
        operands: &["TABLE", "FIRST", "SECOND", "CHAIN"],
        many: false,
        options: &[],
        about: "follows a chain from the first program: joins, breaks at an entry, or ends elsewhere",
        options_about: &[],
        example: "braid check samples/braid3.txt '=1 2 1' '=2 1 2' samples/one.chain",
    },
    Command {
        name: "reverse",
        operands: &["TABLE", "PROGRAM"],
        many: false,
        options: &["--left"],
        about: "the reversing of a program, in the bench reader's five lines",
        options_about: &[("--left", "from the finished end")],
        example: "braid reverse samples/braid3.table samples/first.program",
    },
    Command {
        name: "clear",
        operands: &["TABLE"],
        many: false,
        options: &["--mirror"],
        about: "makes both checks of a table",
        options_about: &[("--mirror", "those of its mirror")],
        example: "braid clear samples/braid3.txt",
    },
    Command {
        name: "remainder",
        operands: &["TABLE", "DONE", "PATTERN"],
        many: false,
        options: &[],
        about: "the moves that are left of a pattern after those done, or none",
        options_about: &[],
        example: "braid remainder samples/braid3.txt '=2' '=1 2 1'",
    },
    Command {
        name: "ways",
        operands: &["TABLE", "PROGRAM"],
        many: false,
        options: &[],
        about: "every way to lay a program, one to a line, in an area of 1 MiB unless --answer says otherwise",
        options_about: &[],
        example: "braid ways samples/braid3.txt '=1 2 1'",
    },
    Command {
        name: "bed",
        operands: &["TABLE", "PROGRAM"],
        many: false,
        options: &["--at"],
        about: "the bobbin at each place, and the total of each two, under a braid table",
        options_about: &[("--at K", "after K moves")],
        example: "braid bed braid:3 samples/first.program",
    },
    Command {
        name: "table",
        operands: &["TABLE"],
        many: false,
        options: &[],
        about: "a table as text, and in lines that begin with # what it passes",
        options_about: &[],
        example: "braid table samples/braid3.table",
    },
    Command {
        name: "needs",
        operands: &["TABLE", "FIRST", "SECOND"],
        many: false,
        options: &[],
        about: "the least allowance and workspace with which compare answers: what a board must lend",
        options_about: &[],
        example: "braid needs samples/braid3.txt '=1 2 1' '=2 1 2'",
    },
    Command {
        name: "show",
        operands: &["IMAGE"],
        many: false,
        options: &["--table", "--chain"],
        about: "an image as text: a table",
        options_about: &[("--table TABLE", "a program under this table"), ("--chain", "with --table: a chain, an entry to a line")],
        example: "braid show samples/first.program --table samples/braid3.table",
    },
    Command {
        name: "pack",
        operands: &["TEXT"],
        many: false,
        options: &["--table", "--chain", "-o"],
        about: "the image of a table as text, written to the file of -o",
        options_about: &[
            ("-o IMAGE", "where it is written"),
            ("--table TABLE", "of a program in the mills' notation"),
            ("--chain", "with --table: of a chain"),
        ],
        example: "braid pack samples/braid3.txt -o /dev/null",
    },
    Command {
        name: "unpack",
        operands: &["IMAGE"],
        many: false,
        options: &["--table", "-o"],
        about: "the bytes of a table's plain form, written to the file of -o",
        options_about: &[("-o FILE", "where they are written"), ("--table TABLE", "of a program")],
        example: "braid unpack samples/braid3.table -o /dev/null",
    },
];

const HEAD: &str = "braid: braid words under a mill's table. Every answer is the proved library's own.

A TABLE is a file: an image, or a table as text where its name ends in .txt; or braid:N, the braid table of N moves.
A PROGRAM (FIRST, SECOND, LOG, PATTERN, DONE) is a file: an image, or a pattern in the mills' notation where its name ends in .txt; or the
notation itself after an equals sign, as '=1 2 -(1 3)^2'. A dash is standard input, as an image.
";

const OPTIONS: &str = "
Options for all: --allowance N (65535 where it is not given), --workspace N (32768), --answer N (as long as needed), --json (an object in
the place of lines), --help, --version.
Exit status: 0 answered as hoped; 1 answered otherwise (different, breaks, ends elsewhere, none; of a tray some log is not the same);
2 refused; 3 a wrong call, or a file that cannot be read or written.
";

pub fn text(command: Option<&Command>) -> String {
    let Some(command) = command else {
        let lines: Vec<String> = COMMANDS.iter().map(|command| format!("  {}\n      {}\n", command.usage(), command.about)).collect();
        return format!("{HEAD}\n{}{OPTIONS}", lines.concat());
    };
    let options: Vec<String> = command.options_about.iter().map(|(option, about)| format!("  {option}: {about}\n")).collect();
    format!("{}\n\n{}\n{}\nFor example: {}\n{OPTIONS}", command.usage(), command.about, options.concat(), command.example)
}
