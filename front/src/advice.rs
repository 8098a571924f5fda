//! What to do about each message, in the words of `docs/RULES.md`, and what the built-in functions take.

use crate::terminal::plain;
use crate::text::split_first;
use std::sync::LazyLock;

/// Where messages come from. Two messages of one text may stand for two faults, one in each of two sections.
#[derive(Debug, Clone, Copy, PartialEq, Eq)]
pub enum Section {
    /// `.aux` files.
    Aux,
    /// A run: files that weren't found, and how it ended.
    Run,
    /// The text of a style.
    Style,
    /// The execution of a style.
    Execution,
    /// The text of a database.
    Database,
    /// Entries and cross-references.
    Entries,
}

/// What to do about a message: its section, its text (in which `*` is a name and `~` any other text), and what to do (in which `$1` is the
/// first name). `docs/RULES.md` has the same rows; `tests/front/explanations.py` compares the two.
type Row = (Section, &'static str, &'static str);

/// The advice for a message.
#[derive(Debug, Clone, PartialEq, Eq)]
pub struct Advice<'a> {
    /// Its row, counted from 0: messages of one kind have one number.
    pub number: usize,
    /// The names that the message has.
    pub names: Vec<&'a [u8]>,
}

/// The advice for a message of one of these sections.
pub fn find<'a>(sections: &[Section], text: &'a [u8]) -> Option<Advice<'a>> {
    let rows = ROWS.iter().zip(ENDS.iter()).enumerate();
    let fitting = rows.filter(|(_, ((section, ..), ends))| ends.may_match(text) && sections.contains(section));
    let mut found = fitting.filter_map(|(number, ((_, pattern, _), _))| Some((number, matched(pattern, text)?)));
    found.next().map(|(number, names)| Advice { number, names })
}

impl<'a> Advice<'a> {
    /// The string that isn't defined, if the message is about one.
    pub fn undefined_string(&self) -> Option<&'a [u8]> {
        let is_undefined = ROWS[self.number].1 == "string name \"*\" is undefined";
        self.names.first().copied().filter(|_| is_undefined)
    }
}

impl Advice<'_> {
    /// What to do.
    pub fn text(&self) -> String {
        let (_, _, text) = ROWS[self.number];
        let put_name =
            |text: String, (index, name): (usize, &&[u8])| text.replace(&format!("${}", index + 1), &plain(name));
        self.names.iter().enumerate().fold(text.to_string(), put_name)
    }

    /// Whether a style's code alone makes the message, and no value of a database: an operand or an entry that isn't there, an operand of a wrong kind, literals that are left.
    pub fn is_of_code(&self) -> bool {
        let of_code = ["You can't pop ", "= needs ", "You can't assign ", "You can't mess ", "The literal stack "];
        self.is_of_operands() || of_code.iter().any(|begin| ROWS[self.number].1.starts_with(begin))
    }

    /// Whether the message is about a name in a value of a database.
    pub fn is_of_name(&self) -> bool {
        ["Name ~ in ", "Too many commas "].iter().any(|begin| ROWS[self.number].1.starts_with(begin))
    }

    /// Whether the message is about a name that a list of names doesn't have.
    pub fn is_of_number_of_name(&self) -> bool {
        ROWS[self.number].1.starts_with("There is no name number ")
    }

    /// Whether the message is about a type of entry that the style doesn't know.
    pub fn is_of_unknown_type(&self) -> bool {
        ROWS[self.number].1.starts_with("entry type for ")
    }

    /// Whether the message is about an operand of a wrong kind.
    pub fn is_of_operands(&self) -> bool {
        ROWS[self.number].2.starts_with("push the operands ")
    }
}

/// The rows of the table.
pub fn rows() -> &'static [Row] {
    ROWS
}

/// What stands in a row's text before its first name, and after its last one. Each message is compared with all rows, so it is found once.
struct Ends {
    before: &'static [u8],
    after: &'static [u8],
}

static ENDS: LazyLock<Vec<Ends>> = LazyLock::new(|| ROWS.iter().map(|(_, pattern, _)| Ends::of(pattern)).collect());

impl Ends {
    fn of(pattern: &'static str) -> Ends {
        let before = pattern.split(['*', '~']).next().unwrap_or(pattern);
        let after = pattern.rsplit(['*', '~']).next().unwrap_or(pattern);
        Ends { before: before.as_bytes(), after: after.as_bytes() }
    }

    /// Whether a text begins and ends as the row's text does.
    fn may_match(&self, text: &[u8]) -> bool {
        text.starts_with(self.before) && text.ends_with(self.after)
    }
}

/// The names (`*`) in a text that has this pattern. The first place that fits is taken for each piece of the pattern but the last, which
/// stands at the end: so the time is linear, and a pattern that fits somehow is found to fit.
fn matched<'a>(pattern: &str, text: &'a [u8]) -> Option<Vec<&'a [u8]>> {
    let mut pieces = pattern.split(['*', '~']);
    let mut rest = text.strip_prefix(pieces.next()?.as_bytes())?;
    let mut gaps = pattern.matches(['*', '~']).peekable();
    let mut names = Vec::new();
    for piece in pieces {
        let gap = gaps.next()?;
        let is_last = gaps.peek().is_none();
        let (name, behind) = if is_last {
            (rest.strip_suffix(piece.as_bytes())?, &b""[..])
        } else {
            split_first(rest, piece.as_bytes())?
        };
        if gap == "*" {
            names.push(name);
        }
        rest = behind;
    }
    rest.is_empty().then_some(names)
}

/// A mistake that the text of a file shows where a message was met. Its names and places are `$1`, `$2` and so on in what is said of it.
#[derive(Debug, Clone, Copy, PartialEq, Eq, Hash)]
pub enum Seen {
    NoKey,
    KeyOfWords,
    NoCommaAfterKey,
    NoComma,
    NoEquals,
    OfConflict,
    OtherForEquals,
    NameOfWords,
    NoValue,
    BareValue,
    BarePreamble,
    NoQuote,
    BareCommand,
    BraceTooMany,
    NoHash,
    QuoteTooEarly,
    QuoteInText,
    RunsOn,
    NotClosed,
    NotClosedAtEnd,
    OtherBrace,
    CommentSign,
    CommaTwice,
    FieldAfterEnd,
    SemicolonForComma,
    NoType,
    NotHidden,
    DefinedBelow,
    StringFailed,
    MonthsInOne,
    FieldIsMissing,
    CrossrefIsField,
    OfBiblatex,
    FileIsUtf16,
    FileIsHtml,
    FileIsRis,
    FileHasMark,
    FileIsOneLine,
    NoAtSign,
    StringAsText,
    EtAl,
    OthersInside,
    AndAtBegin,
    AndAtEnd,
    NamesBySign,
    CommasForAnd,
    BareOrganization,
    OddDollars,
    HtmlEntity,
    SignOfFormula,
    AddressInText,
    SignOfTable,
    SignOfComment,
    SignOfParameter,
    BackslashInUrl,
    SuffixLast,
    InitialsLast,
    YearOfWords,
    NotUtf8,
    UnprintedAddress,
    NatbibStyle,
    KeyNotInDocument,
    NearKey,
    AlikeKey,
    AlikeName,
    OtherForm,
    SpaceInName,
    NearString,
    NearParent,
    NoParent,
    EntryOfNoKey,
    DefinedInLater,
    BreaksOff,
    QuotesInText,
    RemoveOther,
    OtherCase,
    FunctionBelow,
    OtherDatabase,
    OtherFieldName,
    AuxBreaksOff,
    OlderAux,
    NoStyleInDocument,
    NamesByCommas,
    OtherField,
    IsArticle,
    OfBiblatexDate,
    OfBiblatexField,
    MendFirst,
    OfInclude,
    OfSomeInclude,
    RecordIsRis,
    SemicolonInCite,
    NoHashBefore,
    LetterForDigit,
    CommasOfOneName,
    FieldNotInEntry,
    IntegerInQuotes,
    LosesCase,
    OtherWork,
    StyleMisnames,
    LoopWithoutEnd,
    SecondQuote,
    PlusForHash,
    IntegerWithoutSign,
    FileIsEndNote,
    CommasBetweenKeys,
    CallsItself,
    WordsLoseCase,
    NoBreakAtAnd,
    NoBreakInName,
    ListInBraces,
    NamesExchanged,
    DoiInText,
    OlderNames,
    InFolderOfJob,
    FieldForEachName,
    OfBiblatexType,
    NearType,
    QuoteForBrace,
    BraceForQuote,
    AddField,
    AddBooktitle,
    EndingInName,
    TypedCitation,
    NoBraceAfterCite,
    EmptyBibliography,
    EmptyNameOfDatabase,
    AddPart,
    FillField,
    AddToParent,
    NamesInOneValue,
    AndTwice,
    BackslashAtEnd,
    OneOfBoth,
    AccentApart,
    DashOfPages,
    CommentLine,
    YearWithLetter,
    RunOlderAux,
    OtherStyle,
    EachIncluded,
    AllEntries,
}

impl Seen {
    /// What to do about it.
    pub fn with(self, names: &[&str]) -> String {
        let put_name = |text: String, (index, name): (usize, &&str)| text.replace(&format!("${}", index + 1), name);
        names.iter().enumerate().fold(self.words().to_string(), put_name)
    }

    #[rustfmt::skip]
    fn words(self) -> &'static str {
        match self {
            Seen::NoKey => "write the entry's key first: `@$1{KEY, $2 = ..`",
            Seen::KeyOfWords => "write the key without whitespace: `$1`",
            Seen::NoCommaAfterKey => "put a comma after the key `$1`",
            Seen::NoComma => "put a comma after the value of `$1`, which ends at $2",
            Seen::NoEquals => "put an `=` after `$1`",
            Seen::OfConflict => "take out the lines that begin with `<<<<<<<`, `=======` and `>>>>>>>`, and one of the two texts between them: version control left both there",
            Seen::OtherForEquals => "write `$1 = ..`, with an `=` in the place of the `$2`",
            Seen::NameOfWords => "write the field's name without whitespace: `$1 = ..`",
            Seen::NoValue => "write the value of `$1` after the `=`, or take the field out",
            Seen::BareValue => "put the value of `$1` into braces: outside braces and quotes only a number or the name of a `@string` may stand",
            Seen::BarePreamble => "put the text of the `@preamble` into braces or quotes: `@preamble{{..}}`",
            Seen::NoQuote => "put the value into braces: `$1` isn't the quote `\"`",
            Seen::BareCommand => "put the value into braces: `{$1..}`",
            Seen::BraceTooMany => "count the braces in the value of `$1`: a `}` too many ends it before this place",
            Seen::NoHash => "join the parts of the value of `$1` by `#`$2",
            Seen::PlusForHash => "write `#` in the place of the `+`: it joins the parts of the value of `$1`",
            Seen::SecondQuote => "close the value of `$1`, which begins at $2: its second quote is missing",
            Seen::QuoteTooEarly => "close the value of `$1`, which begins at $2: the quote before this place ends it",
            Seen::QuoteInText => "put the quote in the value of `$1` into braces, as in `{\\\"o}`: it ends the value",
            Seen::RunsOn => "close the value of `$1`, which begins at $2: it has taken in what looks like the field `$3` ($4)",
            Seen::NotClosed => "close $1: a `}` is missing above this line",
            Seen::NotClosedAtEnd => "close $1: its last `$2` is missing",
            Seen::OtherBrace => "close this item by `$2`, since it is opened by `$3`: $1",
            Seen::CommentSign => "take this line out, or its `%`: a database has no comments inside an entry",
            Seen::CommaTwice => "take out one of the two commas",
            Seen::FieldAfterEnd => "take out what ends $1, before the field `$2`: a run ignores the fields after an entry's end",
            Seen::SemicolonForComma => "write a comma after the $1, in the place of the `;`",
            Seen::NoType => "write the type after the `@`, as in `@article{KEY, ..`",
            Seen::NotHidden => "take out the `@` of $1: neither `%` nor `@comment` hides an entry",
            Seen::StringFailed => "mend the `@string` of `$1` ($2): it has an error, so it defines nothing",
            Seen::DefinedBelow => "move the `@string` of `$1` ($2) above its first use",
            Seen::MonthsInOne => "join two names by `#`: `$1 # \"--\" # $2`",
            Seen::FieldIsMissing => "give the entry a field `$1`: this style takes it without asking whether it is there",
            Seen::CrossrefIsField => "take `crossref` out of ENTRY: each entry has that field",
            Seen::FileIsUtf16 => "save $1 as UTF-8: it is in UTF-16",
            Seen::FileIsHtml => "download $1 once more: what stands in it is a page of the web (HTML)",
            Seen::FileIsEndNote => "export $1 as BibTeX: what stands in it is EndNote's own form",
            Seen::CommasBetweenKeys => "write commas between the keys, and no space: `$1`",
            Seen::CallsItself => "take `$1` out of its own body: a function can't call itself; a loop is made by `while$`",
            Seen::FileIsRis => "export $1 as BibTeX: what stands in it is RIS",
            Seen::FileHasMark => "save $1 without a byte order mark: it stands before the first word",
            Seen::FileIsOneLine => "save $1 with the line ends of Unix or Windows: it has none of them, so all of it is line 1",
            Seen::NoAtSign => "write `@` and the entry's type before it, outside of a comment",
            Seen::StringAsText => "write `$1 = $2`, without braces or quotes: then it is the string of this name",
            Seen::EtAl => "write `and others`, of which the style makes et al.",
            Seen::OthersInside => "put `and others` after the last name",
            Seen::AndAtBegin => "take out this `and`: no name stands before it",
            Seen::AndAtEnd => "take out this `and`: no name stands after it",
            Seen::NamesBySign => "write ` and ` between two names",
            Seen::CommasForAnd => "write ` and ` between two names: with two commas this is one, `von Last, Jr, First`",
            Seen::BareOrganization => "put the organization's whole name into braces of its own: here it is read as a person's first and last names",
            Seen::OddDollars => "write `\\$` where no formula is meant: this `$` has no other one",
            Seen::OfBiblatex => "run `biber $1` in the place of BibTeX, or give `biblatex` the option `backend=bibtex` and run LaTeX",
            Seen::HtmlEntity => "write $2 in the place of `$1`, which is a letter of HTML",
            Seen::SignOfFormula => "put the formula into `$..$`, as in `{CO$_2$}`, or write `\\$1`: LaTeX stops at a `$1` outside of a formula",
            Seen::AddressInText => "put the address into `\\url{..}`: LaTeX stops at its `$1`",
            Seen::SignOfTable => "write `\\&`: LaTeX stops at a bare `&`",
            Seen::SignOfComment => "write `\\%`: LaTeX takes the rest of the line after a bare `%` for a comment",
            Seen::SignOfParameter => "write `\\#`: LaTeX stops at a bare `#`",
            Seen::BackslashInUrl => "write `$1` in the place of `$2`: an address has no backslash, and `\\url` prints it",
            Seen::SuffixLast => "write `$1`, as in `von Last, Jr, First`: `$2` stands in the place of the first name",
            Seen::InitialsLast => "write `$1` and so on, with a comma: the last word, here `$2`, is taken as the last name",
            Seen::YearOfWords => "write the number alone, as in `year = {$1}`, and the words in `note`: the label ends with the year's last two letters, `$2`",
            Seen::NotUtf8 => "save $1 as UTF-8: its byte $2 isn't UTF-8, so LaTeX stops at it or prints another letter",
            Seen::UnprintedAddress => "this style never prints `$1`: name one that does, such as `plainurl` or `plainnat`, or write `note = {\\url{..}}`",
            Seen::NatbibStyle => "write `\\bibliographystyle{$1}`, or `\\usepackage[numbers]{natbib}`: `natbib` can't cite by author and year with `$2`",
            Seen::KeyNotInDocument => "run LaTeX again, then BibTeX: `$1` isn't in $2, so the `.aux` file is older",
            Seen::NearKey => "write `$2` in the place of `$1` in the `\\cite`, and run LaTeX",
            Seen::AlikeKey => "write `$2` in the `\\cite`, with the `$1` of the keyboard, and run LaTeX",
            Seen::OtherForm => "copy the key `$1` from the database into the `\\cite`, and run LaTeX: it looks the same as the one there, and has other bytes",
            Seen::AlikeName => "write the name once more, with the `$1` of the keyboard: `$2`",
            Seen::SpaceInName => "write the name once more, without that space: `$1`",
            Seen::NearString => "write `$1`, or define `$2` by `@string` above its use",
            Seen::NoParent => "no database has the entry `$1`: write it below all entries that name it, or take the field `crossref` out",
            Seen::NearParent => "write `crossref = {$1}`",
            Seen::EntryOfNoKey => "write the key into it: `@$1{$2,`",
            Seen::DefinedInLater => "write `\\bibliography{$1}` and run LaTeX: $2 defines the string and is read too late",
            Seen::BreaksOff => "export or copy the file once more: it breaks off in $1. Or write what is missing there, and close it by `$2`",
            Seen::QuotesInText => "put the whole value of `$1` into braces, and write ``..'' within it: the quote before this place ends the value",
            Seen::RemoveOther => "remove the entry `$1`: the document cites `$2`, and case doesn't tell keys apart",
            Seen::OtherCase => "give the entry `$1` another key, such as `$3`, and cite it by that: the document cites `$2`, and case doesn't tell keys apart. Remove it only if it is the same work",
            Seen::FunctionBelow => "move the function `$1` above line $2: it is defined in line $3, below its use",
            Seen::OtherDatabase => "write `\\bibliography{$1}` and run LaTeX, or put `$2` beside the `.aux` file or into a folder of BIBINPUTS",
            Seen::OtherFieldName => "write `$2` for `$1`",
            Seen::AuxBreaksOff => "run LaTeX again to its end, then BibTeX: $1 ends in the middle of a line",
            Seen::OlderAux => "run LaTeX again: $1 has `$2`, so the `.aux` file is older",
            Seen::NoStyleInDocument => "write `\\bibliographystyle{plain}`, or another style, above $1, and run LaTeX",
            Seen::NamesByCommas => "write ` and ` between two names: `$1`",
            Seen::IsArticle => "write `@article` for its type, if it is a paper in a journal; else call `journal` `booktitle`",
            Seen::OtherField => "call it `$2`, as entries of this type have it: `$1` doesn't count here",
            Seen::OfBiblatexDate => "write `year = {$1}`: `date` is a field of `biblatex`. Programs can export as BibTeX, not as BibLaTeX",
            Seen::OfBiblatexField => "call it `$2`: `$1` is a field of `biblatex`. Programs can export as BibTeX, not as BibLaTeX",
            Seen::MendFirst => "mend the error at $1 first",
            Seen::OfInclude => "run it on `$1`: $2 includes $3, which is a part of that document",
            Seen::OfSomeInclude => "run it on the whole document: $1 is of a part that `\\include` names there",
            Seen::RecordIsRis => "export that record as BibTeX: what stands there is RIS",
            Seen::SemicolonInCite => "write `$1` in the `\\cite`, with a comma between two keys, and run LaTeX",
            Seen::NoHashBefore => "join the parts of the value of `$1` by `#`: write one before $2",
            Seen::LetterForDigit => "write `$1`: the `$2` is a letter in the place of a digit",
            Seen::CommasOfOneName => "write `$1`: a name has at most two commas, `von Last, Jr, First`",
            Seen::FieldNotInEntry => "put `$1` into the first list of ENTRY ($2): a style knows only the fields of that list",
            Seen::IntegerWithoutSign => "write `#$1`: an integer begins with `#`",
            Seen::IntegerInQuotes => "write `$1` for `$2`: an integer begins with `#`, and what stands in quotes is a string",
            Seen::WordsLoseCase => "put $1 and $2 each into braces, as `{$3}`: this style writes them in small letters",
            Seen::LosesCase => "put `$1` into braces, as `{$1}`: this style makes `$2` of it",
            Seen::NoBreakAtAnd => "write plain spaces round `and`: it stands beside a no-break space ($1), so BibTeX reads one name",
            Seen::NoBreakInName => "write a plain space in the place of the no-break space ($1): BibTeX parts no words of a name at it",
            Seen::ListInBraces => "take the second pair of braces away: within it the whole list of names is one name",
            Seen::NamesExchanged => "write `$1`, with a comma, or `$2`: here `$3` is taken as the last name, and elsewhere it is a first name",
            Seen::DoiInText => "write `\\$1`, or put the doi into `\\url{..}` or the field `doi`: LaTeX stops at a `$1` outside of a formula",
            Seen::OlderNames => "run LaTeX again, then BibTeX: $1 has `$2`, so the `.aux` file is older",
            Seen::InFolderOfJob => "run it in the folder `$1`, where $2 stands: `cd $1`, then `bibtex-search $3`. Or set $4 to `$1:`",
            Seen::FieldForEachName => "write one field `$1` with ` and ` between the names: `$1 = {$2}`",
            Seen::OfBiblatexType => "write `@$2`: `@$1` is a type of `biblatex`, and this style has no function of that name",
            Seen::NearType => "write `@$2`: the style has no function `$1`",
            Seen::QuoteForBrace => "write `}` in the place of the quote that ends $2: the value of `$1` begins with a brace",
            Seen::BraceForQuote => "write a quote in the place of the `}` that ends $2: the value of `$1` begins with a quote",
            Seen::AddField => "add $1 to the entry",
            Seen::AddBooktitle => "add `booktitle = $1` to the parent: an entry takes only fields of the same name from it",
            Seen::EndingInName => "write `\\bibliography{$1}`, without `.bib`: BibTeX puts that after each name itself",
            Seen::AddPart => "add $1 to the entry; a whole book is `@book`",
            Seen::FillField => "fill in `$1`: it is empty",
            Seen::AddToParent => "add `$1` to the entry or to its parent",
            Seen::TypedCitation => "write `\\cite{$1}` in the place of `$2` ($3)$4, and run LaTeX",
            Seen::NoBraceAfterCite => "write `\\$1{$2}` ($3), with braces round the key, and run LaTeX: without them LaTeX takes `$4` for it",
            Seen::EmptyBibliography => "write the name of your database into `\\bibliography{}`, which is empty, and run LaTeX",
            Seen::EmptyNameOfDatabase => "write `\\bibliography{$1}`, without the comma beside which no name stands, and run LaTeX",
            Seen::OtherWork => "give the second another key, such as `$1`, and cite it by that: its title is another one",
            Seen::StyleMisnames => "call the style's function `$1` ($2) `$3`, as the type is called",
            Seen::NamesInOneValue => "put all names into one pair of braces: `$1 = {$2}`",
            Seen::AndTwice => "take out one of the two `and`: between them stands no name",
            Seen::BackslashAtEnd => "write `$\\rbrace$` for a brace that is to be printed: BibTeX counts the brace of `\\}`, so it ends the value here",
            Seen::OneOfBoth => "take `$1` or `$2` out of the entry: this style prints only one of them",
            Seen::AccentApart => "write $1: an `$2` and an accent of its own ($3) stand here, at which LaTeX stops",
            Seen::DashOfPages => "write `$1`: the dash here ($2) is no hyphen, by which this style knows that there are several pages",
            Seen::CommentLine => "take this comment out: a database has no comments inside an entry",
            Seen::YearWithLetter => "write the number alone, `$1 = $3`; or put all of it into braces, `$1 = {$2}`, where the style makes no label of the year",
            Seen::RunOlderAux => "run LaTeX, then BibTeX: $2 is older than $1, and doesn't cite `$3`",
            Seen::EachIncluded => "run `bibtex-search` on each of $1: these files have databases and styles of their own, as the package `chapterbib` wants it",
            Seen::AllEntries => "write `\\nocite{*}` if all entries of the databases are meant",
            Seen::OtherStyle => "keep one `\\bibliographystyle` and run LaTeX: `$1` ($2) is in effect, since it stands first; take it away if `$3` (line $4) is meant",
            Seen::LoopWithoutEnd => "change $1 in the body of this loop ($2): its test reads nothing else, so the loop never ends",
        }
    }
}

/// What a built-in function takes, in the order in which it is pushed; None for one that takes nothing, or that isn't there.
pub fn operands(function: &[u8]) -> Option<&'static str> {
    OPERANDS.iter().find(|(name, _)| name.as_bytes() == function).map(|(_, operands)| *operands)
}

/// The names of the built-in functions.
pub fn built_in() -> impl Iterator<Item = &'static [u8]> {
    OPERANDS.iter().map(|(name, _)| name.as_bytes()).chain(WITHOUT_OPERANDS.iter().map(|name| name.as_bytes()))
}

/// Whether a built-in function always leaves a number.
pub fn leaves_number(function: &[u8]) -> bool {
    LEAVE_NUMBERS.iter().any(|name| name.as_bytes() == function)
}

/// Whether a built-in function always leaves a string.
pub fn leaves_text(function: &[u8]) -> bool {
    LEAVE_TEXTS.iter().any(|name| name.as_bytes() == function)
}

const WITHOUT_OPERANDS: [&str; 8] =
    ["call.type$", "cite$", "newline$", "preamble$", "quote$", "skip$", "stack$", "type$"];

const LEAVE_NUMBERS: [&str; 11] =
    ["=", ">", "<", "+", "-", "empty$", "missing$", "num.names$", "text.length$", "width$", "chr.to.int$"];

const LEAVE_TEXTS: [&str; 13] = [
    "*",
    "add.period$",
    "change.case$",
    "cite$",
    "format.name$",
    "int.to.chr$",
    "int.to.str$",
    "preamble$",
    "purify$",
    "quote$",
    "substring$",
    "text.prefix$",
    "type$",
];

/// What each built-in function takes, in the order in which it is pushed.
const OPERANDS: &[(&str, &str)] = &[
    ("=", "VALUE VALUE"),
    (">", "NUMBER NUMBER"),
    ("<", "NUMBER NUMBER"),
    ("+", "NUMBER NUMBER"),
    ("-", "NUMBER NUMBER"),
    ("*", "TEXT TEXT"),
    (":=", "VALUE 'VARIABLE"),
    ("add.period$", "TEXT"),
    ("change.case$", "TEXT CASE"),
    ("chr.to.int$", "CHARACTER"),
    ("duplicate$", "VALUE"),
    ("empty$", "FIELD"),
    ("format.name$", "NAMES NUMBER FORMAT"),
    ("if$", "NUMBER {THEN} {ELSE}"),
    ("int.to.chr$", "NUMBER"),
    ("int.to.str$", "NUMBER"),
    ("missing$", "FIELD"),
    ("num.names$", "NAMES"),
    ("pop$", "VALUE"),
    ("purify$", "TEXT"),
    ("substring$", "TEXT START LENGTH"),
    ("swap$", "VALUE VALUE"),
    ("text.length$", "TEXT"),
    ("text.prefix$", "TEXT LENGTH"),
    ("top$", "VALUE"),
    ("warning$", "TEXT"),
    ("while$", "{TEST} {BODY}"),
    ("width$", "TEXT"),
    ("write$", "TEXT"),
];

#[rustfmt::skip]
const ROWS: &[Row] = &[
    (Section::Aux, "White space in argument", "write no space in `\\cite{..}`, `\\bibliography{..}` or the name of a file"),
    (Section::Aux, "No \"}\"", "run LaTeX again: the `.aux` file wasn't written to its end. Else a line end stands in a key"),
    (Section::Aux, "Stuff after \"}\"", "a package or a key writes a `}` too early: look at that `\\cite`"),
    (Section::Aux, "Illegal, another \\bibdata command", "name all databases in one `\\bibliography`; for several bibliographies a package as `multibib` or `chapterbib` writes an `.aux` file for each"),
    (Section::Aux, "Illegal, another \\bibstyle command", "keep one `\\bibliographystyle`; some classes and packages (`revtex`, `natbib`'s styles) give one by themselves"),
    (Section::Aux, "Case mismatch error between cite keys ~ and ~", "cite the key in one spelling"),
    (Section::Aux, "Multiple inclusions of entire database", "keep one `\\nocite{*}`"),
    (Section::Aux, "* has a wrong extension", "include files by `\\include`, which writes `$1.aux`"),
    (Section::Aux, "Already encountered file ~", "include each file once"),
    (Section::Aux, "I couldn't open auxiliary file ~", "run LaTeX on the whole document, without `\\includeonly`, or remove an old `.aux` file"),
    (Section::Aux, "This database file appears more than once: ~", "name each database once in `\\bibliography`"),
    (Section::Aux, "I found no \\citation commands", "write a `\\cite`, or `\\nocite{*}` for all entries, and run LaTeX; with `biblatex`, give it the option `backend=bibtex`"),
    (Section::Aux, "I found no \\bibdata command", "write `\\bibliography{refs}` with the name of your database, and run LaTeX; with `biblatex`, give it the option `backend=bibtex`"),
    (Section::Aux, "I found no \\bibstyle command", "write `\\bibliographystyle{plain}`, or another style, and run LaTeX; with `biblatex`, give it the option `backend=bibtex`"),
    (Section::Run, "I couldn't open style file ~", "correct the name in `\\bibliographystyle`, or put the style beside the `.aux` file. It is looked for there, along BSTINPUTS and in TeX's folders; check that you may read it"),
    (Section::Run, "I couldn't open database file ~", "correct the name in `\\bibliography`, or put the database beside the `.aux` file. It is looked for there, along BIBINPUTS and in TeX's folders; check that you may read it"),
    (Section::Run, "Ended: stopped", "the style took as many steps as it may: raise `--budget`. If it is stopped again with ten times as many, it loops: `docs/STYLES.md` says how to find where"),
    (Section::Run, "Ended: limit literals", "a loop or a recursion of the style pushes more than it takes: let each round leave the stack as it was"),
    (Section::Run, "Ended: limit calls", "a function of the style calls itself, through a function that stands on the stack, without end: count the calls, or loop by `while$`"),
    (Section::Run, "Ended: limit loops", "the body of a loop of the style begins that loop again: end the inner one first"),
    (Section::Run, "Ended: limit string", "a loop of the style joins strings without end. If none does, look for a value, a `@string` or a preamble of more than 1,000,000 bytes (a `{` or `\"` that isn't closed?)"),
    (Section::Run, "Ended: limit file", "the file that the log names last has more than 2,147,483,647 bytes: divide it"),
    (Section::Run, "Ended: limit files", "20 `.aux` files are open, each named in the one before: include chapters from the main file"),
    (Section::Run, "Ended: no top file", "run LaTeX first, and name the job as its `.aux` file is named, in its folder: `paper` for `paper.aux`"),
    (Section::Style, "I was expecting a command", "begin the command by its word; is there a `}` too many above?"),
    (Section::Style, "~ isn't a command", "correct the word, or put `%` before a comment: the commands are ENTRY, INTEGERS, STRINGS, FUNCTION, MACRO, READ, EXECUTE, ITERATE, REVERSE and SORT"),
    (Section::Style, "I was expecting a {", "open or close the argument; count the braces of the command above"),
    (Section::Style, "I was expecting a }", "open or close the argument; count the braces of the command above"),
    (Section::Style, "I was expecting a name", "write a name: letters, digits and signs other than `\" # % ( ) , = { }` and `'`, not beginning with a digit. Names in a list are parted by whitespace, not by commas"),
    (Section::Style, "~ is already defined", "give it another name, or remove one of the two"),
    (Section::Style, "~ is an unknown function", "define it above its use, or correct its spelling"),
    (Section::Style, "Illegal integer", "write digits after `#`, with `-` before them if need be"),
    (Section::Style, "Illegal text after a literal", "put whitespace after the string or integer"),
    (Section::Style, "No \" to end string literal", "close the string on its line; two strings join by `*`"),
    (Section::Style, "Illegal, another ENTRY command", "remove the second one"),
    (Section::Style, "Illegal, another READ command", "remove the second one"),
    (Section::Style, "Illegal, SORT command before READ", "put READ above it"),
    (Section::Style, "Illegal, EXECUTE command before READ", "put READ above it"),
    (Section::Style, "Illegal, ITERATE command before READ", "put READ above it"),
    (Section::Style, "Illegal, REVERSE command before READ", "put READ above it"),
    (Section::Style, "Illegal, READ command before ENTRY", "put `ENTRY {..}{..}{..}` above READ"),
    (Section::Style, "Illegal, MACRO command after READ", "put the macros above READ"),
    (Section::Style, "I was expecting a \"", "put the text in quotes, on one line"),
    (Section::Style, "Illegal end of style file", "close the last command; the fault is often a `{` far above"),
    (Section::Execution, "You can't pop an empty literal stack", "a function before it took too much, or left too little: `stack$` above that place shows what stands on the stack"),
    (Section::Execution, "~ is not an integer", "push the operands in the order in which the function takes them; a field that may be missing goes through `empty$` or `missing$` first"),
    (Section::Execution, "~ is not a string", "push the operands in the order in which the function takes them; a field that may be missing goes through `empty$` or `missing$` first"),
    (Section::Execution, "~ is not a function", "push the operands in the order in which the function takes them; a field that may be missing goes through `empty$` or `missing$` first"),
    (Section::Execution, "~ is not a string or missing field", "push the operands in the order in which the function takes them; a field that may be missing goes through `empty$` or `missing$` first"),
    (Section::Execution, "= needs two integers or two strings", "compare two numbers or two strings; a number becomes a string by `int.to.str$`"),
    (Section::Execution, "Integer overflow", "the result is 0 here: keep numbers within 32 bits, or work with strings"),
    (Section::Execution, "You can't assign to ~", "only variables are assigned to: `value 'variable :=`"),
    (Section::Execution, "You can't mess with entries here", "fields, entry variables, `cite$`, `type$` and `call.type$` belong to an entry. Take the command out that runs the function by EXECUTE, or run it by ITERATE or REVERSE"),
    (Section::Execution, "~ isn't an ASCII code", "`int.to.chr$` takes 0 to 127"),
    (Section::Execution, "\"~\" isn't a single character", "`chr.to.int$` takes a string of one byte"),
    (Section::Execution, "\"~\" is an illegal case-conversion string", "the conversion is `\"t\"`, `\"l\"` or `\"u\"`"),
    (Section::Execution, "There is no name number ~ in \"~\"", "ask `num.names$` first; names are parted by ` and `"),
    (Section::Execution, "Name ~ in \"~\" has a comma at the end", "remove the comma in the database"),
    (Section::Execution, "Too many commas in name ~ of \"~\"", "a name has at most two commas: `von Last, Jr, First`; names are parted by ` and `, not by commas or semicolons"),
    (Section::Execution, "The format string \"~\" is illegal", "count the braces of the format; a piece has one letter of `f v l j`, once or twice"),
    (Section::Execution, "The literal stack isn't empty", "a function before it left something: each command's function has to take off what it pushes"),
    (Section::Execution, "string of ~ bytes cut to ~", "the value is longer than a variable keeps: raise the limit by `--entry-max` or `--global-max`, or cut it in the style"),
    (Section::Database, "I was expecting a name", "write the name; a field's name begins with no digit"),
    (Section::Database, "I was expecting a { or a (", "open the item by a brace; an `@` in text between items begins one"),
    (Section::Database, "I was expecting a , or a }", "put a comma after the key and between fields, often at the end of the line above; write a key without whitespace"),
    (Section::Database, "I was expecting a , or a )", "put a comma after the key and between fields, often at the end of the line above; write a key without whitespace"),
    (Section::Database, "I was expecting an =", "write `name = value`; is there a comma too many, or a brace too few above?"),
    (Section::Database, "I was expecting a }", "close it; a `@string` defines one name"),
    (Section::Database, "I was expecting a )", "close it; a `@string` defines one name"),
    (Section::Database, "I was expecting a value", "put braces or quotes round a text"),
    (Section::Database, "Unbalanced braces", "count the braces of the value"),
    (Section::Database, "Illegal end of database file", "close the item; often a `{` or `\"` far above isn't closed"),
    (Section::Database, "Repeated entry", "remove one of the two"),
    (Section::Entries, "A bad cross reference--entry \"*\" refers to entry \"*\", which doesn't exist", "add `$2`, or move it after `$1`, or cite it"),
    (Section::Entries, "you've nested cross references--entry \"*\" refers to entry \"*\"", "`$2` has a `crossref` of its own: give `$1` its fields, since they may not come down"),
    (Section::Entries, "I didn't find a database entry for \"~\"", "the key is cited, or is a parent, and no database has it: look for its spelling"),
    (Section::Entries, "I'm ignoring ~'s extra \"~\" field", "delete one of the two"),
    (Section::Entries, "entry type for \"~\" isn't style-file defined", "the style has no function of that name; it treats the entry by `default.type`, if it has that"),
    (Section::Entries, "string name \"*\" is undefined", "define `$1` by `@string` above its use, or put braces or quotes round a text"),
    (Section::Entries, "string name \"~\" is used in its own definition", "a `@string` can't be made longer by itself: give the new one another name"),
];

#[cfg(test)]
mod tests {
    use super::*;

    fn text_of(sections: &[Section], text: &[u8]) -> Option<String> {
        find(sections, text).map(|advice| advice.text())
    }

    #[test]
    fn names_are_put_in() {
        let crossed = b"A bad cross reference--entry \"two\" refers to entry \"p\", which doesn't exist";
        assert_eq!(
            text_of(&[Section::Entries], crossed).as_deref(),
            Some("add `p`, or move it after `two`, or cite it")
        );
        let wrong = text_of(&[Section::Aux], b"x.tex has a wrong extension");
        assert_eq!(wrong.as_deref(), Some("include files by `\\include`, which writes `x.tex.aux`"));
        assert_eq!(
            text_of(&[Section::Entries], b"string name \"\x1b\" is undefined").map(|text| text.contains('\x1b')),
            Some(false)
        );
    }

    #[test]
    fn sections_are_kept_apart() {
        let name = b"I was expecting a name";
        assert_ne!(text_of(&[Section::Style], name), text_of(&[Section::Database], name));
        assert_eq!(text_of(&[Section::Aux], name), None);
        assert_eq!(text_of(&[Section::Entries], b"empty title in k"), None);
    }

    #[test]
    fn patterns_fit_whole_texts() {
        assert_eq!(matched("a*c", b"abbc"), Some(vec![&b"bb"[..]]));
        assert_eq!(matched("a*c", b"abcd"), None);
        assert_eq!(matched("*-~.", b"x-y-z."), Some(vec![&b"x"[..]]));
        assert_eq!(matched("a", b"a"), Some(vec![]));
        assert_eq!(matched("a", b"ab"), None);
        assert_eq!(matched("ab~ba", b"aba"), None);
    }

    #[test]
    fn repeated_pieces_cost_linear_time() {
        let text = [b"A bad cross reference--entry \"".to_vec(), b"\" refers to entry \"".repeat(100_000)].concat();
        assert_eq!(text_of(&[Section::Entries], &text), None);
    }

    #[test]
    fn each_row_is_found_by_itself() {
        for (number, (section, pattern, _)) in ROWS.iter().enumerate() {
            let found = find(&[*section], pattern.as_bytes()).map(|advice| advice.number);
            assert_eq!(found, Some(number), "{pattern}");
        }
    }

    #[test]
    fn operands_are_known() {
        assert_eq!(operands(b"format.name$"), Some("NAMES NUMBER FORMAT"));
        assert_eq!(operands(b"cite$"), None);
    }
}
