// The words after a command: options in any place, and the other words in their order.

/// What the words of a command line give.
pub struct Given<'a> {
    pub strict: bool,
    pub json: bool,
    pub csv: Option<&'a str>,
    pub words: Vec<&'a str>,
}

/// Whether a word is one below 0: a minus, then digits with at most one point among them.
fn is_below_zero(word: &str) -> bool {
    let Some(rest) = word.strip_prefix('-') else { return false };
    let points = rest.chars().filter(|&c| c == '.').count();
    !rest.is_empty()
        && !rest.starts_with('.')
        && points <= 1
        && rest.chars().all(|c| c == '.' || c.is_ascii_digit())
}

fn is_option(word: &str) -> bool {
    word.starts_with('-') && word != "-"
}

/// The options that a command has.
#[derive(Clone, Copy, Default)]
pub struct Options {
    pub strict: bool,
    pub tables: bool,
}

/// What the words give; none where they are a bad command line.
pub fn given<'a>(words: &[&'a str], options: Options) -> Option<Given<'a>> {
    let mut given = Given { strict: false, json: false, csv: None, words: Vec::new() };
    let mut rest = words.iter();
    while let Some(&word) = rest.next() {
        match word {
            "--" => {
                given.words.extend(rest);
                break;
            }
            "--strict" if options.strict && !given.strict => given.strict = true,
            "--json" if options.tables && !given.json => given.json = true,
            "--csv" if options.tables && given.csv.is_none() => {
                given.csv = Some(*rest.next().filter(|folder| !is_option(folder))?);
            }
            _ if word.starts_with("--csv=") && options.tables && given.csv.is_none() => {
                given.csv = word.strip_prefix("--csv=");
            }
            _ if is_option(word) && !is_below_zero(word) => return None,
            _ => given.words.push(word),
        }
    }
    Some(given)
}
