//! The command line.

pub const USAGE: &str = "mungaite-tests [--quick | --long] [--only NAME [--seed S]] [--start S] [--trace]
  --quick      the gate's run; the default
  --long       many more random cases
  --only NAME  the tests whose name is NAME or starts with NAME and a slash
  --seed S     only the case with this seed (or number, of a list)
  --start S    the seed that the cases' seeds are made from; 1 unless given
  --trace      prints each case before it is run, for a run that dies";

#[derive(Default)]
pub struct Options {
    pub long: bool,
    pub only: Option<String>,
    pub case: Option<u64>,
    pub start: u64,
    pub trace: bool,
}

impl Options {
    pub fn read(mut words: impl Iterator<Item = String>) -> Result<Options, String> {
        let mut options = Options { start: 1, ..Options::default() };
        while let Some(word) = words.next() {
            let mut value = || words.next().ok_or(format!("{word} needs a value"));
            match word.as_str() {
                "--quick" => options.long = false,
                "--long" => options.long = true,
                "--only" => options.only = Some(value()?),
                "--seed" => options.case = Some(number(&value()?)?),
                "--start" => options.start = number(&value()?)?,
                "--trace" => options.trace = true,
                _ => return Err(format!("{word} is no option")),
            }
        }
        if options.case.is_some() && options.only.is_none() {
            return Err("--seed needs --only".to_string());
        }
        Ok(options)
    }

    pub fn selects(&self, name: &str) -> bool {
        match &self.only {
            Some(only) => name == only || name.strip_prefix(only.as_str()).is_some_and(|rest| rest.starts_with('/')),
            None => true,
        }
    }
}

fn number(word: &str) -> Result<u64, String> {
    word.parse().map_err(|_| format!("{word} is no number"))
}
