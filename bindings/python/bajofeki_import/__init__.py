"""Files of rules from lalrpop's grammars, flex's files and Pygments' lexers: `python3 -m bajofeki_import --help`."""
