"""What `help` and `version` print. The help is the program's own text."""
HELP = r"""hminify writes an HTML page as short as its rules allow, with a certificate.

usage: hminify COMMAND WORDS.. [FLAGS]

commands
  minify TABLE PAGE OUT CERT         write the tree of PAGE shortest to OUT, and
                                     the certificate of its length to CERT
  check TABLE PAGE OUT CERT          say whether CERT shows that OUT is shortest
  fragment TABLE PAGE OUT CERT       as minify, of the content of body alone
  checkfragment TABLE PAGE OUT CERT  as check, of the content of body alone
  tree TABLE PAGE                    print the tree of PAGE
  json TABLE PAGE                    print the tree of PAGE as JSON
  explain TABLE PAGE                 say where and why PAGE is refused, or how
                                     short its tree can be written
  minifyjson TABLE PAGE OUT CERT     as minify, of a tree that PAGE has as JSON
  measure TABLE NUMBER SIZE          make a page, write it shortest, check that
  help                               print this
  version                            print the version, and with which toolchain
                                     the program was proved

TABLE is a file of named character references, or one of these words
  html  the names of the HTML Standard
  none  no names: for readers that know none; browsers know these names

flags that change no tree; fragment and checkfragment need --omit
  --omit          leave tags out where the standard lets them be
  --unquote       write values without quotes
  --tight         let an attribute touch the quoted value before it
  --ascii         write a reference for each character above 7F
  --sparse        leave choices out of the certificate that are never shortest

this one changes the order of attributes alone; measure doesn't take it
  --order         put the attributes of each tag into the shortest order

flags that rewrite the tree first
  --doctype       the legacy doctype becomes the plain one
  --comments      comments go
  --booleans      boolean attributes lose their value
  --empty         a blank class, id or style goes
  --redundant     attributes that say the default go
  --space         whitespace that isn't seen goes
  --conservative  with --space: runs of whitespace only become one space

exit statuses
  0  done, or the check says yes   5  a file isn't there, or a call on it failed
  1  the check says no             6  standard output failed
  2  the words have no meaning     7  memory was refused
  3  PAGE is refused               8  the JSON of minifyjson is refused
  4  TABLE is refused

example
  hminify minify html page.html out.html out.cert --omit --unquote --tight \
    --sparse --doctype --comments --booleans --empty --redundant --space
"""
VERSION = "hminify reference 0.1.0\n"
NOTICES = {"help": HELP, "--help": HELP, "-h": HELP, "version": VERSION, "--version": VERSION, "-V": VERSION}
