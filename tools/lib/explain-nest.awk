# Shows the line of nested transactions at which an input is refused. `line` is its number; those before it are taken.
# The forms and the reasons are those of docs/use/FORMATS.md.

BEGIN {
  most["set"] = 8
  most["transaction"] = 256
  most_lines = 65535
  form["lock"] = "T lock S MODE"
  form["try"] = "T try S MODE"
  form["commit"] = "T commit"
  form["abort"] = "T abort"
}

{ sub(/\r$/, ""); count = split_words($0) }
NR < line && count && word[1] !~ /^#/ { declare() }
NR == line { explain(); show(); exit }

# Keeps what a line declares.
function declare() {
  lines++
  if (word[1] == "set") keep("set", word[2])
  else if (word[2] == "begin") keep("transaction", word[1])
}

function keep(what, name) {
  kind[name] = what
  declared_in[name] = NR
  number[what]++
}

function explain() {
  if (!has_form()) explain_form()
  else if (lines >= most_lines) point(1, "an input has at most 65,535 lines that say something")
  else if (word[1] == "set") explain_new(2, "set")
  else if (word[2] != "begin") explain_names()
  else if (count == 4 && kind[word[4]] != "transaction") unknown(4, "transaction")
  else explain_new(1, "transaction")
}

function has_form() {
  if (word[1] == "set") return count == 2
  if (word[2] == "begin") return count == 2 || count == 4 && word[3] == "in"
  return word[2] in form && count == (form[word[2]] ~ /MODE/ ? 4 : 2)
}

# No form at all: the first word that none of the forms has.
function explain_form() {
  if (word[1] == "set") point(count < 2 ? 2 : 3, "the form is: set S")
  else if (count == 1) point(1, "no line: set, or a transaction with begin, lock, try, commit or abort")
  else if (word[2] == "begin") point(odd_word(), "the forms are: T begin, and T begin in P")
  else if (!(word[2] in form)) point(2, "not one of begin, lock, try, commit and abort")
  else if (form[word[2]] !~ /MODE/) point(3, "the form is: " form[word[2]])
  else point(count < 4 ? count + 1 : 5, "the form is: " form[word[2]])
}

# The first word of a `begin` that is wrong or missing.
function odd_word() {
  if (word[3] != "in") return 3
  return count < 4 ? 4 : 5
}

# A name that is declared.
function explain_new(k, what) {
  if (word[k] in declared_in) point(k, "declared before, in line " declared_in[word[k]])
  else if (!is_name(word[k])) point(k, "not a name: 1 to 32 letters, digits, _, - and ., a letter first, " \
                                       "and not nodes, set, client, journal, version or begin")
  else point(k, "an input has at most " most[what] " " what "s")
}

function is_name(text) {
  return length(text) <= 32 && text ~ /^[A-Za-z][A-Za-z0-9_.-]*$/ && \
         text !~ /^(nodes|set|client|journal|version|begin)$/
}

# A line that orders something of a transaction.
function explain_names() {
  if (kind[word[1]] != "transaction") unknown(1, "transaction")
  else if (kind[word[3]] != "set") unknown(3, "set")
  else point(4, "not a mode: intention_read, read, upgrade, intention_write, read_intention_write or write")
}
