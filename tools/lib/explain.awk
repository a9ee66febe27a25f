# Shows the line of a script that has a fault. `line` is its number and `fault` the number of the fault; the lines
# before it have none. The forms and the faults are those of docs/use/FORMATS.md.

BEGIN {
  version = 1
  modes = "intention_read, read, upgrade, intention_write"
  form["lock"] = "CLIENT lock SET MODE"
  form["try"] = "CLIENT try SET MODE"
  form["unlock"] = "CLIENT unlock SET MODE"
  form["change"] = "CLIENT change SET MODE MODE"
  form["drop"] = "CLIENT drop CLIENT SET"
  form["withdraw"] = "CLIENT withdraw CLIENT SET"
}

{ sub(/\r$/, ""); count = split_words($0) }
NR < line && count && word[1] !~ /^#/ { declare() }
NR == line { explain(); show(); is_shown = 1; exit }
END { if (!is_shown) print "  the script has no line `nodes NUMBER`" }

# Keeps what a line without fault declares.
function declare() {
  if (word[1] == "version") { version = word[2] + 0; return }
  if (word[1] == "nodes") { nodes = word[2] + 0; return }
  if (word[1] != "set" && word[1] != "client") return
  kind[word[2]] = word[1]
  declared_in[word[2]] = NR
  if (word[1] == "client") { node_of[word[2]] = word[4] + 0; clients++ }
}

function explain() {
  if (fault == 1) { match($0, /[^\t -~]/); from = RSTART; width = 1; said = "not printable ASCII (shown as ?)" }
  else if (fault == 2) { from = 201; width = 1; said = "the line is longer than 200 bytes" }
  else if (fault == 3) explain_form()
  else if (fault == 4) explain_number()
  else if (fault == 5) explain_order()
  else if (fault == 6) point(2, "not a name: 1 to 32 letters, digits, _, - and ., a letter first, " \
                                "and not nodes, set, client, journal or version")
  else if (fault == 7) point(2, "declared before, in line " declared_in[word[2]])
  else if (fault == 8) explain_unknown()
  else if (fault == 9) explain_limit()
  else if (fault == 10) explain_mode(word[2] == "change" && is_mode(word[4]) ? 5 : 4)
  else if (fault == 11) point(3, word[3] " is on node " node_of[word[3]] ", and " word[1] " on node " \
                                 node_of[word[1]] ": a client drops and withdraws for clients of its own node")
}

# Whether a word is a mode word of the script's version.
function is_mode(text) {
  if (text == "read_intention_write") return version > 1
  return text ~ /^(intention_read|read|upgrade|intention_write|write)$/
}

function explain_mode(k) {
  if (word[k] == "read_intention_write") point(k, "not a mode of version 1: the first line would be `version 2`")
  else if (version > 1) point(k, "not a mode: " modes ", read_intention_write or write")
  else point(k, "not a mode: " modes " or write")
}

# A line in the wrong place.
function explain_order() {
  if (word[1] == "version") point(1, "the version is given once, before all other lines")
  else if (word[1] == "nodes") point(1, "the number of nodes is given once, before all sets and clients")
  else point(1, "the first line must be `nodes NUMBER`" (version > 1 ? ", after the version" : ""))
}

# No form at all: the first word that none of the forms has.
function explain_form() {
  if (word[1] == "version") point(count < 3 || word[2] !~ /^[23]$/ ? 2 : 3, "the forms are: version 2, and version 3")
  else if (word[1] == "nodes") point(count < 2 ? 2 : 3, "the form is: nodes NUMBER")
  else if (word[1] == "set") point(odd_word("with", 4), "the forms are: set NAME, and set NAME with SET")
  else if (word[1] == "client") point(odd_word("at", 4), "the form is: client NAME at NODE")
  else if (count == 1) point(1, "no line of a script: version, nodes, set, client, or a client with its command")
  else if (word[2] == "withdraw" && version != 3) point(2, "a command of version 3 alone: the first line would be `version 3`")
  else if (!(word[2] in form)) point(2, "not a command: lock, try, unlock, change" (version == 3 ? ", drop or withdraw" : " or drop"))
  else point(count < 4 + (word[2] == "change") ? count + 1 : 5 + (word[2] == "change"), "the form is: " form[word[2]])
}

# The first word that is wrong or missing, if the third is to be `wanted` and there are to be `words` of them.
function odd_word(wanted, words) {
  if (count > 2 && word[3] != wanted) return 3
  return count < words ? count + 1 : words + 1
}

function explain_number(    k) {
  k = word[1] == "nodes" ? 2 : 4
  if (word[k] !~ /^[0-9]+$/ || length(word[k]) > 9) point(k, "not a number: 1 to 9 digits")
  else if (k == 2) point(k, "a script" of_version() " has 1 to " most_nodes(version) " nodes")
  else point(k, "not a node of this script, which has " (nodes == 1 ? "node 0 alone" : "nodes 0 to " nodes - 1))
}

function explain_unknown() {
  if (word[1] == "set") unknown(4, "set")
  else if (kind[word[1]] != "client") unknown(1, "client")
  else if (word[2] != "drop" && word[2] != "withdraw") unknown(3, "set")
  else if (kind[word[3]] != "client") unknown(3, "client")
  else unknown(4, "set")
}

# The limits of a version.
function most_nodes(of) { return of > 1 ? 64 : 16 }
function most_clients(of) { return of > 2 ? 1024 : of > 1 ? 256 : 64 }
function of_version() { return version > 1 ? " of version " version : "" }

# The first later version whose scripts may have so many nodes and clients, if there is one.
function version_for(nodes, clients,    k) {
  for (k = version + 1; k <= 3; k++) if (nodes <= most_nodes(k) && clients <= most_clients(k)) return k
}

# Which first line would allow more: that of the version `later`, if there is one, with which there may be so many.
function would_have(later, most) { return later ? ", and " most " if its first line is `version " later "`" : "" }

function explain_limit(    later) {
  if (word[1] == "nodes") point(2, "a script" of_version() " has at most " most_nodes(version) " nodes" \
                                   would_have(later = version_for(word[2] + 0, 0), most_nodes(later)))
  else if (word[1] == "set") point(2, "a script has at most 8 sets")
  else if (word[1] != "client") point(2, "a script has at most 4,096 commands")
  else if (clients >= most_clients(version)) point(2, "a script" of_version() " has at most " most_clients(version) " clients" \
                                                   would_have(later = version_for(nodes, clients + 1), most_clients(later)))
  else point(4, "a node has at most 16 clients")
}
