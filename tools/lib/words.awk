# What shows a line with a fault: its words, the place and what is said of it. What was declared is in kind[].

# Cuts the line into word[1], word[2] .., which begin at place[1], place[2] ..; gives their number.
function split_words(text,    n, at) {
  for (k in word) delete word[k]
  for (n = 0; match(text, /[^ \t]+/); n++) {
    at += RSTART
    word[n + 1] = substr(text, RSTART, RLENGTH)
    place[n + 1] = at
    at += RLENGTH - 1
    text = substr(text, RSTART + RLENGTH)
  }
  return n
}

# Points at word k; past the last word, behind the line.
function point(k, words) {
  from = k <= count ? place[k] : length($0) + 2
  width = k <= count ? length(word[k]) : 1
  said = words
}

# Says of word k that nothing of this kind has its name.
function unknown(k, wanted) {
  if (word[k] in kind && kind[word[k]] != "") point(k, word[k] " is a " kind[word[k]] ", and not a " wanted)
  else point(k, "no " wanted " of this name was declared before")
}

# Prints the line, the carets and the words. Of a long line the part around the caret is shown.
function show(    text, carets) {
  text = $0
  gsub(/\t/, " ", text)
  gsub(/[^ -~]/, "?", text)
  if (from > 60) { text = "... " substr(text, from - 30); from = 35 }
  if (length(text) > 90) text = substr(text, 1, 86) " ..."
  if (width > 91 - from) width = 91 - from
  for (carets = ""; length(carets) < width; ) carets = carets "^"
  printf "  %s\n%" (from + 1) "s%s\n  %s\n", text, "", carets, said
}
