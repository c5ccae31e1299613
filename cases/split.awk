# Writes the parts of a case of scripts/ into the folder `to`: `words`, one a line, `status`, `input` and `output`.
#
# A case begins with its rule, in lines that begin with a semicolon. The last of them may give its words, as
# `; words: script --queues=2`, and its exit status, as `; status: 4`; without these they are `script` and 0. An
# empty line ends them. The script comes next, and behind the line `----` its output. In both `\r` is a carriage
# return, `\xff` a byte, `\{9 x}` nine letters x, and `\` at the end of a line says that no line feed follows.
BEGIN {
  part = "head"
  printf "script\n" > (to "/words")
  printf "0\n" > (to "/status")
  printf "" > (to "/input")
  printf "" > (to "/output")
  close(to "/words")
  close(to "/status")
}

function digit(letter) { return index("0123456789abcdef", letter) - 1 }

# What stands for the backslash and the letters behind it that `match` found.
function meant(found, count, letters) {
  if (found == "\\r") return "\r"
  if (found ~ /^\\x/) return sprintf("%c", 16 * digit(substr(found, 3, 1)) + digit(substr(found, 4, 1)))
  count = substr(found, 3) + 0
  letters = substr(found, length(found) - 1, 1)
  while (length(letters) < count) letters = letters letters
  return substr(letters, 1, count)
}

function plain(line, text) {
  text = ""
  while (match(line, /\\(r|x[0-9a-f][0-9a-f]|[{][0-9]+ .[}])/)) {
    text = text substr(line, 1, RSTART - 1) meant(substr(line, RSTART, RLENGTH))
    line = substr(line, RSTART + RLENGTH)
  }
  if (line ~ /\\$/) return text substr(line, 1, length(line) - 1)
  return text line "\n"
}

part == "head" && /^; words:/ {
  printf "" > (to "/words")
  for (i = 3; i <= NF; i++) print $i > (to "/words")
}
part == "head" && /^; status: / { print $3 > (to "/status") }
part == "head" && !/^;/ { part = $0 == "" ? "input" : "wrong"; next }
part == "input" && $0 == "----" { part = "output"; next }
part == "input" || part == "output" { printf "%s", plain($0) > (to "/" part) }
END { if (part != "output") exit 1 }
