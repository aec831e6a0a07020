# Over a platform file. With -v number=N prints the line and the key of its entry N, `worst."KEY"` for one of the table worst: those
# of the file's own table first, then those of worst, each by the bytes of their keys. Prints nothing where there is none, or
# where the file isn't written in a plain way. With -v values=1 prints the entries of worst with their ticks, `worst KEY TICKS`.

# The first key of text, and in `rest` what stands behind it.
function key_of(text,    key) {
	sub(/^[ \t]+/, "", text)
	if (match(text, /^"[^"\\]*"/) || match(text, /^'[^']*'/)) {
		key = substr(text, 2, RLENGTH - 2)
	} else if (match(text, /^[A-Za-z0-9_-]+/)) {
		key = substr(text, 1, RLENGTH)
	} else {
		rest = ""
		return ""
	}
	rest = substr(text, RLENGTH + 1)
	sub(/^[ \t]+/, "", rest)
	return key
}

function note(of, key) {
	if (key == "" || (of, key) in line_of) return
	line_of[of, key] = NR
	value[of, key] = rest
	keys[of, ++count[of]] = key
}

# The keys of a table between braces.
function note_all(text) {
	sub(/^[ \t]*\{/, "", text)
	while (text != "" && text !~ /^[ \t]*\}/) {
		note("worst", key_of(text))
		if (!match(rest, /,/)) return
		text = substr(rest, RSTART + 1)
	}
}

{ sub(/\r$/, "") }
NR == 1 { sub(/^\357\273\277/, "") }
/^[ \t]*(#|$)/ { next }
/^[ \t]*\[/ {
	text = $0
	sub(/^[ \t]*\[+/, "", text)
	table = key_of(text)
	note("top", table)
	if (table == "worst" && rest ~ /^\./) {
		note("worst", key_of(substr(rest, 2)))
		table = "worst."
	}
	next
}
{
	key = key_of($0)
	if (table == "worst") note("worst", key)
	if (table != "") next
	note("top", key)
	if (key != "worst") next
	if (rest ~ /^\./) note("worst", key_of(substr(rest, 2)))
	else if (rest ~ /^=/) note_all(substr(rest, 2))
}

# The key of this place by the bytes of all keys of a table.
function placed(of, place,    k, j, before) {
	for (k = 1; k <= count[of]; k++) {
		before = 0
		for (j = 1; j <= count[of]; j++) before += (keys[of, j] "" < keys[of, k] "")
		if (before == place) return keys[of, k]
	}
	return ""
}

# The entries of worst whose ticks are plain.
function print_values(    k, text) {
	for (k = 1; k <= count["worst"]; k++) {
		text = value["worst", keys["worst", k]]
		sub(/^=[ \t]*/, "", text)
		if (match(text, /^\+?[0-9]+/)) print "worst", keys["worst", k], substr(text, 1, RLENGTH) + 0
	}
}

END {
	if (values) {
		print_values()
		exit
	}
	if (kind == "shape" && number == count["top"] + 0 && !(("top", "name") in line_of)) {
		print "no name"
		exit
	}
	of = number < count["top"] ? "top" : "worst"
	key = placed(of, of == "top" ? number : number - count["top"])
	if (key != "") print line_of[of, key] " " (of == "top" ? key : "worst.\"" key "\"")
}
