# Breaks lines of more than `width` columns at blanks, and goes on below their first sign; no word is broken.
function columns(text) {
	gsub(/[\200-\277]/, "", text)
	return length(text)
}

{
	if (columns($0) <= width) {
		print
		next
	}
	match($0, /^ */)
	indent = substr($0, 1, RLENGTH)
	line = indent
	n = split($0, word, " ")
	for (i = 1; i <= n; i++) {
		if (i > 1 && columns(line " " word[i]) > width) {
			print line
			line = indent word[i]
		} else line = line (i > 1 ? " " : "") word[i]
	}
	print line
}
