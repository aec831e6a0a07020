# Over what `rt try --cases` printed, as `od -An -v -tu1` prints bytes: for each line `== cN` its name, the offset behind it, and how many
# bytes there are up to the next one.
{
	for (i = 1; i <= NF; i++) {
		at++
		if ($i != 10) {
			if (length(line) < 20) line = line sprintf("%c", $i > 31 && $i < 127 ? $i + 0 : 63)
			continue
		}
		if (line ~ /^== c[0-9]+$/) {
			if (name != "") print name, begin, at - length(line) - 1 - begin
			name = substr(line, 4)
			begin = at
		}
		line = ""
	}
}
END { if (name != "") print name, begin, at - begin }
