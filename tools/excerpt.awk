# Over the bytes around a place, as `od -An -v -tu1` prints them: prints the line with the place and a caret below it.
# first: the offset of the first byte given; start: that of its line; at: the place; utf8: 1 where the terminal takes UTF-8.
# Tabs become spaces, a byte that is no text becomes `?`, and a long line is cut on both sides.

function width(code) {
	if (code >= 768 && code < 880 || code >= 8203 && code < 8208 || code >= 65024 && code < 65040) return 0
	if (code >= 4352 && code < 4448 || code >= 11904 && code < 42192 || code >= 44032 && code < 55204) return 2
	if (code >= 63744 && code < 64256 || code >= 65072 && code < 65136 || code >= 65281 && code < 65377) return 2
	return code >= 127744 && code < 129792 || code >= 131072 && code < 262142 ? 2 : 1
}

BEGIN { shown = count = 0 }

# One shown character of so many columns, which begins at byte i.
function put(text, columns, i) {
	if (first + i <= at) here = shown
	show[shown] = text
	wide[shown++] = columns
}

# How many bytes from i on are one UTF-8 character; 0 where there is none. Sets `code`.
function character(i,    b, more, k) {
	b = byte[i]
	more = b < 194 ? 0 : b < 224 ? 1 : b < 240 ? 2 : b < 245 ? 3 : 0
	if (!more || i + more >= count) return 0
	code = b - (more == 1 ? 192 : more == 2 ? 224 : 240)
	for (k = 1; k <= more; k++) {
		if (byte[i + k] < 128 || byte[i + k] > 191) return 0
		code = code * 64 + byte[i + k] - 128
	}
	if (more == 2 && (code < 2048 || code >= 55296 && code < 57344)) return 0
	return more == 3 && (code < 65536 || code > 1114111) ? 0 : more + 1
}

function text_of(i, length_,    text, k) {
	for (k = 0; k < length_; k++) text = text sprintf("%c", byte[i + k])
	return text
}

function spell(    i, b, n, column) {
	for (i = 0; i < count; i += n) {
		b = byte[i]
		n = 1
		if (b == 9) {
			do put(" ", 1, i); while (++column % 8)
		} else if (b >= 32 && b < 127) {
			put(sprintf("%c", b), 1, i)
			column++
		} else if (b == 13 && (i + 1 == count)) {
			continue
		} else if ((n = character(i)) && code >= 160 && utf8) {
			put(text_of(i, n), width(code), i)
			column += width(code)
		} else {
			n = n ? n : 1
			put("?", 1, i)
			column++
		}
	}
	if (at >= first + count) here = shown
}

# Prints a line of at most 76 columns whole, else at most 70, 50 of them before the place.
function cut(    from, to, columns, k, mark, all) {
	for (k = 0; k < shown; k++) all += wide[k]
	if (first == start && !goes_on && all <= 76) {
		from = 0
		to = shown
		for (k = 0; k < here; k++) mark += wide[k]
	} else {
		columns = 0
		for (from = here; from > 0 && columns + wide[from - 1] <= 50; from--) columns += wide[from - 1]
		mark = columns
		for (to = here; to < shown && columns + wide[to] <= 70; to++) columns += wide[to]
	}
	before = from > 0 || first > start ? "..." : ""
	printf "    %s", before
	for (k = from; k < to; k++) printf "%s", show[k]
	print (to < shown || goes_on ? "..." : "")
	blanks = sprintf("%" (4 + length(before) + mark) "s", "")
	print blanks "^"
}

{
	for (i = 1; i <= NF && !over; i++) {
		if ($i == 10) over = 1
		else byte[count++] = $i + 0
	}
}

END {
	goes_on = !over && count == asked
	while (first > start && count && byte[0] > 127 && byte[0] < 192 && drop++ < 3) {
		for (i = 1; i < count; i++) byte[i - 1] = byte[i]
		count--
		first++
	}
	spell()
	cut()
}
