# Over lines whose first words are names: the eight nearest to the name `WANTED` of the environment, nearest first, and how many
# more there are; with `most`, only those that take at most so many changes of a sign to be that name. Each line once.

# How many signs to change, add or drop make one text of the other; none is looked for behind 8.
function distance(a, b,    n, m, i, k, diagonal, least, row) {
	n = length(a)
	m = length(b)
	if (n - m > 8 || m - n > 8) return 9
	for (k = 0; k <= m; k++) row[k] = k
	for (i = 1; i <= n; i++) {
		diagonal = row[0]
		row[0] = i
		for (k = 1; k <= m; k++) {
			least = diagonal + (substr(a, i, 1) != substr(b, k, 1))
			diagonal = row[k]
			if (row[k] + 1 < least) least = row[k] + 1
			if (row[k - 1] + 1 < least) least = row[k - 1] + 1
			row[k] = least
		}
	}
	return row[m] < 9 ? row[m] : 9
}

BEGIN { wanted = ENVIRON["WANTED"] }

!($0 in seen) {
	seen[$0] = 1
	far = distance(wanted, $1)
	if (most != "" && far > most) next
	line[far, ++count[far]] = $0
	all++
}

END {
	for (far = 0; far <= 9 && shown < 8; far++)
		for (k = 1; k <= count[far] && shown < 8; k++) {
			print line[far, k]
			shown++
		}
	if (all > shown) print "and " all - shown " more"
}
