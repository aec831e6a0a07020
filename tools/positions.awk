# Behind path.awk: the modes of a path, and the invocations at the positions that `wanted` has, with blanks between them, each with
# the round that it is of. path: its number.

END {
	if (!modules || !choose(path)) exit 1
	for (j = 1; j <= starts; j++)
		for (i = 1; i <= modules; i++) {
			if (!begins(i, j)) continue
			mode = module[i] "." chosen[i, j]
			for (k = 1; k <= invocation_count[mode]; k++) {
				split(invocation[mode, k], word, " ")
				text[number++] = mode "." word[5] (starts > 1 ? ", of the round from " start[j] " to " start[j] + period[mode] : "")
			}
		}
	print_modes()
	n = split(wanted, which, " ")
	for (i = 1; i <= n; i++) if (which[i] in text) print "position " which[i] ": " text[which[i]]
}
