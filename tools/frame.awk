# Behind path.awk: what each module of the first program asks of a frame, one line each, and how many more there are behind the
# eighth. Where their periods have no common multiple that is small enough, the rounds aren't counted.

function most_invocations(name,    k, most) {
	for (k = 1; k <= mode_count[name]; k++)
		if (invocation_count[name "." modes[name, k]] > most) most = invocation_count[name "." modes[name, k]]
	return most + 0
}

function counted(number, word) { return number " " word (number == 1 ? "" : "s") }

END {
	find_starts()
	for (i = 1; i <= modules && i <= 8; i++) {
		text = "line " line_of[module[i]] ": " module[i] " has period " period_of(module[i])
		if (frame <= 1000000) text = text ", " counted(frame / period_of(module[i]), "round") " in a frame of " frame
		print text ", " counted(mode_count[module[i]], "mode") ", at most " counted(most_invocations(module[i]), "invocation")
	}
	if (modules > 8) print "and " modules - 8 " more"
}
