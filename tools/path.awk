# Behind common.awk: reads an outline, of a source (outline.awk) or of an object (object.awk): of the modules of the first program
# module[i], i from 1 to modules, with modes[NAME, k], k from 1 to mode_count[NAME], their period[MODULE.MODE], and their invocations
# invocation[MODULE.MODE, k], outline lines, k from 1 to invocation_count[MODULE.MODE]; comm_period[NAME]; and the worst cases
# worst[MODULE.TASK], for which lines `worst TASK TICKS` behind the outline may say others, those of a platform.
# Behind it, of the rounds of these modules: the length of a frame, its starts, and what a path through it is.

$1 == "program" && root == "" { root = $3 }
$1 == "comm" { comm_period[$3] = $4 }
$1 == "module" && $4 == root {
	module[++modules] = $3
	line_of[$3] = $2
}
$1 == "task" { worst[$3 "." $4] = $5 }
$1 == "worst" { worst[$2] = $3 }
$1 == "mode" {
	modes[$3, ++mode_count[$3]] = $4
	period[$3 "." $4] = $5
}
$1 == "invoke" { invocation[$3 "." $4, ++invocation_count[$3 "." $4]] = $0 }

# The period of a module, which all its modes have.
function period_of(name) { return period[name "." modes[name, 1]] }

# Sets `frame`, the least common multiple of the periods, and start[j], j from 1 to starts, where some module's round begins.
# Fails where there is no such frame, or where it has too many starts.
function find_starts(    i, next_one, at) {
	frame = modules > 0
	for (i = 1; i <= modules; i++) {
		if (!mode_count[module[i]] || period_of(module[i]) < 1) return 0
		frame = common(frame, period_of(module[i]))
		if (frame > 1000000) return 0
	}
	for (at = starts = 0; at < frame; at = next_one) {
		if (starts == 32) return 0
		start[++starts] = at
		next_one = frame
		for (i = 1; i <= modules; i++) {
			if (at - at % period_of(module[i]) + period_of(module[i]) < next_one) next_one = at - at % period_of(module[i]) + period_of(module[i])
		}
	}
	return 1
}

function begins(i, j) { return start[j] % period_of(module[i]) == 0 }

# Sets chosen[i, j], the mode of module i from start j on, along the path of that number. The last choice changes first.
function choose(number,    i, j, name) {
	if (!find_starts()) return 0
	for (j = starts; j > 0; j--)
		for (i = modules; i > 0; i--) {
			if (!begins(i, j)) continue
			name = module[i]
			chosen[i, j] = modes[name, number % mode_count[name] + 1]
			number = int(number / mode_count[name])
		}
	for (j = 2; j <= starts; j++)
		for (i = 1; i <= modules; i++) if (!begins(i, j)) chosen[i, j] = chosen[i, j - 1]
	return number == 0
}

# The modes along the path: of a frame of one start in a line, else module by module, with the starts at which they change.
function print_modes(    i, j, text) {
	if (starts == 1) {
		for (i = 1; i <= modules; i++) text = text " " module[i] "." chosen[i, 1]
		print "its modes:" text
		return
	}
	print "its modes in a frame of " frame " ticks:"
	for (i = 1; i <= modules; i++) {
		text = "    " module[i] "." chosen[i, 1] " from 0"
		for (j = 2; j <= starts; j++) if (chosen[i, j] != chosen[i, j - 1]) text = text ", " module[i] "." chosen[i, j] " from " start[j]
		print text
	}
}
