# Behind rules-read.awk and rules-parent.awk: which inputs, outputs, ports and parents a broken form rule is about, a line each. rule,
# place, have and need: as the fault line has them. Inputs and outputs are counted from 1.

# Rule 3: the communicators whose periods don't divide the mode's.
function tell_periods(    side, k, c, s, n, word, told) {
	for (s = 1; s <= 2; s++) {
		side = s == 1 ? "input" : "output"
		for (k = 1; k <= counts[place, side]; k++) {
			if (is_port(ends[place, side, k])) continue
			c = comm_of(ends[place, side, k])
			if (period[c] > 0 && need % period[c]) print at(place, side, k) "has the period " period[c] ", as line " line_of[c] " says"
		}
	}
	for (s = 1; s <= switches; s++) {
		if (switch_mode[s] != place) continue
		n = split(tested[s], word, " ")
		for (k = 1; k <= n; k++)
			if (!((s, word[k]) in told) && need % period[word[k]]) {
				told[s, word[k]] = 1
				print switch_text[s] " tests " word[k] ", whose period is " period[word[k]] ", as line " line_of[word[k]] " says"
			}
	}
}

# Rule 4: the first read or write beyond its round.
function tell_offset(    k, end) {
	for (k = 1; k <= counts[place, "input"]; k++) {
		end = ends[place, "input", k]
		if (!is_port(end) && offset(end) == have && have >= need + 0) {
			print at(place, "input", k) "is read at " have ", and a read comes before " need
			return
		}
	}
	for (k = 1; k <= counts[place, "output"]; k++) {
		end = ends[place, "output", k]
		if (!is_port(end) && offset(end) == have && (have + 0 == 0 || have > need + 0)) {
			print at(place, "output", k) "is written at " have ", and a write comes behind 0 and not behind " need
			return
		}
	}
}

function listed(key,    k, text) {
	for (k = 1; k <= params[key]; k++) text = text (k > 1 ? ", " : ": ") param_type[key, k] " " param_name[key, k]
	return text
}

# Rule 5: how many inputs or outputs there are, or the first of another type.
function tell_types(    s, side, key, k, t) {
	for (s = 1; s <= 2; s++) {
		side = s == 1 ? "input" : "output"
		key = task_of[place] " " side
		if (counts[place, side] == params[key] + 0) continue
		print "it has " counts[place, side] " " side (counts[place, side] == 1 ? "" : "s") ", and its task of line " task_line[task_of[place]] " has " params[key] + 0 listed(key)
		return
	}
	for (s = 1; s <= 2; s++) {
		side = s == 1 ? "input" : "output"
		key = task_of[place] " " side
		for (k = 1; k <= counts[place, side]; k++) {
			t = type_of(place, ends[place, side, k])
			if (t == param_type[key, k]) continue
			print at(place, side, k) "is " article(t) ", and the task's " param_name[key, k] " of line " task_line[task_of[place]] " is " article(param_type[key, k])
			return
		}
	}
}

# The writers of a port of the mode, in `writers[K]`; returns how many.
function find_writers(mode, port,    i, k, n) {
	for (i = 1; i <= invocations; i++) {
		if (mode_of[names[i]] != mode) continue
		for (k = 1; k <= counts[names[i], "output"]; k++) if (ends[names[i], "output", k] == port) writers[++n] = names[i]
	}
	return n + 0
}

function tell_writers(name, side, k,    n, i, text, port) {
	port = ends[name, side, k]
	n = find_writers(mode_of[name], port)
	for (i = 1; i <= n; i++) text = text (i > 1 ? ", " : " ") writers[i] " of line " invoke_line[writers[i]]
	print at(name, side, k) "is the port of line " port_line[mode_of[name] " " port] "; " (n ? "it is written by" text : "no invocation of the mode writes it")
}

# Rule 8: a reader's port without one writer, or the port of a second one.
function tell_port(    k) {
	for (k = 1; k <= counts[place, "input"]; k++)
		if (is_port(ends[place, "input", k]) && find_writers(mode_of[place], ends[place, "input", k]) != 1) {
			tell_writers(place, "input", k)
			return
		}
	for (k = 1; k <= counts[place, "output"]; k++)
		if (is_port(ends[place, "output", k]) && find_writers(mode_of[place], ends[place, "output", k]) > 1) {
			tell_writers(place, "output", k)
			return
		}
}

END {
	if (rule == 3) tell_periods()
	else if (rule == 4) tell_offset()
	else if (rule == 5) tell_types()
	else if (rule == 6) {
		window(place)
		print tell_release(place)
		print tell_end(place)
	} else if (rule == 8) tell_port()
	else if (rule == 10) tell_writers(place, "input", have + 1)
	else if (rule == 11) print at(place, "output", have + 1) "is a sensor, as line " line_of[comm_of(ends[place, "output", have + 1])] " says"
	else if (rule == 14) tell_parents()
	else if (rule == 16) tell_parent()
}
