# Behind rules-read.awk, for rules.awk: what a child may have for a parent, and what it has beyond it.

# The mode that the program of this invocation refines.
function refined_mode(name,    module) {
	module = name
	sub(/\..*/, "", module)
	return refined_by[program_of[module]]
}

# Rules 14: what may stand behind `parent`.
function tell_parents(    mode, i, text) {
	mode = refined_mode(place)
	if (mode == "") {
		print "its module is one of the first program, which refines nothing"
		return
	}
	if (place in parent_of && !is_abstract[task_of[mode "." parent_of[place]]]) print "its parent " mode "." parent_of[place] " of line " invoke_line[mode "." parent_of[place]] " has code"
	for (i = 1; i <= invocations; i++) if (mode_of[names[i]] == mode && is_abstract[task_of[names[i]]]) text = text " " substr(names[i], length(mode) + 2)
	print "its program refines " mode (text == "" ? ", which invokes no abstract task" : ", whose abstract invocations are:" text)
}

# Rule 16: what the child has beyond its parent.
function tell_parent(    parent, its, mine, k, n) {
	if (!(place in parent_of)) return
	parent = refined_mode(place) "." parent_of[place]
	its = "its parent " parent " of line " invoke_line[parent]
	window(place)
	mine = tell_release(place)
	if (released == have + 0) {
		window(parent)
		if (released == need + 0 && have + 0 > need + 0) {
			print mine "; " its " is released at " need
			return
		}
	}
	window(place)
	mine = tell_end(place)
	if (closed == have + 0) {
		window(parent)
		if (closed == need + 0 && have + 0 < need + 0) {
			print mine "; the window of " its " ends at " need
			return
		}
	}
	if (is_worst(place, have) && is_worst(parent, need) && have + 0 > need + 0) {
		print "its worst case is " have "; that of " its " is " need
		return
	}
	for (k = 1; k <= counts[place, "input"]; k++) {
		if (!is_port(ends[place, "input", k])) continue
		n = find_writers(mode_of[place], ends[place, "input", k])
		if (n == 1) print at(place, "input", k) "is a port that " writers[1] " writes, whose parent is " parent_of[writers[1]] "; " its " must read, by ports, what that one writes"
	}
}

# Whether a number may be the worst case of an invocation: a platform may give another than the source.
function is_worst(name, ticks) { return given || worst[task_of[name]] == ticks + 0 }
