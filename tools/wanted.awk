# Over the outline of a source and then the source (`reading` says which): what may stand in the place of the unknown name at `column` of
# `line`, both from 1. Prints `what KIND`, `name NAME` for each name of that kind, and `other TEXT` where the name is one of another.

reading == "outline" {
	item[++items] = $0
	if ($1 == "program" && root == "") root = $3
	if ($1 == "module") program_of[$3] = $4
	if ($1 == "mode" && $6 != "-") refined_by[$6] = $3 " " $4
	if ($1 == "task" && $6 == "abstract") abstract_task[$3, $4] = 1
}

# A word or sign of the source in front of the place; `word` has those of the statement so far.
function pass(token) {
	if (token ~ /^[;{}]$/) {
		count = depth = 0
		return
	}
	word[++count] = token
	if (token == "(") depth++
	if (token == ")") depth--
	if (count == 2 && word[1] == "module") module = token
	if (count == 2 && word[1] == "mode") mode = token
	if (word[count - 1] == "task") task = token
}

function split_line(text,    i, token) {
	for (i = 1; i <= length(text); i += length(token)) {
		if (match(substr(text, i), /^[A-Za-z0-9_]+/)) token = substr(text, i, RLENGTH)
		else token = substr(text, i, 1)
		if (NR_of_line == line && i >= column) {
			name = token
			return 1
		}
		if (token !~ /^[ \t\r]$/) pass(token)
	}
	return 0
}

reading == "source" {
	NR_of_line = FNR
	sub(/\/\/.*/, "")
	if (split_line($0)) exit
	if (FNR > line) exit
}

# Prints the names of the outline lines of this kind whose fields have these values; `field` is that of the name.
function offer(kind, field, a, b, c,    i, part) {
	for (i = 1; i <= items; i++) {
		split(item[i], part, " ")
		if (part[1] == kind && (a == "" || part[3] == a) && (b == "" || part[4] == b) && (c == "" || part[5] == c) && (kind != "program" || part[3] != root)) print "name " part[field]
	}
}

function offer_parents(    i, part, at) {
	if (!(program_of[module] in refined_by)) {
		print "what none: a module of the first program has no parent"
		return
	}
	split(refined_by[program_of[module]], at, " ")
	print "what an abstract invocation of the mode " at[1] "." at[2]
	for (i = 1; i <= items; i++) {
		split(item[i], part, " ")
		if (part[1] == "invoke" && part[3] == at[1] && part[4] == at[2] && (at[1], part[5]) in abstract_task) print "name " part[5]
	}
}

# Says what else the name is, where it is declared for another kind of place; `advice` has what helps.
function tell_other(    i, part, k) {
	for (i = 1; i <= items; i++) {
		k = split(item[i], part, " ")
		if (part[1] == "comm" && part[3] == name && what != "comm") print "other " name " of line " part[2] " is a " part[5] advice["comm"]
		else if (part[1] == "port" && part[6] == name && part[3] == module && part[4] == mode && what != "port") print "other " name " of line " part[2] " is a port" advice["port"]
		else if (part[1] == "param" && part[7] == name && part[3] == module && what != "param") print "other " name " of line " part[2] " is an " part[5] " of the task " part[4]
		else if (part[1] == "task" && part[4] == name && (what != "task" || part[3] != module)) print "other " name " of line " part[2] " is a task of the module " part[3]
		else if (part[1] == "mode" && part[4] == name && (what != "mode" || part[3] != module)) print "other " name " of line " part[2] " is a mode of the module " part[3]
	}
}

END {
	before = word[count]
	if (word[1] == "module" || word[1] == "switch" && depth == 1 && before == ",") {
		what = "mode"
		print "what a mode of the module " module
		offer("mode", 4, module)
	} else if (word[1] == "switch") {
		what = "comm"
		print "what a communicator"
		offer("comm", 3)
	} else if (word[1] == "mode") {
		print "what a program"
		offer("program", 3)
	} else if (word[1] == "invoke" && before == "parent") {
		what = "parent"
		offer_parents()
	} else if (word[1] == "invoke" && count == 1) {
		what = "task"
		print "what a task of the module " module
		offer("task", 4, module)
	} else if (word[1] == "invoke" && depth > 1) {
		what = "comm"
		print "what a communicator"
		offer("comm", 3)
		advice["port"] = ": without brackets and a number"
	} else if (word[1] == "invoke") {
		what = "port"
		print "what a port of the mode " module "." mode
		offer("port", 6, module, mode)
		advice["comm"] = ": (" name ", NUMBER) is an instance of it"
	} else {
		what = "param"
		print "what an input of the task " task
		offer("param", 7, module, task, "input")
		advice["comm"] = ": hand it over as an input"
	}
	tell_other()
}
