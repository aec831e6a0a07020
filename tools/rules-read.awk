# Reads the outline of a source for rules.awk: communicators, tasks, modes, ports, switches and invocations by their names, and what
# an end of an invocation is.

$1 == "comm" {
	period[$3] = $4
	type[$3] = $6
	line_of[$3] = $2
	is_sensor[$3] = $5 == "sensor"
}
$1 == "program" && root == "" { root = $3 }
$1 == "module" { program_of[$3] = $4 }
$1 == "param" {
	key = $3 "." $4 " " $5
	param_type[key, ++params[key]] = $6
	param_name[key, params[key]] = $7
}
$1 == "task" {
	is_abstract[$3 "." $4] = $6 == "abstract"
	worst[$3 "." $4] = $5
	task_line[$3 "." $4] = $2
}
$1 == "mode" {
	length_of[$3 "." $4] = $5
	if ($6 != "-") refined_by[$6] = $3 "." $4
}
$1 == "port" {
	port_line[$3 "." $4 " " $6] = $2
	port_type[$3 "." $4 " " $6] = $5
}
$1 == "test" {
	switches++
	switch_mode[switches] = $3 "." $4
	switch_text[switches] = "the switch to " $5 " of line " $2
	tested[switches] = ""
	for (i = 6; i <= NF; i++) tested[switches] = tested[switches] " " $i
}
$1 == "invoke" { add($0) }

# Keeps an invocation: its ends[NAME, SIDE, K] and how many, counts[NAME, SIDE].
function add(text,    word, n, i, name, side, left) {
	n = split(text, word, " ")
	name = word[3] "." word[4] "." word[5]
	names[++invocations] = name
	task_of[name] = word[3] "." word[5]
	mode_of[name] = word[3] "." word[4]
	invoke_line[name] = word[2]
	counts[name, "input"] = counts[name, "output"] = 0
	for (i = 6; i <= n; i++) {
		side = substr(word[i], 1, 1) == "<" ? "input" : substr(word[i], 1, 1) == ">" ? "output" : "parent"
		left = substr(word[i], 2)
		if (side == "parent") parent_of[name] = left
		else ends[name, side, ++counts[name, side]] = left
	}
}

# An end `C:I`, or a port, as a source has it; and behind which place of the invocation it is.
function shown(end,    part) { return split(end, part, ":") == 2 ? "(" part[1] ", " part[2] ")" : end }

function at(name, side, k) { return side " " k ", " shown(ends[name, side, k]) ", " }

function is_port(end) { return end !~ /:/ }

function offset(end,    part) {
	split(end, part, ":")
	return period[part[1]] * part[2]
}

function comm_of(end,    part) {
	split(end, part, ":")
	return part[1]
}

function type_of(name, end) { return is_port(end) ? port_type[mode_of[name] " " end] : type[comm_of(end)] }

function article(word) { return (word ~ /^i/ ? "an " : "a ") word }

# Where a job of this name is released, and its window ends: the latest read and the earliest write. Sets `reading` and `writing`.
function window(name,    k, t, end) {
	released = reading = 0
	closed = length_of[mode_of[name]]
	writing = 0
	for (k = 1; k <= counts[name, "input"]; k++) {
		end = ends[name, "input", k]
		if (!is_port(end) && (t = offset(end)) >= released) {
			released = t
			reading = k
		}
	}
	for (k = 1; k <= counts[name, "output"]; k++) {
		end = ends[name, "output", k]
		if (!is_port(end) && (t = offset(end)) < closed + !writing) {
			closed = t
			writing = k
		}
	}
}

function tell_release(name) { return reading ? at(name, "input", reading) "is read at " released : "it reads no communicator, so it is released at 0" }

function tell_end(name) { return writing ? at(name, "output", writing) "is written at " closed : "it writes no communicator, so its window ends with the round, at " closed }
