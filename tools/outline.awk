# The outline of a source that has been read without a fault of its grammar: one line for each item, in the order of
# the source, each with the number of the line on which it begins.
#   program LINE NAME                        comm LINE NAME PERIOD KIND TYPE
#   module LINE NAME PROGRAM                 task LINE MODULE NAME WORST HEAD
#   param LINE MODULE TASK SIDE TYPE NAME    in front of the line of their task; SIDE is input or output
#   mode LINE MODULE NAME PERIOD PROGRAM     PROGRAM is the one that refines the mode, or -
#   port LINE MODULE MODE TYPE NAME          test LINE MODULE MODE TARGET COMMUNICATORS.., of a switch
#   invoke LINE MODULE MODE TASK ENDS..      ENDS are <C:I or >C:I for an instance read or written, <P or >P for a port,
#                                            and ^I for the parent
# KIND is communicator or sensor; HEAD is task or abstract; TYPE is int or bool.

# Carries on after a name or number that an item waits for.
function take(token) {
	if (want == "program") {
		program = token
		print "program", line, token
	} else if (want == "comm") {
		comm = token
	} else if (want == "module") {
		module = token
		print "module", line, token, program
	} else if (want == "task") {
		task = token
	} else if (want == "mode") {
		mode = token
		refined = "-"
	} else if (want == "refined") {
		refined = token
	} else if (want == "invoke") {
		item = "invoke " line " " module " " mode " " token
	} else if (want == "comm period") {
		print "comm", line, comm, token, sort, type
	} else if (want == "param") {
		print "param", NR, module, task, side, type, token
	} else if (want == "port") {
		print "port", line, module, mode, type, token
	} else if (want == "worst") {
		print "task", line, module, task, token, head
	} else if (want == "mode period") {
		period = token
	}
	want = ""
}

# Inside the brackets of an invocation: instances and ports.
function end_token(token) {
	if (token ~ /^[0-9]/) item = item ":" token
	else if (token ~ /^[A-Za-z_]/) item = item " " side token
	else if (token == ";") {
		print item
		item = ""
	}
}

# Inside a switch: the communicators of its condition, and at last its target.
function switch_token(token) {
	if (token == ";") {
		print "test " line " " module " " mode " " last names
		tested = 0
	} else if (token ~ /^[A-Za-z_]/ && token !~ /^(if|true|false)$/) {
		if (last != "") names = names " " last
		last = token
	}
}

# A word or sign; `kind` is the head that began last.
function read(token) {
	if (tested) {
		switch_token(token)
	} else if (item != "") {
		if (token == "input") side = "<"
		else if (token == "output") side = ">"
		else if (token == "parent") side = "^"
		else end_token(token)
	} else if (want != "") {
		take(token)
	} else if (token == "communicator" || token == "sensor") {
		line = NR
		kind = "comm"
		sort = token
		typed = 1
	} else if (typed) {
		typed = 0
		type = token
		want = "comm"
	} else if (token == "port") {
		line = NR
		kind = token
	} else if (token == "int" || token == "bool") {
		type = token
		want = kind == "port" ? "port" : "param"
	} else if (token == "switch") {
		line = NR
		tested = 1
		last = names = ""
	} else if (kind == "task" && (token == "input" || token == "output")) {
		side = token
	} else if (token == "program" && kind == "mode") {
		want = "refined"
	} else if (token == "program" || token == "module" || token == "mode" || token == "invoke") {
		line = NR
		kind = want = token
	} else if (token == "abstract" || token == "task") {
		if (token == "abstract" || kind != "abstract") line = NR
		head = kind == "abstract" ? kind : token
		kind = token
		if (token == "task") want = token
	} else if (token == "period" || token == "worst") {
		want = token == "worst" ? token : kind " period"
	} else if (token == "{") {
		if (kind == "mode") print "mode", line, module, mode, period, refined
		kind = ""
	}
}

{
	sub(/\/\/.*/, "")
	gsub(/\r/, " ")
	gsub(/[^A-Za-z0-9_]/, " & ")
	n = split($0, token, " ")
	for (i = 1; i <= n; i++) read(token[i])
}
