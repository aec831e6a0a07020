# Over a source whose grammar ends at the token at `column` of `line`, both from 1: the slip that is usual there, in a line, and the
# form of the statement that the token stands in, in another.

BEGIN {
	n = split("communicator sensor module task abstract mode port invoke switch program", it, " ")
	for (i = 1; i <= n; i++) begins[it[i]] = 1
	n = split("start input output worst period parent init int bool true false if", it, " ")
	for (i = 1; i <= n; i++) reserved[it[i]] = 1
	for (w in begins) reserved[w] = 1
	form["communicator"] = "communicator TYPE NAME period N init X;"
	form["sensor"] = "sensor TYPE NAME period N init X;"
	form["module"] = "module NAME start MODE { tasks, then modes }"
	form["task"] = "task NAME input (TYPE NAME, ..) output (TYPE NAME = EXPRESSION, ..) worst N;"
	form["abstract"] = "abstract task NAME input (TYPE NAME, ..) output (TYPE NAME, ..) worst N;"
	form["mode"] = "mode NAME period N [program NAME] { ports, then invocations, then switches }"
	form["port"] = "port TYPE NAME;"
	form["invoke"] = "invoke TASK input (END, ..) output (END, ..) [parent TASK]; an END is (COMMUNICATOR, NUMBER) or a port"
	form["switch"] = "switch (EXPRESSION, MODE);"
	form["program"] = "program NAME { communicators and sensors, then modules }"
	rank["communicator"] = rank["sensor"] = rank["task"] = rank["abstract"] = rank["port"] = 1
	rank["module"] = rank["mode"] = rank["invoke"] = 2
	rank["switch"] = 3
	level["communicator"] = level["sensor"] = level["module"] = 1
	level["task"] = level["abstract"] = level["mode"] = 2
	level["port"] = level["invoke"] = level["switch"] = 3
}

# A token in front of the place; `word` has those of the statement so far.
function pass(token) {
	before = token
	before_line = FNR
	if (token == "{") depth++
	if (token == "}") depth--
	if (token ~ /^[;{}]$/) {
		if (count && word[1] in level) last_rank[level[word[1]]] = rank[word[1]]
		if (token == "{") last_rank[depth] = 0
		count = brackets = 0
		return
	}
	if (token == "(") brackets++
	if (token == ")") brackets--
	word[++count] = token
}

# The next token of a text, from its first byte on.
function first_token(text) {
	if (match(text, /^[A-Za-z0-9_]+/)) return substr(text, 1, RLENGTH)
	if (match(text, /^(==|!=|<=|>=|&&|[|][|])/)) return substr(text, 1, 2)
	return substr(text, 1, 1)
}

{
	sub(/\/\/.*/, "")
	for (i = 1; i <= length($0); i += length(token)) {
		token = first_token(substr($0, i))
		if (token ~ /^[ \t\r]$/) continue
		if (here != "") {
			behind = token
			exit
		}
		if (FNR == line && i >= column) here = token
		else pass(token)
	}
	if (FNR > line + 5) exit
}

function slip(    first) {
	first = word[1]
	if (here == "") return "the source ends here: a } is missing, or more"
	if (here ~ /^(and|or|not)$/ || before == "not") return "`" (before == "not" ? "not" : here) "` is written " (here == "and" ? "&&" : here == "or" ? "||" : "!")
	if (here == "=" && behind ~ /^[<>]$/) return "`=" behind "` is written " behind "="
	if (here == "=" && before ~ /^[<>=!]$/) return "no blank stands inside " before "="
	if (here == "=" && (first == "switch" || has["="])) return "an equality is ==; = stands between an output and its expression alone"
	if (here == "=" && first == "abstract") return "an abstract task has no expressions; without the word abstract it has code"
	if (first == "task" && side == "output" && here ~ /^[,)]$/ && word[count - 1] ~ /^(int|bool)$/) return "an output has an expression: " word[count - 1] " " before " = ..; a task without code is an abstract task"
	if (here in reserved && (before ~ /^(int|bool|task|mode|module|program|invoke|port|start|parent)$/)) return "`" here "` is a word of the language, and no name"
	if (here in begins && before ~ /^[;{}]$/ && here in level && depth == level[here] && rank[here] < last_rank[depth]) return "`" here "` stands too late: " order(here)
	if (here in begins && count && here != "program" && before !~ /^(abstract|=|,|[(])$/) return "a semicolon is missing at the end of line " before_line
	if (here == "}" && count) return "a semicolon is missing at the end of line " before_line
	if (here == "program" && depth > 0 && !count) return "a } is missing in front: programs stand side by side"
	if (here == ")" && before == ",") return "a comma is too many"
	if (here == ";" && brackets > 0) return "a ) is missing"
	if (here == "{" && first ~ /^(task|abstract|invoke|port|switch)$/) return "`" first "` ends with a semicolon, and has no braces"
	if (here ~ /^[A-Za-z_]/ && !count && depth == 0 && here != "program") return "a source is programs: program NAME { .. }"
	return ""
}

function order(what) {
	if (level[what] == 1) return "communicators and sensors stand in front of modules"
	if (level[what] == 2) return "tasks stand in front of modes"
	return "ports stand in front of invocations, and those in front of switches"
}

END {
	for (i = 1; i <= count; i++) {
		has[word[i]] = 1
		if (word[i] == "input" || word[i] == "output") side = word[i]
	}
	text = slip()
	if (text != "") print text
	head = count ? word[1] : ""
	if (head in form) print "its form: " form[head]
}
