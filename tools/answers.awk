# Over answers.txt (status, answer, meaning, what helps; %4A stands for word 4 of the fault line, or else A).
# With -v line='htl: ...' prints the meaning and then the help of that answer, each with its tag in front.
# With -v word='WORDS' prints each answer that these words name: some of its words in a row, or its status.
# With -v word='' lists the answers. Ends with 1 where there is none. A form rule that an object or a patch breaks is explained as that of
# a source, and a bad field of a donor as that of an object; `of` says of what it is, and `of_status` with which status.

# The words without the one that says of what the answer is, where another answer explains it.
function shared(text) {
	if (text ~ /^(object|patch) ill-formed/) {
		of = substr(text, 1, index(text, " "))
		text = substr(text, index(text, " ") + 1)
	} else if (text ~ /^patch malformed/) {
		of = "patch "
		sub(/^patch/, "object", text)
	}
	of_status = of == "object " ? 6 : 14
	return text
}

# The answer's name in the table, and `part`, the words of its line from the answer's own on.
function name_of(text,    w, n, i) {
	sub(/^htl: /, "", text)
	text = shared(text)
	n = split(text, part, " ")
	w = part[1]
	if (w == "source") return "source " part[2] (part[2] == "limit" ? " " part[3] : "")
	if (w == "ill-formed") return w " " part[2] (part[2] == 2 ? limit_of(part[8]) : "")
	if (w == "object" && part[2] == "malformed") return w " " part[2] " " part[3]
	if (w == "object" && part[2] != "function") return w " " part[2] " " part[4]
	if (w == "object") return w " " part[2]
	if (w == "script" || w == "log") return w " " part[3]
	if (w == "shelf" || w == "platform" || w == "patch") return w " " part[2]
	return w
}

# The limit of rule 2 that asks for so much; each of the four has an entry of its own.
function limit_of(need) {
	return need == 1000000 ? " hyperperiod" : need == 32 ? " starts" : need == 1024 ? " paths" : need == 128 ? " positions" : ""
}

# An answer by its own name.
function named(name) {
	if (of == "patch ") sub(/^object /, "", name)
	return of name
}

function filled(text,    hole, out) {
	while (match(text, /%[0-9][A-Z]/)) {
		hole = substr(text, RSTART, RLENGTH)
		out = out substr(text, 1, RSTART - 1) (line == "" ? substr(hole, 3) : part[substr(hole, 2, 1)])
		text = substr(text, RSTART + RLENGTH)
	}
	return out text
}

# Whether this entry is that of the whole name that is asked for, or one of those of rule 2 where the limit isn't said.
function is_named(name) { return name == asked || asked == "ill-formed 2" && index(name, asked " ") == 1 }

function is_asked(name, status) {
	return word ~ /^[0-9]+$/ ? word == status : index(" " name " ", " " word " ")
}

BEGIN {
	FS = "\t"
	if (line != "") asked = name_of(line)
	else if (word ~ /^htl: ./) asked = name_of(word)
	else {
		sub(/^htl: /, "", word)
		gsub(/[ \t]+/, " ", word)
		word = shared(word)
		asked = ""
	}
}

line != "" && $2 == asked {
	print "meaning " filled($3)
	print "help " filled($4)
	found = 1
}

line == "" && (asked != "" ? is_named($2) : word == "" || is_asked($2, $1)) {
	found = 1
	if (word == "") printf "%2d  %s\n", $1, $2
	else printf "%shtl: %s (status %d)\n  %s\n  %s\n", many++ ? "\n" : "", named($2), (of == "" ? $1 : of_status), filled($3), filled($4)
}

END { exit !found }
