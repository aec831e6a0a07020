# The rows of tools/promises, from the tables of docs/PROVED.md and what that tool put in the folder `room`.
BEGIN {
	while ((getline line <(room "/definitions")) > 0) {
		n = split(line, part, " ")
		key = part[1] SUBSEP part[2] SUBSEP part[3]
		for (i = 4; i <= n; i++) if (index(" " defined[key] " ", " " part[i] " ") == 0) defined[key] = defined[key] " " part[i]
	}
	while ((getline line <(room "/bodies")) > 0) {
		split(line, part, " ")
		key = part[1] SUBSEP part[2] SUBSEP part[3]
		bodies[key] = bodies[key] " " part[4]
		all++
	}
	while ((getline line <(room "/tests")) > 0) {
		split(line, part, " ")
		if (index(" " tests[part[2]] " ", " " part[1] " ") == 0) tests[part[2]] = tests[part[2]] " " part[1]
	}
	print "| Promise | Call: clauses | Definitions | Wrong bodies | Tests |"
	print "|---|---|---|---|---|"
}

# The names in backticks of a text, in the list `name`.
function names(text) {
	n = 0
	while (match(text, /`[^`]+`/)) {
		name[++n] = substr(text, RSTART + 1, RLENGTH - 2)
		text = substr(text, RSTART + RLENGTH)
	}
	return n
}
function trim(text) { gsub(/^ +| +$/, "", text); return text }
function add(list, more,    it, k, m) {
	m = split(more, it, " ")
	for (k = 1; k <= m; k++) if (index(" " list " ", " " it[k] " ") == 0) list = list (list == "" ? "" : " ") it[k]
	return list
}
# Where a definition stands in the file of its name, as `File: name`; several of one file together.
function placed(list,    it, k, m, part, out, file) {
	m = split(list, it, " ")
	for (k = 1; k <= m; k++) {
		split(it[k], part, ":")
		if (part[1] != file) out = out (out == "" ? "" : "; ") part[1] ": " part[2]
		else out = out ", " part[2]
		file = part[1]
	}
	return out
}
function common(list, other,    it, k, m, out) {
	m = split(list, it, " ")
	for (k = 1; k <= m; k++) if (index(" " other " ", " " it[k] " ") > 0) out = out (out == "" ? "" : " ") it[k]
	return out
}
function spaced(list) { gsub(/ /, ", ", list); return list }
function row(words, calls, count, clauses, many, what,    k, i, bare, key, d, w, t, shown) {
	if (only !~ /^ *$/ && index(only, " " crate " ") == 0) { for (k = 1; k <= count; k++) for (i = 1; i <= many; i++) rows[crate, calls[k], clauses[i]] = 1; return }
	for (k = 1; k <= count; k++) {
		bare = calls[k]
		sub(/^.*::/, "", bare)
		for (i = 1; i <= many; i++) {
			key = crate SUBSEP calls[k] SUBSEP clauses[i]
			d = add(d, defined[crate, bare, clauses[i]])
			if (!(key in rows)) w = add(w, bodies[key])
			rows[key] = 1
		}
		t = add(t, what != "" ? tests["word:" what] : bare == calls[k] ? tests[bare] : common(tests[bare], tests["type:" substr(calls[k], 1, index(calls[k], ":") - 1)]))
		shown = shown (k > 1 ? ", " : "") calls[k]
	}
	shown = crate " `" shown "`: "
	for (i = 1; i <= many; i++) shown = shown (i > 1 ? ", " : "") (clauses[i] == "-" ? "its one clause" : "`" clauses[i] "`")
	print "| " words " | " shown " | " placed(d) " | " spaced(w) " | " spaced(t) " |"
}

/^### / { crate = $2; kind = ""; next }
/^## / { crate = /^## The commands/ ? "htl_top" : ""; kind = ""; next }
/^\| Call \|/ { kind = "calls"; next }
/^\| Command \|/ { kind = "command"; next }
/^\| All commands \|/ { kind = "all"; next }
/^\| Law \|/ { kind = ""; next }
!/^\|/ { kind = "" }
/^\|---/ || kind == "" { next }
{
	split($0, cell, /\|/)
	if (kind == "calls") {
		count = names(cell[2])
		for (i = 1; i <= count; i++) call[i] = name[i]
		many = names(cell[3])
		for (i = 1; i <= many; i++) clause[i] = name[i]
		if (cell[3] ~ /the one clause/) clause[++many] = "-"
		row(trim(cell[4]), call, count, clause, many, "")
		next
	}
	call[1] = "htl"
	text = cell[3] " " cell[4]
	sub(/:.*/, "", text)
	many = names(text)
	for (i = j = 1; i <= many; i++) if (name[i] ~ /^[a-z_.]+$/) clause[j++] = name[i]
	what = cell[2]
	if (kind == "all" || !match(what, /`[a-z]+/)) what = ""
	else what = substr(what, RSTART + 1, RLENGTH - 1)
	row(trim(kind == "all" ? cell[2] : what == "" ? cell[2] : "what" cell[2] "answers, and when"), call, 1, clause, j - 1, what)
}
END {
	print ""
	for (key in bodies) {
		split(key, part, SUBSEP)
		if (!(key in rows)) { print "no row: " part[1] " " part[2] " " part[3] bodies[key]; lost++ }
	}
	print all " wrong bodies" (lost ? "" : ", each in one row")
}
