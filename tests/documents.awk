# Reads the tables of docs/PROVED.md, or that of the crates in README.md, against what tools/clauses prints (the first file): each
# call stands in its crate, and each clause at one of the row's calls. Prints what doesn't, and at the end how many were found.
FILENAME == ARGV[1] {
	calls[$1, $2] = 1
	for (i = 3; i <= NF; i++) clauses[$1, $2, $i] = 1
	next
}
/^### / { crate = $2; kind = "" }
/^## / { crate = /^## The commands/ ? "htl_top" : ""; kind = ""; next }
/^\| Crate \|/ { kind = "crates"; next }
/^\| Call \|/ { kind = "calls"; next }
/^\| Law \|/ { kind = "laws"; next }
/^\| (Command|All commands) \|/ { kind = "htl"; next }
!/^\|/ { kind = "" }
/^\|---/ || kind == "" { next }

# The names in backticks of a text, in the list `name`.
function names(text) {
	n = 0
	while (match(text, /`[^`]+`/)) {
		name[++n] = substr(text, RSTART + 1, RLENGTH - 2)
		text = substr(text, RSTART + RLENGTH)
	}
	return n
}

function miss(what) { print FILENAME ": " crate ": " what; missing++ }

{
	split($0, cell, /\|/)
	if (kind == "crates") {
		crate = cell[2]
		gsub(/ /, "", crate)
		crates++
		n = names(cell[4])
		for (i = 1; i <= n; i++) {
			it = name[i]
			ok = 0
			for (key in calls) {
				split(key, part, SUBSEP)
				if (part[1] == crate && (part[2] == it || part[2] ~ "::" it "$")) ok = 1
			}
			for (key in clauses) {
				split(key, part, SUBSEP)
				if (part[1] == crate && part[3] == it) ok = 1
			}
			if (ok) found++
			else miss(it)
		}
	} else if (kind == "laws") {
		n = names(cell[2])
		for (i = 1; i <= n; i++) if ((crate, name[i], "-") in clauses || (crate, name[i]) in calls) found++
		else miss("the law " name[i])
	} else if (kind == "htl") {
		n = names(cell[3] " " cell[4])
		for (i = 1; i <= n; i++) if ((crate, "htl", name[i]) in clauses) found++
		else if (name[i] !~ /^[a-z]+$/) miss("the clause " name[i])
	} else {
		count = names(cell[2])
		split("", row)
		for (i = 1; i <= count; i++) {
			row[i] = name[i]
			if ((crate, name[i]) in calls) found++
			else miss("the call " name[i])
		}
		n = names(cell[3])
		if (cell[3] ~ /the one clause/) name[++n] = "-"
		for (i = 1; i <= n; i++) {
			ok = 0
			for (k = 1; k <= count; k++) if ((crate, row[k], name[i]) in clauses) ok = 1
			if (ok) found++
			else miss("the clause " name[i] " of " row[1])
		}
	}
}
END { print found + 0 " found, " missing + 0 " missing" (crates ? ", " crates " crates" : "") }
