# The clauses of files of code, each with the definitions that it names: CRATE CALL CLAUSE FILE:NAME.. The call is the function's
# name alone; a name counts where the file has it from a specs/ of one of the crates, by `ghost use`. A file in a folder of specs/
# goes by its own name. A clause that says the rows of a record of a specs/*Rows.antt comes with each row, as go.script; these files
# come first, behind a specs/Common.antt that hands names on.
# The definitions that a text names, each once.
function cited(rest,    word, line) {
	split("", seen)
	while (match(rest, /[A-Za-z_][A-Za-z_0-9]*/)) {
		word = substr(rest, RSTART, RLENGTH)
		rest = substr(rest, RSTART + RLENGTH)
		if (word in from && !(word in seen)) {
			seen[word] = 1
			line = line " " from[word]
		}
	}
	return line
}
function flush(    it, n, k, part) {
	if (record != "" && field != "") {
		rows[crate, record] = rows[crate, record] " " field
		row[crate, record, field] = cited(text)
	} else if (clause != "" && fn != "") {
		print crate " " fn " " clause cited(text)
		n = split(text, it, /[^A-Za-z_]+/)
		for (k = 1; k <= n; k++) if ((crate, it[k]) in rows) {
			n = split(rows[crate, it[k]], part, " ")
			record = it[k]
			for (k = 1; k <= n; k++) print crate " " fn " " clause "." part[k] row[crate, record, part[k]]
			record = ""
		}
	}
	clause = field = ""
}
# What a line of imports brings: the names, each with its file. A name may stand with its file, as in `specs.{Names.is_name}`.
function imported(line,    base, names, n, part, i, file, own, name) {
	base = line
	sub(/^.*use Rattle\.htl_[a-z]*\.specs\./, "", base)
	names = base
	sub(/\{.*/, "", base)
	sub(/^[^{]*\{/, "", names)
	sub(/\}.*/, "", names)
	n = split(names, part, /, */)
	for (i = 1; i <= n; i++) {
		file = own = base part[i]
		if (file ~ /^declared\./) continue
		sub(/ as .*/, "", own)
		sub(/^.*\./, "", own)
		sub(/ as .*/, "", file)
		sub(/\.[^.]*$/, "", file)
		sub(/^[a-z]+\./, "", file)
		name = part[i]
		sub(/^.* as /, "", name)
		sub(/^.*\./, "", name)
		if (FILENAME ~ /Common\.antt$/) handed[crate, name] = file ":" own
		else if (file == "Common") { if ((crate, own) in handed) from[name] = handed[crate, own] }
		else from[name] = file ":" own
	}
}
FNR == 1 { flush(); fn = record = ""; crate = FILENAME; sub(/^crates\//, "", crate); sub(/\/.*/, "", crate); split("", from) }
/^(ghost |pub )?use Rattle\.htl_[a-z]*\.specs\..*\{/ { imported($0) }
FILENAME ~ /antt$/ {
	if (/^pub record /) { flush(); record = $3 }
	else if (record != "" && /^  pub [a-z_]+ :/) { flush(); field = $2; text = $0 }
	else if (/^ /) text = text " " $0
	else { flush(); record = "" }
	next
}
/^ *(pub(\([a-z]*\))? )?(const )?fn [a-z_0-9]+/ {
	flush()
	match($0, /fn [a-z_0-9]+/)
	fn = substr($0, RSTART + 3, RLENGTH - 3)
}
/^ *ensures( [a-z_0-9]+)? *\{/ {
	flush()
	match($0, /ensures( [a-z_0-9]+)? *\{/)
	clause = substr($0, RSTART + 7, RLENGTH - 8)
	gsub(/ /, "", clause)
	if (clause == "") clause = "-"
	text = $0
	next
}
/^ *(requires|ghost)|^[{}]|^ *\{$|;$/ { flush() }
clause != "" { text = text " " $0 }
END { flush() }
