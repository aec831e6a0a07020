# Reads the lines of a run. Of communicator c: name_c[c], its changes at[c, k] to value[c, k], k from 1 to changes[c], least[c],
# greatest[c]. Of module m: name_m[m], moves[m], when[m, k], mode[m, k]. Of invocation j: name_j[j], slices[j], from[j, k],
# upto[j, k], finishes[j], done[j, k]. last: where the run ends, as far as its lines say; totals: the totals line.
# Lines of instructions, which `code` adds, are passed over. `reading` is run, or listing for the file of listing.awk.
# Behind the line of an audit that refuses a log stands the log, which refused.awk reads.

function refuse(why) {
	if (!failed) print "bin/htl: line " FNR " of the " reading " " why | "cat 1>&2"
	failed = 1
	exit 1
}

# An instant; it is refused where it is none.
function instant(text) {
	if (text !~ /^[0-9]+$/ || length(text) > 10) refuse("has no instant where one belongs: " shown(text))
	instants = 1
	if (text + 0 > last) last = text + 0
	return text + 0
}

function shown(text) {
	gsub(/[^ -~]/, "?", text)
	return "`" substr(text, 1, 60) "`"
}

# Whether the text is so many identifiers, joined by dots.
function is_name(text, parts) {
	return text ~ /^[A-Za-z_][A-Za-z0-9_.]*$/ && length(text) <= 48 * parts + 2 && gsub(/\./, ".", text) == parts - 1
}

# The number of an item, which is new where its name is.
function number_of(kind, name) {
	if (!((kind, name) in numbers)) numbers[kind, name] = ++items[kind]
	return numbers[kind, name]
}

function invocation(name,    j) {
	j = number_of("j", name)
	name_j[j] = name
	return j
}

function add_slice(j, a, b) {
	from[j, ++slices[j]] = a
	upto[j, slices[j]] = b
}

{ sub(/\r$/, "") }

is_of_refusal() { next }

/^$/ || /^htl: / || /^bin\/htl: / || /^[es] [0-9]+ / { next }

$1 == "v" && NF == 4 && is_name($3, 1) && $4 ~ /^-?[0-9]+$/ && length($4) <= 20 {
	c = number_of("v", $3)
	name_c[c] = $3
	at[c, ++changes[c]] = instant($2)
	value[c, changes[c]] = $4
	if (changes[c] == 1 || $4 + 0 < least[c]) least[c] = $4 + 0
	if (changes[c] == 1 || $4 + 0 > greatest[c]) greatest[c] = $4 + 0
	next
}

$1 == "m" && NF == 4 && is_name($3, 1) && ($4 == "-" || is_name($4, 1)) {
	m = number_of("m", $3)
	name_m[m] = $3
	when[m, ++moves[m]] = instant($2)
	mode[m, moves[m]] = $4
	next
}

$1 == "j" && NF == 4 && is_name($4, 3) {
	j = invocation($4)
	add_slice(j, instant($2), instant($3))
	if ($3 + 0 <= $2 + 0) refuse("ends before it begins: " shown($0))
	if (slices[j] > 1 && $2 + 0 < upto[j, slices[j] - 1]) refuse("overlaps a slice before it: " shown($0))
	told_slice[++slices_told] = $0
	next
}

$1 == "d" && NF == 3 && is_name($3, 3) {
	j = invocation($3)
	done[j, ++finishes[j]] = instant($2)
	next
}

($1 == "end" || $1 == "plan" || $1 == "audited") && NF > 3 {
	told_end = instant($2)
	totals = $0
	next
}

/^(comm|sensor|module|mode|inv) / { refuse("is of a listing, whose file is named behind --svg: " shown($0)) }

{ refuse("is none that a run, a plan or an audit prints: " shown($0)) }

# A plan has no lines of modes: each module stays in the mode that its jobs are of, and what it refines in the mode that is refined. The
# order is that of the listing, where one is there.
function modes_of_plan(    i, j) {
	for (i = 1; i <= invs; i++) if (("j", inv_name[i]) in numbers) stay_in_mode(inv_name[i])
	for (j = 1; j <= items["j"]; j++) stay_in_mode(name_j[j])
}

function stay_in_mode(name,    part, m) {
	split(name, part, ".")
	if (part[1] in refines) stay_in_mode(refines[part[1]])
	m = number_of("m", part[1])
	name_m[m] = part[1]
	moves[m] = 1
	when[m, 1] = 0
	mode[m, 1] = part[2]
}

# Nothing is drawn behind the end of the run: slices end there at the latest.
function cut_at_end(j,    k) {
	for (k = slices[j]; k > 0 && upto[j, k] > last; k--) {
		behind_end++
		if (from[j, k] < last) upto[j, k] = last
		else slices[j] = k - 1
	}
}

END {
	if (!failed && !instants && !refused) {
		print "bin/htl: standard input has no line of a run; try: bin/htl go SOURCE < SCRIPT > RUN" | "cat 1>&2"
		failed = 1
	}
	if (failed) exit 1
	if (totals ~ /^plan / && !items["m"]) modes_of_plan()
	if (refused && !in_log) find_refused()
	if (told_end != "") last = told_end
	for (j = 1; j <= items["j"]; j++) cut_at_end(j)
}
