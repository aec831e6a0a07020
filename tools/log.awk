# Over what `show` lists of an object, a script, what `run` prints of it, and a job log, where they are there (`reading` says which it
# is): where the line `number` of the log begins and the column of what is wrong with it by its `kind`, both from 0; and then, a line
# each, the job that it is of, the job's window and what it had left, or the jobs that a line waits for or that fell short.

reading == "listing" && $1 == "mode" && NF == 4 { period[$2] = $4 + 0 }

reading == "listing" && $1 == "inv" && $8 != "abstract" {
	name[++invs] = $2
	worst[$2] = $4 + 0
	release[$2] = $6 + 0
	window_end[$2] = $7 + 0
	mode_of[$2] = $2
	sub(/\.[^.]*$/, "", mode_of[$2])
}

reading == "script" && $1 == "at" { now = $2 + 0 }

reading == "script" && $1 == "took" {
	since[$2, ++told[$2]] = now
	ticks[$2, told[$2]] = $3 + 0
}

reading == "script" && $1 == "end" { last = $2 + 0 }

reading == "run" && $1 == "m" && NF == 4 {
	when[$3, ++moves[$3]] = $2 + 0
	mode[$3, moves[$3]] = $3 "." $4
}

reading == "log" && FNR < number {
	start += length($0) + 1
	before = $3 + 0
	if ($4 in worst) sum[$4, round($4, $2)] += $3 - $2
}

reading == "log" && FNR == number {
	line = $0
	n = split($0, field, " ")
	exit
}

function round(inv, instant) { return int(instant / period[mode_of[inv]]) }

# Whether the invocation's mode runs as its round begins.
function stands(inv, k,    module, m, at) {
	module = inv
	sub(/\..*/, "", module)
	at = k * period[mode_of[inv]]
	for (m = moves[module]; m > 0; m--) if (when[module, m] <= at) return mode[module, m] == mode_of[inv]
	return 0
}

# How long its job of that round takes.
function length_of(inv, k,    m, at) {
	at = k * period[mode_of[inv]] + release[inv]
	for (m = told[inv]; m > 0; m--) if (since[inv, m] <= at) return ticks[inv, m]
	return worst[inv]
}

function left(inv, k) { return length_of(inv, k) - sum[inv, k] }

function opens(inv, k) { return k * period[mode_of[inv]] + release[inv] }

function closes(inv, k) { return k * period[mode_of[inv]] + window_end[inv] }

function tell(inv, k) {
	print inv ": window " opens(inv, k) " to " closes(inv, k) ", takes " length_of(inv, k) ", had " left(inv, k) " left"
}

# The column of the field, from 0.
function column(of,    i, at) {
	for (i = 1; i < of; i++) at += length(field[i]) + 1
	return at + 0
}

function is_instant(text) { return text ~ /^(0|[1-9][0-9]*)$/ && (length(text) < 10 || text == "1000000000") }

# Which field is wrong.
function wrong_field() {
	if (kind == "form") return field[1] != "j" ? 1 : !is_instant(field[2]) ? 2 : !is_instant(field[3]) ? 3 : n > 4 ? 5 : 4
	if (kind == "unknown") return 4
	if (kind == "order") return field[2] + 0 < before ? 2 : 3
	if (kind == "outside") return known && field[2] + 0 >= opens(inv, k) ? 3 : 2
	return kind == "over" ? 3 : 2
}

# Whether its job of that round fell short by the end of the run.
function fell_short(inv, k) { return closes(inv, k) <= last && stands(inv, k) && left(inv, k) > 0 }

# The first jobs that fell short: those of the first rounds in which some did.
function tell_short(    i, k, its_period, least) {
	least = last + 1
	for (i = 1; i <= invs; i++) {
		its_period = period[mode_of[name[i]]]
		for (k = 0; k * its_period < least && k * its_period <= last; k++) if (fell_short(name[i], k)) least = k * its_period
	}
	for (i = 1; i <= invs; i++) {
		k = least / period[mode_of[name[i]]]
		if (k == int(k) && fell_short(name[i], k)) tell(name[i], k)
	}
}

END {
	inv = field[4]
	known = inv in worst && kind != "form"
	if (known) k = round(inv, field[2])
	print start + 0, (kind == "short" ? 0 : column(wrong_field()))
	if (kind == "short") tell_short()
	if (kind == "order" && field[2] + 0 < before) print "the line before it ends at " before
	if (kind == "order" && last != "" && field[3] + 0 > last) print "the run ends at " last
	if (!known || kind == "unknown") exit
	if (stands(inv, k)) tell(inv, k)
	else if (moves[substr(inv, 1, index(inv, ".") - 1)]) print inv ": its mode doesn't run as the round at " k * period[mode_of[inv]] " begins"
	if (kind == "before")
		for (i = 1; i <= invs; i++)
			if (name[i] != inv && mode_of[name[i]] == mode_of[inv] && stands(name[i], k) && left(name[i], k) > 0) tell(name[i], k)
}
