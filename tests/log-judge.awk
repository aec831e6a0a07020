# Judges logs: over lines `job NAME RELEASE END TICKS BEFORE..` and `end T`; then, where `shown` is 1, the lines of values and
# modes of the run; and then, for each log, `log NAME` and its bytes as numbers. Prints of each its name, the status, what
# is told, and the lines that are written, in the words of tests/damaged.sh.

$1 == "job" {
	job[++jobs] = $2
	release[jobs] = $3
	close_at[jobs] = $4
	ticks[jobs] = $5
	for (i = 6; i <= NF; i++) before[jobs, $i] = 1
	next
}

$1 == "end" { last = $2; next }

shown == 1 { lines = lines $0 "\n"; next }

$1 == "log" { judge(); name = $2; next }

# Bytes that no number, name or blank has are all alike.
{ for (i = 1; i <= NF; i++) text = text ($i == 10 ? "\n" : $i >= 32 && $i < 127 ? sprintf("%c", $i + 0) : "?") }

END { judge() }

function is_instant(field) { return field ~ /^(0|[1-9][0-9]*)$/ && (length(field) < 10 || field == "1000000000") }

function is_form(line) { return line ~ /^j [0-9]+ [0-9]+ [^ ]+$/ && split(line, part, " ") == 4 && is_instant(part[2]) && is_instant(part[3]) }

function is_known(name,    i) {
	for (i = 1; i <= jobs; i++) if (job[i] == name) return 1
	return 0
}

# The job in whose window the slice lies; 0 for none.
function job_of(from, to, name,    i) {
	for (i = 1; i <= jobs; i++) if (job[i] == name && release[i] <= from && to <= close_at[i]) return i
	return 0
}

function waits(one,    i) {
	for (i = 1; i <= jobs; i++) if ((one, i) in before && sum[i] != ticks[i]) return 1
	return 0
}

function kind_of(from, to, name,    one) {
	if (from >= to || from < since || to > last) return "order"
	one = job_of(from, to, name)
	if (!one) return "outside"
	if (sum[one] + to - from > ticks[one]) return "over"
	if (waits(one)) return "before"
	sum[one] += to - from
	since = to
	return ""
}

function fault(    i) {
	for (i = 1; i <= count; i++) if (!is_form(line[i])) return i " form"; else if (!is_known(part[4])) return i " unknown"
	return ""
}

function later_fault(    i, kind) {
	since = 0
	for (i = 1; i <= jobs; i++) sum[i] = 0
	for (i = 1; i <= count; i++) {
		split(line[i], part, " ")
		kind = kind_of(part[2] + 0, part[3] + 0, part[4])
		if (kind != "") return i " " kind
	}
	for (i = 1; i <= jobs; i++) if (close_at[i] <= last && sum[i] < ticks[i]) return count + 1 " short"
	return ""
}

function judge(    i, told, done) {
	if (name == "") return
	count = split(text, line, "\n")
	if (count > 0 && line[count] == "") count--
	told = fault()
	if (told != "") print name ": 13 htl: log " told
	else {
		told = later_fault()
		if (told != "") printf "%s: 13 htl: log %s\n%s", name, told, lines
		else {
			for (i = 1; i <= jobs; i++) done += sum[i] == ticks[i]
			printf "%s: 0 \n%saudited %d jobs %d slices %d\n", name, lines, last, done, count
		}
	}
	text = name = ""
}
