# Behind path.awk: the modes of a path, and the jobs that must run within an overloaded interval of it. path: its number; from, to,
# demand: as the fault line has them. A job's window is tightened: it begins no earlier than what it waits for can be done, and
# ends early enough for what waits for it. Nothing is said of the jobs where they don't make up the demand.

# Adds the job of an invocation, an outline line, in a mode of that period, for the round that begins at `at`.
function add_job(text, length_, at,    word, n, i, part, offset, k) {
	n = split(text, word, " ")
	k = ++jobs
	name[k] = word[3] "." word[4] "." word[5]
	place[k] = word[2]
	takes[k] = worst[word[3] "." word[5]]
	release[k] = 0
	end[k] = length_
	for (i = 6; i <= n; i++) {
		if (word[i] ~ /:/) {
			split(substr(word[i], 2), part, ":")
			offset = comm_period[part[1]] * part[2]
			if (word[i] ~ /^</ && offset > release[k]) release[k] = offset
			if (word[i] ~ /^>/ && offset < end[k]) end[k] = offset
		} else if (word[i] ~ /^</) {
			waits[k] = waits[k] " " word[3] "." word[4] ":" substr(word[i], 2) ":" at
		} else if (word[i] ~ /^>/) {
			writer[word[3] "." word[4] ":" substr(word[i], 2) ":" at] = k
		}
	}
	early[k] = release[k] += at
	late[k] = end[k] += at
}

# Tightens the windows until nothing changes; there are no cycles, so as many turns as jobs are enough.
function tighten(    turn, k, n, i, port, p, changed) {
	changed = 1
	for (turn = 0; turn <= jobs && changed; turn++) {
		changed = 0
		for (k = 1; k <= jobs; k++) {
			n = split(waits[k], port, " ")
			for (i = 1; i <= n; i++) {
				p = writer[port[i]]
				if (!p) continue
				if (early[p] + takes[p] > early[k]) changed = early[k] = early[p] + takes[p]
				if (late[k] - takes[k] < late[p]) {
					late[p] = late[k] - takes[k]
					changed = 1
				}
			}
		}
	}
}

# The jobs of an invocation in the interval, the first and the last, in one line.
function print_jobs(k, last,    text) {
	text = "line " place[k] ": " name[k] " takes " takes[k]
	if (k == last) text = text " from " release[k] " to " end[k]
	else text = text " in each of " told[name[k]] " rounds, from " release[k] " to " end[k] " in the first and from " release[last] " to " end[last] " in the last"
	if (early[k] != release[k] || late[k] != end[k])
		text = text ", with what it waits for and what waits for it from " early[k] " to " late[k] (k == last ? "" : " in the first")
	print text
}

END {
	if (!choose(path)) exit 1
	for (j = 1; j <= starts; j++)
		for (i = 1; i <= modules; i++) {
			if (!begins(i, j)) continue
			mode = module[i] "." chosen[i, j]
			for (k = 1; k <= invocation_count[mode]; k++) add_job(invocation[mode, k], period[mode], start[j])
		}
	tighten()
	if (modules) print_modes()
	for (k = 1; k <= jobs; k++) {
		if (early[k] < from || late[k] > to) continue
		sum += takes[k]
		if (!told[name[k]]++) first[++names] = k
		last_of[name[k]] = k
	}
	if (sum != demand) exit 0
	for (i = 1; i <= names; i++) print_jobs(first[i], last_of[name[first[i]]])
}
