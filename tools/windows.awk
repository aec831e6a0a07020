# Behind listing.awk, lines.awk and refused.awk: the lanes of jobs, lane[i], i from 1 to lanes, in the order of the listing where there
# is one; and then the windows of the jobs of invocation j, opens[j, k] to closes[j, k], k from 1 to windows[j], with the ticks that
# its slices have there, used[j, k], and with ready[j, k], when that job was done, where the run tells it. A log that was audited
# doesn't, but it is legal: there a job whose window ended was done with its last slice in it.
# A job has a window in each round that begins in its mode, whether it ran or not: a run's lines of modes say which rounds these are.

function compare(    c, m, k, j) {
	for (c = 1; c <= items["v"]; c++) if (!(name_c[c] in kind)) lacks(name_c[c])
	for (m = 1; m <= items["m"]; m++)
		for (k = 1; k <= moves[m]; k++) if (mode[m, k] != "-" && !((name_m[m] "." mode[m, k]) in period)) lacks(name_m[m] "." mode[m, k])
	for (j = 1; j <= items["j"]; j++) if (!(name_j[j] in is_listed) && refused_for !~ /^(form|unknown)$/) lacks(name_j[j])
	for (j = 1; j <= invs; j++) if (!(mode_of(inv_name[j]) in period)) lacks("the mode of `" inv_name[j] "'")
}

function lacks(name) {
	if (name !~ /`/) name = "`" name "'"
	if (!failed) print "bin/htl: the listing lacks " name ", so it isn't that of the object of the run; bin/htl show OBJECT > LISTING makes it" | "cat 1>&2"
	failed = 1
	exit 1
}

function mode_of(name) {
	sub(/\.[^.]*$/, "", name)
	return name
}

# The windows of an invocation that are released before the end of the run, by the times at which its mode runs; of all of them the
# first 200,000.
function find_windows(j,    part, m, i, start, end) {
	split(name_j[j], part, ".")
	if (!(("m", part[1]) in numbers)) return
	m = numbers["m", part[1]]
	for (i = 1; i <= moves[m]; i++) {
		if (mode[m, i] != part[2]) continue
		end = i < moves[m] && when[m, i + 1] < last ? when[m, i + 1] : last
		for (start = multiple(when[m, i], period[part[1] "." part[2]]); start < end; start += period[part[1] "." part[2]]) {
			if (start + release[name_j[j]] >= last || ++all_windows > 200000) break
			opens[j, ++windows[j]] = start + release[name_j[j]]
			closes[j, windows[j]] = start + window_end[name_j[j]]
		}
	}
}

# Gives the slices and the ends of the jobs to their windows.
function fill_windows(j,    k, s, f, legal) {
	legal = totals ~ /^audited / && !finishes[j]
	s = f = 1
	for (k = 1; k <= windows[j]; k++) {
		for (; s <= slices[j] && from[j, s] < closes[j, k]; s++) {
			if (from[j, s] < opens[j, k] || upto[j, s] > closes[j, k]) outside++
			else used[j, k] += upto[j, s] - from[j, s]
		}
		if (legal && used[j, k] && closes[j, k] <= last) done[j, ++finishes[j]] = upto[j, s - 1]
		for (; f <= finishes[j] && done[j, f] <= closes[j, k]; f++) note_done(j, k, done[j, f])
	}
	if (windows[j]) outside += slices[j] - s + 1
}

# Whether a job never ran, though its window ended.
function is_missing(j, k) { return !used[j, k] && !((j, k) in ready) && closes[j, k] <= judged_to() }

# Whether a job has fewer ticks than it may take, in a log that is short of some.
function is_scarce(j, k) { return refused_for == "short" && !missing && used[j, k] < worst[name_j[j]] && closes[j, k] <= last }

function note_done(j, k, time) {
	ready[j, k] = time
	if (least_left == "" || closes[j, k] - time < least_left) {
		least_left = closes[j, k] - time
		least_of = j
		least_at = k
	}
}

# From where on the lines of a run don't tell who has the processor: a slice that the end cuts off isn't told, where a job is open there.
function find_untold(    i, j, k) {
	untold = last
	if (totals ~ /^(audited|plan) / || refused) return
	for (i = 1; i <= lanes; i++) {
		j = lane[i]
		k = windows[j]
		if (k && closes[j, k] > last && !((j, k) in ready) && opens[j, k] < untold) untold = opens[j, k]
	}
	for (i = 1; i <= lanes && untold < last; i++) if (slices[lane[i]] && upto[lane[i], slices[lane[i]]] > untold) untold = upto[lane[i], slices[lane[i]]]
}

# A lane for each invocation that has something to show.
function find_lanes(    told, i, j, k) {
	told = items["j"] || refused
	for (i = 1; told && i <= invs; i++) {
		find_windows(j = invocation(inv_name[i]))
		fill_windows(j)
		for (k = 1; k <= windows[j]; k++) missing += is_missing(j, k)
		if (windows[j] || slices[j] || finishes[j] || j == refused_j) in_lane[lane[++lanes] = j] = 1
	}
	for (j = 1; j <= items["j"]; j++) if (!(j in in_lane) && (slices[j] || finishes[j] || j == refused_j)) lane[++lanes] = j
}

END {
	if (listed) compare()
	if (asked && !listed) {
		print "bin/htl: the listing has no line; bin/htl show OBJECT > LISTING makes one" | "cat 1>&2"
		failed = 1
	}
	if (failed) exit 1
	find_lanes()
	find_untold()
}
