# Behind lines.awk, refused.awk, windows.awk and rounds.awk, with vcd-signs.awk: the run as a Value Change Dump. A communicator whose values are
# 0 and 1 alone is a wire, another an integer of 64 bits; each mode is a wire, and each module has its mode's name as a string too,
# as GTKWave takes them; each invocation is a wire that is 1 while it runs, with an event where it is done. With a listing there are
# events where a round of a module, a frame or a job's window begins, and where a window ends. One time unit of the dump is one
# tick, of the length `unit`.

# An event where each of some rounds begins, from one instant up to before another.
function rounds(id, length_, a, b,    time) { for (time = multiple(a, length_); time < b; time += length_) change(time, id, 1) }

# How many rounds and frames the run has; more than a reader of the dump wants are left out.
function count_rounds(    m, count) {
	if (frame) count = last / frame
	for (m = 1; m <= items["m"]; m++) if (round_of[m]) count += last / round_of[m]
	if (count <= 100000) return
	print "$comment the rounds are left out, since there are more than 100000 $end"
	frame = 0
	for (m = 1; m <= items["m"]; m++) round_of[m] = 0
}

function values(    c, k, is_wire) {
	print "$scope module values $end"
	for (c = 1; c <= items["v"]; c++) {
		is_wire = least[c] >= 0 && greatest[c] <= 1
		declare(is_wire ? "wire" : "integer", is_wire ? 1 : 64, code(++signals), name_c[c])
		change(0, code(signals), is_wire ? "x" : "bx ")
		for (k = 1; k <= changes[c]; k++) change(at[c, k], code(signals), is_wire ? value[c, k] : "b" bits(value[c, k]) " ")
	}
	print "$upscope $end"
}

function modes(    m, k, first, names, n, round) {
	for (m = 1; m <= items["m"]; m++) {
		print "$scope module " name_m[m] " $end"
		declare("string", 1, first = code(++signals), "mode")
		change(0, first, "s- ")
		n = 0
		for (k = 1; k <= moves[m]; k++) {
			change(when[m, k], first, "s" mode[m, k] " ")
			if (mode[m, k] == "-" || (m, mode[m, k]) in wire) continue
			declare("wire", 1, wire[m, mode[m, k]] = code(++signals), "in_" mode[m, k])
			names[++n] = wire[m, mode[m, k]]
			change(0, names[n], 0)
		}
		if (round_of[m]) round = declare_event("round")
		for (k = 1; k <= moves[m]; k++) {
			if (round_of[m] && mode[m, k] != "-") rounds(round, round_of[m], when[m, k], k < moves[m] ? when[m, k + 1] : last + 1)
			if (k > 1 && mode[m, k - 1] != "-") change(when[m, k], wire[m, mode[m, k - 1]], 0)
			if (mode[m, k] != "-") change(when[m, k], wire[m, mode[m, k]], 1)
		}
		print "$upscope $end"
	}
}

function runs(    j, k, id) {
	print "$scope module jobs $end"
	for (j = 1; j <= items["j"]; j++) {
		declare("wire", 1, id = code(++signals), name_j[j])
		change(0, id, 0)
		for (k = 1; k <= slices[j]; k++) {
			change(from[j, k], id, 1)
			change(upto[j, k], id, 0)
		}
		if (finishes[j]) id = declare_event(name_j[j] ".done")
		for (k = 1; k <= finishes[j]; k++) change(done[j, k], id, 1)
		if (!windows[j]) continue
		id = declare_event(name_j[j] ".released")
		for (k = 1; k <= windows[j]; k++) change(opens[j, k], id, 1)
		id = declare_event(name_j[j] ".due")
		for (k = 1; k <= windows[j] && closes[j, k] <= last; k++) change(closes[j, k], id, 1)
	}
	if (refused_j) change(refused_from < last ? refused_from : last, declare_event("refused"), 1)
	print "$upscope $end"
}

END {
	print "$comment the lines of a run of htl; one unit of time is one tick $end"
	if (refused) print "$comment refused by the audit: line " refused " of the log" (refused_text == "" ? "" : ", " refused_text) ", " refused_for " $end"
	print "$timescale " (unit + 0) " " substr(unit, length(unit + 0 "") + 1) " $end"
	count_rounds()
	values()
	modes()
	if (frame) {
		print "$scope module frames $end"
		rounds(declare_event("frame"), frame, 0, last + 1)
		print "$upscope $end"
	}
	runs()
	print "$enddefinitions $end"
	sort()
	for (i = 1; i <= times; i++) {
		time = time_of[i]
		print "#" time
		if (i == 1) print "$dumpvars"
		for (k = 1; k <= id_count[time]; k++) {
			id = ids[time, k]
			if (is_event[id] || !(id in now) || now[id] "" != taken[time, id] "") print taken[time, id] id
			now[id] = taken[time, id]
		}
		if (i == 1) print "$end"
	}
	if (last > time) print "#" last
}
