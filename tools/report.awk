# The page of report.sh: with common.awk and the other files report-*.awk. Reads what `check` printed, the listing, what `times` printed,
# what `slack` printed of each task of the first program, plans with their choices of modes, and an outline of the source with its switches,
# where it is given.
# Of module i of the listing: module[i]; of each mode[MODULE, k] the invocations inv_of[MODULE.MODE, q]; of each invocation, inv[i], worst,
# release, window_end and parent; of each of the first program latest[i], by when it is done; busiest, the most ticks that a path asks for.

function escaped(text) {
	gsub(/&/, "\\&amp;", text)
	gsub(/</, "\\&lt;", text)
	gsub(/>/, "\\&gt;", text)
	gsub(/"/, "\\&quot;", text)
	return text
}

function counted(number, word) { return number " " word (number == 1 ? "" : "s") }

function mode_of(name) {
	sub(/\.[^.]*$/, "", name)
	return name
}

function last_of(name) {
	sub(/.*\./, "", name)
	return name
}

function module_of(name) {
	sub(/\..*/, "", name)
	return name
}

reading == "check" && $1 == "accepted" { told_paths = $3 }

reading == "listing" && $1 == "platform" { platform = $2 }

reading == "listing" && ($1 == "comm" || $1 == "sensor") {
	comm[++comms] = $0
	comm_period[$2] = $5
}

reading == "listing" && $1 == "module" {
	module[++modules] = $2
	start_of[$2] = $4
	refines[$2] = $6
	if (NF == 4) root[++roots] = $2
}

reading == "listing" && $1 == "mode" {
	mode[module_of($2), ++mode_count[module_of($2)]] = last_of($2)
	period_of[module_of($2)] = $4
}

reading == "listing" && $1 == "inv" {
	inv[++invs] = $2
	worst[$2] = $4
	release[$2] = $6
	window_end[$2] = $7
	is_abstract[$2] = $8 == "abstract"
	if ($(NF - 1) == "parent") parent[$2] = $NF
	inv_of[mode_of($2), ++inv_count[mode_of($2)]] = $2
}

reading == "listing" && $1 == "E" {
	instr[$2] = $3
	first_operand[$2] = $4
	second_operand[$2] = $5
	third_operand[$2] = $6
	if ($3 == "enter" && !($4 in entered_at)) entered_at[$4] = $2
	instrs++
}

reading == "listing" && $1 == "S" {
	split($2, part, ":")
	list[part[1], part[2]] = $3 " " $4 " " $6
}

reading == "times" && $8 == "done" { latest[$2] = $9 + 0 }
reading == "times" && $1 == "frame" { busiest = $6 + 0 }

reading == "slack" && $1 == "slack" {
	task = $2
	can_take[task] = $6
}
reading == "slack" && $1 == "overload" { above[task] = "path " $2 ": " counted($8, "tick") " asked for from " $4 " to " $6 }
reading == "slack" && $1 == "limit" { above[task] = "the period of its module, " $3 }

reading == "plan" && $1 == "choice" { plans = $2 }
reading == "plan" && $1 == "mode" {
	chosen_text[plans] = chosen_text[plans] ($3 == "-" ? "" : (chosen_text[plans] == "" ? "" : ", ") $2 "." $3)
	if (refines[$2] == "") root_choice[plans] = root_choice[plans] " " $2 "." $3
}
reading == "plan" && $1 == "d" { plan_done[plans, ++plan_dones[plans]] = $3 " " $2 }

reading == "source" && $1 == "mode" { source_mode[$3 "." $4] = 1 }
reading == "source" && $1 == "invoke" {
	source_invs++
	source_inv[$3 "." $4 "." $5] = $0
}
reading == "source" && $1 == "switch" {
	line = $0
	sub(/^switch [^ ]* [^ ]* /, "", line)
	condition[$2, ++switch_count[$2]] = line
	switch_to[$2, switch_count[$2]] = $3
}

function disagree(why) {
	print "bin/htl: " why | "cat 1>&2"
	failed = 1
	exit 1
}

# A source of another object is refused by what it lacks.
function compare_source(    i, k, q, name, edges) {
	for (i = 1; i <= invs; i++) if (!(inv[i] in source_inv)) disagree("the source lacks " inv[i] ", so it isn't that of the object")
	if (source_invs != invs) disagree("the source has " counted(source_invs, "invocation") " and the object " invs ", so it isn't that of the object")
	for (i = 1; i <= modules; i++)
		for (k = 1; k <= mode_count[module[i]]; k++) {
			name = module[i] "." mode[module[i], k]
			if (!(name in source_mode)) disagree("the source lacks " name ", so it isn't that of the object")
			edges = switch_count[name] + 0 == edge_count[name] + 0
			for (q = 1; q <= edge_count[name]; q++) if (switch_to[name, q] != last_of(edge[name, q])) edges = 0
			if (!edges) disagree("the switches of " name " in the source aren't those of the object")
		}
}

END {
	if (failed) exit 1
	find_edges()
	if (sourced) compare_source()
	walk()
	print_head()
	print_times()
	print_modules()
	print_frames()
	print_nodes()
	print_comms()
	print_origins()
	print "</main></body></html>"
}
